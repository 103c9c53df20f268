//! The tested reader: a column is lent where all rungs are the table call's, and nowhere else. And
//! the command's `check`.

mod common;
mod run;

use common::{DERIVATIVE_SLOTS, Generator, VALUE_SLOTS, alike, all_alike, mark, marked, table};
use gozhnerim::Column::{Derivatives, Values};
use gozhnerim::{Function, Held, Ladder, RawState, Refusal, State, rungs_needed, slots_needed};
use run::serve;

/// Whether the branch of a state runs forward, by the documents' words.
fn runs_forward(held: &Held) -> bool {
    let (x, u) = (held.x, held.n as f64 + held.f);
    match (held.function, held.below_zero) {
        (Function::D, false) | (Function::V, true) => true,
        (Function::D, true) => x <= 0.0,
        (Function::V, false) => x < 0.0 && !(x.abs() <= 10.0 && u <= 0.5 * x * x),
    }
}

/// A state and the two tables that its requests left.
#[derive(Clone)]
struct Lent {
    state: State,
    values: Vec<f64>,
    derivatives: Vec<f64>,
}

impl Lent {
    fn new() -> Self {
        Lent {
            state: State::EMPTY,
            values: marked(VALUE_SLOTS + 1),
            derivatives: marked(DERIVATIVE_SLOTS + 1),
        }
    }

    fn after(function: Function, v: f64, x: f64) -> Self {
        let mut lent = Lent::new();
        lent.request(function, v, x).unwrap();
        lent
    }

    fn request(&mut self, function: Function, v: f64, x: f64) -> Result<(), Refusal> {
        let (values, derivatives) = (&mut self.values, &mut self.derivatives);
        self.state.request(function, v, x, values, derivatives)?;
        Ok(())
    }

    /// The same tables with another state.
    fn with(&self, raw: RawState) -> Self {
        let mut lent = self.clone();
        lent.state = State::from_raw(raw);
        lent
    }

    fn n(&self) -> usize {
        self.state.held().map_or(0, |held| held.n)
    }

    /// The refusal for parts of the tables, whichever column is named, or both columns.
    fn read(&self, values: usize, derivatives: usize) -> Result<[&[f64]; 2], Refusal> {
        let (values, derivatives) = (&self.values[..values], &self.derivatives[..derivatives]);
        let columns =
            [Values, Derivatives].map(|which| self.state.tested(values, derivatives, which));
        assert_eq!(columns[0].is_ok(), columns[1].is_ok());
        Ok([columns[0]?, columns[1]?])
    }

    fn refusal(&self) -> Option<Refusal> {
        self.read(self.n() + 1, self.n()).err()
    }
}

/// The rungs of the table call, values 0 to n and derivatives 0 to n − 1.
fn rungs(function: Function, v: f64, x: f64) -> [Vec<f64>; 2] {
    let (n, slots) = (rungs_needed(v).unwrap(), slots_needed(v).unwrap());
    let mut all = marked(slots);
    table(function, v, x, &mut all).unwrap();
    let derivatives = all[slots / 2..slots / 2 + n].to_vec();
    all.truncate(n + 1);
    [all, derivatives]
}

/// A request, often the last one some rungs higher.
fn next(generator: &mut Generator, last: (Function, f64, f64)) -> (Function, f64, f64) {
    if generator.below(2) == 0 {
        let rungs = generator.below(9) as f64;
        return (last.0, last.1 + rungs.copysign(last.1), last.2);
    }
    let limit = generator.one_of(&[4.0, 40.0, 999.0]) as u64;
    let size = generator.below(limit) as f64 + generator.one_of(&[0.0, 0.5, 0.25]);
    let sign = generator.one_of(&[1.0, -1.0]);
    let arguments = [1.5, -2.0, 0.0, -0.0, -5.5, 12.0, -12.0, f64::INFINITY];
    (
        generator.function(),
        sign * size,
        generator.one_of(&arguments),
    )
}

/// One of the slots that hold rungs.
fn any_slot<'a>(lent: &'a mut Lent, generator: &mut Generator) -> &'a mut f64 {
    let n = lent.n() as u64;
    match generator.below(2) {
        0 => &mut lent.values[generator.below(n + 1) as usize],
        _ => &mut lent.derivatives[generator.below(n) as usize],
    }
}

/// What was met, so that each outcome is seen to have come.
#[derive(Debug, Default)]
struct Met {
    lent: usize,
    not_forward: usize,
    differs: usize,
    nan_for_nan: usize,
}

impl Met {
    fn all(&self) -> bool {
        let counts = [self.lent, self.not_forward, self.differs, self.nan_for_nan];
        counts.iter().all(|&count| count > 100)
    }
}

/// Puts something else in a slot: that is refused unless it is alike with what was there.
fn damage(lent: &mut Lent, generator: &mut Generator, met: &mut Met) {
    let slot = any_slot(lent, generator);
    let rung = *slot;
    *slot = match generator.below(5) {
        0 => f64::from_bits(rung.to_bits() ^ (1 << generator.below(64))),
        1 => f64::from_bits(generator.next()),
        2 => mark(5),
        3 => -rung,
        _ => generator.one_of(&[0.0, -0.0, f64::INFINITY, 1.0]),
    };
    let is_alike = alike(rung, *slot);
    met.nan_for_nan += usize::from(is_alike && rung.to_bits() != slot.to_bits());
    let refusal = (!is_alike).then_some(Refusal::RungDiffers);
    met.differs += usize::from(!is_alike);
    assert_eq!(lent.refusal(), refusal, "{:?}", lent.state);
}

#[test]
fn a_column_is_lent_where_all_rungs_are_the_table_calls() {
    let (mut generator, mut met) = (Generator::new(102), Met::default());
    let (mut lent, mut last) = (Lent::new(), (Function::D, 2.5, 1.5));
    for turn in 0..6000 {
        let asked = next(&mut generator, last);
        if lent.request(asked.0, asked.1, asked.2).is_ok() {
            last = asked;
        }
        let n = lent.n();
        if !runs_forward(&lent.state.held().unwrap()) {
            assert_eq!(lent.refusal(), Some(Refusal::NotForward), "turn {turn}");
            met.not_forward += 1;
            continue;
        }
        for (values, derivatives) in [(n + 1, n), (VALUE_SLOTS + 1, DERIVATIVE_SLOTS + 1)] {
            let columns = lent.read(values, derivatives).unwrap();
            assert!(std::ptr::eq(columns[0], &lent.values[..=n]));
            assert!(std::ptr::eq(columns[1], &lent.derivatives[..n]));
        }
        let due = rungs(last.0, last.1, last.2);
        assert!(all_alike(&lent.values[..=n], &due[0]), "turn {turn}");
        assert!(all_alike(&lent.derivatives[..n], &due[1]), "turn {turn}");
        met.lent += 1;
        damage(&mut lent.clone(), &mut generator, &mut met);
    }
    assert!(met.all(), "{met:?}");
}

#[test]
fn refusals_come_in_the_order_6_3_7() {
    let all = (VALUE_SLOTS + 1, DERIVATIVE_SLOTS + 1);
    let mut lent = Lent::after(Function::V, -3.0, 0.5);
    let n = lent.n();
    let lengths = [(n, n), (n + 1, n - 1), (0, n), (n + 1, 0), (0, 0)];
    for damaged in [false, true] {
        for (values, derivatives) in lengths {
            let short = lent.read(values, derivatives);
            assert_eq!(short, Err(Refusal::TableTooShort), "{damaged}");
        }
        assert_eq!(lent.read(n + 1, n).is_err(), damaged);
        lent.values[n] += 1.0;
    }
    assert_eq!(lent.read(all.0, all.1), Err(Refusal::RungDiffers));
    let not_forward = Lent::after(Function::D, -3.5, 1.0);
    for lent in [not_forward, Lent::new()] {
        for (values, derivatives) in lengths.into_iter().chain([all]) {
            let refused = lent.read(values, derivatives);
            assert_eq!(refused, Err(Refusal::NotForward));
        }
    }
}

/// V below 0 without a fraction: rung 2 is x times rung 1. A step over rungs 0 and 1 would come to
/// 0.0 here.
#[test]
fn rung_2_of_v_below_0_has_its_own_formula() {
    let mut lent = Lent::after(Function::V, -2.0, -0.0);
    assert_eq!(lent.values[2].to_bits(), (-0.0_f64).to_bits());
    assert_eq!(lent.refusal(), None);
    lent.values[2] = 0.0;
    assert_eq!(lent.refusal(), Some(Refusal::RungDiffers));
    // With n = 1 there is no rung 2.
    let lent = Lent::after(Function::V, -1e-20, 0.5);
    assert_eq!((lent.n(), lent.read(2, 1).is_ok()), (1, true));
}

/// Rungs 0 and 1 are worked out afresh: all slots doubled follow the same recurrence, and so do the
/// two values in the state.
#[test]
fn the_two_values_of_the_state_play_no_part() {
    let lent = Lent::after(Function::D, 6.25, 1.5);
    let mut doubled = lent.clone();
    for slots in [&mut doubled.values, &mut doubled.derivatives] {
        slots.iter_mut().for_each(|slot| *slot *= 2.0);
    }
    let raw = lent.state.to_raw();
    let changed = RawState {
        value_below: 2.0 * raw.value_below,
        value_top: 2.0 * raw.value_top,
        reserved: [1, u32::MAX, 3],
        ..raw
    };
    for raw in [raw, changed] {
        assert_eq!(lent.with(raw).refusal(), None);
        let refused = doubled.with(raw).refusal();
        assert_eq!(refused, Some(Refusal::RungDiffers));
    }
}

/// Random bits in a field: refusal 6 is given where the state counts as empty or its branch does not
/// run forward, whatever the tables are.
#[test]
fn random_states() {
    let (mut generator, mut counts) = (Generator::new(103), [0; 3]);
    let (v, x) = ([0.25, 4.25, -2.0, -5.25], [-1.5, 1.5, -4.0, 0.0]);
    for _ in 0..20_000 {
        let (v, x) = (generator.one_of(&v), generator.one_of(&x));
        let lent = Lent::after(generator.function(), v, x);
        let mut raw = lent.state.to_raw();
        match generator.below(6) {
            0 => raw.function = generator.below(5) as u32,
            1 => raw.n = generator.below(2003) as u32,
            2 => raw.x = f64::from_bits(generator.next()),
            3 => raw.f = f64::from_bits(generator.next()),
            4 => raw.below_zero = generator.below(3) as u32,
            _ => raw.value_top = f64::from_bits(generator.next()),
        }
        let lent = lent.with(raw);
        let forward = lent.state.held().is_some_and(|held| runs_forward(&held));
        for slots in [0, VALUE_SLOTS] {
            let refused = lent.read(slots, slots).err() == Some(Refusal::NotForward);
            assert_eq!(refused, !forward, "{raw:?}");
        }
        let is_whole = lent.read(VALUE_SLOTS, VALUE_SLOTS).is_ok();
        counts[usize::from(forward) + usize::from(is_whole)] += 1;
    }
    assert!(counts.iter().all(|&count| count > 1000), "{counts:?}");
}

#[test]
fn a_ladder_lends_all_that_it_holds() {
    let mut ladder = Ladder::new();
    assert_eq!(ladder.tested(Values), Err(Refusal::NotForward));
    for v in [2.5, 3.5, 40.5, 700.5, 1.5] {
        ladder.d(v, 1.0).unwrap();
        assert!(std::ptr::eq(
            ladder.tested(Values).unwrap(),
            ladder.values()
        ));
        let derivatives = ladder.tested(Derivatives).unwrap();
        assert!(std::ptr::eq(derivatives, ladder.derivatives()));
    }
    assert!(ladder.d(1000.0, 1.0).is_err() && ladder.tested(Values).is_ok());
    ladder.v(2.5, 1.0).unwrap();
    assert_eq!(ladder.tested(Derivatives), Err(Refusal::NotForward));
    ladder.d(2.5, 1.0).unwrap();
    ladder.clear();
    assert_eq!(ladder.tested(Values), Err(Refusal::NotForward));
}

#[test]
fn rungs_are_checked() {
    let lines = "D 2 0\ncheck\na: V -250.5 3\nD 4 0\ncheck\n a :check \nD NaN 0\ncheck\n\
                 D 999.5 1\ncheck\nV -1 0\ncheck\na: check\n";
    let ran = serve(&[], lines);
    let replies = ran.lines();
    let checked = replies.iter().filter(|reply| reply.starts_with("checked"));
    let expected = [4, 6, 252, 6, 1001, 3, 252].map(|rungs| format!("checked {rungs}"));
    assert_eq!(
        checked.collect::<Vec<_>>(),
        expected.iter().collect::<Vec<_>>()
    );
    assert_eq!((ran.status, replies.len()), (Some(1), 13));
    assert!(replies[6].starts_with("refusal 1: "));
    assert_eq!(serve(&["--bits"], "D 2 0\ncheck\n").lines()[1], "checked 4");
    assert_eq!(serve(&[], "D 2 0\ncheck\n").status, Some(0));
}

/// Nothing is tested then: each of them is told by the exit status too.
#[test]
fn ladders_that_cannot_be_checked() {
    let not_forward = ["D -2.5 1", "V 2.5 1", "V 2.5 12", "V 2.25 -3"];
    for request in not_forward {
        let ran = serve(
            &[],
            format!("D 2 0\na: {request}\na: check\na: {request}\n"),
        );
        assert_eq!((ran.status, ran.err.as_str()), (Some(1), ""), "{request}");
        assert!(ran.lines()[2].starts_with("refusal 6: "), "{request}");
        assert!(ran.lines()[3].ends_with(" 0 repeat"), "{request}");
    }
    for lines in ["a: check\n", "D 2 0\na: check\n", "a: D 2 0\ncheck\n"] {
        let ran = serve(&[], lines);
        assert_eq!(ran.lines().last(), Some(&"not-held"), "{lines}");
        assert_eq!((ran.status, ran.err.as_str()), (Some(1), ""), "{lines}");
    }
    let ran = serve(
        &[],
        "D 2 0\nrelease\ncheck\nrelease\ncheck all\ncheck: D 2 0\ncheck: check\n",
    );
    let expected = ["released", "not-held", "not-held"];
    assert_eq!(ran.lines()[1..4], expected);
    let start = "error line 5: check takes no \"all\"; write the ladder's name in front, as in \
                 `NAME: check`";
    assert_eq!(
        ran.lines()[4..],
        [start, "-1.0 0.0 4 start-over", "checked 4"]
    );
}

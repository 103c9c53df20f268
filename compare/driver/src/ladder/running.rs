//! Runs a list on a ladder and compares each request, and the rungs after the list.

use super::lists::{Lending, List, Request};
use super::machine::Case;
use super::outcome::Held;
use super::rungs::Rungs;
use super::{Point, Reply, State};
use crate::comparing::Difference;
use crate::tables::{Junk, Lent, MARGIN, Split, number_difference};

/// A list at one of its requests.
pub struct Run {
    /// As the ladder handed it back.
    state: State,
    held: Held,
    /// Value table and derivative table.
    pub tables: [Lent; 2],
    /// What was last accepted, if every request since the last start-over got its tables as the
    /// one before left them, none cut shorter. None in a list without start-over.
    pub rungs_of: Option<Point>,
}

/// Runs a list: gives `note` the number of each request, its case and its difference, and tells
/// whether the rungs after the list were compared. A difference of theirs is the last request's.
pub fn run(
    list: &List,
    ladder: impl Fn(State, &Point, [&mut Lent; 2]) -> Reply,
    mut note: impl FnMut(usize, Case, Option<Difference>),
) -> bool {
    let mut run = Run::new(&list.state);
    for (i, request) in list.requests.iter().enumerate() {
        let given = run.state;
        let (case, mut difference) = run.request(request, &ladder);
        if i + 1 == list.requests.len() {
            difference = difference.or_else(|| run.rungs_difference());
        }
        let difference = difference.map(|sides| (request.show(&given), sides));
        note(i, case, difference);
    }
    run.rungs_of.is_some()
}

impl Run {
    pub fn new(state: &State) -> Self {
        Run {
            state: *state,
            held: Held::of(state),
            tables: Default::default(),
            rungs_of: None,
        }
    }

    /// Makes a request and compares it.
    pub fn request(
        &mut self,
        request: &Request,
        ladder: impl Fn(State, &Point, [&mut Lent; 2]) -> Reply,
    ) -> (Case, Option<String>) {
        if !lend(&mut self.tables, request) {
            self.rungs_of = None;
        }
        let found = self.tables.clone();
        let expected = self.held.feed(request, self.state);
        let reply = ladder(self.state, &request.point, self.tables.each_mut());
        self.state = reply.state;
        let case = expected.case;
        let goes_on = matches!(case, Case::Climb(_) | Case::Repeat) && self.rungs_of.is_some();
        if case == Case::StartOver || goes_on {
            self.rungs_of = Some(request.point);
        }
        (case, expected.difference(&reply, &found, &self.tables))
    }

    /// The first rung in the tables that is not the source's.
    pub fn rungs_difference(&self) -> Option<String> {
        let point = self.rungs_of?;
        let n = Split::of(point.v).n;
        let rungs = Rungs::of_source(&point);
        let slot = |name: &str, table: usize, k: usize, rung: f64| {
            let ours = self.tables[table].slots[MARGIN + k];
            (format!("{name} slot {k}"), ours, rung)
        };
        let values = (0..=n).map(|k| slot("value", 0, k, rungs.value(k)));
        let derivatives = (0..n).map(|k| slot("derivative", 1, k, rungs.derivative(k)));
        let difference = number_difference(values.chain(derivatives))?;
        Some(format!("after the list {difference}"))
    }
}

/// Lends value table and derivative table. Gives whether they are as the request before left them,
/// none cut shorter.
pub fn lend(tables: &mut [Lent; 2], request: &Request) -> bool {
    let &Request {
        lengths,
        junk,
        lending,
        ..
    } = request;
    let before = tables.each_ref().map(|table| table.length);
    match lending {
        Lending::Kept => {}
        Lending::Exchanged => tables.swap(0, 1),
        Lending::Overwritten => {
            for table in &mut *tables {
                overwrite(table, junk);
            }
        }
        Lending::Other => *tables = Default::default(),
    }
    let needed = request.point.needed();
    for i in [0, 1] {
        tables[i].lend(lengths[i], needed[i], Junk(junk.0 ^ ((i as u64) << 32)));
        tables[i].is_null = request.nulls[i];
    }
    lending == Lending::Kept && lengths[0] >= before[0] && lengths[1] >= before[1]
}

/// Puts junk into every second slot, those around the table included.
fn overwrite(table: &mut Lent, junk: Junk) {
    let first = (junk.0 >> 60) as usize % 2;
    for k in (first..table.slots.len()).step_by(2) {
        table.slots[k] = junk.slot(k);
    }
}

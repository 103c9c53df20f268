//! A ladder in Rust: a right one, and wrong ones.

use crate::ladder::rungs::{Branch, Rungs};
use crate::ladder::{Point, Reply, State};
use crate::tables::{Kind, Lent, MARGIN, Split};

/// What a wrong ladder does.
#[derive(Clone, Copy, Debug, PartialEq)]
pub enum Fault {
    StartsOverEachTime,
    /// A climb writes the upper slots of a start-over.
    StartsOverInSecret,
    /// A climb writes the lower rungs too.
    RewritesOnAClimb,
    CountsOneForAll,
    /// A climb by one rung answers with the value slot below.
    ReadsTheValueTable,
    /// A repeat answers with the derivative slot.
    ReadsTheDerivativeTable,
    CountsZeroFromEmpty,
    ClimbsFromRungOne,
    ClimbsDownwardBranches,
    ComparesXByValue,
    ComparesFByValue,
    ComparesShiftedOrders,
    TakesTheForwardTestAtTheNewN,
    LeavesTheEqualSquareForward,
    LeavesTheSideOut,
    LeavesTheFunctionOut,
    RewritesOnARepeat,
    WritesSlotTwo,
    LeavesLengthsOutOnARepeat,
    TakesNSlotsForValues,
    ChangesTheStateOnARefusal,
    QuietsANanOnARefusal,
    CountsARefusal,
    AnswersARefusal,
    HoldsAMalformedState,
    CutsNToSixteenBits,
    /// An accepted request hands back what was in `reserved`.
    KeepsReserved,
    ClearsReservedOnARefusal,
    /// A state with anything in `reserved` counts as empty.
    TakesReservedForEmpty,
    TakesOtherFunctionsAsV,
    ClearsOtherFunctionsOnARefusal,
    /// A below_zero above 1 counts as 0.
    TakesBelowZeroTwoAsNoSide,
    /// A repeat hands back the below_zero given.
    KeepsBelowZero,
    CutsBelowZeroOnARefusal,
    KeepsTheOldTop,
    WritesBeyondTheDerivatives,
}

struct Call<'a> {
    fault: Option<Fault>,
    held: State,
    point: Point,
    split: Split,
    tables: [&'a mut Lent; 2],
}

/// Right without a fault.
pub fn ladder(fault: Option<Fault>, held: State, point: &Point, tables: [&mut Lent; 2]) -> Reply {
    let mut held = held;
    if fault == Some(Fault::CutsNToSixteenBits) {
        held.n &= 0xffff;
    }
    let mut call = Call {
        fault,
        held,
        point: *point,
        split: Split::of(point.v),
        tables,
    };
    match call.refusal() {
        0 => call.accepted(),
        refusal => call.refused(refusal),
    }
}

/// By the bits. No request's x or f is NaN, so that a state's that is NaN is never the same.
fn equal([held, asked]: [f64; 2], by_value: bool) -> bool {
    held.to_bits() == asked.to_bits() || (by_value && held == asked)
}

impl Call<'_> {
    fn has(&self, fault: Fault) -> bool {
        self.fault == Some(fault)
    }

    fn slot(&mut self, table: usize, k: usize) -> &mut f64 {
        &mut self.tables[table].slots[MARGIN + k]
    }

    fn refusal(&self) -> u32 {
        let Point { v, x, .. } = self.point;
        let n = self.split.n;
        let [values, derivatives] = [0, 1].map(|i| self.tables[i].length);
        let one_more = usize::from(!self.has(Fault::TakesNSlotsForValues));
        if v.is_nan() || x.is_nan() {
            1
        } else if v.abs() >= 1000.0 {
            2
        } else if self.has(Fault::LeavesLengthsOutOnARepeat) && self.is_repeat() {
            0
        } else if values < n + one_more || derivatives < n {
            3
        } else {
            0
        }
    }

    fn refused(&mut self, refusal: u32) -> Reply {
        let mut state = self.held;
        if self.has(Fault::ChangesTheStateOnARefusal) {
            state.x = self.point.x;
        }
        if self.has(Fault::QuietsANanOnARefusal) {
            state.value_top += 0.0;
        }
        if self.has(Fault::ClearsReservedOnARefusal) {
            state.reserved = [0; 3];
        }
        if self.has(Fault::ClearsOtherFunctionsOnARefusal) && state.function > 2 {
            state.function = 0;
        }
        if self.has(Fault::CutsBelowZeroOnARefusal) {
            state.below_zero = state.below_zero.min(1);
        }
        let is_answered = self.has(Fault::AnswersARefusal);
        Reply {
            state,
            refusal,
            written: u32::from(self.has(Fault::CountsARefusal)),
            value: f64::NAN,
            derivative: if is_answered { 0.0 } else { f64::NAN },
        }
    }

    fn accepted(&mut self) -> Reply {
        if self.is_repeat() {
            self.repeat()
        } else if self.is_climb() {
            self.climb()
        } else {
            self.start_over()
        }
    }

    fn has_same_function_side_and_x(&self) -> bool {
        let Call { held, point, .. } = self;
        let mut function = held.function;
        if self.has(Fault::TakesOtherFunctionsAsV) && function != Kind::D as u32 {
            function = Kind::V as u32;
        }
        let kind = function == point.kind as u32 || self.has(Fault::LeavesTheFunctionOut);
        let is_below = held.below_zero == 1
            || (held.below_zero > 1 && !self.has(Fault::TakesBelowZeroTwoAsNoSide));
        let side = is_below == (point.v < 0.0) || self.has(Fault::LeavesTheSideOut);
        let x = equal([held.x, point.x], self.has(Fault::ComparesXByValue));
        let is_empty = self.has(Fault::StartsOverEachTime)
            || (self.has(Fault::TakesReservedForEmpty) && held.reserved != [0; 3]);
        kind && side && x && !is_empty
    }

    fn has_same_f(&self) -> bool {
        let f = [self.held.f, self.split.f];
        equal(f, self.has(Fault::ComparesFByValue))
    }

    fn is_repeat(&self) -> bool {
        let State { n, f, .. } = self.held;
        let same_u = f64::from(n) + f == self.split.u.abs();
        let same_n = n as usize == self.split.n && self.has_same_f();
        let same = same_n || (same_u && self.has(Fault::ComparesShiftedOrders));
        same && self.has_same_function_side_and_x()
    }

    fn is_climb(&self) -> bool {
        let n = self.held.n as usize;
        let least = match self.fault {
            Some(Fault::HoldsAMalformedState) => 0,
            Some(Fault::ClimbsFromRungOne) => 1,
            _ => 2,
        };
        let same = self.has_same_f() && self.has_same_function_side_and_x();
        n >= least && n < self.split.n && same && self.is_forward()
    }

    fn is_forward(&self) -> bool {
        let State { n, f, x, .. } = self.held;
        let is_new = self.has(Fault::TakesTheForwardTestAtTheNewN);
        let u = if is_new {
            self.split.u
        } else {
            f64::from(n) + f
        };
        let half_square = 0.5 * x * x;
        let is_above =
            u > half_square || (u == half_square && self.has(Fault::LeavesTheEqualSquareForward));
        let is_forward = match (self.point.kind, self.point.v < 0.0) {
            (Kind::D, false) | (Kind::V, true) => true,
            (Kind::D, true) => x <= 0.0,
            (Kind::V, false) => x < 0.0 && (x < -10.0 || is_above),
        };
        is_forward || self.has(Fault::ClimbsDownwardBranches)
    }

    fn reply(&self, written: usize, top: [f64; 2], derivative: f64) -> Reply {
        let is_one = self.has(Fault::CountsOneForAll);
        let mut state = Branch::of(&self.point).state(self.split.n, top);
        if self.has(Fault::KeepsReserved) {
            state.reserved = self.held.reserved;
        }
        if self.has(Fault::KeepsBelowZero) && written == 0 {
            state.below_zero = self.held.below_zero;
        }
        Reply {
            state,
            refusal: 0,
            written: if is_one { 1 } else { written as u32 },
            value: top[0],
            derivative,
        }
    }

    fn repeat(&mut self) -> Reply {
        let n = self.split.n;
        let State {
            value_below,
            value_top,
            ..
        } = self.held;
        let mut derivative = Branch::of(&self.point).derivative(n - 1, value_below, value_top);
        if self.has(Fault::RewritesOnARepeat) {
            *self.slot(0, n - 1) = value_below;
            *self.slot(1, n - 1) = derivative;
        }
        if self.has(Fault::ReadsTheDerivativeTable) {
            derivative = *self.slot(1, n - 1);
        }
        self.reply(0, [value_below, value_top], derivative)
    }

    fn climb(&mut self) -> Reply {
        let (held, n) = (self.held.n as usize, self.split.n);
        let branch = Branch::of(&self.point);
        let State {
            mut value_below,
            mut value_top,
            ..
        } = self.held;
        if self.has(Fault::StartsOverInSecret) {
            let rungs = Rungs::of_source(&self.point);
            (value_below, value_top) = (rungs.value(held - 1), rungs.value(held));
        }
        if self.has(Fault::ReadsTheValueTable) && n == held + 1 {
            value_top = *self.slot(0, held);
        }
        let mut derivative = f64::NAN;
        for k in held + 1..=n {
            let next = branch.value(k, value_below, value_top);
            derivative = branch.derivative(k - 1, value_top, next);
            *self.slot(0, k) = next;
            *self.slot(1, k - 1) = derivative;
            (value_below, value_top) = (value_top, next);
        }
        if self.has(Fault::RewritesOnAClimb) {
            self.start_over();
        }
        let mut reply = self.reply(n - held, [value_below, value_top], derivative);
        if self.has(Fault::KeepsTheOldTop) {
            reply.state.value_top = self.held.value_top;
        }
        reply
    }

    fn start_over(&mut self) -> Reply {
        let n = self.split.n;
        let rungs = Rungs::of_source(&self.point);
        for k in 0..=n {
            *self.slot(0, k) = rungs.value(k);
        }
        for k in 0..n {
            *self.slot(1, k) = rungs.derivative(k);
        }
        if self.has(Fault::WritesSlotTwo) && self.split.writes_slot_2(self.point.kind) {
            *self.slot(0, 2) = self.point.x * rungs.value(1);
        }
        if self.has(Fault::WritesBeyondTheDerivatives) {
            *self.slot(1, n) = 0.0;
        }
        let is_zero = self.has(Fault::CountsZeroFromEmpty) && self.held.n == 0;
        let written = if is_zero { 0 } else { n + 1 };
        self.reply(
            written,
            [rungs.value(n - 1), rungs.value(n)],
            rungs.derivative(n - 1),
        )
    }
}

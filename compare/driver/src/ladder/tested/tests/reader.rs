//! A reader in Rust: a right one, and wrong ones.

use crate::comparing::Comparable;
use crate::ladder::State;
use crate::ladder::machine::LARGEST;
use crate::ladder::rungs::Branch;
use crate::ladder::tested::Part;
use crate::ladder::tested::steps::{Steps, has_its_own_rung_2, step};
use crate::tables::{Kind, Lent, MARGIN};

/// What a wrong reader does.
#[derive(Clone, Copy, Debug, PartialEq)]
pub enum Fault {
    /// Values are tested to n − 1.
    StopsBelowTheTop,
    StopsBelowTheLastDerivative,
    LeavesDerivativesOutForValues,
    LeavesValuesOutForDerivatives,
    /// Slots 0 and 1 are tested against nothing.
    TakesTheStartFromTheTable,
    TakesSlotOneFromTheTable,
    /// Slot 2 of V below 0 with f = 0 is tested against nothing.
    TakesRungTwoFromTheTable,
    /// Slot 2 of V below 0 with f = 0 is tested by a recurrence step.
    StepsToRungTwo,
    /// Slot 2 of V below 0 with f = 0 is tested at n = 1 too.
    TestsRungTwoAtOne,
    /// −0.0 is no f = 0.
    ComparesTheBitsOfF,
    ComparesByValue,
    ComparesBits,
    /// 3 before 6.
    TestsLengthsFirst,
    /// 7 before 3.
    TestsRungsBeforeLengths,
    LeavesLengthsOut,
    TakesNSlotsForValues,
    TakesOneDerivativeLess,
    NeedsOneDerivativeMore,
    TestsSlotsBeyond,
    /// Value n is tested against the state's.
    TakesTheTopFromTheState,
    /// Value n is tested against the state's too.
    TestsTheTopOfTheState,
    LeavesTheForwardTestOut,
    LeavesTheSquareOut,
    LeavesTheEqualSquareForward,
    /// The forward test is made with n for u.
    LeavesFOutOfU,
    /// The forward test of V is made as that of D: at x = 0 it is forward.
    TakesZeroForForward,
    HoldsNZero,
    HoldsNAboveTheLargest,
    HoldsANanArgument,
    HoldsANanF,
    HoldsFOfOne,
    CutsNToSixteenBits,
    TakesOtherFunctionsAsV,
    TakesBelowZeroTwoAsNoSide,
    TakesReservedForEmpty,
    RefusesOtherColumns,
    LendsDerivativesForOtherColumns,
    CutsTheColumnToEightBits,
    LendsNValues,
    LendsAllSlots,
    LendsBesideARefusal,
    WritesASlot,
}

struct Call<'a> {
    fault: Option<Fault>,
    held: State,
    /// Value table and derivative table, with the slots behind those lent.
    slots: [&'a [f64]; 2],
    lengths: [usize; 2],
    which: u32,
}

/// Right without a fault.
pub fn reader(
    fault: Option<Fault>,
    mut held: State,
    tables: [&mut Lent; 2],
    mut which: u32,
) -> Part {
    if fault == Some(Fault::CutsNToSixteenBits) {
        held.n &= 0xffff;
    }
    if fault == Some(Fault::CutsTheColumnToEightBits) {
        which &= 0xff;
    }
    let part = Call {
        fault,
        held,
        slots: tables.each_ref().map(|table| &table.slots[MARGIN..]),
        lengths: tables.each_ref().map(|table| table.length),
        which,
    }
    .part();
    if fault == Some(Fault::WritesASlot) && part.refusal == 7 {
        let [values, _] = tables;
        values.slots[MARGIN] = 0.25;
    }
    part
}

impl Call<'_> {
    fn has(&self, fault: Fault) -> bool {
        self.fault == Some(fault)
    }

    fn n(&self) -> usize {
        self.held.n as usize
    }

    fn part(&self) -> Part {
        let order = match self.fault {
            Some(Fault::TestsLengthsFirst) => [3, 6, 7],
            Some(Fault::TestsRungsBeforeLengths) => [6, 7, 3],
            _ => [6, 3, 7],
        };
        let refusal = order.into_iter().find(|&refusal| match refusal {
            6 => self.is_empty() || !self.is_forward(),
            3 => self.is_short(),
            _ => self.differs(),
        });
        let length = match refusal {
            None => self.length(),
            Some(_) if self.has(Fault::LendsBesideARefusal) => self.length(),
            Some(_) => 0,
        };
        let is_other = self.has(Fault::RefusesOtherColumns) && ![1, 2].contains(&self.which);
        Part {
            refusal: refusal.unwrap_or(if is_other { 3 } else { 0 }),
            length,
        }
    }

    fn length(&self) -> usize {
        let n = self.n();
        match self.which {
            1 if self.has(Fault::LendsAllSlots) => self.lengths[0],
            1 if self.has(Fault::LendsNValues) => n,
            1 => n + 1,
            2 => n,
            _ if self.has(Fault::LendsDerivativesForOtherColumns) => n,
            _ => 0,
        }
    }

    fn is_empty(&self) -> bool {
        let State {
            function,
            n,
            reserved,
            x,
            f,
            ..
        } = self.held;
        let is_other = ![1, 2].contains(&function) && !self.has(Fault::TakesOtherFunctionsAsV);
        let n_is_off = (n == 0 && !self.has(Fault::HoldsNZero))
            || (n > LARGEST as u32 && !self.has(Fault::HoldsNAboveTheLargest));
        let is_nan = (x.is_nan() && !self.has(Fault::HoldsANanArgument))
            || (f.is_nan() && !self.has(Fault::HoldsANanF));
        let f_is_off = f.abs() >= 1.0 && !self.has(Fault::HoldsFOfOne);
        let reserved = reserved != [0; 3] && self.has(Fault::TakesReservedForEmpty);
        is_other || n_is_off || is_nan || f_is_off || reserved
    }

    fn branch(&self) -> Branch {
        let State {
            function,
            below_zero,
            x,
            f,
            ..
        } = self.held;
        let is_below =
            below_zero == 1 || (below_zero > 1 && !self.has(Fault::TakesBelowZeroTwoAsNoSide));
        Branch {
            kind: if function == 1 { Kind::D } else { Kind::V },
            below_zero: is_below,
            x,
            f,
        }
    }

    fn is_forward(&self) -> bool {
        let Branch {
            kind,
            below_zero,
            x,
            f,
        } = self.branch();
        if self.has(Fault::LeavesTheForwardTestOut) {
            return true;
        }
        let n = self.n() as f64;
        let u = if self.has(Fault::LeavesFOutOfU) {
            n
        } else {
            n + f
        };
        let square = 0.5 * x * x;
        let is_above = u > square
            || self.has(Fault::LeavesTheSquareOut)
            || (u == square && self.has(Fault::LeavesTheEqualSquareForward));
        match (kind, below_zero) {
            (Kind::D, false) | (Kind::V, true) => true,
            (Kind::D, true) => x <= 0.0,
            (Kind::V, false) if x == 0.0 => self.has(Fault::TakesZeroForForward),
            (Kind::V, false) => x < 0.0 && (x < -10.0 || is_above),
        }
    }

    fn is_short(&self) -> bool {
        let n = self.n();
        let values = n + usize::from(!self.has(Fault::TakesNSlotsForValues));
        let derivatives = match self.fault {
            Some(Fault::TakesOneDerivativeLess) => n - 1,
            Some(Fault::NeedsOneDerivativeMore) => n + 1,
            _ => n,
        };
        let is_short = self.lengths[0] < values || self.lengths[1] < derivatives;
        is_short && !self.has(Fault::LeavesLengthsOut)
    }

    /// Whether a rung differs. Those that no slot is there for do.
    fn differs(&self) -> bool {
        let n = self.n();
        if n == 0 || self.slots[0].len() <= n || self.slots[1].len() < n {
            return true;
        }
        let leaves_out = |which, fault| self.which == which && self.has(fault);
        let values = !leaves_out(2, Fault::LeavesValuesOutForDerivatives) && self.values_differ();
        let derivatives =
            !leaves_out(1, Fault::LeavesDerivativesOutForValues) && self.derivatives_differ();
        values || derivatives
    }

    fn values_differ(&self) -> bool {
        let n = self.n();
        let start = Steps::of(self.start_branch()).rungs(1);
        let last = match self.fault {
            Some(Fault::StopsBelowTheTop) => n - 1,
            Some(Fault::TestsSlotsBeyond) => self.lengths[0].max(n + 1) - 1,
            Some(Fault::TestsRungTwoAtOne) if has_its_own_rung_2(&self.branch()) => n.max(2),
            Some(Fault::TestsRungsBeforeLengths) => n.min(self.lengths[0].max(1) - 1),
            _ => n,
        };
        let value = |k: usize| match k {
            0 | 1 if self.is_taken_from_the_table(k) => self.slots[0][k],
            0 | 1 => start[0][k],
            _ => self.step(k),
        };
        let is_top_off = self.has(Fault::TestsTheTopOfTheState)
            && self.differ(self.slots[0][n], self.held.value_top);
        is_top_off || (0..=last).any(|k| self.differ(self.slots[0][k], value(k)))
    }

    /// The branch that the start rungs are worked out for.
    fn start_branch(&self) -> Branch {
        let branch = self.branch();
        let is_negative = branch.f == 0.0 && branch.f.is_sign_negative();
        if is_negative && self.has(Fault::ComparesTheBitsOfF) {
            // The sums of an order at 0.
            return Branch {
                f: -5e-324,
                ..branch
            };
        }
        branch
    }

    fn is_taken_from_the_table(&self, k: usize) -> bool {
        self.has(Fault::TakesTheStartFromTheTable)
            || (k == 1 && self.has(Fault::TakesSlotOneFromTheTable))
    }

    fn step(&self, k: usize) -> f64 {
        let (branch, values) = (self.branch(), self.slots[0]);
        if k == self.n() && self.has(Fault::TakesTheTopFromTheState) {
            return self.held.value_top;
        }
        if k == 2 && has_its_own_rung_2(&branch) {
            if self.has(Fault::TakesRungTwoFromTheTable) {
                return values[2];
            }
            if self.has(Fault::StepsToRungTwo) {
                return branch.value(2, values[0], values[1]);
            }
        }
        step(&branch, k, values)
    }

    fn derivatives_differ(&self) -> bool {
        let [values, derivatives] = self.slots;
        let branch = self.branch();
        let many = match self.fault {
            Some(Fault::StopsBelowTheLastDerivative) => self.n() - 1,
            Some(Fault::TestsRungsBeforeLengths) => self.n().min(self.lengths[1]),
            _ => self.n(),
        };
        let derivative = |k: usize| branch.derivative(k, values[k], values[k + 1]);
        (0..many).any(|k| self.differ(derivatives[k], derivative(k)))
    }

    fn differ(&self, slot: f64, rung: f64) -> bool {
        match self.fault {
            Some(Fault::ComparesByValue) => slot != rung,
            Some(Fault::ComparesBits) => slot.to_bits() != rung.to_bits(),
            _ => !slot.alike(&rung),
        }
    }
}

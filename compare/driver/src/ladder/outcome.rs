//! What a ladder must answer, hand back and leave in the tables, and where it does not.

use super::lists::Request;
use super::machine::{Case, Machine};
use super::rungs::{Branch, Rungs};
use super::{Point, Reply, State, case_told};
use crate::tables::{Lent, Split, number_difference, slot_difference, whole_difference};

/// What a ladder holds by the scope paper.
pub struct Held {
    machine: Machine,
    /// Values n − 1 and n.
    top: [f64; 2],
    /// Whether the two values are the source's. If not, they are those of a state handed in from
    /// elsewhere, or carried on from them.
    is_of_source: bool,
}

/// What a request must be answered, and what must be in the slots of value table and derivative
/// table: None where the slot stays as found. The slots beyond stay as found too.
pub struct Expected {
    pub case: Case,
    pub reply: Reply,
    pub slots: [Vec<Option<f64>>; 2],
}

impl Held {
    pub fn of(state: &State) -> Self {
        Held {
            machine: Machine::of(state),
            top: [state.value_below, state.value_top],
            is_of_source: false,
        }
    }

    /// What is expected of the next request, given the state `handed_in`. It is then held.
    pub fn feed(&mut self, request: &Request, handed_in: State) -> Expected {
        let Request { point, lengths, .. } = request;
        let case = self.machine.feed(point, *lengths);
        let n = Split::of(point.v).n;
        let rungs = match case {
            Case::Refused(refusal) => return Expected::refused(refusal, handed_in),
            Case::StartOver => Rungs::of_source(point),
            _ if self.is_of_source => Rungs::of_source(point),
            Case::Climb(held) => Rungs::carried_on(point, held, self.top),
            Case::Repeat => Rungs::carried_on(point, n, self.top),
        };
        self.is_of_source |= case == Case::StartOver;
        self.top = [rungs.value(n - 1), rungs.value(n)];
        Expected::accepted(case, point, &rungs)
    }
}

impl Expected {
    fn refused(refusal: u32, handed_in: State) -> Self {
        let reply = Reply {
            state: handed_in,
            refusal,
            written: 0,
            value: f64::NAN,
            derivative: f64::NAN,
        };
        Expected {
            case: Case::Refused(refusal),
            reply,
            slots: [vec![], vec![]],
        }
    }

    fn accepted(case: Case, point: &Point, rungs: &Rungs) -> Self {
        let n = Split::of(point.v).n;
        let top = [rungs.value(n - 1), rungs.value(n)];
        let reply = Reply {
            state: Branch::of(point).state(n, top),
            refusal: 0,
            written: case.written(n) as u32,
            value: rungs.value(n - 1),
            derivative: rungs.derivative(n - 1),
        };
        let (values, derivatives) = (case.values(n), case.derivatives(n));
        let value = |k| values.contains(&k).then(|| rungs.value(k));
        let derivative = |k| derivatives.contains(&k).then(|| rungs.derivative(k));
        Expected {
            case,
            reply,
            slots: [
                (0..=n).map(value).collect(),
                (0..n).map(derivative).collect(),
            ],
        }
    }

    /// The first difference of a reply and of the two tables that are left.
    pub fn difference(&self, reply: &Reply, found: &[Lent; 2], left: &[Lent; 2]) -> Option<String> {
        let rust = &self.reply;
        let pair = [
            ("value", reply.value, rust.value),
            ("derivative", reply.derivative, rust.derivative),
        ];
        let slot = |(i, name): (usize, &str)| {
            let slot = slot_difference(&found[i].slots, &left[i].slots, &self.slots[i])?;
            Some(format!("{name} {slot}"))
        };
        whole_difference("refusal", reply.refusal, rust.refusal)
            .or_else(|| whole_difference("written", reply.written, rust.written))
            .or_else(|| number_difference(pair))
            .or_else(|| self.state_difference(&reply.state))
            .or_else(|| whole_difference("case", case_told(reply), self.case.number_in_c()))
            .or_else(|| [(0, "value"), (1, "derivative")].into_iter().find_map(slot))
    }

    fn state_difference(&self, ours: &State) -> Option<String> {
        let Reply { state, refusal, .. } = &self.reply;
        if *refusal == 0 {
            ours.difference(state)
        } else {
            ours.change(state)
        }
    }
}

//! A ladder at one place of a list: its state, its tables, and what they must hold.

use super::steps::Steps;
use super::wanted::{Wanted, branch, of_the_table};
use crate::ladder::lists::List;
use crate::ladder::machine::{Case, LARGEST, Machine, Record};
use crate::ladder::rungs::Branch;
use crate::ladder::running::lend;
use crate::ladder::{Point, Reply, State};
use crate::tables::{Junk, Kind, Lent};

pub struct Subject {
    pub state: State,
    pub wanted: Wanted,
    pub branch: Branch,
    /// Values 0 to n and derivatives 0 to n − 1 that pass, or where none do, those of the request
    /// last accepted or of a state like this one.
    pub rungs: [Vec<f64>; 2],
    /// Value table and derivative table as the list left them.
    pub left: [Lent; 2],
}

impl Subject {
    /// After the first `requests` of the list, made on a ladder.
    pub fn after(
        list: &List,
        requests: usize,
        ladder: impl Fn(State, &Point, [&mut Lent; 2]) -> Reply,
    ) -> Self {
        let (mut state, mut machine) = (list.state, Machine::of(&list.state));
        // The request last accepted, in a ladder that has started over.
        let mut last = None;
        let mut left = Default::default();
        for request in &list.requests[..requests] {
            lend(&mut left, request);
            state = ladder(state, &request.point, left.each_mut()).state;
            last = match machine.feed(&request.point, request.lengths) {
                Case::StartOver => Some(request.point),
                Case::Climb(_) | Case::Repeat => last.map(|_| request.point),
                Case::Refused(_) => last,
            };
        }
        let (wanted, record) = match last {
            Some(point) => (Wanted::of_requests(&machine, &point), machine.held),
            None => (Wanted::of_fields(&state), Machine::of(&state).held),
        };
        let record = record.unwrap_or_else(|| mended(&state));
        let mut subject = Subject {
            state,
            branch: branch(&record),
            rungs: rungs(&wanted, last.as_ref(), &record),
            wanted,
            left,
        };
        subject.make_room();
        subject
    }

    /// Puts so many slots around the tables left that a reader of the state's rungs stays within
    /// them.
    fn make_room(&mut self) {
        for (table, rungs) in self.left.iter_mut().zip(&self.rungs) {
            table.lend(table.length, rungs.len(), Junk(1));
        }
    }
}

fn rungs(wanted: &Wanted, last: Option<&Point>, record: &Record) -> [Vec<f64>; 2] {
    match (wanted, last) {
        (Wanted::OfTheTable(rungs), _) => rungs.clone(),
        (Wanted::BySteps(steps, n), _) => steps.rungs(*n),
        (Wanted::NotForward, Some(point)) => of_the_table(point, record.n),
        (Wanted::NotForward, None) => Steps::of(branch(record)).rungs(record.n),
    }
}

/// Of a state like one that counts as empty. An n is taken without its upper bits.
fn mended(state: &State) -> Record {
    let State {
        function, n, x, f, ..
    } = *state;
    let is_of_d = function == Kind::D as u32;
    let mended = State {
        function: if is_of_d { Kind::D } else { Kind::V } as u32,
        n: (n % (1 << 16)).clamp(1, LARGEST as u32),
        x: if x.is_nan() { 1.0 } else { x },
        f: if f.abs() < 1.0 { f } else { 0.0 },
        ..*state
    };
    let machine = Machine::of(&mended);
    machine.held.expect("it does not count as empty")
}

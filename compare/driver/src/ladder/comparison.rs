//! The comparison of lists of requests, and its counts.

use super::lists::List;
use super::machine::{Case, Machine};
use super::{Point, Reply, State, running};
use crate::comparing::{Line, Tally};
use crate::tables::Lent;

/// What was compared so far.
pub struct Comparison {
    pub line: Line<'static>,
    /// The requests of each case.
    cases: [usize; Case::NAMES.len()],
    lists: usize,
    /// Of states handed in, how many count as empty. None if all lists begin with the empty state.
    handed_in: Option<usize>,
    /// The lists after which the rungs were compared.
    with_rungs: usize,
}

impl Comparison {
    pub fn from_empty() -> Self {
        Self::new("ladder from empty", None)
    }

    pub fn from_elsewhere() -> Self {
        Self::new("ladder from handed-in states", Some(0))
    }

    fn new(name: &'static str, handed_in: Option<usize>) -> Self {
        Comparison {
            line: Line::new(name),
            cases: Default::default(),
            lists: 0,
            handed_in,
            with_rungs: 0,
        }
    }

    /// Runs the lists on a ladder.
    pub fn run(
        &mut self,
        lists: impl Iterator<Item = List>,
        ladder: impl Fn(State, &Point, [&mut Lent; 2]) -> Reply,
    ) {
        for list in lists {
            self.lists += 1;
            if let Some(empty) = &mut self.handed_in {
                *empty += usize::from(Machine::of(&list.state).held.is_none());
            }
            let number = self.lists;
            let has_rungs = running::run(&list, &ladder, |i, case, difference| {
                self.cases[case.number()] += 1;
                self.line.count(difference.map(|(request, sides)| {
                    let place = format!("list {number}, request {}", i + 1);
                    (format!("{place}: {request}"), sides)
                }));
            });
            self.with_rungs += usize::from(has_rungs);
        }
    }

    /// Prints the line of the requests, how many were of each case, how many lists or states handed
    /// in there were, and after how many lists the rungs were compared.
    pub fn finish(&self, tally: &mut Tally) {
        tally.add(&self.line);
        let cases = Case::NAMES.iter().zip(self.cases);
        let cases: Vec<_> = cases.map(|(name, many)| format!("{many} {name}")).collect();
        println!("  {}", cases.join(", "));
        let (states, with_rungs) = (self.states(), self.with_rungs);
        println!("  {states}; rungs compared after {with_rungs} lists");
    }

    /// How many lists or states handed in there were.
    pub fn states(&self) -> String {
        let lists = self.lists;
        match self.handed_in {
            None => format!("{lists} lists"),
            Some(empty) => format!("{lists} states handed in, {empty} of them counted as empty"),
        }
    }
}

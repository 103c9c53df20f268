//! The comparison of readings, and its counts.

use super::damage::{OF_LENGTHS, OF_RUNGS};
use super::reading::Reading;
use super::subject::Subject;
use super::wanted::Wanted;
use super::{Part, SEED};
use crate::comparing::{Line, Tally};
use crate::inputs::Draw;
use crate::ladder::lists::List;
use crate::ladder::{Point, Reply, State};
use crate::tables::Lent;

/// The numbers that are answered, by name.
const ANSWERS: [(u32, &str); 4] = [
    (0, "columns lent"),
    (3, "refusals 3"),
    (6, "refusals 6"),
    (7, "refusals 7"),
];
/// Kinds of readings beside those with a change: of the tables as the list left them, and of right
/// rungs.
const LEFT: &str = "tables as left";
const RIGHT: &str = "right rungs";

/// What was compared so far.
pub struct Comparison {
    pub line: Line<'static>,
    draw: Draw,
    /// Whether the lists begin with states handed in.
    is_handed_in: bool,
    lists: usize,
    /// How many lists led to a state that does not count as empty and whose branch runs forward.
    forward: usize,
    /// How often each answer was expected of the readings of each kind.
    pub met: Vec<(&'static str, [usize; ANSWERS.len()])>,
}

impl Comparison {
    pub fn from_empty(seed: u64) -> Self {
        Self::new("tested reader from empty", false, seed)
    }

    pub fn from_elsewhere(seed: u64) -> Self {
        Self::new("tested reader from handed-in states", true, seed)
    }

    fn new(name: &'static str, is_handed_in: bool, seed: u64) -> Self {
        let changes = OF_LENGTHS.iter().chain(&OF_RUNGS).map(|(name, _)| *name);
        let kinds = [LEFT, RIGHT].into_iter().chain(changes);
        Comparison {
            line: Line::new(name),
            draw: Draw::new(seed ^ SEED),
            is_handed_in,
            lists: 0,
            forward: 0,
            met: kinds.map(|kind| (kind, Default::default())).collect(),
        }
    }

    /// Makes `count` readings with a reader after lists on a ladder, as many of each list as there
    /// are kinds.
    pub fn run(
        &mut self,
        lists: impl Iterator<Item = List>,
        count: usize,
        ladder: impl Fn(State, &Point, [&mut Lent; 2]) -> Reply,
        reader: impl Fn(State, [&mut Lent; 2], u32) -> Part,
    ) {
        let limit = self.line.inputs + count;
        for list in lists {
            if self.line.inputs == limit {
                break;
            }
            self.lists += 1;
            let requests = self.requests(&list);
            let subject = Subject::after(&list, requests, &ladder);
            self.forward += usize::from(!matches!(subject.wanted, Wanted::NotForward));
            let mut readings = self.readings(&subject);
            readings.truncate(limit - self.line.inputs);
            for (kind, reading) in readings {
                let (expected, difference) = reading.compare(&subject.wanted, &reader);
                self.meet(kind, &expected);
                let place = format!("list {} after {requests} requests, {kind}", self.lists);
                let shown = |sides| (format!("{place}: {}", reading.show()), sides);
                self.line.count(difference.map(shown));
            }
        }
    }

    /// How many requests of a list come before its readings. None in half of the lists whose states
    /// are handed in.
    fn requests(&mut self, list: &List) -> usize {
        let all = list.requests.len();
        match self.draw.below(32) {
            0 => 0,
            1..17 if self.is_handed_in => 0,
            1..25 => 1 + self.draw.below(all),
            _ => all,
        }
    }

    fn readings(&mut self, subject: &Subject) -> Vec<(&'static str, Reading)> {
        let draw = &mut self.draw;
        let mut readings = vec![];
        for _ in 0..2 {
            readings.push((LEFT, Reading::of_what_was_left(subject, draw)));
            readings.push((RIGHT, Reading::of_its_rungs(subject, draw)));
        }
        let of_rungs = match subject.wanted {
            Wanted::NotForward => &[],
            _ => &OF_RUNGS[..],
        };
        for &(kind, change) in OF_LENGTHS.iter().chain(of_rungs) {
            let mut reading = Reading::of_its_rungs(subject, draw);
            if change(&mut reading, draw) {
                readings.push((kind, reading));
            }
        }
        readings
    }

    fn meet(&mut self, kind: &str, expected: &Part) {
        let mut kinds = self.met.iter_mut();
        let (_, counts) = kinds
            .find(|(name, _)| *name == kind)
            .expect("all are there");
        let mut answers = ANSWERS.iter();
        let answer = answers.position(|(number, _)| *number == expected.refusal);
        counts[answer.expect("it has a name")] += 1;
    }

    pub fn answers(&self) -> impl Iterator<Item = (&'static str, usize)> {
        let many = |i: usize| self.met.iter().map(|(_, counts)| counts[i]).sum();
        let answers = ANSWERS.iter().enumerate();
        answers.map(move |(i, (_, name))| (*name, many(i)))
    }

    /// Counts a difference for each answer and each kind of reading that was never met, and prints
    /// it.
    pub fn count_what_was_not_met(&mut self) {
        let kinds = self.met.iter();
        let kinds = kinds.map(|(kind, counts)| (*kind, counts.iter().sum::<usize>()));
        let all: Vec<_> = self.answers().chain(kinds).collect();
        for (name, _) in all.into_iter().filter(|(_, many)| *many == 0) {
            println!("tested reader: {name}: never met");
            self.line.differences += 1;
        }
    }

    /// Prints the line of the readings, how many had each answer, and how many lists there were.
    pub fn finish(&self, tally: &mut Tally) {
        tally.add(&self.line);
        let answers: Vec<_> = self
            .answers()
            .map(|(name, many)| format!("{many} {name}"))
            .collect();
        println!("  {}", answers.join(", "));
        println!(
            "  {} lists, {} to forward branches",
            self.lists, self.forward
        );
    }
}

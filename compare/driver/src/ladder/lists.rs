//! Lists of requests, each with the tables it lends.

use super::machine::LARGEST;
use super::{Point, State, drawn, edges, handed_in};
use crate::comparing::Comparable;
use crate::tables::{Junk, Split};

/// Seeds of their own, beside those of the table calls.
const FROM_EMPTY: u64 = 3 << 40;
const FROM_ELSEWHERE: u64 = 4 << 40;

/// What is done with the two tables before a request. The lengths are set after it.
#[derive(Clone, Copy, Debug, PartialEq)]
pub enum Lending {
    /// They are as the request before left them.
    Kept,
    /// The value table of the request before is now the derivative table, and the other way round.
    Exchanged,
    /// Every second slot is overwritten.
    Overwritten,
    /// Two other tables are lent.
    Other,
}

#[derive(Clone, Copy, Debug)]
pub struct Request {
    pub point: Point,
    /// Of value table and derivative table.
    pub lengths: [usize; 2],
    /// Whether a table is a null pointer. Its length is then 0.
    pub nulls: [bool; 2],
    pub lending: Lending,
    /// For the slots that are overwritten or new.
    pub junk: Junk,
}

/// The state given to the first request, and the requests.
#[derive(Debug)]
pub struct List {
    pub state: State,
    pub requests: Vec<Request>,
}

impl Point {
    /// The lengths of value table and derivative table that are needed. An order that is refused
    /// whatever the lengths counts as 0 or as the last one accepted.
    pub fn needed(&self) -> [usize; 2] {
        let n = Split::of(self.v).n.clamp(1, LARGEST);
        [n + 1, n]
    }
}

impl Request {
    /// With the state that it is given.
    pub fn show(&self, held: &State) -> String {
        let Point { kind, v, x } = self.point;
        let length = |i: usize| {
            let null = if self.nulls[i] { " (null pointer)" } else { "" };
            format!("{}{null}", self.lengths[i])
        };
        let [values, derivatives] = [0, 1].map(length);
        let asked = format!("{kind:?}, v {}, x {}", v.show(), x.show());
        let lending = self.lending;
        let tables = format!("tables {lending:?}, lengths {values} and {derivatives}");
        format!("{asked}, {tables}, held: {}", held.show())
    }
}

/// Lists from an empty ladder with `count` requests in all: edge lists, then drawn ones.
pub fn from_empty(count: usize, seed: u64) -> impl Iterator<Item = List> {
    let drawn = drawn_from_empty(seed);
    cut(edges::lists().into_iter().chain(drawn), count)
}

/// Lists from `states` states handed in from elsewhere: edge lists, then drawn ones.
pub fn from_elsewhere(states: usize, seed: u64) -> impl Iterator<Item = List> {
    let edges = handed_in::edges().into_iter();
    edges.chain(drawn_from_elsewhere(seed)).take(states)
}

/// Drawn lists from an empty ladder, without end.
pub fn drawn_from_empty(seed: u64) -> impl Iterator<Item = List> {
    drawn::lists(seed ^ FROM_EMPTY)
}

/// Drawn lists from states handed in from elsewhere, without end.
pub fn drawn_from_elsewhere(seed: u64) -> impl Iterator<Item = List> {
    handed_in::drawn(seed ^ FROM_ELSEWHERE)
}

/// The first lists, the last one cut so that there are `count` requests in all.
pub fn cut(lists: impl Iterator<Item = List>, count: usize) -> impl Iterator<Item = List> {
    let mut left = count;
    lists.map_while(move |mut list| {
        list.requests.truncate(left);
        left -= list.requests.len();
        (!list.requests.is_empty()).then_some(list)
    })
}

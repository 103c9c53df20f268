//! The edge lists: orders, arguments and functions one after another at which the machine's case
//! or the branch changes.

use super::lists::{Lending, List, Request};
use super::rungs::Branch;
use super::{Point, State};
use crate::inputs::{Draw, around, both_signs, halves, pairs, power_of_two};
use crate::tables::{Junk, Kind, square_at_order};

/// On both sides of 0 and of the limits for small arguments.
pub const ARGUMENTS: [f64; 14] = [
    0.0,
    -0.0,
    1.0,
    -1.0,
    2.5,
    -3.0,
    7.0,
    -7.0,
    9.0,
    -9.0,
    12.0,
    -12.0,
    f64::INFINITY,
    f64::NEG_INFINITY,
];
/// Orders that are refused.
pub const REFUSED: [f64; 6] = [
    1000.0,
    -1000.0,
    1023.5,
    -1e300,
    f64::INFINITY,
    f64::NEG_INFINITY,
];
const LENDINGS: [Lending; 4] = [
    Lending::Kept,
    Lending::Exchanged,
    Lending::Overwritten,
    Lending::Other,
];
/// Slots that a table has beyond those needed.
const EXTRA: [usize; 4] = [0, 1, 5, 300];
/// Of the tables and the refused requests.
pub const SEED: u64 = 1;

/// All edge lists from an empty ladder.
pub fn lists() -> Vec<List> {
    let mut draw = Draw::new(SEED);
    let points = [
        orders_in_pairs(),
        arguments_in_pairs(),
        functions_in_turn(),
        sweeps(),
        across_half_the_square(),
    ];
    let mut lists = vec![];
    for points in points.iter().flatten() {
        lists.push(list(&mut draw, State::EMPTY, points));
    }
    lists
}

/// The list of these points, with tables of one kind. In half of the lists one request more is
/// refused.
pub fn list(draw: &mut Draw, state: State, points: &[Point]) -> List {
    let lending = LENDINGS[draw.below(LENDINGS.len())];
    let extra = EXTRA[draw.below(EXTRA.len())];
    let request = |&point: &Point| Request {
        point,
        lengths: point.needed().map(|needed| needed + extra),
        nulls: [false; 2],
        lending,
        junk: Junk(draw.bits()),
    };
    let mut requests: Vec<_> = points.iter().map(request).collect();
    let place = draw.below(requests.len());
    if let Some(request) = refused(draw, requests[place]) {
        requests.insert(place + draw.below(2), request);
    }
    List { state, requests }
}

/// The request with one thing changed so that it is refused, or none. Some have empty tables as
/// well, half of these by null pointers.
fn refused(draw: &mut Draw, mut request: Request) -> Option<Request> {
    let [values, derivatives] = request.point.needed();
    match draw.below(18) {
        0 => request.point.v = f64::NAN,
        1 => request.point.x = f64::NAN,
        2..4 => request.point.v = REFUSED[draw.below(REFUSED.len())],
        4 => request.lengths = [values - 1, derivatives],
        5 => request.lengths = [values, derivatives - 1],
        6 => request.lengths = [draw.below(values), draw.below(derivatives)],
        7 => request.lengths[draw.below(2)] = 0,
        8 => request.lengths = [0, 0],
        _ => return None,
    }
    match draw.below(8) {
        0 => request.lengths[draw.below(2)] = 0,
        1 => request.lengths = [0, 0],
        _ => {}
    }
    if draw.below(2) == 0 {
        request.nulls = request.lengths.map(|length| length == 0);
    }
    Some(request)
}

/// Orders on both sides of 0 that share f, and orders next to whole numbers that share n and f with
/// them or do not.
fn orders() -> Vec<f64> {
    let next = [1.0, 2.0, 4.0_f64].map(f64::next_down);
    let steps = [1.0, 2.0, 3.0, 9.0, 0.5, 1.5, 2.5, 9.5];
    let sizes = [&next[..], &steps].concat();
    [&[0.0, -0.0, -power_of_two(-60)], &both_signs(&sizes)[..]].concat()
}

/// Every edge order after every other, with a repeat.
fn orders_in_pairs() -> Vec<Vec<Point>> {
    let pairs = pairs(&orders(), &orders());
    let mut lists = vec![];
    for (kind, x) in kinds_and_arguments() {
        let list = |&(a, b): &(f64, f64)| [a, b, b].map(|v| Point { kind, v, x }).to_vec();
        lists.extend(pairs.iter().map(list));
    }
    lists
}

fn kinds_and_arguments() -> impl Iterator<Item = (Kind, f64)> {
    let with_arguments = |kind| ARGUMENTS.map(|x| (kind, x));
    Kind::BOTH.into_iter().flat_map(with_arguments)
}

/// An order at one argument and then at another, both ways.
fn arguments_in_pairs() -> Vec<Vec<Point>> {
    let mut lists = vec![];
    for (kind, x) in kinds_and_arguments() {
        for y in [-x, x.next_up(), x.next_down()] {
            for v in orders() {
                let points = [(v, x), (v, y), (v + 1.0, y), (v + 1.0, x)];
                lists.push(points.map(|(v, x)| Point { kind, v, x }).to_vec());
            }
        }
    }
    lists
}

/// D, V and D again.
fn functions_in_turn() -> Vec<Vec<Point>> {
    let kinds = [Kind::D, Kind::V, Kind::D];
    let list = |(v, x)| kinds.map(|kind| Point { kind, v, x }).to_vec();
    let points = pairs(&orders(), &ARGUMENTS);
    points.into_iter().map(list).collect()
}

/// Rising by one, rising by hundreds to the last order, and falling.
fn sweeps() -> Vec<Vec<Point>> {
    let by_one: Vec<usize> = (1..=40).collect();
    let by_hundreds = vec![1, 2, 3, 103, 403, 1000, 1000];
    let falling = vec![60, 61, 59, 30, 31, 32, 2, 3, 1, 2, 3];
    let mut lists = vec![];
    for (kind, x) in kinds_and_arguments() {
        for f in [0.0, 0.25, 0.5, -0.0, -0.25, -0.5_f64] {
            let branch = Branch {
                kind,
                below_zero: f.is_sign_negative(),
                x,
                f: f + 0.0,
            };
            for rungs in [&by_one, &by_hundreds, &falling] {
                lists.push(rungs.iter().map(|&n| branch.point(n)).collect());
            }
        }
    }
    lists
}

/// V at an argument below 0 at which half the square is an order's u, or next to it: orders on both
/// sides of this one, by one and by more.
fn across_half_the_square() -> Vec<Vec<Point>> {
    let kind = Kind::V;
    let by_one = &[-2.0, -1.0, 0.0, 1.0, 2.0, 3.0][..];
    let by_more = &[-1.0, 1.0, 5.0];
    let from_this = &[0.0, 0.0, 3.0];
    let mut lists = vec![];
    for v in halves(0, 98) {
        for x in around(-square_at_order(v), 2) {
            for steps in [by_one, by_more, from_this] {
                let orders = steps.iter().map(|step| v + step).filter(|&v| v >= 0.0);
                lists.push(orders.map(|v| Point { kind, v, x }).collect());
            }
        }
    }
    lists
}

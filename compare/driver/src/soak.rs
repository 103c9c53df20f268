//! The soak: drawn requests for the calls of the C interface, round after round with fresh seeds.

use std::time::Instant;

use crate::comparing::{Line, Tally};
use crate::expansion::{D_EXPANSION, MACLAURIN};
use crate::inputs::mixed;
use crate::ladder::{self, Comparison, tested};
use crate::tables::CALLS;

/// Requests of a round, and those after which a line is printed.
const ROUND: usize = 1_000_000;
const PRINTED: usize = 10_000_000;
/// Table calls, ladder calls, tested reader, expansion and Maclaurin series.
const ALL_CALLS: usize = 7;

/// What was compared so far.
struct Soak {
    tables: [Line<'static>; 2],
    from_empty: Comparison,
    from_elsewhere: Comparison,
    /// From an empty ladder, and from states handed in.
    tested: [tested::Comparison; 2],
    expansion: Line<'static>,
    maclaurin: Line<'static>,
}

/// Requests of each kind in a round.
struct Shares {
    /// For each of the two calls.
    tables: usize,
    from_empty: usize,
    from_elsewhere: usize,
    /// For each of the two lines of the tested reader.
    tested: usize,
    expansion: usize,
    maclaurin: usize,
}

impl Shares {
    fn of(requests: usize) -> Self {
        let tables = requests / 5;
        let from_empty = requests / 4;
        let from_elsewhere = requests * 3 / 20;
        let tested = requests / 20;
        let expansion = requests / 20;
        let others = 2 * tables + from_empty + from_elsewhere + 2 * tested + expansion;
        Shares {
            tables,
            from_empty,
            from_elsewhere,
            tested,
            expansion,
            maclaurin: requests - others,
        }
    }
}

/// Compares until there were so many requests in all. Gives whether there was no difference.
pub fn run(requests: usize, seed: u64) -> bool {
    let start = Instant::now();
    let mut soak = Soak::new(seed);
    let mut done = 0;
    for round in 0.. {
        let count = ROUND.min(requests - done);
        soak.round(count, round_seed(seed, round));
        done += count;
        if done == requests {
            break;
        }
        if done.is_multiple_of(PRINTED) {
            let (differences, seconds) = (soak.differences(), start.elapsed().as_secs());
            println!("{done} requests, {differences} differences, {seconds} s");
        }
    }
    soak.finish()
}

fn round_seed(seed: u64, round: u64) -> u64 {
    mixed(mixed(seed).wrapping_add(round))
}

impl Soak {
    fn new(seed: u64) -> Self {
        Soak {
            tables: CALLS.map(|call| Line::new(call.name)),
            from_empty: Comparison::from_empty(),
            from_elsewhere: Comparison::from_elsewhere(),
            tested: [
                tested::Comparison::from_empty(seed),
                tested::Comparison::from_elsewhere(seed),
            ],
            expansion: Line::new(D_EXPANSION.name),
            maclaurin: Line::new(MACLAURIN.name),
        }
    }

    fn round(&mut self, requests: usize, seed: u64) {
        let shares = Shares::of(requests);
        for (call, line) in CALLS.iter().zip(&mut self.tables) {
            call.compare_drawn(line, shares.tables, seed);
        }
        ladder::compare_drawn_from_empty(&mut self.from_empty, shares.from_empty, seed);
        ladder::compare_drawn_from_elsewhere(&mut self.from_elsewhere, shares.from_elsewhere, seed);
        let [from_empty, from_elsewhere] = &mut self.tested;
        tested::compare_drawn_from_empty(from_empty, shares.tested, seed);
        tested::compare_drawn_from_elsewhere(from_elsewhere, shares.tested, seed);
        D_EXPANSION.compare_drawn(&mut self.expansion, shares.expansion, seed);
        MACLAURIN.compare_drawn(&mut self.maclaurin, shares.maclaurin, seed);
    }

    fn lines(&self) -> [&Line<'static>; 8] {
        let [d, v] = &self.tables;
        let ladders = [&self.from_empty.line, &self.from_elsewhere.line];
        let tested = self.tested.each_ref().map(|comparison| &comparison.line);
        [
            d,
            v,
            ladders[0],
            ladders[1],
            tested[0],
            tested[1],
            &self.expansion,
            &self.maclaurin,
        ]
    }

    fn differences(&self) -> usize {
        self.lines().iter().map(|line| line.differences).sum()
    }

    /// Prints the line of each call and of all.
    fn finish(&self) -> bool {
        let mut tally = Tally::of_calls(ALL_CALLS);
        for line in &self.tables {
            tally.add(line);
        }
        self.from_empty.finish(&mut tally);
        self.from_elsewhere.finish(&mut tally);
        for comparison in &self.tested {
            comparison.finish(&mut tally);
        }
        tally.add(&self.expansion);
        tally.add(&self.maclaurin);
        tally.finish("soak")
    }
}

#[cfg(test)]
mod tests {
    use super::{ROUND, Shares, Soak, round_seed};

    #[test]
    fn the_shares_make_up_the_round() {
        for requests in (1..200).chain([ROUND - 1, ROUND]) {
            let shares = Shares::of(requests);
            let ladder = shares.from_empty + shares.from_elsewhere + 2 * shares.tested;
            let off_path = shares.expansion + shares.maclaurin;
            assert_eq!(2 * shares.tables + ladder + off_path, requests);
        }
    }

    #[test]
    fn a_round_compares_as_many_requests_as_asked() {
        let mut soak = Soak::new(1);
        for (round, requests) in [1, 19, 500].into_iter().enumerate() {
            soak.round(requests, round_seed(1, round as u64));
        }
        let compared = soak.lines().iter().map(|line| line.inputs).sum::<usize>();
        assert_eq!(compared, 520);
        assert!(soak.lines().iter().all(|line| line.inputs > 20));
        assert!(soak.finish());
    }

    #[test]
    fn a_difference_counts_in_the_end() {
        for i in 0..3 {
            let mut soak = Soak::new(1);
            let tested = &mut soak.tested[1].line;
            let line = [&mut soak.maclaurin, &mut soak.from_elsewhere.line, tested];
            let differing = Some(("input".into(), "sides".into()));
            line.into_iter()
                .nth(i)
                .expect("there are three")
                .count(differing);
            assert_eq!(soak.differences(), 1);
            assert!(!soak.finish());
        }
    }

    #[test]
    fn rounds_and_seeds_have_seeds_of_their_own() {
        let mut seeds: Vec<u64> = (0..1000)
            .flat_map(|i| [round_seed(1, i), round_seed(2, i)])
            .collect();
        seeds.sort_unstable();
        seeds.dedup();
        assert_eq!(seeds.len(), 2000);
    }
}

//! Takes the times of several sides in turn.

use std::hint::black_box;
use std::time::{Duration, Instant};

/// A round takes at least about this long.
const ROUND: Duration = Duration::from_millis(4);
pub const ROUNDS: usize = 25;

/// Nanoseconds for a call: the least of the rounds and their median.
#[derive(Clone, Copy, Debug)]
pub struct Time {
    pub best: f64,
    pub median: f64,
}

impl Time {
    fn of(mut rounds: Vec<f64>) -> Self {
        rounds.sort_by(f64::total_cmp);
        Time {
            best: rounds[0],
            median: rounds[rounds.len() / 2],
        }
    }

    /// For each of `many` calls that were taken as one.
    pub fn of_each(self, many: usize) -> Self {
        Time {
            best: self.best / many as f64,
            median: self.median / many as f64,
        }
    }

    /// How noisy the rounds were: the median over the best.
    pub fn noise(self) -> f64 {
        self.median / self.best
    }
}

/// The times of the sides that are there, their rounds in turn.
pub fn times<const N: usize, I: Copy, F: Copy, A>(
    inputs: &[I],
    sides: [Option<F>; N],
    mut call: impl FnMut(F, I) -> A,
) -> [Option<Time>; N] {
    let mut round = |side: F, passes: usize| {
        let side = black_box(side);
        let start = Instant::now();
        for _ in 0..passes {
            for &input in black_box(inputs) {
                black_box(call(side, input));
            }
        }
        start.elapsed()
    };
    let passes = sides.map(|side| {
        let mut passes = 1;
        while side.is_some_and(|side| (0..3).any(|_| round(side, passes) < ROUND)) {
            passes *= 2;
        }
        passes
    });
    let mut rounds = [(); N].map(|()| vec![]);
    for i in (0..ROUNDS).flat_map(|_| 0..N) {
        if let Some(side) = sides[i] {
            let calls = (passes[i] * inputs.len()) as f64;
            rounds[i].push(round(side, passes[i]).as_nanos() as f64 / calls);
        }
    }
    rounds.map(|rounds| (!rounds.is_empty()).then(|| Time::of(rounds)))
}

#[cfg(test)]
mod tests {
    use std::cell::RefCell;

    use super::{ROUNDS, Time, times};

    #[test]
    fn the_sides_are_called_in_turn_at_the_input() {
        let turns = RefCell::new(String::new());
        let sides = [Some('l'), None, Some('p')];
        let [library, none, platform] = times(&[(2.0, 0.3)], sides, |side, input| {
            assert_eq!(input, (2.0, 0.3));
            let mut turns = turns.borrow_mut();
            if !turns.ends_with(side) {
                turns.push(side);
            }
        });
        assert!(turns.borrow().ends_with(&"lp".repeat(ROUNDS)));
        assert!(none.is_none());
        for time in [library, platform].map(|time| time.expect("it was timed")) {
            assert!(time.best > 0.0 && time.noise() >= 1.0, "{time:?}");
        }
    }

    #[test]
    fn the_best_and_the_median_of_rounds() {
        let time = Time::of(vec![5.0, 2.0, 9.0, 3.0, 8.0]).of_each(2);
        assert_eq!((time.best, time.median, time.noise()), (1.0, 2.5, 2.5));
    }
}

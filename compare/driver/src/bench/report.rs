//! The tables of times in Markdown.

use super::timing::{ROUNDS, Time};

/// The library, the Rust over the stand-ins, the Rust over the platform's functions.
pub type Times = [Option<Time>; 3];

/// The names of the sides at the heads of the columns.
pub const SIDES: [&str; 3] = ["library", "stand-ins", "platform"];

/// Prints tables and keeps how noisy the times were.
pub struct Report {
    noises: Vec<f64>,
}

impl Report {
    pub fn new() -> Self {
        println!("Nanoseconds for a call, best of {ROUNDS} rounds.");
        Report { noises: vec![] }
    }

    /// Begins a table whose first side is set against each other one.
    pub fn table<const N: usize>(&self, title: &str, first: &str, sides: [&str; N]) {
        println!("\n### {title}\n");
        let ratios = sides[1..]
            .iter()
            .map(|side| format!("{} / {side}", sides[0]));
        let sides = sides.iter().map(|side| side.to_string());
        let columns: Vec<String> = sides.chain(ratios).collect();
        println!("| {first} | {} | median / best |", columns.join(" | "));
        println!("| --- |{}", " ---: |".repeat(columns.len() + 1));
    }

    /// Prints a row: the times, the ratios of the first to the others, and the largest noise.
    pub fn row<const N: usize>(&mut self, name: &str, times: [Option<Time>; N]) {
        let noises = times.iter().flatten().map(|time| time.noise());
        let noise = noises.clone().fold(1.0, f64::max);
        self.noises.extend(noises);
        let best = times.map(|time| time.map(|time| time.best));
        let ratio = |other: &Option<f64>| Some(best[0]? / (*other)?);
        let ratios = best[1..].iter().map(|other| cell(ratio(other), show_ratio));
        let cells = best.iter().map(|&best| cell(best, show_time));
        let cells: Vec<String> = cells.chain(ratios).collect();
        println!("| {name} | {} | {noise:.2} |", cells.join(" | "));
    }

    /// Prints how noisy all times were.
    pub fn finish(mut self) {
        self.noises.sort_by(f64::total_cmp);
        let noise = |part: f64| self.noises[(part * (self.noises.len() - 1) as f64) as usize];
        println!(
            "\nOf {} times the median of the rounds is at most {:.2} times the best in half, \
             {:.2} in nine of ten and {:.2} in all.",
            self.noises.len(),
            noise(0.5),
            noise(0.9),
            noise(1.0),
        );
    }
}

fn cell(number: Option<f64>, show: fn(f64) -> String) -> String {
    number.map_or("–".into(), show)
}

fn show_time(time: f64) -> String {
    if time < 100.0 {
        format!("{time:.1}")
    } else {
        format!("{time:.0}")
    }
}

fn show_ratio(ratio: f64) -> String {
    if ratio < 0.1 {
        format!("{ratio:.4}")
    } else {
        format!("{ratio:.2}")
    }
}

#[cfg(test)]
mod tests {
    use super::{Report, SIDES, show_ratio, show_time};

    #[test]
    fn numbers_are_shown_with_three_places_or_more() {
        assert_eq!(show_time(2.345), "2.3");
        assert_eq!(show_time(12345.6), "12346");
        assert_eq!(show_ratio(1.234), "1.23");
        assert_eq!(show_ratio(0.00123), "0.0012");
    }

    #[test]
    fn sides_that_are_not_there_are_left_out_of_the_noise() {
        let time = super::Time {
            best: 1.0,
            median: 1.5,
        };
        let mut report = Report { noises: vec![] };
        report.table("title", "call", SIDES);
        report.row("name", [Some(time), None, Some(time)]);
        assert_eq!(report.noises, [1.5, 1.5]);
        report.finish();
    }
}

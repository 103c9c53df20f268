//! Lines of output: plain for a pipe, with titles and aligned columns for a terminal.

use std::io::{self, BufWriter, IsTerminal, StdoutLock, Write};

use crate::numbers;

/// A column: its title, and the width of its longest cell.
pub type Column = (&'static str, usize);

/// The longest decimal has 24 characters, as -2.2250738585072014e-308.
pub const DECIMAL: usize = 24;
/// 0x and 16 digits, and no shorter than the titles.
pub const BITS: usize = 18;
/// The last columns where bits are wanted.
const BITS_COLUMNS: [Column; 2] = [("value bits", BITS), ("derivative bits", BITS)];

/// Rows of cells, and lines of text between them.
pub struct Rows<W: Write> {
    out: W,
    terminal: bool,
    bits: bool,
    columns: Vec<Column>,
}

impl Rows<BufWriter<StdoutLock<'static>>> {
    /// Rows on standard output.
    pub fn standard(columns: &[Column], bits: bool) -> io::Result<Self> {
        let out = io::stdout().lock();
        let terminal = out.is_terminal();
        Rows::new(BufWriter::new(out), terminal, columns, bits)
    }
}

impl<W: Write> Rows<W> {
    /// Rows of these columns, and with `bits` those of the bits. A terminal gets the titles.
    pub fn new(out: W, terminal: bool, columns: &[Column], bits: bool) -> io::Result<Self> {
        let mut columns = columns.to_vec();
        if bits {
            columns.extend(BITS_COLUMNS);
        }
        let mut rows = Rows {
            out,
            terminal,
            bits,
            columns,
        };
        if terminal {
            let titles = rows.columns.iter().map(|(title, _)| title.to_string());
            rows.row(titles.collect())?;
        }
        Ok(rows)
    }

    /// A pair, the cells after it, and where they are wanted the bits of the pair. An empty cell
    /// is a column that this row has not.
    pub fn pair<const N: usize>(&mut self, pair: [f64; 2], more: [String; N]) -> io::Result<()> {
        let mut cells = pair.map(numbers::decimal).to_vec();
        cells.extend(more);
        if self.bits {
            cells.extend(pair.map(numbers::bits));
        }
        self.row(cells)
    }

    /// One row. A pipe gets no empty cells, and a terminal gets blanks in their place.
    pub fn row(&mut self, mut cells: Vec<String>) -> io::Result<()> {
        if !self.terminal {
            cells.retain(|cell| !cell.is_empty());
            return self.text(&cells.join(" "));
        }
        let padded = cells.iter().zip(&self.columns);
        let padded = padded.map(|(cell, (_, width))| format!("{cell:<width$}"));
        let line = padded.collect::<Vec<_>>().join("  ");
        self.text(line.trim_end())
    }

    /// A line of text.
    pub fn text(&mut self, text: &str) -> io::Result<()> {
        writeln!(self.out, "{text}")
    }

    pub fn is_terminal(&self) -> bool {
        self.terminal
    }

    pub fn flush(&mut self) -> io::Result<()> {
        self.out.flush()
    }
}

#[cfg(test)]
mod tests {
    use super::*;

    const COLUMNS: [Column; 3] = [("value", 8), ("derivative", 10), ("case", 6)];

    /// A pair with a case, one without, and a line of text.
    fn written(terminal: bool, bits: bool) -> String {
        let mut out = Vec::new();
        let mut rows = Rows::new(&mut out, terminal, &COLUMNS, bits).unwrap();
        rows.pair([2.5, 1.0], ["climb".to_string()]).unwrap();
        rows.pair([-0.0, 2.5], [String::new()]).unwrap();
        rows.text("refusal").unwrap();
        String::from_utf8(out).unwrap()
    }

    #[test]
    fn a_pipe_gets_plain_lines() {
        assert_eq!(written(false, false), "2.5 1.0 climb\n-0.0 2.5\nrefusal\n");
        let with_bits = "2.5 1.0 climb 0x4004000000000000 0x3ff0000000000000\n\
                         -0.0 2.5 0x8000000000000000 0x4004000000000000\nrefusal\n";
        assert_eq!(written(false, true), with_bits);
    }

    #[test]
    fn a_terminal_gets_titles_and_columns() {
        let lines = "value     derivative  case\n\
                     2.5       1.0         climb\n\
                     -0.0      2.5\nrefusal\n";
        assert_eq!(written(true, false), lines);
        let with_bits = "value     derivative  case    value bits          derivative bits\n\
                         2.5       1.0         climb   0x4004000000000000  0x3ff0000000000000\n\
                         -0.0      2.5                 0x8000000000000000  0x4004000000000000\n\
                         refusal\n";
        assert_eq!(written(true, true), with_bits);
    }
}

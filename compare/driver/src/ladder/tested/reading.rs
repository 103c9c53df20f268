//! A reading: a state, two tables and the column named.

use super::Part;
use super::subject::Subject;
use super::wanted::Wanted;
use crate::inputs::Draw;
use crate::ladder::State;
use crate::ladder::rungs::Branch;
use crate::tables::{Junk, Lent, MARGIN, slot_difference, whole_difference};

/// The numbers that name columns, and others.
const COLUMNS: [u32; 2] = [1, 2];
const OTHERS: [u32; 6] = [0, 3, u32::MAX, (1 << 8) + 1, (1 << 16) + 2, (1 << 31) + 1];
/// A table may have so many slots more than the rungs need.
const MORE: [usize; 4] = [0, 0, 1, 7];

pub struct Reading {
    pub state: State,
    /// Value table and derivative table.
    pub tables: [Lent; 2],
    pub which: u32,
    pub branch: Branch,
    /// The last rung of the subject.
    pub n: usize,
}

impl Reading {
    /// Of the tables as the list left them.
    pub fn of_what_was_left(subject: &Subject, draw: &mut Draw) -> Self {
        Self::of(subject, subject.left.clone(), draw)
    }

    /// Of tables that hold the subject's rungs, and anything else past them.
    pub fn of_its_rungs(subject: &Subject, draw: &mut Draw) -> Self {
        let tables = subject.rungs.each_ref().map(|rungs| {
            let mut table = Lent::default();
            let length = rungs.len() + MORE[draw.below(MORE.len())];
            table.lend(length, rungs.len(), Junk(draw.bits()));
            table.slots[MARGIN..][..rungs.len()].copy_from_slice(rungs);
            table
        });
        Self::of(subject, tables, draw)
    }

    fn of(subject: &Subject, tables: [Lent; 2], draw: &mut Draw) -> Self {
        let which = match draw.below(4) {
            0 => OTHERS[draw.below(OTHERS.len())],
            _ => COLUMNS[draw.below(COLUMNS.len())],
        };
        let Subject { state, branch, .. } = *subject;
        let n = subject.rungs[1].len();
        Reading {
            state,
            tables,
            which,
            branch,
            n,
        }
    }

    pub fn slot(&mut self, table: usize, k: usize) -> &mut f64 {
        &mut self.tables[table].slots[MARGIN + k]
    }

    /// The rungs of value table and derivative table, also where fewer slots are lent.
    pub fn rungs(&self) -> [&[f64]; 2] {
        [(0, self.n + 1), (1, self.n)].map(|(i, many)| &self.tables[i].slots[MARGIN..][..many])
    }

    pub fn show(&self) -> String {
        let [values, derivatives] = self.tables.each_ref().map(|table| {
            let null = if table.is_null { " (null pointer)" } else { "" };
            format!("{}{null}", table.length)
        });
        let (which, state) = (self.which, self.state.show());
        format!("which {which}, lengths {values} and {derivatives}, held: {state}")
    }

    /// What must be answered, and the first difference of what a reader answers. It writes to no
    /// slot.
    pub fn compare(
        &self,
        wanted: &Wanted,
        reader: impl Fn(State, [&mut Lent; 2], u32) -> Part,
    ) -> (Part, Option<String>) {
        let lent = self.tables.each_ref();
        let expected = wanted.part(lent.map(|t| &t.slots[MARGIN..][..t.length]), self.which);
        let mut left = self.tables.clone();
        let part = reader(self.state, left.each_mut(), self.which);
        let slot = |(i, name): (usize, &str)| {
            let slot = slot_difference(&self.tables[i].slots, &left[i].slots, &[])?;
            Some(format!("{name} {slot}"))
        };
        let difference = whole_difference("refusal", part.refusal, expected.refusal)
            .or_else(|| length_difference(part.length, expected.length))
            .or_else(|| [(0, "value"), (1, "derivative")].into_iter().find_map(slot));
        (expected, difference)
    }
}

fn length_difference(ours: usize, theirs: usize) -> Option<String> {
    (ours != theirs).then(|| format!("length: library {ours}, #102 {theirs}"))
}

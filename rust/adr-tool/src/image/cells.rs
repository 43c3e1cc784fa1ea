//! The cells that a recording may write to.

use std::collections::BTreeSet;
use std::ops::Range;

/// Cells for a recording: none that the content in force uses.
///
/// What is kept grows with the content, not with the length of the file.
#[derive(Debug)]
pub struct Cells {
    /// Those that the content in force uses.
    used: BTreeSet<u64>,
    /// Every other cell below this one was taken.
    next: u64,
    /// Taken, and no longer needed.
    returned: BTreeSet<u64>,
}

impl Cells {
    /// All cells but those in use.
    pub fn new(used: BTreeSet<u64>) -> Cells {
        Cells {
            used,
            next: 0,
            returned: BTreeSet::new(),
        }
    }

    /// A cell to write to.
    pub fn take(&mut self) -> u64 {
        if let Some(cell) = self.returned.pop_first() {
            return cell;
        }
        while self.used.contains(&self.next) {
            self.next = self.next.saturating_add(1);
        }
        let cell = self.next;
        self.next = cell.saturating_add(1);
        cell
    }

    /// Takes back a cell that is no longer needed, if it is one of this
    /// recording's own.
    pub fn give_back(&mut self, cell: u64) {
        if !self.used.contains(&cell) {
            self.returned.insert(cell);
        }
    }

    /// The first cell behind all that were taken.
    pub fn taken_end(&self) -> u64 {
        self.next
    }

    /// The stretches of cells below `end` that the content in force does not
    /// use.
    pub fn unused(&self, end: u64) -> Vec<Range<u64>> {
        let mut stretches = Vec::new();
        let mut start = 0;
        for cell in self.used.range(..end).copied().chain([end]) {
            if start < cell {
                stretches.push(start..cell);
            }
            start = cell.saturating_add(1);
        }
        stretches
    }
}

#[cfg(test)]
mod tests {
    use super::*;

    #[test]
    fn used_cells_are_left_alone() {
        let mut cells = Cells::new([0, 2, 3].into());
        assert_eq!([cells.take(), cells.take(), cells.take()], [1, 4, 5]);
        cells.give_back(4);
        cells.give_back(3);
        assert_eq!([cells.take(), cells.take()], [4, 6]);
        assert_eq!(cells.taken_end(), 7);
        assert_eq!(cells.unused(7), [1..2, 4..7]);
        assert_eq!(cells.unused(5), [1..2, 4..5]);
        assert_eq!(cells.unused(0), []);
    }
}

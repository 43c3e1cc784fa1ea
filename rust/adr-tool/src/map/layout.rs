//! Which addresses stand in which row of a map.

use std::collections::BTreeSet;

use super::counts::Counts;
use super::spots::{defect_map_addresses, Spots};

/// Groups of addresses in a row.
pub const WIDTH: u64 = 64;
/// The most rows with something in them.
const MOST_ROWS: usize = 28;

/// A row of a map.
#[derive(Clone, Debug, PartialEq, Eq)]
pub enum Row {
    /// Groups from an address on.
    Groups {
        /// The first address.
        first: u64,
        /// The groups, each of as many addresses as the scale says.
        groups: Vec<Counts>,
    },
    /// Addresses left out, all of them unused.
    Unused {
        /// The first address.
        first: u64,
        /// How many.
        count: u64,
    },
}

/// The rows of a map.
#[derive(Clone, Debug, PartialEq, Eq)]
pub struct Rows {
    /// The addresses in a group.
    pub scale: u64,
    /// The rows.
    pub rows: Vec<Row>,
}

/// Rows at the finest scale at which they are few enough.
pub fn rows(spots: &Spots) -> Rows {
    let mut scale = 1;
    let mut steps = [2, 5, 10].into_iter().cycle();
    let mut decade = 1;
    while used_rows(spots, scale).len() > MOST_ROWS {
        let step = steps.next().unwrap_or(10);
        scale = decade * step;
        if step == 10 {
            decade = scale;
        }
    }
    Rows {
        scale,
        rows: rows_at(spots, scale),
    }
}

/// The numbers of the rows with something in them.
fn used_rows(spots: &Spots, scale: u64) -> BTreeSet<u64> {
    spots
        .known
        .keys()
        .copied()
        .chain(defect_map_addresses())
        .map(|address| u64::from(address) / (WIDTH * scale))
        .collect()
}

fn rows_at(spots: &Spots, scale: u64) -> Vec<Row> {
    let length = WIDTH * scale;
    let frames = u64::from(spots.last) + 1;
    let mut rows = Vec::new();
    let mut next = 0;
    for number in used_rows(spots, scale) {
        let first = number * length;
        if first > next {
            rows.push(Row::Unused {
                first: next,
                count: first - next,
            });
        }
        next = (first + length).min(frames);
        rows.push(Row::Groups {
            first,
            groups: groups_from(spots, first, next, scale),
        });
    }
    if frames > next {
        rows.push(Row::Unused {
            first: next,
            count: frames - next,
        });
    }
    rows
}

fn groups_from(spots: &Spots, first: u64, end: u64, scale: u64) -> Vec<Counts> {
    let mut groups = Vec::new();
    let mut start = first;
    while start < end {
        let stop = (start + scale).min(end);
        groups.push(spots.counts(start, stop));
        start = stop;
    }
    groups
}

#[cfg(test)]
mod tests {
    use super::super::spots::{Reading, Spot};
    use super::*;

    fn spots(last: u32, known: &[(u32, Spot)]) -> Spots {
        Spots {
            title: String::new(),
            last,
            known: known.iter().copied().collect(),
            reading: Reading::Whole,
        }
    }

    /// Every address once, in turn.
    fn covered(rows: &Rows, last: u32) {
        let mut next = 0;
        for row in &rows.rows {
            let (first, count) = match row {
                Row::Unused { first, count } => (*first, *count),
                Row::Groups { first, groups } => {
                    assert!(groups.len() <= 64);
                    (*first, groups.iter().map(Counts::all).sum())
                }
            };
            assert_eq!(first, next);
            next = first + count;
        }
        assert_eq!(next, u64::from(last) + 1);
    }

    #[test]
    fn an_empty_cartridge() {
        for last in [3_000, 461_735, 4_294_836_224] {
            let rows = rows(&spots(last, &[]));
            assert_eq!(rows.scale, 1);
            covered(&rows, last);
        }
    }

    #[test]
    fn a_full_cartridge_is_scaled() {
        let known: Vec<(u32, Spot)> = (10..2_990)
            .chain(3_000..12_000)
            .map(|address| (address, Spot::Block))
            .collect();
        let rows = rows(&spots(11_999, &known));
        assert_eq!(rows.scale, 10);
        covered(&rows, 11_999);
        assert!(rows.rows.len() <= MOST_ROWS);
    }

    #[test]
    fn everything_in_a_group_counts() {
        let cartridge = spots(
            3_100,
            &[(100, Spot::Block), (101, Spot::Bad), (105, Spot::Stale)],
        );
        let present = |start, stop| -> Vec<(Spot, u64)> {
            let counts = cartridge.counts(start, stop);
            counts.present().collect()
        };
        let three = [(Spot::Bad, 1), (Spot::Block, 1), (Spot::Stale, 1)];
        let unused = |number| (Spot::Unused, number);
        assert_eq!(present(100, 110), [&three[..], &[unused(7)]].concat());
        assert_eq!(present(110, 120), [unused(10)]);
        assert_eq!(present(0, 10), [(Spot::DefectMap, 5), unused(5)]);
        assert_eq!(present(2_999, 3_001), [(Spot::DefectMap, 1), unused(1)]);
        let all = cartridge.all_counts();
        assert_eq!((all.of(Spot::DefectMap), all.all()), (10, 3_101));
    }
}

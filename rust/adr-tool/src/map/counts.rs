//! How many addresses of each kind stand in a part of a cartridge.

use std::cmp::Reverse;

use super::spots::{Spot, KINDS};

/// How many of each kind.
#[derive(Clone, Debug, Default, PartialEq, Eq)]
pub struct Counts([u64; KINDS.len()]);

impl Counts {
    /// Adds so many of a kind.
    pub fn add(&mut self, kind: Spot, number: u64) {
        if let Some(count) = self.0.get_mut(kind as usize) {
            *count = count.saturating_add(number);
        }
    }

    /// How many are of a kind.
    pub fn of(&self, kind: Spot) -> u64 {
        self.0.get(kind as usize).copied().unwrap_or(0)
    }

    /// How many there are in all.
    pub fn all(&self) -> u64 {
        self.0.iter().sum()
    }

    /// The kinds that are there and how many of each, the worst first.
    pub fn present(&self) -> impl Iterator<Item = (Spot, u64)> + '_ {
        let all = KINDS.into_iter().map(|kind| (kind, self.of(kind)));
        all.filter(|(_, number)| *number > 0)
    }

    /// The one kind that stands for all: what a reader must not miss, or else
    /// the kind of which there are most.
    pub fn shown(&self) -> Spot {
        let notable = NOTABLE.into_iter().find(|kind| self.of(*kind) > 0);
        let most = self.present().min_by_key(|(_, number)| Reverse(*number));
        notable
            .or(most.map(|(kind, _)| kind))
            .unwrap_or(Spot::Unused)
    }
}

impl FromIterator<Spot> for Counts {
    fn from_iter<I: IntoIterator<Item = Spot>>(spots: I) -> Counts {
        let mut counts = Counts::default();
        for spot in spots {
            counts.add(spot, 1);
        }
        counts
    }
}

/// The kinds that are shown however few they are.
pub const NOTABLE: [Spot; 3] = [Spot::Damaged, Spot::Bad, Spot::End];

#[cfg(test)]
mod tests {
    use super::*;

    #[test]
    fn kinds_are_in_their_order() {
        for (at, kind) in KINDS.into_iter().enumerate() {
            assert_eq!(kind as usize, at);
        }
    }

    #[test]
    fn one_stands_for_all() {
        let shown = |spots: &[Spot]| spots.iter().copied().collect::<Counts>().shown();
        use Spot::{Bad, Block, Damaged, End, Filemark, Stale, Unused};
        assert_eq!(shown(&[]), Unused);
        assert_eq!(shown(&[Filemark, Block, Block]), Block);
        assert_eq!(shown(&[Block, Stale, Block, Stale]), Block);
        assert_eq!(shown(&[Unused, Unused, Filemark]), Unused);
        assert_eq!(shown(&[Block, Block, End]), End);
        assert_eq!(shown(&[Block, Bad, Block, End]), Bad);
        assert_eq!(shown(&[Bad, Bad, Damaged, Block]), Damaged);
    }
}

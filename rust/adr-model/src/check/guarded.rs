//! Buffers that show whether a call writes beside them.

use std::ops::{Deref, DerefMut};

/// Bytes before and behind a buffer; not a multiple of a word, so that
/// buffers are lent unaligned.
const GUARD: usize = 61;
const GUARD_BYTE: u8 = 0xC7;

/// A buffer with guard bytes on either side in one allocation.
#[derive(Clone, Debug, PartialEq, Eq)]
pub struct Guarded(Vec<u8>);

impl Guarded {
    /// A buffer that holds this.
    #[must_use]
    pub fn of(content: &[u8]) -> Guarded {
        let mut guarded = Guarded(Vec::new());
        guarded.refill(content);
        guarded
    }

    /// A buffer of so many such bytes.
    #[must_use]
    pub fn filled(byte: u8, length: usize) -> Guarded {
        let mut bytes = vec![GUARD_BYTE; GUARD];
        bytes.resize(GUARD.saturating_add(length), byte);
        bytes.resize(bytes.len().saturating_add(GUARD), GUARD_BYTE);
        Guarded(bytes)
    }

    /// Makes it hold this, in the same allocation where it has room.
    pub fn refill(&mut self, content: &[u8]) {
        self.0.clear();
        self.0.resize(GUARD, GUARD_BYTE);
        self.0.extend_from_slice(content);
        self.0
            .resize(self.0.len().saturating_add(GUARD), GUARD_BYTE);
    }

    /// Whether the guard bytes are as they were.
    #[must_use]
    pub fn is_intact(&self) -> bool {
        let guard = &[GUARD_BYTE; GUARD];
        self.0.first_chunk() == Some(guard) && self.0.last_chunk() == Some(guard)
    }

    fn place(&self) -> std::ops::Range<usize> {
        GUARD..self.0.len().saturating_sub(GUARD)
    }
}

impl Deref for Guarded {
    type Target = [u8];

    fn deref(&self) -> &[u8] {
        self.0.get(self.place()).unwrap_or_default()
    }
}

impl DerefMut for Guarded {
    fn deref_mut(&mut self) -> &mut [u8] {
        let place = self.place();
        self.0.get_mut(place).unwrap_or_default()
    }
}

#[cfg(test)]
mod tests {
    use super::{Guarded, GUARD};

    #[test]
    fn bytes_beside_a_buffer_are_seen() {
        let mut guarded = Guarded::of(&[1, 2, 3]);
        guarded.fill(9);
        assert!(guarded.is_intact() && *guarded == [9; 3]);
        for beside in [0, GUARD - 1, GUARD + 3, GUARD + 3 + GUARD - 1] {
            let mut altered = guarded.clone();
            altered.0[beside] ^= 1;
            assert!(!altered.is_intact() && *altered == [9; 3], "{beside}");
        }
        guarded.refill(&[4]);
        assert!(guarded == Guarded::filled(4, 1));
        assert!(Guarded::of(&[]).is_empty() && Guarded::of(&[]).is_intact());
    }
}

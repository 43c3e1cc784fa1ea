//! SHA-256, the checksum of a job; `sha256sum` prints the same.

const ROUNDS: usize = 64;
const CHUNK: usize = 64;

/// Fractional parts of the cube roots of the first 64 primes.
const CONSTANTS: [u32; ROUNDS] = [
    0x428a2f98, 0x71374491, 0xb5c0fbcf, 0xe9b5dba5, 0x3956c25b, 0x59f111f1, 0x923f82a4, 0xab1c5ed5,
    0xd807aa98, 0x12835b01, 0x243185be, 0x550c7dc3, 0x72be5d74, 0x80deb1fe, 0x9bdc06a7, 0xc19bf174,
    0xe49b69c1, 0xefbe4786, 0x0fc19dc6, 0x240ca1cc, 0x2de92c6f, 0x4a7484aa, 0x5cb0a9dc, 0x76f988da,
    0x983e5152, 0xa831c66d, 0xb00327c8, 0xbf597fc7, 0xc6e00bf3, 0xd5a79147, 0x06ca6351, 0x14292967,
    0x27b70a85, 0x2e1b2138, 0x4d2c6dfc, 0x53380d13, 0x650a7354, 0x766a0abb, 0x81c2c92e, 0x92722c85,
    0xa2bfe8a1, 0xa81a664b, 0xc24b8b70, 0xc76c51a3, 0xd192e819, 0xd6990624, 0xf40e3585, 0x106aa070,
    0x19a4c116, 0x1e376c08, 0x2748774c, 0x34b0bcb5, 0x391c0cb3, 0x4ed8aa4a, 0x5b9cca4f, 0x682e6ff3,
    0x748f82ee, 0x78a5636f, 0x84c87814, 0x8cc70208, 0x90befffa, 0xa4506ceb, 0xbef9a3f7, 0xc67178f2,
];

/// Fractional parts of the square roots of the first 8 primes.
const START: [u32; 8] = [
    0x6a09e667, 0xbb67ae85, 0x3c6ef372, 0xa54ff53a, 0x510e527f, 0x9b05688c, 0x1f83d9ab, 0x5be0cd19,
];

/// The digest of a job's data.
pub type Digest = [u8; 32];

/// A digest under way.
#[derive(Clone, Debug)]
pub struct Sha256 {
    state: [u32; 8],
    pending: Vec<u8>,
    length: u64,
}

impl Sha256 {
    /// The digest of nothing yet.
    pub fn new() -> Sha256 {
        Sha256 {
            state: START,
            pending: Vec::with_capacity(2 * CHUNK),
            length: 0,
        }
    }

    /// Adds bytes.
    pub fn add(&mut self, bytes: &[u8]) {
        let added = u64::try_from(bytes.len()).unwrap_or(u64::MAX);
        self.length = self.length.wrapping_add(added);
        let missing = (CHUNK - self.pending.len()) % CHUNK;
        let (head, rest) = bytes.split_at(missing.min(bytes.len()));
        self.pending.extend_from_slice(head);
        if let Ok(chunk) = <[u8; CHUNK]>::try_from(self.pending.as_slice()) {
            self.mix(&chunk);
            self.pending.clear();
        }
        let (chunks, rest) = rest.as_chunks::<CHUNK>();
        for chunk in chunks {
            self.mix(chunk);
        }
        self.pending.extend_from_slice(rest);
    }

    /// The digest of what was added.
    pub fn finish(mut self) -> Digest {
        let bits = self.length.wrapping_mul(8);
        self.pending.push(0x80);
        while self.pending.len() % CHUNK != CHUNK - 8 {
            self.pending.push(0);
        }
        self.pending.extend(bits.to_be_bytes());
        let tail = std::mem::take(&mut self.pending);
        for chunk in tail.as_chunks::<CHUNK>().0 {
            self.mix(chunk);
        }
        let mut digest = [0; 32];
        for (place, word) in digest.chunks_exact_mut(4).zip(self.state) {
            place.copy_from_slice(&word.to_be_bytes());
        }
        digest
    }

    fn mix(&mut self, chunk: &[u8; CHUNK]) {
        let [mut a, mut b, mut c, mut d, mut e, mut f, mut g, mut h] = self.state;
        let words = schedule(chunk);
        let words = words.as_chunks::<8>().0.iter();
        for (w, k) in words.zip(CONSTANTS.as_chunks::<8>().0) {
            // Eight rounds at a time: each takes the letters one place on,
            // and behind the eighth they stand where they stood.
            let at = |round: usize| w[round].wrapping_add(k[round]);
            (d, h) = round([a, b, c, d, e, f, g, h], at(0));
            (c, g) = round([h, a, b, c, d, e, f, g], at(1));
            (b, f) = round([g, h, a, b, c, d, e, f], at(2));
            (a, e) = round([f, g, h, a, b, c, d, e], at(3));
            (h, d) = round([e, f, g, h, a, b, c, d], at(4));
            (g, c) = round([d, e, f, g, h, a, b, c], at(5));
            (f, b) = round([c, d, e, f, g, h, a, b], at(6));
            (e, a) = round([b, c, d, e, f, g, h, a], at(7));
        }
        for (state, mixed) in self.state.iter_mut().zip([a, b, c, d, e, f, g, h]) {
            *state = state.wrapping_add(mixed);
        }
    }
}

/// The fourth and the eighth letter after a round with this sum of a word and
/// a constant; the others stay.
#[inline]
fn round([a, b, c, d, e, f, g, h]: [u32; 8], sum: u32) -> (u32, u32) {
    let turned = e.rotate_right(6) ^ e.rotate_right(11) ^ e.rotate_right(25);
    let chosen = (e & f) ^ (!e & g);
    let first = h
        .wrapping_add(turned)
        .wrapping_add(chosen)
        .wrapping_add(sum);
    let turned = a.rotate_right(2) ^ a.rotate_right(13) ^ a.rotate_right(22);
    let second = turned.wrapping_add((a & b) ^ (a & c) ^ (b & c));
    (d.wrapping_add(first), first.wrapping_add(second))
}

fn schedule(chunk: &[u8; CHUNK]) -> [u32; ROUNDS] {
    let mut words = [0; ROUNDS];
    for (word, bytes) in words.iter_mut().zip(chunk.as_chunks::<4>().0) {
        *word = u32::from_be_bytes(*bytes);
    }
    for at in 16..ROUNDS {
        let (near, far) = (words[at - 2], words[at - 15]);
        let near = near.rotate_right(17) ^ near.rotate_right(19) ^ (near >> 10);
        let far = far.rotate_right(7) ^ far.rotate_right(18) ^ (far >> 3);
        words[at] = words[at - 16]
            .wrapping_add(far)
            .wrapping_add(words[at - 7])
            .wrapping_add(near);
    }
    words
}

/// A digest as `sha256sum` prints it.
pub fn hexadecimal(digest: &Digest) -> String {
    digest.iter().map(|byte| format!("{byte:02x}")).collect()
}

#[cfg(test)]
mod tests {
    use super::*;

    fn of(bytes: &[u8]) -> String {
        let mut sum = Sha256::new();
        sum.add(bytes);
        hexadecimal(&sum.finish())
    }

    #[test]
    fn known_values() {
        assert_eq!(
            of(b""),
            "e3b0c44298fc1c149afbf4c8996fb92427ae41e4649b934ca495991b7852b855"
        );
        assert_eq!(
            of(b"abc"),
            "ba7816bf8f01cfea414140de5dae2223b00361a396177a9cb410ff61f20015ad"
        );
        assert_eq!(
            of(&[b'a'; 1_000_000]),
            "cdc76e5c9914fb9281a1c7e284d73e67f1809a48a497200e046d39ccc7112cd0"
        );
    }

    #[test]
    fn parts_of_every_length() {
        let bytes: Vec<u8> = (0..200u8).collect();
        for cut in 0..=bytes.len() {
            let mut sum = Sha256::new();
            sum.add(&bytes[..cut]);
            sum.add(&bytes[cut..]);
            assert_eq!(hexadecimal(&sum.finish()), of(&bytes));
        }
    }
}

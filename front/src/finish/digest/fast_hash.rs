//! A quick hash of 32 bytes. It takes a fraction of the time of SHA-1, and does not resist deliberate collisions.

use super::{Rounds, BLOCK};

/// Numbers half of whose bits are ones, in no order: the digits of pi.
const KEYS: [u64; 8] = [
    0x243F_6A88_85A3_08D3,
    0x1319_8A2E_0370_7344,
    0xA409_3822_299F_31D0,
    0x082E_FA98_EC4E_6C89,
    0x4528_21E6_38D0_1377,
    0xBE54_66CF_34E9_0C6C,
    0xC0AC_29B7_C97C_50DD,
    0x3F84_D5B5_B547_0917,
];

/// Four words, each of which half of the words of a text are multiplied into. A word goes into two of them, in another
/// place each, so that no word takes what came before it out of both.
#[derive(Clone, Copy, Debug)]
pub(in crate::finish) struct Quick([u64; 4]);

impl Default for Quick {
    fn default() -> Quick {
        let [one, two, three, four, ..] = KEYS;
        Quick([!one, !two, !three, !four])
    }
}

/// A product of 128 bits, its halves folded into one.
fn folded(one: u64, other: u64) -> u64 {
    let product = u128::from(one) * u128::from(other);
    product as u64 ^ (product >> 64) as u64
}

/// Two words of a text, multiplied into two of the state.
fn taken((one, other): (u64, u64), (first, second): (u64, u64), (key, other_key): (u64, u64)) -> (u64, u64) {
    (folded(first ^ key, second ^ one), folded(second ^ other_key, first ^ other))
}

impl Rounds for Quick {
    fn hash_block(&mut self, block: &[u8; BLOCK]) {
        let mut w = [0; BLOCK / 8];
        for (to, from) in w.iter_mut().zip(block.chunks_exact(8)) {
            *to = from.try_into().map_or(0, u64::from_le_bytes);
        }
        let [mut a, mut b, mut c, mut d] = self.0;
        (a, b) = taken((a, b), (w[0], w[1]), (KEYS[0], KEYS[1]));
        (c, d) = taken((c, d), (w[2], w[3]), (KEYS[2], KEYS[3]));
        (a, b) = taken((a, b), (w[4], w[5]), (KEYS[4], KEYS[5]));
        (c, d) = taken((c, d), (w[6], w[7]), (KEYS[6], KEYS[7]));
        self.0 = [a, b, c, d];
    }

    fn length(bits: u64) -> [u8; 8] {
        bits.to_le_bytes()
    }

    fn end(&self) -> Vec<u8> {
        self.0.iter().flat_map(|word| word.to_le_bytes()).collect()
    }
}

#[cfg(test)]
mod tests {
    use super::super::Digest;
    use super::*;
    use std::collections::HashSet;

    fn hash(text: &[u8]) -> Vec<u8> {
        let mut digest = Digest::<Quick>::new();
        digest.update(text);
        digest.finish()
    }

    /// Each word of the hash: all of them depend on each half of the bytes.
    #[test]
    fn a_bit_changes_half_of_the_bits_of_two_words() {
        let text: Vec<u8> = (0..640_u32).map(|number| (number * number) as u8).collect();
        let whole = hash(&text);
        let mut seen = HashSet::from([whole.clone()]);
        for bit in 0..text.len() * 8 {
            let mut other = text.clone();
            other[bit / 8] ^= 1 << (bit % 8);
            let changed = hash(&other);
            let counts: Vec<u32> = whole
                .chunks(8)
                .zip(changed.chunks(8))
                .map(|(one, other)| one.iter().zip(other).map(|(a, b)| (a ^ b).count_ones()).sum())
                .collect();
            assert_eq!(counts.iter().filter(|count| (8..=56).contains(*count)).count(), 2, "bit {bit}: {counts:?}");
            assert!(seen.insert(changed), "bit {bit}");
        }
    }

    /// A word that makes one of the factors zero takes nothing out of the other word of the state.
    #[test]
    fn a_factor_of_zero_hides_nothing() {
        let with = |before: u8, word: u64| {
            let mut text = vec![before; 64];
            text.extend(word.to_le_bytes());
            text.extend([7; 56]);
            hash(&text)
        };
        for key in KEYS {
            assert_ne!(with(1, key), with(2, key));
        }
    }

    #[test]
    fn zeros_and_lengths_count() {
        let found: HashSet<Vec<u8>> = (0..300).map(|length| hash(&vec![0; length])).collect();
        assert_eq!(found.len(), 300);
    }
}

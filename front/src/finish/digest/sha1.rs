//! SHA-1 (RFC 3174).

use super::{words, Rounds, BLOCK};

/// The state of SHA-1.
#[derive(Clone, Debug)]
pub(in crate::finish) struct Sha1([u32; 5]);

impl Default for Sha1 {
    fn default() -> Sha1 {
        Sha1([0x6745_2301, 0xEFCD_AB89, 0x98BA_DCFE, 0x1032_5476, 0xC3D2_E1F0])
    }
}

impl Rounds for Sha1 {
    fn hash_block(&mut self, block: &[u8; BLOCK]) {
        let mut w = words(block, u32::from_be_bytes);
        let [mut a, mut b, mut c, mut d, mut e] = self.0;
        for step in 0..80 {
            let at = step & 15;
            if step >= 16 {
                w[at] = (w[(step + 13) & 15] ^ w[(step + 8) & 15] ^ w[(step + 2) & 15] ^ w[at]).rotate_left(1);
            }
            let (mixed, constant) = match step / 20 {
                0 => (b & c | !b & d, 0x5A82_7999),
                1 => (b ^ c ^ d, 0x6ED9_EBA1),
                2 => (b & c | b & d | c & d, 0x8F1B_BCDC),
                _ => (b ^ c ^ d, 0xCA62_C1D6_u32),
            };
            let next = a.rotate_left(5).wrapping_add(mixed).wrapping_add(e).wrapping_add(w[at]).wrapping_add(constant);
            (e, d, c, b, a) = (d, c, b.rotate_left(30), a, next);
        }
        for (word, more) in self.0.iter_mut().zip([a, b, c, d, e]) {
            *word = word.wrapping_add(more);
        }
    }

    fn length(bits: u64) -> [u8; 8] {
        bits.to_be_bytes()
    }

    fn end(&self) -> Vec<u8> {
        self.0.iter().flat_map(|word| word.to_be_bytes()).collect()
    }
}

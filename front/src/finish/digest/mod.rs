//! Hashes of bytes.

mod fast_hash;
mod md5;
mod sha1;

pub(super) use fast_hash::Quick;
pub(super) use md5::Md5;
pub(super) use sha1::Sha1;

/// The bytes of a block.
const BLOCK: usize = 64;

/// The rounds of a hash over blocks of 64 bytes, and the words of its state.
pub(super) trait Rounds {
    /// Hashes a block.
    fn hash_block(&mut self, block: &[u8; BLOCK]);
    /// The number of the bits that were hashed, as the last block has it.
    fn length(bits: u64) -> [u8; 8];
    /// The hash.
    fn end(&self) -> Vec<u8>;
}

/// A hash that is made.
#[derive(Clone, Debug)]
pub(super) struct Digest<R> {
    rounds: R,
    /// What is no whole block yet.
    rest: Vec<u8>,
    length: u64,
}

impl<R: Rounds + Default> Digest<R> {
    /// A hash of nothing.
    pub(super) fn new() -> Digest<R> {
        Digest { rounds: R::default(), rest: Vec::with_capacity(BLOCK), length: 0 }
    }

    /// Hashes further bytes.
    pub(super) fn update(&mut self, mut bytes: &[u8]) {
        self.length = self.length.wrapping_add(bytes.len() as u64);
        if !self.rest.is_empty() {
            let (front, rest) = bytes.split_at(bytes.len().min(BLOCK - self.rest.len()));
            self.rest.extend_from_slice(front);
            bytes = rest;
            match <&[u8; BLOCK]>::try_from(self.rest.as_slice()) {
                Ok(block) => self.rounds.hash_block(block),
                Err(_) => return,
            }
            self.rest.clear();
        }
        let mut blocks = bytes.chunks_exact(BLOCK);
        for block in blocks.by_ref().filter_map(|block| block.try_into().ok()) {
            self.rounds.hash_block(block);
        }
        self.rest.extend_from_slice(blocks.remainder());
    }

    /// The hash of all that was taken.
    pub(super) fn finish(mut self) -> Vec<u8> {
        let bits = self.length.wrapping_mul(8);
        let mut end = vec![0x80];
        end.resize(1 + (BLOCK + 55 - self.rest.len()) % BLOCK, 0);
        end.extend(R::length(bits));
        self.update(&end);
        self.rounds.end()
    }
}

/// The words of a block, each from its four bytes.
fn words(block: &[u8; BLOCK], word: fn([u8; 4]) -> u32) -> [u32; 16] {
    let mut words = [0; 16];
    for (to, from) in words.iter_mut().zip(block.chunks_exact(4)) {
        *to = from.try_into().map_or(0, word);
    }
    words
}

#[cfg(test)]
mod tests {
    use super::*;

    fn hex(bytes: &[u8]) -> String {
        bytes.iter().map(|byte| format!("{byte:02x}")).collect()
    }

    fn hash<R: Rounds + Default>(parts: &[&[u8]]) -> String {
        let mut digest = Digest::<R>::new();
        parts.iter().for_each(|part| digest.update(part));
        hex(&digest.finish())
    }

    /// RFC 3174, 7.3, and FIPS 180-4's examples.
    #[test]
    fn sha1() {
        assert_eq!(hash::<Sha1>(&[b"abc"]), "a9993e364706816aba3e25717850c26c9cd0d89d");
        assert_eq!(hash::<Sha1>(&[]), "da39a3ee5e6b4b0d3255bfef95601890afd80709");
        let text = b"abcdbcdecdefdefgefghfghighijhijkijkljklmklmnlmnomnopnopq";
        assert_eq!(hash::<Sha1>(&[&text[..7], &text[7..]]), "84983e441c3bd26ebaae4aa1f95129e5e54670f1");
        assert_eq!(hash::<Sha1>(&[&vec![b'a'; 1_000_000]]), "34aa973cd4c4daa4f61eeb2bdbad27316534016f");
    }

    /// RFC 1321, A.5.
    #[test]
    fn md5() {
        assert_eq!(hash::<Md5>(&[]), "d41d8cd98f00b204e9800998ecf8427e");
        assert_eq!(hash::<Md5>(&[b"message digest"]), "f96b697d7cb7938d525a2f31aaf161d0");
        let text = b"12345678901234567890123456789012345678901234567890123456789012345678901234567890";
        assert_eq!(hash::<Md5>(&[text]), "57edf4a22be3c955ac49da2e2107b67a");
    }

    #[test]
    fn bytes_may_come_in_any_parts() {
        let bytes: Vec<u8> = (0..400u32).map(|number| (number * 7) as u8).collect();
        let whole = hash::<Sha1>(&[&bytes]);
        for at in 0..bytes.len() {
            let (one, other) = bytes.split_at(at);
            assert_eq!(hash::<Sha1>(&[one, other]), whole);
        }
    }
}

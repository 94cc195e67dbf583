//! The hash of a file for its build ID, over all its bytes, with zeros in place of the ID.
//!
//! GNU ld hashes headers and sections one after the other (elfcode.h, `elf_checksum_contents`); here the file is hashed
//! in pieces, by a quick hash and several threads, and the ID is the hash of the hashes of the pieces. As in lld and
//! mold, the ID has the length of the named hash, but is not that hash.

use std::ops::Range;

use bstr::ByteSlice;

use super::digest::{Digest, Md5, Quick, Rounds, Sha1};
use super::file_image::FileImage;
use super::image_headers::Image;
use crate::parallel::threads;

/// The bytes of a piece.
const PIECE: u64 = 1 << 20;
const ZEROS: [u8; 4096] = [0; 4096];

/// How a file is hashed.
#[derive(Clone, Copy, PartialEq, Eq, Debug)]
pub enum HashKind {
    /// SHA-1, of 20 bytes.
    Sha1,
    /// MD5, of 16 bytes.
    Md5,
}

/// Where a note is in an image of `ldi`: at its address, else where its bytes are.
pub fn place_of_note(image: &[u8], note: &[u8], address: Option<u64>) -> Option<usize> {
    let is_here = |at: &usize| image.get(*at..).map_or(false, |rest| rest.starts_with(note));
    let by_address = || {
        let address = address?;
        let sections = Image::read(image).ok()?.sections;
        let holds = |one: &&super::image_headers::Section| {
            one.is_allocated() && one.is_in_file() && one.address <= address && address < one.end()
        };
        let section = sections.iter().find(holds)?;
        usize::try_from(section.offset.checked_add(address - section.address)?).ok()
    };
    by_address().filter(is_here).or_else(|| image.find(note))
}

/// The hash of a file; the bytes at `id` count as zeros.
pub fn hash_of(file: &FileImage, kind: HashKind, id: Range<u64>) -> Vec<u8> {
    match kind {
        HashKind::Sha1 => of_pieces::<Sha1>(file, &id),
        HashKind::Md5 => of_pieces::<Md5>(file, &id),
    }
}

fn of_pieces<R: Rounds + Default>(file: &FileImage, id: &Range<u64>) -> Vec<u8> {
    let count = (file.len() + PIECE - 1) / PIECE;
    let mut hashes: Vec<Vec<u8>> = vec![Vec::new(); usize::try_from(count).unwrap_or(0)];
    let share = (hashes.len() + threads() - 1) / threads();
    if share <= 1 {
        fill(file, id, 0, &mut hashes);
    } else {
        std::thread::scope(|scope| {
            for (number, part) in hashes.chunks_mut(share).enumerate() {
                scope.spawn(move || fill(file, id, number * share, part));
            }
        });
    }
    let mut whole = Digest::<R>::new();
    hashes.iter().for_each(|hash| whole.update(hash));
    whole.finish()
}

/// The hashes of pieces from a number on.
fn fill(file: &FileImage, id: &Range<u64>, first: usize, hashes: &mut [Vec<u8>]) {
    for (number, hash) in hashes.iter_mut().enumerate() {
        let start = (first + number) as u64 * PIECE;
        let end = (start + PIECE).min(file.len());
        let (before, after) = (id.start.clamp(start, end), id.end.clamp(start, end));
        let mut digest = Digest::<Quick>::new();
        hash_stretch(&mut digest, file, start..before);
        hash_zeros(&mut digest, after - before);
        hash_stretch(&mut digest, file, after..end);
        *hash = digest.finish();
    }
}

/// Hashes a stretch of the file.
fn hash_stretch(digest: &mut Digest<Quick>, file: &FileImage, stretch: Range<u64>) {
    let mut at = stretch.start;
    for (place, bytes) in file.pieces_from(stretch.start) {
        if place >= stretch.end {
            break;
        }
        let start = at.max(place);
        hash_zeros(digest, start - at);
        let end = stretch.end.min(place + bytes.len() as u64).max(start);
        let within = |at: u64| usize::try_from(at - place).unwrap_or(usize::MAX);
        digest.update(bytes.get(within(start)..within(end)).unwrap_or_default());
        at = end;
    }
    hash_zeros(digest, stretch.end.saturating_sub(at));
}

fn hash_zeros(digest: &mut Digest<Quick>, mut count: u64) {
    while count > 0 {
        let some = count.min(ZEROS.len() as u64);
        digest.update(ZEROS.get(..some as usize).unwrap_or_default());
        count -= some;
    }
}

#[cfg(test)]
mod tests {
    use super::*;

    fn file(bytes: &[u8]) -> FileImage {
        FileImage::whole(bytes.to_vec())
    }

    #[test]
    fn each_byte_counts_but_those_of_the_id() {
        let mut bytes = vec![1; 3 * PIECE as usize + 100];
        let id = PIECE - 7..PIECE + 13;
        let whole = hash_of(&file(&bytes), HashKind::Sha1, id.clone());
        assert_eq!(whole.len(), 20);
        bytes[PIECE as usize + 12] = 9;
        assert_eq!(hash_of(&file(&bytes), HashKind::Sha1, id.clone()), whole);
        for at in [0, PIECE as usize + 13, bytes.len() - 1] {
            let mut other = bytes.clone();
            other[at] = 2;
            assert_ne!(hash_of(&file(&other), HashKind::Sha1, id.clone()), whole);
        }
        assert_eq!(hash_of(&file(&bytes), HashKind::Md5, 0..0).len(), 16);
    }

    /// The hash of one piece is the hash of its hash.
    #[test]
    fn a_small_file_is_one_piece() {
        let mut inner = Digest::<Quick>::new();
        inner.update(b"a\0\0d");
        let mut outer = Digest::<Sha1>::new();
        outer.update(&inner.finish());
        assert_eq!(hash_of(&file(b"abcd"), HashKind::Sha1, 1..3), outer.finish());
    }

    #[test]
    fn a_note_is_found_by_its_bytes() {
        assert_eq!(place_of_note(b"no image with a note", b"note", Some(7)), Some(16));
        assert_eq!(place_of_note(b"no image", b"note", None), None);
    }
}

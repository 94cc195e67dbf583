//! An image that a session answered.

use std::ops::{Deref, Range};

/// An image as a session answered it. What is written over in it is as it was answered when it is given back.
#[derive(Debug, Default)]
pub struct SessionImage {
    bytes: Vec<u8>,
    /// What was answered at the places that were written over, in the order of the writing.
    covered: Vec<(usize, Vec<u8>)>,
    /// What differs from the image that was answered before; `None` if that is not known.
    changed: Option<Vec<Range<usize>>>,
    /// The number of the answer, as each has another one; 0 of no session's.
    pub(super) number: u64,
}

impl SessionImage {
    /// An image, and what differs in it from the one that was answered before.
    pub(crate) fn new(bytes: Vec<u8>, changed: Option<Vec<Range<usize>>>, number: u64) -> SessionImage {
        SessionImage { bytes, covered: Vec::new(), changed, number }
    }

    /// Writes over the bytes at a place, if all of them are within the image.
    pub fn cover(&mut self, at: usize, bytes: &[u8]) {
        let end = at.saturating_add(bytes.len());
        if let Some(place) = self.bytes.get_mut(at..end) {
            self.covered.push((at, place.to_vec()));
            place.copy_from_slice(bytes);
        }
    }

    /// The ranges outside of which it has the bytes of the image that was answered before; `None` if that is not
    /// known.
    pub fn changed(&self) -> Option<&[Range<usize>]> {
        self.changed.as_deref()
    }

    /// The changed ranges since an answer of this number; `None` if that is not the answer before this one.
    pub fn changed_since(&self, answer: u64) -> Option<&[Range<usize>]> {
        self.changed().filter(|_| answer != 0 && self.number == answer + 1)
    }

    /// The number of the answer; 0 of no session's.
    pub fn number(&self) -> u64 {
        self.number
    }

    /// Takes back what was written over.
    pub fn uncover(&mut self) {
        for (at, bytes) in self.covered.drain(..).rev() {
            if let Some(place) = self.bytes.get_mut(at..at + bytes.len()) {
                place.copy_from_slice(&bytes);
            }
        }
    }

    /// The bytes as they were answered.
    pub(super) fn into_answer(mut self) -> Vec<u8> {
        self.uncover();
        self.bytes
    }

    /// The bytes as they are.
    pub fn into_vec(self) -> Vec<u8> {
        self.bytes
    }
}

impl From<Vec<u8>> for SessionImage {
    fn from(bytes: Vec<u8>) -> SessionImage {
        SessionImage::new(bytes, None, 0)
    }
}

impl Deref for SessionImage {
    type Target = [u8];

    fn deref(&self) -> &[u8] {
        &self.bytes
    }
}

#[cfg(test)]
mod tests {
    use super::SessionImage;

    #[test]
    fn what_was_written_over_is_there_again() {
        let mut image = SessionImage::from(b"abcdef".to_vec());
        image.cover(1, b"BC");
        image.cover(2, b"xy");
        image.cover(5, b"too long");
        assert_eq!(&*image, b"aBxyef");
        assert_eq!(image.into_answer(), b"abcdef");
    }
}

//! Bytes that are shared.

use std::fmt;
use std::ops::{Deref, Range};
use std::sync::Arc;

/// The bytes of a file, or a stretch of them as a member of an archive has; a copy shares them.
#[derive(Clone, Default)]
pub struct Bytes {
    whole: Arc<Vec<u8>>,
    start: usize,
    end: usize,
}

impl Bytes {
    /// A stretch of these bytes; `None` if it is not within them.
    pub fn slice(&self, range: Range<usize>) -> Option<Bytes> {
        self.get(range.clone())?;
        Some(Bytes { whole: Arc::clone(&self.whole), start: self.start + range.start, end: self.start + range.end })
    }

    /// The bytes alone; a copy if others share them, or if they are a stretch of more.
    pub fn into_vec(self) -> Vec<u8> {
        if (self.start, self.end) != (0, self.whole.len()) {
            return self.to_vec();
        }
        Arc::try_unwrap(self.whole).unwrap_or_else(|shared| shared.to_vec())
    }

    /// Whether these are the same bytes in memory, which is quicker than to compare them.
    pub fn is_identical(&self, other: &Bytes) -> bool {
        Arc::ptr_eq(&self.whole, &other.whole) && self.start == other.start && self.end == other.end
    }
}

impl From<Vec<u8>> for Bytes {
    fn from(bytes: Vec<u8>) -> Bytes {
        Bytes { start: 0, end: bytes.len(), whole: Arc::new(bytes) }
    }
}

impl Deref for Bytes {
    type Target = [u8];

    fn deref(&self) -> &[u8] {
        self.whole.get(self.start..self.end).unwrap_or_default()
    }
}

impl AsRef<[u8]> for Bytes {
    fn as_ref(&self) -> &[u8] {
        self
    }
}

impl PartialEq for Bytes {
    fn eq(&self, other: &Bytes) -> bool {
        self.is_identical(other) || **self == **other
    }
}

impl Eq for Bytes {}

impl fmt::Debug for Bytes {
    fn fmt(&self, f: &mut fmt::Formatter<'_>) -> fmt::Result {
        write!(f, "Bytes({} bytes)", self.len())
    }
}

#[cfg(test)]
mod tests {
    use super::Bytes;

    #[test]
    fn a_slice_shares_the_bytes() {
        let whole = Bytes::from(b"abcdef".to_vec());
        let part = whole.slice(2..5).unwrap();
        assert_eq!(&*part, b"cde");
        assert_eq!(&*part.slice(1..2).unwrap(), b"d");
        assert!(part.is_identical(&whole.slice(2..5).unwrap()));
        assert!(!part.is_identical(&whole));
    }

    #[test]
    fn bytes_are_taken_out_whole_or_as_a_copy() {
        let whole = Bytes::from(b"abc".to_vec());
        let (other, part) = (whole.clone(), whole.slice(1..2).unwrap());
        assert_eq!(
            (whole.into_vec(), part.into_vec(), other.into_vec()),
            (b"abc".to_vec(), b"b".to_vec(), b"abc".to_vec())
        );
    }

    #[test]
    fn a_slice_lies_within_the_bytes() {
        let part = Bytes::from(b"abcdef".to_vec()).slice(2..5).unwrap();
        assert!(part.slice(0..4).is_none());
        #[allow(clippy::reversed_empty_ranges)]
        let reversed = 2..1;
        assert!(part.slice(reversed).is_none());
    }

    #[test]
    fn bytes_are_compared_where_they_are_not_the_same_in_memory() {
        assert_eq!(Bytes::from(b"ab".to_vec()), Bytes::from(b"ab".to_vec()));
        assert_ne!(Bytes::from(b"ab".to_vec()), Bytes::from(b"ac".to_vec()));
    }
}

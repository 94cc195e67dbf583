//! The order of GNU ld's table of symbols.

use super::link::Link;
use crate::fast_map::FastSet;
use crate::objects::Object;

/// The names in the order of GNU ld's table of symbols, which depends on the order in which they were entered.
pub(crate) fn table_order<'a>(link: &'a Link<'_>, objects: &'a [Object]) -> Vec<&'a [u8]> {
    let mut named = link.program.symbols.named().peekable();
    let mut names: Vec<&[u8]> = Vec::new();
    for (number, object) in objects.iter().enumerate() {
        names
            .extend(std::iter::from_fn(|| named.next_if(|(read, _)| *read <= number)).map(|(_, name)| name.as_slice()));
        names.extend(object.globals().map(|symbol| -> &[u8] { symbol.name }));
    }
    names.extend(named.map(|(_, name)| name.as_slice()));
    let mut found: Vec<&[u8]> = Vec::new();
    let mut seen: FastSet<&[u8]> = FastSet::default();
    for name in names {
        if seen.insert(name) {
            found.push(name);
        }
    }
    let mut table = NameTable::default();
    found.iter().for_each(|name| table.insert(name));
    table.listed().into_iter().filter_map(|id| found.get(id).copied()).collect()
}

/// GNU ld's table of symbols (hash.c): chains, whose entries a larger table has in another order.
#[derive(Debug)]
pub struct NameTable {
    hashes: Vec<u64>,
    next: Vec<u32>,
    heads: Vec<u32>,
}

/// Stands for no entry.
const NONE: u32 = u32::MAX;

/// hash.c, `DEFAULT_SIZE`
const BUCKETS: usize = 4051;
/// hash.c, `higher_prime_number`, from the first that is greater than `BUCKETS`
const SIZES: [usize; 12] =
    [4093, 8191, 16381, 32749, 65521, 131_071, 262_139, 524_287, 1_048_573, 2_097_143, 4_194_301, 8_388_593];

impl Default for NameTable {
    fn default() -> NameTable {
        NameTable { hashes: Vec::new(), next: Vec::new(), heads: vec![NONE; BUCKETS] }
    }
}

impl NameTable {
    /// Enters a name that it does not have.
    pub fn insert(&mut self, name: &[u8]) {
        self.insert_hashed(table_hash(name));
    }

    /// Enters a name by its hash.
    pub fn insert_hashed(&mut self, hash: u64) {
        let id = self.hashes.len() as u32;
        self.hashes.push(hash);
        self.next.push(NONE);
        self.push_front(id, id, hash);
        if self.hashes.len() > self.heads.len() * 3 / 4 {
            if let Some(size) = SIZES.iter().find(|size| **size > self.heads.len()) {
                self.grow(*size);
            }
        }
    }

    /// Puts a chain, from its first to its last entry, in front of its bucket.
    fn push_front(&mut self, first: u32, last: u32, hash: u64) {
        let bucket = (hash % self.heads.len() as u64) as usize;
        if let (Some(next), Some(head)) = (self.next.get_mut(last as usize), self.heads.get_mut(bucket)) {
            *next = *head;
            *head = first;
        }
    }

    fn next_of(&self, id: u32) -> u32 {
        self.next.get(id as usize).copied().unwrap_or(NONE)
    }

    fn hash(&self, id: u32) -> Option<u64> {
        self.hashes.get(id as usize).copied()
    }

    fn grow(&mut self, size: usize) {
        let old = std::mem::replace(&mut self.heads, vec![NONE; size]);
        for head in old {
            let mut first = head;
            while let Some(hash) = self.hash(first) {
                let mut last = first;
                while self.hash(self.next_of(last)) == Some(hash) {
                    last = self.next_of(last);
                }
                let next = self.next_of(last);
                self.push_front(first, last, hash);
                first = next;
            }
        }
    }

    /// The numbers of the names, counted as they were entered, in the order of the table.
    pub fn listed(&self) -> Vec<usize> {
        let mut found = Vec::with_capacity(self.hashes.len());
        for head in &self.heads {
            let mut at = *head;
            while at != NONE {
                found.push(at as usize);
                at = self.next_of(at);
            }
        }
        found
    }
}

/// The hash of a name (hash.c, `bfd_hash_hash`): the sum of a byte and its shift is of 32 bits.
pub fn table_hash(name: &[u8]) -> u64 {
    let mixed = |hash: u64, word: u32| {
        let hash = hash.wrapping_add(u64::from(word.wrapping_add(word << 17)));
        hash ^ (hash >> 2)
    };
    let hash = name.iter().fold(0, |hash, byte| mixed(hash, u32::from(*byte)));
    mixed(hash, name.len() as u32)
}

#[cfg(test)]
mod tests {
    use super::*;

    /// hash.c: a table lists its buckets, and of a bucket the last entry first; a larger one turns chains around.
    #[test]
    fn a_table_grows() {
        let mut table = NameTable::default();
        (0..4000).for_each(|number| table.insert(format!("name_{}", number).as_bytes()));
        assert_eq!(table.heads.len(), 8191);
        let mut listed = table.listed();
        listed.sort_unstable();
        assert_eq!(listed, (0..4000).collect::<Vec<_>>());
    }
}

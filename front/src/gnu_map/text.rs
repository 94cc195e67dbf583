//! The text of a map, as it is written.

/// The column of addresses (`SECTION_NAME_MAP_LENGTH`).
pub(super) const COLUMN: usize = 16;
/// The column in which a size ends, counted from the end of the address.
const SIZE: usize = 11;
const BLANK: [u8; 64] = [b' '; 64];
const DIGITS: &[u8; 16] = b"0123456789abcdef";

/// Text that grows.
#[derive(Debug, Default)]
pub(super) struct Text(Vec<u8>);

impl Text {
    /// A text for which there is so much room.
    pub(super) fn with_room(bytes: usize) -> Text {
        Text(Vec::with_capacity(bytes))
    }

    /// The bytes so far, which are taken out.
    pub(super) fn take(&mut self) -> Vec<u8> {
        std::mem::take(&mut self.0)
    }

    /// Adds bytes.
    pub(super) fn put(&mut self, bytes: &[u8]) -> &mut Text {
        self.0.extend_from_slice(bytes);
        self
    }

    /// Ends a line.
    pub(super) fn end(&mut self) {
        self.0.push(b'\n');
    }

    /// Adds so many spaces, 64 at most.
    pub(super) fn blank(&mut self, count: usize) -> &mut Text {
        self.put(BLANK.get(..count).unwrap_or(&BLANK))
    }

    /// Adds a name, and spaces up to the column of addresses: on the next line behind a long one.
    pub(super) fn name(&mut self, front: &[u8], name: &[u8]) -> &mut Text {
        self.put(front).put(name);
        match COLUMN.checked_sub(front.len() + name.len()).filter(|room| *room > 1) {
            Some(room) => self.blank(room),
            None => self.put(b"\n").blank(COLUMN),
        }
    }

    /// Adds an address, of 16 digits.
    pub(super) fn address(&mut self, address: u64) -> &mut Text {
        self.put(b"0x").put(&digits(address))
    }

    /// Adds a size to the right of its column.
    pub(super) fn size(&mut self, size: u64) -> &mut Text {
        let digits = digits(size);
        let from = digits.iter().position(|digit| *digit != b'0').unwrap_or(digits.len() - 1);
        let own = digits.get(from..).unwrap_or_default();
        self.blank(SIZE.saturating_sub(own.len() + 2).max(1)).put(b"0x").put(own)
    }
}

/// The digits of a number.
fn digits(value: u64) -> [u8; 16] {
    let mut digits = [0; 16];
    for (at, digit) in digits.iter_mut().rev().enumerate() {
        *digit = DIGITS.get((value >> (4 * at) & 15) as usize).copied().unwrap_or(b'0');
    }
    digits
}

#[cfg(test)]
mod tests {
    use super::*;

    fn written(write: impl FnOnce(&mut Text)) -> String {
        let mut text = Text::default();
        write(&mut text);
        String::from_utf8(text.take()).unwrap()
    }

    #[test]
    fn addresses_and_sizes_are_those_of_formats() {
        for value in [0, 9, 0x10, 0xABC, 0x1234_5678, 0x1_2345_6789, u64::MAX] {
            let now = written(|text| {
                text.address(value).size(value);
            });
            assert_eq!(now, format!("0x{value:016x} {:>10}", format!("{value:#x}")));
        }
    }

    #[test]
    fn a_long_name_has_a_line_of_its_own() {
        let of = |name: &str| {
            written(|text| {
                text.name(b" ", name.as_bytes()).put(b"x");
            })
        };
        assert_eq!(of(".text"), " .text          x");
        assert_eq!(of("thirteen_long"), " thirteen_long  x");
        assert_eq!(of("fourteen_long_"), " fourteen_long_\n                x");
    }
}

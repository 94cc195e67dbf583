//! Whether the table `.eh_frame_hdr` of an image says of each entry of `.eh_frame` where its code is, ascending.

use super::loaded_image::Loaded;
use crate::objects::{EH_FRAME_HDR_HEAD, FRAME_COUNT_SIZE, FRAME_ROW_SIZE};

const WORD: usize = 4;
/// The encodings (dwarf2.h, `DW_EH_PE_*`) of numbers of 4 bytes with and without a sign, and of distances.
const UNSIGNED_4: u8 = 3;
const SIGNED_4: u8 = 0xB;
const DISTANCE: u8 = 0x10;
const APPLICATION: u8 = 0x70;

/// The number of the first row that is not right; `start` is the address of the table's output section. `None` if all
/// are.
pub(super) fn wrong_row(sections: &[Loaded<'_>], table: u64, start: u64, count: usize) -> Option<usize> {
    let mut last = None;
    (0..count).find(|number| {
        let at = table.wrapping_add(EH_FRAME_HDR_HEAD + FRAME_COUNT_SIZE + FRAME_ROW_SIZE * *number as u64);
        let address = |at: u64| {
            let word = bytes_at(sections, at)?.get(..WORD)?;
            Some(start.wrapping_add(i32::from_le_bytes(word.try_into().ok()?) as u64))
        };
        let (code, entry) = (address(at), address(at.wrapping_add(WORD as u64)));
        let before = std::mem::replace(&mut last, code);
        code.is_none() || code != entry.and_then(|entry| code_of(sections, entry)) || before > code
    })
}

/// The bytes of an image from an address to the end of the section there.
fn bytes_at<'a>(sections: &[Loaded<'a>], address: u64) -> Option<&'a [u8]> {
    let is_there = |one: &&Loaded<'_>| one.contents.len() as u64 > address.wrapping_sub(one.address);
    let section = sections.iter().find(is_there)?;
    section.contents.get(usize::try_from(address.wrapping_sub(section.address)).ok()?..)
}

fn word_at(sections: &[Loaded<'_>], address: u64) -> Option<u32> {
    Some(u32::from_le_bytes(bytes_at(sections, address)?.get(..WORD)?.try_into().ok()?))
}

/// Where the code of an entry is, as it says itself: 0 if its field is (elf-eh-frame.c,
/// `_bfd_elf_write_section_eh_frame`).
fn code_of(sections: &[Loaded<'_>], entry: u64) -> Option<u64> {
    let link_at = entry.wrapping_add(WORD as u64);
    let common = link_at.wrapping_sub(u64::from(word_at(sections, link_at)?));
    let encoding = encoding_of(bytes_at(sections, common)?)?;
    let at = link_at.wrapping_add(WORD as u64);
    let field = bytes_at(sections, at)?;
    let value = match encoding & 0xF {
        UNSIGNED_4 => u64::from(word_at(sections, at)?),
        SIGNED_4 => word_at(sections, at)? as i32 as u64,
        0 | 4 | 0xC => u64::from_le_bytes(field.get(..8)?.try_into().ok()?),
        _ => return None,
    };
    let is_distance = encoding & APPLICATION == DISTANCE && value != 0;
    Some(if is_distance { value.wrapping_add(at) } else { value })
}

/// How a CIE, which begins here, says that addresses of code are encoded.
fn encoding_of(common: &[u8]) -> Option<u8> {
    let version = *common.get(8)?;
    let rest = common.get(9..)?;
    let end = memchr::memchr(0, rest)?;
    let (letters, rest) = (rest.get(..end)?, rest.get(end + 1..)?);
    let mut at = 0;
    if version == 4 {
        at += 2;
    }
    (0..2).try_for_each(|_| skip(rest, &mut at))?;
    if version == 1 {
        at += 1;
    } else {
        skip(rest, &mut at)?;
    }
    for letter in letters {
        match letter {
            b'z' => skip(rest, &mut at)?,
            b'L' => at += 1,
            b'R' => return rest.get(at).copied(),
            b'P' => at += 1 + if matches!(rest.get(at)? & 7, 3) { WORD } else { 8 },
            _ => {}
        }
    }
    Some(0)
}

/// Passes a number in parts of seven bits.
fn skip(bytes: &[u8], at: &mut usize) -> Option<()> {
    *at += bytes.get(*at..)?.iter().position(|byte| *byte < 0x80)? + 1;
    Some(())
}

#[cfg(test)]
mod tests {
    use super::*;
    use bstr::ByteSlice;

    /// A CIE as gcc writes it, without instructions, and two entries of it, at 0x1000; code begins at 0x2000.
    fn frames(second: u32) -> Vec<u8> {
        let mut bytes = vec![12, 0, 0, 0, 0, 0, 0, 0, 1, b'z', b'R', 0, 1, 0x78, 16, 1, 0x1B];
        bytes[0] += 1;
        for (number, code) in [0x2000u32, second].iter().enumerate() {
            let at = 17 + 16 * number as u32;
            for word in [12, at + 4, code.wrapping_sub(0x1000 + at + 8), 16] {
                bytes.extend(word.to_le_bytes());
            }
        }
        bytes
    }

    fn first_wrong(rows: [[u32; 2]; 2], second: u32) -> Option<usize> {
        let words = [0, 0, 2].into_iter().chain(rows.iter().flatten().map(|address| address.wrapping_sub(0x800)));
        let table: Vec<u8> = words.flat_map(u32::to_le_bytes).collect();
        let frames = frames(second);
        let section = |address, contents| Loaded {
            name: b".s".as_bstr(),
            address,
            size: 0,
            load: address,
            has_bytes: true,
            contents,
        };
        wrong_row(&[section(0x1000, frames.as_slice()), section(0x800, &table)], 0x800, 0x800, 2)
    }

    /// LSB, 'Exception Frame Header': rows ascend by the code, and each has its entry.
    #[test]
    fn rows_are_of_their_entries() {
        assert_eq!(first_wrong([[0x2000, 0x1011], [0x2010, 0x1021]], 0x2010), None);
        assert_eq!(first_wrong([[0x2000, 0x1011], [0x2011, 0x1021]], 0x2010), Some(1), "another place");
        assert_eq!(first_wrong([[0x2000, 0x1011], [0x1FF0, 0x1021]], 0x1FF0), Some(1), "not ascending");
        assert_eq!(first_wrong([[0x2000, 0x3011], [0x2010, 0x1021]], 0x2010), Some(0), "not there");
    }
}

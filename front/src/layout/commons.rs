//! Common blocks: which object has them, and in what order GNU ld gives them places (ldlang.c, `lang_common`).

use super::evaluation::Base;
use super::ids::SectionId;
use super::interned_names::FastMap;
use super::link::Link;
use super::name_table::table_order;
use super::rows::Rows;
use super::settings::SortCommon;
use super::symbols::SymbolKind;
use crate::objects::{Object, ObjectIndex, Rank};
use std::collections::HashSet;

/// A common block that no definition takes the place of.
#[derive(Clone, Copy, PartialEq, Eq, Debug)]
struct Block {
    owner: ObjectIndex,
    size: u64,
    align: u64,
}

/// What the objects so far have of a name.
#[derive(Clone, Copy, PartialEq, Eq, Debug)]
enum Known {
    Strong,
    Weak,
    Common(Block),
}

/// The common blocks, and the objects that have a section for some, of blocks that another took the place of too.
fn read(objects: &[Object]) -> (FastMap<&[u8], Known>, HashSet<ObjectIndex>) {
    let mut known: FastMap<&[u8], Known> = FastMap::default();
    let mut owners = HashSet::new();
    if !objects.iter().any(|object| object.has_commons()) {
        return (known, owners);
    }
    for (number, object) in objects.iter().enumerate() {
        let owner = ObjectIndex(number as u32);
        for symbol in object.globals() {
            let (size, align) = (symbol.size, symbol.value.max(1));
            let name: &[u8] = symbol.name;
            let new = match (symbol.rank(), known.get(name).copied()) {
                (None, _) | (Some(Rank::Common), Some(Known::Strong)) => continue,
                // A block of a size that is greater is the one that counts; the greatest alignment does in any case
                // (linker.c, `link_action`: COM, BIG, CREF; elflink.c, `elf_link_add_object_symbols`).
                (Some(Rank::Common), None | Some(Known::Weak)) => {
                    owners.insert(owner);
                    Known::Common(Block { owner, size, align })
                }
                (Some(Rank::Common), Some(Known::Common(block))) => {
                    let align = align.max(block.align);
                    if size > block.size {
                        owners.insert(owner);
                        Known::Common(Block { owner, size, align })
                    } else {
                        Known::Common(Block { align, ..block })
                    }
                }
                (Some(Rank::Weak), None) => Known::Weak,
                (Some(Rank::Weak), Some(_)) => continue,
                (Some(Rank::Strong), _) => Known::Strong,
            };
            known.insert(name, new);
        }
    }
    (known, owners)
}

/// The objects that have a section for common blocks.
pub(crate) fn owners(objects: &[Object]) -> HashSet<ObjectIndex> {
    read(objects).1
}

impl Link<'_> {
    /// Gives common blocks their places.
    pub fn place_commons(&mut self, objects: &[Object], rows: &Rows) {
        let (known, owners) = read(objects);
        if owners.is_empty() || self.program.inhibits_common || self.settings.inhibits_common {
            return;
        }
        let block_of = |name: &[u8]| match known.get(name) {
            Some(Known::Common(block)) => Some((name.to_vec(), *block)),
            _ => None,
        };
        let blocks = table_order(self, objects).into_iter().filter_map(block_of).collect();
        for (name, block) in sorted(blocks, self.settings.sort_common) {
            if let Some(section) = rows.common(block.owner) {
                self.place_common(&name, block, section);
            }
        }
    }

    /// Gives one its place (linker.c, `bfd_generic_define_common_symbol`).
    fn place_common(&mut self, name: &[u8], block: Block, id: SectionId) {
        let symbol = self.program.symbols.enter(name);
        if self.symbol(symbol).map_or(false, |symbol| symbol.of_script) {
            return;
        }
        let section = match self.sections.get_mut(id.index()) {
            None => return,
            Some(section) => section,
        };
        let align = block.align.checked_next_power_of_two().unwrap_or(1);
        section.size = section.size.wrapping_add(section.size.wrapping_neg() & (align - 1));
        section.align = section.align.max(align);
        section.own_align = section.align;
        let value = section.size;
        section.size = section.size.wrapping_add(block.size);
        if let Some(symbol) = self.program.symbols.know(symbol) {
            symbol.kind = SymbolKind::Defined;
            symbol.value = value;
            symbol.base = Base::Absolute;
            symbol.section = Some(id);
            symbol.is_in_objects = true;
        }
    }
}

/// `--sort-common`: by alignments up to 16, which all that are greater count as (ldlang.c, `lang_one_common`).
fn sorted(mut blocks: Vec<(Vec<u8>, Block)>, sort: Option<SortCommon>) -> Vec<(Vec<u8>, Block)> {
    let power = |block: &Block| block.align.trailing_zeros();
    match sort {
        None => {}
        Some(SortCommon::Descending) => blocks.sort_by_key(|(_, block)| std::cmp::Reverse(power(block).min(4))),
        Some(SortCommon::Ascending) => blocks.sort_by_key(|(_, block)| power(block).min(5)),
    }
    blocks
}

#[cfg(test)]
mod tests {
    use super::*;

    fn block(align: u64) -> Block {
        Block { owner: ObjectIndex(0), size: 1, align }
    }

    /// ldlang.c, `lang_common`: greater alignments first, and those of more than 16 as one.
    #[test]
    fn sorts_of_common_blocks() {
        let blocks: Vec<(Vec<u8>, Block)> =
            [(b"a", 1), (b"b", 64), (b"c", 16), (b"d", 4)].map(|(name, align)| (name.to_vec(), block(align))).to_vec();
        let names = |sort| -> Vec<Vec<u8>> { sorted(blocks.clone(), sort).into_iter().map(|(name, _)| name).collect() };
        assert_eq!(names(None), [b"a", b"b", b"c", b"d"]);
        assert_eq!(names(Some(SortCommon::Descending)), [b"b", b"c", b"d", b"a"]);
        assert_eq!(names(Some(SortCommon::Ascending)), [b"a", b"d", b"c", b"b"]);
    }
}

//! What `--gc-sections` keeps (elflink.c, `bfd_elf_gc_sections`).
//!
//! Roots are what statements under KEEP match, the sections of names that are wanted, notes, and what objects say is
//! retained. From these, sections are reached by relocations; code reaches its tables of exceptions by its entries of
//! `.eh_frame`; a reference to `__start_NAME` reaches all sections NAME.

use super::dropped_groups::is_left_out;
use crate::fast_map::FastSet;
use crate::layout::eh_frame::references::{unwinding_of, Unwinding};
use crate::layout::evaluation::{Base, InputSection, Origin};
use crate::layout::flags::Flags;
use crate::layout::ids::{NameId, SectionId};
use crate::layout::interned_names::FastMap;
use crate::layout::link::Link;
use crate::layout::rows::Rows;
use crate::layout::settings::GcSettings;
use crate::layout::symbols::{SymbolKind, SymbolState};
use crate::objects::{
    Binding, Home, Object, ObjectIndex, Rank, Section, SectionFlags, SectionIndex, SectionKind, SymbolIndex,
};
use crate::script::tree::Name;
use object::elf;
use std::collections::HashSet;

impl Link<'_> {
    /// Leaves out what nothing refers to.
    pub fn collect(&mut self, objects: &[Object], rows: &Rows) {
        let settings = match &self.settings.gc {
            None => return,
            Some(settings) => settings,
        };
        let left_out = self.kept_of_left_out(objects);
        let mut marked = Marked::new(self, objects, rows, settings);
        marked.mark_roots(&left_out);
        marked.mark_others();
        let is_marked = marked.is_marked;
        for (section, is_marked) in self.sections.iter_mut().zip(is_marked) {
            if !is_marked {
                section.flags |= Flags::EXCLUDE;
            }
        }
    }
}

/// What a name leads to.
#[derive(Clone, Copy, PartialEq, Eq, Debug)]
enum Target {
    Nothing,
    Section(SectionId),
    /// All sections of a name.
    All(NameId),
}

/// The sections that are reached so far.
struct Marked<'a> {
    link: &'a Link<'a>,
    objects: &'a [Object],
    rows: &'a Rows,
    settings: &'a GcSettings,
    is_marked: Vec<bool>,
    /// The sections whose references were not followed yet.
    waiting: Vec<SectionId>,
    /// The sections that are reached and are left out with their groups, and those of them that were not followed yet.
    left_out: FastSet<(ObjectIndex, SectionIndex)>,
    waiting_left_out: Vec<(ObjectIndex, SectionIndex)>,
    /// By name: what it leads to.
    names: FastMap<&'a [u8], Target>,
    /// By object: what its entries of `.eh_frame` refer to, once it was asked for.
    unwinding: Vec<Option<Unwinding>>,
}

impl<'a> Marked<'a> {
    fn new(link: &'a Link<'a>, objects: &'a [Object], rows: &'a Rows, settings: &'a GcSettings) -> Marked<'a> {
        let mut unwinding = Vec::new();
        unwinding.resize_with(objects.len(), || None);
        Marked {
            link,
            objects,
            rows,
            settings,
            is_marked: vec![false; link.sections.len()],
            waiting: Vec::new(),
            left_out: FastSet::default(),
            waiting_left_out: Vec::new(),
            names: names_of(link, objects, rows, settings),
            unwinding,
        }
    }

    // --- roots ---

    /// Marks the roots, of which some are left out with their groups.
    fn mark_roots(&mut self, left_out: &[(ObjectIndex, SectionIndex)]) {
        self.mark_wanted();
        if self.settings.keeps_exported {
            self.mark_exported();
        }
        for (number, section) in self.link.sections.iter().enumerate() {
            let is_note = section.kind == elf::SHT_NOTE && section.bits & u64::from(elf::SHF_GROUP) == 0;
            if (section.flags.has(Flags::KEEP) || is_note) && !section.flags.has(Flags::EXCLUDE) {
                self.mark(SectionId::new(number));
            }
        }
        for (number, object) in self.objects.iter().enumerate() {
            for section in object.retained() {
                self.mark_number(ObjectIndex(number as u32), *section);
            }
        }
        left_out.iter().for_each(|(object, number)| self.mark_number(*object, *number));
        self.follow();
    }

    /// The sections of names that are wanted (elflink.c, `_bfd_elf_gc_keep`).
    fn mark_wanted(&mut self) {
        let program = &self.link.program;
        let default = Name::from("start");
        let entry = self.link.settings.entry.as_ref().or(program.entry.as_ref()).unwrap_or(&default);
        let given = self.link.settings.undefined.iter().chain(&program.externs);
        let wanted: Vec<&Name> = given.chain([entry, &self.settings.init, &self.settings.fini]).collect();
        for name in wanted {
            if let Some(Target::Section(section)) = self.names.get(name.as_slice()) {
                self.mark(*section);
            }
        }
    }

    /// `--gc-keep-exported` (elflink.c, `bfd_elf_gc_mark_dynamic_ref_symbol`).
    fn mark_exported(&mut self) {
        let hidden: HashSet<&[u8]> = self
            .objects
            .iter()
            .flat_map(|object| object.globals())
            .filter(|symbol| symbol.visibility.is_hidden())
            .map(|symbol| -> &[u8] { symbol.name })
            .collect();
        let all: Vec<SectionId> = self
            .names
            .iter()
            .filter(|(name, _)| !hidden.contains(*name))
            .filter_map(|(_, target)| match target {
                Target::Section(section) => Some(*section),
                Target::All(_) | Target::Nothing => None,
            })
            .collect();
        for section in all {
            self.mark(section);
        }
    }

    // --- references ---

    fn mark(&mut self, id: SectionId) {
        if let Some(is_marked) = self.is_marked.get_mut(id.index()).filter(|is_marked| !**is_marked) {
            *is_marked = true;
            self.waiting.push(id);
        }
    }

    fn mark_number(&mut self, object: ObjectIndex, number: SectionIndex) {
        if let Some(id) = self.rows.find(object, number) {
            return self.mark(id);
        }
        let section = self.objects.get(object.0 as usize).and_then(|object| object.section(number));
        if section.as_ref().map_or(false, is_left_out) && self.left_out.insert((object, number)) {
            self.waiting_left_out.push((object, number));
        }
    }

    fn follow(&mut self) {
        loop {
            self.follow_linked();
            let (index, number) = match self.waiting_left_out.pop() {
                Some(next) => next,
                None => return,
            };
            if let Some(object) = self.objects.get(index.0 as usize) {
                object.relocations_left_out(number).for_each(|one| self.mark_symbol(index, object, one.symbol));
                self.mark_group_of(index, object, number, SectionKind::NULL);
            }
        }
    }

    fn follow_linked(&mut self) {
        while let Some(id) = self.waiting.pop() {
            let (index, number) = match self.link.section(id).map(|section| (section.object, section.origin)) {
                Some((index, Origin::Header(number))) => (index, number),
                _ => continue,
            };
            let object = match self.objects.get(index.0 as usize) {
                None => continue,
                Some(object) => object,
            };
            let slot = match self.unwinding.get_mut(index.0 as usize) {
                None => continue,
                Some(slot) => slot,
            };
            let unwinding = slot.get_or_insert_with(|| unwinding_of(object));
            let of_code = unwinding.references.get(&number).cloned().unwrap_or_default();
            if unwinding.section != Some(number) || self.settings.keeps_named_by_frames {
                for relocation in object.relocations(number) {
                    self.mark_symbol(index, object, relocation.symbol);
                }
            }
            for symbol in of_code {
                self.mark_symbol(index, object, symbol);
            }
            self.mark_group(index, object, number);
        }
    }

    /// What a relocation's symbol is in (elflink.c, `_bfd_elf_gc_mark_rsec`).
    fn mark_symbol(&mut self, index: ObjectIndex, object: &Object, symbol: SymbolIndex) {
        let symbol = match object.symbol(symbol) {
            None => return,
            Some(symbol) => symbol,
        };
        if symbol.binding == Binding::Local {
            if let Home::Section(number) = symbol.home {
                self.mark_number(index, number);
            }
            return;
        }
        match self.names.get(&**symbol.name).copied() {
            Some(Target::Section(section)) => self.mark(section),
            Some(Target::All(name)) => {
                self.names.insert(bytes_of(self.objects, index, symbol.index), Target::Nothing);
                for (number, section) in self.link.sections.iter().enumerate() {
                    if section.name == name {
                        self.mark(SectionId::new(number));
                    }
                }
            }
            Some(Target::Nothing) | None => {}
        }
    }

    /// The other sections of a section's group.
    fn mark_group(&mut self, index: ObjectIndex, object: &Object, number: SectionIndex) {
        let is_in_group = object.section(number).map_or(false, |section| section.flags.has(SectionFlags::GROUP));
        if is_in_group {
            self.mark_group_of(index, object, number, SectionKind::GROUP);
        }
    }

    /// Marks the other sections of a section's groups of one type; a group that is left out counts as none.
    fn mark_group_of(&mut self, index: ObjectIndex, object: &Object, number: SectionIndex, kind: SectionKind) {
        let is_group =
            |section: &Section<'_>| section.kind == kind && (kind == SectionKind::GROUP || section.name == ".group");
        for group in object.sections().filter(is_group) {
            let words = object.contents(group.index).chunks_exact(4).skip(1);
            let members: Vec<SectionIndex> = words
                .filter_map(|word| word.try_into().ok())
                .map(|word| SectionIndex(u32::from_le_bytes(word)))
                .collect();
            if members.contains(&number) {
                for member in members {
                    self.mark_number(index, member);
                }
            }
        }
    }

    // --- what is kept beside (elflink.c, `_bfd_elf_gc_mark_extra_sections`) ---

    fn mark_others(&mut self) {
        for (number, section) in self.link.sections.iter().enumerate() {
            if section.flags.has(Flags::CREATED) {
                self.mark(SectionId::new(number));
            }
        }
        for (number, object) in self.objects.iter().enumerate() {
            self.mark_linked(ObjectIndex(number as u32), object);
        }
        self.follow();
        let mut has_kept = vec![false; self.objects.len()];
        for (section, is_marked) in self.link.sections.iter().zip(&self.is_marked) {
            if let Some(has_kept) = has_kept.get_mut(section.object.0 as usize) {
                let counts = section.flags.has(Flags::ALLOC) && section.kind != elf::SHT_NOTE;
                *has_kept |= *is_marked && counts && !section.flags.has(Flags::CREATED);
            }
        }
        for (object, number) in &self.left_out {
            let section = self.objects.get(object.0 as usize).and_then(|object| object.section(*number));
            let counts = section.map_or(false, |section| section.flags.has(SectionFlags::ALLOC));
            if let Some(has_kept) = has_kept.get_mut(object.0 as usize) {
                *has_kept |= counts;
            }
        }
        for (number, section) in self.link.sections.iter().enumerate() {
            let is_special = section.flags.has(Flags::DEBUGGING) || self.is_plain(section);
            let is_in_group = section.bits & u64::from(elf::SHF_GROUP) != 0;
            let is_linked = section.bits & u64::from(elf::SHF_LINK_ORDER) != 0;
            if has_kept.get(section.object.0 as usize) == Some(&true) && is_special && !is_in_group && !is_linked {
                if let Some(is_marked) = self.is_marked.get_mut(number) {
                    *is_marked = true;
                }
            }
        }
        for (number, object) in self.objects.iter().enumerate() {
            if has_kept.get(number) == Some(&true) && object.has_groups() {
                self.mark_groups(ObjectIndex(number as u32), object);
            }
        }
    }

    /// Whether a section is neither loaded nor has relocations.
    fn is_plain(&self, section: &InputSection) -> bool {
        let object = self.objects.get(section.object.0 as usize);
        let has_relocations = |number| object.map_or(false, |object| object.has_relocations(number));
        !section.flags.has(Flags::ALLOC) && !section.number().map_or(false, has_relocations)
    }

    /// Groups of debug information alone, or of plain sections alone (`_bfd_elf_gc_mark_debug_special_section_group`).
    fn mark_groups(&mut self, index: ObjectIndex, object: &Object) {
        for group in object.sections().filter(|section| section.kind == SectionKind::GROUP) {
            let words = object.contents(group.index).chunks_exact(4).skip(1);
            let numbers = words.filter_map(|word| word.try_into().ok().map(u32::from_le_bytes));
            let members: Vec<SectionId> =
                numbers.filter_map(|number| self.rows.find(index, SectionIndex(number))).collect();
            let sections = || members.iter().filter_map(|id| self.link.section(*id));
            let is_debugging = sections().all(|section| section.flags.has(Flags::DEBUGGING));
            if is_debugging || sections().all(|section| self.is_plain(section)) {
                members.into_iter().for_each(|id| {
                    if let Some(is_marked) = self.is_marked.get_mut(id.index()) {
                        *is_marked = true;
                    }
                });
            }
        }
    }

    /// Sections with SHF_LINK_ORDER stay with the sections that they belong to.
    fn mark_linked(&mut self, index: ObjectIndex, object: &Object) {
        for section in object.sections().filter(|section| section.flags.has(SectionFlags::LINK_ORDER)) {
            let mut at = SectionIndex(section.link);
            for _ in 0..object.section_count() {
                let is_marked = self.rows.find(index, at).and_then(|id| self.is_marked.get(id.index()));
                if is_marked == Some(&true) {
                    self.mark_number(index, section.index);
                    break;
                }
                match object.section(at) {
                    Some(next) if next.flags.has(SectionFlags::LINK_ORDER) => at = SectionIndex(next.link),
                    _ => break,
                }
            }
        }
    }
}

/// A symbol's name, as long as the objects live.
fn bytes_of(objects: &[Object], index: ObjectIndex, symbol: SymbolIndex) -> &[u8] {
    match objects.get(index.0 as usize).and_then(|object| object.symbol(symbol)) {
        Some(symbol) => symbol.name,
        None => &[],
    }
}

/// What each name leads to: in objects, and what script and GNU ld itself say of it.
fn names_of<'a>(
    link: &'a Link<'a>,
    objects: &'a [Object],
    rows: &'a Rows,
    settings: &GcSettings,
) -> FastMap<&'a [u8], Target> {
    let mut found: FastMap<&[u8], (Rank, u64, Target)> = FastMap::default();
    for (number, object) in objects.iter().enumerate() {
        let index = ObjectIndex(number as u32);
        for symbol in object.globals() {
            let rank = match symbol.rank() {
                None => continue,
                Some(rank) => rank,
            };
            let size = if rank == Rank::Common { symbol.size } else { 0 };
            let name: &[u8] = symbol.name;
            if found.get(name).map_or(false, |(old, old_size, _)| (*old, *old_size) >= (rank, size)) {
                continue;
            }
            let section = match symbol.home {
                Home::Section(number) => rows.find(index, number),
                Home::Common => rows.common(index),
                Home::Undefined | Home::Absolute | Home::Reserved(_) => None,
            };
            found.insert(name, (rank, size, section.map_or(Target::Nothing, Target::Section)));
        }
    }
    let mut names: FastMap<&[u8], Target> = found.into_iter().map(|(name, (_, _, target))| (name, target)).collect();
    for symbol in link.program.symbols.iter().filter(|symbol| symbol.is_known && symbol.is_defined()) {
        if symbol.of_script || symbol.by_linker {
            names.insert(symbol.name.as_slice(), target_of(link, symbol, settings));
        }
    }
    names
}

/// What a name of the script or of GNU ld itself leads to: what it stands for, as it is before sections have places.
fn target_of(link: &Link<'_>, symbol: &SymbolState, settings: &GcSettings) -> Target {
    match symbol.section {
        Some(_) if symbol.by_linker && settings.start_stop_gc => Target::Nothing,
        Some(section) if symbol.by_linker => {
            link.section(section).map_or(Target::Nothing, |section| Target::All(section.name))
        }
        Some(section) => Target::Section(section),
        None => match symbol.base {
            Base::Section(section) if symbol.kind == SymbolKind::Defined => Target::Section(section),
            _ => Target::Nothing,
        },
    }
}

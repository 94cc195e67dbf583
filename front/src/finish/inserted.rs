//! Sections inserted among those of an image: relocations, each after the section that they apply to (`--emit-relocs`),
//! and output sections without bytes that GNU ld's file has. Those that GNU ld's file lacks are removed. Headers refer
//! to other sections as those of GNU ld's file do.

use bstr::BString;
use object::elf;

use super::file_image::{plan_or_unchanged, FilePlan};
use super::image_headers::{Image, NotAnImage, Section};
use super::symbols::{EmptySection, OtherSections, RelocationTable, SymbolTable};
use crate::snapshot::Bytes;

/// The bytes of an entry of a table of relocations, and of one of symbols.
const ENTRY: u64 = 24;
const SYMBOL: usize = 24;

/// A section that is put into a file.
struct Inserted {
    /// The number of the section after which it stands, before any is put in.
    after: usize,
    /// The number by which symbols refer to it.
    number: Option<u16>,
    name: BString,
    /// Its header, without name, link and info.
    header: Section,
    /// The section that relocations are of.
    target: Option<usize>,
    /// Its bytes, in parts.
    content: Vec<Bytes>,
}

/// Gives a file these sections, by which its section headers get other numbers.
pub(super) fn insert(data: &[u8], mut sections: OtherSections, plan: &mut Option<FilePlan>) -> Result<(), NotAnImage> {
    if sections.is_empty() {
        return Ok(());
    }
    let mut changed = plan_or_unchanged(data, plan.take())?;
    changed.put_empty(&sections.empty);
    let links = std::mem::take(&mut sections.links);
    if sections.has_their_numbers() {
        changed.set_links(&links, &|number| number);
    } else {
        let numbers = renumber(data, sections, &mut changed)?;
        changed.set_links(&links, &|number| numbers.get(number));
    }
    *plan = Some(changed);
    Ok(())
}

/// Puts sections in, takes others out and brings them into their order; gives the new numbers.
fn renumber(data: &[u8], sections: OtherSections, changed: &mut FilePlan) -> Result<Numbers, NotAnImage> {
    let OtherSections { relocations, missing, dropped, order, .. } = sections;
    let image = Image::read(data)?;
    let mut names = changed.names_of(&image)?;
    let mut inserted = Vec::with_capacity(relocations.len() + missing.len());
    for table in relocations {
        let section = changed.sections.get(table.section);
        let name = section.map_or(&b""[..], |section| name_at(&names, section.name as usize));
        inserted.push(of_relocations(table, name));
    }
    inserted.extend(missing.into_iter().map(of_nothing));
    let order: Vec<usize> = (0..changed.sections.len()).map(|at| order.get(at).copied().unwrap_or(at)).collect();
    // Stable, so that relocations follow their section at once.
    let places = places_in(&order);
    inserted.sort_by_key(|one| places.get(one.after).copied());
    let numbers = Numbers::of(&order, &inserted, &dropped);
    let table = changed.sections.iter().position(|section| section.kind == elf::SHT_SYMTAB);
    let table = table.map_or(0, |table| numbers.get(table) as u32);
    changed.renumber(&|number| numbers.get(number));
    changed.arrange(order.into_iter().filter(|number| dropped.binary_search(number).is_err()));
    if let Some(Some(symbols)) = &mut changed.symbols {
        renumber_homes(symbols, &numbers);
    }
    for (one, place) in inserted.into_iter().zip(&numbers.inserted) {
        let (link, info) = one.target.map_or((0, 0), |target| (table, numbers.get(target) as u32));
        let name = u32::try_from(names.len()).unwrap_or(0);
        names.extend_from_slice(&one.name);
        names.push(0);
        changed.put(*place, Section { name, link, info, ..one.header }, one.content);
    }
    changed.names = Some(names);
    Ok(numbers)
}

/// By section: its place in an order of all.
fn places_in(order: &[usize]) -> Vec<usize> {
    let mut places = vec![0; order.len()];
    for (place, number) in order.iter().enumerate() {
        places.get_mut(*number).into_iter().for_each(|own| *own = place);
    }
    places
}

/// The numbers that sections get.
struct Numbers {
    /// By the numbers before.
    numbers: Vec<usize>,
    /// The numbers of the sections that are put in, in their order.
    inserted: Vec<usize>,
    /// By the number by which symbols refer to one that is put in.
    referred: Vec<(u16, usize)>,
}

impl Numbers {
    /// The numbers of sections in an order, some of which are taken out.
    fn of(order: &[usize], inserted: &[Inserted], dropped: &[usize]) -> Numbers {
        let mut found = Numbers { numbers: vec![0; order.len()], inserted: Vec::new(), referred: Vec::new() };
        let mut rest = inserted.iter().peekable();
        let mut next = 0;
        for number in order.iter().copied() {
            found.numbers.get_mut(number).into_iter().for_each(|own| *own = next);
            next += usize::from(dropped.binary_search(&number).is_err());
            while let Some(one) = rest.next_if(|one| one.after == number) {
                found.inserted.push(next);
                found.referred.extend(one.number.map(|own| (own, next)));
                next += 1;
            }
        }
        found
    }

    fn get(&self, number: usize) -> usize {
        let referred = || self.referred.iter().find(|(own, _)| usize::from(*own) == number).map(|(_, place)| *place);
        self.numbers.get(number).copied().or_else(referred).unwrap_or(number)
    }
}

fn of_relocations(table: RelocationTable, name: &[u8]) -> Inserted {
    let flags = elf::SHF_INFO_LINK.into();
    let size = table.entries.iter().map(|part| part.len() as u64).sum();
    Inserted {
        after: table.section,
        number: None,
        name: [&b".rela"[..], name].concat().into(),
        header: Section { kind: elf::SHT_RELA, flags, size, align: 8, entry_size: ENTRY, ..Section::NONE },
        target: Some(table.section),
        content: table.entries,
    }
}

fn of_nothing(section: EmptySection) -> Inserted {
    let EmptySection { after, number, name, header } = section;
    Inserted { after, number: Some(number), name, header, target: None, content: Vec::new() }
}

/// A text of a table of names.
fn name_at(names: &[u8], at: usize) -> &[u8] {
    let rest = names.get(at..).unwrap_or_default();
    let end = memchr::memchr(0, rest).unwrap_or(0);
    rest.get(..end).unwrap_or_default()
}

/// Gives symbols the new numbers of their sections.
fn renumber_homes(symbols: &mut SymbolTable, numbers: &Numbers) {
    let moved: Vec<u16> = (0..elf::SHN_LORESERVE).map(|number| numbers.get(number.into()) as u16).collect();
    for entry in symbols.entries.chunks_exact_mut(SYMBOL) {
        if let [_, _, _, _, _, _, low, high, ..] = entry {
            let home = u16::from_le_bytes([*low, *high]);
            if let Some(new) = moved.get(usize::from(home)).filter(|_| home > 0) {
                let [new_low, new_high] = new.to_le_bytes();
                *low = new_low;
                *high = new_high;
            }
        }
    }
}

impl FilePlan {
    /// The names of sections so far.
    fn names_of(&mut self, image: &Image<'_>) -> Result<Vec<u8>, NotAnImage> {
        if let Some(names) = self.names.take() {
            return Ok(names);
        }
        let table = image.sections.get(image.names_in).map(|table| image.content(table)).transpose()?;
        Ok(table.unwrap_or(&[0]).to_vec())
    }

    /// Gives sections that are referred to other numbers.
    fn renumber(&mut self, moved: &dyn Fn(usize) -> usize) {
        self.names_in = moved(self.names_in);
        self.contents = std::mem::take(&mut self.contents).into_iter().map(|(at, bytes)| (moved(at), bytes)).collect();
        for section in self.sections.iter_mut().filter(|section| section.link > 0 && !section.is_allocated()) {
            section.link = moved(section.link as usize) as u32;
        }
    }

    /// Gives sections without bytes other headers.
    fn put_empty(&mut self, empty: &[(u16, Section)]) {
        for (number, header) in empty {
            if let Some(section) = self.sections.get_mut(usize::from(*number)) {
                *section = Section { name: section.name, offset: section.offset, ..*header };
            }
        }
    }

    /// Lets headers refer to other sections, by numbers that some have got since.
    fn set_links(&mut self, links: &[(u16, u16)], moved: &dyn Fn(usize) -> usize) {
        for (own, link) in links {
            if let Some(section) = self.sections.get_mut(moved((*own).into())) {
                section.link = moved((*link).into()) as u32;
            }
        }
    }

    /// Brings section headers into an order; what refers to sections has their new numbers already.
    fn arrange(&mut self, order: impl Iterator<Item = usize>) {
        self.sections = order.filter_map(|number| self.sections.get(number).copied()).collect();
    }

    /// Puts a section in its place.
    fn put(&mut self, number: usize, header: Section, content: Vec<Bytes>) {
        self.sections.insert(number.min(self.sections.len()), header);
        self.contents.insert(number, content);
    }
}

#[cfg(test)]
mod tests {
    use super::*;

    /// ldlang.c, `strip_excluded_output_sections`: what stands behind a section that goes has a number less.
    #[test]
    fn numbers_of_sections_that_stay() {
        let inserted = [of_relocations(RelocationTable { section: 1, entries: vec![vec![0; 24].into()] }, b".text")];
        let numbers = Numbers::of(&[0, 1, 2, 3, 4], &inserted, &[2, 3]);
        assert_eq!(numbers.inserted, [2]);
        assert_eq!([0, 1, 4].map(|number| numbers.get(number)), [0, 1, 3]);
    }

    /// ldlang.c, `map_input_to_output_sections`: a section of `--section-start` is made first.
    #[test]
    fn numbers_of_sections_in_another_order() {
        let inserted = [of_relocations(RelocationTable { section: 3, entries: vec![vec![0; 24].into()] }, b".data")];
        let numbers = Numbers::of(&[0, 3, 1, 2, 4], &inserted, &[1]);
        assert_eq!(numbers.inserted, [2]);
        assert_eq!([0, 3, 2, 4].map(|number| numbers.get(number)), [0, 1, 3, 4]);
    }
}

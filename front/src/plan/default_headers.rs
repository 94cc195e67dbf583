//! What the program headers of a file are made of if the script has no PHDRS (elf.c,
//! `_bfd_elf_map_sections_to_segments`; elflink.c, `bfd_elf_size_dynamic_sections`).

use bstr::{BString, ByteSlice};
use object::elf;

use crate::command::{number, Command};
use crate::finish::{MadeHeaders, MadeSection, MadeSegment, PT_GNU_PROPERTY};
use crate::layout::evaluation::{OutputSection, Placed};
use crate::layout::segments::InMemory;
use crate::layout::{Evaluation, Flags};
use crate::objects::{Object, SectionFlags};

/// What an object says of its stack.
const NOTE: &[u8] = b".note.GNU-stack";
/// The alignment of PT_GNU_STACK (elf64-x86-64.c, `elf_backend_stack_align`).
const STACK_ALIGN: u64 = 16;

/// The program headers, if PHDRS do not say them.
pub(super) fn headers_of(command: &Command, objects: &[Object], evaluation: &Evaluation) -> Option<MadeHeaders> {
    let paging = evaluation.paging?;
    let memory = || evaluation.memory.iter().filter_map(|(id, memory)| Some((evaluation.output(*id)?, memory)));
    let made = |(output, memory): (&OutputSection, &InMemory)| {
        let bits = output.place.as_ref().map_or(0, |place| place.bits);
        MadeSection { name: output.name.to_vec().into(), bits, memory: *memory }
    };
    let of_name = |name: &str, kind: u32| of_section(evaluation, name, kind);
    let mut after: Vec<MadeSegment> = of_name(".dynamic", elf::PT_DYNAMIC).into_iter().collect();
    after.extend(notes(evaluation));
    after.extend(of_name(".note.gnu.property", PT_GNU_PROPERTY));
    after.extend(eh_frame_hdr(evaluation));
    after.extend(stack_of(command, objects));
    let interpreter = of_name(".interp", elf::PT_INTERP);
    let table = || MadeSegment { kind: elf::PT_PHDR, flags: Some(elf::PF_R), ..MadeSegment::default() };
    Some(MadeHeaders {
        sections: memory().map(made).collect(),
        paging,
        has_own_page: command.page_size.is_some(),
        room: evaluation.header_count,
        before: interpreter.into_iter().flat_map(|own| [table(), own]).collect(),
        after,
        relro: evaluation.relro,
    })
}

/// The output sections in their order, with their places among those that take memory.
fn places(evaluation: &Evaluation) -> impl Iterator<Item = (usize, &OutputSection, &Placed)> {
    let mut next = 0;
    evaluation.in_image().map(move |(output, place)| {
        let at = next;
        next += usize::from(place.is_allocated());
        (at, output, place)
    })
}

/// A segment of the section of a name, if that is loaded and not empty.
fn of_section(evaluation: &Evaluation, name: &str, kind: u32) -> Option<MadeSegment> {
    let (at, _, place) = places(evaluation).find(|(_, output, _)| output.name == name)?;
    let is_loaded = place.flags.has(Flags::LOAD) && (place.size != 0 || kind == elf::PT_DYNAMIC);
    is_loaded.then(|| MadeSegment { kind, sections: vec![at], ..MadeSegment::default() })
}

/// PT_GNU_EH_FRAME: the section of the table of `.eh_frame`, if that is loaded.
fn eh_frame_hdr(evaluation: &Evaluation) -> Option<MadeSegment> {
    let table = evaluation.eh_frame_hdr.as_ref()?;
    let output = evaluation.output(evaluation.section(table.section)?.output()?)?;
    let (at, _, place) = places(evaluation).find(|(_, one, _)| std::ptr::eq(*one, output))?;
    let kind = elf::PT_GNU_EH_FRAME;
    place.flags.has(Flags::LOAD).then(|| MadeSegment { kind, sections: vec![at], ..MadeSegment::default() })
}

/// The PT_NOTEs: one for notes of one alignment that follow one another.
fn notes(evaluation: &Evaluation) -> Vec<MadeSegment> {
    let mut found: Vec<MadeSegment> = Vec::new();
    let mut before: Option<&Placed> = None;
    for (at, _, place) in places(evaluation) {
        if !place.flags.has(Flags::LOAD) || place.kind != elf::SHT_NOTE {
            before = None;
            continue;
        }
        let is_joined = before.map_or(false, |before| {
            let end = before.load.wrapping_add(before.size);
            before.align == place.align && end.wrapping_add(end.wrapping_neg() & (place.align.max(1) - 1)) == place.load
        });
        match found.last_mut().filter(|_| is_joined) {
            Some(last) => last.sections.push(at),
            None => found.push(MadeSegment { kind: elf::PT_NOTE, sections: vec![at], ..MadeSegment::default() }),
        }
        before = Some(place);
    }
    found
}

/// PT_GNU_STACK.
fn stack_of(command: &Command, objects: &[Object]) -> Option<MadeSegment> {
    let size = stack_size(command);
    let flags = Some(stack_flags(command, objects, size != 0)?);
    Some(MadeSegment { kind: elf::PT_GNU_STACK, flags, align: STACK_ALIGN, size, ..MadeSegment::default() })
}

/// Whether the stack is executed, as an option says, an object does, or one of several says nothing.
pub(crate) fn is_stack_executed(command: &Command, objects: &[Object]) -> bool {
    stack_flags(command, objects, stack_size(command) != 0).map_or(false, |flags| flags & elf::PF_X != 0)
}

/// Whether a command says of the stack what makes PT_GNU_STACK.
pub(super) fn says_stack(command: &Command) -> bool {
    let words = [&b"execstack"[..], b"noexecstack"];
    stack_size(command) != 0 || command.keywords.iter().any(|word| words.contains(&word.as_bytes()))
}

/// `-z stack-size=V`
pub(super) fn stack_size(command: &Command) -> u64 {
    let size = |word: &BString| number(word.strip_prefix(b"stack-size=")?);
    command.keywords.iter().rev().find_map(size).unwrap_or(0)
}

/// The flags of PT_GNU_STACK: what `-z` says, else what the objects do; those that say nothing want to execute it. An
/// object without sections, as one of `-R`, has no say.
fn stack_flags(command: &Command, objects: &[Object], has_size: bool) -> Option<u32> {
    let said = command.keywords.iter().rev().find_map(|word| match word.as_bytes() {
        b"execstack" => Some(true),
        b"noexecstack" => Some(false),
        _ => None,
    });
    let have_say = || objects.iter().filter(|object| object.sections().any(|section| section.kind.is_linked()));
    let notes = || have_say().map(|object| object.sections().find(|section| section.name == NOTE));
    let is_executed = match said {
        Some(said) => said,
        None if !has_size && notes().all(|note| note.is_none()) => return None,
        None => notes().any(|note| note.map_or(true, |note| note.flags.has(SectionFlags::EXECINSTR))),
    };
    Some(elf::PF_R | elf::PF_W | if is_executed { elf::PF_X } else { 0 })
}

#[cfg(test)]
mod tests {
    use super::*;

    #[test]
    fn a_word_says_it() {
        let of = |words: &[&str]| {
            let keywords = words.iter().map(|word| (*word).into()).collect();
            stack_flags(&Command { keywords, ..Command::default() }, &[], false)
        };
        assert_eq!(of(&[]), None);
        assert_eq!(of(&["noexecstack"]), Some(6));
        assert_eq!(of(&["noexecstack", "execstack"]), Some(7));
    }
}

//! The part of a map before the script: members of archives, common blocks, sections that are left out, memory.

use std::collections::HashMap;

use bstr::{BStr, ByteSlice};

use super::body::in_column;
use super::text::Text;
use super::{library_path, padded, Request};
use crate::command::Input;
use crate::fast_map::FastMap;
use crate::layout::evaluation::InputSection;
use crate::layout::{glob, Flags};
use crate::objects::{Home, NameFilter, ObjectIndex, SectionKind};
use crate::script::tree::{RegionAttributes, SectionStatement, SectionsStatement, Statement};

/// The columns of files in the lists of members and of common blocks.
const MEMBER_COLUMN: usize = 30;
const COMMON_COLUMN: usize = 20;

/// The head of the map: members of archives, common blocks, sections that are left out, memory.
pub(super) fn text(request: &Request<'_>) -> Vec<u8> {
    [members(request).into_bytes(), commons(request).into_bytes(), left_out(request), memory(request).into_bytes()]
        .concat()
}

/// What objects have of a name before a member is looked at.
#[derive(Default)]
struct Seen {
    undefined: Option<usize>,
    defined: Option<usize>,
}

/// Why members of archives were taken (ldmain.c, `add_archive_element`).
fn members(request: &Request<'_>) -> String {
    let objects = request.objects;
    let members = || objects.iter().enumerate().filter(|(_, object)| object.origin().archive.is_some());
    if members().next().is_none() {
        return String::new();
    }
    let members = members().filter(|(_, object)| !object.is_build_note() && !object.is_eh_frame_hdr());
    let members: Vec<(usize, bool)> = members.map(|(number, _)| (number, is_whole(request, number))).collect();
    let seen = seen_of(request, members.iter().filter(|(_, is_whole)| !is_whole).map(|(number, _)| *number));
    let mut text = "Archive member included to satisfy reference by file (symbol)\n\n".to_owned();
    for (number, is_whole) in members {
        let wanted = || {
            let defined = objects.get(number)?.globals().filter(|symbol| !symbol.is_undefined());
            let mut found = defined.filter_map(|symbol| Some((symbol.name, seen.get(symbol.name)?)));
            found.find_map(|(name, seen)| {
                let by = seen.undefined.filter(|by| *by < number && seen.defined == Some(number))?;
                Some((by, name))
            })
        };
        let why = match if is_whole { None } else { wanted() } {
            Some((by, name)) => format!("{} ({name})", request.owner(ObjectIndex(by as u32))),
            None => format!("({})", asked(request, number)),
        };
        let owner = request.owner(ObjectIndex(number as u32));
        text.push_str(&format!("{}{why}\n", in_column(&owner, MEMBER_COLUMN)));
    }
    text
}

/// What the objects have of the names that some of them define.
fn seen_of<'a>(request: &Request<'a>, members: impl Iterator<Item = usize>) -> FastMap<&'a BStr, Seen> {
    let objects = request.objects;
    let defined = members.filter_map(|number| objects.get(number)).flat_map(|object| object.globals());
    let names = defined.filter(|symbol| !symbol.is_undefined()).map(|symbol| symbol.name);
    let mut seen: FastMap<&BStr, Seen> = names.map(|name| (name, Seen::default())).collect();
    let filter = NameFilter::of(seen.keys());
    for (number, object) in objects.iter().enumerate() {
        let wanted = object.global_hashes().filter(|(hash, _)| filter.may_have(*hash));
        for symbol in wanted.filter_map(|(_, index)| object.symbol(index)) {
            if let Some(seen) = seen.get_mut(symbol.name) {
                let slot = if symbol.is_undefined() { &mut seen.undefined } else { &mut seen.defined };
                slot.get_or_insert(number);
            }
        }
    }
    seen
}

/// Whether all members of an archive are taken.
fn is_whole(request: &Request<'_>, number: usize) -> bool {
    let object = request.objects.get(number);
    let path = object.map_or_else(Default::default, |object| object.origin().path.clone());
    request.command.inputs.iter().any(|input| match input {
        Input::File(own, flags) => flags.is_whole_archive && *own == path,
        Input::Library(name, flags) => flags.is_whole_archive && library_path(request, name) == Some(&path),
        _ => false,
    })
}

/// What else a member is taken for: a name of the command, or all members.
fn asked(request: &Request<'_>, number: usize) -> String {
    let command = request.command;
    if is_whole(request, number) {
        return "--whole-archive".to_owned();
    }
    let object = request.objects.get(number);
    let wanted = command.undefined.iter().chain(&command.required).chain(&request.entry);
    let is_here = |name: &&bstr::BString| {
        let mut found = object.into_iter().flat_map(|object| object.globals_named(name.as_bstr()));
        found.any(|symbol| !symbol.is_undefined())
    };
    wanted.into_iter().find(is_here).map_or_else(|| "--whole-archive".to_owned(), ToString::to_string)
}

/// ldlang.c, `lang_one_common`.
fn commons(request: &Request<'_>) -> String {
    let mut text = String::new();
    for named in &request.names {
        let definition = named.definition.filter(|one| one.home == Home::Common);
        if let Some(definition) = definition {
            let size = format!("0x{}", padded(&format!("{:x}", definition.size), 16));
            let name = in_column(&named.name.to_string(), COMMON_COLUMN);
            text.push_str(&format!("{name}{size}{}\n", request.owner(definition.object)));
        }
    }
    match text.is_empty() {
        true => text,
        false => format!("\nAllocating common symbols\nCommon symbol       size              file\n\n{text}"),
    }
}

/// Input sections that are in no output section (ldlang.c, `lang_map`).
fn left_out(request: &Request<'_>) -> Vec<u8> {
    let mut text = Text::default();
    for (number, object) in request.objects.iter().enumerate() {
        let owner = object.origin().full_name();
        let mut add = |name: &BStr, size: u64| text.name(b" ", name).address(0).size(size).put(b" ").put(&owner).end();
        let number = ObjectIndex(number as u32);
        let is_out = |own: &InputSection| own.output().is_none() && !own.flags.has(Flags::CREATED | Flags::KEEP);
        if !object.has_unlinked() {
            let own = request.evaluation.sections_of(number).iter();
            let own = own.filter(|own| is_out(own) && own.number().is_some() && SectionKind(own.kind).is_linked());
            let named = own.map(|own| (request.evaluation.section_name(own), own.own_size));
            named.filter(|(name, _)| !name.is_empty()).for_each(|(name, size)| add(name, size));
            continue;
        }
        for section in object.sections().filter(|one| !one.name.is_empty()) {
            let own = || request.evaluation.section(request.evaluation.section_of(number, section.index)?);
            let is_listed = match section.kind {
                SectionKind::GROUP => true,
                SectionKind::NULL => !section.name.starts_with(b".rel") && !is_kept(request, section.name),
                kind => kind.is_linked() && own().map_or(false, is_out),
            };
            if is_listed {
                add(section.name, section.size);
            }
        }
    }
    match text.take() {
        text if text.is_empty() => text,
        text => [&b"\nDiscarded input sections\n\n"[..], &text].concat(),
    }
}

/// Whether a statement under KEEP has a section's name: such a section is not listed.
fn is_kept(request: &Request<'_>, name: &BStr) -> bool {
    let blocks = request.script.statements.iter().filter_map(|statement| match &statement.node {
        Statement::Sections(items) => Some(items),
        _ => None,
    });
    let bodies = blocks.flatten().filter_map(|item| match &item.node {
        SectionsStatement::Output(output) => Some(&output.body.node),
        _ => None,
    });
    bodies.flatten().any(|statement| match &statement.node {
        SectionStatement::Input(input) if input.is_kept => {
            input.sections.iter().flatten().any(|one| glob::matches(&one.node.glob, name))
        }
        _ => false,
    })
}

/// ldlang.c, `lang_map`, `lang_map_flags`.
fn memory(request: &Request<'_>) -> String {
    let mut text = "\nMemory Configuration\n\n".to_owned();
    text.push_str("Name             Origin             Length             Attributes\n");
    let attributes = attributes_of(request);
    for region in request.evaluation.regions.iter().filter(|region| region.name != "*default*") {
        let name = padded(&region.name.to_string(), 16);
        let attributes = attributes.get(region.name.as_bstr()).cloned().unwrap_or_default();
        text.push_str(&format!("{name} 0x{:016x} 0x{:016x}{attributes}\n", region.origin, region.length));
    }
    text.push_str(&format!("*default*        0x{:016x} 0x{:016x}\n", 0, u64::MAX));
    text
}

/// The attributes of regions, in GNU ld's order.
fn attributes_of<'a>(request: &'a Request<'_>) -> HashMap<&'a BStr, String> {
    let blocks = request.script.statements.iter().filter_map(|statement| match &statement.node {
        Statement::Memory(regions) => Some(regions),
        _ => None,
    });
    let regions = blocks.flatten();
    let of_region = |words: &[RegionAttributes]| {
        let letters = |is_inverted: bool| -> String {
            let own = words.iter().filter(|word| word.is_inverted == is_inverted);
            let own: Vec<u8> = own.flat_map(|word| word.letters.to_ascii_lowercase()).collect();
            let has = |letter: u8| own.contains(&letter) || letter == b'l' && own.contains(&b'i');
            b"axrwl".iter().filter(|letter| has(**letter)).map(|letter| char::from(*letter)).collect()
        };
        let (own, not) = (letters(false), letters(true));
        let not = if not.is_empty() { not } else { format!("!{not}") };
        let all = [own, not].concat();
        if all.is_empty() {
            all
        } else {
            format!(" {all}")
        }
    };
    regions
        .map(|region| {
            let words = region.node.attributes.as_ref().map_or(&[][..], |words| words.node.as_slice());
            (region.node.name.node.as_bstr(), of_region(words))
        })
        .collect()
}

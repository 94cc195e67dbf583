//! What PHDRS asks for, and the `:NAME`s of output sections: the program headers that `finish` writes.

use bstr::ByteSlice;
use object::elf;

use super::items::sections;
use super::walk::{At, Walk};
use crate::finish::WantedSegment;
use crate::script::tree::{Expr, ExprKind, Name, ProgramHeader, SectionType, Spanned, Statement};

/// The name of no segment.
const NONE: &[u8] = b"NONE";

/// Notes the program headers of PHDRS.
pub(super) fn write(walk: &mut Walk<'_>) {
    let script = walk.script;
    let headers: Vec<&Spanned<ProgramHeader>> = script
        .statements
        .iter()
        .filter_map(|statement| match &statement.node {
            Statement::Phdrs(headers) => Some(headers),
            _ => None,
        })
        .flatten()
        .collect();
    if headers.is_empty() {
        return;
    }
    match wanted(walk, &headers) {
        Ok(segments) => walk.result.segments = Some(segments),
        Err(problem) => {
            walk.result.segments = Some(Vec::new());
            walk.result.segments_problem = Some(problem);
        }
    }
}

/// An output section.
struct Member<'a> {
    /// Its name in the image, if it is in it.
    name: Option<Name>,
    /// Its `:NAME`s.
    segments: Vec<&'a Name>,
    /// Whether it is in no segment without a name, not in that of the section before it (ldlang.c,
    /// `lang_record_phdrs`).
    is_unloaded: bool,
    /// Whether GNU ld's file has it: not, if it is empty and nothing keeps it (ldlang.c,
    /// `strip_excluded_output_sections`).
    is_in_file: bool,
}

fn wanted(walk: &Walk<'_>, headers: &[&Spanned<ProgramHeader>]) -> Result<Vec<WantedSegment>, String> {
    let members = members(walk);
    check_names(headers, &members)?;
    headers
        .iter()
        .map(|header| {
            let mut segment = header_of(walk, header)?;
            segment.sections = inside(&segment, &members);
            Ok(segment)
        })
        .collect()
}

fn members<'a>(walk: &'a Walk<'_>) -> Vec<Member<'a>> {
    let mut found: Vec<(u32, Member<'a>)> = Vec::new();
    for (section, span) in sections(walk.script) {
        let output = walk.request.evaluation.and_then(|evaluation| evaluation.output_at(span));
        let place = output.and_then(|output| output.place.as_ref());
        if place.is_none() && section.constraint.is_some() {
            continue;
        }
        let name = walk.emitted.get(&span.start).cloned();
        let segments = section.segments.iter().map(|segment| &segment.node).collect();
        let kind = section.kind.as_ref().map(|kind| &kind.node);
        let is_unloaded = matches!(kind, Some(SectionType::NoLoad | SectionType::NotAllocated(_)));
        let is_in_file = output.map_or(true, |output| output.in_image().is_some());
        found.push((span.start, Member { name, segments, is_unloaded, is_in_file }));
    }
    let orphans = walk.orphans.written().map(|(at, name, segments)| {
        let (name, segments) = (Some(name.clone()), segments.iter().collect());
        (at, Member { name, segments, is_unloaded: false, is_in_file: true })
    });
    found.extend(orphans);
    found.sort_by_key(|(at, _)| *at);
    found.into_iter().map(|(_, member)| member).collect()
}

/// Refuses names of segments that GNU ld refuses.
fn check_names(headers: &[&Spanned<ProgramHeader>], members: &[Member<'_>]) -> Result<(), String> {
    for member in members {
        for name in &member.segments {
            let is_known = name.as_bytes() == NONE || headers.iter().any(|header| header.node.name.node == **name);
            if let (Some(section), false) = (&member.name, is_known) {
                return Err(format!("{section} is assigned to {name}, which PHDRS does not have"));
            }
        }
    }
    match members.iter().any(|member| !member.segments.is_empty()) {
        true => Ok(()),
        false => Err("no section names a segment of PHDRS".into()),
    }
}

/// The sections of a program header. A section without `:NAME` is in the segments of the one before it, but for those
/// of NOLOAD. For those before the first `:NAME` GNU ld takes that one.
fn inside(segment: &WantedSegment, members: &[Member<'_>]) -> Vec<Name> {
    let first: Vec<&Name> =
        members.iter().find(|one| !one.segments.is_empty()).map_or_else(Vec::new, |one| one.segments.clone());
    let mut last = first;
    let mut found = Vec::new();
    for Member { name, segments: own, is_unloaded, is_in_file } in members {
        if own.is_empty() && (segment.kind == elf::PT_INTERP || *is_unloaded) {
            continue;
        }
        if !own.is_empty() {
            last = own.clone();
        }
        if let (Some(name), true) = (name, *is_in_file && last.contains(&&segment.name)) {
            found.push(name.clone());
        }
    }
    found
}

fn header_of(walk: &Walk<'_>, header: &Spanned<ProgramHeader>) -> Result<WantedSegment, String> {
    let node = &header.node;
    let name = &node.name.node;
    let value = |e: &Expr, what: &str| {
        let at = At { at: header.span.start, is_assert: true, dot: None };
        let value = walk.gnu_value(e).or_else(|| walk.value_of(e, at));
        value.ok_or_else(|| format!("{what} of {name} is no number: {}", walk.quoted(e.span)))
    };
    let kind = match &node.kind.kind {
        ExprKind::Symbol(word) => match kind_of(word) {
            Some(kind) => kind,
            None => value(&node.kind, "the type")? as u32,
        },
        _ => value(&node.kind, "the type")? as u32,
    };
    Ok(WantedSegment {
        name: name.clone(),
        kind,
        flags: node.flags.as_ref().map(|e| value(e, "FLAGS")).transpose()?.map(|flags| flags as u32),
        load: node.load_address.as_ref().map(|e| value(e, "AT")).transpose()?,
        has_file_header: node.has_file_header,
        has_program_headers: node.has_program_headers,
        ..WantedSegment::default()
    })
}

/// A word for a type of program headers.
fn kind_of(word: &Name) -> Option<u32> {
    Some(match word.to_str().ok()? {
        "PT_NULL" => elf::PT_NULL,
        "PT_LOAD" => elf::PT_LOAD,
        "PT_DYNAMIC" => elf::PT_DYNAMIC,
        "PT_INTERP" => elf::PT_INTERP,
        "PT_NOTE" => elf::PT_NOTE,
        "PT_SHLIB" => elf::PT_SHLIB,
        "PT_PHDR" => elf::PT_PHDR,
        "PT_TLS" => elf::PT_TLS,
        "PT_GNU_EH_FRAME" => elf::PT_GNU_EH_FRAME,
        "PT_GNU_STACK" => elf::PT_GNU_STACK,
        "PT_GNU_RELRO" => elf::PT_GNU_RELRO,
        "PT_GNU_PROPERTY" => 0x6474_E553,
        _ => return None,
    })
}

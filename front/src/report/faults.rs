//! A message for each fault line.

use std::ffi::OsStr;
use std::os::unix::ffi::OsStrExt;
use std::path::Path;

use bstr::ByteSlice;

use super::fault_line::{count_lines, fault_lines, FaultLine, Value};
use super::names::{symbol_name, Names, Site};
use super::outline::{origin, Lines, Outline};
use super::rules::{FaultRule, RELOCATIONS};
use super::slim_lto::{is_slim, SLIM};
use super::{plain, Diagnostic};
use crate::objects::{Object, Relocation, SymbolIndex, SymbolKind};
use crate::profile::limits::MAX_IMAGE;
use crate::script::Place;

/// What stands at the front if no file is to blame.
const PROGRAM: &str = "ldi";
/// GNU ld's types of output sections, which are read as the address of the section by `ldi`.
const SECTION_TYPES: [&[u8]; 5] = [b"COPY", b"INFO", b"OVERLAY", b"DSECT", b"READONLY"];

/// What a link was made of, to look names and lines up in.
pub struct Inputs<'a> {
    /// The script as people know it.
    pub script_path: &'a Path,
    /// The script that was sent.
    pub script: &'a [u8],
    /// Where a line of it came from, from 1 on, if it was made of another text.
    pub origin: &'a dyn Fn(u32) -> Option<Place>,
    /// The objects as they were sent, or none.
    pub objects: &'a [Object],
    /// The symbol of `-e`, if that is given.
    pub entry: Option<&'a OsStr>,
}

/// The messages of a link's fault lines, in their order. With a limit that there are more than, the first ones, and one
/// that says how many more there are.
#[must_use]
pub fn fault_diagnostics(faults: &[u8], inputs: &Inputs<'_>, limit: Option<usize>) -> Vec<Diagnostic> {
    let mut sentences = Sentences {
        inputs,
        names: Names::new(inputs.objects),
        outline: Outline::read(inputs.script),
        lines: Lines::new(inputs.script),
    };
    let mut diagnostics: Vec<Diagnostic> =
        fault_lines(faults).take(limit.unwrap_or(usize::MAX)).map(|line| sentences.diagnostic(line)).collect();
    if let Some(more) = limit.and_then(|limit| count_lines(faults).checked_sub(limit)).filter(|more| *more > 0) {
        diagnostics.push(Diagnostic::error(format!(".. and {more} more")));
    }
    diagnostics
}

/// Makes the messages of one link.
struct Sentences<'a> {
    inputs: &'a Inputs<'a>,
    names: Names<'a>,
    outline: Outline,
    lines: Lines<'a>,
}

impl Sentences<'_> {
    fn diagnostic(&mut self, line: FaultLine<'_>) -> Diagnostic {
        let found = line.fault.as_ref().and_then(|(rule, words)| self.of_rule(*rule, words));
        match found {
            Some(mut diagnostic) => {
                diagnostic.rule = Some(line.text);
                diagnostic
            }
            None => Diagnostic { rule: Some(line.text.clone()), ..Diagnostic::error(line.text) },
        }
    }

    fn of_rule(&mut self, rule: FaultRule, words: &[Value<'_>]) -> Option<Diagnostic> {
        use Value::{Name, Number, Text};
        Some(match (rule, words) {
            (FaultRule::DuplicateDefinition, [Name(name), Name(again), Name(first)]) => {
                self.duplicate(name, again, first)
            }
            (FaultRule::UndefinedEntry, [Text(name)]) => self.undefined_entry(name),
            (FaultRule::Orphan, [Name(object), Name(section)]) => self.orphan(object, section),
            (FaultRule::NotReady, [Number(line), Name(name)]) => {
                let line = line_number(*line);
                let why = self.why_not_ready(line, name);
                self.at_line(line, why)
            }
            (FaultRule::NoValue, [Number(line)]) => self.no_value(line_number(*line)),
            (FaultRule::MovedBack, [Number(line)]) => self
                .at_line(line_number(*line), "`.' would go back".into())
                .with_advice("raise the number, which counts from the section's start"),
            (FaultRule::RegionFull, [Name(section), Name(region)]) => self.region_full(section, region),
            (FaultRule::PastAddressSpace, [Number(line)]) => self
                .at_line(line_number(*line), "an address, an end or `.' would be 2^64 or more".into())
                .with_advice("lower the address or the size"),
            (FaultRule::AddressesOverlap, [Name(section), Name(earlier)]) => {
                self.meeting("addresses", section, earlier).with_advice("move one of the two")
            }
            (FaultRule::LoadAddressesOverlap, [Name(section), Name(earlier)]) => {
                self.meeting("load addresses", section, earlier).with_advice("correct AT(..), or use AT>")
            }
            (FaultRule::ImageTooLong, [Number(length)]) => self.too_long(*length),
            (FaultRule::EntryNotInOutput, []) => self.entry_left_out(),
            (FaultRule::AssertionFailed, [Number(line), Text(message)]) => self.assertion(line_number(*line), message),
            _ => return self.of_relocation(rule, words),
        })
    }

    fn of_relocation(&mut self, rule: FaultRule, words: &[Value<'_>]) -> Option<Diagnostic> {
        use Value::{Name, Number};
        let (object, section, offset, rest) = match words {
            [Name(object), Name(section), Number(offset), rest @ ..] => (object, section, *offset, rest),
            _ => return None,
        };
        match (rule, rest) {
            (FaultRule::UndefinedSymbol, [Name(name)]) => Some(self.undefined(object, section, offset, name)),
            (FaultRule::TargetNotInOutput, [Number(symbol)]) => {
                let symbol = SymbolIndex(u32::try_from(*symbol).ok()?);
                Some(self.left_out(object, section, offset, symbol))
            }
            (FaultRule::FieldOverflow, [Number(kind), Number(value)]) => {
                let kind = u32::try_from(*kind).ok()?;
                Some(self.overflow(object, section, offset, kind, *value))
            }
            _ => None,
        }
    }

    // The script

    /// The place of a line of the script.
    fn place(&self, line: u32) -> Place {
        origin(self.inputs.script_path, self.inputs.origin, line)
    }

    fn place_text(&self, line: u32) -> String {
        let place = self.place(line);
        format!("{}:{}", plain(place.path.as_os_str().as_bytes()), place.line)
    }

    fn script_name(&self) -> String {
        plain(self.inputs.script_path.as_os_str().as_bytes())
    }

    /// An error at a line of the script, with its text.
    fn at_line(&self, line: u32, sentence: String) -> Diagnostic {
        let mut diagnostic = Diagnostic::error(sentence).at(&self.place(line));
        diagnostic.excerpt = self.lines.excerpt(line);
        diagnostic
    }

    /// An error at the line of an output section, if the script has it once.
    fn at_output(&self, section: &[u8], sentence: String) -> Diagnostic {
        match self.outline.outputs.get(section.as_bstr()) {
            Some(output) => Diagnostic::error(sentence).at(&self.place(output.line)),
            None => Diagnostic::error(sentence).of_file(self.inputs.script_path),
        }
    }

    // Names

    /// F1. If one object has both definitions, which is which is not said.
    fn duplicate(&mut self, name: &[u8], again: &[u8], first: &[u8]) -> Diagnostic {
        let line = self.outline.assignments.get(name.as_bstr()).copied();
        let is_by_script = first == b"script" && (line.is_some() || self.names.object(first).is_none());
        let is_apart = is_by_script || again != first;
        let there = if is_by_script {
            let place = line.map_or_else(|| self.script_name(), |line| self.place_text(line));
            format!("{place}: first defined here, by the script")
        } else {
            format!("{}: first defined here", self.definition(first, name, is_apart).prefix())
        };
        let here = self.definition(again, name, is_apart);
        here.error(format!("multiple definition of `{}'", plain(name))).with_note(there)
    }

    /// The place of an object's definition of a name.
    fn definition(&mut self, object: &[u8], name: &[u8], is_only: bool) -> Site {
        let found = if is_only { self.names.definition(object, name) } else { None };
        found.unwrap_or_else(|| Site { file: self.names.shown(object), line: None, place: None, relocation: None })
    }

    /// The message of F2.
    fn undefined_entry(&mut self, name: &[u8]) -> Diagnostic {
        let by = if self.inputs.entry.is_some() { ", given to -e" } else { "" };
        let sentence = format!("undefined entry symbol `{}'{by}", plain(name));
        let line = match &self.outline.entry {
            Some((entry, line)) if self.inputs.entry.is_none() && entry == name => Some(*line),
            _ => None,
        };
        let diagnostic = match line {
            Some(line) => Diagnostic::error(sentence).at(&self.place(line)),
            None => Diagnostic::error(sentence).of_file(PROGRAM),
        };
        if let Some(hint) = self.names.slim_hint(name) {
            return diagnostic.with_note(hint);
        }
        if self.outline.provides.contains_key(name.as_bstr()) {
            return diagnostic.with_note("its PROVIDE counts only if an object uses the name");
        }
        diagnostic
    }

    /// The message of F3.
    fn orphan(&mut self, object: &[u8], section: &[u8]) -> Diagnostic {
        let size = self.names.section_size(object, section).map(|size| format!(" of {}", count(size, "byte")));
        let (script, size) = (self.script_name(), size.unwrap_or_default());
        let place = Some(format!("({})", plain(section)));
        let site = Site { file: self.names.shown(object), line: None, place, relocation: None };
        let diagnostic = site.error(format!("no statement of {script} takes this section{size}"));
        match self.names.object(object).map_or(false, is_slim) {
            true => diagnostic.with_note(format!("{} {SLIM}", self.names.shown(object))),
            false => diagnostic.with_advice("add one that does, or /DISCARD/, or --orphan-handling=discard"),
        }
    }

    // Layout

    /// Why an expression of F4 has no value.
    fn why_not_ready(&mut self, line: u32, name: &[u8]) -> String {
        let shown = plain(name);
        let assigned = self.outline.assignments.get(name.as_bstr()).copied();
        if let Some(assigned) = assigned.filter(|assigned| *assigned > line) {
            return format!("`{shown}' has no value yet, {} assigns it", self.place_text(assigned));
        }
        if assigned.is_some() || self.outline.outputs.contains_key(name.as_bstr()) {
            return format!("`{shown}' is not complete here");
        }
        if self.names.is_defined(name) {
            return format!("`{shown}' is a symbol of an object: ASSERT alone may name it");
        }
        if self.outline.provides.contains_key(name.as_bstr()) {
            return format!("`{shown}' has no value here: its PROVIDE counts only if an object uses the name");
        }
        if SECTION_TYPES.contains(&name) {
            let what = "there are no types of output sections";
            return format!("{what}, so that `{shown}' is a symbol, which nothing defines");
        }
        format!("`{shown}' is not defined")
    }

    /// The message of F5.
    fn no_value(&self, line: u32) -> Diagnostic {
        let doubtful = self.outline.doubtful(line);
        let reason = match (doubtful.has_division, doubtful.has_align) {
            (false, true) => "ALIGN to no power of two",
            (true, false) => "division or remainder by 0",
            _ => "division or remainder by 0, or ALIGN to no power of two",
        };
        self.at_line(line, reason.into())
    }

    /// The message of F7.
    fn region_full(&self, section: &[u8], region: &[u8]) -> Diagnostic {
        let output = self.outline.outputs.get(section.as_bstr());
        let is_region = |name: &Option<crate::script::tree::Name>| name.as_ref().map_or(false, |name| name == region);
        let what = match output.map(|output| (is_region(&output.region), is_region(&output.load_region))) {
            Some((true, false)) => "addresses",
            Some((false, true)) => "load addresses",
            _ => "addresses, or load addresses,",
        };
        let numbers = self.outline.regions.get(region.as_bstr()).map(|text| {
            let place = self.place_text(text.line);
            format!(" ({place}: ORIGIN = {}, LENGTH = {})", text.origin, text.length)
        });
        let (section_name, region, numbers) = (plain(section), plain(region), numbers.unwrap_or_default());
        let place = format!("section `{section_name}' will not fit in region `{region}'{numbers}");
        self.at_output(section, format!("{place}: its {what} are not all in it"))
            .with_advice("raise LENGTH, or place less there")
    }

    /// The message of F9 or F10.
    fn meeting(&self, what: &str, section: &[u8], earlier: &[u8]) -> Diagnostic {
        let other = self.outline.outputs.get(earlier.as_bstr());
        let other = other.map(|output| format!(" ({})", self.place_text(output.line))).unwrap_or_default();
        let (name, earlier) = (plain(section), plain(earlier));
        self.at_output(section, format!("the {what} of section `{name}' overlap those of `{earlier}'{other}"))
    }

    /// The message of F11.
    fn too_long(&self, length: u64) -> Diagnostic {
        Diagnostic::error(format!("the image would have {length} bytes, more than {MAX_IMAGE}"))
            .of_file(self.inputs.script_path)
            .with_advice(
                "close the gaps in sections with file bytes, or keep what has no contents in sections of its own at \
                 the end",
            )
    }

    // Relocation

    /// The message of F12.
    fn undefined(&mut self, object: &[u8], section: &[u8], offset: u64, name: &[u8]) -> Diagnostic {
        let shown = plain(name);
        let is_meant = |object: &Object, relocation: Relocation| {
            object.symbol(relocation.symbol).map_or(false, |symbol| symbol_name(object, &symbol) == shown)
        };
        let site = self.names.site(object, section, offset, &is_meant);
        let diagnostic = site.error(format!("undefined reference to `{shown}'"));
        match self.names.slim_hint(name) {
            Some(hint) => diagnostic.with_note(hint),
            None => diagnostic,
        }
    }

    /// The message of F13 of a relocation.
    fn left_out(&mut self, object: &[u8], section: &[u8], offset: u64, symbol: SymbolIndex) -> Diagnostic {
        let site = self.names.site(object, section, offset, &|_, relocation| relocation.symbol == symbol);
        let target = self.left_out_target(object, symbol);
        site.error(format!("{target}, which is not in the output")).with_advice("take it in")
    }

    /// The symbol of a number, and its section if that is certain.
    fn left_out_target(&mut self, name: &[u8], index: SymbolIndex) -> String {
        let unknown = format!("symbol {} of {} is defined in a section", index.0, self.names.shown(name));
        let (object, symbol) = match self.names.object(name).and_then(|object| Some((object, object.symbol(index)?))) {
            Some(found) => found,
            None => return unknown,
        };
        let shown = symbol_name(object, &symbol);
        match self.names.section_of(object, symbol) {
            Some(section) if symbol.kind == SymbolKind::SECTION => format!("this refers to section {section}"),
            Some(section) if !shown.is_empty() => format!("`{shown}' is defined in section {section}"),
            Some(section) => {
                format!("symbol {} of {} is defined in section {section}", index.0, self.names.shown(name))
            }
            None if !shown.is_empty() => format!("`{shown}' is defined in a section"),
            None => unknown,
        }
    }

    /// The message of F13 of the entry symbol.
    fn entry_left_out(&self) -> Diagnostic {
        let entry = self.inputs.entry.map(|entry| plain(entry.as_bytes()));
        let by_script = self.outline.entry.as_ref().filter(|_| entry.is_none());
        let name = entry.or_else(|| by_script.map(|(name, _)| plain(name)));
        let symbol = name.map(|name| format!(" `{name}'")).unwrap_or_default();
        let sentence = format!("the entry symbol{symbol} is defined in a section that is not in the output");
        let diagnostic = match by_script {
            Some((_, line)) => Diagnostic::error(sentence).at(&self.place(*line)),
            None => Diagnostic::error(sentence).of_file(PROGRAM),
        };
        diagnostic.with_advice("take it in")
    }

    /// The message of F14.
    fn overflow(&mut self, object: &[u8], section: &[u8], offset: u64, kind: u32, value: u64) -> Diagnostic {
        let site = self.names.site(object, section, offset, &|_, relocation| relocation.kind == kind);
        let name = RELOCATIONS.iter().find(|row| row.number == kind);
        let name = name.map_or_else(|| format!("relocation type {kind}"), |row| row.name.to_owned());
        let target = self.target(object, &site);
        let diagnostic = site.error(format!("relocation truncated to fit: {name}{target}"));
        with_range(diagnostic, kind, value)
    }

    /// The symbol that the relocation of a site is against, if it is known.
    fn target(&self, object: &[u8], site: &Site) -> String {
        let object = self.names.object(object);
        let found = object.and_then(|object| Some((object, object.symbol(site.relocation?.symbol)?)));
        match found.map(|(object, symbol)| (symbol_name(object, &symbol), symbol.kind)) {
            Some((name, SymbolKind::SECTION)) if !name.is_empty() => format!(" against section `{name}'"),
            Some((name, _)) if !name.is_empty() => format!(" against `{name}'"),
            _ => String::new(),
        }
    }

    // Assertions

    /// The message of F15.
    fn assertion(&mut self, line: u32, message: &[u8]) -> Diagnostic {
        let text = if message.is_empty() { String::new() } else { format!(": {}", plain(message)) };
        let mut diagnostic = self.at_line(line, format!("assertion failed{text}"));
        if !self.names.is_empty() {
            for name in self.outline.asserted_names(line, message) {
                let is_known = self.outline.assignments.contains_key(name) || self.outline.provides.contains_key(name);
                if !is_known && !self.names.is_defined(name) {
                    diagnostic.notes.push(format!("nothing defines `{}'", plain(name)));
                }
            }
        }
        diagnostic
    }
}

/// A line's number as fault lines have it.
fn line_number(line: u64) -> u32 {
    u32::try_from(line).unwrap_or(u32::MAX)
}

/// A number, and the word for things of that number.
fn count(number: u64, what: &str) -> String {
    if number == 1 {
        format!("{number} {what}")
    } else {
        format!("{number} {what}s")
    }
}

/// Adds which values fit a field, and what to do.
fn with_range(diagnostic: Diagnostic, kind: u32, value: u64) -> Diagnostic {
    let row = RELOCATIONS.iter().find(|row| row.number == kind);
    let (row, (least, greatest)) = match row.and_then(|row| Some((row, row.range?))) {
        Some(found) => found,
        None => return diagnostic.with_note(format!("its value is {value:#x}")),
    };
    let is_negative = least < 0 && value >> 63 == 1;
    let shown = if is_negative { format!("-{:#x}", value.wrapping_neg()) } else { format!("{value:#x}") };
    let mut advice =
        if row.is_pc_relative { "place the two nearer to each other" } else { "place what it refers to lower" }
            .to_owned();
    if row.width == 4 {
        advice.push_str(", or compile for another code model");
    }
    let least = if least < 0 { format!("-{:#x}", least.unsigned_abs()) } else { format!("{least:#x}") };
    diagnostic.with_note(format!("its value {shown} is not from {least} to {greatest:#x}")).with_advice(advice)
}

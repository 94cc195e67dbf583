//! Objects that are invented for a script without objects, so that each pattern matches a section.

use std::collections::BTreeSet;
use std::os::unix::ffi::OsStrExt;
use std::path::Path;

use bstr::BString;
use object::elf;

use crate::adapted::{for_each_assignment, for_each_expression, is_of_linker, is_unloaded_name};
use crate::layout::{evaluate, Evaluation, Settings, Stop};
use crate::objects::{Object, Origin};
use crate::profile::reserved_words::matches as matches_word;
use crate::script::tree::{
    ExprKind, InputStatement, Name, Provision, Script, SectionStatement, SectionsStatement, Statement,
};
use crate::snapshot::Bytes;

/// Invented objects, and what GNU ld makes of the script over them.
#[derive(Debug)]
pub(crate) struct Invented {
    pub(crate) objects: Vec<Object>,
    pub(crate) evaluation: Evaluation,
}

/// The kinds of objects over which GNU ld links the script.
///
/// # Errors
/// If GNU ld links the script over no kind of object: why it does not.
pub(crate) fn all(script: &Script) -> Result<Vec<Invented>, Stop> {
    let (mut found, mut stopped) = (Vec::new(), None);
    for kind in Kind::ALL {
        match Invented::over(script, kind) {
            Ok(invented) => found.push(invented),
            Err(stop) => stopped = stopped.or(Some(stop)),
        }
    }
    match (stopped, found.is_empty()) {
        (Some(stop), true) => Err(stop),
        _ => Ok(found),
    }
}

impl Invented {
    /// Objects of a kind, of which no section is left over: what no statement takes is taken out of them.
    /// SUBALIGN, which the profile does not have, is not gone by.
    fn over(script: &Script, kind: Kind) -> Result<Invented, Stop> {
        let script = &without_subalign(script);
        let settings = Settings { checks_assertions: false, ..Settings::default() };
        let outline = Outline::of(script);
        let mut objects = outline.objects(kind, &BTreeSet::new());
        let mut evaluation = evaluate(script, &objects, &settings)?;
        let left_over: BTreeSet<(usize, BString)> = evaluation
            .orphans
            .iter()
            .filter_map(|id| evaluation.section(*id))
            .map(|one| (one.object.0 as usize, evaluation.section_name(one).to_owned()))
            .collect();
        if !left_over.is_empty() {
            objects = outline.objects(kind, &left_over);
            evaluation = evaluate(script, &objects, &settings)?;
        }
        Ok(Invented { objects, evaluation })
    }
}

fn without_subalign(script: &Script) -> Script {
    let mut script = script.clone();
    let items = script.statements.iter_mut().filter_map(|statement| match &mut statement.node {
        Statement::Sections(items) => Some(items),
        _ => None,
    });
    for item in items.flatten() {
        if let SectionsStatement::Output(section) = &mut item.node {
            section.subalign = None;
        }
    }
    script
}

/// The type and flags of a section by its name.
fn form_of(name: &[u8]) -> (u32, u64) {
    let begins = |fronts: &[&str]| fronts.iter().any(|front| name.starts_with(front.as_bytes()));
    let (write, alloc, execute) = (u64::from(elf::SHF_WRITE), u64::from(elf::SHF_ALLOC), u64::from(elf::SHF_EXECINSTR));
    match () {
        () if is_unloaded_name(name) => (elf::SHT_PROGBITS, 0),
        () if begins(&[".bss", ".sbss", ".dynbss", ".noinit", "COMMON"]) => (elf::SHT_NOBITS, write | alloc),
        () if begins(&[".text", ".init.text", ".exit.text", ".plt", ".fini"]) || name == b".init" => {
            (elf::SHT_PROGBITS, alloc | execute)
        }
        () if begins(&[".rodata", ".eh_frame", ".gcc_except", ".note", ".interp"]) => (elf::SHT_PROGBITS, alloc),
        () => (elf::SHT_PROGBITS, write | alloc),
    }
}

/// What stands for `*` in the names that a pattern matches: if one name is taken by an earlier pattern, others are
/// not.
const STANDS_FOR_ANY: [u8; 2] = *b"wq";

/// A name that a pattern matches.
fn instance(glob: &[u8], any: u8) -> BString {
    let mut name = Vec::new();
    let mut rest = glob.iter().copied();
    while let Some(byte) = rest.next() {
        match byte {
            b'*' => name.push(any),
            b'?' => name.push(b'x'),
            b'\\' => name.extend(rest.next()),
            b'[' => {
                let set: Vec<u8> = rest.by_ref().take_while(|byte| *byte != b']').collect();
                name.push(set.iter().copied().find(|byte| byte.is_ascii_alphanumeric()).unwrap_or(b'x'));
            }
            byte => name.push(byte),
        }
    }
    name.into()
}

/// Whether a name is one of constructors as no compiler of today makes them.
fn is_old(name: &[u8]) -> bool {
    name.starts_with(b".ctors") || name.starts_with(b".dtors")
}

/// Sizes and alignments of the sections that are invented.
#[derive(Clone, Copy, PartialEq, Eq, Debug)]
pub(crate) enum Kind {
    /// Some bytes, aligned to 8.
    Small,
    /// Odd sizes, and greater alignments: what is written for all kinds in the same words holds for others too.
    Large,
    /// Few bytes: what is of a fixed size has room for them.
    Tiny,
}

impl Kind {
    const ALL: [Kind; 3] = [Kind::Small, Kind::Large, Kind::Tiny];

    /// The bytes and the alignment of the sections of an object.
    fn form(self, object: u64) -> (u64, u64) {
        match self {
            Kind::Small => (24 + 8 * object, 8),
            Kind::Large => (0x1203 + 0x741 * object, 64),
            Kind::Tiny => (5 + 2 * object, 2),
        }
    }
}

/// The objects of a kind.
#[cfg(test)]
pub(crate) fn objects(script: &Script, kind: Kind) -> Vec<Object> {
    Outline::of(script).objects(kind, &BTreeSet::new())
}

/// What objects for a script have.
#[derive(Debug, Default)]
struct Outline {
    files: Vec<BString>,
    sections: BTreeSet<BString>,
    /// Whether constructors are taken into an array, which GNU ld copies in reverse: that is not evaluated, and objects
    /// have none (elflink.c, `bfd_elf_reverse_ctors`).
    has_reversed: bool,
    /// Whether a pattern is of common blocks.
    has_commons: bool,
    /// The symbols that the script uses and does not assign.
    defined: BTreeSet<Name>,
    /// The symbols that the script only PROVIDEs.
    wanted: BTreeSet<Name>,
}

impl Outline {
    fn of(script: &Script) -> Outline {
        let mut outline = Outline { files: vec!["a.o".into(), "b.o".into()], ..Outline::default() };
        for statement in &script.statements {
            if let Statement::Sections(items) = &statement.node {
                for item in items {
                    if let SectionsStatement::Output(section) = &item.node {
                        for statement in &section.body.node {
                            if let SectionStatement::Input(input) = &statement.node {
                                outline.take_input(input, &section.name.node);
                            }
                        }
                    }
                }
            }
        }
        let has_reversed = outline.has_reversed;
        outline.sections.retain(|name| name != "COMMON" && !(has_reversed && is_old(name)));
        outline.take_symbols(script);
        outline
    }

    fn take_input(&mut self, input: &InputStatement, output: &Name) {
        let file = input.file.as_ref().map_or(&b"*"[..], |file| file.node.glob.as_slice());
        let file = file.strip_prefix(b":").unwrap_or(file);
        if !file.is_empty() && !file.contains(&b':') && !self.files.iter().any(|own| matches_word(file, own)) {
            self.files.push(instance(file, b'w'));
        }
        let patterns = input.sections.iter().flatten().map(|pattern| &pattern.node.glob);
        let is_array = output.starts_with(b".init_array") || output.starts_with(b".fini_array");
        for glob in patterns.filter(|glob| !glob.is_empty() && !is_of_linker(glob)) {
            self.has_reversed |= is_array && is_old(glob);
            self.has_commons |= *glob == "COMMON";
            self.sections.extend(STANDS_FOR_ANY.iter().map(|any| instance(glob, *any)));
        }
    }

    fn take_symbols(&mut self, script: &Script) {
        let mut used = BTreeSet::new();
        for_each_expression(script, &mut |e, _| {
            e.visit(&mut |e| {
                if let ExprKind::Symbol(name) = &e.kind {
                    used.insert(name.clone());
                }
            });
        });
        let (mut assigned, mut provided) = (BTreeSet::new(), BTreeSet::new());
        for_each_assignment(script, &mut |assignment, _| {
            let names = match assignment.provision {
                Provision::Provide | Provision::ProvideHidden => &mut provided,
                Provision::Plain | Provision::Hidden => &mut assigned,
            };
            names.insert(assignment.target.node.clone());
        });
        let is_bound = |name: &Name| name.starts_with(b"__start_") || name.starts_with(b"__stop_");
        let is_open = |name: &&Name| !assigned.contains(*name) && !provided.contains(*name) && !is_bound(name);
        self.defined = used.iter().filter(is_open).cloned().collect();
        let is_idle = |name: &&Name| !assigned.contains(*name) && !used.contains(*name);
        self.wanted = provided.iter().filter(is_idle).cloned().collect();
    }

    /// Objects with a section for each pattern, but for those that are named.
    fn objects(&self, kind: Kind, left_out: &BTreeSet<(usize, BString)>) -> Vec<Object> {
        let files = self.files.iter().enumerate();
        let one = |(index, name): (usize, &BString)| {
            let origin = Origin::of_file(Path::new(std::ffi::OsStr::from_bytes(name)));
            let (size, align) = kind.form(index as u64);
            let mut file = ObjectFile::new(size, align);
            for section in &self.sections {
                if !left_out.contains(&(index, section.clone())) {
                    file.section(section);
                }
            }
            if self.has_commons && !left_out.contains(&(index, "COMMON".into())) {
                file.symbol(format!("ldi.common.{index}").as_bytes(), elf::SHN_COMMON);
            }
            if index == 0 {
                let home = if file.count() > 1 { 1 } else { elf::SHN_ABS };
                self.defined.iter().for_each(|name| file.symbol(name, home));
                self.wanted.iter().for_each(|name| file.symbol(name, elf::SHN_UNDEF));
            }
            Object::new(name.clone(), origin, Bytes::from(file.finish()))
        };
        files.map(one).collect()
    }
}

/// The bytes of an object while it is made: the contents of all its sections are the same ones.
struct ObjectFile {
    size: u64,
    align: u64,
    headers: Vec<u8>,
    symbols: Vec<u8>,
    /// The names of sections and symbols.
    strings: Vec<u8>,
}

impl ObjectFile {
    const HEADER: usize = 64;
    const SYMBOL: usize = 24;

    fn new(size: u64, align: u64) -> ObjectFile {
        let headers = vec![0; ObjectFile::HEADER];
        ObjectFile { size, align, headers, symbols: vec![0; ObjectFile::SYMBOL], strings: vec![0] }
    }

    fn name(&mut self, name: &[u8]) -> u32 {
        let at = self.strings.len() as u32;
        self.strings.extend_from_slice(name);
        self.strings.push(0);
        at
    }

    fn count(&self) -> u16 {
        (self.headers.len() / ObjectFile::HEADER) as u16
    }

    fn section(&mut self, name: &[u8]) {
        let (kind, flags) = form_of(name);
        let name = self.name(name);
        let (size, align) = (self.size, self.align);
        self.header(name, kind, flags, [ObjectFile::HEADER as u64, size], (0, 0), [align, 0]);
    }

    fn header(&mut self, name: u32, kind: u32, flags: u64, place: [u64; 2], links: (u32, u32), form: [u64; 2]) {
        self.headers.extend(name.to_le_bytes());
        self.headers.extend(kind.to_le_bytes());
        for word in [flags, 0].iter().chain(&place) {
            self.headers.extend(word.to_le_bytes());
        }
        self.headers.extend(links.0.to_le_bytes());
        self.headers.extend(links.1.to_le_bytes());
        for word in form {
            self.headers.extend(word.to_le_bytes());
        }
    }

    /// A global symbol; the value of a common block is its alignment.
    fn symbol(&mut self, name: &[u8], home: u16) {
        let name = self.name(name);
        self.symbols.extend(name.to_le_bytes());
        self.symbols.extend([elf::STB_GLOBAL << 4, 0]);
        self.symbols.extend(home.to_le_bytes());
        let value = if home == elf::SHN_UNDEF { 0 } else { self.align };
        self.symbols.extend(value.to_le_bytes());
        let size = if home == elf::SHN_COMMON { self.size } else { 0 };
        self.symbols.extend(size.to_le_bytes());
    }

    fn finish(mut self) -> Vec<u8> {
        let symbols_at = ObjectFile::HEADER as u64 + self.size;
        let strings_at = symbols_at + self.symbols.len() as u64;
        let (symbols, strings) = (self.name(b".symtab"), self.name(b".strtab"));
        let index = self.count();
        let (length, total) = (self.symbols.len() as u64, self.strings.len() as u64);
        let links = (u32::from(index) + 1, 1);
        self.header(symbols, elf::SHT_SYMTAB, 0, [symbols_at, length], links, [8, ObjectFile::SYMBOL as u64]);
        self.header(strings, elf::SHT_STRTAB, 0, [strings_at, total], (0, 0), [1, 0]);
        let mut data = b"\x7fELF\x02\x01\x01\0\0\0\0\0\0\0\0\0\x01\0\x3e\0\x01\0\0\0".to_vec();
        data.extend([0; 16]);
        data.extend((strings_at + total).to_le_bytes());
        data.extend([0; 4]);
        for half in [ObjectFile::HEADER as u16, 0, 0, ObjectFile::HEADER as u16, self.count(), index + 1] {
            data.extend(half.to_le_bytes());
        }
        data.resize(symbols_at as usize, 0x90);
        data.extend(self.symbols);
        data.extend(self.strings);
        data.extend(self.headers);
        data
    }
}

#[cfg(test)]
mod tests {
    use super::*;

    fn read(script: &[u8]) -> Script {
        crate::script::parse(Path::new("s"), script).unwrap().script
    }

    fn names(object: &Object) -> Vec<String> {
        object.sections().map(|section| section.name.to_string()).filter(|name| !name.is_empty()).collect()
    }

    #[test]
    fn each_pattern_takes_something() {
        let script = read(b"SECTIONS { .t : { *(.text .text.*) } .d : { *(.data[ab]) *(COMMON) } .r : { *x.o(.z) } }");
        let objects = objects(&script, Kind::Small);
        assert_eq!(objects.len(), 3);
        assert!(objects.iter().all(|object| object.fault().is_none()));
        let expected = [".dataa", ".text", ".text.q", ".text.w", ".z", ".symtab", ".strtab"];
        assert_eq!(names(&objects[0]), expected.map(String::from));
        assert!(objects.iter().all(|object| object.globals().count() == 1), "a common block each");
        assert_eq!(objects[2].name(), "wx.o");
    }

    #[test]
    fn what_no_statement_takes_is_taken_out() {
        let found = all(&read(b"SECTIONS { .t : { *(.text) *x.o(.z) } }")).unwrap();
        assert_eq!(found.len(), 3);
        assert!(found.iter().all(|one| one.evaluation.orphans.is_empty()));
        assert!(names(&found[0].objects[2]).contains(&".z".into()));
    }

    #[test]
    fn names_that_the_script_uses_are_defined() {
        let script = read(b"a = b; PROVIDE(c = 1); PROVIDE(d = c); SECTIONS { .t : { *(.text) } }");
        let objects = objects(&script, Kind::Small);
        let globals: Vec<String> = objects[0].globals().map(|symbol| symbol.name.to_string()).collect();
        assert_eq!(globals, ["b", "d"].map(String::from));
    }

    #[test]
    fn a_script_of_fixed_sizes_has_room() {
        let script = read(b"SECTIONS { .t : { *(.text) . = 32; } }");
        assert_eq!(all(&script).unwrap().len(), 1);
    }
}

//! Names and source lines in the objects of a link, by what fault lines say of them.

use std::collections::HashMap;

use bstr::{BStr, BString, ByteSlice};

use super::plain;
use super::slim_lto::{self, SLIM};
use super::source_lines::{SourceLine, SourceLines};
use super::Diagnostic;
use crate::objects::{Binding, Home, Object, Rank, Relocation, SectionIndex, Symbol, SymbolIndex, SymbolKind};

/// The objects whose variables are looked for in debug information in one run of messages.
const MAX_VARIABLE_OBJECTS: usize = 50;

/// Where a relocation or a definition is: what stands of it at the front of a message.
#[derive(Clone, Debug)]
pub(super) struct Site {
    pub file: String,
    pub line: Option<u32>,
    pub place: Option<String>,
    /// The relocation that stands there, if it is certain.
    pub relocation: Option<Relocation>,
}

impl Site {
    fn of_file(file: String, place: String) -> Site {
        Site { file, line: None, place: Some(place), relocation: None }
    }

    /// The site of a source line; `object` and `place` name it in the object.
    fn of_source(source: SourceLine, object: &str, place: &str) -> Site {
        let place = format!("({object} {place})");
        Site { file: source.path, line: Some(source.line), place: Some(place), relocation: None }
    }

    /// The site as text, such as `a.o: (.text+0x4)` and `/a.c:3: (a.o .text+0x4)`.
    pub fn prefix(&self) -> String {
        let line = self.line.map(|line| format!(":{line}")).unwrap_or_default();
        let place = self.place.as_ref().map(|place| format!(": {place}")).unwrap_or_default();
        format!("{}{line}{place}", self.file)
    }

    /// A message at the site.
    pub fn error(&self, sentence: String) -> Diagnostic {
        let mut diagnostic = Diagnostic::error(sentence);
        diagnostic.file = Some(self.file.clone());
        diagnostic.line = self.line;
        diagnostic.site = self.place.clone();
        diagnostic
    }
}

/// The tables of an object that messages look things up in.
struct Tables<'a> {
    /// The linked sections of each name.
    linked: HashMap<&'a BStr, Vec<SectionIndex>>,
    /// The relocations of a section by the offsets of their fields.
    relocations: HashMap<SectionIndex, HashMap<u64, Relocation>>,
    /// The functions and variables of a section by their starts.
    spans: HashMap<SectionIndex, Vec<(u64, SymbolIndex)>>,
    lines: SourceLines,
}

impl<'a> Tables<'a> {
    fn new(object: &'a Object) -> Tables<'a> {
        let mut linked: HashMap<&BStr, Vec<SectionIndex>> = HashMap::new();
        for section in object.sections().filter(crate::objects::Section::is_loaded) {
            linked.entry(section.name).or_default().push(section.index);
        }
        let mut spans: HashMap<SectionIndex, Vec<(u64, SymbolIndex)>> = HashMap::new();
        for symbol in object.symbols() {
            let is_thing = symbol.size > 0 && matches!(symbol.kind, SymbolKind::OBJECT | SymbolKind::FUNCTION);
            if let (Home::Section(section), true) = (symbol.home, is_thing) {
                spans.entry(section).or_default().push((symbol.value, symbol.index));
            }
        }
        spans.values_mut().for_each(|spans| spans.sort_unstable());
        Tables { linked, relocations: HashMap::new(), spans, lines: SourceLines::new(object) }
    }

    fn relocation(&mut self, object: &Object, section: SectionIndex, offset: u64) -> Option<Relocation> {
        let read = || {
            let all = object.relocations(section).filter(|relocation| relocation.kind != Relocation::NONE);
            all.map(|relocation| (relocation.offset, relocation)).collect()
        };
        self.relocations.entry(section).or_insert_with(read).get(&offset).copied()
    }

    /// The function or variable whose bytes the offset lies in; none if there is none, or several begin together.
    fn enclosing<'o>(&self, object: &'o Object, section: SectionIndex, offset: u64) -> Option<Symbol<'o>> {
        let spans = self.spans.get(&section)?;
        let index = spans.partition_point(|(start, _)| *start <= offset).checked_sub(1)?;
        let (start, symbol) = *spans.get(index)?;
        let is_shared = index > 0 && spans.get(index - 1).map_or(false, |(before, _)| *before == start);
        object.symbol(symbol).filter(|symbol| !is_shared && offset - start < symbol.size)
    }
}

/// The objects of a link, by their names.
pub(super) struct Names<'a> {
    objects: &'a [Object],
    by_name: HashMap<&'a BStr, usize>,
    tables: HashMap<usize, Tables<'a>>,
    variable_objects: Vec<usize>,
    /// The objects that define a name, for the names that were asked for.
    definers: HashMap<BString, Vec<usize>>,
    /// What objects of slim LTO define, by the first one that does.
    slim: Option<HashMap<BString, &'a BStr>>,
}

impl<'a> Names<'a> {
    pub fn new(objects: &'a [Object]) -> Names<'a> {
        let by_name = objects.iter().enumerate().map(|(index, object)| (object.name(), index)).collect();
        let (tables, definers) = (HashMap::new(), HashMap::new());
        Names { objects, by_name, tables, variable_objects: Vec::new(), definers, slim: None }
    }

    pub fn is_empty(&self) -> bool {
        self.objects.is_empty()
    }

    /// An object by its name.
    pub fn object(&self, name: &[u8]) -> Option<&'a Object> {
        self.by_name.get(name.as_bstr()).and_then(|index| self.objects.get(*index))
    }

    /// How an object is named in messages: as its file or member is, by the name that the session knows it by.
    pub fn shown(&self, name: &[u8]) -> String {
        plain(name)
    }

    fn tables(&mut self, name: &[u8]) -> Option<(&'a Object, usize, &mut Tables<'a>)> {
        let index = *self.by_name.get(name.as_bstr())?;
        let object = self.objects.get(index)?;
        Some((object, index, self.tables.entry(index).or_insert_with(|| Tables::new(object))))
    }

    /// The size of the one linked section of a name; none if there is none, or several.
    pub fn section_size(&mut self, object: &[u8], section: &[u8]) -> Option<u64> {
        let (object, _, tables) = self.tables(object)?;
        match tables.linked.get(section.as_bstr())?.as_slice() {
            [index] => object.section(*index).map(|section| section.size),
            _ => None,
        }
    }

    /// Where the relocation stands at an offset of a section; of several sections of the name the one that has a
    /// relocation there that is meant.
    pub fn site(
        &mut self,
        name: &[u8],
        section: &[u8],
        offset: u64,
        is_meant: &dyn Fn(&Object, Relocation) -> bool,
    ) -> Site {
        let place = format!("{}+{offset:#x}", plain(section));
        let unknown = Site::of_file(self.shown(name), format!("({place})"));
        let (object, index, tables) = match self.tables(name) {
            Some(found) => found,
            None => return unknown,
        };
        let sections = tables.linked.get(section.as_bstr()).cloned().unwrap_or_default();
        let mut found = Vec::new();
        for section in sections {
            if let Some(relocation) = tables.relocation(object, section, offset) {
                if is_meant(object, relocation) {
                    found.push((section, relocation));
                }
            }
        }
        match found.as_slice() {
            [(section, relocation)] => {
                let site = self.located(index, *section, offset, &place);
                Site { relocation: Some(*relocation), ..site }
            }
            _ => unknown,
        }
    }

    /// The source line of an offset, or the function that it lies in.
    fn located(&mut self, index: usize, section: SectionIndex, offset: u64, place: &str) -> Site {
        let object = match self.objects.get(index) {
            Some(object) => object,
            None => return Site::of_file(String::new(), format!("({place})")),
        };
        let shown = self.shown(object.name());
        let tables = self.tables.entry(index).or_insert_with(|| Tables::new(object));
        let enclosing = tables.enclosing(object, section, offset);
        let mut source = tables.lines.of_code(section, offset);
        if let Some(symbol) = enclosing.filter(|symbol| symbol.kind != SymbolKind::FUNCTION && source.is_none()) {
            source = self.variable(index, section, symbol.value);
        }
        match (source, enclosing) {
            (Some(source), _) => Site::of_source(source, &shown, place),
            (None, Some(symbol)) if !symbol.name.is_empty() => {
                Site::of_file(shown, format!("in `{}': ({place})", plain(symbol.name)))
            }
            (None, _) => Site::of_file(shown, format!("({place})")),
        }
    }

    /// The source line of a variable, for a bounded number of objects.
    fn variable(&mut self, index: usize, section: SectionIndex, offset: u64) -> Option<SourceLine> {
        if !self.variable_objects.contains(&index) {
            if self.variable_objects.len() >= MAX_VARIABLE_OBJECTS {
                return None;
            }
            self.variable_objects.push(index);
        }
        self.tables.get_mut(&index)?.lines.of_variable(section, offset)
    }

    /// Where an object has its one strong definition of a name, if that is in a section.
    pub fn definition(&mut self, object: &[u8], name: &[u8]) -> Option<Site> {
        let (found, index, tables) = self.tables(object)?;
        let symbol = one_strong(found, name)?;
        let section = match symbol.home {
            Home::Section(section) => found.section(section)?,
            _ => return None,
        };
        let place = format!("{}+{:#x}", plain(section.name), symbol.value);
        let function = tables.lines.of_function(section.index, symbol.value);
        let source = function.or_else(|| self.variable(index, section.index, symbol.value));
        let shown = self.shown(object);
        Some(match source {
            Some(source) => Site::of_source(source, &shown, &place),
            None => Site::of_file(shown, format!("({place})")),
        })
    }

    /// A note that an object of slim LTO defines the name; `None` if none does.
    pub fn slim_hint(&mut self, name: &[u8]) -> Option<String> {
        let objects = self.objects;
        let read = || {
            let mut found = HashMap::new();
            for object in objects.iter().filter(|object| slim_lto::is_slim(object)) {
                for name in slim_lto::definitions(object) {
                    found.entry(name).or_insert_with(|| object.name());
                }
            }
            found
        };
        let object = *self.slim.get_or_insert_with(read).get(name.as_bstr())?;
        Some(format!("{} defines it, but {SLIM}", plain(object)))
    }

    /// Whether an object defines a name.
    pub fn is_defined(&mut self, name: &[u8]) -> bool {
        !self.definers(name).is_empty()
    }

    /// The objects that define a name.
    fn definers(&mut self, name: &[u8]) -> &[usize] {
        let objects = self.objects;
        let find = || {
            let defines = |object: &Object| object.globals_named(name.as_bstr()).any(|symbol| !symbol.is_undefined());
            let found = objects.iter().enumerate().filter(|(_, object)| defines(object));
            found.map(|(index, _)| index).collect()
        };
        self.definers.entry(BString::from(name)).or_insert_with(find)
    }

    /// The section, and its object, that a symbol of an object stands for, if that is certain: a local symbol, or
    /// the one strong definition of its name.
    pub fn section_of(&mut self, object: &'a Object, symbol: Symbol<'a>) -> Option<String> {
        let (object, symbol) = match symbol.binding {
            Binding::Local => (object, symbol),
            _ if is_strong(&symbol) => (object, symbol),
            _ => {
                let objects = self.objects;
                let definers = self.definers(symbol.name);
                let mut strong = definers.iter().filter_map(|index| objects.get(*index)).flat_map(|object| {
                    let all = object.globals_named(symbol.name).filter(is_strong);
                    all.map(move |symbol| (object, symbol))
                });
                match (strong.next(), strong.next()) {
                    (Some(one), None) => one,
                    _ => return None,
                }
            }
        };
        match symbol.home {
            Home::Section(index) => {
                let section = object.section(index)?;
                Some(format!("`{}' of {}", plain(section.name), self.shown(object.name())))
            }
            _ => None,
        }
    }
}

/// The one strong definition that an object has of a name.
fn one_strong<'a>(object: &'a Object, name: &'a [u8]) -> Option<Symbol<'a>> {
    let mut strong = object.globals_named(name.as_bstr()).filter(is_strong);
    match (strong.next(), strong.next()) {
        (Some(symbol), None) => Some(symbol),
        _ => None,
    }
}

fn is_strong(symbol: &Symbol<'_>) -> bool {
    symbol.binding == Binding::Global && symbol.rank() == Some(Rank::Strong)
}

/// The name of a symbol, that of its section for a section's symbol.
pub(super) fn symbol_name(object: &Object, symbol: &Symbol<'_>) -> String {
    match (symbol.kind, symbol.home) {
        (SymbolKind::SECTION, Home::Section(index)) => {
            object.section(index).map_or(String::new(), |section| plain(section.name))
        }
        _ => plain(symbol.name),
    }
}

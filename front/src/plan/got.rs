//! The global offset table of a link: entries for the references that GNU ld does not relax, in an object of its own
//! beside the one in which GNU ld makes `.got` and `.got.plt` (bfd/elfxx-x86.c, `_bfd_x86_elf_late_size_sections`).

use std::collections::{BTreeSet, HashMap, HashSet};

use bstr::{BStr, BString, ByteSlice};

use super::{settings_of, Scripts};
use crate::command::Command;
use crate::layout::{Evaluation, Flags, Layout, Settings};
use crate::objects::{
    got_object, session_name, Binding, GotReference, GotSlot, LinkNames, NamedLocal, Object, SectionIndex, SymbolIndex,
    ENTRY_SIZE, GLOBAL_OFFSET_TABLE, GOT_START, HEADER_SECTION,
};

/// The section of the entries in the object of a table.
const ENTRIES_SECTION: SectionIndex = SectionIndex(1);

/// A table, and the objects of the link with it.
#[derive(Debug)]
pub(super) struct Got {
    /// By symbol: where its entry is in the table, in bytes.
    entries: HashMap<GotEntry, u64>,
    /// The names that nothing defines, though a reference needs them: these have no entry, and are a fault where they
    /// are.
    undefined: HashSet<GotEntry>,
    /// The place of its object among the others; `None` if no reference that is in the image needs it.
    at: Option<usize>,
    /// The objects of the link, that of the table among them.
    objects: Vec<Object>,
}

/// What an entry has the address of.
#[derive(Clone, PartialEq, Eq, PartialOrd, Ord, Hash, Debug)]
enum GotEntry {
    /// A local symbol, by the place of its object.
    Local(usize, u32),
    /// A name.
    Global(BString),
}

impl GotEntry {
    fn of(place: usize, object: &Object, symbol: SymbolIndex) -> Option<GotEntry> {
        let symbol = object.symbol(symbol)?;
        Some(match symbol.binding {
            Binding::Local => GotEntry::Local(place, symbol.index.0),
            _ => GotEntry::Global(symbol.name.to_owned()),
        })
    }

    /// Its name in the table.
    fn name(&self, objects: &[Object]) -> BString {
        match self {
            GotEntry::Global(name) => name.clone(),
            GotEntry::Local(place, symbol) => {
                let object = objects.get(*place).map_or(b"".as_bstr(), |object| object.name());
                format!("{GOT_START}.{object}.{symbol}").into()
            }
        }
    }
}

impl Got {
    /// The table of a link; `None` if no object has a reference that needs one.
    pub(super) fn of(command: &Command, scripts: &Scripts, objects: &[Object]) -> Option<Got> {
        let refers = |object: &Object| object.globals_named(GLOBAL_OFFSET_TABLE.into()).any(|one| one.is_undefined());
        if !objects.iter().any(|object| !object.got_references().is_empty() || refers(object)) {
            return None;
        }
        let laid_out = |settings| Layout::new(&scripts.reading.script, objects, &settings).ok();
        let layout = laid_out(Settings { merges: false, ..settings_of(command, scripts) });
        let evaluated = |layout: &Layout| layout.evaluate(objects).ok();
        // Strings that are not merged may not fit where they do once they are.
        let merged = || laid_out(settings_of(command, scripts)).as_ref().and_then(evaluated);
        let evaluation = layout.as_ref().and_then(evaluated).or_else(merged);
        let live = evaluation.as_ref().map(live_of);
        let is_live = |place: usize, section: SectionIndex| {
            let is_linked =
                objects.get(place).and_then(|object| object.section(section)).map(|one| one.kind.is_linked());
            is_linked == Some(true) && live.as_ref().map_or(true, |live| live.contains(&(place as u32, section)))
        };
        let mut found = entries_of(objects, &is_live);
        let undefined = undefined_of(&found, objects, evaluation.as_ref());
        found.retain(|entry| !undefined.contains(entry));
        let order = in_order(found, layout.as_ref(), objects);
        let refers = |(place, object): (usize, &Object)| refers(object) && is_referred(place, object, &is_live);
        let is_needed = !order.is_empty() || objects.iter().enumerate().any(refers);
        let at = is_needed.then(|| owner(objects) + 1);
        let entries = order.iter().enumerate().map(|(at, entry)| (entry.clone(), (at * ENTRY_SIZE) as u64)).collect();
        let mut table = Got { entries, undefined, at, objects: Vec::new() };
        table.objects = objects.iter().enumerate().map(|(place, object)| table.rewritten(place, object)).collect();
        if let Some(at) = at {
            let own = object_of(&order, objects, at - 1);
            table.objects.insert(at.min(objects.len()), own);
        }
        Some(table)
    }

    /// The objects of the link.
    pub(super) fn objects(&self) -> &[Object] {
        &self.objects
    }

    /// The place of the table's object.
    pub(super) fn at(&self) -> Option<usize> {
        self.at
    }

    /// Takes an object in the place of another one of the same symbols and relocations; gives its place and it with the
    /// table.
    pub(super) fn put(&mut self, place: usize, object: &Object) -> (usize, Object) {
        let object = self.rewritten(place, object);
        let place = place + usize::from(self.at.map_or(false, |at| place >= at));
        if let Some(old) = self.objects.get_mut(place) {
            *old = object.clone();
        }
        (place, object)
    }

    /// An object whose references are to the table.
    fn rewritten(&self, place: usize, object: &Object) -> Object {
        if object.got_references().is_empty() {
            return object.clone();
        }
        let entry = |symbol| GotEntry::of(place, object, symbol).and_then(|entry| self.entries.get(&entry)).copied();
        let locals: BTreeSet<&GotEntry> =
            self.entries.keys().filter(|one| matches!(one, GotEntry::Local(own, _) if *own == place)).collect();
        let named: Vec<NamedLocal> = locals
            .into_iter()
            .filter_map(|one| match one {
                GotEntry::Local(_, symbol) => Some(NamedLocal {
                    symbol: SymbolIndex(*symbol),
                    name: format!("{GOT_START}.{}.{symbol}", object.name()).into(),
                }),
                GotEntry::Global(_) => None,
            })
            .collect();
        // What is not in the image needs no entry, and any place will do.
        let place_of = |symbol| {
            let is_undefined =
                GotEntry::of(place, object, symbol).map_or(false, |entry| self.undefined.contains(&entry));
            (!is_undefined).then(|| entry(symbol).unwrap_or(0))
        };
        object.with_table(&place_of, &named).unwrap_or_else(|| object.clone())
    }
}

/// The sections that are in the image, by the places of their objects.
fn live_of(evaluation: &Evaluation) -> HashSet<(u32, SectionIndex)> {
    let live = evaluation.sections.iter().filter(|one| one.output().is_some() && !one.flags.has(Flags::EXCLUDE));
    live.filter_map(|section| Some((section.object.0, section.number()?))).collect()
}

/// The names among some entries that nothing defines, and that are not weak.
fn undefined_of(found: &BTreeSet<GotEntry>, objects: &[Object], evaluation: Option<&Evaluation>) -> HashSet<GotEntry> {
    let names = || {
        found.iter().filter_map(|entry| match entry {
            GotEntry::Global(name) => Some(name),
            GotEntry::Local(..) => None,
        })
    };
    let known = LinkNames::look_up(objects, names());
    let has_value = |name: &BString| {
        let symbol = evaluation.and_then(|evaluation| evaluation.symbol(name));
        symbol.map_or(false, |symbol| symbol.value.is_some())
    };
    let is_undefined = |name: &&BString| {
        known.definition(name.as_bstr()).is_none() && !has_value(name) && !is_weak(name.as_bstr(), objects)
    };
    names().filter(is_undefined).map(|name| GotEntry::Global(name.clone())).collect()
}

/// Whether all references to a name are weak.
fn is_weak(name: &BStr, objects: &[Object]) -> bool {
    let is_strong =
        |object: &Object| object.globals_named(name).any(|one| one.is_undefined() && one.binding != Binding::Weak);
    !objects.iter().any(is_strong)
}

/// The entries of the table: the symbols of references that are in the image.
fn entries_of(objects: &[Object], is_live: &dyn Fn(usize, SectionIndex) -> bool) -> BTreeSet<GotEntry> {
    let places = objects.iter().enumerate();
    let references =
        places.flat_map(|(place, object)| object.got_references().iter().map(move |one| (place, object, one)));
    references
        .filter(|(place, _, one)| one.wants.is_entry() && is_live(*place, one.section))
        .filter_map(|(place, object, one): (usize, &Object, &GotReference)| GotEntry::of(place, object, one.symbol))
        .collect()
}

/// The entries in GNU ld's order: local symbols by objects, then names in the order of its table of symbols.
fn in_order(found: BTreeSet<GotEntry>, layout: Option<&Layout>, objects: &[Object]) -> Vec<GotEntry> {
    let (mut order, names): (Vec<GotEntry>, Vec<GotEntry>) =
        found.into_iter().partition(|entry| matches!(entry, GotEntry::Local(..)));
    match layout.filter(|_| names.len() > 1) {
        Some(layout) => {
            let is_one = |name: &BStr| names.contains(&GotEntry::Global(name.to_owned()));
            order.extend(layout.table_order(objects, &is_one).into_iter().map(GotEntry::Global));
        }
        None => order.extend(names),
    }
    order
}

/// Whether a section that is in the image refers to `_GLOBAL_OFFSET_TABLE_`.
fn is_referred(place: usize, object: &Object, is_live: &dyn Fn(usize, SectionIndex) -> bool) -> bool {
    let is_it = |symbol| object.symbol(symbol).map_or(false, |symbol| symbol.name == GLOBAL_OFFSET_TABLE);
    object
        .sections()
        .filter(|section| section.is_loaded() && is_live(place, section.index))
        .any(|section| object.relocations(section.index).any(|one| is_it(one.symbol)))
}

/// The place of the object in which GNU ld makes sections: the first that has a note of properties, else the first
/// (bfd/elfxx-x86.c, `_bfd_x86_elf_link_setup_gnu_properties`).
fn owner(objects: &[Object]) -> usize {
    let has_note = |object: &Object| {
        let mut sections = object.sections();
        sections.any(|section| section.kind.is_linked() && section.name == ".note.gnu.property")
    };
    objects.iter().position(has_note).unwrap_or(0)
}

/// The object of a table, which stands for what GNU ld makes in an object.
fn object_of(order: &[GotEntry], objects: &[Object], owner: usize) -> Object {
    let names: Vec<BString> = order.iter().map(|entry| entry.name(objects)).collect();
    let known = LinkNames::look_up(objects, &names);
    let is_weak = |name: &BString| known.definition(name.as_bstr()).is_none() && is_weak(name.as_bstr(), objects);
    let entry = |(entry, name): (&GotEntry, &BString)| GotSlot {
        name: name.clone(),
        is_weak: matches!(entry, GotEntry::Global(_)) && is_weak(name),
    };
    let entries: Vec<GotSlot> = order.iter().zip(&names).map(entry).collect();
    let mut used: HashSet<BString> = objects.iter().map(|object| object.name().to_owned()).collect();
    let name = session_name(GOT_START.as_bytes(), &mut used);
    let origin = match objects.get(owner) {
        Some(object) => object.origin().clone(),
        None => crate::objects::Origin::of_file(std::path::Path::new(GOT_START)),
    };
    Object::new(name, origin, got_object(&entries)).with_retained(&[ENTRIES_SECTION, HEADER_SECTION])
}

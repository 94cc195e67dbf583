//! The names of the objects of a link and of its script, in the order of GNU ld's table.

use std::borrow::Cow;
use std::ops::Deref;
use std::sync::{Arc, Mutex, PoisonError};

use bstr::{BString, ByteSlice};
use object::elf;

use crate::fast_map::{FastMap, FastSet};
use crate::gnu_map::{Named, NamedDefinition};
use crate::layout::name_table::{table_hash, NameTable};
use crate::layout::Evaluation;
use crate::objects::{
    Binding, Home, LinkNames, Object, ObjectIndex, Rank, Symbol, SymbolIndex, SymbolKind, EH_FRAME_HDR_START,
    FRAME_ANCHOR, GLOBAL_OFFSET_TABLE, GOT_START,
};
use crate::script::tree::Name;

/// Stands for no place.
const NOWHERE: u32 = u32::MAX;
/// The name of the object of a build ID.
const IDENTITY: &str = "ldi.build-id";

/// The names that are not local, in GNU ld's order, with what the objects say of each.
#[derive(Debug)]
pub struct LinkedNames {
    names: Vec<LinkedName>,
    /// The objects that they are of, and the names of the script.
    objects: Vec<Object>,
    of_script: Vec<(usize, Name)>,
    /// Whether there is the name of a table of entries.
    has_eh_frame_hdr: bool,
    /// The places of the names of the script and of GNU ld itself, each with the number of objects that are read
    /// before.
    spoken: Vec<(usize, u32)>,
    /// By object: where its names begin in `mentions`, which has their places.
    first: Vec<usize>,
    mentions: Vec<u32>,
    /// The table of names of the last image, and the numbers of the entries of these names in it.
    last: Mutex<(Vec<u8>, Arc<[u32]>)>,
}

/// A name.
#[derive(Clone, PartialEq, Eq, Debug, Default)]
pub(super) struct LinkedName {
    /// The name.
    pub(super) name: BString,
    /// Its hash in GNU ld's table.
    hash: u64,
    /// What the objects say of it.
    said: Said,
    /// Whether script, command line or GNU ld itself speak of it.
    pub(super) is_named: bool,
}

/// What objects say of a name.
#[derive(Clone, Copy, PartialEq, Eq, Debug, Default)]
pub(super) struct Said {
    /// The greatest restraint that an object says: `st_other`.
    pub(super) visibility: u8,
    /// Its type and size, as of the definition that counts.
    pub(super) kind: u8,
    pub(super) size: u64,
    /// The symbol that gives the size.
    sized_by: Option<(ObjectIndex, SymbolIndex)>,
    /// The definition that counts.
    pub(super) defined_by: Option<(ObjectIndex, SymbolIndex)>,
    /// How good it is, where it is, and its value there.
    rank: Option<Rank>,
    pub(super) home: Home,
    pub(super) value: u64,
    /// Whether an object has it undefined, or as a common block; and whether one does, and not as a weak symbol.
    pub(super) is_referred: bool,
    pub(super) is_needed: bool,
    /// Whether its definition has the binding STB_GNU_UNIQUE.
    pub(super) is_unique: bool,
}

impl Deref for LinkedName {
    type Target = Said;

    fn deref(&self) -> &Said {
        &self.said
    }
}

impl LinkedNames {
    /// The names of a link; of those of an earlier one what its objects say anew alone is found.
    pub fn of(objects: &[Object], evaluation: &Evaluation, before: Option<LinkedNames>) -> LinkedNames {
        let has_eh_frame_hdr = evaluation.eh_frame_hdr.is_some();
        let is_of_script =
            |before: &LinkedNames| before.of_script == evaluation.named && before.has_eh_frame_hdr == has_eh_frame_hdr;
        let mut before = match before.filter(is_of_script) {
            Some(before) if before.objects.len() == objects.len() => before,
            _ => return LinkedNames::found(objects, evaluation),
        };
        let says_other = |(one, other): (&Object, &Object)| !says_the_same(one, other);
        let others: Vec<bool> = before.objects.iter().zip(objects).map(says_other).collect();
        before.hold(objects);
        if others.contains(&true) {
            let found = Found::among(std::mem::take(&mut before.names), objects, &others);
            before.renew(objects, &others, found);
        }
        before
    }

    /// The names of a link.
    fn found(objects: &[Object], evaluation: &Evaluation) -> LinkedNames {
        let named = &evaluation.named;
        let mut found = Found::default();
        let mut spoken: Vec<(usize, u32)> = named.iter().map(|(read, name)| (*read, found.enter(name))).collect();
        spoken.push((objects.len(), found.enter(GLOBAL_OFFSET_TABLE.as_bytes())));
        if evaluation.eh_frame_hdr.is_some() {
            spoken.push((objects.len(), found.enter(EH_FRAME_HDR_START.as_bytes())));
        }
        found.names.iter_mut().for_each(|one| one.is_named = true);
        let (objects, of_script) = (objects.to_vec(), named.clone());
        let (first, mentions, last) = (Vec::new(), Vec::new(), Mutex::new((Vec::new(), Vec::new().into())));
        let names = Vec::new();
        let has_eh_frame_hdr = evaluation.eh_frame_hdr.is_some();
        let objects_of = Vec::new();
        let mut names =
            LinkedNames { names, objects: objects_of, of_script, has_eh_frame_hdr, spoken, first, mentions, last };
        names.renew(&objects, &vec![true; objects.len()], found);
        names.objects = objects;
        names
    }

    /// Finds what some of the objects say anew. What is said of names that none of them has stays.
    fn renew<'a>(&mut self, objects: &'a [Object], others: &[bool], mut found: Found<'a>) {
        let mut is_anew = vec![false; found.names.len()];
        let (mut first, mut mentions) = (Vec::with_capacity(objects.len()), Vec::with_capacity(self.mentions.len()));
        for (number, (object, is_other)) in objects.iter().zip(others).enumerate() {
            let start = mentions.len();
            let before = mentions_in(&self.first, &self.mentions, number);
            match is_other {
                true => found.mention(object, &mut mentions),
                false => mentions.extend_from_slice(before),
            }
            first.push(start);
            if *is_other {
                is_anew.resize(found.names.len(), false);
                let now = mentions.get(start..).unwrap_or_default();
                let places = before.iter().chain(now).map(|place| *place as usize);
                places.for_each(|place| is_anew.get_mut(place).into_iter().for_each(|one| *one = true));
            }
        }
        (self.names, self.first, self.mentions) = (found.names, first, mentions);
        self.say(objects, &is_anew);
        self.arrange();
    }

    /// Takes what the objects say of some names.
    fn say(&mut self, objects: &[Object], is_anew: &[bool]) {
        for (one, _) in self.names.iter_mut().zip(is_anew).filter(|(_, is_anew)| **is_anew) {
            one.said = Said::default();
        }
        for (number, object) in objects.iter().enumerate() {
            let mentions = mentions_in(&self.first, &self.mentions, number);
            let first = object.first_global().0.max(1);
            for (index, place) in
                (first..).zip(mentions).filter(|(_, place)| is_anew.get(**place as usize) == Some(&true))
            {
                let symbol = object.nameless_symbol(SymbolIndex(index));
                if let (Some(symbol), Some(one)) = (symbol, self.names.get_mut(*place as usize)) {
                    let is_unique = object.unique().binary_search(&symbol.index).is_ok();
                    one.said.add_object(ObjectIndex(number as u32), &symbol, is_unique);
                }
            }
        }
    }

    /// The places of names in the order in which GNU ld enters them, each as often as it is named.
    fn in_turn(&self) -> impl Iterator<Item = u32> + '_ {
        let mut spoken = self.spoken.iter().peekable();
        let mut number = 0;
        let mut next = 0;
        std::iter::from_fn(move || loop {
            while self.first.get(number + 1).map_or(false, |end| next >= *end) {
                number += 1;
            }
            let is_read = next >= self.mentions.len();
            if let Some((_, place)) = spoken.next_if(|(read, _)| is_read || *read <= number) {
                return Some(*place);
            }
            next += 1;
            match self.mentions.get(next - 1) {
                Some(place) if *place == NOWHERE => {}
                place => return place.copied(),
            }
        })
    }

    /// Brings the names into the order of GNU ld's table; those that nobody has any more go.
    fn arrange(&mut self) {
        let mut table = NameTable::default();
        let (mut entered, mut is_entered) = (Vec::with_capacity(self.names.len()), vec![false; self.names.len()]);
        for place in self.in_turn() {
            let (one, is_in) = match (self.names.get(place as usize), is_entered.get_mut(place as usize)) {
                (Some(one), Some(is_in)) if !*is_in => (one, is_in),
                _ => continue,
            };
            *is_in = true;
            entered.push(place);
            table.insert_hashed(one.hash);
        }
        let mut places = vec![NOWHERE; self.names.len()];
        let mut names = Vec::with_capacity(entered.len());
        for at in table.listed().into_iter().filter_map(|at| entered.get(at)) {
            if let (Some(one), Some(place)) = (self.names.get_mut(*at as usize), places.get_mut(*at as usize)) {
                *place = names.len() as u32;
                names.push(std::mem::take(one));
            }
        }
        self.names = names;
        *self.last.get_mut().unwrap_or_else(PoisonError::into_inner) = (Vec::new(), Vec::new().into());
        for place in self.mentions.iter_mut().chain(self.spoken.iter_mut().map(|(_, place)| place)) {
            *place = places.get(*place as usize).copied().unwrap_or(NOWHERE);
        }
    }

    /// The numbers of the entries of these names in an image with a table of names, which `find` finds; those of the
    /// last image if the table is the same.
    pub(super) fn numbers_in(&self, table: &[u8], find: impl FnOnce() -> Vec<u32>) -> Arc<[u32]> {
        let mut last = self.last.lock().unwrap_or_else(PoisonError::into_inner);
        if last.0 != table || last.1.len() != self.names.len() {
            *last = (table.to_vec(), find().into());
        }
        Arc::clone(&last.1)
    }

    /// The place of the name of an object's symbol.
    pub(super) fn name_of(&self, object: usize, symbol: SymbolIndex) -> Option<usize> {
        let first = self.objects.get(object)?.first_global().0.max(1);
        let at = self.first.get(object)?.checked_add(symbol.0.checked_sub(first)? as usize)?;
        self.mentions.get(at).copied().filter(|place| *place != NOWHERE).map(|place| place as usize)
    }

    /// The first of an object's symbols that is not local, and the places of the names from that one on; no place of a
    /// name that is left out is one of them.
    pub(super) fn in_object(&self, object: usize) -> (usize, &[u32]) {
        let first = self.objects.get(object).map_or(1, |object| object.first_global().0.max(1) as usize);
        (first, mentions_in(&self.first, &self.mentions, object))
    }

    /// The names, in their order.
    pub(super) fn as_slice(&self) -> &[LinkedName] {
        &self.names
    }

    /// The same.
    pub(super) fn iter(&self) -> impl Iterator<Item = &LinkedName> {
        self.names.iter()
    }

    /// The names in their order, for a map.
    pub fn named<'a>(&'a self) -> Vec<Named<'a>> {
        let commons = self.names.iter().filter(|one| one.rank == Some(Rank::Common)).map(|one| &one.name);
        let commons = LinkNames::look_up(&self.objects, commons);
        let definition = |one: &LinkedName| match one.rank? {
            Rank::Common => commons.definition(one.name.as_bstr()).map(NamedDefinition::from),
            rank => {
                let object = one.defined_by?.0;
                Some(NamedDefinition { object, home: one.home, value: one.value, rank, size: 0 })
            }
        };
        let named = |one: &'a LinkedName| {
            let (name, is_spoken) = (Cow::Borrowed(one.name.as_bstr()), one.is_named);
            Named { name, definition: definition(one), is_spoken }
        };
        self.names.iter().map(named).collect()
    }

    /// Takes objects that say the same of names, but for sizes and places.
    pub fn hold(&mut self, objects: &[Object]) {
        let is_other = |(one, other): (&Object, &Object)| !one.data().is_identical(other.data());
        let changed: Vec<bool> = self.objects.iter().zip(objects).map(is_other).collect();
        if !changed.contains(&true) {
            return;
        }
        for (number, object) in objects.iter().enumerate().filter(|(number, _)| changed.get(*number) == Some(&true)) {
            let symbols = object.nameless_symbols().skip(object.first_global().0.max(1) as usize);
            for (place, symbol) in mentions_in(&self.first, &self.mentions, number).iter().zip(symbols) {
                let one = self.names.get_mut(*place as usize);
                one.into_iter().for_each(|one| one.said.take_place(ObjectIndex(number as u32), &symbol));
            }
        }
        self.objects = objects.to_vec();
    }
}

/// The places of the names of an object; `first` has where those of each begin.
fn mentions_in<'a>(first: &[usize], mentions: &'a [u32], object: usize) -> &'a [u32] {
    let bound = |at: usize| first.get(at).copied().unwrap_or(mentions.len());
    mentions.get(bound(object)..bound(object + 1)).unwrap_or_default()
}

/// Whether two objects say the same of names, but for sizes.
fn says_the_same(one: &Object, other: &Object) -> bool {
    let says_same = || one.globals().map(said).eq(other.globals().map(said)) && one.unique() == other.unique();
    one.data().is_identical(other.data()) || says_same()
}

/// What of a symbol decides about names: its value does not, nor does its size, if it is not that of a common block.
fn said(symbol: Symbol<'_>) -> (Symbol<'_>, Option<Rank>) {
    let rank = symbol.rank();
    let size = if rank == Some(Rank::Common) { symbol.size } else { u64::from(symbol.size != 0) };
    (Symbol { value: 0, size, home: Home::Undefined, ..symbol }, rank)
}

/// Whether an object is one of this program: of a table of addresses, of one of entries, or of a build ID.
pub(super) fn is_own_object(object: &Object) -> bool {
    [GOT_START, FRAME_ANCHOR, IDENTITY].iter().any(|name| object.name() == *name)
}

/// Whether a name is one of those by which this program refers to its table of addresses.
fn is_own(name: &[u8]) -> bool {
    name.strip_prefix(GOT_START.as_bytes()).map_or(false, |rest| rest.is_empty() || rest.starts_with(b"."))
}

/// Names while objects are read.
#[derive(Default)]
struct Found<'a> {
    names: Vec<LinkedName>,
    /// The places of those that may be entered once more.
    places: FastMap<&'a [u8], u32>,
}

impl<'a> Found<'a> {
    /// Names that are there already, before some of the objects enter theirs.
    fn among(names: Vec<LinkedName>, objects: &'a [Object], others: &[bool]) -> Found<'a> {
        let mut places: FastMap<&[u8], u32> = FastMap::default();
        let entering = objects.iter().zip(others).filter(|(_, is_other)| **is_other);
        places
            .extend(entering.flat_map(|(object, _)| object.globals()).map(|symbol| (symbol.name.as_bytes(), NOWHERE)));
        let hashes: FastSet<u64> = places.keys().map(|name| table_hash(name)).collect();
        for (place, one) in names.iter().enumerate().filter(|(_, one)| hashes.contains(&one.hash)) {
            if let Some(own) = places.get_mut(one.name.as_slice()) {
                *own = place as u32;
            }
        }
        Found { names, places }
    }

    /// The place of a name, which is entered if it is new.
    fn enter(&mut self, name: &'a [u8]) -> u32 {
        let place = self.places.entry(name).or_insert(NOWHERE);
        if *place == NOWHERE {
            *place = self.names.len() as u32;
            self.names.push(LinkedName { name: name.into(), hash: table_hash(name), ..LinkedName::default() });
        }
        *place
    }

    /// Enters the names of an object; adds their places to a list.
    fn mention(&mut self, object: &'a Object, mentions: &mut Vec<u32>) {
        let is_left_out = is_own_object(object);
        mentions.extend(object.globals().map(|symbol| match is_left_out || is_own(symbol.name) {
            true => NOWHERE,
            false => self.enter(symbol.name),
        }));
    }
}

impl Said {
    /// Takes size and place of a symbol that says the same as before, if they are those that count.
    fn take_place(&mut self, object: ObjectIndex, symbol: &Symbol<'_>) {
        let own = Some((object, symbol.index));
        if self.sized_by == own {
            self.size = symbol.size;
        }
        if self.defined_by == own {
            (self.home, self.value) = (symbol.home, symbol.value);
        }
    }

    /// Whether the definition that counts is a weak one.
    pub(super) fn is_weak(&self) -> bool {
        self.rank == Some(Rank::Weak)
    }

    /// Adds what one more object says (elflink.c, `elf_link_add_object_symbols`, `elf_merge_st_other`).
    fn add_object(&mut self, object: ObjectIndex, symbol: &Symbol<'_>, is_unique: bool) {
        let (own, other) = (self.visibility.wrapping_sub(1), symbol.visibility.number().wrapping_sub(1));
        self.visibility = own.min(other).wrapping_add(1);
        let rank = symbol.rank();
        let is_reference = matches!(rank, None | Some(Rank::Common));
        self.is_referred |= is_reference;
        self.is_needed |= is_reference && symbol.binding != Binding::Weak;
        let is_skipped = rank == Some(Rank::Weak) && matches!(self.rank, Some(Rank::Weak | Rank::Strong));
        if is_skipped {
            return;
        }
        let was_weak = self.rank == Some(Rank::Weak);
        let is_definition = matches!(rank, Some(Rank::Weak | Rank::Strong));
        if is_definition {
            self.is_unique = is_unique;
        }
        let is_greater = rank == Some(Rank::Common) && self.rank != Some(Rank::Strong);
        let is_sized = is_definition || self.size == 0 || is_greater && (was_weak || symbol.size > self.size);
        let is_kept = self.rank == Some(Rank::Common) && rank == Some(Rank::Weak);
        if symbol.size != 0 && rank.is_some() && is_sized && !is_kept {
            self.size = symbol.size;
            self.sized_by = Some((object, symbol.index));
        }
        if rank > self.rank {
            self.defined_by = Some((object, symbol.index));
            self.rank = rank;
            (self.home, self.value) = (symbol.home, symbol.value);
        }
        let becomes_common = was_weak && self.rank == Some(Rank::Common);
        let counts = rank == Some(Rank::Strong) || becomes_common || self.kind == elf::STT_NOTYPE;
        if symbol.kind != SymbolKind::NOTYPE && counts {
            self.kind = if symbol.kind == SymbolKind::COMMON { elf::STT_OBJECT } else { symbol.kind.0 };
        }
    }
}

#[cfg(test)]
mod tests {
    use super::*;
    use crate::objects::tests::code;
    use crate::objects::{Origin, SectionIndex, Visibility};
    use std::path::Path;

    fn symbol(binding: Binding, home: Home, kind: SymbolKind, size: u64) -> Symbol<'static> {
        let visibility = Visibility::Default;
        let index = SymbolIndex(1);
        Symbol { index, name: b"f".as_bstr(), binding, kind, visibility, home, value: 0, size }
    }

    fn of(symbols: &[Symbol<'_>]) -> (u8, u64, u8) {
        let mut known = Said::default();
        symbols.iter().for_each(|symbol| known.add_object(ObjectIndex(0), symbol, false));
        (known.kind, known.size, known.visibility)
    }

    /// elflink.c, `elf_link_add_object_symbols`: type and size are those of the definition, if it says any.
    #[test]
    fn types_and_sizes() {
        let home = Home::Section(SectionIndex(1));
        let strong = symbol(Binding::Global, home, SymbolKind::FUNCTION, 8);
        let weak = symbol(Binding::Weak, home, SymbolKind::OBJECT, 4);
        let plain = symbol(Binding::Global, home, SymbolKind::NOTYPE, 0);
        let block = |size| symbol(Binding::Global, Home::Common, SymbolKind::OBJECT, size);
        assert_eq!(of(&[weak, strong]), (elf::STT_FUNC, 8, 0));
        assert_eq!(of(&[strong, weak]), (elf::STT_FUNC, 8, 0));
        assert_eq!(of(&[weak, plain]), (elf::STT_OBJECT, 4, 0));
        assert_eq!(of(&[block(4), block(16), block(8)]), (elf::STT_OBJECT, 16, 0));
    }

    /// elflink.c, `elf_merge_st_other`: the most constraining visibility counts.
    #[test]
    fn visibilities() {
        let home = Home::Undefined;
        let of_all = |all: &[Visibility]| {
            let plain = symbol(Binding::Global, home, SymbolKind::NOTYPE, 0);
            of(&all.iter().map(|visibility| Symbol { visibility: *visibility, ..plain }).collect::<Vec<_>>()).2
        };
        assert_eq!(of_all(&[Visibility::Default, Visibility::Protected]), elf::STV_PROTECTED);
        assert_eq!(of_all(&[Visibility::Protected, Visibility::Hidden, Visibility::Default]), elf::STV_HIDDEN);
        assert_eq!(of_all(&[Visibility::Hidden, Visibility::Internal]), elf::STV_INTERNAL);
        assert_eq!(of_all(&[Visibility::Default, Visibility::Default]), elf::STV_DEFAULT);
    }

    fn written(number: usize, symbols: &[(&str, u8, u16, u64, u64)]) -> Object {
        let name = format!("o{number}.o");
        let origin = Origin::of_file(Path::new(&name));
        Object::new(name.into(), origin, code(symbols).into())
    }

    /// Of an object with other names, sizes and bindings the same is found as of all objects anew.
    #[test]
    fn what_is_found_anew_is_what_is_found_of_all() {
        let text: Vec<String> = (0..40).map(|number| format!("name_{number}")).collect();
        let mut random = 7_u32;
        let mut next = |below: u32| {
            random = random.wrapping_mul(1_103_515_245).wrapping_add(12_345);
            (random >> 16) % below
        };
        let mut any = |number: usize| {
            let symbols: Vec<(&str, u8, u16, u64, u64)> = (0..next(9))
                .map(|_| {
                    let home = [0, 1, 0xFFF1, 0xFFF2][next(4) as usize];
                    let (binding, value) = (1 + next(2) as u8, 8 * u64::from(next(2)));
                    (text[next(40) as usize].as_str(), binding, home, value, next(4).into())
                })
                .collect();
            written(number, &symbols)
        };
        let named = [(0, "name_1"), (0, "first"), (5, "name_2"), (5, "name_3"), (12, "last")];
        let named = named.into_iter().map(|(read, name)| (read, name.into())).collect();
        let evaluation = Evaluation { named, ..Evaluation::default() };
        let mut objects: Vec<Object> = (0..12).map(&mut any).collect();
        let mut kept = LinkedNames::of(&objects, &evaluation, None);
        for round in 0..200 {
            for number in [round % 12, round * 5 % 12].into_iter().take(1 + round % 2) {
                objects[number] = any(number);
            }
            kept = LinkedNames::of(&objects, &evaluation, Some(kept));
            let new = LinkedNames::of(&objects, &evaluation, None);
            assert_eq!((&kept.names, &kept.mentions), (&new.names, &new.mentions), "round {round}");
            assert_eq!((&kept.first, &kept.spoken), (&new.first, &new.spoken), "round {round}");
        }
    }

    /// Of other names, as many as before, the numbers in an image with the same table are others.
    #[test]
    fn numbers_are_those_of_the_names_as_they_are() {
        let evaluation = Evaluation::default();
        let objects = |name| [written(0, &[("defined", 1, 1, 0, 0), (name, 2, 0, 0, 0)])];
        let names = LinkedNames::of(&objects("weak"), &evaluation, None);
        assert_eq!(*names.numbers_in(b"\0defined\0", || vec![1, 2, 3]), [1, 2, 3]);
        let names = LinkedNames::of(&objects("weak"), &evaluation, Some(names));
        assert_eq!(*names.numbers_in(b"\0defined\0", || vec![4, 5, 6]), [1, 2, 3]);
        let names = LinkedNames::of(&objects("other"), &evaluation, Some(names));
        assert_eq!(*names.numbers_in(b"\0defined\0", || vec![4, 5, 6]), [4, 5, 6]);
    }

    #[test]
    fn own_names() {
        assert!(is_own(b"ldi.got") && is_own(b"ldi.got.a.o.3"));
        assert!(!is_own(b"ldi.gotten") && !is_own(b"got"));
    }
}

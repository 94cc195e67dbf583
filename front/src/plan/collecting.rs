//! What `--gc-sections` of GNU ld keeps and a link of `ldi` would not by itself: these sections get KEEP.
//!
//! For `ldi` the entry symbol's section and those under KEEP are roots, and each relocation is a reference
//! (docs/layout.md, 'Gathering'). GNU ld has more of both.

use bstr::{BStr, ByteSlice};

use crate::fast_map::FastMap;
use crate::layout::evaluation::{InputSection, Origin, StatementKind};
use crate::layout::ids::SectionId;
use crate::layout::{Evaluation, Flags};
use crate::objects::{Binding, Home, Object, Rank, Relocation, SectionIndex, Symbol};
use crate::script::tree::{InputStatement, Name, Script, SectionStatement, SectionsStatement, Span, Statement};

/// Where a reference leads: a section of an object, or its common blocks.
#[derive(Clone, Copy, PartialEq, Eq, Hash, Debug)]
pub(super) struct Part {
    pub(super) object: u32,
    /// The number of the section header; `None` for the common blocks.
    pub(super) section: Option<u32>,
}

/// The sections of an evaluation that `ldi` would leave out although GNU ld keeps them, by their indices; and whether
/// `ldi` keeps others that GNU ld leaves out.
pub(super) fn kept_beside(
    script: &Script,
    objects: &[Object],
    evaluation: &Evaluation,
    entry: &BStr,
) -> (Vec<bool>, bool) {
    let mut reach = Reach::new(objects, evaluation);
    if let Some(part) = reach.definitions.get(entry).copied() {
        reach.add(part);
    }
    for (statement, span) in kept_statements(script) {
        debug_assert!(statement.is_kept);
        if let Some(StatementKind::Input { sections, .. }) = evaluation.statement_at(span).map(|one| &one.kind) {
            for section in sections.iter().filter_map(|id| evaluation.section(*id)) {
                reach.add(part_of(section));
            }
        }
    }
    reach.follow();
    let is_beside = |section: &InputSection| {
        let is_live = section.output().is_some() && !section.flags.has(Flags::EXCLUDE | Flags::CREATED);
        is_live && !reach.is_reached(part_of(section))
    };
    let has_more = evaluation.sections.iter().any(|section| {
        let is_left_out = section.flags.has(Flags::EXCLUDE) && !section.flags.has(Flags::CREATED);
        is_left_out && section.size > 0 && reach.is_reached(part_of(section))
    });
    (evaluation.sections.iter().map(is_beside).collect(), has_more)
}

fn part_of(section: &InputSection) -> Part {
    let number = match section.origin {
        Origin::Header(number) => Some(number.0),
        Origin::Common | Origin::Linker => None,
    };
    Part { object: section.object.0, section: number }
}

/// The input statements under KEEP.
fn kept_statements(script: &Script) -> impl Iterator<Item = (&InputStatement, Span)> {
    let blocks = script.statements.iter().filter_map(|statement| match &statement.node {
        Statement::Sections(items) => Some(items),
        _ => None,
    });
    let sections = blocks.flatten().filter_map(|item| match &item.node {
        SectionsStatement::Output(section) => Some(section),
        _ => None,
    });
    sections.flat_map(|section| &section.body.node).filter_map(|statement| match &statement.node {
        SectionStatement::Input(input) if input.is_kept => Some((input, statement.span)),
        _ => None,
    })
}

/// What is reached so far.
struct Reach<'a> {
    objects: &'a [Object],
    evaluation: &'a Evaluation,
    /// By name: where its definition is, if it is in a section.
    definitions: FastMap<&'a BStr, Part>,
    /// The sections that may be reached: those that are linked, also if GNU ld leaves them out as unused.
    linked: FastMap<Part, SectionId>,
    reached: FastMap<Part, ()>,
    waiting: Vec<Part>,
}

impl<'a> Reach<'a> {
    fn new(objects: &'a [Object], evaluation: &'a Evaluation) -> Reach<'a> {
        let mut linked = FastMap::default();
        for (index, section) in evaluation.sections.iter().enumerate() {
            let may_stay = section.output().is_some() || section.flags.has(Flags::EXCLUDE);
            if may_stay && !section.flags.has(Flags::CREATED) {
                linked.insert(part_of(section), SectionId::new(index));
            }
        }
        let definitions = definitions(objects, evaluation);
        Reach { objects, evaluation, definitions, linked, reached: FastMap::default(), waiting: Vec::new() }
    }

    fn add(&mut self, part: Part) {
        if self.linked.contains_key(&part) && self.reached.insert(part, ()).is_none() {
            self.waiting.push(part);
        }
    }

    fn is_reached(&self, part: Part) -> bool {
        self.reached.contains_key(&part)
    }

    fn follow(&mut self) {
        while let Some(part) = self.waiting.pop() {
            let objects = self.objects;
            let (object, section) = match (objects.get(part.object as usize), part.section) {
                (Some(object), Some(section)) => (object, SectionIndex(section)),
                _ => continue,
            };
            let shortened = self.linked.get(&part).and_then(|id| self.evaluation.shortened.get(id));
            let stays = |one: &Relocation| shortened.map_or(true, |now| now.field(one.offset).is_some());
            for relocation in object.relocations(section).filter(stays) {
                let target = object.symbol(relocation.symbol).and_then(|symbol| self.target(part.object, &symbol));
                if let Some(target) = target {
                    self.add(target);
                }
            }
        }
    }

    fn target(&self, object: u32, symbol: &Symbol<'_>) -> Option<Part> {
        match (symbol.binding, symbol.home) {
            (Binding::Local, Home::Section(section)) => Some(Part { object, section: Some(section.0) }),
            (Binding::Local, _) => None,
            _ => self.definitions.get(symbol.name).copied(),
        }
    }
}

/// Where the names of a link are defined, of those that the script does not assign (docs/manual.md, 'Names').
pub(super) fn definitions<'a>(objects: &'a [Object], evaluation: &Evaluation) -> FastMap<&'a BStr, Part> {
    let mut found: FastMap<&'a BStr, (Rank, Part)> = FastMap::default();
    for (number, object) in objects.iter().enumerate() {
        for symbol in object.globals() {
            let (rank, section) = match (symbol.rank(), symbol.home) {
                (Some(rank), Home::Section(section)) => (rank, Some(section.0)),
                (Some(rank), Home::Common) => (rank, None),
                _ => continue,
            };
            let part = Part { object: number as u32, section };
            let best = found.entry(symbol.name).or_insert((rank, part));
            if rank > best.0 {
                *best = (rank, part);
            }
        }
    }
    let is_assigned = |name: &Name| {
        let symbol = evaluation.symbol(name);
        symbol.map_or(false, |symbol| matches!(symbol.definer, crate::layout::evaluation::Definer::Script(_)))
    };
    found
        .into_iter()
        .filter(|(name, _)| !is_assigned(&name.as_bytes().into()))
        .map(|(name, (_, part))| (name, part))
        .collect()
}

//! A script in the form that the passes use: tables of its statements, with what each pass leaves for the next.

use super::evaluation::{Base, Gap};
use super::expr::compiled::Expressions;
use super::flags::Flags;
use super::ids::{ExprId, NameId, OutputId, RegionId, SectionId, StatementId, SymbolId};
use super::interned_names::{FastMap, InternedNames};
use super::symbols::Symbols;
use crate::script::tree::{DataWidth, InputStatement, InsertPlace, Name, Provision, Span};

/// A fill, as its bytes.
pub(crate) type FillBytes = Option<std::sync::Arc<[u8]>>;

/// A statement.
#[derive(Clone, Debug)]
pub(crate) struct Step {
    pub span: Option<Span>,
    /// The output section that it stands in.
    pub output: Option<OutputId>,
    pub kind: StepKind,
    /// A PROVIDE that has counted once, and is an assignment then.
    pub is_provided: bool,
    /// The location counter in front of it in the last pass.
    pub dot: u64,
    /// Of an assignment to `.`: the bytes that it goes on, and where they begin.
    pub gap: u64,
    pub gap_offset: u64,
    /// What fills gaps from here, or in an assignment's own.
    pub fill: FillBytes,
    /// Where an input statement or data begins in its section, and the bytes up to its end.
    pub start: u64,
    pub size: u64,
    /// The value of data.
    pub value: u64,
    /// The value of an assignment.
    pub assigned: Option<(u64, Base)>,
}

/// What a statement is.
#[derive(Clone, Debug)]
pub(crate) enum StepKind {
    Output(OutputId),
    /// `.` has no symbol.
    Assign {
        target: Option<SymbolId>,
        value: ExprId,
        provision: Provision,
    },
    Assert {
        condition: ExprId,
        message: Name,
    },
    Data {
        width: DataWidth,
        value: ExprId,
    },
    Input(usize),
    Fill,
    CreateObjectSymbols,
    /// What moves the statements before it beside an output section.
    Insert(InsertPlace, Name),
    Other,
}

/// An input statement with what it takes.
#[derive(Clone, Debug)]
pub(crate) struct Taking {
    pub node: InputStatement,
    /// The input sections in their order.
    pub sections: Vec<SectionId>,
    pub gaps: Vec<Gap>,
    /// What the places of its sections were found for.
    pub shape: Option<Shape>,
    /// The greatest alignment of the sections that take room; 0 before they have places.
    pub greatest: u64,
    /// Whether some of them take room.
    pub is_used: bool,
    /// Whether it is of orphans, and stands in no script.
    pub is_of_orphans: bool,
}

impl Taking {
    /// A statement that has taken nothing so far.
    pub fn new(node: InputStatement) -> Taking {
        Taking {
            node,
            sections: Vec::new(),
            gaps: Vec::new(),
            shape: None,
            greatest: 0,
            is_used: false,
            is_of_orphans: false,
        }
    }
}

/// What the places of the sections of an input statement depend on.
#[derive(Clone, PartialEq, Eq, Debug)]
pub(crate) struct Shape {
    pub start: u64,
    /// The section's address, modulo the greatest alignment.
    pub phase: u64,
    pub forced: u64,
    pub is_ignored: bool,
    pub fill: FillBytes,
}

/// The type of an output section.
#[derive(Clone, Copy, PartialEq, Eq, Debug)]
pub(crate) enum OutputKind {
    Normal,
    /// NOLOAD
    NoLoad,
    /// DSECT, COPY, INFO, OVERLAY
    NotAllocated,
    /// READONLY
    ReadOnly,
    /// `TYPE = e`, perhaps with READONLY
    Typed {
        kind: u32,
        is_read_only: bool,
    },
    /// A section of an OVERLAY.
    Overlay {
        is_first: bool,
    },
}

/// Whether an output section counts.
#[derive(Clone, Copy, PartialEq, Eq, Debug)]
pub(crate) enum Constraint {
    None,
    /// ONLY_IF_RO
    ReadOnly,
    /// ONLY_IF_RW
    ReadWrite,
    /// Made beside another of its name.
    Special,
    /// The statement does not count: its constraint is not met.
    Unmet,
}

/// An output section statement, and the section that is made of it.
#[derive(Clone, Debug)]
pub(crate) struct Output {
    pub name: NameId,
    pub statement: StatementId,
    pub address: Option<ExprId>,
    pub kind: OutputKind,
    pub align: Option<ExprId>,
    pub subalign: Option<ExprId>,
    pub load: Option<ExprId>,
    pub region: RegionId,
    /// Whether the region goes on behind it: not if `--section-start` makes the section.
    pub moves_region: bool,
    pub load_region: Option<RegionId>,
    pub fill: FillBytes,
    pub segments: Vec<Name>,
    pub body: Vec<StatementId>,
    pub constraint: Constraint,
    pub is_aligned_with_input: bool,
    pub is_discard: bool,
    pub is_orphan: bool,
    /// The flags of an output section that is not made yet, by its name (ldelf.c, `hold`).
    pub expected: Flags,
    /// `.` after the last section of an OVERLAY.
    pub end: Option<ExprId>,
    // --- what the passes leave ---
    pub place: Option<Place>,
    pub is_ignored: bool,
    pub updates_dot: bool,
    pub has_address: bool,
    pub has_load: bool,
}

/// The section that is made of an output section statement.
#[derive(Clone, Debug)]
pub(crate) struct Place {
    pub address: u64,
    pub load: u64,
    pub size: u64,
    /// The size that the last pass found.
    pub last_size: u64,
    pub flags: Flags,
    pub align: u64,
    /// How many were made before.
    pub number: usize,
    /// Taken out of the image, as it is empty.
    pub is_gone: bool,
    /// The input section that was put in first.
    pub first: Option<SectionId>,
    pub inputs: Vec<SectionId>,
    /// Its type in the section header, as far as its name or its first input section says it; else 0.
    pub kind: u32,
    /// Its flags in the section header, as far as its name or its first input section says them.
    pub bits: u64,
    /// The type that TYPE gives.
    pub own_kind: u32,
    pub entry_size: u64,
}

impl Place {
    /// Whether it is loaded.
    pub fn is_loaded(&self) -> bool {
        self.flags.has(Flags::ALLOC)
    }
}

/// A region of MEMORY.
#[derive(Clone, Debug)]
pub(crate) struct Region {
    pub name: Name,
    pub span: Option<Span>,
    pub bounds: Option<(ExprId, ExprId)>,
    pub flags: Flags,
    pub not_flags: Flags,
    pub origin: u64,
    pub length: u64,
    pub current: u64,
    /// The last output section in it whose load address the next one follows.
    pub last: Option<OutputId>,
}

/// The name of the region of what names none.
pub(crate) const DEFAULT: &[u8] = b"*default*";

/// A script, compiled.
#[derive(Clone, Default, Debug)]
pub(crate) struct Program {
    pub steps: Vec<Step>,
    /// The statements outside of output sections; each output section is one.
    pub top: Vec<StatementId>,
    /// By statement of the scripts: how many of those stand before it.
    pub before: Vec<usize>,
    pub outputs: Vec<Output>,
    /// The output sections in their order.
    pub order: Vec<OutputId>,
    /// The output sections that are made, as GNU ld lists them: in the order in which that was done, those of orphans
    /// at their places.
    pub made: Vec<OutputId>,
    pub outputs_of: FastMap<NameId, Vec<OutputId>>,
    pub takings: Vec<Taking>,
    pub expressions: Expressions,
    pub symbols: Symbols,
    pub names: InternedNames,
    pub regions: Vec<Region>,
    pub region_names: FastMap<Name, RegionId>,
    /// `*default*`
    pub default_region: Option<RegionId>,
    /// LD_FEATURE("SANE_EXPR")
    pub is_sane: bool,
    pub externs: Vec<Name>,
    pub entry: Option<Name>,
    /// How many program headers PHDRS has.
    pub phdrs: Option<u64>,
    /// The first output section that takes common blocks.
    pub common: Option<OutputId>,
    pub inhibits_common: bool,
}

impl Output {
    /// Whether a statement of its name finds it (ldlang.c, `lang_output_section_find`).
    pub fn counts(&self) -> bool {
        self.constraint != Constraint::Unmet
    }
}

impl Program {
    /// The first output section of a name that counts.
    pub fn find(&self, name: NameId) -> Option<OutputId> {
        let found = self.outputs_of.get(&name)?;
        found.iter().copied().find(|id| self.outputs.get(id.index()).map_or(false, Output::counts))
    }

    /// The first output section of a name that counts.
    pub fn find_name(&self, name: &[u8]) -> Option<OutputId> {
        self.find(self.names.find(name)?)
    }

    /// A memory region, made if there is none of the name.
    pub fn region(&mut self, name: &[u8]) -> RegionId {
        let name: Name = name.into();
        if let Some(found) = self.region_names.get(&name) {
            return *found;
        }
        let id = RegionId::new(self.regions.len());
        self.regions.push(Region {
            name: name.clone(),
            span: None,
            bounds: None,
            flags: Flags::NONE,
            not_flags: Flags::NONE,
            origin: 0,
            length: u64::MAX,
            current: 0,
            last: None,
        });
        self.region_names.insert(name, id);
        id
    }

    /// Enters a statement.
    pub fn step(&mut self, span: Option<Span>, output: Option<OutputId>, kind: StepKind) -> StatementId {
        let id = StatementId::new(self.steps.len());
        self.steps.push(Step {
            span,
            output,
            kind,
            is_provided: false,
            dot: 0,
            gap: 0,
            gap_offset: 0,
            fill: None,
            start: 0,
            size: 0,
            value: 0,
            assigned: None,
        });
        id
    }

    /// The statement at the end of an output section that has its orphans.
    pub fn orphans_of(&mut self, output: OutputId) -> Option<&mut Taking> {
        let last = self.outputs.get(output.index())?.body.last().and_then(|id| self.steps.get(id.index()));
        let known = match last.map(|step| &step.kind) {
            Some(StepKind::Input(taking)) if self.takings.get(*taking)?.is_of_orphans => Some(*taking),
            _ => None,
        };
        let taking = match known {
            Some(taking) => taking,
            None => {
                let taking = self.takings.len();
                let sections = Some(Vec::new());
                let node = InputStatement { is_kept: false, section_flags: Vec::new(), file: None, sections };
                self.takings.push(Taking { is_of_orphans: true, ..Taking::new(node) });
                let step = self.step(None, Some(output), StepKind::Input(taking));
                self.outputs.get_mut(output.index())?.body.push(step);
                taking
            }
        };
        self.takings.get_mut(taking)
    }

    /// Enters an output section statement; where it stands among the others the caller says.
    pub fn output(&mut self, name: &[u8], span: Option<Span>) -> OutputId {
        let id = OutputId::new(self.outputs.len());
        let statement = self.step(span, None, StepKind::Output(id));
        let region = self.region(DEFAULT);
        let name_id = self.names.enter(name);
        self.outputs_of.entry(name_id).or_default().push(id);
        self.outputs.push(Output {
            name: name_id,
            statement,
            address: None,
            kind: OutputKind::Normal,
            align: None,
            subalign: None,
            load: None,
            region,
            moves_region: true,
            load_region: None,
            fill: None,
            segments: Vec::new(),
            body: Vec::new(),
            constraint: Constraint::None,
            is_aligned_with_input: false,
            is_discard: name == b"/DISCARD/",
            is_orphan: false,
            expected: Flags::NONE,
            end: None,
            place: None,
            is_ignored: false,
            updates_dot: false,
            has_address: false,
            has_load: false,
        });
        id
    }
}

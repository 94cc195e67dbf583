//! The state of a layout while its passes run.

use super::eh_frame::discard::Frames;
use super::eh_frame::hdr::EhFrameHdr;
use super::evaluation::{Base, FramesLeft, InputSection};
use super::expr::assignment_place::{AssignmentPlace, Source};
use super::expr::compiled::power_of;
use super::expr::fold::{DataSegment, Folded, Phase};
use super::headers::Headers;
use super::ids::{ExprId, NameId, OutputId, RegionId, SectionId, StatementId, SymbolId};
use super::interned_names::FastMap;
use super::merging::Merges;
use super::program::{Output, Place, Program, Region, Step};
use super::settings::Settings;
use super::stop::{refused, RefusedReason, Stop};
use super::symbols::SymbolState;
use crate::objects::Shortened;
use crate::script::tree::Name;
use std::sync::Arc;

/// The state.
pub(crate) struct Link<'a> {
    pub settings: &'a Settings,
    pub program: Program,
    pub sections: Vec<InputSection>,
    pub phase: Phase,
    /// Counts the passes (ldlang.c, `lang_statement_iteration`).
    pub pass: u32,
    /// The output section around the expression that is evaluated, and the location counter.
    pub at: Base,
    pub dot: u64,
    /// How deep the expression is, and how many LOADADDR are followed.
    pub depth: u32,
    pub load_depth: u32,
    pub segment: DataSegment,
    /// Whether an assignment to `.` is evaluated.
    pub to_dot: bool,
    /// The symbol of the assignment that is evaluated, while its value does not use itself.
    pub assigned: Option<SymbolId>,
    /// Whether the expression has an address that counts from the section around (ldexp.c, `rel_from_abs`).
    pub is_from_address: bool,
    /// The symbols that the expression names (ldexp.c, `assign_src`).
    pub source: Source,
    /// How far a pass is among the output sections.
    pub standing: AssignmentPlace,
    /// Counts the sizing passes, but for the one that finds empty sections.
    pub sizing: u32,
    pub headers: Headers,
    /// The names that GNU ld itself gives to starts and ends of sections: their section, whether it is the end.
    pub bounds: Vec<(SymbolId, NameId, bool)>,
    /// The input sections that are not empty and that no statement takes.
    pub orphans: Vec<SectionId>,
    /// `-z relro`, as long as there is anything that it is for.
    pub relro: bool,
    /// The sections with SHF_LINK_ORDER, and those that they belong to.
    pub linked: FastMap<SectionId, SectionId>,
    /// What is merged, and what is of sections that are not loaded.
    pub merges: Arc<Merges>,
    pub merges_beside: Arc<Merges>,
    /// The sections of which rows are left out.
    pub shortened: FastMap<SectionId, Arc<Shortened>>,
    /// What stays of `.eh_frame`, while it is found.
    pub frames: Frames,
    pub frames_left: FramesLeft,
    /// The section of the table of these entries, while there is to be one, and what it has.
    pub eh_frame_hdr: Option<SectionId>,
    pub eh_frame_hdr_made: Option<EhFrameHdr>,
}

impl<'a> Link<'a> {
    /// The state before the first pass.
    pub fn new(program: Program, sections: Vec<InputSection>, settings: &'a Settings) -> Link<'a> {
        Link {
            settings,
            program,
            sections,
            phase: Phase::First,
            pass: 1,
            at: Base::Absolute,
            dot: 0,
            depth: 0,
            load_depth: 0,
            segment: DataSegment::default(),
            to_dot: false,
            assigned: None,
            is_from_address: false,
            source: Source::None,
            standing: AssignmentPlace::default(),
            sizing: 0,
            headers: Headers::new(settings.relro),
            bounds: Vec::new(),
            orphans: Vec::new(),
            relro: settings.relro,
            linked: FastMap::default(),
            merges: Arc::default(),
            merges_beside: Arc::default(),
            shortened: FastMap::default(),
            frames: Frames::default(),
            frames_left: FramesLeft::default(),
            eh_frame_hdr: None,
            eh_frame_hdr_made: None,
        }
    }

    // --- tables, by index ---

    pub fn step(&self, id: StatementId) -> Option<&Step> {
        self.program.steps.get(id.index())
    }

    pub fn step_mut(&mut self, id: StatementId) -> Option<&mut Step> {
        self.program.steps.get_mut(id.index())
    }

    pub fn output(&self, id: OutputId) -> Option<&Output> {
        self.program.outputs.get(id.index())
    }

    pub fn output_mut(&mut self, id: OutputId) -> Option<&mut Output> {
        self.program.outputs.get_mut(id.index())
    }

    pub fn place(&self, id: OutputId) -> Option<&Place> {
        self.output(id)?.place.as_ref()
    }

    pub fn place_mut(&mut self, id: OutputId) -> Option<&mut Place> {
        self.output_mut(id)?.place.as_mut()
    }

    pub fn region(&self, id: RegionId) -> Option<&Region> {
        self.program.regions.get(id.index())
    }

    pub fn region_mut(&mut self, id: RegionId) -> Option<&mut Region> {
        self.program.regions.get_mut(id.index())
    }

    pub fn symbol(&self, id: SymbolId) -> Option<&SymbolState> {
        self.program.symbols.get(id)
    }

    pub fn symbol_mut(&mut self, id: SymbolId) -> Option<&mut SymbolState> {
        self.program.symbols.get_mut(id)
    }

    pub fn section(&self, id: SectionId) -> Option<&InputSection> {
        self.sections.get(id.index())
    }

    pub fn section_mut(&mut self, id: SectionId) -> Option<&mut InputSection> {
        self.sections.get_mut(id.index())
    }

    /// The name of an output section.
    pub fn output_name(&self, id: OutputId) -> Name {
        self.output(id).map_or_else(Name::default, |output| self.program.names.get(output.name).into())
    }

    /// The address of a base.
    pub fn base_address(&self, base: Base) -> u64 {
        match base {
            Base::Output(id) => self.place(id).map_or(0, |place| place.address),
            Base::Number | Base::Absolute | Base::Nowhere | Base::Section(_) => 0,
        }
    }

    /// The output sections of the image, in their order.
    pub fn places(&self) -> impl DoubleEndedIterator<Item = (OutputId, &Place)> {
        self.program.order.iter().filter_map(move |id| {
            let place = self.place(*id)?;
            (!place.is_gone).then_some((*id, place))
        })
    }

    // --- expressions ---

    /// The value of an expression outside of output sections.
    pub fn fold_absolute(&mut self, e: ExprId, dot: u64) -> Result<Folded, Stop> {
        self.fold(e, Base::Absolute, dot)
    }

    /// An alignment; 0 if there is none (ldexp.c, `exp_get_power`).
    pub fn power(&mut self, e: Option<ExprId>) -> Result<u64, Stop> {
        let e = match e {
            None => return Ok(0),
            Some(e) => e,
        };
        let found = self.fold(e, Base::Absolute, 0)?;
        if found.is_valid {
            return Ok(power_of(found.value));
        }
        if self.phase == Phase::Mark {
            return Ok(0);
        }
        refused(RefusedReason::Alignment, self.program.expressions.span(e))
    }
}

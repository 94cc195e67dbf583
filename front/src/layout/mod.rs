//! The evaluation of a script over objects. This module alone says how GNU ld 2.40 lays out a link.
//!
//! ```text
//! Script, Objects, Settings --> Layout::new     --> rows: which statement matches which input section
//!                               Layout::evaluate --> Evaluation (or a Stop: GNU ld refuses it, or it is not known)
//! ```
//!
//! A rule's test names it as GNU ld's manual does, or by the function of its source that has it.

mod commons;
mod compile;
mod eh_frame;
pub mod evaluation;
mod expr;
pub mod flags;
mod gc;
pub mod glob;
mod headers;
pub mod ids;
pub mod interned_names;
mod known_names;
mod link;
mod make_evaluation;
mod matching;
mod merging;
pub mod name_table;
mod orphans;
mod passes;
mod placement_by_name;
mod program;
mod rows;
mod section_headers;
pub mod segments;
pub mod settings;
mod size_used;
mod sorting;
mod special_sections;
mod stabs;
pub mod stop;
mod symbols;
#[cfg(test)]
mod tests;

pub use eh_frame::hdr::{EhFrameHdr, EhFrameHdrProblem, FrameRow};
pub use evaluation::Evaluation;
pub use flags::Flags;
pub use merging::{AllMerges, Merges};
pub use placement_by_name::NamePlacement;
pub use settings::Settings;
pub use stop::{NotEvaluated, Refused, RefusedReason, Stop};

use crate::objects::{Object, ObjectIndex};
use crate::script::tree::{Name, Script, Span};
use bstr::{BStr, BString, ByteSlice};
pub(crate) use expr::compiled::is_plain as gives_number;
pub(crate) use glob::has_wildcard;
use link::Link;
use program::Program;
use rows::Rows;

/// What GNU ld makes of a script over objects.
///
/// # Errors
/// `Stop::Refused` if GNU ld makes no image, `Stop::NotEvaluated` if something is not evaluated.
pub fn evaluate(script: &Script, objects: &[Object], settings: &Settings) -> Result<Evaluation, Stop> {
    Layout::new(script, objects, settings)?.evaluate(objects)
}

/// The files that the input statements of a script name without a wildcard, with the first place of each: GNU ld links
/// them where the script stands, before what the command line has after it (ldlang.c, `lookup_name`).
///
/// # Errors
/// If GNU ld refuses the script while it reads it, or the script has something that is not evaluated.
pub fn named_files(script: &Script) -> Result<Vec<(Name, Span)>, Stop> {
    Ok(compile::files_of(&compile::compile(script)?))
}

/// A script over the objects of a link: what stays while objects change in sizes alone.
#[derive(Clone, Debug)]
pub struct Layout {
    program: Program,
    rows: Rows,
    settings: Settings,
    /// What was merged of these objects before some of them changed: of sections that are loaded, and of others.
    merged: AllMerges,
}

impl Layout {
    /// Compiles a script, and finds which statements match which input sections.
    ///
    /// # Errors
    /// If GNU ld refuses the script while it reads it, or the script has something that is not evaluated.
    pub fn new(script: &Script, objects: &[Object], settings: &Settings) -> Result<Layout, Stop> {
        let mut program = compile::compile(script)?;
        let rows = Rows::new(&program.takings, &mut program.names, objects, settings);
        Ok(Layout { program, rows, settings: settings.clone(), merged: AllMerges::default() })
    }

    /// Takes objects some of which changed; gives whether that is all: their sections have the names, types, flags and
    /// alignments that they had, and `evaluate` may follow. Else a new one must be made.
    pub fn update(&mut self, objects: &[Object], changed: &[ObjectIndex]) -> bool {
        self.rows.update(&self.program.names, objects, changed)
    }

    /// Sets whether what `.eh_frame` names is kept with it.
    pub fn set_keeps_named_by_frames(&mut self, keeps: bool) {
        self.settings.gc.iter_mut().for_each(|gc| gc.keeps_named_by_frames = keeps);
    }

    /// Whether what `.eh_frame` names is kept with it.
    pub fn keeps_named_by_frames(&self) -> bool {
        self.settings.gc.as_ref().map_or(false, |gc| gc.keeps_named_by_frames)
    }

    /// Takes what an evaluation merged, of which the next one uses what is the same.
    pub fn set_merged(&mut self, merged: AllMerges) {
        self.merged = merged;
    }

    /// Some of the names that script and objects have, in the order of GNU ld's table of symbols.
    pub fn table_order(&self, objects: &[Object], is_wanted: &dyn Fn(&BStr) -> bool) -> Vec<BString> {
        let mut link = Link::new(self.program.clone(), Vec::new(), &self.settings);
        link.want_names();
        let names = name_table::table_order(&link, objects).into_iter().map(|name| name.as_bstr());
        names.filter(|name| is_wanted(name)).map(BString::from).collect()
    }

    /// Goes through the passes.
    ///
    /// # Errors
    /// `Stop::Refused` if GNU ld makes no image, `Stop::NotEvaluated` if something is not evaluated.
    pub fn evaluate(&self, objects: &[Object]) -> Result<Evaluation, Stop> {
        passes::run(self.program.clone(), &self.rows, objects, &self.settings, &self.merged)
    }
}

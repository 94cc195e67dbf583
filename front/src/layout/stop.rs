//! Why there is no layout.

use crate::script::tree::{Name, Span};
use thiserror::Error;

/// Why there is no layout.
#[derive(Clone, PartialEq, Eq, Debug, Error)]
pub enum Stop {
    /// GNU ld makes no image.
    #[error("{0}")]
    Refused(Refused),
    /// It is not known what GNU ld does with the script.
    #[error("{0}")]
    NotEvaluated(NotEvaluated),
}

impl Stop {
    /// Where in the script.
    pub fn span(&self) -> Option<Span> {
        match self {
            Stop::Refused(refused) => refused.span,
            Stop::NotEvaluated(unknown) => unknown.span,
        }
    }
}

/// A reason for which GNU ld makes no image.
#[derive(Clone, PartialEq, Eq, Debug, Error)]
#[error("{reason}")]
pub struct Refused {
    /// Why the script is refused.
    pub reason: RefusedReason,
    /// Where in the script; `None` if it is of no statement.
    pub span: Option<Span>,
}

/// What GNU ld refuses.
#[derive(Clone, PartialEq, Eq, Debug, Error)]
pub enum RefusedReason {
    /// An ASSERT whose condition is 0.
    #[error("{0}")]
    Assertion(Name),
    /// A symbol that nothing defines.
    #[error("undefined symbol {0}")]
    UndefinedSymbol(Name),
    /// A symbol in a section that is left out.
    #[error("unresolvable symbol {0}")]
    UnresolvableSymbol(Name),
    /// SIZEOF and the like of a section that is not there.
    #[error("undefined section {0}")]
    UndefinedSection(Name),
    /// ORIGIN or LENGTH of a region that is not there.
    #[error("undefined region {0}")]
    UndefinedRegion(Name),
    /// CONSTANT of a word that is none.
    #[error("unknown constant {0}")]
    UnknownConstant(Name),
    /// A division by 0.
    #[error("division by zero")]
    DivisionByZero,
    /// The address of an output section has no value.
    #[error("the address of {0} is not known")]
    Address(Name),
    /// The load address of an output section has no value.
    #[error("the load address of {0} is not known")]
    LoadAddress(Name),
    /// An alignment has no value.
    #[error("an alignment is no constant")]
    Alignment,
    /// A data command has no value.
    #[error("data without a value")]
    Data,
    /// `. = e` has no value.
    #[error("an assignment to the location counter has no value")]
    DotUnknown,
    /// `.` moves backwards.
    #[error("the location counter cannot move backwards")]
    DotBackwards,
    /// An output section has AT and AT>.
    #[error("{0} has both a load address and a load region")]
    BothLoads(Name),
    /// An output section has ALIGN and ALIGN_WITH_INPUT.
    #[error("{0} has both ALIGN and ALIGN_WITH_INPUT")]
    BothAligns(Name),
    /// A statement of `/DISCARD/` that makes it an output section.
    #[error("/DISCARD/ has other statements")]
    Discard,
    /// A section is larger than what is left of its region.
    #[error("{section} does not fit into {region}")]
    RegionFull {
        /// The output section.
        section: Name,
        /// The region.
        region: Name,
    },
    /// MEMORY stands in the script and a loaded section is in none of its regions.
    #[error("no memory region for {0}")]
    NoRegion(Name),
    /// ORIGIN or LENGTH of MEMORY has no value.
    #[error("the {what} of {region} is not known")]
    RegionUnknown {
        /// `origin` or `length`.
        what: &'static str,
        /// The region.
        region: Name,
    },
    /// An attribute of a region that is none.
    #[error("invalid character {0} in flags")]
    RegionAttribute(char),
    /// INSERT beside a section that is not there.
    #[error("{0} not found for insert")]
    Insert(Name),
    /// Two sections have bytes at one address.
    #[error("{0} overlaps {1}")]
    Overlap(Name, Name),
    /// PHDRS stands in the script, and no section names one of its segments.
    #[error("no section is in a segment of PHDRS")]
    NoSegments,
    /// A section goes on behind the last address.
    #[error("{0} wraps around the address space")]
    Wraps(Name),
    /// A type of an output section that is none.
    #[error("invalid type for output section {0}")]
    SectionType(Name),
    /// A construct that GNU ld 2.40 does not have.
    #[error("{0} is not of GNU ld 2.40")]
    Newer(Name),
}

impl RefusedReason {
    /// Whether GNU ld refuses the script whatever the objects are.
    pub fn is_of_script(&self) -> bool {
        use RefusedReason::{
            BothAligns, BothLoads, Newer, NoRegion, RegionAttribute, SectionType, UndefinedRegion, UnknownConstant,
        };
        matches!(
            self,
            BothAligns(_)
                | BothLoads(_)
                | Newer(_)
                | NoRegion(_)
                | RegionAttribute(_)
                | SectionType(_)
                | UndefinedRegion(_)
                | UnknownConstant(_)
        )
    }
}

/// Why it is not known what GNU ld does.
#[derive(Clone, PartialEq, Eq, Debug, Error)]
#[error("{reason}")]
pub struct NotEvaluated {
    /// Why the script is not evaluated.
    pub reason: NotEvaluatedReason,
    /// Where in the script; `None` if it is of no statement.
    pub span: Option<Span>,
}

/// What is not evaluated.
#[derive(Clone, PartialEq, Eq, Debug, Error)]
pub enum NotEvaluatedReason {
    /// A statement or a word of a statement.
    #[error("{0} is not evaluated")]
    Word(Name),
    /// A fill that is no number.
    #[error("a fill that is no number is not evaluated")]
    Fill,
    /// `^`, which GNU ld 2.40 passes over.
    #[error("GNU ld 2.40 passes over `^`")]
    Xor,
    /// A file that the script names and that is no input.
    #[error("GNU ld opens {0} and links it, as the script names it")]
    OpensFile(Name),
    /// A symbol in a section that is not linked.
    #[error("the section of {0} is not linked")]
    SymbolSection(Name),
    /// A section of constructors in `.init_array` or `.fini_array`.
    #[error("{section} in {output}, which GNU ld copies in reverse")]
    ReverseCopy {
        /// The input section.
        section: Name,
        /// The output section.
        output: Name,
    },
    /// An orphan of a kind whose place is not known.
    #[error("{section} of {object}, {what}")]
    Orphan {
        /// The input section.
        section: Name,
        /// Its object.
        object: Name,
        /// What is not known.
        what: &'static str,
    },
    /// Sorts of one statement that do not go together.
    #[error("a sort of files beside patterns with and without a sort is not evaluated")]
    MixedSorts,
    /// Program headers whose number changes with each layout.
    #[error("the number of program headers does not settle")]
    Headers,
    /// Expressions in one another, more than are followed.
    #[error("an expression of the script has hundreds of signs")]
    Depth,
    /// An object that cannot be read.
    #[error("{object}: {what}")]
    Object {
        /// The object.
        object: Name,
        /// Why it is not followed.
        what: &'static str,
    },
}

/// A refusal of GNU ld's at a place in the script.
pub(crate) fn refused<T>(reason: RefusedReason, span: Option<Span>) -> Result<T, Stop> {
    Err(Stop::Refused(Refused { reason, span }))
}

/// The error for a construct that is not evaluated, at a place in the script.
pub(crate) fn not_evaluated<T>(reason: NotEvaluatedReason, span: Option<Span>) -> Result<T, Stop> {
    Err(Stop::NotEvaluated(NotEvaluated { reason, span }))
}

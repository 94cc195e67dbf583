//! Expressions as GNU ld evaluates them (ldexp.c).
//!
//! A value is a plain number, relative to an output section, or absolute; or it is not known yet. What GNU ld does
//! depends on the phase of the link.

use super::compiled::{align_up, binary, is_plain, log2_ceil, unary, Binary, Node, Unary};
use crate::layout::evaluation::{Base, Fate};
use crate::layout::ids::{ExprId, NameId, StatementId, SymbolId};
use crate::layout::link::Link;
use crate::layout::stop::{not_evaluated, refused, NotEvaluatedReason, RefusedReason, Stop};
use crate::layout::symbols::SymbolKind;
use crate::script::tree::{BinaryOperator, Name, Query, Span, UnaryOperator};

/// How deep expressions are followed: one is at most `MAX_EXPR_DEPTH` deep, and LOADADDR asks for others.
const DEEPEST: u32 = 1200;
/// How often LOADADDR is followed in an AT that has LOADADDR again; a section may name itself.
const DEEPEST_LOAD: u32 = 64;

/// How far the link is (ldexp.h, `lang_phase_type`).
#[derive(Clone, Copy, PartialEq, Eq, PartialOrd, Ord, Debug)]
pub(crate) enum Phase {
    /// Files are read.
    First,
    /// Used sections are being found.
    Mark,
    /// Sizes and addresses are found.
    Size,
    /// Symbols get values between two layouts.
    Assign,
    /// Symbols get their last values.
    Final,
}

/// A value.
#[derive(Clone, Copy, PartialEq, Eq, Debug)]
pub(crate) struct Folded {
    pub is_valid: bool,
    pub value: u64,
    pub base: Base,
}

impl Folded {
    pub const UNKNOWN: Folded = Folded { is_valid: false, value: 0, base: Base::Number };

    pub fn number(value: u64) -> Folded {
        Folded { is_valid: true, value, base: Base::Number }
    }

    pub fn of(value: u64, base: Base) -> Folded {
        Folded { is_valid: true, value, base }
    }

    fn unknown(self) -> Folded {
        Folded { is_valid: false, ..self }
    }
}

/// How far the passes are with DATA_SEGMENT_ALIGN and its like (ldexp.h, `seg_align_type`).
#[derive(Clone, Copy, PartialEq, Eq, Debug, Default)]
pub(crate) enum SegmentPhase {
    #[default]
    None,
    AlignSeen,
    RelroSeen,
    EndSeen,
    Done,
    Adjust,
    RelroAdjust,
}

/// Which of DATA_SEGMENT_ALIGN and DATA_SEGMENT_RELRO_END the statement has that is being evaluated.
#[derive(Clone, Copy, PartialEq, Eq, Debug, Default)]
pub(crate) enum RelroSeen {
    #[default]
    None,
    Start,
    End,
}

/// What DATA_SEGMENT_ALIGN, DATA_SEGMENT_RELRO_END and DATA_SEGMENT_END have said.
#[derive(Clone, Debug, Default)]
pub(crate) struct DataSegment {
    pub phase: SegmentPhase,
    pub base: u64,
    pub end: u64,
    pub relro_end: u64,
    pub relro_offset: u64,
    pub common: u64,
    pub page: u64,
    pub seen: RelroSeen,
    /// The statements with the first two.
    pub start_at: Option<StatementId>,
    pub end_at: Option<StatementId>,
}

impl Link<'_> {
    /// Evaluates an expression in a section, at a place.
    pub fn fold(&mut self, e: ExprId, at: Base, dot: u64) -> Result<Folded, Stop> {
        self.at = at;
        self.dot = dot;
        self.is_from_address = false;
        self.depth = 0;
        self.load_depth = 0;
        self.fold_node(e)
    }

    fn fold_node(&mut self, e: ExprId) -> Result<Folded, Stop> {
        if self.depth >= DEEPEST {
            return not_evaluated(NotEvaluatedReason::Depth, self.span(e));
        }
        self.depth += 1;
        let found = self.fold_inner(e);
        self.depth -= 1;
        found
    }

    fn fold_inner(&mut self, e: ExprId) -> Result<Folded, Stop> {
        let found = match *self.program.expressions.node(e) {
            Node::Number(value) => {
                Folded::of(value, if self.counts_absolute() { Base::Absolute } else { Base::Number })
            }
            Node::Dot => self.of_address(self.dot),
            Node::Symbol(symbol) => self.fold_symbol(symbol, e)?,
            Node::Binary(word, left, right) => self.fold_binary(word, left, right, e)?,
            Node::Unary(word, inner) => self.fold_unary(word, inner)?,
            Node::Conditional(test, yes, no) => self.fold_conditional(test, yes, no)?,
            Node::SegmentStart(ref name, inner) => {
                let given = self.segment_start(name);
                self.fold_segment_start(given, inner)?
            }
            Node::OfSection(query, name) => self.fold_of_section(query, name, e)?,
            Node::OfRegion(query, ref name) => {
                let name = name.clone();
                self.fold_of_region(query, &name, e)?
            }
            Node::Constant(ref name) => self.fold_constant(name, e)?,
            Node::Defined(symbol) => Folded::number(u64::from(self.is_defined(symbol))),
            Node::Headers => self.fold_headers(),
            Node::Assert(condition, ref message) => {
                let message = message.clone();
                self.fold_assert(condition, message, e)?
            }
        };
        if found.is_valid {
            self.program.expressions.keep(e, Some((found.value, found.base)));
        }
        Ok(found)
    }

    fn fold_conditional(&mut self, test: ExprId, yes: ExprId, no: ExprId) -> Result<Folded, Stop> {
        let source = self.source;
        let found = self.fold_node(test)?;
        self.source = source;
        match (found.is_valid, found.value) {
            (false, _) => Ok(found),
            (true, 0) => self.fold_node(no),
            (true, _) => self.fold_node(yes),
        }
    }

    /// SEGMENT_START: the address that an option gives, or that of the expression.
    fn fold_segment_start(&mut self, given: Option<u64>, inner: ExprId) -> Result<Folded, Stop> {
        let found = self.fold_node(inner)?;
        Ok(match found.is_valid {
            true => self.of_address(given.unwrap_or(found.value)),
            false => found,
        })
    }

    fn fold_assert(&mut self, condition: ExprId, message: Name, e: ExprId) -> Result<Folded, Stop> {
        let found = self.fold_node(condition)?;
        if self.phase == Phase::Final && found.value == 0 && self.settings.checks_assertions {
            return refused(RefusedReason::Assertion(message), self.span(e));
        }
        Ok(found)
    }

    fn span(&self, e: ExprId) -> Option<Span> {
        self.program.expressions.span(e)
    }

    /// Whether numbers are absolute: outside of output sections (GNU ld manual, 'The Section of an Expression').
    fn counts_absolute(&self) -> bool {
        self.at == Base::Absolute && !self.program.is_sane
    }

    /// An address, as counted from the section around (ldexp.c, `new_rel_from_abs`).
    fn of_address(&mut self, address: u64) -> Folded {
        self.is_from_address = true;
        Folded::of(address.wrapping_sub(self.base_address(self.at)), self.at)
    }

    /// The value as an absolute one (ldexp.c, `make_abs`).
    pub fn absolute(&self, found: Folded) -> Folded {
        Folded { value: self.address(found), base: Base::Absolute, ..found }
    }

    /// The value as an absolute one; then the expression has no address that counts from the section around.
    fn made_absolute(&mut self, found: Folded) -> Folded {
        self.is_from_address = false;
        self.absolute(found)
    }

    /// The value as an address.
    pub fn address(&self, found: Folded) -> u64 {
        found.value.wrapping_add(self.base_address(found.base))
    }

    fn segment_start(&self, name: &Name) -> Option<u64> {
        self.settings.segment_starts.iter().find(|(known, _)| known == name).map(|(_, value)| *value)
    }

    // --- names ---

    fn fold_symbol(&mut self, id: SymbolId, e: ExprId) -> Result<Folded, Stop> {
        let (phase, to_dot, pass) = (self.phase, self.to_dot, self.pass);
        let symbol = match self.program.symbols.know(id) {
            None => return Ok(Folded::UNKNOWN),
            Some(symbol) => symbol,
        };
        self.source = self.source.and(id);
        let is_defined = symbol.is_defined();
        if !is_defined {
            if phase == Phase::Final || phase != Phase::Mark && to_dot {
                let name = symbol.name.clone();
                return refused(RefusedReason::UndefinedSymbol(name), self.span(e));
            }
            if symbol.kind == SymbolKind::New {
                symbol.kind = SymbolKind::Undefined;
            }
        }
        let is_own = is_defined && symbol.section.is_none() && symbol.base == Base::Absolute && symbol.pass == pass;
        if self.assigned == Some(id) && !is_own {
            self.assigned = None;
        }
        if is_defined {
            self.fold_defined(id, e)
        } else {
            Ok(Folded::UNKNOWN)
        }
    }

    /// The value of a symbol that has one.
    fn fold_defined(&self, id: SymbolId, e: ExprId) -> Result<Folded, Stop> {
        let symbol = match self.symbol(id) {
            None => return Ok(Folded::UNKNOWN),
            Some(symbol) => symbol,
        };
        if symbol.is_unlinked {
            return not_evaluated(NotEvaluatedReason::SymbolSection(symbol.name.clone()), self.span(e));
        }
        let (mut base, mut value) = (symbol.base, symbol.value);
        if let Some((id, section)) = symbol.section.and_then(|id| Some((id, self.section(id)?))) {
            match section.fate {
                Fate::Open if self.phase > Phase::Mark => {
                    return refused(RefusedReason::UnresolvableSymbol(symbol.name.clone()), self.span(e));
                }
                Fate::Open => return Ok(Folded::of(value, Base::Section(id))),
                Fate::Discarded => base = Base::Absolute,
                Fate::Output(output) => base = Base::Output(output),
            }
            value = value.wrapping_add(section.offset);
        }
        if base == Base::Absolute && (self.at != Base::Absolute || self.program.is_sane) {
            base = Base::Number;
        }
        Ok(Folded::of(value, base))
    }

    /// DEFINED (ldexp.c, `fold_name`).
    fn is_defined(&self, id: SymbolId) -> bool {
        self.symbol(id).map_or(false, |symbol| {
            symbol.is_known
                && (symbol.is_defined() || symbol.kind == SymbolKind::Common)
                && (!symbol.of_script || symbol.by_object || symbol.pass == self.pass)
        })
    }

    fn fold_constant(&self, name: &Name, e: ExprId) -> Result<Folded, Stop> {
        match name.as_slice() {
            b"MAXPAGESIZE" => Ok(Folded::number(self.settings.max_page)),
            b"COMMONPAGESIZE" => Ok(Folded::number(self.settings.common_page)),
            _ => refused(RefusedReason::UnknownConstant(name.clone()), self.span(e)),
        }
    }

    fn fold_of_region(&mut self, query: Query, name: &Name, e: ExprId) -> Result<Folded, Stop> {
        let region = self.program.region_names.get(name).and_then(|id| self.region(*id));
        match region.map(|region| (region.origin, region.length)) {
            None => refused(RefusedReason::UndefinedRegion(name.clone()), self.span(e)),
            Some((_, length)) if query == Query::Length => Ok(Folded::number(length)),
            Some((origin, _)) => Ok(self.of_address(origin)),
        }
    }

    /// SIZEOF, ALIGNOF, ADDR and LOADADDR of an output section.
    fn fold_of_section(&mut self, query: Query, name: NameId, e: ExprId) -> Result<Folded, Stop> {
        if self.phase == Phase::First {
            return Ok(Folded::UNKNOWN);
        }
        let id = match self.program.find(name) {
            Some(id) => id,
            None if self.phase == Phase::Final => {
                let name = self.program.names.get(name).into();
                return refused(RefusedReason::UndefinedSection(name), self.span(e));
            }
            None if matches!(query, Query::Sizeof | Query::Alignof) => return Ok(Folded::number(0)),
            None => return Ok(Folded::UNKNOWN),
        };
        let output = match self.output(id) {
            None => return Ok(Folded::UNKNOWN),
            Some(output) => output,
        };
        let place = output.place.as_ref();
        match query {
            Query::Addr if output.has_address => Ok(Folded::of(0, Base::Output(id))),
            Query::Loadaddr if output.has_load => match output.load {
                None => Ok(Folded::of(place.map_or(0, |place| place.load), Base::Absolute)),
                Some(load) => {
                    if self.load_depth >= DEEPEST_LOAD {
                        return not_evaluated(NotEvaluatedReason::Depth, self.span(e));
                    }
                    self.load_depth += 1;
                    let found = self.fold_node(load);
                    self.load_depth -= 1;
                    let found = found?;
                    Ok(if found.is_valid { self.made_absolute(found) } else { found })
                }
            },
            Query::Sizeof => Ok(Folded::number(place.map_or(0, |place| match output.has_address {
                true => place.size,
                false => place.last_size,
            }))),
            Query::Alignof => Ok(Folded::number(place.map_or(0, |place| place.align))),
            _ => Ok(Folded::UNKNOWN),
        }
    }

    fn fold_headers(&mut self) -> Folded {
        self.headers.is_wanted = true;
        match self.phase {
            Phase::First => Folded::UNKNOWN,
            Phase::Mark => Folded::number(0),
            Phase::Size | Phase::Assign | Phase::Final => Folded::number(self.headers_size()),
        }
    }

    // --- operators ---

    fn fold_unary(&mut self, word: Unary, inner: ExprId) -> Result<Folded, Stop> {
        let found = self.fold_node(inner)?;
        if !found.is_valid {
            return Ok(found);
        }
        let is_first = self.phase == Phase::First;
        Ok(match word {
            Unary::Operator(UnaryOperator::Plus) => found,
            Unary::Operator(operator) => Folded { value: unary(operator, found.value), ..found },
            Unary::Align | Unary::Next if is_first => found.unknown(),
            Unary::Align => self.of_address(align_up(self.dot, found.value)),
            Unary::Next => {
                let align = self.address(found);
                self.is_from_address = false;
                Folded { value: align_up(self.dot, align), base: Base::Absolute, ..found }
            }
            Unary::Absolute => self.made_absolute(found),
            Unary::Log2Ceil => Folded::number(log2_ceil(found.value)),
            Unary::SegmentEnd => self.segment_end(found),
        })
    }

    fn fold_binary(&mut self, word: Binary, left: ExprId, right: ExprId, e: ExprId) -> Result<Folded, Stop> {
        let mut left = self.fold_node(left)?;
        let mut found = self.fold_node(right)?;
        found.is_valid = found.is_valid && left.is_valid;
        if !found.is_valid {
            return Ok(found);
        }
        if left.base != found.base {
            if found.base != Base::Number && left.base != Base::Number {
                found = self.made_absolute(found);
                left = self.absolute(left);
            } else if found.base == Base::Number {
                std::mem::swap(&mut found.base, &mut left.base);
            }
        }
        match word {
            Binary::Operator(operator) => self.fold_operator(operator, left, found, e),
            Binary::Max => Ok(Folded { value: found.value.max(left.value), ..found }),
            Binary::Min => Ok(Folded { value: found.value.min(left.value), ..found }),
            Binary::Align => Ok(Folded { value: align_up(left.value, found.value), ..found }),
            Binary::SegmentAlign => Ok(self.segment_align(left.value, found)),
            Binary::RelroEnd => Ok(self.relro_end(left.value, found)),
        }
    }

    fn fold_operator(&self, operator: BinaryOperator, left: Folded, right: Folded, e: ExprId) -> Result<Folded, Stop> {
        let value = match binary(operator, left.value, right.value, self.span(e))? {
            Some(value) => value,
            None if self.phase == Phase::Mark => right.value,
            None => return refused(RefusedReason::DivisionByZero, self.span(e)),
        };
        if is_plain(operator) {
            return Ok(Folded::number(value));
        }
        // Operands of one section give a number (ldexp.c, `arith_result_section`).
        let base = match (right.base == left.base, self.counts_absolute()) {
            (false, _) => right.base,
            (true, true) => Base::Absolute,
            (true, false) => Base::Number,
        };
        Ok(Folded::of(value, base))
    }

    // --- the data segment ---

    /// DATA_SEGMENT_ALIGN (ldexp.c, `fold_segment_align`).
    fn segment_align(&mut self, page: u64, found: Folded) -> Folded {
        let common = found.value;
        self.segment.seen = RelroSeen::Start;
        if self.phase == Phase::First || self.at != Base::Absolute {
            return found.unknown();
        }
        let (dot, relro) = (self.dot, self.relro);
        let mut value = align_up(dot, page);
        let segment = &mut self.segment;
        match segment.phase {
            SegmentPhase::RelroAdjust => value = segment.base,
            SegmentPhase::Adjust => {
                if common < page {
                    let rest = dot.wrapping_add(common.wrapping_sub(1)) & page.wrapping_sub(common);
                    value = value.wrapping_add(rest);
                }
            }
            phase => {
                if !relro {
                    value = value.wrapping_add(dot & page.wrapping_sub(1));
                }
                if phase == SegmentPhase::None {
                    segment.phase = SegmentPhase::AlignSeen;
                    segment.base = value;
                    segment.common = common;
                    segment.page = page;
                    segment.relro_end = 0;
                } else if phase != SegmentPhase::Done {
                    return Folded { is_valid: false, value, ..found };
                }
            }
        }
        Folded { value, ..found }
    }

    /// DATA_SEGMENT_RELRO_END (ldexp.c, `fold_segment_relro_end`).
    fn relro_end(&mut self, end: u64, found: Folded) -> Folded {
        let offset = found.value;
        let (is_first, is_inside) = (self.phase == Phase::First, self.at != Base::Absolute);
        let segment = &mut self.segment;
        segment.seen = RelroSeen::End;
        segment.relro_offset = offset;
        let in_turn = matches!(
            segment.phase,
            SegmentPhase::AlignSeen | SegmentPhase::Adjust | SegmentPhase::RelroAdjust | SegmentPhase::Done
        );
        if is_first || is_inside || !in_turn {
            return found.unknown();
        }
        if matches!(segment.phase, SegmentPhase::AlignSeen | SegmentPhase::RelroAdjust) {
            segment.relro_end = end.wrapping_add(offset);
        }
        let mask = segment.page.wrapping_sub(1);
        let mut value = end;
        if segment.phase == SegmentPhase::RelroAdjust && segment.relro_end & mask != 0 {
            segment.relro_end = segment.relro_end.wrapping_add(mask) & !mask;
            value = segment.relro_end.wrapping_sub(offset);
        }
        if segment.phase == SegmentPhase::AlignSeen {
            segment.phase = SegmentPhase::RelroSeen;
        }
        Folded { value, ..found }
    }

    /// DATA_SEGMENT_END (ldexp.c, `fold_segment_end`).
    fn segment_end(&mut self, found: Folded) -> Folded {
        if self.phase == Phase::First || self.at != Base::Absolute {
            return found.unknown();
        }
        match self.segment.phase {
            SegmentPhase::AlignSeen | SegmentPhase::RelroSeen => {
                self.segment.phase = SegmentPhase::EndSeen;
                self.segment.end = found.value;
                found
            }
            SegmentPhase::Done | SegmentPhase::Adjust | SegmentPhase::RelroAdjust => found,
            SegmentPhase::None | SegmentPhase::EndSeen => found.unknown(),
        }
    }
}

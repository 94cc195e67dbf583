//! The passes that give symbols their values (ldlang.c, `lang_do_assignments`), and assignments in any pass.

use crate::layout::compile::file_of;
use crate::layout::evaluation::Base;
use crate::layout::expr::assignment_place::Source;
use crate::layout::expr::compiled::{Binary, Node, Unary};
use crate::layout::expr::fold::{Folded, Phase};
use crate::layout::flags::Flags;
use crate::layout::headers::room;
use crate::layout::ids::{ExprId, OutputId, StatementId, SymbolId};
use crate::layout::link::Link;
use crate::layout::program::StepKind;
use crate::layout::rows::Rows;
use crate::layout::stop::{refused, RefusedReason, Stop};
use crate::layout::symbols::SymbolKind;
use crate::objects::Object;
use crate::script::tree::{BinaryOperator, DataWidth, Name, Provision};

/// The bytes of a data command.
pub(crate) fn width_of(width: DataWidth) -> u64 {
    match width {
        DataWidth::Byte => 1,
        DataWidth::Short => 2,
        DataWidth::Long => 4,
        DataWidth::Quad | DataWidth::SignedQuad => 8,
    }
}

impl Link<'_> {
    /// The pass in which files are read: symbols get the values that are known by then (ldlang.c, `open_input_bfds`).
    pub fn first_values(&mut self, objects: &[Object], rows: &Rows) -> Result<(), Stop> {
        for id in self.program.top.clone() {
            match self.step(id).map(|step| step.kind.clone()) {
                Some(StepKind::Output(output)) => {
                    for inner in self.body(output) {
                        match self.step(inner).map(|step| &step.kind) {
                            Some(StepKind::Assign { .. }) => drop(self.assign(inner, Base::Absolute, 0)?),
                            Some(StepKind::Input(taking)) => self.read_named(*taking, objects, rows),
                            _ => {}
                        }
                    }
                }
                Some(StepKind::Assign { .. }) => {
                    self.assign(id, Base::Absolute, 0)?;
                }
                _ => {}
            }
        }
        Ok(())
    }

    /// Reads the file that a statement names without a wildcard, and those in front of it, if they are not read yet:
    /// the statements that follow know its names (ldlang.c, `lookup_name`).
    fn read_named(&mut self, taking: usize, objects: &[Object], rows: &Rows) {
        let file = self.program.takings.get(taking).and_then(file_of);
        let is_it = |object: &Object| object.origin().archive.is_none() && Some(&object.origin().name) == file;
        let count = objects.iter().position(is_it).map_or(0, |at| at + 1);
        if count > self.program.symbols.read() {
            self.read_objects(objects.get(..count).unwrap_or_default(), rows);
        }
    }

    /// A pass that gives symbols their values.
    pub fn values(&mut self, phase: Phase) -> Result<(), Stop> {
        self.phase = phase;
        self.pass += 1;
        self.stand_at_beginning();
        let mut dot = 0;
        for id in self.program.top.clone() {
            self.set_dot(id, dot);
            self.stand_before(id);
            match self.step(id).map(|step| step.kind.clone()) {
                Some(StepKind::Output(output)) => dot = self.values_of(output, dot)?,
                Some(StepKind::Assign { .. }) => dot = self.assign(id, Base::Absolute, dot)?,
                Some(StepKind::Assert { condition, message }) => {
                    self.check(condition, &message, Base::Absolute, dot)?
                }
                _ => {}
            }
        }
        Ok(())
    }

    /// The statements of an output section.
    pub fn body(&self, output: OutputId) -> Vec<StatementId> {
        self.output(output).map_or_else(Vec::new, |output| output.body.clone())
    }

    /// Keeps the location counter in front of a statement.
    pub fn set_dot(&mut self, id: StatementId, dot: u64) {
        if let Some(step) = self.step_mut(id) {
            step.dot = dot;
        }
    }

    fn values_of(&mut self, id: OutputId, dot: u64) -> Result<u64, Stop> {
        let address = self.place(id).map(|place| place.address);
        let at = address.map_or(Base::Nowhere, |_| Base::Output(id));
        let mut inside = address.unwrap_or(dot);
        self.stand_in(id);
        for inner in self.body(id) {
            self.set_dot(inner, inside);
            self.stand_before(inner);
            let (kind, size, gap) = match self.step(inner) {
                None => continue,
                Some(step) => (step.kind.clone(), step.size, step.gap),
            };
            match kind {
                StepKind::Input(_) => inside = inside.wrapping_add(size),
                StepKind::Data { width, value } => inside = self.data_value(inner, width, value, inside)?,
                StepKind::Assign { .. } => {
                    inside = self.assign(inner, at, inside)?;
                    inside = inside.wrapping_add(gap);
                }
                StepKind::Assert { condition, message } => self.check(condition, &message, at, inside)?,
                _ => {}
            }
        }
        let output = match self.output(id) {
            None => return Ok(dot),
            Some(output) => output,
        };
        if output.is_ignored {
            return Ok(dot);
        }
        if let Some(place) = &output.place {
            inside = place.address.wrapping_add(room(place));
            if let Some(end) = output.end {
                inside = self.overlay_end(end, inside)?;
            }
        }
        Ok(inside)
    }

    /// `.` after the last section of an OVERLAY (ldlang.c, `update_dot_tree`).
    pub fn overlay_end(&mut self, end: ExprId, dot: u64) -> Result<u64, Stop> {
        let found = self.fold_absolute(end, dot)?;
        Ok(if found.is_valid { self.address(found) } else { dot })
    }

    fn data_value(&mut self, id: StatementId, width: DataWidth, value: ExprId, dot: u64) -> Result<u64, Stop> {
        let found = self.fold_absolute(value, dot)?;
        if found.is_valid {
            let value = self.address(found);
            if let Some(step) = self.step_mut(id) {
                step.value = value;
            }
        } else if self.phase == Phase::Final {
            return refused(RefusedReason::Data, self.step(id).and_then(|step| step.span));
        }
        Ok(dot.wrapping_add(width_of(width)))
    }

    /// An ASSERT as a statement.
    fn check(&mut self, condition: ExprId, message: &Name, at: Base, dot: u64) -> Result<(), Stop> {
        let found = self.fold(condition, at, dot)?;
        if self.phase == Phase::Final && found.value == 0 && self.settings.checks_assertions {
            let span = self.program.expressions.span(condition);
            return refused(RefusedReason::Assertion(message.clone()), span);
        }
        Ok(())
    }

    /// An assignment in any pass (ldexp.c, `exp_fold_tree_1`); gives the place after it.
    pub fn assign(&mut self, id: StatementId, at: Base, dot: u64) -> Result<u64, Stop> {
        let (target, value, provision, is_provided) = match self.step(id) {
            Some(step) => match &step.kind {
                StepKind::Assign { target, value, provision } => (*target, *value, *provision, step.is_provided),
                _ => return Ok(dot),
            },
            None => return Ok(dot),
        };
        let target = match target {
            None => return self.assign_dot(id, value, at, dot),
            Some(target) => target,
        };
        let is_provide = matches!(provision, Provision::Provide | Provision::ProvideHidden) && !is_provided;
        if is_provide && !self.symbol(target).map_or(false, |symbol| symbol.is_known && symbol.is_wanted()) {
            return Ok(dot);
        }
        self.assigned = Some(target);
        self.source = Source::None;
        let found = self.fold(value, at, dot)?;
        if self.phase == Phase::Final || self.assigned.is_some() {
            if let (true, Some(step)) = (is_provide, self.step_mut(id)) {
                step.is_provided = true;
            }
            let is_hidden = matches!(provision, Provision::Hidden | Provision::ProvideHidden);
            self.define(id, target, found, at, is_hidden);
        }
        self.assigned = None;
        Ok(dot)
    }

    fn define(&mut self, id: StatementId, target: SymbolId, found: Folded, at: Base, is_hidden: bool) {
        let pass = self.pass;
        let is_absolute = found.base == Base::Absolute || found.base == Base::Number && at == Base::Absolute;
        let is_moved = self.phase == Phase::Final && self.is_from_address && is_absolute;
        let section = if is_moved { self.section_for_dot(id) } else { None };
        // A symbol that is assigned to itself has the type that it had.
        let like = self.source.one().filter(|like| *like != target);
        let symbol = match self.program.symbols.know(target) {
            None => return,
            Some(symbol) => symbol,
        };
        let found = match (found.is_valid, symbol.kind) {
            (true, _) => found,
            (false, SymbolKind::New) => Folded::number(0),
            (false, _) => return,
        };
        if !symbol.of_script
            && matches!(symbol.kind, SymbolKind::Defined | SymbolKind::DefinedWeak | SymbolKind::Common)
        {
            symbol.by_object = true;
        }
        symbol.pass = pass;
        symbol.kind = SymbolKind::Defined;
        symbol.value = found.value;
        symbol.base = if found.base == Base::Number { at } else { found.base };
        symbol.section = None;
        symbol.of_script = true;
        symbol.by_linker = false;
        symbol.is_unlinked = false;
        symbol.statement = Some(id);
        symbol.final_section = section;
        if let Some(like) = like {
            symbol.likes.retain(|other| *other != like);
            symbol.likes.push(like);
        }
        symbol.is_hidden |= is_hidden;
        let assigned = (symbol.value, symbol.base);
        if let Some(step) = self.step_mut(id) {
            step.assigned = Some(assigned);
        }
    }

    fn assign_dot(&mut self, id: StatementId, value: ExprId, at: Base, dot: u64) -> Result<u64, Stop> {
        if self.phase == Phase::First {
            return Ok(dot);
        }
        self.to_dot = true;
        let found = self.fold(value, at, dot)?;
        self.to_dot = false;
        let span = self.step(id).and_then(|step| step.span);
        if let (Phase::Mark, Base::Output(output)) = (self.phase, at) {
            let is_idle = found.is_valid && found.value == 0 && self.is_idle(value);
            if let (false, Some(place)) = (is_idle, self.place_mut(output)) {
                place.flags |= Flags::KEEP;
            }
        }
        if !found.is_valid || at == Base::Nowhere {
            if self.phase != Phase::Mark {
                return refused(RefusedReason::DotUnknown, span);
            }
            return Ok(dot);
        }
        if self.phase > Phase::Size && at != Base::Absolute {
            return Ok(dot);
        }
        let base = if found.base == Base::Number { at } else { found.base };
        let after = found.value.wrapping_add(self.base_address(base));
        if after < dot && at != Base::Absolute {
            return refused(RefusedReason::DotBackwards, span);
        }
        Ok(after)
    }

    /// Whether `. = e` keeps no section: 0, `. + 0`, and `ALIGN(. != 0 ? e : 1)`.
    fn is_idle(&self, e: ExprId) -> bool {
        let nodes = &self.program.expressions;
        if self.is_zero(e) {
            return true;
        }
        match nodes.node(e) {
            Node::Binary(Binary::Operator(BinaryOperator::Add), left, right) => {
                *nodes.node(*left) == Node::Dot && self.is_zero(*right)
            }
            Node::Unary(Unary::Align, inner) => match nodes.node(*inner) {
                Node::Conditional(test, _, no) => *nodes.node(*no) == Node::Number(1) && self.is_dot_not_zero(*test),
                _ => false,
            },
            _ => false,
        }
    }

    fn is_dot_not_zero(&self, e: ExprId) -> bool {
        let nodes = &self.program.expressions;
        match nodes.node(e) {
            Node::Binary(Binary::Operator(BinaryOperator::NotEqual), left, right) => {
                *nodes.node(*left) == Node::Dot && *nodes.node(*right) == Node::Number(0)
            }
            _ => false,
        }
    }

    /// 0, or an absolute symbol of the script that is 0.
    fn is_zero(&self, e: ExprId) -> bool {
        match self.program.expressions.node(e) {
            Node::Number(value) => *value == 0,
            Node::Symbol(id) => self.symbol(*id).map_or(false, |symbol| {
                symbol.of_script
                    && symbol.kind == SymbolKind::Defined
                    && symbol.base == Base::Absolute
                    && symbol.value == 0
                    && symbol.pass == self.pass
            }),
            _ => false,
        }
    }
}

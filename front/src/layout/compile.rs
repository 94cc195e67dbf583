//! A script's tree as a `Program`.

use super::expr::compiled::{Binary, Node, Unary};
use super::flags::Flags;
use super::ids::{ExprId, OutputId, StatementId};
use super::program::{Constraint, FillBytes, OutputKind, Program, StepKind, Taking, DEFAULT};
use super::stop::{not_evaluated, refused, NotEvaluatedReason, RefusedReason, Stop};
use crate::script::tree::{
    AssignOperator, Assignment, BinaryOperator, Constraint as TreeConstraint, Expr, ExprKind, Fill, Function,
    MemoryRegion, Name, OutputSection, Overlay, Provision, Query, Script, SectionStatement, SectionType,
    SectionsStatement, Setting, Span, Spanned, Statement, UnaryOperator,
};
use bstr::ByteSlice;

/// The program of a script.
///
/// # Errors
/// If GNU ld refuses the script while it reads it, or the script has something that is not evaluated.
pub(crate) fn compile(script: &Script) -> Result<Program, Stop> {
    let mut program = Program::default();
    for statement in &script.statements {
        if let Statement::Memory(regions) = &statement.node {
            for region in regions {
                memory(&mut program, region)?;
            }
        }
    }
    program.default_region = Some(program.region(DEFAULT));
    for statement in &script.statements {
        program.before.push(program.top.len());
        top(&mut program, statement)?;
    }
    Ok(program)
}

fn memory(program: &mut Program, region: &Spanned<MemoryRegion>) -> Result<(), Stop> {
    let node = &region.node;
    let id = program.region(&node.name.node);
    let bounds = (expression(program, &node.origin)?, expression(program, &node.length)?);
    let (mut flags, mut not_flags) = (Flags::NONE, Flags::NONE);
    for word in node.attributes.iter().flat_map(|words| &words.node) {
        for letter in word.letters.iter() {
            match attribute(*letter) {
                Some(flag) if word.is_inverted => not_flags |= flag,
                Some(flag) => flags |= flag,
                None => return refused(RefusedReason::RegionAttribute(char::from(*letter)), Some(region.span)),
            }
        }
    }
    if let Some(region_of) = program.regions.get_mut(id.index()) {
        region_of.bounds = Some(bounds);
        region_of.flags |= flags;
        region_of.not_flags |= not_flags;
        region_of.span = Some(region.span);
    }
    Ok(())
}

/// The flag of a letter (ldlang.c, `lang_set_flags`).
fn attribute(letter: u8) -> Option<Flags> {
    match letter.to_ascii_lowercase() {
        b'a' => Some(Flags::ALLOC),
        b'r' => Some(Flags::READONLY),
        b'w' => Some(Flags::DATA),
        b'x' => Some(Flags::CODE),
        b'l' | b'i' => Some(Flags::LOAD),
        _ => None,
    }
}

fn top(program: &mut Program, statement: &Spanned<Statement>) -> Result<(), Stop> {
    let span = Some(statement.span);
    match &statement.node {
        Statement::Assign(node) => {
            let step = assignment(program, node, span, None)?;
            program.top.push(step);
        }
        Statement::Assert(node) => {
            let condition = expression(program, &node.condition)?;
            let kind = StepKind::Assert { condition, message: node.message.clone() };
            let step = program.step(span, None, kind);
            program.top.push(step);
        }
        Statement::Sections(statements) => {
            for statement in statements {
                in_sections(program, statement)?;
            }
        }
        Statement::Phdrs(headers) => {
            program.phdrs = Some(program.phdrs.unwrap_or(0) + headers.len() as u64);
        }
        Statement::Entry(name) => program.entry = Some(name.clone()),
        Statement::Extern(names) => program.externs.extend(names.iter().cloned()),
        Statement::RegionAlias(alias, region) => {
            let id = program.region(region);
            program.region_names.insert(alias.clone(), id);
        }
        Statement::Setting(Setting::InhibitCommonAllocation) => program.inhibits_common = true,
        Statement::Feature(word) => program.is_sane |= word.as_slice() == b"SANE_EXPR",
        Statement::Insert(place, name) => {
            let step = program.step(span, None, StepKind::Insert(*place, name.clone()));
            program.top.push(step);
        }
        Statement::Setting(_)
        | Statement::Memory(_)
        | Statement::Input(_)
        | Statement::Group(_)
        | Statement::Startup(_)
        | Statement::Output(_)
        | Statement::OutputFormat(_)
        | Statement::OutputArch(_)
        | Statement::Target(_)
        | Statement::SearchDir(_)
        | Statement::NoCrossReferences(_)
        | Statement::NoCrossReferencesTo(_)
        | Statement::Map(_)
        | Statement::HighLevelLibraries(_)
        | Statement::SystemLibraries(_)
        | Statement::Version(_) => {}
    }
    Ok(())
}

fn in_sections(program: &mut Program, statement: &Spanned<SectionsStatement>) -> Result<(), Stop> {
    let span = Some(statement.span);
    match &statement.node {
        SectionsStatement::Assign(node) => {
            let step = assignment(program, node, span, None)?;
            program.top.push(step);
        }
        SectionsStatement::Assert(node) => {
            let condition = expression(program, &node.condition)?;
            let kind = StepKind::Assert { condition, message: node.message.clone() };
            let step = program.step(span, None, kind);
            program.top.push(step);
        }
        SectionsStatement::Entry(name) => program.entry = Some(name.clone()),
        SectionsStatement::Output(node) => {
            output(program, node, statement.span, None)?;
        }
        SectionsStatement::Overlay(node) => overlay(program, node)?,
    }
    Ok(())
}

/// Adds an output section after the last one.
fn added(program: &mut Program, name: &[u8], span: Span) -> OutputId {
    let id = program.output(name, Some(span));
    if let Some(output) = program.outputs.get(id.index()) {
        program.top.push(output.statement);
        program.order.push(id);
    }
    id
}

fn output(program: &mut Program, node: &OutputSection, span: Span, address: Option<ExprId>) -> Result<OutputId, Stop> {
    let id = added(program, &node.name.node, span);
    let own_address = optional(program, node.address.as_ref())?;
    let kind = kind_of(program, node)?;
    let align = optional(program, node.align.as_ref())?;
    let subalign = optional(program, node.subalign.as_ref())?;
    let load = optional(program, node.load_address.as_ref())?;
    if let (Some(_), Some(region)) = (&node.load_address, &node.load_region) {
        return refused(RefusedReason::BothLoads(node.name.node.clone()), Some(region.span));
    }
    if let (true, Some(align)) = (node.is_aligned_with_input, &node.align) {
        return refused(RefusedReason::BothAligns(node.name.node.clone()), Some(align.span));
    }
    let fill = fill_of(program, node.fill.as_ref())?;
    let has_address = own_address.is_some() || address.is_some();
    let (region, load_region) = {
        let load = node.load_region.as_ref().map(|name| program.region(&name.node));
        match (&node.region, load) {
            (Some(name), _) => (program.region(&name.node), load),
            (None, Some(region)) if !has_address => (region, load),
            (None, _) => (program.region(DEFAULT), load),
        }
    };
    if let Some(made) = program.outputs.get_mut(id.index()) {
        made.address = own_address.or(address);
        made.kind = kind;
        if kind == OutputKind::NoLoad {
            made.expected = Flags::NEVER_LOAD;
        }
        made.align = align;
        made.subalign = subalign;
        made.load = load;
        made.fill = fill;
        made.region = region;
        made.load_region = load_region;
        made.is_aligned_with_input = node.is_aligned_with_input;
        made.segments = node.segments.iter().map(|name| name.node.clone()).collect();
        made.constraint = match node.constraint {
            Some(TreeConstraint::ReadOnly) => Constraint::ReadOnly,
            Some(TreeConstraint::ReadWrite) => Constraint::ReadWrite,
            Some(TreeConstraint::Special) => Constraint::Special,
            None => Constraint::None,
        };
    }
    body(program, id, &node.body.node)?;
    Ok(id)
}

fn body(program: &mut Program, id: OutputId, statements: &[Spanned<SectionStatement>]) -> Result<(), Stop> {
    for statement in statements {
        let step = inner(program, statement, id)?;
        if let Some(output) = program.outputs.get_mut(id.index()) {
            output.body.push(step);
        }
    }
    Ok(())
}

fn kind_of(program: &mut Program, node: &OutputSection) -> Result<OutputKind, Stop> {
    let kind = match &node.kind {
        None => return Ok(OutputKind::Normal),
        Some(kind) => kind,
    };
    Ok(match &kind.node {
        SectionType::NoLoad => OutputKind::NoLoad,
        SectionType::NotAllocated(_) => OutputKind::NotAllocated,
        SectionType::ReadOnly(None) => OutputKind::ReadOnly,
        SectionType::ReadOnly(Some(e)) => {
            OutputKind::Typed { kind: type_of(program, e, &node.name.node)?, is_read_only: true }
        }
        SectionType::Type(e) => OutputKind::Typed { kind: type_of(program, e, &node.name.node)?, is_read_only: false },
    })
}

/// The type that TYPE names (ldlang.c, `map_input_to_output_sections`).
fn type_of(program: &mut Program, e: &Expr, section: &Name) -> Result<u32, Stop> {
    const TYPES: [(&[u8], u32); 7] = [
        (b"SHT_PROGBITS", object::elf::SHT_PROGBITS),
        (b"SHT_STRTAB", object::elf::SHT_STRTAB),
        (b"SHT_NOTE", object::elf::SHT_NOTE),
        (b"SHT_NOBITS", object::elf::SHT_NOBITS),
        (b"SHT_INIT_ARRAY", object::elf::SHT_INIT_ARRAY),
        (b"SHT_FINI_ARRAY", object::elf::SHT_FINI_ARRAY),
        (b"SHT_PREINIT_ARRAY", object::elf::SHT_PREINIT_ARRAY),
    ];
    let found = match &e.kind {
        ExprKind::Symbol(name) => TYPES.iter().find(|(word, _)| *word == name.as_slice()).map(|(_, kind)| *kind),
        _ => {
            let id = expression(program, e)?;
            match program.expressions.node(id) {
                Node::Number(value) => Some(*value as u32),
                _ => return not_evaluated(NotEvaluatedReason::Word("TYPE that is no number".into()), Some(e.span)),
            }
        }
    };
    match found {
        Some(kind) => Ok(kind),
        None => refused(RefusedReason::SectionType(section.clone()), Some(e.span)),
    }
}

/// The sections of an OVERLAY (ldlang.c, `lang_enter_overlay_section`, `lang_leave_overlay`).
fn overlay(program: &mut Program, node: &Overlay) -> Result<(), Stop> {
    let mut address = optional(program, node.address.as_ref())?;
    let subalign = optional(program, node.subalign.as_ref())?;
    let load = optional(program, node.load_address.as_ref())?;
    let fill = fill_of(program, node.fill.as_ref())?;
    let load_region = node.load_region.as_ref().map(|name| program.region(&name.node));
    let region = match (&node.region, load_region) {
        (Some(name), _) => program.region(&name.node),
        (None, Some(region)) => region,
        (None, None) => program.region(DEFAULT),
    };
    let mut greatest: Option<ExprId> = None;
    let mut last = None;
    for (number, section) in node.sections.node.iter().enumerate() {
        let id = output(program, &section.node, section.span, address)?;
        let name = program.names.enter(&section.node.name.node);
        if number == 0 {
            address = Some(program.expressions.enter(Node::OfSection(Query::Addr, name), None)?);
        }
        let size = program.expressions.enter(Node::OfSection(Query::Sizeof, name), None)?;
        greatest = Some(match greatest {
            None => size,
            Some(so_far) => program.expressions.enter(Node::Binary(Binary::Max, so_far, size), None)?,
        });
        if let Some(made) = program.outputs.get_mut(id.index()) {
            made.kind = OutputKind::Overlay { is_first: number == 0 };
            made.subalign = subalign.or(made.subalign);
            made.fill = made.fill.take().or_else(|| fill.clone());
            made.region = region;
            made.load_region = load_region;
            made.load = if number == 0 { load } else { None };
            if made.segments.is_empty() {
                made.segments = node.segments.iter().map(|name| name.node.clone()).collect();
            }
        }
        overlay_symbols(program, &section.node.name.node)?;
        last = Some(id);
    }
    if let (Some(id), Some(address), Some(greatest)) = (last, address, greatest) {
        let sum = Node::Binary(Binary::Operator(BinaryOperator::Add), address, greatest);
        let end = program.expressions.enter(sum, None)?;
        if let Some(made) = program.outputs.get_mut(id.index()) {
            made.end = Some(end);
            made.updates_dot = true;
        }
    }
    Ok(())
}

/// `__load_start_NAME` and `__load_stop_NAME` of a section of an OVERLAY.
fn overlay_symbols(program: &mut Program, section: &Name) -> Result<(), Stop> {
    let clean: Vec<u8> = section.iter().copied().filter(|byte| byte.is_ascii_alphanumeric() || *byte == b'_').collect();
    let name = program.names.enter(section);
    for (front, is_end) in [("__load_start_", false), ("__load_stop_", true)] {
        let mut value = program.expressions.enter(Node::OfSection(Query::Loadaddr, name), None)?;
        if is_end {
            let size = program.expressions.enter(Node::OfSection(Query::Sizeof, name), None)?;
            let sum = Node::Binary(Binary::Operator(BinaryOperator::Add), value, size);
            value = program.expressions.enter(sum, None)?;
        }
        let mut symbol = front.as_bytes().to_vec();
        symbol.extend_from_slice(&clean);
        let target = Some(program.symbols.enter(&symbol));
        let step = program.step(None, None, StepKind::Assign { target, value, provision: Provision::Provide });
        program.top.push(step);
    }
    Ok(())
}

/// A statement between the braces of an output section.
fn inner(program: &mut Program, statement: &Spanned<SectionStatement>, output: OutputId) -> Result<StatementId, Stop> {
    let (span, output) = (Some(statement.span), Some(output));
    let kind = match &statement.node {
        SectionStatement::Assign(node) => return assignment(program, node, span, output),
        SectionStatement::Assert(node) => {
            StepKind::Assert { condition: expression(program, &node.condition)?, message: node.message.clone() }
        }
        SectionStatement::Input(node) => {
            let id = program.step(span, output, StepKind::Input(program.takings.len()));
            program.takings.push(Taking::new(node.clone()));
            return Ok(id);
        }
        SectionStatement::Data(width, value) => StepKind::Data { width: *width, value: expression(program, value)? },
        SectionStatement::Fill(fill) => {
            let fill = fill_of(program, Some(fill))?;
            let id = program.step(span, output, StepKind::Fill);
            if let Some(step) = program.steps.get_mut(id.index()) {
                step.fill = fill;
            }
            return Ok(id);
        }
        SectionStatement::Text(_) => return refused(RefusedReason::Newer("ASCII".into()), span),
        SectionStatement::LinkerVersion => return refused(RefusedReason::Newer("LINKER_VERSION".into()), span),
        SectionStatement::CreateObjectSymbols => StepKind::CreateObjectSymbols,
        SectionStatement::Constructors(_) => StepKind::Other,
    };
    Ok(program.step(span, output, kind))
}

fn assignment(
    program: &mut Program,
    node: &Assignment,
    span: Option<Span>,
    output: Option<OutputId>,
) -> Result<StatementId, Stop> {
    let target = match node.target.node.as_slice() {
        b"." => None,
        name => Some(program.symbols.enter(name)),
    };
    let right = expression(program, &node.value)?;
    let value = match node.operator {
        AssignOperator::Set => right,
        AssignOperator::Update(operator) => {
            let left = match target {
                None => Node::Dot,
                Some(symbol) => Node::Symbol(symbol),
            };
            let left = program.expressions.enter(left, Some(node.target.span))?;
            let whole = Some(node.target.span.to(node.value.span));
            program.expressions.enter(Node::Binary(Binary::Operator(operator), left, right), whole)?
        }
    };
    let id = program.step(span, output, StepKind::Assign { target, value, provision: node.provision });
    Ok(id)
}

fn optional(program: &mut Program, e: Option<&Expr>) -> Result<Option<ExprId>, Stop> {
    e.map(|e| expression(program, e)).transpose()
}

/// Compiles an expression; its tree is at most `MAX_EXPR_DEPTH` deep.
fn expression(program: &mut Program, e: &Expr) -> Result<ExprId, Stop> {
    let node = match &e.kind {
        ExprKind::Number(value) => Node::Number(*value),
        ExprKind::Dot => Node::Dot,
        ExprKind::Symbol(name) => Node::Symbol(program.symbols.enter(name)),
        ExprKind::Unary(UnaryOperator::Plus, inner) => return expression(program, inner),
        ExprKind::Unary(operator, inner) => Node::Unary(Unary::Operator(*operator), expression(program, inner)?),
        ExprKind::Binary(operator, left, right) => {
            let left = expression(program, left)?;
            Node::Binary(Binary::Operator(*operator), left, expression(program, right)?)
        }
        ExprKind::Conditional(test, yes, no) => {
            let (test, yes) = (expression(program, test)?, expression(program, yes)?);
            Node::Conditional(test, yes, expression(program, no)?)
        }
        ExprKind::Call(function, arguments) => call(program, *function, arguments, e.span)?,
        ExprKind::Query(query, name) => match query {
            Query::Addr | Query::Alignof | Query::Loadaddr | Query::Sizeof => {
                Node::OfSection(*query, program.names.enter(name))
            }
            Query::Length | Query::Origin => Node::OfRegion(*query, name.clone()),
            Query::Constant => Node::Constant(name.clone()),
            Query::Defined => Node::Defined(program.symbols.enter(name)),
        },
        ExprKind::SegmentStart(name, inner) => Node::SegmentStart(name.clone(), expression(program, inner)?),
        ExprKind::SizeofHeaders => Node::Headers,
        ExprKind::Assert(condition, message) => Node::Assert(expression(program, condition)?, message.clone()),
    };
    program.expressions.enter(node, Some(e.span))
}

fn call(program: &mut Program, function: Function, arguments: &[Expr], span: Span) -> Result<Node, Stop> {
    let mut ids = Vec::with_capacity(arguments.len());
    for argument in arguments {
        ids.push(expression(program, argument)?);
    }
    let node = match (function, ids.as_slice()) {
        (Function::Absolute, [e]) => Node::Unary(Unary::Absolute, *e),
        (Function::Align | Function::Block, [e]) => Node::Unary(Unary::Align, *e),
        (Function::Align, [e, align]) => Node::Binary(Binary::Align, *e, *align),
        (Function::DataSegmentAlign, [page, common]) => Node::Binary(Binary::SegmentAlign, *page, *common),
        (Function::DataSegmentEnd, [e]) => Node::Unary(Unary::SegmentEnd, *e),
        (Function::DataSegmentRelroEnd, [offset, e]) => Node::Binary(Binary::RelroEnd, *e, *offset),
        (Function::Log2Ceil, [e]) => Node::Unary(Unary::Log2Ceil, *e),
        (Function::Max, [a, b]) => Node::Binary(Binary::Max, *a, *b),
        (Function::Min, [a, b]) => Node::Binary(Binary::Min, *a, *b),
        (Function::Next, [e]) => Node::Unary(Unary::Next, *e),
        _ => return not_evaluated(NotEvaluatedReason::Word(format!("{:?}", function).into()), Some(span)),
    };
    Ok(node)
}

/// The bytes of a fill (ldexp.c, `exp_get_fill`).
fn fill_of(program: &mut Program, fill: Option<&Fill>) -> Result<FillBytes, Stop> {
    let fill = match fill {
        None => return Ok(None),
        Some(fill) => fill,
    };
    if let Some(bytes) = &fill.literal {
        return Ok(Some(bytes.as_slice().into()));
    }
    let id = expression(program, &fill.value)?;
    match constant(program, id) {
        Some(value) => Ok(Some((value as u32).to_be_bytes().as_slice().into())),
        None => not_evaluated(NotEvaluatedReason::Fill, Some(fill.value.span)),
    }
}

/// The value of an expression that is a number, or ABSOLUTE of one.
fn constant(program: &Program, id: ExprId) -> Option<u64> {
    match program.expressions.node(id) {
        Node::Number(value) => Some(*value),
        Node::Unary(Unary::Absolute, inner) => constant(program, *inner),
        _ => None,
    }
}

/// The files that the input statements of a script name without a wildcard, with the first place of each.
pub(crate) fn files_of(program: &Program) -> Vec<(Name, Span)> {
    let mut found: Vec<(Name, Span)> = Vec::new();
    for taking in &program.takings {
        if let (Some(name), Some(file)) = (file_of(taking), &taking.node.file) {
            if !found.iter().any(|(known, _)| known == name) {
                found.push((name.clone(), file.span));
            }
        }
    }
    found
}

/// The file that an input statement names without a wildcard.
pub(crate) fn file_of(taking: &Taking) -> Option<&Name> {
    let glob = &taking.node.file.as_ref()?.node.glob;
    let is_plain = !super::glob::has_wildcard(glob) && glob.find_byte(b':').is_none();
    is_plain.then_some(glob)
}

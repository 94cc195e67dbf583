//! Random trees are printed and read again: they are equal.

use std::path::Path;

use super::super::parse;
use super::super::tree::*;
use super::print;

/// Numbers by a xorshift with a seed (Marsaglia 2003).
struct Random(u64);

impl Random {
    fn next(&mut self) -> u64 {
        self.0 ^= self.0 << 13;
        self.0 ^= self.0 >> 7;
        self.0 ^= self.0 << 17;
        self.0
    }

    fn below(&mut self, limit: usize) -> usize {
        (self.next() >> 11) as usize % limit
    }

    fn chance(&mut self, percent: usize) -> bool {
        self.below(100) < percent
    }

    fn pick<T: Clone>(&mut self, items: &[T]) -> T {
        items[self.below(items.len())].clone()
    }

    fn some<T>(&mut self, percent: usize, make: impl FnOnce(&mut Self) -> T) -> Option<T> {
        if self.chance(percent) {
            Some(make(self))
        } else {
            None
        }
    }

    fn list<T>(&mut self, least: usize, most: usize, mut make: impl FnMut(&mut Self) -> T) -> Vec<T> {
        let count = least + self.below(most - least + 1);
        (0..count).map(|_| make(self)).collect()
    }
}

fn at<T>(node: T) -> Spanned<T> {
    Spanned::new(node, Span::default())
}

/// A name for any place; some need quotes in one state or another.
fn name(random: &mut Random) -> Name {
    let names: [&str; 24] = [
        "a",
        "_start",
        ".text",
        ".data.rel.ro",
        "add",
        "SECTIONS",
        "KEEP",
        "NOLOAD",
        "o",
        "len",
        "a-b",
        "a b",
        "a=b",
        "x,y",
        "~t",
        "/foo",
        "/DISCARD/",
        "$d",
        "4x",
        "",
        "*",
        "\u{e9}",
        "a/*b*/",
        "INCLUDE",
    ];
    Name::from(random.pick(&names))
}

fn glob(random: &mut Random) -> Pattern {
    let plain: [&str; 7] = ["*", ".text", ".text.*", "*crt?.o", "[a-z]*", "a:b", ".a,"];
    let is_quoted = random.chance(20);
    let glob = if is_quoted { name(random) } else { Name::from(random.pick(&plain)) };
    Pattern { glob, is_quoted, sorts: Vec::new(), excluded_files: Vec::new() }
}

fn section_pattern(random: &mut Random) -> Spanned<Pattern> {
    let sorts: [&[Sort]; 9] = [
        &[],
        &[],
        &[Sort::ByName],
        &[Sort::ByAlignment],
        &[Sort::ByInitPriority],
        &[Sort::None],
        &[Sort::ByName, Sort::ByAlignment],
        &[Sort::ByAlignment, Sort::ByName],
        &[Sort::ByName, Sort::Reverse],
    ];
    let sorts = random.pick(&sorts).to_vec();
    let excluded_files = if random.chance(20) { random.list(1, 3, name) } else { Vec::new() };
    at(Pattern { sorts, excluded_files, ..glob(random) })
}

fn file_pattern(random: &mut Random) -> Spanned<Pattern> {
    let sorts: [&[Sort]; 5] = [&[], &[], &[], &[Sort::ByName], &[Sort::None]];
    let sorts = random.pick(&sorts).to_vec();
    let excluded_files = if random.chance(10) { random.list(1, 2, name) } else { Vec::new() };
    at(Pattern { sorts, excluded_files, ..glob(random) })
}

fn expr(random: &mut Random, depth: usize) -> Expr {
    let kind = if depth == 0 || random.chance(30) { leaf(random) } else { inner(random, depth - 1) };
    Expr::new(kind, Span::default())
}

fn boxed(random: &mut Random, depth: usize) -> Box<Expr> {
    Box::new(expr(random, depth))
}

fn leaf(random: &mut Random) -> ExprKind {
    match random.below(6) {
        0 => ExprKind::Dot,
        1 => ExprKind::SizeofHeaders,
        2 => ExprKind::Symbol(name(random)),
        3 => {
            let queries = [
                Query::Addr,
                Query::Alignof,
                Query::Constant,
                Query::Defined,
                Query::Length,
                Query::Loadaddr,
                Query::Origin,
                Query::Sizeof,
            ];
            ExprKind::Query(random.pick(&queries), name(random))
        }
        4 => ExprKind::Number(random.next()),
        _ => ExprKind::Number(random.next() % 5000),
    }
}

fn inner(random: &mut Random, depth: usize) -> ExprKind {
    let unary = [UnaryOperator::Plus, UnaryOperator::Minus, UnaryOperator::Complement, UnaryOperator::Not];
    let marks = ["*", "/", "%", "+", "-", "<<", ">>", "<", "<=", ">", ">=", "==", "!=", "&", "^", "|", "&&", "||"];
    let functions = [
        (Function::Absolute, 1),
        (Function::Align, 1),
        (Function::Align, 2),
        (Function::Block, 1),
        (Function::DataSegmentAlign, 2),
        (Function::DataSegmentEnd, 1),
        (Function::DataSegmentRelroEnd, 2),
        (Function::Log2Ceil, 1),
        (Function::Max, 2),
        (Function::Min, 2),
        (Function::Next, 1),
    ];
    match random.below(12) {
        0 | 1 => ExprKind::Unary(random.pick(&unary), boxed(random, depth)),
        2 | 3 => ExprKind::Conditional(boxed(random, depth), boxed(random, depth), boxed(random, depth)),
        4 | 5 => {
            let (function, count) = random.pick(&functions);
            ExprKind::Call(function, (0..count).map(|_| expr(random, depth)).collect())
        }
        6 => ExprKind::SegmentStart(name(random), boxed(random, depth)),
        7 => ExprKind::Assert(boxed(random, depth), name(random)),
        _ => {
            let operator = BinaryOperator::from_mark(random.pick(&marks)).unwrap_or(BinaryOperator::Add);
            ExprKind::Binary(operator, boxed(random, depth), boxed(random, depth))
        }
    }
}

fn value(random: &mut Random) -> Expr {
    let depth = random.below(4);
    expr(random, depth)
}

fn fill(random: &mut Random) -> Fill {
    if random.chance(50) {
        let literal: Vec<u8> = random.list(1, 12, |random| random.next() as u8);
        let number =
            literal.iter().fold(0u64, |value, byte| value.saturating_mul(256).saturating_add(u64::from(*byte)));
        return Fill { value: Expr::new(ExprKind::Number(number), Span::default()), literal: Some(literal) };
    }
    Fill { value: value(random), literal: None }
}

fn assignment(random: &mut Random) -> Assignment {
    let provision = random.pick(&[
        Provision::Plain,
        Provision::Plain,
        Provision::Hidden,
        Provision::Provide,
        Provision::ProvideHidden,
    ]);
    let updates = ["+", "-", "*", "/", "<<", ">>", "&", "|"];
    let update = BinaryOperator::from_mark(random.pick(&updates)).map(AssignOperator::Update);
    let operator = match update {
        Some(update) if provision == Provision::Plain && random.chance(30) => update,
        _ => AssignOperator::Set,
    };
    let target = if random.chance(30) { Name::from(".") } else { name(random) };
    Assignment { target: at(target), operator, value: value(random), provision }
}

fn assertion(random: &mut Random) -> Assertion {
    Assertion { condition: value(random), message: name(random) }
}

fn input(random: &mut Random) -> InputStatement {
    let section_flags = if random.chance(15) { random.list(1, 3, name) } else { Vec::new() };
    let (file, sections) = match random.below(10) {
        0 => (Some(at(glob(random))), None),
        1 => (None, Some(random.list(1, 3, section_pattern))),
        _ => (Some(file_pattern(random)), Some(random.list(1, 3, section_pattern))),
    };
    InputStatement { is_kept: random.chance(20), section_flags, file, sections }
}

fn section_statement(random: &mut Random) -> Spanned<SectionStatement> {
    let widths = [DataWidth::Byte, DataWidth::Short, DataWidth::Long, DataWidth::Quad, DataWidth::SignedQuad];
    at(match random.below(16) {
        0..=3 => SectionStatement::Assign(assignment(random)),
        4 => SectionStatement::Assert(assertion(random)),
        5 => SectionStatement::Data(random.pick(&widths), value(random)),
        6 => SectionStatement::Text(DataText::Sized(value(random), name(random))),
        7 => SectionStatement::Text(DataText::ZeroTerminated(name(random))),
        8 => SectionStatement::Fill(fill(random)),
        9 => SectionStatement::CreateObjectSymbols,
        10 => SectionStatement::Constructors(random.chance(50)),
        11 => SectionStatement::LinkerVersion,
        _ => SectionStatement::Input(input(random)),
    })
}

fn body(random: &mut Random) -> Spanned<Vec<Spanned<SectionStatement>>> {
    at(random.list(0, 4, section_statement))
}

fn spanned_name(random: &mut Random) -> Spanned<Name> {
    at(name(random))
}

fn section_name(random: &mut Random) -> (Spanned<Name>, bool) {
    let plain: [&str; 5] = [".text", "/DISCARD/", "a-b", "~x", "/foo"];
    if random.chance(30) {
        (spanned_name(random), true)
    } else {
        (at(Name::from(random.pick(&plain))), false)
    }
}

fn section_type(random: &mut Random) -> Spanned<SectionType> {
    at(match random.below(5) {
        0 => SectionType::NoLoad,
        1 => SectionType::NotAllocated(Name::from(random.pick(&["DSECT", "COPY", "INFO", "OVERLAY"]))),
        2 => SectionType::ReadOnly(None),
        3 => SectionType::ReadOnly(Some(value(random))),
        _ => SectionType::Type(value(random)),
    })
}

fn output_section(random: &mut Random) -> OutputSection {
    let constraints = [Constraint::ReadOnly, Constraint::ReadWrite, Constraint::Special];
    let (name, is_quoted) = section_name(random);
    OutputSection {
        name,
        is_quoted,
        address: random.some(30, value),
        kind: random.some(30, section_type),
        load_address: random.some(20, value),
        align: random.some(20, value),
        is_aligned_with_input: random.chance(10),
        subalign: random.some(20, value),
        constraint: random.some(20, |random| random.pick(&constraints)),
        body: body(random),
        region: random.some(30, spanned_name),
        load_region: random.some(20, spanned_name),
        segments: random.list(0, 2, spanned_name),
        fill: random.some(20, fill),
    }
}

fn overlay(random: &mut Random) -> Overlay {
    let section = |random: &mut Random| {
        let (name, is_quoted) = section_name(random);
        let (segments, fill) = (random.list(0, 2, spanned_name), random.some(20, fill));
        at(OutputSection { is_quoted, segments, fill, ..OutputSection::new(name, body(random)) })
    };
    Overlay {
        address: random.some(50, value),
        forbids_cross_references: random.chance(30),
        load_address: random.some(30, value),
        subalign: random.some(30, value),
        sections: at(random.list(0, 3, section)),
        region: random.some(30, spanned_name),
        load_region: random.some(20, spanned_name),
        segments: random.list(0, 2, spanned_name),
        fill: random.some(20, fill),
    }
}

fn sections_statement(random: &mut Random) -> Spanned<SectionsStatement> {
    at(match random.below(8) {
        0 | 1 => SectionsStatement::Assign(assignment(random)),
        2 => SectionsStatement::Assert(assertion(random)),
        3 => SectionsStatement::Entry(name(random)),
        4 => SectionsStatement::Overlay(Box::new(overlay(random))),
        _ => SectionsStatement::Output(Box::new(output_section(random))),
    })
}

fn region(random: &mut Random) -> Spanned<MemoryRegion> {
    let words = |random: &mut Random| {
        let letters = Name::from(random.pick(&["rx", "w", "l", "a!w", "RWXALI", ""]));
        RegionAttributes { is_inverted: random.chance(30), letters }
    };
    let attributes = random.some(50, |random| at(random.list(1, 3, words)));
    at(MemoryRegion { name: spanned_name(random), attributes, origin: value(random), length: value(random) })
}

fn header(random: &mut Random) -> Spanned<ProgramHeader> {
    let types = ["PT_NULL", "PT_LOAD", "PT_NOTE", "PT_TLS", "PT_GNU_STACK", "PT_GNU_PROPERTY"];
    let kind = match value(random) {
        Expr { kind: ExprKind::Symbol(_), span } => Expr { kind: ExprKind::Symbol(random.pick(&types).into()), span },
        other => other,
    };
    at(ProgramHeader {
        name: spanned_name(random),
        kind,
        has_file_header: random.chance(30),
        has_program_headers: random.chance(30),
        load_address: random.some(30, value),
        flags: random.some(30, value),
    })
}

fn file(random: &mut Random) -> Spanned<InputFile> {
    let is_library = random.chance(30);
    let name = if is_library { Name::from(random.pick(&["c", "gcc_s", "m-2.0"])) } else { name(random) };
    at(InputFile { name, is_library, is_as_needed: random.chance(30) })
}

fn version_pattern(random: &mut Random) -> VersionPattern {
    let is_quoted = random.chance(30);
    let plain: [&str; 7] = ["*", "a*", "ns::f", "global", "local", "extern", "[a-c]?"];
    let glob = if is_quoted { name(random) } else { Name::from(random.pick(&plain)) };
    VersionPattern { glob, is_quoted, language: random.some(20, |random| Name::from(random.pick(&["C", "C++"]))) }
}

fn version_node(random: &mut Random) -> VersionNode {
    let tag = |random: &mut Random| Name::from(random.pick(&["V1", "V_2.0", "$x"]));
    let own = random.some(70, tag);
    let dependencies = if own.is_some() { random.list(0, 2, tag) } else { Vec::new() };
    let (globals, locals) = (random.list(0, 3, version_pattern), random.list(0, 3, version_pattern));
    VersionNode { tag: own, globals, locals, dependencies }
}

fn statement(random: &mut Random) -> Spanned<Statement> {
    let settings = [
        Setting::ForceCommonAllocation,
        Setting::ForceGroupAllocation,
        Setting::InhibitCommonAllocation,
        Setting::Float,
        Setting::NoFloat,
    ];
    let single: [fn(Name) -> Statement; 8] = [
        Statement::Entry,
        Statement::Startup,
        Statement::Output,
        Statement::OutputArch,
        Statement::Target,
        Statement::SearchDir,
        Statement::Feature,
        Statement::Map,
    ];
    at(match random.below(20) {
        0 | 1 => Statement::Assign(assignment(random)),
        2 => Statement::Assert(assertion(random)),
        3..=6 => Statement::Sections(random.list(0, 5, sections_statement)),
        7 => Statement::Memory(random.list(0, 3, region)),
        8 => Statement::Phdrs(random.list(0, 3, header)),
        9 => random.pick(&single)(name(random)),
        10 => Statement::Input(random.list(1, 4, file)),
        11 => Statement::Group(random.list(1, 4, file)),
        12 => Statement::OutputFormat(
            random.pick(&[vec!["a"], vec!["a", "b,", ""]]).into_iter().map(Name::from).collect(),
        ),
        13 => Statement::Extern(random.list(1, 3, name)),
        14 => Statement::RegionAlias(name(random), name(random)),
        15 => Statement::NoCrossReferences(random.list(0, 3, name)),
        16 => Statement::NoCrossReferencesTo(random.list(0, 3, name)),
        17 => Statement::Setting(random.pick(&settings)),
        18 => Statement::Version(random.list(1, 3, version_node)),
        _ => Statement::Insert(random.pick(&[InsertPlace::After, InsertPlace::Before]), name(random)),
    })
}

#[test]
fn random_trees_are_printed_and_read_again() {
    let mut random = Random(0x9e37_79b9_7f4a_7c15);
    for round in 0..3000 {
        let script = Script { statements: random.list(0, 4, statement) };
        let text = print::script(&script);
        match parse(Path::new("printed"), &text) {
            Ok(reading) => {
                let again = reading.script == script;
                assert!(again, "round {round}: {}\n{script:#?}\n{:#?}", String::from_utf8_lossy(&text), reading.script);
                assert_eq!(reading.source.text(), text);
                assert!(reading.warnings.is_empty());
            }
            Err(error) => panic!("round {round}: {error}: {}\n{}", error.line(), String::from_utf8_lossy(&text)),
        }
    }
}

/// Random changes of printed scripts: whatever they are, they are read or refused.
#[test]
fn random_changes_of_scripts_do_no_harm() {
    let mut random = Random(7);
    let bytes: &[u8] = b"\"(){};:,=*/.a0 \n>&$\\\xff";
    for _ in 0..2000 {
        let mut text = print::script(&Script { statements: random.list(1, 3, statement) });
        for _ in 0..random.below(4) {
            let place = random.below(text.len());
            match random.below(3) {
                0 => text[place] = random.pick(bytes),
                1 => text.insert(place, random.pick(bytes)),
                _ => text.truncate(place.max(1)),
            }
        }
        if let Ok(reading) = parse(Path::new("changed"), &text) {
            let printed = print::script(&reading.script);
            let again = parse(Path::new("again"), &printed).map(|reading| reading.script);
            assert_eq!(again.as_ref(), Ok(&reading.script), "{}", String::from_utf8_lossy(&text));
        }
    }
}

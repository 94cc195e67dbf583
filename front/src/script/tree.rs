//! The tree of a script of GNU ld's language. Each node has its span in the text; what INCLUDE names stands in the text
//! in its place, so one pair of offsets serves (`Source` knows the file and the line of an offset).
//!
//! Trees are equal when they say the same: spans do not count.

use bstr::BString;

/// A stretch of the text: offsets in bytes, the end not included.
#[derive(Clone, Copy, PartialEq, Eq, Hash, Debug, Default)]
pub struct Span {
    /// The offset of the first byte.
    pub start: u32,
    /// The offset after the last byte.
    pub end: u32,
}

impl Span {
    /// The stretch from the first byte of this one to the last byte of the other.
    #[must_use]
    pub fn to(self, last: Span) -> Span {
        Span { start: self.start, end: last.end }
    }
}

/// A node with its place in the text. Equality is of the nodes alone.
#[derive(Clone, Debug)]
pub struct Spanned<T> {
    /// The node.
    pub node: T,
    /// Where it stands. A statement's span has its separator in it, if it has one.
    pub span: Span,
}

impl<T> Spanned<T> {
    /// A node and its place.
    pub fn new(node: T, span: Span) -> Spanned<T> {
        Spanned { node, span }
    }
}

impl<T: PartialEq> PartialEq for Spanned<T> {
    fn eq(&self, other: &Self) -> bool {
        self.node == other.node
    }
}

impl<T: Eq> Eq for Spanned<T> {}

/// A name of a symbol, section, region, segment or file, as its bytes.
pub type Name = BString;

/// How deep the tree of an expression can be, at most; the parser accepts none that is deeper.
pub const MAX_EXPR_DEPTH: usize = 1000;

/// An expression (GNU ld manual, 'Expressions in Linker Scripts'). Equality is of what it says, not of its place.
/// Its tree is at most `MAX_EXPR_DEPTH` deep, so that functions over it can be recursive.
#[derive(Clone, Debug)]
pub struct Expr {
    /// What it is.
    pub kind: ExprKind,
    /// Where it stands, with the parentheses around it.
    pub span: Span,
}

impl Expr {
    /// An expression and its place.
    pub fn new(kind: ExprKind, span: Span) -> Expr {
        Expr { kind, span }
    }

    /// Shows the expression and all in it, each before its operands.
    pub fn visit<'a>(&'a self, see: &mut dyn FnMut(&'a Expr)) {
        see(self);
        match &self.kind {
            ExprKind::Number(_)
            | ExprKind::Dot
            | ExprKind::Symbol(_)
            | ExprKind::Query(..)
            | ExprKind::SizeofHeaders => {}
            ExprKind::Unary(_, inner) | ExprKind::SegmentStart(_, inner) | ExprKind::Assert(inner, _) => {
                inner.visit(see)
            }
            ExprKind::Binary(_, left, right) => {
                left.visit(see);
                right.visit(see);
            }
            ExprKind::Conditional(test, then, otherwise) => {
                test.visit(see);
                then.visit(see);
                otherwise.visit(see);
            }
            ExprKind::Call(_, arguments) => arguments.iter().for_each(|argument| argument.visit(see)),
        }
    }
}

impl PartialEq for Expr {
    fn eq(&self, other: &Self) -> bool {
        self.kind == other.kind
    }
}

impl Eq for Expr {}

/// What an expression is.
#[derive(Clone, PartialEq, Eq, Debug)]
pub enum ExprKind {
    /// A number; its spelling is in the text.
    Number(u64),
    /// The location counter.
    Dot,
    /// A symbol, or a word as `PT_LOAD` of PHDRS.
    Symbol(Name),
    /// `-e`, `~e`, `!e` or `+e`.
    Unary(UnaryOperator, Box<Expr>),
    /// `a op b`.
    Binary(BinaryOperator, Box<Expr>, Box<Expr>),
    /// `condition ? then : otherwise`.
    Conditional(Box<Expr>, Box<Expr>, Box<Expr>),
    /// A function of expressions, such as `ALIGN(., 8)`. The number of arguments is one of those that the function has.
    Call(Function, Vec<Expr>),
    /// A function of a name, such as `SIZEOF(.text)`.
    Query(Query, Name),
    /// `SEGMENT_START("name", default)`.
    SegmentStart(Name, Box<Expr>),
    /// `SIZEOF_HEADERS`.
    SizeofHeaders,
    /// `ASSERT(e, "message")` within an expression.
    Assert(Box<Expr>, Name),
}

/// A unary operator.
#[derive(Clone, Copy, PartialEq, Eq, Hash, Debug)]
pub enum UnaryOperator {
    /// `+`
    Plus,
    /// `-`
    Minus,
    /// `~`
    Complement,
    /// `!`
    Not,
}

/// A binary operator.
#[derive(Clone, Copy, PartialEq, Eq, Hash, Debug)]
pub enum BinaryOperator {
    /// `*`
    Multiply,
    /// `/`
    Divide,
    /// `%`
    Remainder,
    /// `+`
    Add,
    /// `-`
    Subtract,
    /// `<<`
    ShiftLeft,
    /// `>>`
    ShiftRight,
    /// `<`
    Less,
    /// `<=`
    LessOrEqual,
    /// `>`
    Greater,
    /// `>=`
    GreaterOrEqual,
    /// `==`
    Equal,
    /// `!=`
    NotEqual,
    /// `&`
    And,
    /// `^`
    Xor,
    /// `|`
    Or,
    /// `&&`
    LogicalAnd,
    /// `||`
    LogicalOr,
}

impl BinaryOperator {
    /// Each operator, its spelling and its level: of two, the one of the higher level is tighter.
    const ALL: [(BinaryOperator, &'static str, u8); 18] = [
        (BinaryOperator::LogicalOr, "||", 1),
        (BinaryOperator::LogicalAnd, "&&", 2),
        (BinaryOperator::Or, "|", 3),
        (BinaryOperator::Xor, "^", 4),
        (BinaryOperator::And, "&", 5),
        (BinaryOperator::Equal, "==", 6),
        (BinaryOperator::NotEqual, "!=", 6),
        (BinaryOperator::Less, "<", 7),
        (BinaryOperator::LessOrEqual, "<=", 7),
        (BinaryOperator::Greater, ">", 7),
        (BinaryOperator::GreaterOrEqual, ">=", 7),
        (BinaryOperator::ShiftLeft, "<<", 8),
        (BinaryOperator::ShiftRight, ">>", 8),
        (BinaryOperator::Add, "+", 9),
        (BinaryOperator::Subtract, "-", 9),
        (BinaryOperator::Multiply, "*", 10),
        (BinaryOperator::Divide, "/", 10),
        (BinaryOperator::Remainder, "%", 10),
    ];

    fn row(self) -> (&'static str, u8) {
        let row = BinaryOperator::ALL.iter().find(|(operator, _, _)| *operator == self);
        row.map_or(("", 0), |(_, mark, level)| (mark, *level))
    }

    /// The mark of the operator.
    #[must_use]
    pub fn mark(self) -> &'static str {
        self.row().0
    }

    /// How tight it is, from 1 for `||` to 10 for `*`; operators of a level go from left to right.
    #[must_use]
    pub fn level(self) -> u8 {
        self.row().1
    }

    /// The operator of a spelling.
    #[must_use]
    pub fn from_mark(mark: &str) -> Option<BinaryOperator> {
        BinaryOperator::ALL.iter().find(|(_, own, _)| *own == mark).map(|(operator, _, _)| *operator)
    }
}

/// A function of expressions (GNU ld manual, 'Builtin Functions').
#[derive(Clone, Copy, PartialEq, Eq, Hash, Debug)]
pub enum Function {
    /// `ABSOLUTE(e)`
    Absolute,
    /// `ALIGN(align)` or `ALIGN(e, align)`
    Align,
    /// `BLOCK(e)`, another word for `ALIGN(e)`
    Block,
    /// `DATA_SEGMENT_ALIGN(maxpagesize, commonpagesize)`
    DataSegmentAlign,
    /// `DATA_SEGMENT_END(e)`
    DataSegmentEnd,
    /// `DATA_SEGMENT_RELRO_END(offset, e)`
    DataSegmentRelroEnd,
    /// `LOG2CEIL(e)`
    Log2Ceil,
    /// `MAX(a, b)`
    Max,
    /// `MIN(a, b)`
    Min,
    /// `NEXT(e)`
    Next,
}

/// A function of a name.
#[derive(Clone, Copy, PartialEq, Eq, Hash, Debug)]
pub enum Query {
    /// `ADDR(section)`
    Addr,
    /// `ALIGNOF(section)`
    Alignof,
    /// `CONSTANT(MAXPAGESIZE)` or `CONSTANT(COMMONPAGESIZE)`
    Constant,
    /// `DEFINED(symbol)`
    Defined,
    /// `LENGTH(region)`
    Length,
    /// `LOADADDR(section)`
    Loadaddr,
    /// `ORIGIN(region)`
    Origin,
    /// `SIZEOF(section)`
    Sizeof,
}

impl Query {
    /// Its keyword.
    pub fn keyword(self) -> &'static str {
        match self {
            Query::Addr => "ADDR",
            Query::Alignof => "ALIGNOF",
            Query::Constant => "CONSTANT",
            Query::Defined => "DEFINED",
            Query::Length => "LENGTH",
            Query::Loadaddr => "LOADADDR",
            Query::Origin => "ORIGIN",
            Query::Sizeof => "SIZEOF",
        }
    }
}

/// How an assignment gives its symbol a value.
#[derive(Clone, Copy, PartialEq, Eq, Hash, Debug)]
pub enum AssignOperator {
    /// `=`
    Set,
    /// `+=`, `-=`, `*=`, `/=`, `<<=`, `>>=`, `&=` or `|=`: the old value and this operator
    Update(BinaryOperator),
}

/// The wrapper of an assignment.
#[derive(Clone, Copy, PartialEq, Eq, Hash, Debug)]
pub enum Provision {
    /// An assignment under no keyword: `name = e;`.
    Plain,
    /// `HIDDEN(name = e)`
    Hidden,
    /// `PROVIDE(name = e)`
    Provide,
    /// `PROVIDE_HIDDEN(name = e)`
    ProvideHidden,
}

/// `name op value;`, also of the location counter.
#[derive(Clone, PartialEq, Eq, Debug)]
pub struct Assignment {
    /// The symbol; `.` is the location counter.
    pub target: Spanned<Name>,
    /// The operator.
    pub operator: AssignOperator,
    /// The right side.
    pub value: Expr,
    /// What wraps it.
    pub provision: Provision,
}

/// `ASSERT(condition, "message")` as a statement.
#[derive(Clone, PartialEq, Eq, Debug)]
pub struct Assertion {
    /// What is to be true (not 0).
    pub condition: Expr,
    /// The message, without quotes.
    pub message: Name,
}

/// Some attributes of a region: one word between the parentheses, perhaps with `!` before it.
#[derive(Clone, PartialEq, Eq, Debug)]
pub struct RegionAttributes {
    /// Whether `!` stands before the word: its letters say what sections must not be.
    pub is_inverted: bool,
    /// The letters of `rwxali`, in either case.
    pub letters: Name,
}

/// A region of MEMORY.
#[derive(Clone, PartialEq, Eq, Debug)]
pub struct MemoryRegion {
    /// Its name.
    pub name: Spanned<Name>,
    /// Its attributes: `(rw !x)` has two words. The span is that of the parentheses.
    pub attributes: Option<Spanned<Vec<RegionAttributes>>>,
    /// `ORIGIN = e`
    pub origin: Expr,
    /// `LENGTH = e`
    pub length: Expr,
}

/// A program header of PHDRS.
#[derive(Clone, PartialEq, Eq, Debug)]
pub struct ProgramHeader {
    /// Its name.
    pub name: Spanned<Name>,
    /// Its type: a symbol such as `PT_LOAD`, or another expression.
    pub kind: Expr,
    /// Whether the file header is in it (FILEHDR).
    pub has_file_header: bool,
    /// Whether the program headers are in it (PHDRS).
    pub has_program_headers: bool,
    /// `AT(e)`
    pub load_address: Option<Expr>,
    /// `FLAGS(e)`
    pub flags: Option<Expr>,
}

/// The number of a type of program headers, such as `PT_LOAD` (System V gABI, 'Program Header'; GNU's types).
#[must_use]
pub fn program_header_type(word: &[u8]) -> Option<u32> {
    const FIRST: [&str; 8] =
        ["PT_NULL", "PT_LOAD", "PT_DYNAMIC", "PT_INTERP", "PT_NOTE", "PT_SHLIB", "PT_PHDR", "PT_TLS"];
    if let Some(index) = FIRST.iter().position(|known| known.as_bytes() == word) {
        return u32::try_from(index).ok();
    }
    match word {
        b"PT_GNU_EH_FRAME" => Some(0x6474_e550),
        b"PT_GNU_STACK" => Some(0x6474_e551),
        b"PT_GNU_RELRO" => Some(0x6474_e552),
        b"PT_GNU_PROPERTY" => Some(0x6474_e553),
        _ => None,
    }
}

/// A sort of a pattern (GNU ld manual, 'Input Section Wildcard Patterns').
#[derive(Clone, Copy, PartialEq, Eq, Hash, Debug)]
pub enum Sort {
    /// SORT or SORT_BY_NAME
    ByName,
    /// SORT_BY_ALIGNMENT
    ByAlignment,
    /// SORT_BY_INIT_PRIORITY
    ByInitPriority,
    /// SORT_NONE
    None,
    /// REVERSE (GNU ld from 2.41 on)
    Reverse,
}

/// A pattern of files or of sections, with its sorts (the outermost first) and the files that it leaves out.
#[derive(Clone, PartialEq, Eq, Debug)]
pub struct Pattern {
    /// The wildcard pattern.
    pub glob: Name,
    /// Whether it stands in quotes.
    pub is_quoted: bool,
    /// Its sorts, the outermost first.
    pub sorts: Vec<Sort>,
    /// The patterns of EXCLUDE_FILE.
    pub excluded_files: Vec<Name>,
}

/// An input section statement: `KEEP(*(.text .text.*))`.
#[derive(Clone, PartialEq, Eq, Debug)]
pub struct InputStatement {
    /// Whether it stands in KEEP.
    pub is_kept: bool,
    /// The words of INPUT_SECTION_FLAGS, such as `SHF_ALLOC` or `!SHF_WRITE`.
    pub section_flags: Vec<Name>,
    /// The files; `None` for `[..]` without a file.
    pub file: Option<Spanned<Pattern>>,
    /// The sections; `None` if a file stands alone.
    pub sections: Option<Vec<Spanned<Pattern>>>,
}

/// The width of a data command.
#[derive(Clone, Copy, PartialEq, Eq, Hash, Debug)]
pub enum DataWidth {
    /// BYTE
    Byte,
    /// SHORT
    Short,
    /// LONG
    Long,
    /// QUAD
    Quad,
    /// SQUAD
    SignedQuad,
}

/// A statement within an output section.
#[derive(Clone, PartialEq, Eq, Debug)]
pub enum SectionStatement {
    /// An assignment.
    Assign(Assignment),
    /// ASSERT.
    Assert(Assertion),
    /// Input sections.
    Input(InputStatement),
    /// BYTE and its like.
    Data(DataWidth, Expr),
    /// ASCII or ASCIZ (GNU ld from 2.41 on).
    Text(DataText),
    /// `FILL(e)`
    Fill(Fill),
    /// CREATE_OBJECT_SYMBOLS
    CreateObjectSymbols,
    /// CONSTRUCTORS; `true`: `SORT_BY_NAME(CONSTRUCTORS)`
    Constructors(bool),
    /// LINKER_VERSION (GNU ld from 2.42 on)
    LinkerVersion,
}

/// A text among the statements of an output section.
#[derive(Clone, PartialEq, Eq, Debug)]
pub enum DataText {
    /// `ASCII(size) "text"`: as many bytes, with zeros after the text.
    Sized(Expr, Name),
    /// `ASCIZ "text"`: a zero byte follows.
    ZeroTerminated(Name),
}

/// A fill: its expression, and how many bytes a hexadecimal literal spells (GNU ld manual, 'Output Section Fill').
#[derive(Clone, PartialEq, Eq, Debug)]
pub struct Fill {
    /// The value.
    pub value: Expr,
    /// The bytes of a literal `0x..` that has no suffix and is the whole expression: all its digits count. Else the
    /// fill is the low four bytes of the value, the highest first.
    pub literal: Option<Vec<u8>>,
}

/// The type of an output section, in parentheses in front of its colon.
#[derive(Clone, PartialEq, Eq, Debug)]
pub enum SectionType {
    /// NOLOAD
    NoLoad,
    /// DSECT, COPY, INFO or OVERLAY, by its word: not allocated
    NotAllocated(Name),
    /// READONLY, alone or with `(TYPE = e)`
    ReadOnly(Option<Expr>),
    /// `TYPE = e`
    Type(Expr),
}

/// An output section, `/DISCARD/` or a section of an OVERLAY.
#[derive(Clone, PartialEq, Eq, Debug)]
pub struct OutputSection {
    /// Its name; `/DISCARD/` is one.
    pub name: Spanned<Name>,
    /// Whether the name stands in quotes.
    pub is_quoted: bool,
    /// The address in front of the colon.
    pub address: Option<Expr>,
    /// The type.
    pub kind: Option<Spanned<SectionType>>,
    /// `AT(e)`
    pub load_address: Option<Expr>,
    /// `ALIGN(e)`
    pub align: Option<Expr>,
    /// ALIGN_WITH_INPUT
    pub is_aligned_with_input: bool,
    /// `SUBALIGN(e)`
    pub subalign: Option<Expr>,
    /// ONLY_IF_RO, ONLY_IF_RW or SPECIAL
    pub constraint: Option<Constraint>,
    /// The statements between the braces; the span is that of the braces.
    pub body: Spanned<Vec<Spanned<SectionStatement>>>,
    /// `>region`
    pub region: Option<Spanned<Name>>,
    /// `AT>region`
    pub load_region: Option<Spanned<Name>>,
    /// `:segment` ..
    pub segments: Vec<Spanned<Name>>,
    /// `=fill`
    pub fill: Option<Fill>,
}

impl OutputSection {
    /// A section with a name and statements, and nothing else.
    #[must_use]
    pub fn new(name: Spanned<Name>, body: Spanned<Vec<Spanned<SectionStatement>>>) -> OutputSection {
        OutputSection {
            name,
            is_quoted: false,
            address: None,
            kind: None,
            load_address: None,
            align: None,
            is_aligned_with_input: false,
            subalign: None,
            constraint: None,
            body,
            region: None,
            load_region: None,
            segments: Vec::new(),
            fill: None,
        }
    }
}

/// Whether an output section is made, by the flags of its input sections.
#[derive(Clone, Copy, PartialEq, Eq, Hash, Debug)]
pub enum Constraint {
    /// ONLY_IF_RO
    ReadOnly,
    /// ONLY_IF_RW
    ReadWrite,
    /// SPECIAL, which has no effect for ELF
    Special,
}

/// OVERLAY.
#[derive(Clone, PartialEq, Eq, Debug)]
pub struct Overlay {
    /// The address of all its sections.
    pub address: Option<Expr>,
    /// NOCROSSREFS
    pub forbids_cross_references: bool,
    /// `AT(e)`
    pub load_address: Option<Expr>,
    /// `SUBALIGN(e)`
    pub subalign: Option<Expr>,
    /// Its sections, which have a name, a body, segments and a fill; the span is that of the braces.
    pub sections: Spanned<Vec<Spanned<OutputSection>>>,
    /// `>region`
    pub region: Option<Spanned<Name>>,
    /// `AT>region`
    pub load_region: Option<Spanned<Name>>,
    /// `:segment` ..
    pub segments: Vec<Spanned<Name>>,
    /// `=fill`
    pub fill: Option<Fill>,
}

/// A statement of SECTIONS. `GROUP e : { .. }` of old scripts is an assignment to `.` and the statements in its braces.
#[derive(Clone, PartialEq, Eq, Debug)]
pub enum SectionsStatement {
    /// An assignment.
    Assign(Assignment),
    /// ASSERT.
    Assert(Assertion),
    /// ENTRY within SECTIONS.
    Entry(Name),
    /// An output section or `/DISCARD/`.
    Output(Box<OutputSection>),
    /// OVERLAY.
    Overlay(Box<Overlay>),
}

/// The side of INSERT.
#[derive(Clone, Copy, PartialEq, Eq, Hash, Debug)]
pub enum InsertPlace {
    /// INSERT AFTER
    After,
    /// INSERT BEFORE
    Before,
}

/// A statement at the top of a script.
#[derive(Clone, PartialEq, Eq, Debug)]
pub enum Statement {
    /// An assignment.
    Assign(Assignment),
    /// ASSERT.
    Assert(Assertion),
    /// SECTIONS.
    Sections(Vec<Spanned<SectionsStatement>>),
    /// MEMORY.
    Memory(Vec<Spanned<MemoryRegion>>),
    /// PHDRS.
    Phdrs(Vec<Spanned<ProgramHeader>>),
    /// `ENTRY(symbol)`
    Entry(Name),
    /// `INPUT(file ..)`
    Input(Vec<Spanned<InputFile>>),
    /// `GROUP(file ..)`: its archives are searched again and again.
    Group(Vec<Spanned<InputFile>>),
    /// `STARTUP(file)`
    Startup(Name),
    /// `OUTPUT(file)`
    Output(Name),
    /// `OUTPUT_FORMAT(default, big, little)`: one or three words
    OutputFormat(Vec<Name>),
    /// `OUTPUT_ARCH(name)`
    OutputArch(Name),
    /// `TARGET(name)`
    Target(Name),
    /// `SEARCH_DIR(path)`
    SearchDir(Name),
    /// `EXTERN(symbol ..)`
    Extern(Vec<Name>),
    /// `REGION_ALIAS(alias, region)`
    RegionAlias(Name, Name),
    /// `NOCROSSREFS(section ..)`
    NoCrossReferences(Vec<Name>),
    /// `NOCROSSREFS_TO(to section ..)`
    NoCrossReferencesTo(Vec<Name>),
    /// A command without arguments.
    Setting(Setting),
    /// `LD_FEATURE(string)`
    Feature(Name),
    /// `MAP(file)`
    Map(Name),
    /// `HLL(library ..)`, which has no effect for ELF
    HighLevelLibraries(Vec<Name>),
    /// `SYSLIB(library ..)`, which has no effect for ELF
    SystemLibraries(Vec<Name>),
    /// VERSION with its nodes
    Version(Vec<VersionNode>),
    /// `INSERT AFTER section` or `INSERT BEFORE section`: what the script had before it moves there.
    Insert(InsertPlace, Name),
}

/// A command without arguments.
#[derive(Clone, Copy, PartialEq, Eq, Hash, Debug)]
pub enum Setting {
    /// FORCE_COMMON_ALLOCATION
    ForceCommonAllocation,
    /// FORCE_GROUP_ALLOCATION
    ForceGroupAllocation,
    /// INHIBIT_COMMON_ALLOCATION
    InhibitCommonAllocation,
    /// FLOAT, which has no effect for ELF
    Float,
    /// NOFLOAT, which has no effect for ELF
    NoFloat,
}

/// A node of VERSION or of a version script (GNU ld manual, 'VERSION Command').
#[derive(Clone, PartialEq, Eq, Debug)]
pub struct VersionNode {
    /// Its tag; an anonymous node has none.
    pub tag: Option<Name>,
    /// The symbols that stay global.
    pub globals: Vec<VersionPattern>,
    /// The symbols that become local.
    pub locals: Vec<VersionPattern>,
    /// The tags of the nodes that it depends on.
    pub dependencies: Vec<Name>,
}

/// A pattern of symbols in a version node.
#[derive(Clone, PartialEq, Eq, Debug)]
pub struct VersionPattern {
    /// The pattern.
    pub glob: Name,
    /// Whether it stands in quotes: then it has no wildcards.
    pub is_quoted: bool,
    /// The language of `extern "C++" { .. }` around it.
    pub language: Option<Name>,
}

/// A file of INPUT or GROUP.
#[derive(Clone, PartialEq, Eq, Debug)]
pub struct InputFile {
    /// The name, or what `-l` stands before.
    pub name: Name,
    /// Whether it is written `-lname`.
    pub is_library: bool,
    /// Whether it stands in AS_NEEDED.
    pub is_as_needed: bool,
}

/// A script: its statements in their order.
#[derive(Clone, PartialEq, Eq, Debug, Default)]
pub struct Script {
    /// The statements.
    pub statements: Vec<Spanned<Statement>>,
}

//! The options of GNU ld's command line: how each is written, and how it is handled.
//!
//! docs/makefiles.md has the same table for people.

use super::{Ask, Discard, Leniency, ServerRequest, Strip, Warning, WordsRefused};
use bstr::{BStr, BString, ByteSlice};

/// Whether an option has a value.
#[derive(Clone, Copy, PartialEq, Eq, Hash, Debug)]
pub enum Argument {
    /// The option has no value.
    Absent,
    /// After `=`, after the letter of a short option, or the next word.
    Needed,
    /// After `=` alone.
    Optional,
}

/// What becomes of an option.
#[derive(Clone, Copy, PartialEq, Eq, Debug)]
pub enum Effect {
    /// The option is taken.
    Taken(Action),
    /// Nothing is said: it changes nothing of a static image, or only what `ldi` never makes.
    Ignored,
    /// The option has no effect here, and one line says what that means.
    WarnOnly(&'static str),
    /// Only another linker can do it; the text says what it is.
    FallBack(&'static str),
}

/// What an option that is taken does.
#[derive(Clone, Copy, PartialEq, Eq, Debug)]
#[allow(missing_docs)] // each is that of the rows that have it
pub enum Action {
    Ask(Ask),
    BuildId,
    CollectSections(bool),
    CompressDebugging,
    DefaultScript,
    Defsym,
    DependencyFile,
    Discard(Discard),
    EmitRelocations,
    EndGroup,
    Entry,
    FatalWarnings(bool),
    Fini,
    Folder,
    Format,
    EhFrameHdr(bool),
    Init,
    JustSymbols,
    KeepExported,
    Keyword,
    Tolerate(Leniency),
    Library,
    LibraryKind,
    Machine,
    CrossReferences,
    MapFile,
    MapFormat,
    Nmagic,
    NoBuildId,
    NoFallback,
    NoServer,
    NoStandardFolders,
    Nothing,
    Omagic,
    Orphans,
    Output,
    OutputFormat,
    PopState,
    PrintCollected(bool),
    PrintMap,
    PrintMemoryUsage,
    PushState,
    Relax(bool),
    Required,
    RetainSymbols,
    Script,
    SectionStart,
    /// The address of a section, or of a segment of a default script, by its name without the point.
    SegmentStart(&'static str),
    Server(ServerRequest),
    StartGroup,
    Static(bool),
    Strip(Strip),
    SortCommon,
    SortSection,
    Sysroot,
    Trace,
    Traditional,
    Undefined,
    Unique,
    Verbose,
    WarnsOf(Warning, bool),
    WholeArchive(bool),
    Wrap,
}

/// A row of the table.
#[derive(Clone, Copy, PartialEq, Eq, Debug)]
pub struct OptionRow {
    /// The option's names without dashes, separated by spaces; messages use the first one.
    pub names: &'static str,
    /// Whether it has a value.
    pub argument: Argument,
    /// What becomes of it.
    pub effect: Effect,
}

impl OptionRow {
    /// The option's names without dashes.
    pub fn names(&self) -> impl Iterator<Item = &'static str> {
        self.names.split(' ')
    }

    /// The first name, as it is written.
    pub fn spelling(&self) -> String {
        dashed(self.names().next().unwrap_or_default())
    }

    /// Whether `ld.ldi` alone has the option, of those with which another linker may link.
    pub fn is_own(&self) -> bool {
        matches!(self.effect, Effect::Taken(Action::NoServer | Action::MapFormat))
    }

    fn has_name(&self, name: &[u8]) -> bool {
        self.names().any(|own| own.as_bytes() == name)
    }
}

/// A name with its dashes: one before a letter, and before a name that GNU ld's own help writes so.
pub fn dashed(name: &str) -> String {
    let is_short = name.len() == 1 || ONE_DASH.contains(&name);
    format!("{}{name}", if is_short { "-" } else { "--" })
}

/// The long names that GNU ld's own help writes with one dash.
const ONE_DASH: &[&str] = &[
    "assert",
    "Bdynamic",
    "Bgroup",
    "Bno-symbolic",
    "Bshareable",
    "Bstatic",
    "Bsymbolic",
    "Bsymbolic-functions",
    "call_shared",
    "dT",
    "dc",
    "dn",
    "dp",
    "dy",
    "EB",
    "EL",
    "fini",
    "flto",
    "flto-partition",
    "fuse-ld",
    "init",
    "Map",
    "no-pie",
    "non_shared",
    "nostdlib",
    "pie",
    "plugin",
    "plugin-opt",
    "Qy",
    "qmagic",
    "rpath",
    "rpath-link",
    "shared",
    "soname",
    "static",
    "Tbss",
    "Tdata",
    "Tldata-segment",
    "Trodata-segment",
    "Ttext",
    "Ttext-segment",
    "Ur",
];

use Argument::{Absent, Needed, Optional};
use Effect::{FallBack, Ignored, Taken, WarnOnly};

const fn row(names: &'static str, argument: Argument, effect: Effect) -> OptionRow {
    OptionRow { names, argument, effect }
}

/// Every option, by what becomes of it.
pub static OPTIONS: &[OptionRow] = &[
    // taken
    row("T script", Needed, Taken(Action::Script)),
    row("dT default-script", Needed, Taken(Action::DefaultScript)),
    row("o output", Needed, Taken(Action::Output)),
    row("e entry", Needed, Taken(Action::Entry)),
    row("Map", Needed, Taken(Action::MapFile)),
    row("M print-map", Absent, Taken(Action::PrintMap)),
    row("Map-format", Needed, Taken(Action::MapFormat)),
    row("cref", Absent, Taken(Action::CrossReferences)),
    row("L library-path", Needed, Taken(Action::Folder)),
    row("l library", Needed, Taken(Action::Library)),
    row("m", Needed, Taken(Action::Machine)),
    row("z", Needed, Taken(Action::Keyword)),
    row("u undefined", Needed, Taken(Action::Undefined)),
    row("require-defined", Needed, Taken(Action::Required)),
    row("defsym", Needed, Taken(Action::Defsym)),
    row("gc-sections", Absent, Taken(Action::CollectSections(true))),
    row("no-gc-sections", Absent, Taken(Action::CollectSections(false))),
    row("gc-keep-exported", Absent, Taken(Action::KeepExported)),
    row("init", Needed, Taken(Action::Init)),
    row("fini", Needed, Taken(Action::Fini)),
    row("print-gc-sections", Absent, Taken(Action::PrintCollected(true))),
    row("no-print-gc-sections", Absent, Taken(Action::PrintCollected(false))),
    row("print-memory-usage", Absent, Taken(Action::PrintMemoryUsage)),
    row("orphan-handling", Needed, Taken(Action::Orphans)),
    row("relax", Absent, Taken(Action::Relax(true))),
    row("no-relax", Absent, Taken(Action::Relax(false))),
    row("whole-archive", Absent, Taken(Action::WholeArchive(true))),
    row("no-whole-archive", Absent, Taken(Action::WholeArchive(false))),
    row("start-group (", Absent, Taken(Action::StartGroup)),
    row("end-group )", Absent, Taken(Action::EndGroup)),
    row("push-state", Absent, Taken(Action::PushState)),
    row("pop-state", Absent, Taken(Action::PopState)),
    row("static Bstatic dn non_shared", Absent, Taken(Action::Static(true))),
    row("Bdynamic dy call_shared", Absent, Taken(Action::Static(false))),
    row("a", Needed, Taken(Action::LibraryKind)),
    row("nostdlib", Absent, Taken(Action::NoStandardFolders)),
    row("sysroot", Needed, Taken(Action::Sysroot)),
    row("section-start", Needed, Taken(Action::SectionStart)),
    row("Ttext", Needed, Taken(Action::SegmentStart("text"))),
    row("Tdata", Needed, Taken(Action::SegmentStart("data"))),
    row("Tbss", Needed, Taken(Action::SegmentStart("bss"))),
    row("Ttext-segment", Needed, Taken(Action::SegmentStart("text-segment"))),
    row("Trodata-segment", Needed, Taken(Action::SegmentStart("rodata-segment"))),
    row("Tldata-segment", Needed, Taken(Action::SegmentStart("ldata-segment"))),
    row("b format", Needed, Taken(Action::Format)),
    row("oformat", Needed, Taken(Action::OutputFormat)),
    row("dependency-file", Needed, Taken(Action::DependencyFile)),
    row("compress-debug-sections", Optional, Taken(Action::CompressDebugging)),
    row("build-id", Optional, Taken(Action::BuildId)),
    row("no-build-id", Absent, Taken(Action::NoBuildId)),
    row("no-pie", Absent, Taken(Action::Nothing)),
    row("q emit-relocs", Absent, Taken(Action::EmitRelocations)),
    row("s strip-all", Absent, Taken(Action::Strip(Strip::All))),
    row("S strip-debug", Absent, Taken(Action::Strip(Strip::Debug))),
    row("retain-symbols-file", Needed, Taken(Action::RetainSymbols)),
    row("x discard-all", Absent, Taken(Action::Discard(Discard::All))),
    row("X discard-locals", Absent, Taken(Action::Discard(Discard::Labels))),
    row("discard-none", Absent, Taken(Action::Discard(Discard::None))),
    row("N omagic", Absent, Taken(Action::Omagic)),
    row("n nmagic", Absent, Taken(Action::Nmagic)),
    row("R just-symbols", Needed, Taken(Action::JustSymbols)),
    row("wrap", Needed, Taken(Action::Wrap)),
    row("sort-section", Needed, Taken(Action::SortSection)),
    row("sort-common", Optional, Taken(Action::SortCommon)),
    row("unique", Optional, Taken(Action::Unique)),
    row("v version", Absent, Taken(Action::Ask(Ask::Version))),
    row("V", Absent, Taken(Action::Ask(Ask::VersionAndEmulations))),
    row("help target-help", Absent, Taken(Action::Ask(Ask::Help))),
    row("verbose", Optional, Taken(Action::Verbose)),
    row("t trace", Absent, Taken(Action::Trace)),
    row("traditional-format", Absent, Taken(Action::Traditional)),
    row("print-output-format", Absent, Taken(Action::Ask(Ask::OutputFormat))),
    row("print-sysroot", Absent, Taken(Action::Ask(Ask::Sysroot))),
    row("no-check-sections", Absent, Taken(Action::Tolerate(Leniency::NoCheckSections))),
    row("noinhibit-exec", Absent, Taken(Action::Tolerate(Leniency::NoInhibitExec))),
    row("allow-multiple-definition", Absent, Taken(Action::Tolerate(Leniency::MultipleDefinitions))),
    row("unresolved-symbols", Needed, Taken(Action::Tolerate(Leniency::UndefinedNames))),
    row("ignore-unresolved-symbol", Needed, Taken(Action::Tolerate(Leniency::UndefinedNames))),
    row("warn-unresolved-symbols", Absent, Taken(Action::Tolerate(Leniency::UndefinedNames))),
    row("fatal-warnings", Absent, Taken(Action::FatalWarnings(true))),
    row("no-fatal-warnings", Absent, Taken(Action::FatalWarnings(false))),
    row("no-warnings w", Absent, Taken(Action::WarnsOf(Warning::Anything, false))),
    row("warn-execstack", Absent, Taken(Action::WarnsOf(Warning::Stack, true))),
    row("no-warn-execstack", Absent, Taken(Action::WarnsOf(Warning::Stack, false))),
    row("warn-rwx-segments", Absent, Taken(Action::WarnsOf(Warning::Segments, true))),
    row("no-warn-rwx-segments", Absent, Taken(Action::WarnsOf(Warning::Segments, false))),
    row("no-server", Absent, Taken(Action::NoServer)),
    row("no-fallback", Absent, Taken(Action::NoFallback)),
    row("server-status", Absent, Taken(Action::Server(ServerRequest::Status))),
    row("server-stop", Absent, Taken(Action::Server(ServerRequest::Stop))),
    row("eh-frame-hdr", Absent, Taken(Action::EhFrameHdr(true))),
    row("no-eh-frame-hdr", Absent, Taken(Action::EhFrameHdr(false))),
    // ignored
    row("A architecture", Needed, Ignored),
    row("d dc dp", Absent, Ignored),
    row("E export-dynamic", Absent, Ignored),
    row("no-export-dynamic", Absent, Ignored),
    row("EL", Absent, Ignored),
    row("f auxiliary", Needed, Ignored),
    row("F filter", Needed, Ignored),
    row("g", Absent, Ignored),
    row("G gpsize", Needed, Ignored),
    row("h soname", Needed, Ignored),
    row("I dynamic-linker", Needed, Ignored),
    row("no-dynamic-linker", Absent, Ignored),
    row("O", Needed, Ignored),
    row("out-implib", Needed, Ignored),
    row("plugin", Needed, Ignored),
    row("plugin-opt", Needed, Ignored),
    row("flto", Optional, Ignored),
    row("flto-partition", Needed, Ignored),
    row("fuse-ld", Needed, Ignored),
    row("map-whole-files", Absent, Ignored),
    row("no-map-whole-files", Absent, Ignored),
    row("Qy", Absent, Ignored),
    row("strip-discarded", Absent, Ignored),
    row("no-strip-discarded", Absent, Ignored),
    row("Y", Needed, Ignored),
    row("P depaudit", Needed, Ignored),
    row("audit", Needed, Ignored),
    row("accept-unknown-input-arch", Absent, Ignored),
    row("no-accept-unknown-input-arch", Absent, Ignored),
    row("as-needed", Absent, Ignored),
    row("no-as-needed", Absent, Ignored),
    row("assert", Needed, Ignored),
    row("Bno-symbolic", Absent, Ignored),
    row("Bsymbolic", Absent, Ignored),
    row("Bsymbolic-functions", Absent, Ignored),
    row("Bgroup", Absent, Ignored),
    row("check-sections", Absent, Ignored),
    row("copy-dt-needed-entries add-needed", Absent, Ignored),
    row("no-copy-dt-needed-entries no-add-needed", Absent, Ignored),
    row("demangle", Optional, Ignored),
    row("no-demangle", Absent, Ignored),
    row("disable-multiple-abs-defs", Absent, Ignored),
    row("disable-new-dtags", Absent, Ignored),
    row("enable-new-dtags", Absent, Ignored),
    row("disable-linker-version", Absent, Ignored),
    row("enable-linker-version", Absent, Ignored),
    row("dynamic-list", Needed, Ignored),
    row("dynamic-list-cpp-new", Absent, Ignored),
    row("dynamic-list-cpp-typeinfo", Absent, Ignored),
    row("dynamic-list-data", Absent, Ignored),
    row("error-handling-script", Needed, Ignored),
    row("error-unresolved-symbols", Absent, Ignored),
    row("exclude-libs", Needed, Ignored),
    row("export-dynamic-symbol", Needed, Ignored),
    row("export-dynamic-symbol-list", Needed, Ignored),
    row("force-exe-suffix", Absent, Ignored),
    row("hash-size", Needed, Ignored),
    row("hash-style", Needed, Ignored),
    row("ld-generated-unwind-info", Absent, Ignored),
    row("no-ld-generated-unwind-info", Absent, Ignored),
    row("max-cache-size", Needed, Ignored),
    row("no-keep-memory", Absent, Ignored),
    row("no-omagic", Absent, Ignored),
    row("no-undefined", Absent, Ignored),
    row("allow-shlib-undefined", Absent, Ignored),
    row("no-allow-shlib-undefined", Absent, Ignored),
    row("no-undefined-version", Absent, Ignored),
    row("undefined-version", Absent, Ignored),
    row("default-symver", Absent, Ignored),
    row("default-imported-symver", Absent, Ignored),
    row("no-warn-mismatch", Absent, Ignored),
    row("no-warn-search-mismatch", Absent, Ignored),
    row("print-map-discarded", Absent, Ignored),
    row("no-print-map-discarded", Absent, Ignored),
    row("qmagic", Absent, Ignored),
    row("reduce-memory-overheads", Absent, Ignored),
    row("rpath", Needed, Ignored),
    row("rpath-link", Needed, Ignored),
    row("spare-dynamic-tags", Needed, Ignored),
    row("stats", Absent, Ignored),
    row("version-exports-section", Needed, Ignored),
    row("warn-alternate-em", Absent, Ignored),
    row("warn-common", Absent, Ignored),
    row("warn-constructors", Absent, Ignored),
    row("warn-multiple-gp", Absent, Ignored),
    row("warn-once", Absent, Ignored),
    row("warn-section-align", Absent, Ignored),
    row("warn-textrel", Absent, Ignored),
    row("ctf-variables", Absent, Ignored),
    row("no-ctf-variables", Absent, Ignored),
    row("ctf-share-types", Needed, Ignored),
    row("enable-non-contiguous-regions-warnings", Absent, Ignored),
    // said
    row("y trace-symbol", Needed, WarnOnly("nothing is traced")),
    row("package-metadata", Optional, WarnOnly("the image has no note of a package")),
    row("version-script", Needed, WarnOnly("symbols have no versions, and none is hidden")),
    // of other linkers
    row("r relocatable i", Absent, FallBack("relocatable output")),
    row("Ur", Absent, FallBack("relocatable output")),
    row("shared Bshareable", Absent, FallBack("a shared library")),
    row("pie pic-executable", Absent, FallBack("an executable that is placed when it is loaded")),
    row("c mri-script", Needed, FallBack("a script of another language")),
    row("EB", Absent, FallBack("big-endian objects")),
    row("no-define-common", Absent, FallBack("common blocks that are not placed")),
    row("split-by-file", Optional, FallBack("output sections for single files")),
    row("split-by-reloc", Optional, FallBack("output sections by the number of relocations")),
    row("embedded-relocs", Absent, FallBack("relocations in the output")),
    row("task-link", Needed, FallBack("relocatable output")),
    row("force-group-allocation", Absent, FallBack("groups of sections")),
    row("enable-non-contiguous-regions", Absent, FallBack("sections that go into another region where one is full")),
];

/// A name that begins with `no-warn-`, which GNU ld may have in another release.
static NO_WARNING: OptionRow = row("no-warn-", Absent, Ignored);

/// What becomes of a word of `-z`.
#[derive(Clone, Copy, PartialEq, Eq, Debug)]
pub enum KeywordEffect {
    /// The word is taken: by the layout, or as a page's size.
    Taken,
    /// GNU ld is to let something pass.
    Tolerate(Leniency),
    /// The word changes nothing of a static image, or only what `ldi` never makes.
    Ignored,
    /// The word has no effect here, and one line says what that means.
    WarnOnly(&'static str),
}

const KEYWORDS_TAKEN: &[&str] = &[
    "call-nop",
    "common-page-size",
    "execstack",
    "max-page-size",
    "noexecstack",
    "norelro",
    "noseparate-code",
    "nostart-stop-gc",
    "nounique-symbol",
    "relro",
    "separate-code",
    "stack-size",
    "start-stop-gc",
    "start-stop-visibility",
    "unique-symbol",
];

const KEYWORDS_IGNORED: &[&str] = &[
    "cet-report",
    "combreloc",
    "common",
    "defs",
    "dynamic-undefined-weak",
    "global",
    "globalaudit",
    "ibt",
    "ibtplt",
    "indirect-extern-access",
    "initfirst",
    "interpose",
    "keep-text-section-prefix",
    "lam-report",
    "lam-u48",
    "lam-u48-report",
    "lam-u57",
    "lam-u57-report",
    "lazy",
    "loadfltr",
    "nocombreloc",
    "nocommon",
    "nocopyreloc",
    "nodefaultlib",
    "nodelete",
    "nodlopen",
    "nodump",
    "nodynamic-undefined-weak",
    "noextern-protected-data",
    "noindirect-extern-access",
    "nopack-relative-relocs",
    "notext",
    "nounique",
    "now",
    "origin",
    "pack-relative-relocs",
    "report-relative-reloc",
    "sectionheader",
    "shstk",
    "text",
    "textoff",
    "unique",
    "x86-64-baseline",
    "x86-64-v2",
    "x86-64-v3",
    "x86-64-v4",
];

const KEYWORDS_SAID: &[(&str, &str)] = &[("nosectionheader", "the image has section headers")];

const KEYWORDS_LENIENT: &[(&str, Leniency)] = &[
    ("muldefs", Leniency::MultipleDefinitions),
    ("noreloc-overflow", Leniency::RelocationOverflow),
    ("undefs", Leniency::UndefinedNames),
];

/// What becomes of a word of `-z`, without what stands after `=`; `None` if it is not known.
pub fn find_keyword(name: &[u8]) -> Option<KeywordEffect> {
    let is_here = |words: &[&str]| words.iter().any(|word| word.as_bytes() == name);
    if is_here(KEYWORDS_TAKEN) {
        return Some(KeywordEffect::Taken);
    }
    let said = KEYWORDS_SAID.iter().find(|(word, _)| word.as_bytes() == name);
    let said = said.map(|(_, meaning)| KeywordEffect::WarnOnly(meaning));
    let lenient = KEYWORDS_LENIENT.iter().find(|(word, _)| word.as_bytes() == name);
    let said = said.or_else(|| lenient.map(|(_, leniency)| KeywordEffect::Tolerate(*leniency)));
    said.or_else(|| is_here(KEYWORDS_IGNORED).then_some(KeywordEffect::Ignored))
}

/// What a word with a dash names: the options (several if letters stand together), and the value in the word.
#[derive(Clone, PartialEq, Eq, Debug)]
pub struct FoundOption {
    /// The options.
    pub rows: Vec<&'static OptionRow>,
    /// The value that the word has.
    pub value: Option<BString>,
}

/// Finds the options that a word with a dash names.
///
/// # Errors
/// If the word names no option, or is short for several.
pub fn find_option(word: &BStr) -> Result<FoundOption, WordsRefused> {
    let dashes = if word.starts_with(b"--") { 2 } else { 1 };
    let text = word.get(dashes..).unwrap_or_default();
    if let Some(found) = find_long(text, dashes)? {
        return Ok(found);
    }
    let found = if dashes == 1 { find_letters(text) } else { None };
    found.ok_or_else(|| WordsRefused(format!("unrecognized option '{word}'")))
}

fn find_name(name: &[u8]) -> Option<&'static OptionRow> {
    OPTIONS.iter().find(|row| row.has_name(name))
}

/// The option that a word without its dashes names by a long name; with one dash none that begins with `o`.
fn find_long(text: &[u8], dashes: usize) -> Result<Option<FoundOption>, WordsRefused> {
    let (name, value) = match text.find_byte(b'=') {
        Some(at) => (text.get(..at).unwrap_or_default(), text.get(at + 1..)),
        None => (text, None),
    };
    if name.len() < 2 || dashes == 1 && name.starts_with(b"o") {
        return Ok(None);
    }
    let mut found = find_name(name);
    if found.is_none() && name.starts_with(b"no-warn-") {
        found = Some(&NO_WARNING);
    }
    if found.is_none() && dashes == 2 {
        found = find_shortened(name)?;
    }
    let found = found.filter(|row| value.is_none() || row.argument != Absent);
    Ok(found.map(|row| FoundOption { rows: vec![row], value: value.map(BString::from) }))
}

/// The one option of which this is the front of a name.
fn find_shortened(name: &[u8]) -> Result<Option<&'static OptionRow>, WordsRefused> {
    let mut near = OPTIONS.iter().filter(|row| row.names().any(|own| own.as_bytes().starts_with(name)));
    let first = near.next();
    let others: Vec<_> = near.collect();
    if others.is_empty() {
        return Ok(first);
    }
    let mut spellings: Vec<String> = first.into_iter().chain(others).map(OptionRow::spelling).collect();
    spellings.sort();
    Err(WordsRefused(format!("--{} is short for {}", name.as_bstr(), spellings.join(" and "))))
}

/// The option of a letter with its value joined, or several letters without values.
fn find_letters(letters: &[u8]) -> Option<FoundOption> {
    let first = letters.get(..1)?;
    if let Some(row) = find_name(first).filter(|row| row.argument == Needed) {
        let rest = letters.get(1..).filter(|rest| !rest.is_empty());
        return Some(FoundOption { rows: vec![row], value: rest.map(BString::from) });
    }
    let rows: Option<Vec<_>> =
        letters.chunks(1).map(|letter| find_name(letter).filter(|row| row.argument == Absent)).collect();
    rows.map(|rows| FoundOption { rows, value: None })
}

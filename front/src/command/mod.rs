//! GNU ld's command line: its options as one table, response files; a `Command`.

mod build_id_style;
mod help;
mod options;
mod read;
mod response_files;
mod sorting;
#[cfg(test)]
mod tests;

pub use build_id_style::BuildId;
pub use help::help;
pub use options::{
    find_keyword, find_option, Action, Argument, Effect, FoundOption, KeywordEffect, OptionRow, OPTIONS,
};
pub use read::{at_sysroot, number, path_of, read_command};
pub use response_files::{expand_words, split_words, Words};

use crate::layout::settings::{SectionSort, SortCommon};
use bstr::BString;
use indexmap::IndexMap;
use std::collections::BTreeSet;
use std::path::PathBuf;
use thiserror::Error;

/// Words that are no command line of GNU ld; the text says why.
#[derive(Clone, PartialEq, Eq, Debug, Error)]
#[error("{0}")]
pub struct WordsRefused(pub String);

/// The format of an input, by `-b` or `--format`.
#[derive(Clone, Copy, PartialEq, Eq, Hash, Debug)]
pub enum Format {
    /// ELF, archives and scripts, told by their bytes.
    Default,
    /// `binary`: any bytes are an object's `.data`.
    Binary,
    /// `-R`: an image whose symbols alone are taken.
    JustSymbols,
}

/// What holds for an input by the options before it.
#[derive(Clone, Copy, PartialEq, Eq, Hash, Debug)]
pub struct InputFlags {
    /// `--whole-archive`: all members of an archive are taken.
    pub is_whole_archive: bool,
    /// `-static`: `-l` looks for archives alone.
    pub is_static: bool,
    /// `-b`
    pub format: Format,
}

impl Default for InputFlags {
    fn default() -> InputFlags {
        InputFlags { is_whole_archive: false, is_static: false, format: Format::Default }
    }
}

/// An input of the words, in their order.
#[derive(Clone, PartialEq, Eq, Debug)]
pub enum Input {
    /// A file.
    File(PathBuf, InputFlags),
    /// `-lNAME`; a name that begins with `:` is that of a file.
    Library(BString, InputFlags),
    /// A script of `-T` or `-dT`: what it names in INPUT stands here.
    Script(PathBuf, InputFlags),
    /// `--start-group`
    StartGroup,
    /// `--end-group`
    EndGroup,
}

/// What is printed in place of a link, or before it.
#[derive(Clone, Copy, PartialEq, Eq, Hash, Debug)]
pub enum Ask {
    /// `-v`
    Version,
    /// `-V`: the version and the emulations
    VersionAndEmulations,
    /// `--help`
    Help,
    /// `--print-output-format`
    OutputFormat,
    /// `--print-sysroot`
    Sysroot,
}

/// What becomes of sections that no statement takes (`--orphan-handling`).
#[derive(Clone, Copy, PartialEq, Eq, Hash, Debug)]
pub enum Orphans {
    /// `place`: GNU ld's default
    Place,
    /// `warn`: placed, and said
    Warn,
    /// `error`
    Error,
    /// `discard`
    Discard,
}

/// The form of the image (`--oformat`, or OUTPUT_FORMAT of a script).
#[derive(Clone, Copy, PartialEq, Eq, Hash, Debug)]
pub enum OutputFormat {
    /// `elf64-x86-64`
    Elf,
    /// `binary`: the bytes as they lie in memory
    Binary,
}

/// Which symbols are left out.
#[derive(Clone, Copy, PartialEq, Eq, Hash, Debug)]
pub enum Strip {
    /// None.
    None,
    /// `-S`: those of debug information.
    Debug,
    /// `-s`: all.
    All,
    /// `--retain-symbols-file`: all but those that its file names.
    AllExcept,
}

/// Which local symbols are left out.
#[derive(Clone, Copy, PartialEq, Eq, Hash, Debug)]
pub enum Discard {
    /// Compilers' labels in sections of merged constants.
    MergedLabels,
    /// `--discard-none`: none.
    None,
    /// `-X`: all labels of compilers.
    Labels,
    /// `-x`: all.
    All,
}

/// What is asked of the server behind `ld.ldi`.
#[derive(Clone, Copy, PartialEq, Eq, Hash, Debug)]
pub enum ServerRequest {
    /// `--server-status`
    Status,
    /// `--server-stop`
    Stop,
}

/// What GNU ld is to let pass, going on after a fault.
#[derive(Clone, Copy, PartialEq, Eq, PartialOrd, Ord, Hash, Debug)]
pub enum Leniency {
    /// `--allow-multiple-definition`, `-z muldefs`: the first of several strong definitions of a name counts.
    MultipleDefinitions,
    /// `--unresolved-symbols` and its like, `-z undefs`: an undefined name that is used is 0.
    UndefinedNames,
    /// `--noinhibit-exec`: an image is made all the same.
    NoInhibitExec,
    /// `--no-check-sections`: output sections may share addresses.
    NoCheckSections,
    /// `-z noreloc-overflow`: a value may be longer than its field.
    RelocationOverflow,
}

/// What GNU ld warns of, if no option says that it is not to.
#[derive(Clone, Copy, PartialEq, Eq, PartialOrd, Ord, Hash, Debug)]
pub enum Warning {
    /// `--no-warnings`: anything that is found while it links.
    Anything,
    /// `--no-warn-execstack`: a stack that is executed.
    Stack,
    /// `--no-warn-rwx-segments`: a segment that is written and executed.
    Segments,
}

/// A `--defsym`, which is an assignment of a script.
#[derive(Clone, PartialEq, Eq, Debug)]
pub struct Defsym {
    /// How many scripts of `-T` stand before it: its assignment follows theirs.
    pub scripts_before: usize,
    /// The symbol.
    pub name: BString,
    /// The expression, as it is written.
    pub value: BString,
}

/// The command that the words of a command line give.
#[derive(Clone, PartialEq, Eq, Debug)]
pub struct Command {
    /// The image's file: that of the last `-o`; `a.out` if there is none.
    pub output: PathBuf,
    /// Whether `-o` names it: it goes before OUTPUT of a script.
    pub has_output: bool,
    /// The scripts of `-T`, in their order; they are among the inputs too.
    pub scripts: Vec<PathBuf>,
    /// The script of `-dT`, which is read after all words, and not if there is a `-T`.
    pub default_script: Option<PathBuf>,
    /// `-e`: a symbol or a number
    pub entry: Option<BString>,
    /// `-Map`, as it is written: a file, a folder, a name with `%`, or `-`
    pub map_file: Option<PathBuf>,
    /// `-M`
    pub prints_map: bool,
    /// `--Map-format=ldi`: the map is that of `ldi`, and not in GNU ld's form
    pub has_own_map: bool,
    /// `--cref`
    pub has_cross_references: bool,
    /// `--gc-sections`
    pub collects_sections: bool,
    /// `--gc-keep-exported`
    pub keeps_exported: bool,
    /// `--relax`: references by a global offset table become others if none is needed
    pub relaxes: bool,
    /// `-z start-stop-gc`
    pub collects_start_stop: bool,
    /// `-init`: a symbol whose section `--gc-sections` keeps
    pub init: BString,
    /// `-fini`: another one
    pub fini: BString,
    /// `--print-gc-sections`
    pub prints_collected: bool,
    /// `--print-memory-usage`
    pub prints_memory_usage: bool,
    /// `--orphan-handling`; there is no difference here between none, `place` and `warn`.
    pub orphans: Option<Orphans>,
    /// `--defsym`, in their order
    pub defsyms: Vec<Defsym>,
    /// `-u`
    pub undefined: Vec<BString>,
    /// `--require-defined`
    pub required: Vec<BString>,
    /// `-L`, with `=` and `$SYSROOT` at the front replaced
    pub folders: Vec<PathBuf>,
    /// How many of these stand before the first `-T`, if there is one: SEARCH_DIR of a script goes after them.
    pub folders_before_script: Option<usize>,
    /// The flags after all words: those of a file that only a script names.
    pub last_flags: InputFlags,
    /// `--sysroot`
    pub sysroot: PathBuf,
    /// `-nostdlib`
    pub is_without_standard_folders: bool,
    /// `--eh-frame-hdr`
    pub has_eh_frame_hdr: bool,
    /// `-N`: the default script does not begin its data on a page of their own.
    pub is_omagic: bool,
    /// Whether stabs and entries of `.eh_frame` stay as they are: `--traditional-format`.
    pub is_traditional: bool,
    /// `-n`
    pub is_nmagic: bool,
    /// `--sort-section`
    pub sort_section: Option<SectionSort>,
    /// `--sort-common`
    pub sort_common: Option<SortCommon>,
    /// `--unique`: patterns of names; `None` without it, no pattern for all orphans.
    pub unique: Option<Vec<BString>>,
    /// `--wrap`
    pub wraps: Vec<BString>,
    /// `--section-start`: the address of each section
    pub section_starts: IndexMap<BString, u64>,
    /// `-Ttext-segment` and its like, `-Ttext`, `-Tdata`, `-Tbss`: what SEGMENT_START of a script gives for
    /// `text-segment`, `rodata-segment`, `ldata-segment`, `text`, `data` or `bss`; if no SEGMENT_START of the last
    /// three is there, the address of the section `.text`, `.data` or `.bss`
    pub segment_starts: IndexMap<BString, u64>,
    /// How many scripts of `-T` stand before the last of these options.
    pub scripts_before_starts: usize,
    /// `-z max-page-size`, a power of two
    pub page_size: Option<u64>,
    /// `-z common-page-size`, a power of two
    pub common_page_size: Option<u64>,
    /// The words of `-z`, in their order
    pub keywords: Vec<BString>,
    /// `--oformat`
    pub output_format: Option<OutputFormat>,
    /// `-s`, `-S` or `--retain-symbols-file`, the last one
    pub strip: Strip,
    /// The file of `--retain-symbols-file`
    pub retained: Option<PathBuf>,
    /// `-x`, `-X` or `--discard-none`, the last one
    pub discard: Discard,
    /// `-z unique-symbol`
    pub has_unique_names: bool,
    /// `--emit-relocs`
    pub emits_relocations: bool,
    /// `--dependency-file`
    pub dependency_file: Option<PathBuf>,
    /// `--build-id`, if it is not `none`
    pub build_id: Option<BuildId>,
    /// `--verbose`
    pub is_verbose: bool,
    /// `-t`
    pub traces: bool,
    /// What is to be printed.
    pub asks: Vec<Ask>,
    /// `--no-fallback`: no other linker links what `ldi` cannot.
    pub is_without_fallback: bool,
    /// `--no-server`
    pub is_without_server: bool,
    /// `--server-status` or `--server-stop`
    pub server_request: Option<ServerRequest>,
    /// What GNU ld is to let pass.
    pub lenient: BTreeSet<Leniency>,
    /// `--fatal-warnings`: a warning of GNU ld is a fault.
    pub has_fatal_warnings: bool,
    /// What GNU ld is not to warn of.
    pub unwarned: BTreeSet<Warning>,
    /// The inputs, in their order.
    pub inputs: Vec<Input>,
    /// Options without effect here, and what that means; each once.
    pub notes: Vec<String>,
    /// What only another linker can do; each once.
    pub impossible: Vec<String>,
}

impl Default for Command {
    fn default() -> Command {
        Command {
            output: PathBuf::from("a.out"),
            has_output: false,
            scripts: Vec::new(),
            default_script: None,
            entry: None,
            map_file: None,
            prints_map: false,
            has_own_map: false,
            has_cross_references: false,
            collects_sections: false,
            keeps_exported: false,
            relaxes: true,
            collects_start_stop: false,
            init: BString::from("_init"),
            fini: BString::from("_fini"),
            prints_collected: false,
            prints_memory_usage: false,
            orphans: None,
            defsyms: Vec::new(),
            undefined: Vec::new(),
            required: Vec::new(),
            folders: Vec::new(),
            folders_before_script: None,
            last_flags: InputFlags::default(),
            sysroot: PathBuf::new(),
            is_without_standard_folders: false,
            has_eh_frame_hdr: false,
            is_omagic: false,
            is_traditional: false,
            is_nmagic: false,
            sort_section: None,
            sort_common: None,
            unique: None,
            wraps: Vec::new(),
            section_starts: IndexMap::new(),
            segment_starts: IndexMap::new(),
            scripts_before_starts: 0,
            page_size: None,
            common_page_size: None,
            keywords: Vec::new(),
            output_format: None,
            strip: Strip::None,
            retained: None,
            discard: Discard::MergedLabels,
            has_unique_names: false,
            emits_relocations: false,
            dependency_file: None,
            build_id: None,
            is_verbose: false,
            traces: false,
            asks: Vec::new(),
            is_without_fallback: false,
            is_without_server: false,
            server_request: None,
            lenient: BTreeSet::new(),
            has_fatal_warnings: false,
            unwarned: BTreeSet::new(),
            inputs: Vec::new(),
            notes: Vec::new(),
            impossible: Vec::new(),
        }
    }
}

impl Command {
    /// Whether the words name a file or a library.
    pub fn has_inputs(&self) -> bool {
        self.inputs.iter().any(|input| matches!(input, Input::File(..) | Input::Library(..)))
    }

    /// Whether the words name a script.
    pub fn has_script(&self) -> bool {
        !self.scripts.is_empty() || self.default_script.is_some()
    }

    /// Adds a note, unless it is there already.
    pub fn note(&mut self, text: impl Into<String>) {
        let text = text.into();
        if !self.notes.contains(&text) {
            self.notes.push(text);
        }
    }
}

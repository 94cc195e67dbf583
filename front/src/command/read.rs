//! The words of a command line, read into a `Command`.

use super::options::{dashed, find_keyword, find_option, Action, Argument, Effect, KeywordEffect, OptionRow};
use super::sorting;
use super::{BuildId, Command, Defsym, Format, Input, InputFlags, Orphans, OutputFormat, Strip, WordsRefused};
use bstr::{BStr, BString, ByteSlice};
use std::ffi::OsStr;
use std::os::unix::ffi::OsStrExt;
use std::path::{Path, PathBuf};

/// The greatest page of `-z max-page-size=`.
const MAX_PAGE: u64 = 1 << 30;

/// The command of some words, in which the words of each `@FILE` stand in its place already.
///
/// # Errors
/// If the words are no command line of GNU ld.
pub fn read_command(words: &[BString]) -> Result<Command, WordsRefused> {
    let mut reader = Reader::default();
    let mut words = words.iter();
    while let Some(word) = words.next() {
        reader.word(word.as_bstr(), &mut words)?;
    }
    reader.finish()
}

/// A path of its bytes.
pub fn path_of(bytes: &[u8]) -> PathBuf {
    Path::new(OsStr::from_bytes(bytes)).to_owned()
}

/// A path with `=` or `$SYSROOT` at its front replaced by the folder of `--sysroot`.
pub fn at_sysroot(path: &[u8], sysroot: &Path) -> PathBuf {
    match path.strip_prefix(b"=").or_else(|| path.strip_prefix(b"$SYSROOT")) {
        Some(rest) => path_of(&[sysroot.as_os_str().as_bytes(), rest].concat()),
        None => path_of(path),
    }
}

/// Goes through the words, and keeps the flags that later inputs have.
#[derive(Default)]
struct Reader {
    command: Command,
    folders: Vec<BString>,
    flags: InputFlags,
    pushed: Vec<InputFlags>,
    is_in_group: bool,
    /// The style of the last `--build-id`.
    build_id: Option<BString>,
}

impl Reader {
    fn word<'a>(&mut self, word: &BStr, rest: &mut impl Iterator<Item = &'a BString>) -> Result<(), WordsRefused> {
        if !word.starts_with(b"-") || word == "-" {
            self.command.inputs.push(Input::File(path_of(word), self.flags));
            return Ok(());
        }
        let found = find_option(word)?;
        let needs_value = found.rows.first().map_or(false, |row| row.argument == Argument::Needed);
        let value = match found.value {
            Some(value) => Some(value),
            None if needs_value => {
                let next = rest.next().cloned();
                Some(next.ok_or_else(|| WordsRefused(format!("option '{word}' has no value")))?)
            }
            None => None,
        };
        let value = value.as_ref().map(|value| value.as_bstr());
        found.rows.iter().try_for_each(|row| self.apply(row, &written(row, word), value))
    }

    fn finish(mut self) -> Result<Command, WordsRefused> {
        if self.is_in_group {
            return Err(WordsRefused("--start-group without --end-group".to_owned()));
        }
        if let Some(style) = self.build_id.take() {
            self.command.build_id = BuildId::of_style(&style);
            if self.command.build_id.is_none() {
                self.command.note("warning: unrecognized --build-id style ignored");
            }
        }
        if self.command.emits_relocations && self.command.strip == Strip::All {
            self.impossible("-s: no symbols for the relocations of --emit-relocs".to_owned());
        }
        let mut command = self.command;
        command.last_flags = self.flags;
        if command.scripts.is_empty() {
            command.inputs.extend(command.default_script.clone().map(|path| Input::Script(path, self.flags)));
        }
        command.folders = self.folders.iter().map(|folder| at_sysroot(folder, &command.sysroot)).collect();
        Ok(command)
    }

    /// Does what an option says; `written` is its name in the words.
    fn apply(&mut self, row: &OptionRow, written: &str, value: Option<&BStr>) -> Result<(), WordsRefused> {
        match row.effect {
            Effect::Taken(action) => return self.apply_option(action, value.unwrap_or_else(|| b"".as_bstr())),
            Effect::Ignored => {}
            Effect::WarnOnly(meaning) => self.command.note(format!("{written}: {meaning}")),
            Effect::FallBack(reason) => self.impossible(format!("{written}: {reason}")),
        }
        Ok(())
    }

    fn impossible(&mut self, reason: String) {
        if !self.command.impossible.contains(&reason) {
            self.command.impossible.push(reason);
        }
    }

    /// Does what an option says that is taken. Each has its arm here, so that none is ignored by mistake.
    fn apply_option(&mut self, action: Action, value: &BStr) -> Result<(), WordsRefused> {
        let command = &mut self.command;
        match action {
            Action::Ask(ask) => command.asks.push(ask),
            Action::BuildId => self.build_id = Some(value.to_owned()).filter(|style| style != "none"),
            Action::CompressDebugging if value == "none" => {}
            Action::CompressDebugging => {
                command.note("--compress-debug-sections: debug information is not compressed");
            }
            Action::CollectSections(does) => command.collects_sections = does,
            Action::DefaultScript => command.default_script = Some(path_of(value)),
            Action::Discard(discard) => command.discard = discard,
            Action::EmitRelocations => command.emits_relocations = true,
            Action::Strip(strip) => command.strip = strip,
            Action::DependencyFile => command.dependency_file = Some(path_of(value)),
            Action::Entry => command.entry = Some(value.to_owned()),
            Action::FatalWarnings(are) => command.has_fatal_warnings = are,
            Action::Fini => command.fini = value.to_owned(),
            Action::Folder => self.folders.push(value.to_owned()),
            Action::Init => command.init = value.to_owned(),
            Action::EhFrameHdr(has) => command.has_eh_frame_hdr = has,
            Action::KeepExported => command.keeps_exported = true,
            Action::Relax(does) => command.relaxes = does,
            Action::CrossReferences => command.has_cross_references = true,
            Action::MapFormat => {
                command.has_own_map = match value.as_bytes() {
                    b"ldi" => true,
                    b"gnu" => false,
                    _ => return Err(WordsRefused(format!("--Map-format {value}: neither gnu nor ldi"))),
                };
            }
            Action::MapFile => command.map_file = Some(path_of(value)),
            Action::Tolerate(leniency) => {
                command.lenient.insert(leniency);
            }
            Action::NoBuildId => self.build_id = None,
            Action::NoFallback => command.is_without_fallback = true,
            Action::NoServer => command.is_without_server = true,
            Action::NoStandardFolders => command.is_without_standard_folders = true,
            Action::Nothing => {}
            Action::PrintCollected(does) => command.prints_collected = does,
            Action::PrintMap => command.prints_map = true,
            Action::PrintMemoryUsage => command.prints_memory_usage = true,
            Action::Required => command.required.push(value.to_owned()),
            Action::Server(request) => command.server_request = Some(request),
            Action::Sysroot => command.sysroot = path_of(value),
            Action::Trace => command.traces = true,
            Action::Undefined => command.undefined.push(value.to_owned()),
            Action::Unique => sorting::add_unique(command, value),
            Action::Wrap => command.wraps.push(value.to_owned()),
            Action::Verbose => command.is_verbose = true,
            Action::WarnsOf(warning, true) => {
                command.unwarned.remove(&warning);
            }
            Action::WarnsOf(warning, false) => {
                command.unwarned.insert(warning);
            }
            // these name an input, or hold for those after them
            Action::Library => self.command.inputs.push(Input::Library(value.to_owned(), self.flags)),
            Action::Script => self.script(path_of(value)),
            Action::JustSymbols => {
                let flags = InputFlags { format: Format::JustSymbols, ..self.flags };
                self.command.inputs.push(Input::File(path_of(value), flags));
            }
            Action::Format => self.format(value),
            Action::Static(is_static) => self.flags.is_static = is_static,
            Action::LibraryKind => match value.as_bytes() {
                kind @ (b"archive" | b"shared" | b"default") => self.flags.is_static = kind == b"archive",
                _ => return refused(format!("unrecognized -a option `{value}'")),
            },
            Action::WholeArchive(is_whole) => self.flags.is_whole_archive = is_whole,
            Action::StartGroup if self.is_in_group => return refused("groups within groups"),
            Action::EndGroup if !self.is_in_group => return refused("--end-group without --start-group"),
            Action::StartGroup | Action::EndGroup => {
                self.is_in_group = action == Action::StartGroup;
                self.command.inputs.push(if self.is_in_group { Input::StartGroup } else { Input::EndGroup });
            }
            Action::PushState => self.pushed.push(self.flags),
            Action::PopState => match self.pushed.pop() {
                Some(flags) => self.flags = flags,
                None => return refused("--pop-state without --push-state"),
            },
            // of these the value is looked at
            Action::Defsym => return self.defsym(value),
            Action::RetainSymbols => {
                self.command.strip = Strip::AllExcept;
                self.command.retained = Some(path_of(value));
            }
            Action::Keyword => return self.keyword(value),
            Action::Machine if value != "elf_x86_64" => self.impossible(format!("-m {value}: unsupported machine")),
            Action::Machine => {}
            Action::Nmagic => self.command.is_nmagic = true,
            Action::SortSection => self.command.sort_section = Some(sorting::sort_section(value)?),
            Action::SortCommon => self.command.sort_common = Some(sorting::sort_common(value)?),
            Action::Omagic => self.command.is_omagic = true,
            Action::Traditional => self.command.is_traditional = true,
            Action::Orphans => return self.orphans(value),
            Action::Output => {
                self.command.output = path_of(value);
                self.command.has_output = true;
            }
            Action::OutputFormat => self.output_format(value),
            Action::SectionStart => return self.section_start(value),
            Action::SegmentStart(name) => {
                let start = address(value, &format!("-T{name}"))?;
                self.command.segment_starts.insert(BString::from(name), start);
                self.command.scripts_before_starts = self.command.scripts.len();
            }
        }
        Ok(())
    }

    fn script(&mut self, path: PathBuf) {
        self.command.folders_before_script.get_or_insert(self.folders.len());
        self.command.scripts.push(path.clone());
        self.command.inputs.push(Input::Script(path, self.flags));
    }

    fn format(&mut self, name: &BStr) {
        match name.as_bytes() {
            b"binary" => self.flags.format = Format::Binary,
            b"default" | b"elf64-x86-64" => self.flags.format = Format::Default,
            _ => self.impossible(format!("--format {name}: unsupported format")),
        }
    }

    fn output_format(&mut self, name: &BStr) {
        match name.as_bytes() {
            b"binary" => self.command.output_format = Some(OutputFormat::Binary),
            b"elf64-x86-64" => self.command.output_format = Some(OutputFormat::Elf),
            _ => self.impossible(format!("--oformat {name}: unsupported format")),
        }
    }

    fn defsym(&mut self, text: &BStr) -> Result<(), WordsRefused> {
        let (name, value) = match text.find_byte(b'=') {
            Some(at) => (text.get(..at).unwrap_or_default(), text.get(at + 1..).unwrap_or_default()),
            None => return refused(format!("--defsym {text}: no NAME=EXPRESSION")),
        };
        let (name, value) = (trimmed(name), trimmed(value));
        self.command.defsyms.push(Defsym { scripts_before: self.command.scripts.len(), name, value });
        Ok(())
    }

    fn section_start(&mut self, text: &BStr) -> Result<(), WordsRefused> {
        match text.find_byte(b'=') {
            Some(at) => {
                let start = address(text.get(at + 1..).unwrap_or_default().as_bstr(), "--section-start")?;
                self.command.section_starts.insert(BString::from(text.get(..at).unwrap_or_default()), start);
                self.command.scripts_before_starts = self.command.scripts.len();
                Ok(())
            }
            None => refused(format!("--section-start: '{text}' is not SECTION=ADDRESS")),
        }
    }

    fn orphans(&mut self, value: &BStr) -> Result<(), WordsRefused> {
        let orphans = match value.as_bytes() {
            b"place" => Orphans::Place,
            b"warn" => Orphans::Warn,
            b"error" => Orphans::Error,
            b"discard" => Orphans::Discard,
            _ => {
                return refused(format!("--orphan-handling: '{value}' is none of place, warn, error, discard"));
            }
        };
        self.command.orphans = Some(orphans);
        Ok(())
    }

    /// A word of `-z`.
    fn keyword(&mut self, text: &BStr) -> Result<(), WordsRefused> {
        self.command.keywords.push(text.to_owned());
        let (name, value) = match text.find_byte(b'=') {
            Some(at) => (text.get(..at).unwrap_or_default(), text.get(at + 1..).unwrap_or_default()),
            None => (text.as_bytes(), &b""[..]),
        };
        match find_keyword(name) {
            Some(KeywordEffect::Taken) => return self.keyword_taken(text, name, value),
            Some(KeywordEffect::Tolerate(leniency)) => {
                self.command.lenient.insert(leniency);
            }
            Some(KeywordEffect::Ignored) => {}
            Some(KeywordEffect::WarnOnly(meaning)) => self.command.note(format!("-z {}: {meaning}", name.as_bstr())),
            None if self.command.has_fatal_warnings => {
                self.impossible(format!("-z {text}: not known, which --fatal-warnings makes a fault"));
            }
            None => self.command.note(format!("-z {text}: not known, without effect")),
        }
        Ok(())
    }

    fn keyword_taken(&mut self, text: &BStr, name: &[u8], value: &[u8]) -> Result<(), WordsRefused> {
        match name {
            b"start-stop-gc" | b"nostart-stop-gc" => self.command.collects_start_stop = name == b"start-stop-gc",
            b"unique-symbol" | b"nounique-symbol" => self.command.has_unique_names = name == b"unique-symbol",
            b"max-page-size" => self.command.page_size = Some(page(text, value)?),
            b"common-page-size" => self.command.common_page_size = Some(page(text, value)?),
            _ => {}
        }
        Ok(())
    }
}

/// An option by the name that a word has for it.
fn written(row: &OptionRow, word: &BStr) -> String {
    let text = word.split(|byte| *byte == b'=').next().unwrap_or_default();
    let name = text.trim_start_with(|c| c == '-');
    let own = row.names().find(|own| own.as_bytes() == name);
    own.map_or_else(|| row.spelling(), dashed)
}

/// The bytes without white space at both ends.
fn trimmed(bytes: &[u8]) -> BString {
    let is_inside = |byte: &u8| !byte.is_ascii_whitespace();
    let start = bytes.iter().position(is_inside).unwrap_or(bytes.len());
    let end = bytes.iter().rposition(is_inside).map_or(start, |last| last + 1);
    BString::from(bytes.get(start..end).unwrap_or_default())
}

fn refused<T>(text: impl Into<String>) -> Result<T, WordsRefused> {
    Err(WordsRefused(text.into()))
}

/// The bytes of a page: a power of two up to 1 GiB.
fn page(text: &BStr, value: &[u8]) -> Result<u64, WordsRefused> {
    let no_number = || WordsRefused(format!("-z {text}: '{}' is no number", value.as_bstr()));
    let size = number(value).ok_or_else(no_number)?;
    if size > MAX_PAGE || !size.is_power_of_two() {
        return refused(format!("-z {text}: no power of two up to {MAX_PAGE:#x}"));
    }
    Ok(size)
}

/// A number of C: decimal, hexadecimal after `0x`, octal after `0`.
pub fn number(text: &[u8]) -> Option<u64> {
    let text = text.to_str().ok()?;
    let (digits, base) = match text.strip_prefix("0x").or_else(|| text.strip_prefix("0X")) {
        Some(digits) => (digits, 16),
        None if text.len() > 1 && text.starts_with('0') => (text, 8),
        None => (text, 10),
    };
    digits.bytes().all(|byte| byte.is_ascii_alphanumeric()).then(|| u64::from_str_radix(digits, base).ok()).flatten()
}

/// An address: hexadecimal, also without `0x`.
fn address(text: &BStr, option: &str) -> Result<u64, WordsRefused> {
    let digits = text.strip_prefix(b"0x").or_else(|| text.strip_prefix(b"0X")).unwrap_or(text);
    let digits = digits.to_str().ok().filter(|digits| digits.bytes().all(|byte| byte.is_ascii_hexdigit()));
    let value = digits.and_then(|digits| u64::from_str_radix(digits, 16).ok());
    value.ok_or_else(|| WordsRefused(format!("{option}: '{text}' is no address")))
}

//! Loads the inputs in their order.

use super::archive::{normalized, shown, Archive, BadArchive, MemberIndex};
use super::comdat::OnceLinked;
use super::name_states::{NameState, NameStates};
use super::script_inputs::{ScriptInput, ScriptInputs};
use super::undefined::UndefinedNames;
use super::{BadInput, InputFault, Loaded, MissingInput, Request};
use crate::command::{at_sysroot, path_of, Command, Format, Input, InputFlags};
use crate::objects::{binary_object, session_name, Binding, Home, Object, OnceKey, Origin, SectionIndex, SymbolKind};
use crate::objects::{just_symbols, with_wraps};
use crate::script::tree::InputFile;
use crate::script::Reader;
use crate::snapshot::{Bytes, Snapshot};
use bstr::{BStr, BString, ByteSlice};
use indexmap::IndexMap;
use std::collections::{HashMap, HashSet};
use std::os::unix::ffi::OsStrExt;
use std::path::{Path, PathBuf};
use std::sync::Arc;

/// Where libraries are looked for in a link without a script of its own, after the folders of `-L`.
const STANDARD_FOLDERS: &[&str] = &[
    "/usr/local/lib/x86_64-linux-gnu",
    "/lib/x86_64-linux-gnu",
    "/usr/lib/x86_64-linux-gnu",
    "/usr/local/lib64",
    "/lib64",
    "/usr/lib64",
    "/usr/local/lib",
    "/lib",
    "/usr/lib",
];
/// The section of a file of `-b binary`, which `--gc-sections` keeps.
const BINARY_SECTION: SectionIndex = SectionIndex(1);
/// How deep archives within archives, and scripts that name scripts, are followed.
const MAX_DEPTH: usize = 50;

/// The place of an archive among those of the link.
#[derive(Clone, Copy)]
struct ArchiveIndex(usize);

/// An archive, and what was taken of it.
struct ArchiveUse {
    archive: Arc<Archive>,
    /// Names with the members that define them, in the order of the symbol table.
    symbols: Arc<[(BString, u64)]>,
    is_scanned: bool,
    taken: HashSet<u64>,
}

/// A group of archives.
struct Group {
    archives: Vec<ArchiveIndex>,
    /// How many objects there are before it.
    begin: usize,
}

/// Objects that were made before, by where their bytes are in memory.
#[derive(Clone, Debug, Default)]
pub(super) struct KnownObjects(HashMap<(usize, usize), (Bytes, Object)>);

impl KnownObjects {
    fn key(data: &Bytes) -> (usize, usize) {
        (data.as_ptr() as usize, data.len())
    }

    fn get(&self, data: &Bytes) -> Option<&Object> {
        self.0.get(&KnownObjects::key(data)).filter(|(own, _)| own.is_identical(data)).map(|(_, object)| object)
    }

    pub(super) fn put(&mut self, data: Bytes, object: Object) {
        self.0.insert(KnownObjects::key(&data), (data, object));
    }

    /// Enters an object in the place of another of its name, which is let go.
    pub(super) fn replace(&mut self, data: Bytes, object: Object) {
        self.0.retain(|_, (_, old)| old.name() != object.name());
        self.put(data, object);
    }
}

/// Takes the inputs in their order.
pub(super) struct Loader<'a> {
    command: &'a Command,
    request: Request<'a>,
    snapshot: &'a mut Snapshot,
    before: Option<&'a Loaded>,
    known: KnownObjects,
    objects: Vec<Object>,
    files: Vec<PathBuf>,
    plain: HashMap<PathBuf, Vec<usize>>,
    renamed: IndexMap<BString, BString>,
    names: NameStates,
    /// What is known of names before the first object.
    first_names: NameStates,
    has_commons: bool,
    once: OnceLinked,
    /// GNU ld's list of undefined names; kept only if an object has common blocks.
    undefined: Option<UndefinedNames>,
    entered: usize,
    used: HashSet<BString>,
    archives: IndexMap<PathBuf, ArchiveUse>,
    /// The words of files that are taken already, as a script names them before the command line does.
    done: HashSet<BString>,
    folders: Vec<PathBuf>,
    depth: usize,
}

impl<'a> Loader<'a> {
    pub(super) fn new(
        request: &'a Request<'a>,
        snapshot: &'a mut Snapshot,
        before: Option<&'a Loaded>,
    ) -> Result<Loader<'a>, InputFault> {
        let command = request.command;
        let mut names = NameStates::default();
        let scripts = || request.scripts.iter();
        let wanted = request.wanted.iter().chain(&command.undefined).chain(&command.required);
        wanted.chain(scripts().flat_map(|script| &script.undefined)).for_each(|name| names.want(name));
        command.defsyms.iter().for_each(|defsym| names.define(&defsym.name));
        if let Some(target) = scripts().find_map(|script| script.target.as_ref()) {
            return Err(InputFault::OfOtherLinkers(format!("TARGET({target}): unsupported format")));
        }
        let other = scripts().find_map(ScriptInputs::other_format).filter(|_| command.output_format.is_none());
        if let Some(format) = other {
            return Err(InputFault::OfOtherLinkers(format!("OUTPUT_FORMAT({format}): unsupported format")));
        }
        Ok(Loader {
            command,
            request: *request,
            snapshot,
            before,
            known: KnownObjects::default(),
            objects: Vec::new(),
            files: Vec::new(),
            plain: HashMap::new(),
            renamed: IndexMap::new(),
            first_names: names.clone(),
            has_commons: false,
            once: OnceLinked::default(),
            undefined: None,
            names,
            entered: 0,
            used: HashSet::new(),
            archives: IndexMap::new(),
            done: HashSet::new(),
            folders: folders(request),
            depth: 0,
        })
    }

    /// Takes all inputs.
    pub(super) fn load(mut self) -> Result<Loaded, InputFault> {
        let (command, request) = (self.command, self.request);
        for name in request.scripts.iter().filter_map(|script| script.startup.as_ref()) {
            let path = self.searched(name, None);
            self.file(&path, InputFlags::default())?;
        }
        let mut scripts = request.scripts.iter();
        let mut group: Option<Group> = None;
        for input in &command.inputs {
            match input {
                Input::StartGroup => group = Some(self.group()),
                Input::EndGroup => self.search_group(group.take())?,
                Input::Script(_, flags) => {
                    if let Some(script) = scripts.next() {
                        let archives = self.script(script, *flags, None)?;
                        group.iter_mut().for_each(|group| group.archives.extend(&archives));
                    }
                }
                Input::File(path, flags) => {
                    if group.is_some() || !self.done.contains(shown(path)) {
                        let archives = self.file(path, *flags)?;
                        group.iter_mut().for_each(|group| group.archives.extend(&archives));
                    }
                }
                Input::Library(name, flags) => {
                    let archives = self.library(name, *flags)?;
                    group.iter_mut().for_each(|group| group.archives.extend(&archives));
                }
            }
        }
        self.enter();
        if let Some(key) = self.once.mixed() {
            let text = match key {
                OnceKey::Group(name) | OnceKey::Section(name) => name,
            };
            return Err(InputFault::OfOtherLinkers(format!("{text}: beside a group of sections of the same name")));
        }
        Ok(self.loaded())
    }

    fn loaded(self) -> Loaded {
        let archives = self.archives.into_values();
        let (scanned, archives): (Vec<_>, Vec<_>) = archives
            .map(|one| (one.is_scanned.then(|| Arc::clone(&one.symbols)), (one.archive.path().to_owned(), one.archive)))
            .unzip();
        Loaded {
            objects: self.objects,
            files: self.files,
            renamed: self.renamed,
            names: self.names,
            plain: self.plain,
            known: self.known,
            archives: archives.into_iter().collect(),
            choosing: scanned.into_iter().flatten().collect(),
            once: self.once,
            wraps: self.command.wraps.clone(),
        }
    }

    /// A group that begins with the next object.
    fn group(&self) -> Group {
        Group { archives: Vec::new(), begin: self.objects.len() }
    }

    /// Goes through the archives of a group again, as long as that adds undefined names.
    fn search_group(&mut self, group: Option<Group>) -> Result<(), InputFault> {
        let mut group = group.unwrap_or_else(|| self.group());
        while self.adds_undefined(group.begin) {
            group.begin = self.objects.len();
            group.archives.iter().try_for_each(|archive| self.scan(*archive))?;
        }
        Ok(())
    }

    /// Whether the objects from a place on add a name to GNU ld's list of undefined ones. Without common blocks a
    /// second time takes nothing that is not needed; then any object counts.
    fn adds_undefined(&mut self, begin: usize) -> bool {
        if begin >= self.objects.len() || !self.has_commons {
            return begin < self.objects.len();
        }
        let first_names = &self.first_names;
        let undefined = self.undefined.get_or_insert_with(|| UndefinedNames::new(first_names));
        undefined.add_objects(&self.objects, begin)
    }

    /// Takes the inputs that a script names; `beside` is the folder of one that stands in the place of an object.
    fn script(
        &mut self,
        script: &ScriptInputs,
        flags: InputFlags,
        beside: Option<&Path>,
    ) -> Result<Vec<ArchiveIndex>, InputFault> {
        let mut archives = Vec::new();
        for input in &script.inputs {
            match input {
                ScriptInput::OfStatement(name) => self.file_of_statement(name)?,
                ScriptInput::Files(files) => archives.extend(self.script_files(files, flags, beside)?),
                ScriptInput::Group(files) => {
                    let mut group = self.group();
                    group.archives = self.script_files(files, flags, beside)?;
                    self.search_group(Some(group))?;
                }
            }
        }
        Ok(archives)
    }

    fn script_files(
        &mut self,
        files: &[InputFile],
        flags: InputFlags,
        beside: Option<&Path>,
    ) -> Result<Vec<ArchiveIndex>, InputFault> {
        let mut archives = Vec::new();
        for file in files {
            archives.extend(if file.is_library {
                self.library(&file.name, flags)?
            } else {
                let path = self.searched(&file.name, beside);
                self.file(&path, flags)?
            });
        }
        Ok(archives)
    }

    /// Takes a file that a statement of an output section names: one of the command line goes before its turn.
    fn file_of_statement(&mut self, name: &BString) -> Result<(), InputFault> {
        if !self.done.insert(name.clone()) {
            return Ok(());
        }
        let given = self.command.inputs.iter().find_map(|input| match input {
            Input::File(path, flags) if shown(path) == name => Some(*flags),
            _ => None,
        });
        if let Some(flags) = given {
            self.file(&path_of(name), flags)?;
            return Ok(());
        }
        let path = self.searched(name, None);
        if shown(&path) != name {
            self.renamed.insert(name.clone(), shown(&path).to_owned());
        }
        let is_whole_archive = self.command.last_flags.is_whole_archive;
        self.file(&path, InputFlags { is_whole_archive, ..InputFlags::default() })?;
        Ok(())
    }

    /// The path of a file that a script names: beside it, as it stands, or in the folders of libraries.
    fn searched(&mut self, name: &[u8], beside: Option<&Path>) -> PathBuf {
        let name = at_sysroot(name, &self.command.sysroot);
        let beside = beside.map(|folder| folder.join(&name));
        let in_folders: Vec<PathBuf> = self.folders.iter().map(|folder| folder.join(&name)).collect();
        let mut paths = beside.into_iter().chain([name.clone()]).chain(in_folders);
        paths.find(|path| self.snapshot.exists(path)).unwrap_or(name)
    }

    /// Takes the library that `-l` names.
    fn library(&mut self, name: &[u8], flags: InputFlags) -> Result<Vec<ArchiveIndex>, InputFault> {
        let names: Vec<Vec<u8>> = match name.strip_prefix(b":") {
            Some(file) => vec![file.to_vec()],
            None if flags.is_static => vec![[b"lib", name, b".a"].concat()],
            None => vec![[b"lib", name, b".so"].concat(), [b"lib", name, b".a"].concat()],
        };
        let paths: Vec<PathBuf> =
            self.folders.iter().flat_map(|folder| names.iter().map(move |name| folder.join(path_of(name)))).collect();
        match paths.iter().find(|path| self.snapshot.is_file(path)) {
            Some(path) => self.file(path, flags),
            None => Err(MissingInput::Library(BString::from(name)).into()),
        }
    }

    /// Takes a file by what it is; gives the archives among it, which a group goes through again.
    fn file(&mut self, path: &Path, flags: InputFlags) -> Result<Vec<ArchiveIndex>, InputFault> {
        // A folder of `-R` is one of the dynamic linker.
        if flags.format == Format::JustSymbols && path.is_dir() {
            return Ok(Vec::new());
        }
        if let Some(index) = self.archives.get_index_of(path) {
            return self.archive(ArchiveIndex(index), flags);
        }
        let data =
            self.snapshot.read(path).map_err(|fault| MissingInput::File { path: shown(path).to_owned(), fault })?;
        self.files.push(path.to_owned());
        if flags.format == Format::JustSymbols {
            let object = just_symbols(&data)
                .ok_or_else(|| InputFault::OfOtherLinkers(format!("-R {}: no ELF file of x86-64", shown(path))))?;
            self.object(Origin::of_file(path), object, &[])?;
        } else if flags.format == Format::Binary {
            let object = binary_object(shown(path), &data);
            self.object(Origin::of_file(path), object, &[BINARY_SECTION])?;
        } else if Archive::is_one(&data) {
            let index = self.open_archive(path, data)?;
            return self.archive(index, flags);
        } else if is_text(&data) {
            return self.text(path, &data, flags);
        } else {
            self.plain.entry(path.to_owned()).or_default().push(self.objects.len());
            self.object(Origin::of_file(path), data, &[])?;
        }
        Ok(Vec::new())
    }

    /// Takes the inputs that a text names, which is then a script of INPUT and GROUP alone.
    fn text(&mut self, path: &Path, text: &[u8], flags: InputFlags) -> Result<Vec<ArchiveIndex>, InputFault> {
        let inputs = self.implicit_script(path, text).filter(|_| self.depth < MAX_DEPTH);
        let inputs = inputs.ok_or_else(|| BadInput::Text(shown(path).to_owned()))?;
        if let Some(other) = inputs.other {
            let reason = format!(
                "{}: a script in the place of an object that has {other}, and not INPUT and GROUP alone (a script is \
                 -T's)",
                shown(path)
            );
            return Err(InputFault::OfOtherLinkers(reason));
        }
        if !self.command.is_without_standard_folders {
            self.folders.extend(inputs.folders.iter().map(|folder| at_sysroot(folder, &self.command.sysroot)));
        }
        let folder = path.parent().filter(|folder| !folder.as_os_str().is_empty()).unwrap_or_else(|| Path::new("."));
        self.depth += 1;
        let archives = self.script(&inputs, flags, Some(folder));
        self.depth -= 1;
        archives
    }

    /// What a text in the place of an object says of files and names; `None` if it is no script.
    fn implicit_script(&mut self, path: &Path, text: &[u8]) -> Option<ScriptInputs> {
        if text.contains(&0) {
            return None;
        }
        let mut reader = Reader::new(self.snapshot, self.command.folders.clone());
        reader.implicit(path, text.to_vec()).ok()?;
        Some(ScriptInputs::of(&reader.finish().script))
    }

    /// Opens an archive: the one of before if it has the same bytes.
    fn open_archive(&mut self, path: &Path, data: Bytes) -> Result<ArchiveIndex, InputFault> {
        let before = self.before.and_then(|before| before.archives.get(path));
        let archive = match before.filter(|before| before.data().is_identical(&data)) {
            Some(before) => Arc::clone(before),
            None => Arc::new(Archive::parse(path, data).map_err(|fault| bad(shown(path), fault))?),
        };
        let symbols: Vec<_> =
            archive.symbols().into_iter().flatten().map(|one| (one.name.clone(), one.offset)).collect();
        let one = ArchiveUse { archive, symbols: symbols.into(), is_scanned: false, taken: HashSet::new() };
        Ok(ArchiveIndex(self.archives.insert_full(path.to_owned(), one).0))
    }

    /// Takes what is needed of an archive, or all of it.
    fn archive(&mut self, index: ArchiveIndex, flags: InputFlags) -> Result<Vec<ArchiveIndex>, InputFault> {
        if !flags.is_whole_archive {
            self.scan(index)?;
            return Ok(vec![index]);
        }
        if let Some((_, one)) = self.archives.get_index(index.0) {
            let archive = Arc::clone(&one.archive);
            for member in 0..archive.members().len() {
                self.member(&archive, MemberIndex(member))?;
            }
        }
        Ok(Vec::new())
    }

    /// Takes the members that define what is undefined now, as GNU ld does (bfd/elflink.c,
    /// `elf_link_add_archive_symbols`).
    fn scan(&mut self, index: ArchiveIndex) -> Result<(), InputFault> {
        let symbols = match self.archives.get_index(index.0) {
            Some((_, one)) if one.is_scanned || one.archive.symbols().is_some() => Arc::clone(&one.symbols),
            Some((_, one)) => {
                let archive = Arc::clone(&one.archive);
                self.symbols_of(&archive)?
            }
            None => return Ok(()),
        };
        self.names.ask(symbols.iter().map(|(name, _)| name));
        self.enter();
        let (archive, mut taken) = match self.archives.get_index_mut(index.0) {
            Some((_, one)) => {
                one.symbols = Arc::clone(&symbols);
                one.is_scanned = true;
                (Arc::clone(&one.archive), std::mem::take(&mut one.taken))
            }
            None => return Ok(()),
        };
        let mut is_done = vec![false; symbols.len()];
        while self.scan_once(&archive, &symbols, &mut taken, &mut is_done)? {}
        self.archives.get_index_mut(index.0).into_iter().for_each(|(_, one)| one.taken = std::mem::take(&mut taken));
        Ok(())
    }

    /// Goes through a symbol table once; says whether that added undefined names. A name that is defined is not looked
    /// at once more (`is_done`).
    fn scan_once(
        &mut self,
        archive: &Archive,
        symbols: &[(BString, u64)],
        taken: &mut HashSet<u64>,
        is_done: &mut [bool],
    ) -> Result<bool, InputFault> {
        let mut adds = false;
        for ((name, offset), is_done) in symbols.iter().zip(is_done).filter(|(_, is_done)| !**is_done) {
            if taken.contains(offset) {
                continue;
            }
            let is_needed = match self.names.state(name.as_bstr()) {
                Some(NameState::Undefined) => !self.once.is_dropped(name.as_bstr()),
                Some(NameState::Common) => self.defines_data(archive, name.as_bstr(), *offset)?,
                state => {
                    *is_done = matches!(state, Some(NameState::Weak | NameState::Defined));
                    false
                }
            };
            if is_needed {
                taken.insert(*offset);
                let no_member = || BadInput::NoMember { archive: shown(archive.path()).to_owned(), offset: *offset };
                let member = archive.member_at(*offset).ok_or_else(no_member)?;
                let begin = self.objects.len();
                self.member(archive, member)?;
                self.enter();
                adds |= self.adds_undefined(begin);
            }
        }
        Ok(adds)
    }

    /// The definitions of the members of an archive without a symbol table.
    fn symbols_of(&mut self, archive: &Archive) -> Result<Arc<[(BString, u64)]>, InputFault> {
        let mut found = Vec::new();
        for (number, member) in archive.members().iter().enumerate() {
            let data = self.bytes(archive, MemberIndex(number))?;
            let object = Object::new(BString::default(), Origin::of_file(archive.path()), data);
            for wanted in [NameState::Defined, NameState::Weak, NameState::Common] {
                let own = object.globals().filter(|symbol| NameState::of(symbol) == wanted);
                found.extend(own.map(|symbol| (symbol.name.to_owned(), member.offset)));
            }
        }
        Ok(found.into())
    }

    /// Whether the member at an offset defines a variable of this name, which takes the place of a common block; a
    /// function does not (bfd/elflink.c, `is_global_data_symbol_definition`).
    fn defines_data(&mut self, archive: &Archive, name: &BStr, offset: u64) -> Result<bool, InputFault> {
        let member = match archive.member_at(offset) {
            Some(member) => member,
            None => return Ok(false),
        };
        let data = self.bytes(archive, member)?;
        let object = Object::new(BString::default(), Origin::of_file(archive.path()), data);
        let is_function = |kind| matches!(kind, SymbolKind::FUNCTION | SymbolKind::GNU_IFUNC);
        let found = object.globals_named(name).any(|symbol| {
            let is_here = matches!(symbol.home, Home::Section(_) | Home::Absolute);
            is_here && symbol.binding != Binding::Weak && !is_function(symbol.kind)
        });
        Ok(found)
    }

    /// The bytes of a member.
    fn bytes(&mut self, archive: &Archive, index: MemberIndex) -> Result<Bytes, InputFault> {
        match archive.member(index) {
            Some(member) if archive.is_thin() => {
                let path = archive.file_of(member);
                self.snapshot.read(&path).map_err(|fault| {
                    let (path, archive) = (shown(&path).to_owned(), shown(archive.path()).to_owned());
                    MissingInput::Member { path, archive, fault }.into()
                })
            }
            Some(member) => Ok(archive.data().slice(member.range.clone()).unwrap_or_default()),
            None => Ok(Bytes::default()),
        }
    }

    /// Takes a member: an object, or an archive of which all members are taken.
    fn member(&mut self, archive: &Archive, index: MemberIndex) -> Result<(), InputFault> {
        let data = self.bytes(archive, index)?;
        let origin = match archive.member(index) {
            Some(member) => origin_of(archive, &member.name, archive.is_thin().then(|| archive.file_of(member))),
            None => return Ok(()),
        };
        if !Archive::is_one(&data) {
            if let Some(member) = archive.member(index).filter(|_| archive.is_thin()) {
                self.plain.entry(archive.file_of(member)).or_default().push(self.objects.len());
            }
            return self.object(origin, data, &[]);
        }
        let name = origin.full_name();
        let inner = Archive::parse(&path_of(&name), data).map_err(|fault| bad(name.as_bstr(), fault))?;
        if self.depth >= MAX_DEPTH {
            return Err(BadInput::Nested(name).into());
        }
        self.depth += 1;
        let taken = (0..inner.members().len()).try_for_each(|number| self.member(&inner, MemberIndex(number)));
        self.depth -= 1;
        taken
    }

    /// Takes an object.
    fn object(&mut self, origin: Origin, data: Bytes, retained: &[SectionIndex]) -> Result<(), InputFault> {
        let full_name = origin.full_name();
        let name = session_name(&full_name, &mut self.used);
        let known = self.before.and_then(|before| before.known.get(&data));
        let object = match known {
            Some(known) => known.clone().renamed(name, origin),
            None => Object::new(name, origin, with_wraps(data.clone(), &self.command.wraps)),
        };
        if let Some(fault) = object.fault().filter(|fault| fault.is_of_other_linkers()) {
            return Err(InputFault::OfOtherLinkers(format!("{full_name}: {fault}")));
        }
        self.has_commons |= object.has_commons();
        self.known.put(data, object.clone());
        let object = self.once.without_repeated(self.objects.len(), object);
        self.objects.push(self.as_before(object).with_retained(retained));
        Ok(())
    }

    /// The object of before if it is the same with the same bytes, which need not be sent again then.
    fn as_before(&self, object: Object) -> Object {
        let before = self.before.filter(|_| object.has_groups());
        let before = before.and_then(|before| before.objects.get(self.objects.len()));
        match before.filter(|before| before.is_same(&object)) {
            Some(before) => before.clone(),
            None => object,
        }
    }

    /// Goes through the names of the objects taken since the last time.
    fn enter(&mut self) {
        let new = self.objects.get(self.entered..).unwrap_or_default();
        new.iter().for_each(|object| self.names.add(object));
        self.entered = self.objects.len();
    }
}

/// Where files are looked for: SEARCH_DIR stands where its `-T` does, and is without effect with `-nostdlib`.
fn folders(request: &Request<'_>) -> Vec<PathBuf> {
    let command = request.command;
    let at = command.folders_before_script.unwrap_or(command.folders.len()).min(command.folders.len());
    let (first, rest) = command.folders.split_at(at);
    if command.is_without_standard_folders {
        return command.folders.clone();
    }
    let of_scripts = request.scripts.iter().flat_map(|script| &script.folders);
    let of_scripts = of_scripts.map(|folder| at_sysroot(folder, &command.sysroot));
    let standard: &[&str] = if request.has_own_script { &[] } else { STANDARD_FOLDERS };
    let standard =
        standard.iter().map(|folder| path_of(&[command.sysroot.as_os_str().as_bytes(), folder.as_bytes()].concat()));
    first.iter().cloned().chain(of_scripts).chain(rest.iter().cloned()).chain(standard).collect()
}

/// Where a member is from; `file` is that of a member of a thin archive.
fn origin_of(archive: &Archive, name: &BString, file: Option<PathBuf>) -> Origin {
    match file {
        Some(path) => {
            let name = shown(&normalized(&path)).to_owned();
            Origin { path, archive: None, name }
        }
        None => Origin {
            path: archive.path().to_owned(),
            archive: Some(shown(archive.path()).to_owned()),
            name: name.clone(),
        },
    }
}

/// Whether a file is neither an object nor empty, so that it may be a script.
fn is_text(data: &[u8]) -> bool {
    !data.is_empty() && !data.starts_with(b"\x7fELF") && !data.starts_with(b"BC\xc0\xde")
}

fn bad(name: &BStr, fault: BadArchive) -> BadInput {
    BadInput::Archive { name: name.to_owned(), fault }
}

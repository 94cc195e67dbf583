//! The files and names in a script: INPUT, GROUP, STARTUP, SEARCH_DIR, EXTERN, ENTRY, and files in statements.

use crate::command::OutputFormat;
use crate::script::tree::{
    InputFile, InputStatement, OutputSection, Script, SectionStatement, SectionsStatement, Setting, Spanned, Statement,
};
use bstr::{BString, ByteSlice};

/// The one format of objects.
const ELF: &str = "elf64-x86-64";

/// What a script names to be linked, in the order of the text.
#[derive(Clone, PartialEq, Eq, Debug)]
pub enum ScriptInput {
    /// INPUT
    Files(Vec<InputFile>),
    /// GROUP
    Group(Vec<InputFile>),
    /// A file that a statement of an output section names without a wildcard: GNU ld links it too, at this place.
    OfStatement(BString),
}

/// What a script says of files and names.
#[derive(Clone, PartialEq, Eq, Debug, Default)]
pub struct ScriptInputs {
    /// STARTUP: the first of them counts.
    pub startup: Option<BString>,
    /// The files.
    pub inputs: Vec<ScriptInput>,
    /// SEARCH_DIR
    pub folders: Vec<BString>,
    /// EXTERN
    pub undefined: Vec<BString>,
    /// ENTRY: the last of them counts.
    pub entry: Option<BString>,
    /// OUTPUT: the image's name if there is no `-o`; the last of them counts.
    pub output: Option<BString>,
    /// OUTPUT_FORMAT; of several formats the first one
    pub output_format: Option<BString>,
    /// TARGET of another format than ELF-64
    pub target: Option<BString>,
    /// What is no INPUT, GROUP or SEARCH_DIR, and has an effect: what a script in the place of an object may not have.
    pub other: Option<String>,
}

impl ScriptInputs {
    /// The files, folders and names that a script gives.
    pub fn of(script: &Script) -> ScriptInputs {
        let mut found = ScriptInputs::default();
        script.statements.iter().for_each(|statement| found.read_statement(&statement.node));
        found
    }

    /// Whether it names a file.
    pub fn has_inputs(&self) -> bool {
        self.startup.is_some() || !self.inputs.is_empty()
    }

    /// The form of the image that it asks for: `None` if it does not say, or asks for another format
    /// ([`ScriptInputs::other_format`]).
    pub fn image_format(&self) -> Option<OutputFormat> {
        match self.output_format.as_ref()?.as_bytes() {
            b"binary" => Some(OutputFormat::Binary),
            name if name.starts_with(ELF.as_bytes()) => Some(OutputFormat::Elf),
            _ => None,
        }
    }

    /// A format of the image that only another linker makes.
    pub fn other_format(&self) -> Option<&BString> {
        self.output_format.as_ref().filter(|_| self.image_format().is_none())
    }

    fn read_statement(&mut self, statement: &Statement) {
        let other = match statement {
            Statement::Input(files) => return self.inputs.push(ScriptInput::Files(nodes(files))),
            Statement::Group(files) => return self.inputs.push(ScriptInput::Group(nodes(files))),
            Statement::SearchDir(folder) => return self.folders.push(folder.clone()),
            Statement::OutputArch(_) | Statement::Setting(Setting::ForceCommonAllocation) => return,
            Statement::OutputFormat(names) if self.take_format(names) => return,
            Statement::Target(name) if name == ELF => return,
            statement => self.take_other(statement),
        };
        self.other.get_or_insert(other);
    }

    /// The format of the image; says whether it is the one of objects.
    fn take_format(&mut self, names: &[BString]) -> bool {
        self.output_format = names.first().cloned();
        names.first().map_or(false, |name| name == ELF)
    }

    /// Notes a statement that a script in the place of an object may not have; gives its name.
    fn take_other(&mut self, statement: &Statement) -> String {
        match statement {
            Statement::Startup(name) => {
                self.startup.get_or_insert_with(|| name.clone());
                "STARTUP".into()
            }
            Statement::Extern(names) => {
                self.undefined.extend(names.iter().cloned());
                "EXTERN".into()
            }
            Statement::Entry(name) => {
                self.entry = Some(name.clone());
                "ENTRY".into()
            }
            Statement::Output(name) => {
                self.output = Some(name.clone());
                "OUTPUT".into()
            }
            Statement::Target(name) => {
                self.target = Some(name.clone());
                "TARGET".into()
            }
            Statement::Sections(sections) => {
                sections.iter().for_each(|section| self.take_section(section));
                "SECTIONS".into()
            }
            Statement::OutputFormat(_) => "OUTPUT_FORMAT".into(),
            Statement::Memory(_) => "MEMORY".into(),
            Statement::Phdrs(_) => "PHDRS".into(),
            Statement::Assign(assignment) => assignment.target.node.to_string(),
            _ => "another command".into(),
        }
    }

    fn take_section(&mut self, section: &Spanned<SectionsStatement>) {
        match &section.node {
            SectionsStatement::Entry(name) => self.entry = Some(name.clone()),
            SectionsStatement::Output(output) => self.take_files(output),
            SectionsStatement::Overlay(overlay) => {
                overlay.sections.node.iter().for_each(|section| self.take_files(&section.node));
            }
            _ => {}
        }
    }

    fn take_files(&mut self, output: &OutputSection) {
        let files = output.body.node.iter().filter_map(|statement| match &statement.node {
            SectionStatement::Input(input) => file_of(input),
            _ => None,
        });
        self.inputs.extend(files.map(|name| ScriptInput::OfStatement(name.clone())));
    }
}

fn nodes(files: &[Spanned<InputFile>]) -> Vec<InputFile> {
    files.iter().map(|file| file.node.clone()).collect()
}

/// The file that an input statement names: no pattern, and no member of an archive.
fn file_of(input: &InputStatement) -> Option<&BString> {
    let name = &input.file.as_ref()?.node.glob;
    (!name.iter().any(|byte| b"*?[:".contains(byte))).then_some(name)
}

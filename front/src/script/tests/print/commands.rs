//! Statements at the top of a script as text.

use super::Printer;
use crate::script::lexer::State::{Expression, InputList, Script, VersionNode as Node};
use crate::script::tree::{
    InputFile, InsertPlace, MemoryRegion, Name, ProgramHeader, Setting, Spanned, Statement, VersionNode, VersionPattern,
};

impl Printer {
    pub(super) fn statement(&mut self, statement: &Statement) {
        self.line();
        if !self.command_of_names(statement) {
            self.other_statement(statement);
        }
        self.end();
    }

    /// A command with names in parentheses; whether the statement is one.
    fn command_of_names(&mut self, statement: &Statement) -> bool {
        let one = std::slice::from_ref;
        let (word, names): (&str, &[Name]) = match statement {
            Statement::Entry(name) => ("ENTRY", one(name)),
            Statement::Startup(name) => ("STARTUP", one(name)),
            Statement::Output(name) => ("OUTPUT", one(name)),
            Statement::OutputArch(name) => ("OUTPUT_ARCH", one(name)),
            Statement::Target(name) => ("TARGET", one(name)),
            Statement::SearchDir(name) => ("SEARCH_DIR", one(name)),
            Statement::Feature(name) => ("LD_FEATURE", one(name)),
            Statement::Map(name) => ("MAP", one(name)),
            Statement::Extern(names) => ("EXTERN", names),
            Statement::NoCrossReferences(names) => ("NOCROSSREFS", names),
            Statement::NoCrossReferencesTo(names) => ("NOCROSSREFS_TO", names),
            Statement::HighLevelLibraries(names) => ("HLL", names),
            Statement::SystemLibraries(names) => ("SYSLIB", names),
            _ => return false,
        };
        self.command(word, if word == "EXTERN" { Expression } else { Script }, names);
        true
    }

    fn other_statement(&mut self, statement: &Statement) {
        match statement {
            Statement::Assign(assignment) => self.assignment(assignment, Script),
            Statement::Assert(assertion) => self.assertion(&assertion.condition, &assertion.message),
            Statement::Sections(statements) => self.sections(statements),
            Statement::Memory(regions) => self.memory(regions),
            Statement::Phdrs(headers) => self.program_headers(headers),
            Statement::Input(files) => self.input("INPUT(", files),
            Statement::Group(files) => self.input("GROUP(", files),
            Statement::OutputFormat(names) => {
                self.put("OUTPUT_FORMAT(");
                self.quoted_names(names);
            }
            Statement::RegionAlias(alias, region) => {
                self.put("REGION_ALIAS(");
                self.quoted_names(&[alias.clone(), region.clone()]);
            }
            Statement::Setting(setting) => self.put(match setting {
                Setting::ForceCommonAllocation => "FORCE_COMMON_ALLOCATION",
                Setting::ForceGroupAllocation => "FORCE_GROUP_ALLOCATION",
                Setting::InhibitCommonAllocation => "INHIBIT_COMMON_ALLOCATION",
                Setting::Float => "FLOAT",
                Setting::NoFloat => "NOFLOAT",
            }),
            Statement::Version(nodes) => self.version(nodes),
            Statement::Insert(place, section) => {
                self.put(if *place == InsertPlace::After { "INSERT AFTER " } else { "INSERT BEFORE " });
                self.name(Script, section);
            }
            _ => {}
        }
    }

    /// `"a", "b")`: a name without quotes would have the comma in it.
    fn quoted_names(&mut self, names: &[Name]) {
        for (index, name) in names.iter().enumerate() {
            if index > 0 {
                self.put(", ");
            }
            self.quoted(name);
        }
        self.put(")");
    }

    fn memory(&mut self, regions: &[Spanned<MemoryRegion>]) {
        self.put("MEMORY");
        self.braced(|printer| {
            for (index, region) in regions.iter().enumerate() {
                printer.region(&region.node);
                printer.put(if index + 1 < regions.len() { ",\n" } else { "\n" });
            }
        });
    }

    fn region(&mut self, region: &MemoryRegion) {
        self.line();
        self.name(Script, &region.name.node);
        if let Some(attributes) = &region.attributes {
            self.put(" (");
            for (index, word) in attributes.node.iter().enumerate() {
                self.put(if index > 0 { " " } else { "" });
                self.put(if word.is_inverted { "!" } else { "" });
                self.name(Script, &word.letters);
            }
            self.put(")");
        }
        self.put(" : ORIGIN = ");
        self.expr(&region.origin);
        self.put(", LENGTH = ");
        self.expr(&region.length);
    }

    fn program_headers(&mut self, headers: &[Spanned<ProgramHeader>]) {
        self.put("PHDRS");
        self.braced(|printer| headers.iter().for_each(|header| printer.program_header(&header.node)));
    }

    fn program_header(&mut self, header: &ProgramHeader) {
        self.line();
        self.name(Script, &header.name.node);
        self.put(" ");
        self.expr(&header.kind);
        self.put(if header.has_file_header { " FILEHDR" } else { "" });
        self.put(if header.has_program_headers { " PHDRS" } else { "" });
        self.optional("AT", &header.load_address);
        self.optional("FLAGS", &header.flags);
        self.put(";\n");
    }

    fn input(&mut self, word: &str, files: &[Spanned<InputFile>]) {
        self.put(word);
        for (index, file) in files.iter().enumerate() {
            let file = &file.node;
            self.put(if index > 0 { " " } else { "" });
            self.put(if file.is_as_needed { "AS_NEEDED(" } else { "" });
            if file.is_library {
                self.put("-l");
                self.out.extend_from_slice(&file.name);
            } else {
                self.name(InputList, &file.name);
            }
            self.put(if file.is_as_needed { ")" } else { "" });
        }
        self.put(")");
    }

    fn version(&mut self, nodes: &[VersionNode]) {
        self.put("VERSION");
        self.braced(|printer| nodes.iter().for_each(|node| printer.version_node(node)));
    }

    fn version_node(&mut self, node: &VersionNode) {
        self.line();
        if let Some(tag) = &node.tag {
            self.out.extend_from_slice(tag);
        }
        self.braced(|printer| {
            printer.version_patterns("global:", &node.globals);
            printer.version_patterns("local:", &node.locals);
        });
        for tag in &node.dependencies {
            self.put(" ");
            self.out.extend_from_slice(tag);
        }
        self.put(";\n");
    }

    fn version_patterns(&mut self, label: &str, patterns: &[VersionPattern]) {
        if patterns.is_empty() {
            return;
        }
        self.line();
        self.put(label);
        for pattern in patterns {
            self.put(" ");
            if let Some(language) = &pattern.language {
                self.put("extern ");
                self.quoted(language);
                self.put(" { ");
            }
            if pattern.is_quoted {
                self.quoted(&pattern.glob);
            } else if matches!(pattern.glob.as_slice(), b"global" | b"local" | b"extern") {
                self.out.extend_from_slice(&pattern.glob);
            } else {
                self.name(Node, &pattern.glob);
            }
            self.put(if pattern.language.is_some() { "; };" } else { ";" });
        }
        self.end();
    }
}

//! Input statements: patterns in the profile's spelling, one sort to a statement.

use std::borrow::Cow;
use std::collections::HashMap;

use bstr::ByteSlice;
use object::elf;

use super::inserted::ranks;
use super::note::NoteKind;
use super::walk::Walk;
use crate::layout::evaluation::StatementKind;
use crate::layout::has_wildcard;
use crate::layout::ids::{SectionId, StatementId};
use crate::layout::settings::SectionSort;
use crate::profile::reserved_words::{is_word, matches, word_of, word_of_name};
use crate::script::tree::{InputStatement, Name, Pattern, Sort, Span, Spanned};

/// The sorts of the profile.
#[derive(Clone, Copy, PartialEq, Eq, Debug)]
enum ProfileSort {
    ByName,
    ByAlignment,
}

/// Patterns of one statement of the profile: what one sort has, or what has none.
#[derive(Clone, Debug)]
struct Group {
    sort: Option<ProfileSort>,
    /// Each with the files that it leaves out.
    patterns: Vec<(Vec<u8>, Vec<Vec<u8>>)>,
}

/// A statement of GNU ld's as statements of the profile.
#[derive(Clone, Debug, Default)]
struct Form {
    files: Vec<Vec<u8>>,
    groups: Vec<Group>,
    /// What is said of the change.
    said: Vec<String>,
    /// Whether it may take something else, or in another order, than the statement of GNU ld's.
    is_in_doubt: bool,
    /// Whether that is so for some names alone, which are looked at if they are known.
    is_of_names: bool,
    /// What is other for some objects, if nothing is known of them.
    changed: Vec<String>,
}

impl Form {
    fn say(&mut self, text: impl Into<String>) {
        let text = text.into();
        if !self.said.contains(&text) {
            self.said.push(text);
        }
    }

    fn doubt(&mut self, text: impl Into<String>) {
        self.is_in_doubt = true;
        self.say(text);
    }

    /// A doubt that only the objects can settle.
    fn doubt_of_objects(&mut self, text: impl Into<String>) {
        let text = text.into();
        self.changed.push(text.clone());
        self.doubt(text);
    }

    /// The text of the statements.
    fn text(&self, is_kept: bool) -> String {
        let mut statements = Vec::new();
        for group in &self.groups {
            for file in &self.files {
                let own = format!("{}({})", file.to_str_lossy(), group.text());
                statements.push(if is_kept { format!("KEEP({own})") } else { own });
            }
        }
        statements.join(" ")
    }

    /// The places of the sections that the statements take, in their order, of a list of object and section names.
    fn takes(&self, sections: &[(&[u8], &[u8], u64)]) -> Vec<usize> {
        let mut taken = Vec::new();
        let mut is_taken = vec![false; sections.len()];
        for group in &self.groups {
            for file in &self.files {
                let mut found = Vec::new();
                for (index, (object, name, _)) in sections.iter().enumerate() {
                    let is_free = !is_taken.get(index).copied().unwrap_or(true);
                    if is_free && matches(file, object) && group.matches(object, name) {
                        found.push(index);
                    }
                }
                let key = |index: &usize| sections.get(*index).copied().unwrap_or_default();
                match group.sort {
                    Some(ProfileSort::ByName) => found.sort_by_key(|index| key(index).1),
                    Some(ProfileSort::ByAlignment) => found.sort_by_key(|index| std::cmp::Reverse(key(index).2)),
                    None => {}
                }
                for index in &found {
                    if let Some(flag) = is_taken.get_mut(*index) {
                        *flag = true;
                    }
                }
                taken.extend(found);
            }
        }
        taken
    }
}

impl Group {
    fn text(&self) -> String {
        let one = |(word, excluded): &(Vec<u8>, Vec<Vec<u8>>)| {
            let word = word.to_str_lossy();
            if excluded.is_empty() {
                return word.into_owned();
            }
            let files: Vec<_> = excluded.iter().map(|file| file.to_str_lossy()).collect();
            format!("EXCLUDE_FILE({}) {word}", files.join(" "))
        };
        let words: Vec<String> = self.patterns.iter().map(one).collect();
        match self.sort {
            None => words.join(" "),
            Some(ProfileSort::ByName) => format!("SORT_BY_NAME({})", words.join(" ")),
            Some(ProfileSort::ByAlignment) => format!("SORT_BY_ALIGNMENT({})", words.join(" ")),
        }
    }

    fn matches(&self, object: &[u8], name: &[u8]) -> bool {
        self.patterns
            .iter()
            .any(|(word, excluded)| matches(word, name) && !excluded.iter().any(|file| matches(file, object)))
    }
}

impl<'a> Walk<'a> {
    /// Writes an input statement of an output section; gives whether what is written takes what GNU ld's takes, in its
    /// order, as far as that is known.
    pub(super) fn input(&mut self, node: &'a InputStatement, span: Span, sections: &[SectionId]) -> bool {
        if self.is_without_objects() {
            self.say_without_objects(node, span);
            if !node.section_flags.is_empty() {
                return true;
            }
        }
        let is_plain =
            self.is_as_written(node, span) && !self.has_renamed_file(node) && self.request.sort_section.is_none();
        let is_in_doubt = self.has_doubtful_file(node)
            || self.has_link_order(sections)
            || self.request.leaves_unique
            || self.is_inserted;
        if is_plain && !is_in_doubt {
            return true;
        }
        let form = self.form_of(&self.with_option(node), false);
        let is_in_doubt = form.is_in_doubt || is_in_doubt;
        let is_looked_at = is_in_doubt || form.is_of_names;
        let what = self.quoted(span);
        if self.is_without_objects() {
            if !self.holds_of_any(&form, is_looked_at, span, sections) {
                return true;
            }
        } else if is_looked_at && self.request.evaluation.is_some() {
            if !self.takes_the_same(&form, span, sections) {
                self.note(NoteKind::Rewritten, span.start, format!("{what}: what it takes, one by one"));
                return false;
            }
        } else if is_in_doubt {
            let why = form.said.join("; ");
            self.note(NoteKind::Changed, span.start, format!("{what}: {why}"));
        }
        let text = form.text(node.is_kept);
        if self.squeezed(span.start, span.end) != super::walk::squeezed(text.as_bytes()) {
            let why = if form.said.is_empty() { format!("as {text}") } else { form.said.join("; ") };
            self.rewrites.replace(self.text, span, text);
            self.note(NoteKind::Rewritten, span.start, format!("{what}: {why}"));
        }
        true
    }

    /// Whether a form may be written if nothing is known of the objects, and what is said of it.
    fn holds_of_any(&mut self, form: &Form, is_looked_at: bool, span: Span, sections: &[SectionId]) -> bool {
        let what = self.quoted(span);
        for why in &form.changed {
            let sentence = format!("{what}: {why} (--objects says whether that differs)");
            self.note(NoteKind::Changed, span.start, sentence);
        }
        if !form.changed.is_empty() || !is_looked_at || self.takes_the_same(form, span, sections) {
            return true;
        }
        let why = "no statement is sure to take the same: write patterns of names, or give --objects";
        self.note(NoteKind::Left, span.start, format!("{what}: {why}"));
        false
    }

    /// Says what may be another if nothing is known of the objects.
    fn say_without_objects(&mut self, node: &InputStatement, span: Span) {
        let what = self.quoted(span);
        if !node.section_flags.is_empty() {
            let why = "INPUT_SECTION_FLAGS has nothing in its place: write patterns of names, or give --objects";
            return self.note(NoteKind::Left, span.start, format!("{what}: {why}"));
        }
        let takes_unloaded = |pattern: &Pattern| super::head::is_unloaded(&pattern.glob) || pattern.glob == "*";
        let all = node.sections.as_ref().map_or(true, |all| all.iter().any(|one| takes_unloaded(&one.node)));
        if all {
            let why = "GNU ld takes sections without the flag ALLOC too; here only what is loaded is linked";
            self.note(NoteKind::Changed, span.start, format!("{what}: {why}"));
        }
    }

    /// A statement with the sorts of `--sort-section` (ldlang.c, `update_wild_statements`).
    fn with_option<'n>(&self, node: &'n InputStatement) -> Cow<'n, InputStatement> {
        let own = match self.request.sort_section {
            None => return Cow::Borrowed(node),
            Some(SectionSort::Name) => Sort::ByName,
            Some(SectionSort::Alignment) => Sort::ByAlignment,
        };
        let mut node = node.clone();
        for pattern in node.sections.iter_mut().flatten().map(|pattern| &mut pattern.node) {
            let is_fixed = matches!(pattern.glob.as_slice(), b".init" | b".fini");
            let may_have = match pattern.sorts.as_slice() {
                [] => true,
                [one @ (Sort::ByName | Sort::ByAlignment)] => *one != own,
                _ => false,
            };
            if may_have && !is_fixed {
                pattern.sorts.push(own);
            }
        }
        Cow::Owned(node)
    }

    /// Writes an input statement of `/DISCARD/`.
    pub(super) fn discarded(&mut self, node: &InputStatement, span: Span) {
        if self.is_as_written(node, span) && !node.is_kept {
            return;
        }
        let what = self.quoted(span);
        if !node.section_flags.is_empty() {
            if let Some(StatementKind::Input { sections, .. }) = self.evaluated(span).map(|one| &one.kind) {
                let text = self.named(sections);
                self.rewrites.replace(self.text, span, text);
                return self.note(NoteKind::Rewritten, span.start, format!("{what}: what it takes, one by one"));
            }
        }
        let form = self.form_of(node, true);
        let text = form.text(false);
        self.rewrites.replace(self.text, span, text.clone());
        let why = if form.said.is_empty() { format!("as {text}") } else { form.said.join("; ") };
        self.note(NoteKind::Rewritten, span.start, format!("{what}: {why}"));
    }

    /// The statements of the profile for one of GNU ld's. Objects that are not known are named by files alone.
    fn form_of(&mut self, node: &InputStatement, is_discarded: bool) -> Form {
        let mut form = form_of(node, is_discarded, self.has_members());
        let glob = node.file.as_ref().map_or(&b""[..], |file| file.node.glob.as_slice());
        let of_archive = glob.iter().rposition(|byte| *byte == b':').filter(|at| *at > 0);
        if let (true, Some(at)) = (self.is_without_objects(), of_archive) {
            let member = glob.get(at + 1..).unwrap_or_default();
            let member = [if member.starts_with(b"*") { &b""[..] } else { b"*" }, member].concat();
            let (word, file) = (word_of(&member).0.into_owned(), glob.to_str_lossy());
            let why = format!("`{file}` is `{}`: objects are named by files, not by archives", word.to_str_lossy());
            form.files = vec![word];
            if let Some(file) = &node.file {
                self.note(NoteKind::Changed, file.span.start, why);
            }
        }
        form
    }

    /// Statements that take these input sections, each by its names.
    fn named(&self, sections: &[SectionId]) -> String {
        let one = |id: &SectionId| {
            let evaluation = self.request.evaluation?;
            let section = evaluation.section(*id).filter(|section| section.is_linked())?;
            let object = self.request.objects.get(section.object.0 as usize)?;
            let (object, name) = (word_of_name(object)?, word_of_name(evaluation.section_name(section))?);
            Some(format!("{}({})", object.to_str_lossy(), name.to_str_lossy()))
        };
        sections.iter().filter_map(one).collect::<Vec<_>>().join(" ")
    }

    /// Whether some of these sections are in the order of others.
    fn has_link_order(&self, sections: &[SectionId]) -> bool {
        let is_ordered = |id: &SectionId| {
            let section = self.request.evaluation.and_then(|evaluation| evaluation.section(*id));
            section.map_or(false, |section| section.bits & u64::from(elf::SHF_LINK_ORDER) != 0)
        };
        sections.len() > 1 && sections.iter().any(is_ordered)
    }

    /// Whether a statement is one of the profile as it stands: a name in quotes is none.
    pub(super) fn is_as_written(&self, node: &InputStatement, span: Span) -> bool {
        is_plain(node) && !self.slice(span).contains(&b'"')
    }

    /// Whether the file has another name than in the text, as it was found in another folder.
    fn has_renamed_file(&self, node: &InputStatement) -> bool {
        node.file.as_ref().map_or(false, |file| {
            self.squeezed(file.span.start, file.span.end) != super::walk::squeezed(&file.node.glob)
        })
    }

    /// Whether a pattern of files may mean members of archives, whose names in the session are `lib.a(member.o)`.
    fn has_doubtful_file(&self, node: &InputStatement) -> bool {
        let names_files = node.file.as_ref().map_or(false, |file| file.node.glob != "*")
            || all_patterns(node).any(|pattern| !pattern.excluded_files.is_empty());
        names_files && self.has_members()
    }

    /// Whether there are members of archives among the objects.
    fn has_members(&self) -> bool {
        self.request.objects.iter().any(|name| name.contains(&b'('))
    }

    /// Whether the statements of a form take these sections, in this order, of those that no earlier statement takes.
    fn takes_the_same(&mut self, form: &Form, span: Span, sections: &[SectionId]) -> bool {
        let evaluation = match self.request.evaluation {
            Some(evaluation) => evaluation,
            None => return true,
        };
        let ranks = if self.is_inserted { ranks(evaluation) } else { HashMap::new() };
        let rank = |id: StatementId| ranks.get(&id).copied().unwrap_or(id.index() as u32);
        let own = match evaluation.by_span.get(&span) {
            Some(id) => rank(*id),
            None => return sections.is_empty(),
        };
        let takers = self.takers.get_or_insert_with(|| takers(evaluation, &rank));
        let mut ids = Vec::new();
        let mut known = Vec::new();
        for (index, one) in evaluation.sections.iter().enumerate() {
            if one.is_linked() && takers.get(index).map_or(false, |taker| *taker >= own) {
                let object = self.request.objects.get(one.object.0 as usize).map_or(&b""[..], |name| name.as_bytes());
                known.push((object, evaluation.section_name(one).as_bytes(), one.own_align));
                ids.push(SectionId::new(index));
            }
        }
        let taken = form.takes(&known);
        taken.len() == sections.len() && taken.iter().zip(sections).all(|(index, id)| ids.get(*index) == Some(id))
    }
}

/// For each input section the rank of the statement that takes it; those that none takes have the highest.
fn takers(evaluation: &crate::layout::Evaluation, rank: &dyn Fn(StatementId) -> u32) -> Vec<u32> {
    let mut takers = vec![u32::MAX; evaluation.sections.len()];
    for (index, statement) in evaluation.statements.iter().enumerate() {
        if let StatementKind::Input { sections, .. } = &statement.kind {
            for id in sections {
                if let Some(taker) = takers.get_mut(id.index()) {
                    *taker = rank(StatementId::new(index));
                }
            }
        }
    }
    takers
}

fn all_patterns(node: &InputStatement) -> impl Iterator<Item = &Pattern> {
    let sections = node.sections.iter().flatten().map(|pattern| &pattern.node);
    node.file.iter().map(|file| &file.node).chain(sections)
}

/// Whether the profile has what a statement says.
fn is_plain(node: &InputStatement) -> bool {
    let (file, sections) = match (&node.file, &node.sections) {
        (Some(file), Some(sections)) if node.section_flags.is_empty() => (&file.node, sections),
        _ => return false,
    };
    let is_fine = |pattern: &Pattern| {
        is_word(&pattern.glob) && !pattern.is_quoted && pattern.excluded_files.iter().all(|file| is_word(file))
    };
    let has_one_sort = |patterns: &[Spanned<Pattern>]| match patterns {
        [one] => {
            matches!(one.node.sorts.as_slice(), [Sort::ByName | Sort::ByAlignment])
                && one.node.excluded_files.is_empty()
        }
        _ => false,
    };
    is_fine(file)
        && file.sorts.is_empty()
        && file.excluded_files.is_empty()
        && !file.glob.contains(&b':')
        && sections.iter().all(|pattern| is_fine(&pattern.node))
        && (sections.iter().all(|pattern| pattern.node.sorts.is_empty()) || has_one_sort(sections))
}

/// The statements of the profile for one of GNU ld's.
fn form_of(node: &InputStatement, is_discarded: bool, has_members: bool) -> Form {
    let mut form = Form::default();
    let file = node.file.as_ref().map(|file| &file.node);
    match file {
        Some(file) => file_patterns(file, &mut form),
        None => form.files.push(b"*".to_vec()),
    }
    if !node.section_flags.is_empty() {
        form.doubt("INPUT_SECTION_FLAGS by the names of the sections that have them");
    }
    let everything = [Spanned::new(everything(), Span::default())];
    let patterns: &[Spanned<Pattern>] = match &node.sections {
        Some(patterns) => patterns,
        None => {
            form.say("all sections of the file");
            &everything
        }
    };
    let left_out: &[Name] = file.map_or(&[], |file| &file.excluded_files);
    if !left_out.is_empty() {
        form.say("EXCLUDE_FILE before each pattern");
    }
    for pattern in patterns {
        group(&pattern.node, left_out, is_discarded, has_members, &mut form);
    }
    if form.groups.len() > 1 {
        form.doubt_of_objects("a statement for each sort");
    }
    form
}

fn everything() -> Pattern {
    Pattern { glob: "*".into(), is_quoted: false, sorts: Vec::new(), excluded_files: Vec::new() }
}

/// The patterns of files of a statement.
fn file_patterns(file: &Pattern, form: &mut Form) {
    if file.sorts.iter().any(|sort| *sort != Sort::None) {
        form.doubt_of_objects("files are in the order of the link, not sorted by name");
    }
    let glob = &file.glob;
    let own = match glob.iter().rposition(|byte| *byte == b':') {
        None => glob.as_slice(),
        Some(0) => {
            form.doubt(format!("`{glob}` is a file that is in no archive"));
            glob.get(1..).unwrap_or_default()
        }
        Some(at) => {
            let archive = glob.get(..at).unwrap_or_default();
            let member = glob.get(at + 1..).filter(|member| !member.is_empty()).unwrap_or(b"*");
            form.doubt(format!("`{glob}` by the names of the objects"));
            let (archive, member) = (word_of(archive).0, word_of(member).0);
            return form.files.push([&archive, &b"\\("[..], &member, &b"\\)"[..]].concat());
        }
    };
    let word = word(own, form);
    form.files.push(word);
}

/// A pattern in the profile's spelling.
fn word(glob: &[u8], form: &mut Form) -> Vec<u8> {
    let (word, is_exact) = word_of(glob);
    if glob.contains(&b',') {
        form.say(format!("`{}`: to GNU ld the comma is a byte of the name; spaces part names", glob.to_str_lossy()));
    }
    if !is_exact {
        form.doubt_of_objects(format!(
            "`{}` is `{}` here, which may match other names",
            glob.to_str_lossy(),
            word.to_str_lossy()
        ));
    }
    word.into_owned()
}

/// Puts a pattern into a group of its sort.
fn group(pattern: &Pattern, left_out: &[Name], is_discarded: bool, has_members: bool, form: &mut Form) {
    let mut sort = sort_of(pattern, form);
    if is_discarded && sort.is_some() {
        form.say("what is left out needs no sort");
        sort = None;
    }
    let files = left_out.iter().chain(&pattern.excluded_files);
    let excluded: Vec<Vec<u8>> = files.flat_map(|file| excluded_files(file, has_members, form)).collect();
    if sort.is_some() && !excluded.is_empty() {
        let why = "EXCLUDE_FILE does not stand in a sort";
        match has_wildcard(&pattern.glob) || sort != Some(ProfileSort::ByName) {
            true => form.doubt_of_objects(why),
            false => form.doubt(why),
        }
        sort = None;
    }
    let entry = (word(&pattern.glob, form), excluded);
    match form.groups.last_mut() {
        Some(last) if last.sort == sort => {
            last.patterns.push(entry);
            if sort.is_some() {
                form.doubt("one sort of all patterns");
            }
        }
        _ => form.groups.push(Group { sort, patterns: vec![entry] }),
    }
}

/// The patterns of a file that is left out. Members of archives are named `lib.a(member.o)`.
fn excluded_files(file: &Name, has_members: bool, form: &mut Form) -> Vec<Vec<u8>> {
    let of_member = |archive: &[u8], member: &[u8]| [archive, b"\\(", member, b"\\)"].concat();
    match file.iter().rposition(|byte| *byte == b':') {
        Some(0) => vec![word(file.get(1..).unwrap_or_default(), form)],
        Some(at) => {
            let archive = word(file.get(..at).unwrap_or_default(), form);
            let member = file.get(at + 1..).filter(|member| !member.is_empty()).unwrap_or(b"*");
            let member = word(member, form);
            vec![of_member(&archive, &member)]
        }
        None => {
            let own = word(file, form);
            match has_members {
                true => vec![own.clone(), of_member(b"*", &own), of_member(&own, b"*")],
                false => vec![own],
            }
        }
    }
}

/// The sort of the profile that is nearest to those of a pattern.
fn sort_of(pattern: &Pattern, form: &mut Form) -> Option<ProfileSort> {
    let mut found = Vec::new();
    for sort in &pattern.sorts {
        match sort {
            Sort::ByName => found.push(ProfileSort::ByName),
            Sort::ByAlignment => found.push(ProfileSort::ByAlignment),
            Sort::ByInitPriority => {
                let is_fine = pattern.glob.starts_with(b".init_array.") || pattern.glob.starts_with(b".fini_array.");
                form.say("by name, as priorities have five digits");
                if !is_fine {
                    form.doubt_of_objects("it is sorted by name, not by the number at its end");
                }
                form.is_of_names = true;
                found.push(ProfileSort::ByName);
            }
            Sort::None => form.say("SORT_NONE is no sort"),
            Sort::Reverse => form.doubt_of_objects("REVERSE: not in reverse"),
        }
    }
    let why = "the first sort alone: equals stay in the order of the link";
    match found.as_slice() {
        [first, second, ..] if first != second => form.doubt_of_objects(why),
        [_, _, ..] => form.doubt(why),
        _ => {}
    }
    found.first().copied()
}

#[cfg(test)]
mod tests {
    use super::*;

    fn pattern(glob: &str, sorts: &[Sort]) -> Spanned<Pattern> {
        let pattern =
            Pattern { glob: glob.into(), is_quoted: false, sorts: sorts.to_vec(), excluded_files: Vec::new() };
        Spanned::new(pattern, Span::default())
    }

    fn statement(file: &str, sections: Vec<Spanned<Pattern>>) -> InputStatement {
        InputStatement {
            is_kept: false,
            section_flags: Vec::new(),
            file: Some(pattern(file, &[])),
            sections: Some(sections),
        }
    }

    #[test]
    fn a_statement_of_the_profile_stays() {
        assert!(is_plain(&statement("*", vec![pattern(".text", &[]), pattern(".text.*", &[])])));
        assert!(is_plain(&statement("*x.o", vec![pattern(".text.*", &[Sort::ByName])])));
        assert!(!is_plain(&statement("*", vec![pattern(".a", &[Sort::ByName]), pattern(".b", &[])])));
        assert!(!is_plain(&statement("*", vec![pattern(".a", &[Sort::ByName, Sort::ByAlignment])])));
        assert!(!is_plain(&statement("lib.a:x.o", vec![pattern(".a", &[])])));
    }

    #[test]
    fn sorts_and_files_have_their_forms() {
        let both = form_of(&statement("*", vec![pattern(".a", &[Sort::ByName]), pattern(".b", &[])]), false, false);
        assert_eq!(both.text(false), "*(SORT_BY_NAME(.a)) *(.b)");
        assert!(both.is_in_doubt);
        let none = form_of(&statement("lib.a:x.o", vec![pattern(".a", &[Sort::None])]), false, false);
        assert_eq!(none.text(true), "KEEP(lib.a\\(x.o\\)(.a))");
        let priority = form_of(&statement("*", vec![pattern(".init_array.*", &[Sort::ByInitPriority])]), false, false);
        assert!(!priority.is_in_doubt);
        assert_eq!(priority.text(false), "*(SORT_BY_NAME(.init_array.*))");
    }

    #[test]
    fn a_form_takes_in_the_order_of_its_statements() {
        let form = form_of(&statement("*", vec![pattern(".b*", &[Sort::ByName]), pattern("*", &[])]), false, false);
        let sections: [(&[u8], &[u8], u64); 4] =
            [(b"x", b".c", 1), (b"x", b".b2", 1), (b"y", b".b1", 1), (b"y", b".a", 1)];
        assert_eq!(form.takes(&sections), [2, 1, 0, 3]);
    }
}

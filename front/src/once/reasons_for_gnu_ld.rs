//! Why `ldi` does not make a link that GNU ld may make, in one line. Faults of the linked program are faults to both.

use bstr::ByteSlice;

use super::messages;
use super::verdict::{Line, Verdict};
use crate::adapted::{Note, NoteKind};
use crate::command::{Command, Leniency, Orphans};
use crate::layout::evaluation::Fate;
use crate::layout::{Flags, Stop};
use crate::objects::{Binding, Home, LinkNames, Object, ObjectIndex, SectionIndex, SymbolIndex};
use crate::plan::LinkPlan;
use crate::report::rules::FaultRule;
use crate::report::{fault_lines, FaultLine, Value};

/// How sections begin whose references to what is left out are 0 to GNU ld.
const OF_TABLES: [&[u8]; 4] = [b".eh_frame", b".gcc_except_table", b".stab", b".debug"];
/// How names begin that GNU ld itself defines.
const OF_GNU_LD: [&[u8]; 4] = [b"__ehdr_start", b"_GLOBAL_OFFSET_TABLE_", b".startof.", b".sizeof."];
/// The owner of a name that the script assigns, in fault lines.
const SCRIPT: &[u8] = b"script";

/// Why GNU ld may make a link of whose script something is left.
pub(crate) fn left_constructs(plan: &LinkPlan) -> Option<String> {
    let left = plan.adapted.notes.iter().filter(|note| note.kind == NoteKind::Left);
    first(left.map(Note::to_string).collect())
}

/// Why GNU ld may make a link that has faults; `None` if they are the program's, which GNU ld has too.
pub(crate) fn faults(command: &Command, plan: &LinkPlan, faults: &[u8]) -> Option<String> {
    let stops = matches!(plan.evaluation, Err(Stop::Refused(_)));
    let is_own = |line: FaultLine<'_>| match &line.fault {
        // GNU ld has an entry of a table if a number does not fit.
        Some((FaultRule::FieldOverflow, words)) => !is_in_relaxed(plan, words),
        Some((FaultRule::TargetNotInOutput, words)) if is_placed(command, plan, words) => false,
        Some((rule, words)) => is_own(*rule, words, command, stops),
        None => true,
    };
    if fault_lines(faults).any(is_own) {
        return None;
    }
    let sentences = messages::of_faults(command, plan, faults, None);
    first(sentences.iter().map(|diagnostic| diagnostic.message()).collect())
}

/// Whether GNU ld places the section that a reference is to: one that no statement takes, empty or not.
fn is_placed(command: &Command, plan: &LinkPlan, words: &[Value<'_>]) -> bool {
    let (name, number) = match (words.first(), words.get(3)) {
        (Some(Value::Name(name)), Some(Value::Number(number))) => (*name, *number),
        _ => return false,
    };
    let target = target_of(plan.inputs.objects(), name, SymbolIndex(number as u32));
    let places = matches!(command.orphans, None | Some(Orphans::Place | Orphans::Warn));
    let is_here = |(object, section): (ObjectIndex, SectionIndex)| {
        let sections = plan.evaluation.iter().flat_map(|evaluation| &evaluation.sections);
        let mut found = sections.filter(|one| one.object == object && one.number() == Some(section));
        found.any(|one| one.fate != Fate::Discarded && !one.flags.has(Flags::EXCLUDE))
    };
    places && target.map_or(false, is_here)
}

/// The section that a symbol of an object is in, or that which has the definition of its name.
fn target_of(objects: &[Object], object: &[u8], symbol: SymbolIndex) -> Option<(ObjectIndex, SectionIndex)> {
    let (place, object) = objects.iter().enumerate().find(|(_, one)| one.name() == object)?;
    let symbol = object.symbol(symbol)?;
    let (place, home) = match symbol.binding {
        Binding::Local => (ObjectIndex(place as u32), symbol.home),
        _ => {
            let known = LinkNames::look_up(objects, [symbol.name]);
            let definition = known.definition(symbol.name)?;
            (definition.object, definition.home)
        }
    };
    match home {
        Home::Section(section) => Some((place, section)),
        _ => None,
    }
}

/// Whether a fault is one of an object with references that went by a table.
fn is_in_relaxed(plan: &LinkPlan, words: &[Value<'_>]) -> bool {
    let name = match words.first() {
        Some(Value::Name(name)) => *name,
        _ => return false,
    };
    plan.inputs.objects().iter().any(|object| object.name() == name && object.has_relaxed())
}

/// Why GNU ld may make a link whose image would be another than GNU ld's; of a flat one nothing shows what is changed.
pub(crate) fn verdict(plan: &LinkPlan, verdict: &Verdict) -> Option<String> {
    let texts = |lines: &mut dyn Iterator<Item = &Line>| first(lines.map(|line| line.text.clone()).collect());
    if verdict.differs {
        let first = texts(&mut verdict.lines.iter())?;
        return Some(format!("the image would be another than GNU ld's: {first}"));
    }
    let first = texts(&mut verdict.lines.iter().filter(|line| !line.is_of_entry)).filter(|_| plan.form.is_flat)?;
    Some(format!("a flat image would be another than GNU ld's: {first}"))
}

/// The first of some lines, and how many more there are.
fn first(lines: Vec<String>) -> Option<String> {
    let more = lines.len().saturating_sub(1);
    let first = lines.into_iter().next()?;
    Some(if more == 0 { first } else { format!("{first}, and {more} more") })
}

/// Whether a fault is the program's; `stops` says that GNU ld ends in its own layout.
fn is_own(rule: FaultRule, words: &[Value<'_>], command: &Command, stops: bool) -> bool {
    if command.lenient.contains(&Leniency::NoInhibitExec)
        || leniency(rule).map_or(false, |one| command.lenient.contains(&one))
    {
        return false;
    }
    let name = |at: usize| match words.get(at) {
        Some(Value::Name(name)) => *name,
        _ => b"",
    };
    let begins = |name: &[u8], fronts: &[&[u8]]| fronts.iter().any(|front| name.starts_with_str(front));
    match rule {
        FaultRule::DuplicateDefinition => name(1) != SCRIPT && name(2) != SCRIPT,
        FaultRule::Orphan => command.orphans == Some(Orphans::Error),
        FaultRule::UndefinedSymbol => !begins(name(3), &OF_GNU_LD),
        FaultRule::TargetNotInOutput => !begins(name(1), &OF_TABLES),
        FaultRule::NotReady
        | FaultRule::NoValue
        | FaultRule::MovedBack
        | FaultRule::RegionFull
        | FaultRule::PastAddressSpace
        | FaultRule::AssertionFailed => stops,
        // GNU ld does not have these, or has them for other sections.
        FaultRule::UndefinedEntry
        | FaultRule::EntryNotInOutput
        | FaultRule::ImageTooLong
        | FaultRule::AddressesOverlap
        | FaultRule::LoadAddressesOverlap => false,
        FaultRule::FieldOverflow => true,
    }
}

/// The option with which GNU ld goes on after a fault; it does after each with `--noinhibit-exec`.
fn leniency(rule: FaultRule) -> Option<Leniency> {
    match rule {
        FaultRule::DuplicateDefinition => Some(Leniency::MultipleDefinitions),
        FaultRule::UndefinedSymbol => Some(Leniency::UndefinedNames),
        FaultRule::FieldOverflow => Some(Leniency::RelocationOverflow),
        FaultRule::AddressesOverlap | FaultRule::LoadAddressesOverlap => Some(Leniency::NoCheckSections),
        _ => None,
    }
}

#[cfg(test)]
mod tests {
    use super::*;
    use crate::objects::tests::{code, WrittenSymbol};
    use crate::objects::Origin;
    use std::path::Path;

    fn own(line: &[u8], command: &Command, stops: bool) -> Vec<bool> {
        let of = |line: FaultLine<'_>| line.fault.map_or(true, |(rule, words)| is_own(rule, &words, command, stops));
        fault_lines(line).map(of).collect()
    }

    #[test]
    fn a_name_of_the_script_and_of_an_object_is_none() {
        let found = own(b"F1 a x.o y.o\nF1 a x.o script\nF1 a script y.o\n", &Command::default(), false);
        assert_eq!(found, [true, false, false]);
    }

    #[test]
    fn an_orphan_is_one_where_the_words_say_so() {
        let strict = Command { orphans: Some(Orphans::Error), ..Command::default() };
        assert_eq!(own(b"F3 a.o .more\n", &strict, false), [true]);
        assert_eq!(own(b"F3 a.o .more\n", &Command::default(), false), [false]);
    }

    #[test]
    fn a_fault_of_the_layout_is_one_where_gnu_ld_has_it() {
        for line in [&b"F5 2\n"[..], b"F7 .text r\n", b"F15 3 no\n"] {
            assert_eq!(own(line, &Command::default(), true), [true]);
            assert_eq!(own(line, &Command::default(), false), [false]);
        }
    }

    #[test]
    fn what_gnu_ld_is_to_let_pass_is_none() {
        let lenient = |one| Command { lenient: [one].iter().copied().collect(), ..Command::default() };
        let undefined = b"F12 a.o .text 0000000000000001 nowhere\n";
        assert_eq!(own(undefined, &Command::default(), false), [true]);
        assert_eq!(own(undefined, &lenient(Leniency::UndefinedNames), false), [false]);
        assert_eq!(own(undefined, &lenient(Leniency::MultipleDefinitions), false), [true]);
        assert_eq!(own(b"F1 a x.o y.o\n", &lenient(Leniency::MultipleDefinitions), false), [false]);
        assert_eq!(own(b"F1 a x.o y.o\n", &lenient(Leniency::NoInhibitExec), false), [false]);
    }

    #[test]
    fn names_and_tables_of_gnu_ld() {
        let lines = b"F12 a.o .text 0000000000000001 __ehdr_start\nF13 a.o .eh_frame 0000000000000020 3\n\
            F13 a.o .text 0000000000000020 3\nF13 entry\nF2 nothing\n";
        assert_eq!(own(lines, &Command::default(), false), [false, false, true, false, false]);
    }

    /// elflink.c: what refers to a section refers to that of the definition.
    #[test]
    fn a_reference_leads_to_the_section_of_a_definition() {
        let home = |number| Some((ObjectIndex(number), SectionIndex(1)));
        let object = |name: &str, symbols: &[WrittenSymbol<'_>]| {
            Object::new(name.into(), Origin::of_file(Path::new(name)), code(symbols).into())
        };
        let objects = [object("a.o", &[("x", 1, 0, 0, 0), ("own", 0, 1, 0, 0)]), object("b.o", &[("x", 1, 1, 0, 0)])];
        assert_eq!(target_of(&objects, b"a.o", SymbolIndex(1)), home(1));
        assert_eq!(target_of(&objects, b"a.o", SymbolIndex(2)), home(0));
        assert_eq!(target_of(&objects, b"a.o", SymbolIndex(3)), None);
        assert_eq!(target_of(&objects, b"c.o", SymbolIndex(1)), None);
    }

    #[test]
    fn the_first_line_has_the_number_of_others() {
        assert_eq!(first(vec!["a".into(), "b".into()]).as_deref(), Some("a, and 1 more"));
        assert_eq!(first(Vec::new()), None);
    }
}

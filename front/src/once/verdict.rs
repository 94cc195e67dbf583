//! Messages about where an image differs from GNU ld's, and whether it is written.

use super::maps::Maps;
use crate::adapted::{Note, Topic};
use crate::checker::{check, Checked, Difference, DifferenceKind, NoImage};
use crate::layout::evaluation::StatementKind;
use crate::layout::Stop;
use crate::plan::{prohibited, LinkPlan, Prohibited};
use crate::report::link_map::LinkMap;
use crate::script::tree::Span;

/// The input sections up to which their places are compared too, by the map.
const MAX_COMPARED_SECTIONS: usize = 5000;

/// A line to be said of an image.
#[derive(Clone, PartialEq, Eq, Debug)]
pub(crate) struct Line {
    /// The line.
    pub(crate) text: String,
    /// Whether it is about the entry alone, which a flat image does not have.
    pub(crate) is_of_entry: bool,
}

impl Line {
    fn of_note(note: &Note) -> Line {
        Line { text: note.to_string(), is_of_entry: note.topic == Topic::Entry }
    }

    /// A difference, in a text that says it.
    fn of_difference(difference: &Difference, text: String) -> Line {
        Line { text, is_of_entry: matches!(difference.kind, DifferenceKind::Entry { .. }) }
    }

    fn of_image(text: String) -> Line {
        Line { text, is_of_entry: false }
    }
}

/// What came of a comparison.
#[derive(Debug, Default)]
pub(crate) struct Verdict {
    /// The lines to be said.
    pub(crate) lines: Vec<Line>,
    /// Whether the image is another than GNU ld's, and nothing that is said explains it: then none is written.
    pub(crate) differs: bool,
    /// Whether the image is laid out as was evaluated.
    pub(crate) agrees: bool,
    /// The references that NOCROSSREFS prohibits: then none is written either.
    pub(crate) prohibited: Vec<Prohibited>,
    /// The maps of the link, once they were made.
    pub(crate) maps: Option<Maps>,
}

/// Whether the map is wanted for a comparison.
pub(crate) fn wants_map(plan: &LinkPlan, collects_sections: bool) -> bool {
    match &plan.evaluation {
        Ok(evaluation) => collects_sections || evaluation.sections.len() <= MAX_COMPARED_SECTIONS,
        Err(_) => false,
    }
}

/// Compares an image with what GNU ld makes of the script; says what is changed.
pub(crate) fn compare(plan: &LinkPlan, image: &[u8], map: &[u8], is_verbose: bool) -> Result<Verdict, NoImage> {
    let evaluation = match &plan.evaluation {
        Ok(evaluation) => evaluation,
        Err(stop) => return Ok(Verdict { lines: report_unknown(plan, stop), ..Verdict::default() }),
    };
    let map = if map.is_empty() { None } else { LinkMap::read(map).ok() };
    let mut checked = check(evaluation, plan.inputs.objects(), image, map.as_ref())?;
    if plan.form.is_flat {
        // `finish` leaves these out.
        let left_out = |found: &(u64, u64)| plan.form.left_out.contains(&(found.1, found.0));
        let is_left_out = |kind: &DifferenceKind| match kind {
            DifferenceKind::OtherSection { found, .. } => left_out(found),
            _ => false,
        };
        checked.differences.retain(|one| !is_left_out(&one.kind));
    }
    let mut verdict = if checked.differences.is_empty() {
        let is_beside = |note: &&Note| matches!(note.topic, Topic::Beside | Topic::Entry | Topic::NotLoaded);
        let beside = said_notes(plan).filter(is_beside);
        Verdict { lines: beside.map(Line::of_note).collect(), ..Verdict::default() }
    } else {
        report_differences(plan, &checked, is_verbose)
    };
    verdict.agrees = checked.differences.is_empty();
    let inputs = &plan.inputs;
    verdict.prohibited = prohibited(&inputs.scripts.reading.script, inputs.objects(), evaluation);
    if !verdict.differs {
        for one in checked.not_loaded.iter().filter(|one| plan.form.is_flat || one.is_memory_by_name) {
            let kind = match kind_of(plan, one.span) {
                Some(kind) => kind,
                None => continue,
            };
            let (here, there) = match plan.form.is_flat {
                true => ("are not in the image", "GNU ld's has them, not loaded"),
                false => ("are in no segment", "a segment of GNU ld's has their addresses"),
            };
            let what = format!("changed: {kind} of {}: its {:#x} bytes {here}; {there}", one.name, one.size);
            verdict.lines.push(Line::of_image(line(plan, one.span, &what)));
        }
        for one in &checked.merged {
            verdict.lines.push(Line::of_image(line(plan, one.span, &format!("changed: {one}"))));
        }
    }
    Ok(verdict)
}

/// The differences: with the constructs that explain them, if some are said otherwise.
fn report_differences(plan: &LinkPlan, checked: &Checked, is_verbose: bool) -> Verdict {
    let mut lines: Vec<Line> = said_notes(plan).map(Line::of_note).collect();
    let differences = &checked.differences;
    let line_of = |one: &Difference, before: &str, after: &str| {
        Line::of_difference(one, line(plan, one.span, &format!("{before}{one}{after}")))
    };
    if lines.is_empty() {
        lines.extend(differences.iter().map(|one| line_of(one, "", "")));
        return Verdict { lines, differs: true, ..Verdict::default() };
    }
    let shown = if is_verbose { differences.len() } else { 1 };
    let more = match differences.len() - shown {
        0 => String::new(),
        more => format!(", and {more} more"),
    };
    lines.extend(differences.iter().take(shown).map(|one| line_of(one, "changed: ", &more)));
    Verdict { lines, ..Verdict::default() }
}

/// Whether a line of what is changed is said at all: program headers and the form are written after the link.
pub(crate) fn is_said(plan: &LinkPlan, note: &Note) -> bool {
    match note.topic {
        Topic::Segments | Topic::Form => false,
        Topic::NotLoaded => !plan.form.is_flat,
        Topic::Statement | Topic::Beside | Topic::Entry => true,
    }
}

/// The notes of what is changed that are said.
fn said_notes(plan: &LinkPlan) -> impl Iterator<Item = &Note> {
    plan.adapted.changed().filter(|note| is_said(plan, note))
}

/// Why it is not known whether GNU ld makes the same.
fn report_unknown(plan: &LinkPlan, stop: &Stop) -> Vec<Line> {
    let mut lines: Vec<Line> = said_notes(plan).map(Line::of_note).collect();
    let place = line(plan, stop.span(), "");
    if lines.iter().any(|line| line.text.starts_with(&place)) {
        return lines;
    }
    lines.push(Line::of_image(match stop {
        Stop::Refused(_) => format!("{place}changed: GNU ld makes no image here: {stop}"),
        Stop::NotEvaluated(_) => {
            format!("{place}changed: the image was not compared with what GNU ld makes: {stop}")
        }
    }));
    lines
}

/// The type in the head of an output section, such as `(INFO)`, if it has one by which it is not loaded.
fn kind_of(plan: &LinkPlan, span: Option<Span>) -> Option<String> {
    let statement = plan.evaluation.as_ref().ok()?.statement_at(span?)?;
    if !matches!(statement.kind, StatementKind::Output(_)) {
        return None;
    }
    let text = plan.inputs.scripts.reading.source.slice(span?).to_string();
    let mut words = text.split('{').next()?.split(&['(', ')'][..]).map(str::trim);
    let word = words.find(|word| ["COPY", "DSECT", "INFO", "OVERLAY"].contains(word))?;
    Some(format!("({word})"))
}

/// A line with its place in the script.
fn line(plan: &LinkPlan, span: Option<Span>, text: &str) -> String {
    let scripts = &plan.inputs.scripts;
    match span {
        Some(span) => format!("{}: {text}", scripts.reading.source.place(span.start)),
        None => format!("{}:1: {text}", scripts.path.display()),
    }
}

#[cfg(test)]
mod tests {
    use super::*;
    use crate::adapted::NoteKind;

    #[test]
    fn a_line_is_of_the_entry_by_its_note_or_difference() {
        let place = crate::script::parse(std::path::Path::new("t.ld"), b"x = 1;").unwrap().source.place(0);
        let of_note = |topic| {
            let note = Note { kind: NoteKind::Changed, topic, place: place.clone(), sentence: "ENTRY(x)".into() };
            Line::of_note(&note).is_of_entry
        };
        assert!(of_note(Topic::Entry) && !of_note(Topic::Beside) && !of_note(Topic::Statement));
        let of_difference = |kind| Line::of_difference(&Difference { kind, span: None }, "x".into()).is_of_entry;
        assert!(of_difference(DifferenceKind::Entry { found: 1, wanted: 2 }));
        assert!(!of_difference(DifferenceKind::Gap { section: "the entry is ".into(), offset: 0 }));
    }
}

//! The script that is written: over the objects, or over several kinds of invented ones.

use bstr::{BStr, ByteSlice};

use super::invented::{self, Invented};
use crate::adapted::{adapted_script, has_names, AdaptedScript, Note, NoteKind, Request, Topic};
use crate::layout::{evaluate, named_files, Evaluation, RefusedReason, Settings, Stop};
use crate::objects::Object;
use crate::script::Reading;

/// The script in the profile: by what GNU ld makes of it over the objects, or over invented ones.
pub(super) fn adapted(
    reading: &Reading,
    objects: Option<&[Object]>,
) -> (AdaptedScript, Option<Result<Evaluation, Stop>>) {
    match objects {
        Some(objects) => {
            let evaluation = evaluate(&reading.script, objects, &Settings::default());
            let mut result = adapted_over(reading, objects, evaluation.as_ref().ok(), None);
            result.notes.extend(say_named_first(reading, objects));
            (result, Some(evaluation))
        }
        None => (adapted_over_any(reading), None),
    }
}

/// Says where GNU ld links objects in another order: those that input statements name without a wildcard come first.
fn say_named_first(reading: &Reading, objects: &[Object]) -> Option<Note> {
    let named = named_files(&reading.script).ok()?;
    let is_named = |name: &BStr| named.iter().any(|(own, _)| own.as_bstr() == name);
    let rest = objects.iter().map(Object::name).filter(|name| !is_named(name));
    let order = named.iter().map(|(name, _)| name.as_bstr()).chain(rest);
    let (first, span) = order
        .zip(objects)
        .find(|(name, own)| *name != own.name())
        .and_then(|(name, _)| named.iter().find(|(own, _)| own.as_bstr() == name).or_else(|| named.first()))?;
    let sentence = format!(
        "{first}: GNU ld links it before the objects that are given, where -T stands before them: give it first"
    );
    Some(Note { kind: NoteKind::Changed, topic: Topic::Statement, place: reading.source.place(span.start), sentence })
}

/// Without objects: what is written in the same words over several kinds of them. The rest is left.
fn adapted_over_any(reading: &Reading) -> AdaptedScript {
    let kinds = match invented::all(&reading.script) {
        Ok(kinds) => kinds,
        Err(stop) => return adapted_by_rules(reading, &stop),
    };
    let over = |index: usize, own: &Invented| {
        let others = kinds.iter().enumerate().filter(|(other, _)| *other != index);
        let others: Vec<&Evaluation> = others.map(|(_, other)| &other.evaluation).collect();
        adapted_over(reading, &own.objects, Some(&own.evaluation), Some(&others))
    };
    let mut results = kinds.iter().enumerate().map(|(index, own)| over(index, own));
    let mut result = results.next().unwrap_or_default();
    results.for_each(|other| unite(&mut result, &other));
    for (file, span) in named_files(&reading.script).unwrap_or_default() {
        let why = "GNU ld links it first, where -T stands before the objects: give it as the first object";
        let (place, sentence) = (reading.source.place(span.start), format!("{file}: {why}"));
        add_note(&mut result, Note { kind: NoteKind::Changed, topic: Topic::Statement, place, sentence });
    }
    result
}

/// If nothing is known of what GNU ld makes of the script, it is written by the rules alone.
fn adapted_by_rules(reading: &Reading, stop: &Stop) -> AdaptedScript {
    let mut result = adapted_over(reading, &[], None, Some(&[]));
    let (kind, why) = match stop {
        Stop::Refused(refused) if refused.reason == RefusedReason::Discard => return result,
        Stop::Refused(refused) if refused.reason.is_of_script() => (NoteKind::Left, "GNU ld refuses it"),
        Stop::Refused(refused) if matches!(refused.reason, RefusedReason::Insert(_)) && result.is_left() => {
            return result
        }
        _ => (NoteKind::Changed, "it is not known whether GNU ld makes the same of it"),
    };
    let place = reading.source.place(stop.span().map_or(0, |span| span.start));
    result.notes.push(Note { kind, topic: Topic::Statement, place, sentence: format!("{why}: {stop}") });
    result
}

/// Takes over what was said for other objects, and leaves the lines that are others for them.
fn unite(result: &mut AdaptedScript, other: &AdaptedScript) {
    let is_worse = |note: &&Note| matches!(note.kind, NoteKind::Changed | NoteKind::Left);
    for note in other.notes.iter().filter(is_worse) {
        if !result.notes.iter().any(|own| own.kind >= note.kind && own.place == note.place) {
            add_note(result, note.clone());
        }
    }
    let lines = |text: &[u8]| text.lines().map(<[u8]>::to_vec).collect::<Vec<_>>();
    let (own, others) = (lines(&result.text), lines(&other.text));
    for (index, line) in own.iter().enumerate() {
        if others.get(index) != Some(line) || own.len() != others.len() {
            let place = result.lines.get(index).cloned().unwrap_or_default();
            let sentence = "what stands here depends on the objects: give them by --objects".into();
            let note = Note { kind: NoteKind::Left, topic: Topic::Statement, place, sentence };
            if !result.notes.contains(&note) {
                add_note(result, note);
            }
        }
    }
}

/// Adds a note behind those of its line.
fn add_note(result: &mut AdaptedScript, note: Note) {
    let place = &note.place;
    let is_before = |own: &Note| own.place.path == place.path && own.place.line <= place.line;
    let at = result.notes.iter().rposition(is_before).map_or(result.notes.len(), |at| at + 1);
    result.notes.insert(at, note);
}

/// The script in the profile, by what GNU ld makes of it over objects. If these are invented, the objects of the
/// link may define any name.
fn adapted_over(
    reading: &Reading,
    objects: &[Object],
    evaluation: Option<&Evaluation>,
    others: Option<&[&Evaluation]>,
) -> AdaptedScript {
    let names: Vec<&BStr> = objects.iter().map(|object| object.name()).collect();
    let defines = |name: &BStr| {
        others.is_some() || objects.iter().any(|object| object.globals_named(name).any(|one| one.rank().is_some()))
    };
    adapted_script(Request {
        script: &reading.script,
        source: &reading.source,
        evaluation,
        others,
        objects: &names,
        is_followed: false,
        entry: None,
        has_default_entry: false,
        defines: &defines,
        has_names: &|section| has_names(objects, section),
        places_orphans: others.is_none(),
        sort_section: None,
        leaves_unique: false,
        kept: &[],
        keeps_more: false,
        collects_start_stop: false,
        without_entries: &[],
    })
}

//! `--sort-section`, `--sort-common` and `--unique`.

use bstr::BStr;

use super::{Command, WordsRefused};
use crate::layout::settings::{SectionSort, SortCommon};

/// A value of `--sort-section`.
pub(super) fn sort_section(value: &BStr) -> Result<SectionSort, WordsRefused> {
    match value.as_ref() {
        b"name" => Ok(SectionSort::Name),
        b"alignment" => Ok(SectionSort::Alignment),
        _ => Err(WordsRefused(format!("--sort-section: '{value}' is neither name nor alignment"))),
    }
}

/// A value of `--sort-common`; without one the greatest alignment is first.
pub(super) fn sort_common(value: &BStr) -> Result<SortCommon, WordsRefused> {
    match value.as_ref() {
        b"" | b"descending" => Ok(SortCommon::Descending),
        b"ascending" => Ok(SortCommon::Ascending),
        _ => Err(WordsRefused(format!("--sort-common: '{value}' is neither ascending nor descending"))),
    }
}

/// `--unique` holds for all orphans, with a pattern for sections of such names.
pub(super) fn add_unique(command: &mut Command, value: &BStr) {
    match (&mut command.unique, value.is_empty()) {
        (None, true) => command.unique = Some(Vec::new()),
        (None, false) => command.unique = Some(vec![value.to_owned()]),
        (Some(patterns), false) if !patterns.is_empty() => patterns.push(value.to_owned()),
        (Some(patterns), true) if patterns.is_empty() => {}
        (Some(_), _) => command.impossible.push("--unique: with a pattern and without one".into()),
    }
}

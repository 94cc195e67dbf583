//! The settings of a layout, from a command.

use bstr::{BString, ByteSlice};
use indexmap::IndexMap;

use super::default_headers::says_stack;
use super::symbols::strips_debugging;
use super::Scripts;
use crate::command::{Command, Input, Orphans};
use crate::layout::settings::{GcSettings, OrphanHandling};
use crate::layout::Settings;

/// The settings of a layout for a command and its scripts.
pub fn settings_of(command: &Command, scripts: &Scripts) -> Settings {
    let is_flat = super::is_flat(command, scripts);
    let mut settings = Settings {
        paged: !command.is_omagic && !command.is_nmagic,
        text_read_only: !command.is_omagic,
        undefined: undefined_of(command, scripts),
        entry: command.entry.clone(),
        section_starts: addresses(&command.section_starts),
        segment_starts: addresses(&command.segment_starts),
        starts_after: scripts.end_of(command.scripts_before_starts),
        has_stack: says_stack(command),
        keeps_empty: command.emits_relocations,
        script_first: scripts.is_own && script_is_first(command),
        flat: is_flat,
        merges: !is_flat,
        strips_debugging: strips_debugging(command),
        is_traditional: command.is_traditional || is_flat,
        ..Settings::default()
    };
    settings.set_pages(command.page_size, command.common_page_size);
    for word in &command.keywords {
        match word.as_bytes() {
            b"relro" => settings.relro = true,
            b"norelro" => settings.relro = false,
            b"separate-code" => settings.separate_code = true,
            b"noseparate-code" => settings.separate_code = false,
            _ => {}
        }
    }
    settings.sort_section = command.sort_section;
    settings.sort_common = command.sort_common;
    settings.unique = command.unique.clone();
    if command.orphans == Some(Orphans::Discard) {
        settings.orphans = OrphanHandling::Discard;
    }
    settings.gc = command.collects_sections.then(|| GcSettings {
        init: command.init.clone(),
        fini: command.fini.clone(),
        keeps_exported: command.keeps_exported,
        start_stop_gc: command.collects_start_stop,
        keeps_named_by_frames: false,
    });
    settings
}

fn addresses(starts: &IndexMap<BString, u64>) -> Vec<(BString, u64)> {
    starts.iter().map(|(name, address)| (name.clone(), *address)).collect()
}

fn undefined_of(command: &Command, scripts: &Scripts) -> Vec<BString> {
    let of_scripts = scripts.parts.iter().flat_map(|part| &part.undefined);
    command.undefined.iter().chain(&command.required).chain(of_scripts).cloned().collect()
}

/// Whether a script stands before the first object.
fn script_is_first(command: &Command) -> bool {
    let mut named = command.inputs.iter().filter(|input| !matches!(input, Input::StartGroup | Input::EndGroup));
    matches!(named.next(), Some(Input::Script(..)))
}

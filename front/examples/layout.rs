//! Prints what a script comes to over objects, for `tests/fuzz/layout.py`, which holds that to GNU ld:
//!
//! ```text
//! layout WORDS ..        as those of GNU ld: -T script, objects, -u, -e, --defsym, --gc-sections, -z, -N, -Ttext ..
//! layout -               many calls: a line of words separated by tabs each, the last line of an answer is `.`
//! ```
//!
//! An object is a path, or `ARCHIVE(MEMBER)=PATH`. `--time N` evaluates N times and says how long that took, `--check
//! IMAGE` compares an image with the layout.

use ldi_front::checker::check;
use ldi_front::layout::evaluation::{Base, Gap, StatementKind};
use ldi_front::layout::settings::{GcSettings, OrphanHandling, SectionSort, SortCommon};
use ldi_front::layout::{Evaluation, Layout, Settings, Stop};
use ldi_front::objects::{Object, Origin};
use ldi_front::script::{Disk, Reader};
use ldi_front::snapshot::Bytes;
use std::error::Error;
use std::ffi::OsStr;
use std::io::{self, BufRead, Write};
use std::path::Path;
use std::time::Instant;

type Failure = Box<dyn Error>;

/// What the words say.
#[derive(Default)]
struct Call {
    settings: Settings,
    /// Scripts and assignments in their order.
    scripts: Vec<(bool, String)>,
    objects: Vec<String>,
    max_page: Option<u64>,
    common_page: Option<u64>,
    times: usize,
    image: Option<String>,
}

fn number(text: &str) -> Result<u64, Failure> {
    let found = match text.strip_prefix("0x") {
        Some(digits) => u64::from_str_radix(digits, 16),
        None => text.parse(),
    };
    Ok(found?)
}

fn read_call(words: &[&str]) -> Result<Call, Failure> {
    let mut call = Call::default();
    let mut words = words.iter().copied();
    let mut has_script = false;
    while let Some(word) = words.next() {
        let (name, value) = word.split_once('=').unwrap_or((word, ""));
        let mut next = || words.next().ok_or("a word is missing");
        match name {
            "-T" => {
                call.settings.script_first = call.objects.is_empty();
                call.scripts.push((true, next()?.to_owned()));
                has_script = true;
            }
            "-u" => call.settings.undefined.push(next()?.into()),
            "-e" => call.settings.entry = Some(next()?.into()),
            "--defsym" => call.scripts.push((false, value.to_owned())),
            "--gc-sections" => call.settings.gc = Some(GcSettings::default()),
            "-N" => {
                call.settings.paged = false;
                call.settings.text_read_only = false;
            }
            "-n" => call.settings.paged = false,
            "--sort-common" => {
                let is_ascending = value.starts_with("asc");
                let sort = if is_ascending { SortCommon::Ascending } else { SortCommon::Descending };
                call.settings.sort_common = Some(sort);
            }
            "--sort-section" => {
                let sort = if value == "name" { SectionSort::Name } else { SectionSort::Alignment };
                call.settings.sort_section = Some(sort);
            }
            "--orphan-handling" if value == "discard" => call.settings.orphans = OrphanHandling::Discard,
            "--orphan-handling" => {}
            "-Ttext" | "-Tdata" | "-Tbss" | "-Ttext-segment" => {
                let segment = name.get(2..).unwrap_or_default();
                call.settings.segment_starts.push((segment.into(), number(value)?));
            }
            "--section-start" => {
                let (section, address) = value.split_once('=').ok_or("no address")?;
                call.settings.section_starts.push((section.into(), number(address)?));
            }
            "-z" => match next()?.split_once('=') {
                Some(("max-page-size", size)) => call.max_page = Some(number(size)?),
                Some(("common-page-size", size)) => call.common_page = Some(number(size)?),
                _ => {}
            },
            "-zseparate-code" | "-znoseparate-code" => call.settings.separate_code = name == "-zseparate-code",
            "-zrelro" | "-znorelro" => call.settings.relro = name == "-zrelro",
            "--check" => call.image = Some(next()?.to_owned()),
            "--time" => call.times = next()?.parse()?,
            "-o" => {
                next()?;
            }
            _ => call.objects.push(word.to_owned()),
        }
    }
    if !has_script {
        return Err("no script".into());
    }
    let (max_page, common_page) = (call.max_page, call.common_page);
    call.settings.set_pages(max_page, common_page);
    Ok(call)
}

fn read_object(number: usize, word: &str) -> Result<Object, Failure> {
    let (origin, path) = match word.split_once('=') {
        None => (Origin::of_file(Path::new(word)), word),
        Some((name, path)) => {
            let (archive, member) = name.trim_end_matches(')').split_once('(').ok_or("no member")?;
            let origin = Origin { path: path.into(), archive: Some(archive.into()), name: member.into() };
            (origin, path)
        }
    };
    let data = Bytes::from(std::fs::read(path)?);
    let name = format!("{}:{}", number, origin.full_name());
    Ok(Object::new(name.into(), origin, data))
}

fn answer(words: &[&str], out: &mut dyn Write) -> Result<(), Failure> {
    let call = read_call(words)?;
    let mut files = Disk;
    let mut reader = Reader::new(&mut files, Vec::new());
    for (is_script, text) in &call.scripts {
        if *is_script {
            reader.open(OsStr::new(text))?;
        } else {
            reader.defsym(text.as_bytes())?;
        }
    }
    let reading = reader.finish();
    let objects: Vec<Object> =
        call.objects.iter().enumerate().map(|(number, word)| read_object(number, word)).collect::<Result<_, _>>()?;
    let began = Instant::now();
    let layout = Layout::new(&reading.script, &objects, &call.settings);
    let rows = began.elapsed();
    let found = layout.and_then(|layout| {
        for _ in 1..call.times {
            layout.evaluate(&objects)?;
        }
        let began = Instant::now();
        let found = layout.evaluate(&objects);
        if call.times > 0 {
            eprintln!("rows {:?}, passes {:?}", rows, began.elapsed());
        }
        found
    });
    match found {
        Ok(found) => {
            print(&found, &objects, out)?;
            if let Some(path) = &call.image {
                let began = Instant::now();
                let checked = check(&found, &objects, &std::fs::read(path)?, None)?;
                for difference in &checked.differences {
                    let line = difference.span.map_or(0, |span| reading.source.place(span.start).line);
                    writeln!(out, "difference {} {}", line, difference)?;
                }
                for merged in &checked.merged {
                    writeln!(out, "merged {}", merged)?;
                }
                if call.times > 0 {
                    eprintln!("checked in {:?}", began.elapsed());
                }
            }
        }
        Err(stop) => {
            let kind = if matches!(stop, Stop::Refused(_)) { "refused" } else { "unknown" };
            let line = stop.span().map_or(0, |span| reading.source.place(span.start).line);
            writeln!(out, "{} {}: {}", kind, line, stop)?;
        }
    }
    Ok(())
}

fn gap_text(gap: &Gap) -> String {
    let fill: String = gap.fill.iter().flatten().map(|byte| format!("{:02x}", byte)).collect();
    format!("{:#x} {:#x} {}", gap.offset, gap.size, if fill.is_empty() { "-" } else { &fill })
}

fn print(found: &Evaluation, objects: &[Object], out: &mut dyn Write) -> io::Result<()> {
    for (output, place) in found.in_image() {
        writeln!(
            out,
            "section {} {:#x} {:#x} {:#x} {:#x} {} {:#x} {}",
            output.name,
            place.address,
            place.load,
            place.size,
            place.align,
            place.kind,
            place.bits,
            u8::from(place.has_bytes())
        )?;
        for id in &place.inputs {
            let section = match found.section(*id) {
                None => continue,
                Some(section) => section,
            };
            let object = objects.get(section.object.0 as usize).map(|object| object.origin().full_name());
            let address = place.address.wrapping_add(section.offset);
            let name = found.section_name(section);
            writeln!(out, "input {:#x} {:#x} {} {}", address, section.size, object.unwrap_or_default(), name)?;
        }
        for id in &output.body {
            match found.statement(*id).map(|statement| &statement.kind) {
                Some(StatementKind::Data { offset, size, value }) => {
                    writeln!(out, "data {:#x} {} {:#x}", offset, size, value)?;
                }
                Some(StatementKind::Dot { gap: Some(gap), .. }) => writeln!(out, "gap {}", gap_text(gap))?,
                Some(StatementKind::Input { gaps, .. }) => {
                    for gap in gaps {
                        writeln!(out, "gap {}", gap_text(gap))?;
                    }
                }
                _ => {}
            }
        }
    }
    for symbol in &found.symbols {
        if let Some(value) = symbol.value.filter(|value| value.base != Base::Nowhere) {
            writeln!(out, "symbol {} {:#x} {:?}", symbol.name, value.address, symbol.definer)?;
        }
    }
    writeln!(out, "entry {:#x}", found.entry.address.unwrap_or(0))?;
    writeln!(out, "headers {} {}", found.header_count, u8::from(found.wants_headers))?;
    Ok(())
}

fn main() -> Result<(), Failure> {
    let words: Vec<String> = std::env::args().skip(1).collect();
    let mut out = io::stdout();
    if words != ["-"] {
        let words: Vec<&str> = words.iter().map(String::as_str).collect();
        return answer(&words, &mut out);
    }
    for line in io::stdin().lock().lines() {
        let line = line?;
        let words: Vec<&str> = line.split('\t').collect();
        let mut text = Vec::new();
        if let Err(failure) = answer(&words, &mut text) {
            writeln!(text, "failed {}", failure)?;
        }
        text.extend_from_slice(b".\n");
        out.write_all(&text)?;
        out.flush()?;
    }
    Ok(())
}

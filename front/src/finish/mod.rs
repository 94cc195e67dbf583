//! Turns the proved image into the requested file: program headers, pages, names of sections, flat binaries.
//!
//! What is loaded stays as `ldi` answered it, byte for byte; `finish` ends with a test of that.

mod default_headers;
mod digest;
mod file_hash;
mod file_image;
mod flat;
mod image_headers;
mod inserted;
mod kept_tables;
mod loaded;
mod pages;
mod phdrs;
mod rights;
mod section_names;
mod symbols;
mod unloaded;

use bstr::BString;

use crate::session_client::SessionImage;
pub use default_headers::{MadeHeaders, MadeSection, MadeSegment, PT_GNU_PROPERTY};
pub use file_hash::{hash_of, place_of_note, HashKind};
pub use file_image::FileImage;
pub use flat::NoFlatImage;
pub use image_headers::NotAnImage;
pub use kept_tables::KeptTables;
pub use loaded::Differs;
pub use pages::TooFar;
pub use phdrs::{NotWritten, WantedSegment};
pub use rights::Rights;
pub use symbols::{LaidOut, LinkedNames, NameValues, NoTable, OtherSections, Strip, SymbolOptions, Symbols, Tables};
pub use unloaded::Unloaded;

/// The page size of the images of `ldi`.
pub const PAGE: u64 = 4096;
/// The bytes that a file has at most.
const MAX_FILE: u64 = 1 << 30;

/// The form of the file that is asked for.
#[derive(Clone, PartialEq, Eq, Debug)]
pub struct Form {
    /// What segments are aligned to in the file, a power of two: `-z max-page-size`, and 1 with `-n` and `-N`. Segments
    /// of `ldi` are aligned to 4,096 at least.
    pub page: u64,
    /// The program headers of PHDRS; `None` if the script has none, an empty list if they cannot be known.
    pub segments: Option<Vec<WantedSegment>>,
    /// Why the program headers of PHDRS cannot be known.
    pub segments_problem: Option<String>,
    /// The program headers if the script has no PHDRS; `None` for those of `ldi`.
    pub headers: Option<MadeHeaders>,
    /// Output sections that have another name in the image of `ldi`, and the names that they are to have.
    pub names: Vec<(BString, BString)>,
    /// The rights of output sections in GNU ld's file.
    pub rights: Vec<Rights>,
    /// Which symbols the file has.
    pub symbols: SymbolOptions,
    /// Whether debug information is left out (`--strip-debug`).
    pub strips_debugging: bool,
    /// Whether the bytes are wanted as they lie in memory, without headers (`--oformat binary`).
    pub is_flat: bool,
    /// Addresses and sizes of sections of NOLOAD, which a flat file does not have.
    pub left_out: Vec<(u64, u64)>,
}

impl Default for Form {
    fn default() -> Form {
        Form {
            page: PAGE,
            segments: None,
            segments_problem: None,
            headers: None,
            names: Vec::new(),
            rights: Vec::new(),
            symbols: SymbolOptions::default(),
            strips_debugging: false,
            is_flat: false,
            left_out: Vec::new(),
        }
    }
}

/// A message about a file that was made.
#[derive(Clone, PartialEq, Eq, Debug, thiserror::Error)]
pub enum FinishNote {
    /// PHDRS have a section in no segment.
    #[error("PHDRS: {0} is in no segment, so it is not loaded")]
    Outside(BString),
    /// The program headers of PHDRS are not those of the file.
    #[error("PHDRS: {0}: segments follow addresses, sizes and flags of the output sections")]
    NotWritten(NotWritten),
}

/// Why there is no such file.
#[derive(Debug, thiserror::Error)]
pub enum FinishError {
    /// What is there is no image of `ldi`.
    #[error(transparent)]
    NotAnImage(#[from] NotAnImage),
    /// The headers of the file cannot be loaded where GNU ld's are.
    #[error("the headers of the file are not in memory: {0}")]
    NoHeaders(NotWritten),
    /// Load addresses are too far apart.
    #[error(transparent)]
    NoFlatImage(#[from] NoFlatImage),
    /// Segments would lie too far apart in the file.
    #[error(transparent)]
    TooFar(#[from] TooFar),
    /// There is no table of symbols, or none of relocations.
    #[error(transparent)]
    NoTable(#[from] NoTable),
    /// The file would not load what `ldi` answered: a fault of this program.
    #[error(transparent)]
    Differs(#[from] Differs),
}

/// A file that was made.
#[derive(Debug)]
pub struct Finished {
    /// The file.
    pub file: FileImage,
    /// What there is to say.
    pub notes: Vec<FinishNote>,
}

/// Makes the file of a form from an image of `ldi`, with sections that are not loaded; without `symbols` its table of
/// symbols is that of the image.
///
/// # Errors
/// If the form has no file for this image, or the file would not load what the image loads.
pub fn finish(
    image: impl Into<SessionImage>,
    form: &Form,
    symbols: Option<&Symbols<'_>>,
    unloaded: Vec<Unloaded>,
) -> Result<Finished, FinishError> {
    let image = image.into();
    let tables = tables_of(&image, form, symbols, &unloaded, &mut KeptTables::default())?;
    finish_with(image, form, tables, unloaded)
}

/// Which tables of symbols and relocations a file has.
#[derive(Debug)]
pub enum FileTables {
    /// Those of the image.
    OfImage,
    /// These.
    Made(Tables),
    /// None, but these sections are others than in the image.
    None(OtherSections),
}

/// The tables of the file of an image. Of the sections that are not loaded the bytes do not count.
///
/// # Errors
/// If there is no such table.
pub fn tables_of(
    data: &SessionImage,
    form: &Form,
    symbols: Option<&Symbols<'_>>,
    unloaded: &[Unloaded],
    kept: &mut KeptTables,
) -> Result<FileTables, FinishError> {
    let symbols = match symbols {
        _ if form.is_flat => return Ok(FileTables::OfImage),
        Some(symbols) => symbols,
        None if form.symbols.emits_relocations => return Err(NoTable::Layout.into()),
        None if form.symbols.has_table() => return Ok(FileTables::OfImage),
        None => return Ok(FileTables::None(OtherSections::default())),
    };
    let image = image_headers::Image::read(data)?;
    if !form.symbols.has_table() {
        return Ok(FileTables::None(symbols::sections_of(&image, symbols, &form.names, unloaded)?));
    }
    let by_map = symbols.map.is_some();
    let known = if by_map { None } else { kept.of(data, &image, unloaded) };
    if let Some(known) = known {
        return Ok(FileTables::Made(known));
    }
    let found = symbols::table_of(&image, symbols, &form.symbols, &form.names, unloaded)?;
    if !by_map {
        kept.keep(data, unloaded, &found);
    }
    Ok(FileTables::Made(found))
}

/// The same as [`finish`], with tables that are made.
///
/// # Errors
/// As [`finish`].
pub fn finish_with(
    mut image: SessionImage,
    form: &Form,
    tables: FileTables,
    unloaded: Vec<Unloaded>,
) -> Result<Finished, FinishError> {
    if form.is_flat {
        let flat = flat::flat_binary(&image, &form.left_out)?;
        return Ok(Finished { file: FileImage::whole(flat), notes: Vec::new() });
    }
    rights::write(&mut image, &form.rights)?;
    let (mut notes, mut outside) = (Vec::new(), Vec::new());
    let mut plan = match (&form.segments, &form.headers) {
        (Some(segments), _) => with_segments(&image, form, segments, (&mut notes, &mut outside))?,
        (None, Some(headers)) => with_headers(&image, form, headers)?,
        (None, None) => pages::with_pages(&image, form.page, false)?,
    };
    section_names::rename(&image, &form.names, &mut plan)?;
    let sections = put_tables(&image, tables, &mut plan)?;
    unloaded::add(&image, unloaded, &mut plan)?;
    inserted::insert(&image, sections, &mut plan)?;
    let (segments, file) = match plan {
        None => return Ok(Finished { file: FileImage::whole(image), notes }),
        Some(plan) => (plan.segments.clone(), plan.file(image)),
    };
    loaded::check(&file, &segments, &outside)?;
    Ok(Finished { file, notes })
}

/// Puts an image in the place of that of a file, which is of the form and made of an image that had the same bytes but
/// for some that are loaded: these are where they were.
pub fn put_image(file: &mut FileImage, form: &Form, mut image: SessionImage) -> Result<(), FinishError> {
    rights::write(&mut image, &form.rights)?;
    file.replace_image(image);
    Ok(())
}

/// Gives the file its table of symbols, or takes that of the image away; gives how its sections differ.
fn put_tables(
    data: &[u8],
    tables: FileTables,
    plan: &mut Option<file_image::FilePlan>,
) -> Result<OtherSections, FinishError> {
    let (table, sections) = match tables {
        FileTables::OfImage => return Ok(OtherSections::default()),
        FileTables::Made(tables) => (Some(tables.symbols), tables.sections),
        FileTables::None(sections) => (None, sections),
    };
    let mut changed = file_image::plan_or_unchanged(data, plan.take())?;
    changed.symbols = Some(table);
    *plan = Some(changed);
    Ok(sections)
}

/// The file with the program headers of PHDRS, else with those of `ldi`, and a note of why; and the sections that are
/// in no segment, of which nothing is said if what is in them is never loaded (NOLOAD).
fn with_segments(
    image: &[u8],
    form: &Form,
    segments: &[WantedSegment],
    (notes, outside): (&mut Vec<FinishNote>, &mut Vec<BString>),
) -> Result<Option<file_image::FilePlan>, FinishError> {
    let problem = form.segments_problem.clone().map(NotWritten::Unknown);
    match problem.map_or_else(|| phdrs::write(image, segments, form.page), Err) {
        Ok(plan) => {
            for (name, place) in phdrs::outside(image, segments)? {
                notes.extend((!form.left_out.contains(&place)).then(|| FinishNote::Outside(name.clone())));
                outside.push(name);
            }
            Ok(Some(plan))
        }
        Err(NotWritten::NotAnImage(fault)) => Err(fault.into()),
        Err(fault) => {
            notes.push(FinishNote::NotWritten(fault));
            Ok(pages::with_pages(image, form.page, true)?)
        }
    }
}

/// The file with the program headers of GNU ld, else with those of `ldi`, if no headers are to be in memory.
fn with_headers(image: &[u8], form: &Form, headers: &MadeHeaders) -> Result<Option<file_image::FilePlan>, FinishError> {
    match default_headers::write(image, headers, &form.names) {
        Ok(plan) => Ok(Some(plan)),
        Err(NotWritten::NotAnImage(fault)) => Err(fault.into()),
        Err(fault) if headers.are_in_memory() => Err(FinishError::NoHeaders(fault)),
        Err(_) => pages::with_pages(image, form.page, false),
    }
}

#[cfg(test)]
mod tests;

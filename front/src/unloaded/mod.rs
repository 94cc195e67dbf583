//! Sections that are in the file and not loaded, as GNU ld writes them: debug information, `.comment`, and what a
//! script places so that it is not loaded.
//!
//! ```text
//! Evaluation, Objects --> Arrangement: what stands where, with strings merged
//! image, map          --> Places, Answered: where sections and names are in the image
//!                         both --> Targets --> relocate::apply() --> Unloaded
//! ```

mod arrange;
mod compressed;
mod image_sections;
mod kept_groups;
mod relocate;
mod section_places;
mod strings;
mod targets;

use std::collections::HashMap;
use std::sync::Mutex;

use bstr::{BStr, BString, ByteSlice};
use object::elf;

use crate::fast_map::FastSet;
use crate::finish::{LaidOut, LinkedNames, NameValues, Unloaded};
use crate::layout::ids::{OutputId, SectionId};
use crate::layout::{Evaluation, Flags};
use crate::objects::{Binding, LinkNames, Object, ObjectIndex, Relocation, SectionFlags, SectionIndex, SymbolIndex};
use crate::parallel::{map_all, threads};
use crate::report::link_map::LinkMap;
pub use arrange::Arrangement;
use arrange::{Arranged, Piece};
use image_sections::ImageSections;
pub(crate) use kept_groups::KeptGroups;
pub use relocate::Fault;
use section_places::SectionPlaces;
pub use strings::KeptStrings;
use targets::{Target, Targets};

/// From as many bytes on several threads write.
const MUCH: u64 = 1 << 20;
/// A list that 0 would end (bfd/reloc.c, `_bfd_clear_contents`).
const RANGES: &[u8] = b".debug_ranges";

/// Why such sections are not made.
#[derive(Clone, PartialEq, Eq, Debug, thiserror::Error)]
pub enum NotMade {
    /// A section is compressed in another way than by zlib, or stands beside data of the script.
    #[error("{0} is compressed")]
    Compressed(BString),
    /// There are too many bytes.
    #[error("sections that are not loaded are too large")]
    TooLarge,
    /// A relocation cannot be applied.
    #[error("{object}: {section}, which is not loaded: {fault}")]
    Relocation {
        /// The object.
        object: BString,
        /// Its section.
        section: BString,
        /// Why the relocation cannot be applied.
        fault: Fault,
    },
}

/// Where what is not loaded is, as it is in the file.
#[derive(Clone, Debug, Default)]
pub struct Spans {
    /// By input section.
    sections: Vec<Option<Span>>,
    outputs: HashMap<OutputId, u64>,
}

/// Where an input section is.
#[derive(Clone, Copy, Debug)]
struct Span {
    address: u64,
    size: u64,
    /// Whether it is left out, as its strings are in others.
    is_left_out: bool,
}

impl Spans {
    /// The places of what is not loaded, by a layout.
    pub fn of(evaluation: &Evaluation, objects: &[Object], strips_debugging: bool) -> Spans {
        let arrangement = Arrangement::of(evaluation, objects, strips_debugging, &mut KeptStrings::default());
        Spans::arranged(evaluation, &arrangement.unwrap_or_default())
    }

    /// Those of a layout as it was arranged.
    pub fn arranged(evaluation: &Evaluation, arrangement: &Arrangement<'_>) -> Spans {
        let mut spans = Spans { sections: vec![None; evaluation.sections.len()], outputs: HashMap::new() };
        for output in &arrangement.outputs {
            let mut last = None;
            for (piece, id) in output.pieces.iter().filter_map(|piece| Some((piece, piece.section?))) {
                let section = evaluation.section(id);
                let is_merged_away = section.map_or(false, |section| section.flags.has(Flags::EXCLUDE));
                let is_left_out = is_merged_away || arrangement.is_left_out(id);
                let (address, size) = (output.place.address.wrapping_add(piece.at), piece.size() as u64);
                if let Some(span) = spans.sections.get_mut(id.index()) {
                    *span = Some(Span { address, size, is_left_out });
                }
                let own = section.and_then(|section| section.output());
                if own != last {
                    spans.outputs.extend(own.map(|own| (own, output.size)));
                    last = own;
                }
            }
        }
        spans
    }

    /// The address and the size of an input section.
    pub fn section(&self, id: SectionId) -> Option<(u64, u64)> {
        self.get(id).map(|span| (span.address, span.size))
    }

    /// Whether an input section is left out, as its strings are in others.
    pub fn is_left_out(&self, id: SectionId) -> bool {
        self.get(id).map_or(false, |span| span.is_left_out)
    }

    fn get(&self, id: SectionId) -> Option<Span> {
        self.sections.get(id.index()).copied().flatten()
    }

    /// The size of an output section.
    pub fn output(&self, id: OutputId) -> Option<u64> {
        self.outputs.get(&id).copied()
    }
}

/// A link, as it was laid out.
#[derive(Clone, Copy)]
pub struct Link<'a> {
    /// The layout.
    pub evaluation: &'a Evaluation,
    /// The objects.
    pub objects: &'a [Object],
    /// How the image is laid out.
    pub laid_out: LaidOut<'a>,
    /// The names of the objects, if there is a list of them.
    pub names: Option<&'a LinkedNames>,
}

/// Sections that were made for the last image, from which another one differs in the bytes of some objects alone.
pub struct Before {
    /// The sections.
    pub unloaded: Vec<Unloaded>,
    /// By object, whether it has other bytes since.
    pub is_other: Vec<bool>,
}

impl Before {
    /// Whether a piece may have other bytes.
    fn is_other(&self, evaluation: &Evaluation, piece: &Piece<'_>) -> bool {
        let section = piece.section.and_then(|id| evaluation.section(id));
        section.map_or(false, |one| self.is_other.get(one.object.0 as usize) != Some(&false))
    }

    /// Whether what is arranged has the places of these sections: if bytes decide about places, that is not known.
    fn fits(&self, evaluation: &Evaluation, arrangement: &Arrangement<'_>) -> bool {
        let is_same = |(old, new): (&Unloaded, &Arranged<'_>)| old.name == new.output.name && old.size == new.size;
        let is_compressed = |id: SectionId| {
            let bits = evaluation.section(id).map_or(0, |section| section.bits);
            SectionFlags(bits).has(SectionFlags::COMPRESSED)
        };
        let mut pieces = arrangement.outputs.iter().flat_map(|output| &output.pieces);
        self.unloaded.len() == arrangement.outputs.len()
            && self.unloaded.iter().zip(&arrangement.outputs).all(is_same)
            && !pieces.any(|piece| piece.section.map_or(false, is_compressed) && self.is_other(evaluation, piece))
    }
}

/// The sections of a link that are not loaded. `map` gives the map of the image, if that is needed. If there are those
/// of `before`, only what objects with other bytes have in them is written.
///
/// # Errors
/// `NotMade` if a section cannot be made as GNU ld makes it; and the error of `map`.
pub fn unloaded<E: From<NotMade>>(
    link: Link<'_>,
    arrangement: &Arrangement<'_>,
    image: &[u8],
    before: Option<Before>,
    map: impl FnOnce() -> Result<Vec<u8>, E>,
) -> Result<Vec<Unloaded>, E> {
    let Link { evaluation, objects, laid_out, names } = link;
    let before = before.filter(|before| before.fits(evaluation, arrangement));
    let is_written = |piece: &Piece<'_>| before.as_ref().map_or(true, |before| before.is_other(evaluation, piece));
    let pieces = arrangement.outputs.iter().flat_map(|output| &output.pieces);
    let relocated: Vec<Relocated<'_>> =
        pieces.filter(|piece| is_written(piece)).filter_map(|piece| relocated(evaluation, objects, piece)).collect();
    if relocated.is_empty() {
        return Ok(written(arrangement, evaluation, before, None)?);
    }
    let values = names.and_then(|names| NameValues::read(image, names));
    let wanted = names_of(&relocated, values.as_ref());
    let answered = ImageSections::read(image, &wanted);
    let mut places = SectionPlaces::new(evaluation);
    match laid_out {
        LaidOut::AsEvaluated if places.are_in(&answered) => {}
        LaidOut::ByMap(map) => places = places.with_map(map, objects),
        LaidOut::AsEvaluated | LaidOut::Unknown => {
            let map = LinkMap::read(&map()?).unwrap_or_default();
            places = places.with_map(&map, objects);
        }
    }
    let missing = wanted.iter().filter(|name| answered.value(name).is_none());
    let names = LinkNames::look_up(objects, missing);
    let (image, kept) = (&answered, KeptGroups::of(objects));
    let targets = Targets { evaluation, objects, arrangement, places, values: values.as_ref(), image, names, kept };
    Ok(written(arrangement, evaluation, before, Some(&targets))?)
}

/// The object and the section of a piece that has relocations.
fn relocated<'a>(evaluation: &Evaluation, objects: &'a [Object], piece: &Piece<'_>) -> Option<Relocated<'a>> {
    let id = piece.section?;
    let section = evaluation.section(id)?;
    let (object, number) = (objects.get(section.object.0 as usize)?, section.number()?);
    object.has_relocations(number).then_some(Relocated { index: section.object, object, number })
}

/// A section with relocations.
#[derive(Clone, Copy)]
struct Relocated<'a> {
    index: ObjectIndex,
    object: &'a Object,
    number: SectionIndex,
}

/// The names that relocations of sections refer to, but for those that have a value already.
fn names_of<'a>(relocated: &[Relocated<'a>], values: Option<&NameValues<'_>>) -> FastSet<&'a BStr> {
    let of = |Relocated { index, object, number }: &Relocated<'a>| -> Vec<&'a BStr> {
        let is_unknown = |symbol: &SymbolIndex| values.map_or(true, |one| one.of_symbol(*index, *symbol).is_none());
        let mut is_referred = vec![false; object.symbol_count()];
        for one in object.relocations(*number) {
            if let Some(own) = is_referred.get_mut(one.symbol.0 as usize) {
                *own = true;
            }
        }
        let referred = (0..).zip(is_referred).filter(|(_, is_referred)| *is_referred);
        let nameless = referred.filter_map(|(number, _)| object.nameless_symbol(SymbolIndex(number)));
        let global = nameless.filter(|symbol| symbol.binding != Binding::Local).map(|symbol| symbol.index);
        global.filter(is_unknown).filter_map(|number| object.symbol(number)).map(|symbol| symbol.name).collect()
    };
    map_all(relocated, &of).into_iter().flatten().collect()
}

/// A piece and the bytes that it gets.
struct Job<'a> {
    piece: &'a Piece<'a>,
    /// The address of the piece.
    address: u64,
    bytes: &'a mut [u8],
}

/// The sections with their bytes.
fn written(
    arrangement: &Arrangement<'_>,
    evaluation: &Evaluation,
    mut before: Option<Before>,
    targets: Option<&Targets<'_>>,
) -> Result<Vec<Unloaded>, NotMade> {
    let mut old = before.as_mut().map_or_else(Vec::new, |before| std::mem::take(&mut before.unloaded)).into_iter();
    let mut contents = Vec::with_capacity(arrangement.outputs.len());
    for output in &arrangement.outputs {
        let size = if output.place.kind == elf::SHT_NOBITS { 0 } else { output.size };
        let size = usize::try_from(size).map_err(|_| NotMade::TooLarge)?;
        contents.push(old.next().map_or_else(|| vec![0; size], |old| old.content.into_vec()));
    }
    let is_written = |piece: &Piece<'_>| before.as_ref().map_or(true, |before| before.is_other(evaluation, piece));
    let mut jobs = Vec::new();
    for (output, content) in arrangement.outputs.iter().zip(&mut contents) {
        let (mut rest, mut end) = (content.as_mut_slice(), 0);
        for piece in &output.pieces {
            let start = usize::try_from(piece.at).map_err(|_| NotMade::TooLarge)?;
            let size = piece.size();
            if start < end || rest.len() < start - end + size {
                continue; // what overlaps, as of a section that has no bytes in the file
            }
            let (bytes, after) = rest.split_at_mut(start - end).1.split_at_mut(size);
            if is_written(piece) {
                jobs.push(Job { piece, address: output.place.address.wrapping_add(piece.at), bytes });
            }
            (rest, end) = (after, start + size);
        }
    }
    run(jobs, targets)?;
    let made = arrangement.outlines().into_iter().zip(contents);
    Ok(made.map(|(outline, content)| Unloaded { content: content.into(), ..outline }).collect())
}

/// Writes all pieces, by several threads if that is a lot; of several faults the first is given.
fn run(jobs: Vec<Job<'_>>, targets: Option<&Targets<'_>>) -> Result<(), NotMade> {
    let much = jobs.iter().map(|job| job.bytes.len() as u64).sum::<u64>() > MUCH;
    let threads = if much { threads() } else { 1 };
    if threads <= 1 {
        return jobs.into_iter().try_for_each(|job| write(job, targets));
    }
    let queue = Mutex::new(jobs.into_iter().enumerate());
    let next = || queue.lock().ok().and_then(|mut queue| queue.next());
    let faults: Mutex<Vec<(usize, NotMade)>> = Mutex::default();
    std::thread::scope(|scope| {
        for _ in 0..threads {
            scope.spawn(|| {
                while let Some((number, job)) = next() {
                    let fault = write(job, targets).err();
                    if let (Some(fault), Ok(mut faults)) = (fault, faults.lock()) {
                        faults.push((number, fault));
                    }
                }
            });
        }
    });
    let faults = faults.into_inner().unwrap_or_default();
    faults.into_iter().min_by_key(|(number, _)| *number).map_or(Ok(()), |(_, fault)| Err(fault))
}

/// Writes a piece.
fn write(job: Job<'_>, targets: Option<&Targets<'_>>) -> Result<(), NotMade> {
    let Job { piece, address, bytes } = job;
    bytes.copy_from_slice(&piece.bytes);
    apply(piece, address, bytes, targets)
}

/// Applies the relocations of a piece.
fn apply(piece: &Piece<'_>, address: u64, bytes: &mut [u8], targets: Option<&Targets<'_>>) -> Result<(), NotMade> {
    let (id, targets) = match (piece.section, targets) {
        (Some(id), Some(targets)) => (id, targets),
        _ => return Ok(()),
    };
    let section = match targets.evaluation.section(id) {
        Some(section) => section,
        None => return Ok(()),
    };
    let object = targets.objects.get(section.object.0 as usize);
    let (object, number) = match object.zip(section.number()) {
        Some(found) => found,
        None => return Ok(()),
    };
    let name = targets.evaluation.section_name(section);
    let placeholder = u64::from(name.as_bytes() == RANGES);
    let place = |offset| piece.shortened.map_or(Some(offset), |shortened| shortened.field(offset));
    let relocations = object.relocations(number);
    for one in relocations.filter_map(|one| Some(Relocation { offset: place(one.offset)?, ..one })) {
        let fault = |fault| NotMade::Relocation { object: object.name().to_owned(), section: name.to_owned(), fault };
        let value = value_of(targets, section.object, &one, address).map_err(fault)?;
        relocate::apply(bytes, &one, value, placeholder).map_err(fault)?;
    }
    Ok(())
}

/// What the field of a relocation gets; `None` if what it names is not in the output.
fn value_of(targets: &Targets<'_>, object: ObjectIndex, one: &Relocation, address: u64) -> Result<Option<u64>, Fault> {
    let field = relocate::Field::of(one.kind)?;
    Ok(match targets.of(object, one.symbol, one.addend as u64) {
        Target::Address(value) if field.map_or(false, |field| field.is_relative) => {
            Some(value.wrapping_sub(address.wrapping_add(one.offset)))
        }
        Target::Address(value) => Some(value),
        Target::Gone => None,
    })
}

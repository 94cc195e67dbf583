//! Symbol tables that are kept from one image to the next: they stay the same if only loaded bytes differ.

use std::ops::Range;

use super::image_headers::{Image, Segment};
use super::symbols::Tables;
use super::unloaded::Unloaded;
use crate::objects::Object;
use crate::session_client::SessionImage;
use crate::snapshot::Bytes;
use crate::unloaded::Before;

/// The tables of a link whose objects get other bytes and say the same of names, sections and relocations.
#[derive(Debug, Default)]
pub struct KeptTables {
    /// Whether they are kept at all, as such objects came.
    is_wanted: bool,
    made: Option<Made>,
}

/// Tables that were made.
#[derive(Debug)]
struct Made {
    /// The number of the answer with the image that they are of.
    answer: u64,
    /// The sections that are not loaded, and the objects that they are of.
    unloaded: Vec<Unloaded>,
    objects: Vec<Object>,
    /// Whether the bytes of these sections are there.
    is_whole: bool,
    tables: Tables,
}

impl KeptTables {
    /// The tables are kept from now on.
    pub fn want(&mut self) {
        self.is_wanted = true;
    }

    /// The tables are also those of an image that differs from that of the answer before in the build ID alone.
    pub fn follow(&mut self, image: &SessionImage) {
        if let Some(made) = self.made.as_mut().filter(|made| image.changed_since(made.answer).is_some()) {
            made.answer = image.number();
        }
    }

    /// The sections that are not loaded of the image before, if an image differs from that in loaded bytes alone: those
    /// of some objects that got other bytes. They are given once, until others are held.
    pub fn before(&mut self, answered: &SessionImage, objects: &[Object]) -> Option<Before> {
        let image = Image::read(answered).ok()?;
        let made = self.made.as_mut().filter(|made| made.is_whole && made.objects.len() == objects.len())?;
        if !made.is_of(answered, &image) {
            return None;
        }
        made.is_whole = false;
        let without_bytes = made.unloaded.iter().map(without_bytes).collect();
        let unloaded = std::mem::replace(&mut made.unloaded, without_bytes);
        let is_other = |(old, new): (&Object, &Object)| !old.data().is_identical(new.data());
        Some(Before { unloaded, is_other: made.objects.iter().zip(objects).map(is_other).collect() })
    }

    /// The tables, if they are those of an image with these sections that are not loaded.
    pub(super) fn of(&mut self, answered: &SessionImage, image: &Image<'_>, unloaded: &[Unloaded]) -> Option<Tables> {
        let made = self.made.as_mut()?;
        let are_same = made.unloaded.len() == unloaded.len()
            && made.unloaded.iter().zip(unloaded).all(|(one, other)| without_bytes(one) == without_bytes(other));
        if !are_same || !made.is_of(answered, image) {
            return None;
        }
        made.answer = answered.number();
        made.is_whole = false;
        Some(made.tables.clone())
    }

    /// Keeps tables that were made of an image.
    pub(super) fn keep(&mut self, answered: &SessionImage, unloaded: &[Unloaded], tables: &Tables) {
        let made = || Made {
            answer: answered.number(),
            unloaded: unloaded.iter().map(without_bytes).collect(),
            objects: Vec::new(),
            is_whole: false,
            tables: tables.clone(),
        };
        self.made = self.is_wanted.then(made);
    }

    /// Holds the sections that are not loaded, with their bytes, of an image of which there are tables.
    pub fn hold(&mut self, answered: &SessionImage, unloaded: &[Unloaded], objects: &[Object]) {
        if let Some(made) = self.made.as_mut().filter(|made| made.answer == answered.number()) {
            (made.unloaded, made.objects, made.is_whole) = (unloaded.to_vec(), objects.to_vec(), true);
        }
    }
}

impl Made {
    /// Whether an image differs in loaded bytes alone from that which these are of.
    fn is_of(&self, answered: &SessionImage, image: &Image<'_>) -> bool {
        let is_loaded = |range: &Range<usize>| image.segments.iter().any(|segment| has(segment, range));
        answered.changed_since(self.answer).map_or(false, |changed| changed.iter().all(is_loaded))
    }
}

fn without_bytes(one: &Unloaded) -> Unloaded {
    let Unloaded { kind, flags, address, align, entry_size, size, .. } = *one;
    Unloaded { name: one.name.clone(), kind, flags, address, align, entry_size, size, content: Bytes::default() }
}

/// Whether a range of the image is loaded by a segment.
fn has(segment: &Segment, range: &Range<usize>) -> bool {
    let end = segment.offset.saturating_add(segment.file_size);
    segment.offset <= range.start as u64 && range.end as u64 <= end
}

#[cfg(test)]
mod tests {
    use super::*;
    use crate::finish::tests::text_and_data;

    fn answer(changed: Option<Range<usize>>, number: u64) -> SessionImage {
        SessionImage::new(text_and_data(), Some(changed.into_iter().collect()), number)
    }

    fn is_known(kept: &mut KeptTables, answered: &SessionImage, unloaded: &[Unloaded]) -> bool {
        kept.of(answered, &Image::read(answered).unwrap(), unloaded).is_some()
    }

    #[test]
    fn tables_are_those_of_an_image_with_other_bytes_in_memory() {
        let segment = Image::read(&text_and_data()).unwrap().segments[0];
        let start = segment.offset as usize;
        let within = start..start + segment.file_size as usize;
        let tables = Tables { symbols: Default::default(), sections: Default::default() };
        let mut kept = KeptTables::default();
        kept.keep(&answer(None, 1), &[], &tables);
        assert!(!is_known(&mut kept, &answer(None, 2), &[]), "nobody wants them");
        kept.want();
        kept.keep(&answer(None, 2), &[], &tables);
        assert!(is_known(&mut kept, &answer(Some(within.clone()), 3), &[]));
        assert!(!is_known(&mut kept, &answer(None, 5), &[]), "an image was answered between");
        kept.follow(&answer(None, 4));
        assert!(is_known(&mut kept, &answer(None, 5), &[]));
        assert!(!is_known(&mut kept, &answer(Some(within.start..within.end + 1), 6), &[]), "not all is loaded");
        let one = Unloaded {
            name: ".comment".into(),
            kind: 1,
            flags: 0,
            address: 0,
            align: 1,
            entry_size: 0,
            size: 4,
            content: b"text".to_vec().into(),
        };
        assert!(!is_known(&mut kept, &answer(None, 6), std::slice::from_ref(&one)), "another section");
        kept.keep(&answer(None, 6), std::slice::from_ref(&one), &tables);
        let other = Unloaded { content: b"more".to_vec().into(), ..one.clone() };
        assert!(is_known(&mut kept, &answer(None, 7), &[other]));
        assert!(!is_known(&mut kept, &text_and_data().into(), &[]), "of no session");
    }
}

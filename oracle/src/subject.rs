//! The library under comparison. `Subject` is what the comparison calls;
//! `Library` is the static library behind it.

use crate::view::{Record, Stamp};
use exfat::{Geometry, GeometryWords, Setting};

/// A volume's bytes, its system map and its geometry, as a call gets them.
pub struct Lent<'bytes> {
    pub volume: &'bytes mut [u8],
    pub map: &'bytes [u8],
    pub geometry: Geometry,
}

pub trait Subject {
    /// The number and the count.
    fn free_count(&self, lent: Lent) -> (u32, u32);
    /// The number; the list is written in place.
    fn clusters(&self, lent: Lent, record: Record, list: &mut [u32]) -> u32;
    /// The number, the record and the hint, as for the next two.
    fn allocate(&self, lent: Lent, count: u32, near: Option<u32>, hint: u32) -> (u32, Record, u32);
    fn extend(&self, lent: Lent, record: Record, more: u32, hint: u32) -> (u32, Record, u32);
    fn shrink(&self, lent: Lent, record: Record, keep: u32, hint: u32) -> (u32, Record, u32);
    /// The number, the slot and the hint.
    fn new_file(&self, lent: Lent, file: &NewFile, hint: u32) -> (u32, u32, u32);
    /// The number and the hint, as for the next two.
    fn write(&self, lent: Lent, at: (u32, u64), data: &[u8], stamp: Stamp, hint: u32)
        -> (u32, u32);
    fn set_length(&self, lent: Lent, at: (u32, u64), stamp: Stamp, hint: u32) -> (u32, u32);
    fn remove(&self, lent: Lent, slot: u32, hint: u32) -> (u32, u32);
    fn read_number(&self, lent: Lent, zeros: &[u8], slot: u32) -> u32;
    /// The part, if `out` is set as the boundary says.
    fn read(&self, lent: Lent, zeros: &[u8], at: (u32, u64)) -> Option<Part>;
}

/// A part of a file: whether it is of the zeros, else of the volume; its first
/// byte there, and how many it has.
#[derive(Clone, Copy, Debug, Default, PartialEq, Eq)]
pub struct Part {
    pub of_zeros: bool,
    pub start: u64,
    pub length: u64,
}

/// What a new file is given.
#[derive(Clone, Debug, PartialEq, Eq)]
pub struct NewFile {
    pub name: Vec<u16>,
    pub attributes: u16,
    pub hash: u16,
    /// Created, modified, accessed.
    pub stamps: [Stamp; 3],
}

/// The static library.
pub struct Library;

fn record_words(record: Record) -> [u32; 4] {
    [
        record.first,
        record.last,
        record.count,
        u32::from(record.no_fat_chain),
    ]
}

/// Stands for the number of a call that did not set `out` as the boundary
/// says: no rule allows it, so it is reported as a difference.
const BROKEN_OUT: u32 = u32::MAX;

/// The number, if the words of `out` from `named` on are 0.
fn checked(number: u32, out: &[u32; 8], named: usize) -> u32 {
    let rest_is_zero = out[named..].iter().all(|word| *word == 0);
    if rest_is_zero {
        number
    } else {
        BROKEN_OUT
    }
}

fn record_answer(number: u32, out: [u32; 8]) -> (u32, Record, u32) {
    let flag_is_bit = out[3] <= 1;
    let record = Record {
        first: out[0],
        last: out[1],
        count: out[2],
        no_fat_chain: out[3] != 0,
    };
    let number = if flag_is_bit { number } else { BROKEN_OUT };
    (checked(number, &out, 5), record, out[4])
}

fn stamp_bytes(stamp: Stamp) -> [u8; 6] {
    let value = stamp.0.to_le_bytes();
    [value[0], value[1], value[2], value[3], stamp.1, stamp.2]
}

/// A new `out` holds junk, so that a word which a call leaves alone shows.
const OUT: [u32; 8] = [0xdead_beef; 8];

/// What a call of the library gets of a volume.
fn setting<'a>(map: &'a [u8], geometry: &'a GeometryWords) -> Setting<'a> {
    Setting { geometry, map }
}

impl Subject for Library {
    fn free_count(&self, lent: Lent) -> (u32, u32) {
        let (words, mut out) = (lent.geometry.words(), OUT);
        let number = exfat::free_count(lent.volume, setting(lent.map, &words), &mut out);
        (checked(number, &out, 1), out[0])
    }

    fn clusters(&self, lent: Lent, record: Record, list: &mut [u32]) -> u32 {
        let words = lent.geometry.words();
        exfat::clusters(
            lent.volume,
            setting(lent.map, &words),
            &record_words(record),
            list,
        )
    }

    fn allocate(&self, lent: Lent, count: u32, near: Option<u32>, hint: u32) -> (u32, Record, u32) {
        let (words, mut out) = (lent.geometry.words(), OUT);
        let number = exfat::allocate(
            lent.volume,
            setting(lent.map, &words),
            count,
            near,
            hint,
            &mut out,
        );
        record_answer(number, out)
    }

    fn extend(&self, lent: Lent, record: Record, more: u32, hint: u32) -> (u32, Record, u32) {
        let (words, mut out) = (lent.geometry.words(), OUT);
        let record = record_words(record);
        let number = exfat::extend(
            lent.volume,
            setting(lent.map, &words),
            &record,
            more,
            hint,
            &mut out,
        );
        record_answer(number, out)
    }

    fn shrink(&self, lent: Lent, record: Record, keep: u32, hint: u32) -> (u32, Record, u32) {
        let (words, mut out) = (lent.geometry.words(), OUT);
        let record = record_words(record);
        let number = exfat::shrink(
            lent.volume,
            setting(lent.map, &words),
            &record,
            keep,
            hint,
            &mut out,
        );
        record_answer(number, out)
    }

    fn new_file(&self, lent: Lent, file: &NewFile, hint: u32) -> (u32, u32, u32) {
        let (words, mut out) = (lent.geometry.words(), OUT);
        let file = exfat::NewFile {
            name: &file.name,
            attributes: file.attributes,
            hash: file.hash,
            stamps: file.stamps.map(stamp_bytes),
        };
        let number = exfat::new_file(
            lent.volume,
            setting(lent.map, &words),
            &file,
            hint,
            &mut out,
        );
        (checked(number, &out, 2), out[0], out[1])
    }

    fn write(
        &self,
        lent: Lent,
        at: (u32, u64),
        data: &[u8],
        stamp: Stamp,
        hint: u32,
    ) -> (u32, u32) {
        let (words, mut out) = (lent.geometry.words(), OUT);
        let stamp = stamp_bytes(stamp);
        let number = exfat::write(
            lent.volume,
            setting(lent.map, &words),
            at,
            data,
            &stamp,
            hint,
            &mut out,
        );
        (checked(number, &out, 1), out[0])
    }

    fn set_length(&self, lent: Lent, at: (u32, u64), stamp: Stamp, hint: u32) -> (u32, u32) {
        let (words, mut out) = (lent.geometry.words(), OUT);
        let number = exfat::set_length(
            lent.volume,
            setting(lent.map, &words),
            at,
            &stamp_bytes(stamp),
            hint,
            &mut out,
        );
        (checked(number, &out, 1), out[0])
    }

    fn remove(&self, lent: Lent, slot: u32, hint: u32) -> (u32, u32) {
        let (words, mut out) = (lent.geometry.words(), OUT);
        let number = exfat::remove(lent.volume, setting(lent.map, &words), slot, hint, &mut out);
        (checked(number, &out, 1), out[0])
    }

    fn read_number(&self, lent: Lent, zeros: &[u8], slot: u32) -> u32 {
        let words = lent.geometry.words();
        exfat::read_number(lent.volume, setting(lent.map, &words), zeros, slot)
    }

    fn read(&self, lent: Lent, zeros: &[u8], at: (u32, u64)) -> Option<Part> {
        let (words, mut out) = (lent.geometry.words(), OUT);
        exfat::read(lent.volume, setting(lent.map, &words), zeros, at, &mut out);
        let part = Part {
            of_zeros: out[0] != 0,
            start: out[1].into(),
            length: out[2].into(),
        };
        let as_told = out[0] <= 1 && checked(0, &out, 3) == 0;
        as_told.then_some(part)
    }
}

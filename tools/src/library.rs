//! The proved library: its calls as the tool makes them, and its numbers in
//! words.

use std::fmt;

/// What a call answers: 0 is success.
#[derive(Clone, Copy, Debug, PartialEq, Eq)]
pub struct Number(pub u32);

impl Number {
    pub const DONE: Number = Number(0);

    pub fn words(self) -> &'static str {
        match self.0 {
            0 => "done",
            1 => "geometry, volume length or map breaks the limits",
            2 => "a cluster number is outside the heap",
            3 => "a chain meets a FAT value that is neither a cluster nor the end",
            4 => "a chain does not end",
            5 => "count or last cluster is not that of the stream",
            6 => "a cluster of the stream is not marked in the bitmap",
            7 => "too few clusters",
            8 => "offset and data length add up to more than 2^64 - 1",
            9 => "a system cluster in the file, or a bitmap cluster in the root",
            10 => "no sound file entry at the slot",
            11 => "the entry is a directory's",
            12 => "the name is refused",
            13 => "an attribute outside 0x27",
            14 => "the list is shorter than the stream",
            15 => "the zero slice is empty or holds another byte",
            _ => "unknown",
        }
    }
}

impl fmt::Display for Number {
    fn fmt(&self, out: &mut fmt::Formatter) -> fmt::Result {
        write!(out, "{} {}", self.0, self.words())
    }
}

/// A stream: first and last cluster, how many, and whether they are a run.
#[derive(Clone, Copy, Debug, Default, PartialEq, Eq)]
pub struct Allocation {
    pub first: u32,
    pub last: u32,
    pub count: u32,
    pub no_fat_chain: bool,
}

pub use exfat::{Setting, Stamp};

pub fn free_count(vol: &[u8], setting: Setting) -> (Number, u32) {
    let mut out = [0; 8];
    let number = exfat::free_count(vol, setting, &mut out);
    (Number(number), out[0])
}

/// Lists a stream's clusters.
pub fn clusters(vol: &[u8], setting: Setting, stream: Allocation) -> Result<Vec<u32>, Number> {
    let record = [stream.first, stream.last, stream.count, u32::from(stream.no_fat_chain)];
    let mut list = vec![0; stream.count as usize];
    match Number(exfat::clusters(vol, setting, &record, &mut list)) {
        Number::DONE => Ok(list),
        number => Err(number),
    }
}

/// A cluster of the usual size: from the valid length on a file's parts are of
/// these.
static ZEROS: [u8; 4096] = [0; 4096];

/// A file's contents as they lie in the volume, part by part; or what refuses
/// the read.
pub fn contents<'a>(
    vol: &'a [u8],
    setting: Setting<'a>,
    slot: u32,
) -> Result<impl Iterator<Item = &'a [u8]> + 'a, Number> {
    match Number(exfat::read_number(vol, setting, &ZEROS, slot)) {
        Number::DONE => {
            let mut offset = 0;
            Ok(std::iter::from_fn(move || {
                let part = exfat::read(vol, setting, &ZEROS, (slot, offset), &mut [0; 8]);
                offset += part.len() as u64;
                (!part.is_empty()).then_some(part)
            }))
        }
        number => Err(number),
    }
}

/// What a new file is to be.
pub struct NewFile<'a> {
    pub name: &'a [u16],
    pub attributes: u16,
    pub hash: u16,
    pub stamp: Stamp,
}

/// Gives the number, the slot and the hint.
pub fn new_file(vol: &mut [u8], setting: Setting, file: &NewFile, hint: u32) -> (Number, u32, u32) {
    let NewFile { name, attributes, hash, stamp } = *file;
    let file = exfat::NewFile { name, attributes, hash, stamps: [stamp; 3] };
    let mut out = [0; 8];
    let number = exfat::new_file(vol, setting, &file, hint, &mut out);
    (Number(number), out[0], out[1])
}

/// Gives the number and the hint, as the next two calls do.
pub fn write(
    vol: &mut [u8],
    setting: Setting,
    slot: u32,
    offset: u64,
    data: &[u8],
    stamp: &Stamp,
    hint: u32,
) -> (Number, u32) {
    let mut out = [0; 8];
    let number = exfat::write(vol, setting, (slot, offset), data, stamp, hint, &mut out);
    (Number(number), out[0])
}

pub fn set_length(vol: &mut [u8], setting: Setting, slot: u32, length: u64, stamp: &Stamp, hint: u32) -> (Number, u32) {
    let mut out = [0; 8];
    let number = exfat::set_length(vol, setting, (slot, length), stamp, hint, &mut out);
    (Number(number), out[0])
}

pub fn remove(vol: &mut [u8], setting: Setting, slot: u32, hint: u32) -> (Number, u32) {
    let mut out = [0; 8];
    let number = exfat::remove(vol, setting, slot, hint, &mut out);
    (Number(number), out[0])
}

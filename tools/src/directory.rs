//! File entry sets of a directory's bytes (sections 6 and 7), read as 01 says.

use crate::library::Stamp;
use crate::text::plain;
use exfat::bytes::{u16_at, u32_at, u64_at};
use exfat::Geometry;

pub const ENTRY: usize = 32;
pub const IN_USE: u8 = 0x80;
pub const BITMAP: u8 = 0x81;
pub const UPCASE: u8 = 0x82;
pub const LABEL: u8 = 0x83;
pub const FILE: u8 = 0x85;
const STREAM: u8 = 0xc0;
const NAME: u8 = 0xc1;
const DIRECTORY: u16 = 0x10;

/// A sound entry set.
pub struct File {
    pub slot: u32,
    pub attributes: u16,
    pub created: Stamp,
    pub modified: Stamp,
    pub accessed: Stamp,
    pub name: Vec<u16>,
    pub hash: u16,
    pub no_fat_chain: bool,
    pub valid: u64,
    pub length: u64,
    pub first: u32,
}

impl File {
    /// The name as it is shown.
    pub fn name(&self) -> String {
        plain(&String::from_utf16_lossy(&self.name))
    }

    pub fn is_directory(&self) -> bool {
        self.attributes & DIRECTORY != 0
    }
}

pub fn entry(root: &[u8], slot: usize) -> &[u8] {
    &root[slot * ENTRY..(slot + 1) * ENTRY]
}

/// How many entries come before the first of type 0.
pub fn used_part(root: &[u8]) -> usize {
    root.chunks_exact(ENTRY).take_while(|entry| entry[0] != 0).count()
}

/// The slot of each in-use file entry before the first of type 0, with its
/// set, or with what is not sound in it.
pub fn files(root: &[u8], g: &Geometry) -> Vec<(u32, Result<File, String>)> {
    let slots = 0..used_part(root);
    let files = slots.filter(|slot| entry(root, *slot)[0] == FILE);
    files.map(|slot| (slot as u32, sound(root, g, slot))).collect()
}

/// The set's checksum, over all bytes but its own two.
fn checksum(set: &[u8]) -> u16 {
    let bytes = set.iter().enumerate().filter(|(at, _)| *at != 2 && *at != 3);
    bytes.fold(0u16, |sum, (_, byte)| sum.rotate_right(1).wrapping_add(u16::from(*byte)))
}

fn stamp(file: &[u8], value: usize, increment: Option<usize>, offset: usize) -> Stamp {
    let increment = increment.map_or(0, |at| file[at]);
    [file[value], file[value + 1], file[value + 2], file[value + 3], increment, file[offset]]
}

/// The sound set at a slot (01: a sound file entry), or the first cause why it
/// is not.
fn sound(root: &[u8], g: &Geometry, slot: usize) -> Result<File, String> {
    let file = entry(root, slot);
    let secondaries = usize::from(file[1]);
    if !(2..=18).contains(&secondaries) {
        return Err(format!("SecondaryCount {secondaries} is not in 2..18"));
    }
    let Some(set) = root.get(slot * ENTRY..(slot + 1 + secondaries) * ENTRY) else {
        return Err("the set goes past the end of the root".into());
    };
    if checksum(set) != u16_at(set, 2) {
        return Err(format!("the set's checksum is {:#06x} and should be {:#06x}", u16_at(set, 2), checksum(set)));
    }
    let stream = &set[ENTRY..2 * ENTRY];
    if stream[0] != STREAM || stream[1] & 1 == 0 {
        return Err("the second entry is no stream entry with AllocationPossible".into());
    }
    let units = usize::from(stream[3]);
    if units == 0 || secondaries != 1 + units.div_ceil(15) {
        return Err(format!("NameLength {units} does not fit SecondaryCount {secondaries}"));
    }
    let names = &set[2 * ENTRY..];
    if names.chunks_exact(ENTRY).any(|name| name[0] != NAME || name[1] & 3 != 0) {
        return Err("a name entry has another type or flags 0 or 1 set".into());
    }
    let parts = names.chunks_exact(ENTRY).flat_map(|name| name[2..].chunks_exact(2));
    let found = File {
        slot: slot as u32,
        attributes: u16_at(file, 4),
        created: stamp(file, 8, Some(20), 22),
        modified: stamp(file, 12, Some(21), 23),
        accessed: stamp(file, 16, None, 24),
        name: parts.map(|unit| u16_at(unit, 0)).take(units).collect(),
        hash: u16_at(stream, 4),
        no_fat_chain: stream[1] & 2 != 0,
        valid: u64_at(stream, 8),
        first: u32_at(stream, 20),
        length: u64_at(stream, 24),
    };
    sound_stream(&found, g)?;
    Ok(found)
}

fn sound_stream(file: &File, g: &Geometry) -> Result<(), String> {
    let File { valid, length, first, .. } = *file;
    if valid > length {
        return Err(format!("the valid length {valid} is above the length {length}"));
    }
    if length == 0 {
        if first != 0 || file.no_fat_chain {
            return Err(format!("an empty file with first cluster {first} or NoFatChain"));
        }
        return Ok(());
    }
    if !g.heap().contains(&first) {
        return Err(format!("the first cluster {first} is not in the heap"));
    }
    let clusters = g.clusters_for(length);
    let room = if file.no_fat_chain { g.heap().end - first } else { g.cluster_count };
    if clusters > u64::from(room) {
        return Err(format!("the length {length} takes {clusters} clusters, past the heap"));
    }
    Ok(())
}

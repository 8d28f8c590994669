//! Directory entry sets written out from the specification, for the volumes
//! that the maker makes.

use crate::rng::Rng;
use crate::view::Stamp;

/// The checksum over an entry set (section 6.3.3).
pub fn set_checksum(set: &[u8]) -> u16 {
    let mut sum = 0u16;
    for (index, byte) in set.iter().enumerate() {
        if index != 2 && index != 3 {
            sum = sum.rotate_right(1).wrapping_add(u16::from(*byte));
        }
    }
    sum
}

pub fn seal(set: &mut [u8]) {
    let sum = set_checksum(set);
    set[2..4].copy_from_slice(&sum.to_le_bytes());
}

/// The up-case table of the maker's volumes: only a to z change (section
/// 7.2.5, Table 24), in the compressed form.
pub fn upcase_table() -> Vec<u8> {
    let mut words = vec![0xffff, 0x61];
    words.extend(0x41..=0x5a);
    words.extend([0xffff, (0x1_0000 - 0x7b) as u16]);
    words
        .iter()
        .flat_map(|word: &u16| word.to_le_bytes())
        .collect()
}

/// The checksum of the up-case table (section 7.2.2).
pub fn table_checksum(bytes: &[u8]) -> u32 {
    bytes.iter().fold(0u32, |sum, byte| {
        sum.rotate_right(1).wrapping_add(u32::from(*byte))
    })
}

fn upcase(unit: u16) -> u16 {
    if (0x61..=0x7a).contains(&unit) {
        unit - 0x20
    } else {
        unit
    }
}

/// NameHash (section 7.6.4) over the up-cased name.
pub fn name_hash(name: &[u16]) -> u16 {
    name.iter()
        .flat_map(|unit| upcase(*unit).to_le_bytes())
        .fold(0u16, |sum, byte| {
            sum.rotate_right(1).wrapping_add(u16::from(byte))
        })
}

/// A stamp that the original takes: a true date, and any UTC offset.
pub fn random_stamp(rng: &mut Rng) -> Stamp {
    let value = rng.below(128) << 25
        | rng.range(1, 12) << 21
        | rng.range(1, 28) << 16
        | rng.below(24) << 11
        | rng.below(60) << 5
        | rng.below(30);
    let offset = if rng.percent(30) {
        0
    } else {
        0x80 | rng.below(128) as u8
    };
    (value as u32, rng.below(200) as u8, offset)
}

/// A name that differs from every other with another number, in any case.
pub fn random_name(rng: &mut Rng, number: u64, length: usize) -> Vec<u16> {
    let mut name: Vec<u16> = format!("{number}_").encode_utf16().collect();
    name.truncate(length.max(1));
    while name.len() < length {
        match rng.below(12) {
            0 => name.push(rng.range(0x21, 0x7e) as u16),
            1 => name.push(rng.range(0xa0, 0xd7ff) as u16),
            2 if length - name.len() >= 2 => name.extend([0xd83d, 0xde00]),
            _ => name.push(rng.range(0x61, 0x7a) as u16),
        }
        let last = name[name.len() - 1];
        if [34, 42, 47, 58, 60, 62, 63, 92, 124].contains(&last) {
            name.pop();
        }
    }
    name
}

/// Lengths of names around the borders of 15 units, and up to 255.
pub fn random_name_length(rng: &mut Rng) -> usize {
    match rng.below(10) {
        0..=4 => rng.range(4, 14) as usize,
        5 | 6 => rng.pick(&[14, 15, 16, 29, 30, 31]),
        7 | 8 => rng.range(17, 60) as usize,
        _ => rng.pick(&[240, 241, 254, 255, 120, 195]),
    }
}

/// A stream as an entry set records it.
#[derive(Clone, Copy, Debug)]
pub struct StreamFields {
    pub flags: u8,
    pub first: u32,
    pub valid: u64,
    pub length: u64,
}

fn put_stamp(set: &mut [u8], stamp: Stamp, places: (usize, Option<usize>, usize)) {
    set[places.0..places.0 + 4].copy_from_slice(&stamp.0.to_le_bytes());
    if let Some(place) = places.1 {
        set[place] = stamp.1;
    }
    set[places.2] = stamp.2;
}

/// A file or directory's entry set. With `junk`, the reserved bytes and the
/// units past the name hold anything.
pub fn file_set(
    rng: &mut Rng,
    name: &[u16],
    attributes: u16,
    stream: StreamFields,
    junk: bool,
) -> Vec<u8> {
    let names = name.len().div_ceil(15);
    let mut set = vec![0; (2 + names) * 32];
    if junk {
        rng.fill(&mut set);
    }
    set[0] = 0x85;
    set[1] = 1 + names as u8;
    set[4..6].copy_from_slice(&attributes.to_le_bytes());
    put_stamp(&mut set, random_stamp(rng), (8, Some(20), 22));
    put_stamp(&mut set, random_stamp(rng), (12, Some(21), 23));
    put_stamp(&mut set, random_stamp(rng), (16, None, 24));
    set[32] = 0xc0;
    set[33] = stream.flags;
    set[35] = name.len() as u8;
    set[36..38].copy_from_slice(&name_hash(name).to_le_bytes());
    set[40..48].copy_from_slice(&stream.valid.to_le_bytes());
    set[52..56].copy_from_slice(&stream.first.to_le_bytes());
    set[56..64].copy_from_slice(&stream.length.to_le_bytes());
    for (index, entry) in set[64..].chunks_exact_mut(32).enumerate() {
        entry[0] = 0xc1;
        entry[1] &= !3;
        for (place, unit) in name[index * 15..].iter().take(15).enumerate() {
            entry[2 + place * 2..4 + place * 2].copy_from_slice(&unit.to_le_bytes());
        }
    }
    seal(&mut set);
    set
}

/// The entry of an allocation bitmap (section 7.1).
pub fn bitmap_entry(which: u8, first: u32, length: u64) -> Vec<u8> {
    let mut entry = vec![0; 32];
    entry[0] = 0x81;
    entry[1] = which;
    entry[20..24].copy_from_slice(&first.to_le_bytes());
    entry[24..32].copy_from_slice(&length.to_le_bytes());
    entry
}

/// The entry of the up-case table (section 7.2).
pub fn upcase_entry(first: u32) -> Vec<u8> {
    let table = upcase_table();
    let mut entry = vec![0; 32];
    entry[0] = 0x82;
    entry[4..8].copy_from_slice(&table_checksum(&table).to_le_bytes());
    entry[20..24].copy_from_slice(&first.to_le_bytes());
    entry[24..32].copy_from_slice(&(table.len() as u64).to_le_bytes());
    entry
}

/// A volume label (section 7.3).
pub fn label_entry() -> Vec<u8> {
    let mut entry = vec![0; 32];
    entry[0] = 0x83;
    entry[1] = 4;
    for (index, unit) in "melt".encode_utf16().enumerate() {
        entry[2 + index * 2..4 + index * 2].copy_from_slice(&unit.to_le_bytes());
    }
    entry
}

/// A volume GUID (section 7.5).
pub fn guid_entry(rng: &mut Rng) -> Vec<u8> {
    let mut entry = vec![0; 32];
    rng.fill(&mut entry[6..22]);
    entry[0] = 0xa0;
    entry[6] |= 1;
    seal(&mut entry);
    entry
}

/// A benign primary that nobody knows, with benign secondaries.
pub fn benign_set(rng: &mut Rng, secondaries: u8) -> Vec<u8> {
    let mut set = vec![0; 32 * (1 + usize::from(secondaries))];
    rng.fill(&mut set);
    set[0] = 0xa1;
    set[1] = secondaries;
    for entry in set[32..].chunks_exact_mut(32) {
        entry[0] = 0xe1;
    }
    seal(&mut set);
    set
}

/// An entry that is not in use and does not end the directory.
pub fn unused_entry(rng: &mut Rng) -> Vec<u8> {
    let mut entry = vec![0; 32];
    rng.fill(&mut entry);
    entry[0] = rng.pick(&[0x05, 0x40, 0x41, 0x01, 0x02, 0x03, 0x20, 0x21, 0x7f]);
    entry
}

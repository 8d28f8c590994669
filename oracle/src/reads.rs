//! A file read back. The original's reader of files is not among its sources,
//! but its reader of volumes is: it gives a file's clusters in stream order
//! and its two lengths, or an error. From these follow the parts that the
//! library has to give (02, 2027-01): each as long as the clusters' numbers
//! rise by one, and zeros from the valid length to the length.

use crate::differences::{in_inactive_bitmap, Difference};
use crate::maker::{Health, Volume};
use crate::rng::Rng;
use crate::sides::Numbers;
use crate::subject::{Lent, Part, Subject};
use crate::view::View;
use exfat::Geometry;
use original::{Error, Mount, Opened};

/// What the original says of the file at a slot.
#[derive(Clone, Debug, PartialEq, Eq)]
pub enum Found {
    Opened(Opened),
    Refused(Error),
    NotMounted(Error),
}

/// What came of a read on both sides.
pub struct Reading {
    pub slot: u32,
    pub zeros: usize,
    pub number: u32,
    pub found: Found,
    /// In what the two sides differ.
    pub wrong: Option<String>,
    pub parts: Parts,
}

/// How many parts were compared.
#[derive(Clone, Copy, Debug, Default)]
pub struct Parts {
    pub of_volume: u64,
    pub of_zeros: u64,
    /// Files of which every part was fetched, one after the other from 0.
    pub whole: u64,
}

/// Parts fetched in a row at the most: each takes a walk of the whole chain.
const ROW: usize = 40;

/// The volume on the library's side, to be read.
pub struct Side<'run> {
    pub subject: &'run dyn Subject,
    pub volume: &'run mut [u8],
    pub map: &'run [u8],
    pub geometry: Geometry,
}

impl Side<'_> {
    fn lent(&mut self) -> Lent<'_> {
        Lent {
            volume: self.volume,
            map: self.map,
            geometry: self.geometry,
        }
    }

    pub fn number(&mut self, zeros: &[u8], slot: u32) -> u32 {
        let subject = self.subject;
        subject.read_number(self.lent(), zeros, slot)
    }

    fn part(&mut self, zeros: &[u8], slot: u32, offset: u64) -> Result<Part, String> {
        let subject = self.subject;
        let part = subject.read(self.lent(), zeros, (slot, offset));
        part.ok_or_else(|| "the words of a part".to_string())
    }

    /// A refused read gives an empty part, whatever the offset.
    pub fn refused(&mut self, zeros: &[u8], slot: u32, rng: &mut Rng) -> Result<(), String> {
        for offset in [0, rng.below(1 << 20), u64::MAX] {
            let part = self.part(zeros, slot, offset)?;
            if part != Part::default() {
                return Err(format!("a refused read gives {part:?} at {offset}"));
            }
        }
        Ok(())
    }

    /// Fetches parts one after the other from 0, then some more, and holds
    /// each against what the original's clusters say. `theirs` are the bytes
    /// of its device.
    pub fn accepted(
        &mut self,
        mount: &Mount,
        theirs: &[u8],
        file: &Opened,
        zeros: &[u8],
        slot: u32,
        rng: &mut Rng,
    ) -> Result<Parts, String> {
        let mut parts = Parts::default();
        let mut offset = 0;
        for _ in 0..ROW {
            let part = self.compare(mount, theirs, file, zeros, slot, offset)?;
            parts.count(&part);
            offset += part.length;
            if part.length == 0 {
                parts.whole = 1;
                break;
            }
        }
        if parts.whole == 1 && offset != file.length {
            return Err(format!("the parts end at {offset}"));
        }
        for offset in offsets(file, self.geometry.cluster_size() as u64, rng) {
            let part = self.compare(mount, theirs, file, zeros, slot, offset)?;
            parts.count(&part);
        }
        Ok(parts)
    }

    fn compare(
        &mut self,
        mount: &Mount,
        theirs: &[u8],
        file: &Opened,
        zeros: &[u8],
        slot: u32,
        offset: u64,
    ) -> Result<Part, String> {
        let part = self.part(zeros, slot, offset)?;
        let size = self.geometry.cluster_size() as u64;
        let wanted = wanted(mount, file, size, zeros.len() as u64, offset);
        if part != wanted {
            return Err(format!("{part:?} at {offset}, by the clusters {wanted:?}"));
        }
        let (start, end) = (part.start as usize, (part.start + part.length) as usize);
        if !part.of_zeros && self.volume[start..end] != theirs[start..end] {
            return Err(format!("the bytes of {part:?} at {offset}"));
        }
        Ok(part)
    }
}

impl Parts {
    fn count(&mut self, part: &Part) {
        if part.length > 0 {
            self.of_volume += u64::from(!part.of_zeros);
            self.of_zeros += u64::from(part.of_zeros);
        }
    }

    pub fn add(&mut self, other: Parts) {
        self.of_volume += other.of_volume;
        self.of_zeros += other.of_zeros;
        self.whole += other.whole;
    }
}

/// The part at an offset, by the original's clusters and places.
fn wanted(mount: &Mount, file: &Opened, size: u64, zeros: u64, offset: u64) -> Part {
    if offset >= file.length {
        return Part::default();
    }
    if offset >= file.valid {
        return Part {
            of_zeros: true,
            start: 0,
            length: zeros.min(file.length - offset),
        };
    }
    let from = offset / size;
    let rest = &file.clusters[from as usize..];
    let rising = rest.windows(2).take_while(|pair| pair[1] == pair[0] + 1);
    let end = (from + 1 + rising.count() as u64) * size;
    let place = mount.place(rest[0]).expect("a cluster of the heap");
    Part {
        of_zeros: false,
        start: place + offset % size,
        length: end.min(file.valid) - offset,
    }
}

/// Offsets at the borders of a file, and anywhere in it.
fn offsets(file: &Opened, size: u64, rng: &mut Rng) -> Vec<u64> {
    let cluster = size * rng.below(file.clusters.len() as u64 + 1);
    let borders = [file.valid, file.length, cluster];
    let mut offsets: Vec<u64> = borders
        .iter()
        .flat_map(|at| [at.saturating_sub(1), *at, at + 1])
        .collect();
    offsets.extend([rng.below(file.length + 1), rng.next(), u64::MAX]);
    offsets
}

/// Which numbers an error of the original's reader of volumes stands for. It
/// tests the marks of a chain before its length, and does not tell a cluster
/// that is not marked from a system cluster.
pub fn numbers(error: &Error) -> Numbers {
    match error {
        Error::NotFound => Numbers::One(10),
        Error::IsDirectory => Numbers::One(11),
        Error::Invalid("free or bad cluster in FAT chain")
        | Error::Invalid("reserved or out-of-range FAT entry") => Numbers::One(3),
        Error::Invalid("FAT chain cycle") | Error::Unsupported("chain exceeds read limits") => {
            Numbers::One(4)
        }
        Error::Invalid("stream chain length differs from allocation") => Numbers::One(5),
        Error::Invalid("chain uses a free cluster") => Numbers::Either(5, 6),
        Error::Invalid("stream uses a free or system cluster") => Numbers::Either(6, 9),
        _ => Numbers::Unknown,
    }
}

/// The cause of a difference, seen from the bytes.
pub fn explain(view: View, volume: &Volume, reading: &Reading) -> Option<Difference> {
    if matches!(reading.found, Found::NotMounted(_)) {
        let listed = matches!(volume.health, Health::Entry { listed: true, .. });
        return listed.then_some(Difference::EntryOfOthers);
    }
    let entry = view.entry(reading.slot)?;
    match reading.number {
        9 => {
            let root = view.chain(view.g.root_cluster).0;
            let clusters = view.clusters_of(view.record_of(&entry));
            let mut all = root.iter().chain(&clusters);
            let inactive = all.any(|k| in_inactive_bitmap(view, *k));
            inactive.then_some(Difference::InactiveBitmap)
        }
        10 => {
            let names = entry.name_length.div_ceil(15);
            (entry.secondary_count > names + 1).then_some(Difference::ExtraSecondary)
        }
        _ => None,
    }
}

/// A slot to be read: mostly one of a file or directory.
pub fn slot(view: View, health: Health, rng: &mut Rng) -> u32 {
    match health {
        Health::Entry { slot, .. } => return slot,
        Health::Geometry | Health::Root => return rng.below(8) as u32,
        _ => {}
    }
    let entries = view.entries();
    if entries.is_empty() || rng.percent(8) {
        return rng.pick(&[0, 1, 2, 3, 7, 15, 16, 63, 524_288, u32::MAX]);
    }
    entries[rng.below(entries.len() as u64) as usize].slot
}

/// How many zeros are lent: one, few, or about a cluster.
pub fn zeros(g: Geometry, rng: &mut Rng) -> usize {
    let cluster = match g.sector_shift + g.cluster_shift {
        shift @ 9..=15 => 1 << shift,
        _ => 512,
    };
    rng.pick(&[1, 3, 100, 512, cluster - 1, cluster, cluster + 1, 65_536])
}

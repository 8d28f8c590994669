//! Volumes of 16 MiB, written out from the specification: one FAT, sectors of 512 bytes, the bitmap from cluster 2 on, then the
//! up-case table, then a root of one cluster.

use exfat::boot::{is_mutable, seal, REGION};
use exfat::bytes::{set_bit, FAT_END};
use exfat::{Geometry, GeometryWords};

pub const VOLUME_BYTES: usize = 16 << 20;
const SECTOR: usize = 512;
const FAT_OFFSET: usize = 24;

/// A volume, its system map and its geometry, also as the words that the library takes.
#[derive(Clone)]
pub struct Volume {
    pub bytes: Vec<u8>,
    pub map: Vec<u8>,
    pub geometry: Geometry,
    pub words: GeometryWords,
    pub cluster_size: usize,
    pub cluster_count: u32,
    /// The first byte of the FAT and of the heap.
    pub fat: usize,
    pub heap: usize,
    /// The first cluster behind the system's.
    pub first_free: u32,
    /// How many entries of the root are taken.
    slots: usize,
}

pub fn units(name: &str) -> Vec<u16> {
    name.encode_utf16().collect()
}

/// NameHash over the up-cased name: the table of these volumes changes a to z alone.
pub fn name_hash(name: &[u16]) -> u16 {
    let upcased = name.iter().map(|unit| match *unit {
        0x61..=0x7a => *unit - 0x20,
        other => other,
    });
    upcased
        .flat_map(u16::to_le_bytes)
        .fold(0, |sum: u16, byte| {
            sum.rotate_right(1).wrapping_add(u16::from(byte))
        })
}

fn sum32(bytes: impl Iterator<Item = u8>) -> u32 {
    bytes.fold(0, |sum: u32, byte| {
        sum.rotate_right(1).wrapping_add(u32::from(byte))
    })
}

fn put(bytes: &mut [u8], at: usize, value: &[u8]) {
    bytes[at..at + value.len()].copy_from_slice(value);
}

/// Only a to z change, in the compressed form.
fn upcase_table() -> Vec<u8> {
    let mut words: Vec<u16> = vec![0xffff, 0x61];
    words.extend(0x41..=0x5a);
    words.extend([0xffff, 0xff85]);
    words.iter().flat_map(|word| word.to_le_bytes()).collect()
}

fn fat_sectors(count: usize) -> usize {
    (4 * (count + 2)).div_ceil(SECTOR)
}

impl Volume {
    /// An empty volume with as many clusters of `1 << shift` sectors as fit.
    pub fn new(shift: u32) -> Volume {
        let sectors = |count: usize| FAT_OFFSET + fat_sectors(count) + (count << shift);
        let most = (VOLUME_BYTES / SECTOR - FAT_OFFSET) >> shift;
        let fits = |count: &usize| sectors(*count) * SECTOR <= VOLUME_BYTES;
        Volume::with(
            shift,
            (1..=most).rev().find(fits).expect("one cluster fits"),
        )
    }

    /// An empty volume with `count` clusters; what is left of 16 MiB belongs to none.
    pub fn with(shift: u32, count: usize) -> Volume {
        let cluster_size = SECTOR << shift;
        let heap = (FAT_OFFSET + fat_sectors(count)) * SECTOR;
        let bitmap_clusters = count.div_ceil(8).div_ceil(cluster_size) as u32;
        let (upcase, root) = (2 + bitmap_clusters, 3 + bitmap_clusters);
        let geometry = Geometry {
            sector_shift: 9,
            cluster_shift: shift,
            fat_offset: FAT_OFFSET as u32,
            fat_length: fat_sectors(count) as u32,
            number_of_fats: 1,
            cluster_heap_offset: (heap / SECTOR) as u32,
            cluster_count: count as u32,
            root_cluster: root,
            bitmap_0: 2,
            ..Geometry::default()
        };
        let mut volume = Volume {
            bytes: vec![0; VOLUME_BYTES],
            map: vec![0; count.div_ceil(8)],
            geometry,
            words: geometry.words(),
            cluster_size,
            cluster_count: count as u32,
            fat: FAT_OFFSET * SECTOR,
            heap,
            first_free: root + 1,
            slots: 0,
        };
        volume.put_boot_regions();
        for (first, last) in [(2, upcase - 1), (upcase, upcase), (root, root)] {
            let clusters: Vec<u32> = (first..=last).collect();
            volume.take(&clusters);
            volume.link(&clusters);
            clusters
                .iter()
                .for_each(|cluster| set_bit(&mut volume.map, *cluster));
        }
        let table = upcase_table();
        let at = volume.cluster_at(upcase);
        put(&mut volume.bytes, at, &table);
        let mut bitmap_entry = [0; 32];
        bitmap_entry[0] = 0x81;
        put(&mut bitmap_entry, 20, &2u32.to_le_bytes());
        put(
            &mut bitmap_entry,
            24,
            &(volume.map.len() as u64).to_le_bytes(),
        );
        volume.put_entries(&bitmap_entry);
        let mut upcase_entry = [0; 32];
        upcase_entry[0] = 0x82;
        put(
            &mut upcase_entry,
            4,
            &sum32(table.iter().copied()).to_le_bytes(),
        );
        put(&mut upcase_entry, 20, &upcase.to_le_bytes());
        put(&mut upcase_entry, 24, &(table.len() as u64).to_le_bytes());
        volume.put_entries(&upcase_entry);
        volume
    }

    fn put_boot_regions(&mut self) {
        let g = self.geometry;
        let mut region = vec![0; SECTOR * REGION];
        put(&mut region, 0, b"\xeb\x76\x90EXFAT   ");
        put(
            &mut region,
            72,
            &((VOLUME_BYTES / SECTOR) as u64).to_le_bytes(),
        );
        for (at, word) in [
            (80, g.fat_offset),
            (84, g.fat_length),
            (88, g.cluster_heap_offset),
            (92, g.cluster_count),
            (96, g.root_cluster),
            (100, 1),
        ] {
            put(&mut region, at, &word.to_le_bytes());
        }
        put(
            &mut region,
            104,
            &[
                0,
                1,
                0,
                0,
                g.sector_shift as u8,
                g.cluster_shift as u8,
                1,
                0x80,
            ],
        );
        put(&mut region, 510, &[0x55, 0xaa]);
        for sector in 2..=9 {
            put(
                &mut region,
                sector * SECTOR - 4,
                &0xaa55_0000u32.to_le_bytes(),
            );
        }
        seal(&mut region);
        put(&mut self.bytes, 0, &region);
        put(&mut self.bytes, SECTOR * REGION, &region);
    }

    pub fn cluster_at(&self, cluster: u32) -> usize {
        self.heap + (cluster - 2) as usize * self.cluster_size
    }

    pub fn end(&self) -> u32 {
        self.cluster_count + 2
    }

    /// Marks clusters; their FAT entries stay.
    pub fn take(&mut self, clusters: &[u32]) {
        let heap = self.heap;
        clusters
            .iter()
            .for_each(|cluster| set_bit(&mut self.bytes[heap..], *cluster));
    }

    fn link(&mut self, clusters: &[u32]) {
        for (index, cluster) in clusters.iter().enumerate() {
            let next = clusters.get(index + 1).copied().unwrap_or(FAT_END);
            let at = self.fat + 4 * *cluster as usize;
            put(&mut self.bytes, at, &next.to_le_bytes());
        }
    }

    /// Puts entries behind those of the root. Answers their slot.
    fn put_entries(&mut self, entries: &[u8]) -> u32 {
        let slot = self.slots;
        assert!(
            slot * 32 + entries.len() <= self.cluster_size,
            "the root has one cluster"
        );
        let at = self.cluster_at(self.geometry.root_cluster) + slot * 32;
        put(&mut self.bytes, at, entries);
        self.slots += entries.len() / 32;
        slot as u32
    }

    /// A file that fills the given clusters: a run where they follow each other, else a chain. Answers its slot.
    pub fn add_file(&mut self, name: &str, clusters: &[u32]) -> u32 {
        let run = clusters.windows(2).all(|pair| pair[1] == pair[0] + 1);
        self.add_stream(name, clusters, run)
    }

    /// The same, as a run or as a chain.
    pub fn add_stream(&mut self, name: &str, clusters: &[u32], run: bool) -> u32 {
        self.take(clusters);
        if !run {
            self.link(clusters);
        }
        let name = units(name);
        let length = ((clusters.len() * self.cluster_size) as u64).to_le_bytes();
        let mut set = vec![0; 32 * (2 + name.len().div_ceil(15))];
        set[0] = 0x85;
        set[1] = (set.len() / 32 - 1) as u8;
        set[4] = 0x20;
        for at in [8, 12, 16] {
            put(&mut set, at, &0x5a21_0000u32.to_le_bytes());
        }
        put(&mut set, 22, &[0x80; 3]);
        put(
            &mut set,
            32,
            &[0xc0, if run { 3 } else { 1 }, 0, name.len() as u8],
        );
        put(&mut set, 36, &name_hash(&name).to_le_bytes());
        put(&mut set, 40, &length);
        put(&mut set, 52, &clusters[0].to_le_bytes());
        put(&mut set, 56, &length);
        for (index, part) in name.chunks(15).enumerate() {
            let at = 64 + 32 * index;
            set[at] = 0xc1;
            let bytes: Vec<u8> = part.iter().flat_map(|unit| unit.to_le_bytes()).collect();
            put(&mut set, at + 2, &bytes);
        }
        seal_set(&mut set);
        self.put_entries(&set)
    }

    /// Gives the file at a slot, whose name has one entry, a valid length.
    pub fn set_valid(&mut self, slot: u32, valid: u64) {
        let at = self.cluster_at(self.geometry.root_cluster) + 32 * slot as usize;
        let set = &mut self.bytes[at..at + 96];
        put(set, 40, &valid.to_le_bytes());
        seal_set(set);
    }
}

/// Puts the checksum of an entry set into it.
fn seal_set(set: &mut [u8]) {
    let summed = set
        .iter()
        .enumerate()
        .filter(|(index, _)| *index != 2 && *index != 3);
    let checksum = summed.fold(0, |sum: u16, (_, byte)| {
        sum.rotate_right(1).wrapping_add(u16::from(*byte))
    });
    put(set, 2, &checksum.to_le_bytes());
}

/// Whether two volumes hold the same bytes, VolumeFlags and PercentInUse of the main boot sector apart: the original's mount and
/// commit write them.
pub fn same(one: &[u8], other: &[u8]) -> bool {
    one.len() == other.len() && {
        let (head, rest) = one.split_at(SECTOR);
        let heads = head.iter().zip(&other[..SECTOR]).enumerate();
        rest == &other[SECTOR..]
            && heads
                .filter(|(index, _)| !is_mutable(*index))
                .all(|(_, (a, b))| a == b)
    }
}

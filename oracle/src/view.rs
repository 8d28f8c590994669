//! Records and stamps, and a plain reading of a volume's bytes: enough to
//! choose calls and to name a difference's cause.

use exfat::bytes::{bit, u32_at, u64_at, FAT_BAD, FAT_END};
use exfat::Geometry;

/// The clusters of a stream: `Allocation` in the original.
#[derive(Clone, Copy, Debug, Default, PartialEq, Eq)]
pub struct Record {
    pub first: u32,
    pub last: u32,
    pub count: u32,
    pub no_fat_chain: bool,
}

/// A stamp: value, 10 ms increment, UTC offset.
pub type Stamp = (u32, u8, u8);

/// A volume's bytes with its geometry and system map, for reading.
#[derive(Clone, Copy)]
pub struct View<'bytes> {
    pub g: Geometry,
    pub bytes: &'bytes [u8],
    pub map: &'bytes [u8],
}

/// What the root says of a file or directory.
#[derive(Clone, Copy, Debug)]
pub struct Entry {
    pub slot: u32,
    pub directory: bool,
    pub secondary_count: u8,
    pub name_length: u8,
    pub no_fat_chain: bool,
    pub valid: u64,
    pub length: u64,
    pub first: u32,
}

impl View<'_> {
    pub fn fat(&self, cluster: u32) -> u32 {
        u32_at(self.bytes, self.g.fat_entry(self.g.active_fat, cluster))
    }

    pub fn marked(&self, cluster: u32) -> bool {
        let at = self
            .g
            .cluster_offset(self.g.bitmap_first(self.g.active_fat));
        bit(&self.bytes[at..], cluster)
    }

    pub fn system(&self, cluster: u32) -> bool {
        bit(self.map, cluster)
    }

    pub fn usable(&self, cluster: u32) -> bool {
        !self.marked(cluster) && !self.system(cluster) && self.fat(cluster) != FAT_BAD
    }

    pub fn free_count(&self) -> u32 {
        (2..self.g.end()).filter(|k| !self.marked(*k)).count() as u32
    }

    /// The number of usable clusters and the length of their longest run.
    pub fn usable_counts(&self) -> (u32, u32) {
        let (mut count, mut run, mut longest) = (0, 0, 0);
        for cluster in 2..self.g.end() {
            if self.usable(cluster) {
                count += 1;
                run += 1;
                longest = longest.max(run);
            } else {
                run = 0;
            }
        }
        (count, longest)
    }

    /// The clusters of a chain as far as it can be followed, and whether it
    /// reached its end.
    pub fn chain(&self, first: u32) -> (Vec<u32>, bool) {
        let mut clusters = Vec::new();
        let mut cluster = first;
        while self.g.in_heap(cluster) && clusters.len() < self.g.cluster_count as usize {
            clusters.push(cluster);
            cluster = self.fat(cluster);
        }
        (clusters, cluster == FAT_END)
    }

    /// The clusters that a record names, those outside the heap left out.
    pub fn clusters_of(&self, record: Record) -> Vec<u32> {
        if record.count == 0 {
            return Vec::new();
        }
        if !record.no_fat_chain {
            return self.chain(record.first).0;
        }
        (record.first..=record.last)
            .take(record.count as usize)
            .filter(|k| self.g.in_heap(*k))
            .collect()
    }

    pub fn root_bytes(&self) -> Vec<u8> {
        let mut bytes = Vec::new();
        for cluster in self.chain(self.g.root_cluster).0 {
            bytes.extend_from_slice(&self.bytes[self.g.cluster(cluster)]);
        }
        bytes
    }

    /// Every entry of type 0x85 before the first of type 0, with what its
    /// fields say, sound or not.
    pub fn entries(&self) -> Vec<Entry> {
        entries_of(&self.root_bytes())
    }

    pub fn entry(&self, slot: u32) -> Option<Entry> {
        self.entries().into_iter().find(|entry| entry.slot == slot)
    }

    /// A file's stream as a record; a chain's last cluster is the one met.
    pub fn record_of(&self, entry: &Entry) -> Record {
        let count = entry.length.div_ceil(self.g.cluster_size() as u64);
        if count == 0 || count > u64::from(self.g.cluster_count) {
            return Record::default();
        }
        let last = if entry.no_fat_chain {
            entry.first.saturating_add(count as u32 - 1)
        } else {
            self.chain(entry.first).0.last().copied().unwrap_or(0)
        };
        Record {
            first: entry.first,
            last,
            count: count as u32,
            no_fat_chain: entry.no_fat_chain,
        }
    }
}

fn entries_of(root: &[u8]) -> Vec<Entry> {
    let slots = root.chunks_exact(32).take_while(|entry| entry[0] != 0);
    slots
        .enumerate()
        .filter(|(slot, entry)| entry[0] == 0x85 && root.len() >= (slot + 2) * 32)
        .map(|(slot, file)| {
            let stream = &root[(slot + 1) * 32..(slot + 2) * 32];
            Entry {
                slot: slot as u32,
                directory: file[4] & 0x10 != 0,
                secondary_count: file[1],
                name_length: stream[3],
                no_fat_chain: stream[1] & 2 != 0,
                valid: u64_at(stream, 8),
                length: u64_at(stream, 24),
                first: u32_at(stream, 20),
            }
        })
        .collect()
}

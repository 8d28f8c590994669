//! The nine calls, and lists of them: random ones, with arguments at the
//! borders that the volume at hand has.

use crate::entries;
use crate::maker::{Health, Volume};
use crate::rng::Rng;
use crate::subject::NewFile;
use crate::view::{Entry, Record, Stamp, View};
use exfat::Geometry;

#[derive(Clone, Debug, PartialEq, Eq)]
pub enum Call {
    FreeCount,
    Clusters { record: Record },
    Allocate { count: u32, near: Option<u32> },
    Extend { record: Record, more: u32 },
    Shrink { record: Record, keep: u32 },
    NewFile(NewFile),
    Write { slot: u32, offset: u64, data: Data },
    SetLength { slot: u32, length: u64 },
    Remove { slot: u32 },
}

/// Bytes to be written, told by their length and one number.
#[derive(Clone, Copy, Debug, PartialEq, Eq)]
pub struct Data {
    pub length: u32,
    pub seed: u8,
}

impl Data {
    /// Byte i is seed + 7 i + i / 256, cut to a byte: neighbours differ, and
    /// so do clusters.
    pub fn bytes(&self) -> Vec<u8> {
        (0..self.length)
            .map(|i| (u32::from(self.seed) + 7 * i + i / 256) as u8)
            .collect()
    }
}

/// One call with what goes with it.
#[derive(Clone, Debug, PartialEq, Eq)]
pub struct Step {
    pub call: Call,
    pub hint: u32,
    /// The time of the call, in milliseconds since 1970, and its stamp.
    pub clock: i64,
    pub stamp: Stamp,
}

pub const KINDS: [&str; 9] = [
    "free count",
    "clusters",
    "allocate",
    "extend",
    "shrink",
    "new file",
    "write",
    "set length",
    "remove",
];

impl Call {
    pub fn kind(&self) -> usize {
        match self {
            Call::FreeCount => 0,
            Call::Clusters { .. } => 1,
            Call::Allocate { .. } => 2,
            Call::Extend { .. } => 3,
            Call::Shrink { .. } => 4,
            Call::NewFile(_) => 5,
            Call::Write { .. } => 6,
            Call::SetLength { .. } => 7,
            Call::Remove { .. } => 8,
        }
    }

    pub fn slot(&self) -> Option<u32> {
        match self {
            Call::Write { slot, .. } | Call::SetLength { slot, .. } | Call::Remove { slot } => {
                Some(*slot)
            }
            _ => None,
        }
    }

    pub fn has_hint(&self) -> bool {
        self.kind() >= 2
    }
}

/// Which calls a run makes.
#[derive(Clone, Copy, Debug, PartialEq, Eq)]
pub enum Kinds {
    Alloc,
    Files,
    All,
}

/// Chooses the calls for one volume.
pub struct Chooser {
    pub rng: Rng,
    pub kinds: Kinds,
    pub health: Health,
    /// Only records that are streams of the volume as it is: on a tidy volume
    /// and one mount, the original's caches are then right.
    pub honest: bool,
    pub live: Vec<Record>,
    pub next_name: u64,
}

impl Chooser {
    pub fn new(rng: Rng, kinds: Kinds, honest: bool, volume: &Volume) -> Self {
        Self {
            rng,
            kinds,
            health: volume.health,
            honest,
            live: volume.lost.clone(),
            next_name: volume.next_name,
        }
    }

    /// The next call on the volume as it is. Its hint and time are set by
    /// whoever makes it.
    pub fn next(&mut self, view: View) -> Call {
        let kind = self.kind();
        match self.health {
            Health::Geometry => return self.call_without_looking(kind),
            Health::Entry { slot, .. } => return self.call_at(slot, kind, view),
            Health::Root => return self.call_without_looking(kind.max(5)),
            _ => {}
        }
        if kind < 5 {
            self.alloc_call(kind, view)
        } else {
            self.file_call(kind, view)
        }
    }

    /// A kind of call; allocation and growth more often than the rest.
    fn kind(&mut self) -> usize {
        let alloc = [0, 1, 1, 2, 2, 2, 3, 3, 3, 3, 4, 4, 4];
        let files = [5, 5, 5, 6, 6, 6, 6, 6, 7, 7, 7, 7, 8, 8];
        let use_alloc = match self.kinds {
            Kinds::Alloc => true,
            Kinds::Files => false,
            Kinds::All => self.rng.percent(35),
        };
        if use_alloc {
            self.rng.pick(&alloc)
        } else {
            self.rng.pick(&files)
        }
    }

    /// For volumes whose fields cannot be trusted.
    fn call_without_looking(&mut self, kind: usize) -> Call {
        let record = Record {
            first: 5,
            last: 6,
            count: 2,
            no_fat_chain: true,
        };
        let slot = self.rng.below(8) as u32;
        match kind {
            0 => Call::FreeCount,
            1 => Call::Clusters { record },
            2 => Call::Allocate {
                count: 1,
                near: None,
            },
            3 => Call::Extend { record, more: 1 },
            4 => Call::Shrink { record, keep: 1 },
            5 => self.new_file(),
            6 => self.write_at(slot, 0, 10),
            7 => Call::SetLength { slot, length: 10 },
            _ => Call::Remove { slot },
        }
    }

    fn call_at(&mut self, slot: u32, kind: usize, view: View) -> Call {
        match kind {
            6 => self.write(slot, view),
            7 => self.set_length(slot, view),
            _ => Call::Remove { slot },
        }
    }

    fn alloc_call(&mut self, kind: usize, view: View) -> Call {
        match kind {
            0 => Call::FreeCount,
            1 => Call::Clusters {
                record: self.record(view),
            },
            2 => {
                let near = self.near(view.g);
                let count = self.count(view);
                Call::Allocate { count, near }
            }
            3 => {
                let record = self.record(view);
                let more = self.count(view);
                Call::Extend { record, more }
            }
            _ => {
                let record = self.record(view);
                let keep = self.keep(record);
                Call::Shrink { record, keep }
            }
        }
    }

    pub fn cluster(&mut self, g: Geometry) -> u32 {
        match self.rng.below(5) {
            0 => 2,
            1 => g.end() - 1,
            _ => self.rng.range(2, u64::from(g.end()) - 1) as u32,
        }
    }

    fn near(&mut self, g: Geometry) -> Option<u32> {
        match self.rng.below(40) {
            0..=19 => None,
            20 => Some(self.rng.pick(&[0, 1])),
            21 if self.rng.percent(30) => Some(self.rng.pick(&[g.end(), g.end() + 7, u32::MAX])),
            _ => Some(self.cluster(g)),
        }
    }

    /// How many clusters to ask for: small numbers, and those around what is
    /// there.
    fn count(&mut self, view: View) -> u32 {
        let (usable, longest) = view.usable_counts();
        let free = view.free_count();
        match self.rng.below(36) {
            0 => 0,
            1 => usable,
            2 => usable + 1,
            3 => usable.saturating_sub(1),
            4 => longest,
            5 => longest + 1,
            6 => longest.saturating_sub(1),
            7 => free,
            8 => free + 1,
            9 => self
                .rng
                .pick(&[view.g.cluster_count, view.g.cluster_count + 1, u32::MAX]),
            10 => self.rng.range(0, u64::from(usable)) as u32,
            11..=22 => 1,
            23..=28 => 2,
            _ => self.rng.range(1, 8) as u32,
        }
    }

    fn keep(&mut self, record: Record) -> u32 {
        match self.rng.below(7) {
            0 | 6 => 0,
            1 => record.count.saturating_sub(1),
            2 => record.count.wrapping_add(self.rng.below(2) as u32),
            3 => 1,
            _ => self.rng.range(0, u64::from(record.count.min(1 << 20))) as u32,
        }
    }

    fn record(&mut self, view: View) -> Record {
        if self.honest {
            return match self.rng.below(8) {
                0 => self.empty_record(),
                _ if self.live.is_empty() => Record::default(),
                _ => self.rng.pick(&self.live.clone()),
            };
        }
        match self.rng.below(10) {
            0 => self.empty_record(),
            1 | 2 => self.random_record(view.g),
            3 | 4 => self.file_record(view),
            5 => {
                let record = self.file_record(view);
                self.bent(record)
            }
            6 | 7 if !self.live.is_empty() => {
                let record = self.rng.pick(&self.live.clone());
                self.bent(record)
            }
            _ if self.live.is_empty() => self.random_record(view.g),
            _ => self.rng.pick(&self.live.clone()),
        }
    }

    /// Count 0, and anything in the rest.
    fn empty_record(&mut self) -> Record {
        if self.rng.percent(50) {
            return Record::default();
        }
        Record {
            first: self.rng.below(100) as u32,
            last: self.rng.next() as u32,
            count: 0,
            no_fat_chain: self.rng.percent(50),
        }
    }

    fn file_record(&mut self, view: View) -> Record {
        let entries = view.entries();
        if entries.is_empty() || self.rng.percent(15) {
            return self.system_record(view);
        }
        let entry = entries[self.rng.below(entries.len() as u64) as usize];
        view.record_of(&entry)
    }

    /// The root's chain, or a bitmap as a run.
    fn system_record(&mut self, view: View) -> Record {
        let g = view.g;
        if self.rng.percent(50) {
            let root = view.chain(g.root_cluster).0;
            return Record {
                first: root[0],
                last: root[root.len() - 1],
                count: root.len() as u32,
                no_fat_chain: false,
            };
        }
        let first = g.bitmap_first(self.rng.below(u64::from(g.number_of_fats)) as u32);
        Record {
            first,
            last: first + g.bitmap_clusters() - 1,
            count: g.bitmap_clusters(),
            no_fat_chain: self.rng.percent(50),
        }
    }

    /// A record with one thing wrong.
    fn bent(&mut self, mut record: Record) -> Record {
        match self.rng.below(7) {
            0 => record.first = record.first.wrapping_add(1),
            1 => record.first = record.first.saturating_sub(1),
            2 => record.last = record.last.saturating_add(1),
            3 => record.last = record.last.saturating_sub(1),
            4 => record.count = record.count.saturating_add(1),
            5 => record.count = record.count.saturating_sub(1),
            _ => record.no_fat_chain = !record.no_fat_chain,
        }
        record
    }

    /// The original collects a run's numbers before it looks at them, so runs
    /// stay short of what fills the memory.
    fn random_record(&mut self, g: Geometry) -> Record {
        let first = match self.rng.below(8) {
            0 => self.rng.pick(&[0, 1, g.end(), u32::MAX]),
            _ => self.cluster(g),
        };
        let count = self.rng.range(1, 6) as u32;
        let last = match self.rng.below(6) {
            0 => self.cluster(g),
            1 => g.end() + self.rng.below(2) as u32,
            _ => first.saturating_add(count - 1),
        };
        let no_fat_chain = self.rng.percent(60);
        let long = no_fat_chain && last > first && last - first > 100_000;
        Record {
            first,
            last: if long { first } else { last },
            count,
            no_fat_chain,
        }
    }

    fn file_call(&mut self, kind: usize, view: View) -> Call {
        if kind == 5 {
            return self.new_file();
        }
        let slot = self.slot(view);
        match kind {
            6 => self.write(slot, view),
            7 => self.set_length(slot, view),
            _ => Call::Remove { slot },
        }
    }

    fn slot(&mut self, view: View) -> u32 {
        let entries = view.entries();
        if entries.is_empty() || self.rng.percent(6) {
            let slots = view.root_bytes().len() as u64 / 32;
            return match self.rng.below(4) {
                0 => self
                    .rng
                    .pick(&[slots as u32, slots as u32 - 1, u32::MAX, 0x0800_0000]),
                _ => self.rng.below(slots) as u32,
            };
        }
        entries[self.rng.below(entries.len() as u64) as usize].slot
    }

    fn new_file(&mut self) -> Call {
        let length = match self.rng.below(20) {
            0 => self.rng.range(1, 3) as usize,
            _ => entries::random_name_length(&mut self.rng),
        };
        let mut name = entries::random_name(&mut self.rng, self.next_name, length);
        self.next_name += 1;
        self.spoil_name(&mut name);
        let attributes = match self.rng.below(15) {
            0 => self.rng.next() as u16,
            1 => self.rng.pick(&[0x08, 0x10, 0x40, 0x8000]),
            _ => self.rng.pick(&[0, 0x20, 0x27, 0x01, 0x06]),
        };
        Call::NewFile(NewFile {
            hash: entries::name_hash(&name),
            attributes,
            stamps: std::array::from_fn(|_| entries::random_stamp(&mut self.rng)),
            name,
        })
    }

    /// Now and then a name that is refused.
    fn spoil_name(&mut self, name: &mut Vec<u16>) {
        match self.rng.below(60) {
            0 => name.clear(),
            1 => name.resize(256 + self.rng.below(20) as usize, 0x61),
            2 => *name = vec![0x2e],
            3 => *name = vec![0x2e, 0x2e],
            4 | 5 => {
                let at = self.rng.below(name.len() as u64) as usize;
                // The original takes names as text, so pairs stay whole.
                if (0xd800..0xe000).contains(&name[at]) {
                    return;
                }
                name[at] = self
                    .rng
                    .pick(&[0, 31, 34, 42, 47, 58, 60, 62, 63, 92, 124, 10]);
            }
            6 => *name = vec![0x2e, 0x2e, 0x2e],
            _ => {}
        }
    }

    fn write_at(&mut self, slot: u32, offset: u64, length: u32) -> Call {
        let seed = self.rng.next() as u8;
        Call::Write {
            slot,
            offset,
            data: Data { length, seed },
        }
    }

    /// An offset or a length at a border: of the file, of its valid part, of
    /// clusters, of the heap, of 64 bits.
    fn border(&mut self, entry: Option<Entry>, view: View) -> u64 {
        let size = view.g.cluster_size() as u64;
        let (length, valid) = entry.map_or((0, 0), |entry| (entry.length, entry.valid));
        let (usable, _) = view.usable_counts();
        let whole = length.div_ceil(size).saturating_mul(size);
        let base = match self.rng.below(20) {
            0 => 0,
            1..=3 => length,
            4..=6 => valid,
            7 | 8 => length.saturating_add(size) / size * size,
            9 => valid / size * size,
            10 | 11 => self.rng.range(0, length.saturating_add(2 * size)),
            12 => self.rng.range(0, valid),
            13 => whole.saturating_add(u64::from(usable) * size),
            14 => self
                .rng
                .pick(&[u64::MAX, u64::MAX - 20, 1 << 63, (1 << 32) * size, 1 << 32]),
            15 => u64::from(view.g.cluster_count) * size,
            16 => valid.div_ceil(size).saturating_mul(size),
            _ => self.rng.below(4) * size,
        };
        match self.rng.below(5) {
            0 => base.saturating_add(1),
            1 => base.saturating_sub(1),
            _ => base,
        }
    }

    fn write(&mut self, slot: u32, view: View) -> Call {
        let size = view.g.cluster_size() as u64;
        let entry = view.entry(slot);
        let offset = self.border(entry, view);
        let length = match self.rng.below(12) {
            0 => 0,
            1 => size,
            2 => size + 1,
            3 => size - 1,
            4 => 1,
            5 => size - offset % size,
            6 => 3 * size + self.rng.below(9),
            7 if size <= 4096 => {
                let (usable, _) = view.usable_counts();
                (u64::from(usable) + self.rng.below(2)) * size
            }
            _ => self.rng.below(2 * size.min(3000)),
        };
        self.write_at(slot, offset, length.min(1 << 21) as u32)
    }

    fn set_length(&mut self, slot: u32, view: View) -> Call {
        let entry = view.entry(slot);
        let length = self.border(entry, view);
        Call::SetLength { slot, length }
    }

    /// Keeps the list of live records after an accepted call.
    pub fn settle(&mut self, call: &Call, record: Option<Record>) {
        let given = match call {
            Call::Extend { record, .. } | Call::Shrink { record, .. } => Some(*record),
            Call::Allocate { .. } => None,
            _ => return,
        };
        if let Some(given) = given {
            self.live.retain(|live| *live != given);
        }
        if let Some(record) = record.filter(|record| record.count > 0) {
            self.live.push(record);
        }
    }
}

//! Makes volumes that the original mounts: tidy ones, and ones with damaged
//! streams, root, entries or geometry.

use crate::entries::{self, StreamFields};
use crate::rng::Rng;
use crate::view::{Record, View};
use exfat::boot::{seal, REGION};
use exfat::bytes::{put32, put64, set_bit, u64_at, FAT_BAD, FAT_END};
use exfat::Geometry;

pub const MAX_BYTES: usize = 16 * 1024 * 1024;
/// The original mounts nothing smaller.
const MIN_BYTES: usize = 1024 * 1024;

/// What is wrong with a volume.
#[derive(Clone, Copy, Debug, PartialEq, Eq)]
pub enum Health {
    /// Nothing (01: tidy).
    Tidy,
    /// Streams of files cross, lead astray or use what is not theirs; the
    /// root is in order, so the original mounts.
    Streams,
    /// The root's own chain: the original does not mount.
    Root,
    /// The set at this slot: the original does not mount.
    Entry { slot: u32, listed: bool },
    /// The boot sector's fields: the original does not mount.
    Geometry,
}

pub struct Volume {
    pub geometry: Geometry,
    pub bytes: Vec<u8>,
    pub health: Health,
    pub upcase: u32,
    /// Streams that no entry names (01: marked clusters of no stream).
    pub lost: Vec<Record>,
    /// Numbers for names that are not taken.
    pub next_name: u64,
    /// The map from before the root or the geometry was damaged.
    pub fixed_map: Option<Vec<u8>>,
    /// What stands in the map's bits past the last cluster.
    pub map_tail: u8,
}

impl Volume {
    /// The system map: bitmaps, up-case table and the root as it is now. The
    /// original works out its own at mount from the same three.
    pub fn map(&self, bytes: &[u8]) -> Vec<u8> {
        if let Some(map) = &self.fixed_map {
            return map.clone();
        }
        let g = self.geometry;
        let mut map = vec![0; g.bitmap_bytes()];
        if !g.cluster_count.is_multiple_of(8) {
            map[g.bitmap_bytes() - 1] = self.map_tail << (g.cluster_count % 8);
        }
        let none = vec![0; map.len()];
        let view = View {
            g,
            bytes,
            map: &none,
        };
        let mut clusters = view.chain(g.root_cluster).0;
        clusters.push(self.upcase);
        for fat in 0..g.number_of_fats {
            clusters.extend(g.bitmap(fat));
        }
        for cluster in clusters {
            if g.in_heap(cluster) {
                set_bit(&mut map, cluster);
            }
        }
        map
    }
}

/// How large a volume is to be.
#[derive(Clone, Copy, Debug, PartialEq, Eq)]
pub enum Size {
    /// A heap of at most some twenty clusters of 512 bytes.
    Sample,
    Any,
}

struct Maker<'rng> {
    rng: &'rng mut Rng,
    size: Size,
    g: Geometry,
    fat: Vec<u32>,
    marks: Vec<bool>,
    /// Clusters that nothing has taken yet.
    free: Vec<u32>,
    heap: Vec<u8>,
    lost: Vec<Record>,
    files: Vec<FileStream>,
    /// Clusters of the bitmaps, the up-case table and the root, whose own
    /// links and marks stay right.
    system: Vec<u32>,
    next_name: u64,
}

/// A file's stream on its way into an entry set.
#[derive(Clone, Debug)]
struct FileStream {
    clusters: Vec<u32>,
    no_fat_chain: bool,
    valid: u64,
    length: u64,
    directory: bool,
}

/// Sector shift, cluster shift and how many clusters are wished for.
fn choose_size(rng: &mut Rng, size: Size) -> (u32, u32, u32) {
    if size == Size::Sample {
        let (sector, cluster) = rng.pick(&[(9, 0), (9, 0), (9, 1), (10, 0)]);
        return (sector, cluster, rng.range(10, 22) as u32);
    }
    // Bitmaps of several clusters, up to the largest heap there can be.
    if rng.percent(2) {
        let count = match rng.below(3) {
            0 => 32_768,
            1 => 4097,
            _ => rng_range(rng, 4097, 32_768),
        };
        return (9, rng.below(2) as u32, count);
    }
    let sector = rng.pick(&[9, 9, 9, 9, 10, 11, 12]);
    let cluster = if rng.percent(55) {
        rng.below(2) as u32
    } else {
        rng.below(u64::from(16 - sector)) as u32
    };
    let count = match rng.below(100) {
        0..=39 => rng_range(rng, 5, 20),
        40..=79 => rng_range(rng, 12, 70),
        80..=97 => rng_range(rng, 60, 400),
        _ => rng_range(rng, 400, 5000),
    };
    (sector, cluster.min(15 - sector), count)
}

fn rng_range(rng: &mut Rng, low: u64, high: u64) -> u32 {
    rng.range(low, high) as u32
}

fn choose_geometry(rng: &mut Rng, size: Size) -> Geometry {
    let (sector_shift, cluster_shift, cluster_count) = choose_size(rng, size);
    let number_of_fats = rng.range(1, 2) as u32;
    let least = ((cluster_count as usize + 2) * 4).div_ceil(1 << sector_shift) as u32;
    let spare = |rng: &mut Rng| {
        if rng.percent(60) {
            0
        } else {
            rng.below(5) as u32
        }
    };
    let fat_offset = 24 + spare(rng);
    let fat_length = least + spare(rng);
    let mut g = Geometry {
        sector_shift,
        cluster_shift,
        fat_offset,
        fat_length,
        number_of_fats,
        active_fat: rng.below(u64::from(number_of_fats)) as u32,
        cluster_heap_offset: fat_offset + fat_length * number_of_fats + spare(rng),
        cluster_count,
        ..Geometry::default()
    };
    // As many of the clusters as the largest slice holds.
    let room = (MAX_BYTES - g.cluster_offset(2)) / g.cluster_size();
    g.cluster_count = cluster_count.min(room as u32);
    g
}

impl Maker<'_> {
    /// Every cluster holds old bytes, so that what is zeroed shows.
    fn new(rng: &mut Rng, g: Geometry, size: Size) -> Maker<'_> {
        let end = g.end() as usize;
        let mut heap = vec![0; g.cluster_count as usize * g.cluster_size()];
        if size == Size::Sample {
            for (index, cluster) in heap.chunks_exact_mut(g.cluster_size()).enumerate() {
                cluster.fill(0xa0 + index as u8);
            }
        } else {
            rng.fill(&mut heap);
        }
        Maker {
            rng,
            size,
            g,
            fat: vec![0; end],
            marks: vec![false; end],
            free: (2..g.end()).collect(),
            heap,
            lost: Vec::new(),
            files: Vec::new(),
            system: Vec::new(),
            next_name: 1,
        }
    }

    fn take(&mut self, cluster: u32) {
        self.free.retain(|free| *free != cluster);
        self.marks[cluster as usize] = true;
    }

    /// `count` clusters in a row, anywhere, often at either end of the heap.
    fn take_run(&mut self, count: u32) -> Option<Vec<u32>> {
        let starts: Vec<u32> = self
            .free
            .windows(count as usize)
            .filter(|window| window[count as usize - 1] - window[0] == count - 1)
            .map(|window| window[0])
            .collect();
        let first = match self.rng.below(6) {
            0 => *starts.first()?,
            1 => *starts.last()?,
            _ if starts.is_empty() => return None,
            _ => self.rng.pick(&starts),
        };
        let run: Vec<u32> = (first..first + count).collect();
        for cluster in &run {
            self.take(*cluster);
        }
        Some(run)
    }

    /// `count` clusters in any order.
    fn take_any(&mut self, count: u32) -> Option<Vec<u32>> {
        if self.free.len() < count as usize {
            return None;
        }
        let mut clusters = Vec::new();
        for _ in 0..count {
            let near = self.rng.below(8).min(self.free.len() as u64 - 1) as usize;
            let index = match self.rng.below(3) {
                0 => near,
                _ => self.rng.below(self.free.len() as u64) as usize,
            };
            let cluster = self.free[index];
            self.take(cluster);
            clusters.push(cluster);
        }
        Some(clusters)
    }

    fn link(&mut self, clusters: &[u32]) {
        for pair in clusters.windows(2) {
            self.fat[pair[0] as usize] = pair[1];
        }
        if let Some(last) = clusters.last() {
            self.fat[*last as usize] = FAT_END;
        }
    }

    /// FAT values that mean nothing where they stand: a run's entries, and
    /// those of free clusters.
    fn stale_entry(&mut self) -> u32 {
        match self.rng.below(6) {
            0 => self.rng.range(2, u64::from(self.g.end()) + 1) as u32,
            1 => FAT_END,
            2 => self.rng.next() as u32,
            _ => 0,
        }
    }

    /// Clusters for a stream, with their links; the flag says a run.
    fn take_stream(&mut self, count: u32) -> Option<(Vec<u32>, bool)> {
        let kind = self.rng.below(4);
        let clusters = if kind < 3 {
            self.take_run(count)?
        } else {
            self.take_any(count)?
        };
        let no_fat_chain = kind < 2;
        if no_fat_chain {
            for cluster in &clusters {
                if self.rng.percent(25) {
                    self.fat[*cluster as usize] = self.stale_entry();
                }
            }
        } else {
            self.link(&clusters);
        }
        Some((clusters, no_fat_chain))
    }

    /// Bitmaps, up-case table and root. They come first, so that there is
    /// room for them.
    fn system(&mut self) -> (u32, Vec<u32>) {
        let count = self.g.bitmap_clusters();
        let mut bitmaps = [0, 0];
        for bitmap in bitmaps.iter_mut().take(self.g.number_of_fats as usize) {
            let run = self.take_run(count).expect("room for a bitmap");
            self.link(&run);
            *bitmap = run[0];
        }
        // With one FAT nobody looks at the second bitmap's place.
        if self.g.number_of_fats == 1 && self.rng.percent(30) {
            bitmaps[1] = self.rng.pick(&[1, 2, self.g.end(), u32::MAX]);
        }
        (self.g.bitmap_0, self.g.bitmap_1) = (bitmaps[0], bitmaps[1]);
        let upcase = self.take_run(1).expect("room for the table");
        self.link(&upcase);
        let table = entries::upcase_table();
        let at = (upcase[0] - 2) as usize * self.g.cluster_size();
        self.heap[at..at + table.len()].copy_from_slice(&table);
        let most = (self.free.len() as u64).min(4);
        let count = match self.rng.below(3) {
            0 => 1,
            _ => self.rng.range(1, most),
        };
        let root = if self.rng.percent(40) {
            self.take_run(count as u32)
        } else {
            None
        };
        let root = root.or_else(|| self.take_any(count as u32));
        let root = root.expect("room for the root");
        self.link(&root);
        self.g.root_cluster = root[0];
        self.system = (2..self.g.end())
            .filter(|k| self.marks[*k as usize])
            .collect();
        (upcase[0], root)
    }

    fn length_for(&mut self, count: u32) -> u64 {
        let size = self.g.cluster_size() as u64;
        let whole = u64::from(count) * size;
        match self.rng.below(4) {
            0 => whole,
            1 => whole - size + 1,
            _ => whole - self.rng.below(size),
        }
    }

    fn valid_for(&mut self, length: u64) -> u64 {
        let size = self.g.cluster_size() as u64;
        match self.rng.below(6) {
            0 => 0,
            1 => length - self.rng.below(length.min(3)),
            2 => (length / size * size).min(length),
            3 => self.rng.range(0, length),
            _ => length,
        }
    }

    fn add_file(&mut self) {
        let most = (self.free.len() as u64).min(9);
        let count = if most == 0 {
            0
        } else {
            self.rng.below(most) as u32
        };
        let stream = match count {
            0 => None,
            _ => self.take_stream(count),
        };
        let directory = self.rng.percent(8) && stream.is_some();
        let file = match stream {
            None => FileStream {
                clusters: Vec::new(),
                no_fat_chain: false,
                valid: 0,
                length: 0,
                directory: false,
            },
            Some((clusters, no_fat_chain)) => {
                let whole = u64::from(count) * self.g.cluster_size() as u64;
                let length = if directory {
                    whole
                } else {
                    self.length_for(count)
                };
                let valid = if directory {
                    whole
                } else {
                    self.valid_for(length)
                };
                FileStream {
                    clusters,
                    no_fat_chain,
                    valid,
                    length,
                    directory,
                }
            }
        };
        self.files.push(file);
    }

    fn add_lost(&mut self) {
        let most = (self.free.len() as u64).min(6);
        if most == 0 {
            return;
        }
        let count = self.rng.range(1, most) as u32;
        if let Some((clusters, no_fat_chain)) = self.take_stream(count) {
            self.lost.push(Record {
                first: clusters[0],
                last: clusters[clusters.len() - 1],
                count,
                no_fat_chain,
            });
        }
    }

    /// Bad clusters, single marked ones, and stale values in the FAT. Nothing
    /// takes a cluster after this.
    fn scatter(&mut self) {
        let (bad, marked, stale) = match self.rng.below(5) {
            0 => (0, 0, 0),
            1 => (10, 0, 0),
            2 => (0, 40, 10),
            3 => (20, 30, 30),
            _ => (3, 5, 10),
        };
        for cluster in self.free.clone() {
            let at = cluster as usize;
            if self.rng.percent(marked) {
                self.marks[at] = true;
            }
            if self.rng.percent(stale) {
                self.fat[at] = self.stale_entry();
            }
            if self.rng.percent(bad) {
                self.fat[at] = FAT_BAD;
            }
        }
    }

    /// One of the ways in which a file's stream can be wrong while its entry
    /// set is sound.
    fn damage_stream(&mut self) {
        let victims: Vec<usize> = (0..self.files.len())
            .filter(|index| !self.files[*index].clusters.is_empty())
            .collect();
        if victims.is_empty() {
            return;
        }
        let index = self.rng.pick(&victims);
        let other = self.rng.pick(&victims);
        let mut file = self.files[index].clone();
        let own: Vec<u32> = file
            .clusters
            .iter()
            .copied()
            .filter(|cluster| !self.system.contains(cluster))
            .collect();
        if own.is_empty() {
            return;
        }
        let any = self.rng.pick(&own);
        let end = u64::from(self.g.end());
        match self.rng.below(10) {
            // A run over whatever lies there: files, system clusters, free ones.
            0 | 1 => {
                let count = file.clusters.len() as u64;
                let first = self.rng.range(2, end - count) as u32;
                file.clusters = (first..first + count as u32).collect();
                file.no_fat_chain = true;
            }
            // A chain that goes on in the middle of another stream.
            2 => {
                let target = self.rng.pick(&self.files[other].clusters.clone());
                self.fat[any as usize] = target;
                file.no_fat_chain = false;
            }
            // A chain into any cluster, itself included.
            3 | 4 => {
                self.fat[any as usize] = self.rng.range(2, end - 1) as u32;
                file.no_fat_chain = false;
            }
            // A chain that meets a value that is neither link nor end.
            5 => {
                let values = [
                    0,
                    1,
                    end as u32,
                    FAT_BAD,
                    0xffff_fff8,
                    0xffff_fffe,
                    0x8000_0002,
                ];
                self.fat[any as usize] = self.rng.pick(&values);
                file.no_fat_chain = false;
            }
            // An end too early, or a chain flag on a run.
            6 => self.fat[any as usize] = FAT_END,
            7 => file.no_fat_chain = !file.no_fat_chain,
            // A cluster that is not marked.
            8 => self.marks[any as usize] = false,
            // Another length than the chain has.
            _ => {
                let count = self.rng.range(1, u64::from(self.g.cluster_count).min(12)) as u32;
                let fits = u64::from(file.clusters[0]) + u64::from(count) <= end;
                if fits || !file.no_fat_chain {
                    file.length = self.length_for(count);
                    file.valid = file.valid.min(file.length);
                }
            }
        }
        if file.directory {
            file.valid = file.length;
        }
        self.files[index] = file;
    }

    fn file_items(&mut self, tidy: bool) -> Vec<Vec<u8>> {
        let mut items = Vec::new();
        for file in self.files.clone() {
            let length = entries::random_name_length(self.rng);
            let name = entries::random_name(self.rng, self.next_name, length.max(8));
            self.next_name += 1;
            let odd = if self.rng.percent(10) {
                self.rng.next() as u8 & 0xfc
            } else {
                0
            };
            let stream = StreamFields {
                flags: 1 | (u8::from(file.no_fat_chain) * 2) | odd,
                first: file.clusters.first().copied().unwrap_or(0),
                valid: file.valid,
                length: file.length,
            };
            let mut attributes = self.rng.pick(&[0, 0x20, 0x21, 0x01, 0x27, 0x06]);
            if self.rng.percent(5) {
                attributes |= self.rng.next() as u16 & 0xffc8;
            }
            if file.directory {
                attributes |= 0x10;
            }
            let junk = self.rng.percent(15);
            let mut set = entries::file_set(self.rng, &name, attributes, stream, junk);
            if !tidy && self.rng.percent(5) {
                extra_secondary(&mut set);
            }
            items.push(set);
        }
        items
    }

    fn other_items(&mut self) -> Vec<Vec<u8>> {
        let mut items = Vec::new();
        if self.rng.percent(50) {
            items.push(entries::label_entry());
        }
        if self.rng.percent(20) {
            items.push(entries::guid_entry(self.rng));
        }
        if self.rng.percent(15) {
            let secondaries = self.rng.below(4) as u8;
            items.push(entries::benign_set(self.rng, secondaries));
        }
        let holes = self.rng.pick(&[0, 0, 1, 3, 12]);
        for _ in 0..holes {
            items.push(entries::unused_entry(self.rng));
        }
        items
    }

    /// The root's bytes: what must be there, as much of the rest as fits, and
    /// then the end, if there is room for one.
    fn root_bytes(&mut self, capacity: usize, upcase: u32, tidy: bool) -> Vec<u8> {
        let mut needed = vec![entries::upcase_entry(upcase)];
        let length = self.g.bitmap_bytes() as u64;
        for fat in 0..self.g.number_of_fats {
            needed.push(entries::bitmap_entry(
                fat as u8,
                self.g.bitmap_first(fat),
                length,
            ));
        }
        let mut items = self.file_items(tidy);
        items.extend(self.other_items());
        self.rng.shuffle(&mut items);
        let mut room = capacity - needed.len() * 32;
        items.retain(|item| {
            let fits = item.len() <= room;
            room -= if fits { item.len() } else { 0 };
            fits
        });
        items.extend(needed);
        if self.rng.percent(70) {
            items.reverse();
        } else {
            self.rng.shuffle(&mut items);
        }
        let mut bytes = items.concat();
        if self.rng.percent(10) {
            while bytes.len() < capacity {
                bytes.extend(entries::unused_entry(self.rng));
            }
        }
        let after = bytes.len();
        bytes.resize(capacity, 0);
        self.after_end(&mut bytes[after..], tidy);
        bytes
    }

    /// What may stand behind the first entry of type 0.
    fn after_end(&mut self, bytes: &mut [u8], tidy: bool) {
        if !self.rng.percent(30) {
            return;
        }
        for (index, entry) in bytes.chunks_exact_mut(32).enumerate() {
            if self.rng.percent(30) {
                self.rng.fill(entry);
                let in_use = if tidy { 0x7f } else { 0xff };
                entry[0] &= in_use;
                if index == 0 || self.rng.percent(50) {
                    entry[0] = 0;
                }
            }
        }
    }

    fn put_root(&mut self, root: &[u32], bytes: &[u8]) {
        let size = self.g.cluster_size();
        for (cluster, part) in root.iter().zip(bytes.chunks_exact(size)) {
            let at = (cluster - 2) as usize * size;
            self.heap[at..at + size].copy_from_slice(part);
        }
    }

    fn bitmap_bytes(&mut self) -> Vec<u8> {
        let mut bytes = vec![0; self.g.bitmap_bytes()];
        for cluster in 2..self.g.end() {
            if self.marks[cluster as usize] {
                set_bit(&mut bytes, cluster);
            }
        }
        // The bits past the last cluster may hold anything.
        let used = self.g.cluster_count % 8;
        if used != 0 && self.rng.percent(40) {
            let last = bytes.len() - 1;
            bytes[last] |= (self.rng.next() as u8) << used;
        }
        bytes
    }

    fn put_bitmaps(&mut self) {
        let bytes = self.bitmap_bytes();
        for fat in 0..self.g.number_of_fats {
            let at = (self.g.bitmap_first(fat) - 2) as usize * self.g.cluster_size();
            let stale = fat != self.g.active_fat && self.rng.percent(40);
            if !stale {
                self.heap[at..at + bytes.len()].copy_from_slice(&bytes);
            }
        }
    }

    fn put_fats(&mut self, volume: &mut [u8]) {
        self.fat[0] = 0xffff_fff8;
        self.fat[1] = FAT_END;
        for fat in 0..self.g.number_of_fats {
            let stale = fat != self.g.active_fat && self.rng.percent(40);
            for cluster in 0..self.g.end() {
                let value = if stale && self.rng.percent(50) {
                    self.rng.pick(&[0, 1, FAT_BAD, FAT_END, 7, 0x1234_5678])
                } else {
                    self.fat[cluster as usize]
                };
                put32(volume, self.g.fat_entry(fat, cluster), value);
            }
        }
    }

    /// The whole volume, with random bytes in every gap; zeros in a sample,
    /// which is to stay short.
    fn assemble(&mut self, volume_length: usize) -> Vec<u8> {
        let mut volume = vec![0; volume_length];
        let gap = (self.g.fat_offset as usize) << self.g.sector_shift;
        let heap = self.g.cluster_offset(2);
        let after = heap + self.heap.len();
        if self.size == Size::Any {
            let tail = volume.len().min(after + 1000);
            self.rng.fill(&mut volume[gap..heap]);
            self.rng.fill(&mut volume[after..tail]);
        }
        self.put_fats(&mut volume);
        volume[heap..after].copy_from_slice(&self.heap);
        put_boot_regions(&mut volume, &self.g, self.rng.next() as u32);
        volume
    }
}

/// Puts a benign secondary behind a set's names.
fn extra_secondary(set: &mut Vec<u8>) {
    set[1] += 1;
    set.extend([0xe0; 1]);
    set.extend([0; 31]);
    entries::seal(set);
}

/// Both boot regions (section 3), the second like the first.
pub fn put_boot_regions(volume: &mut [u8], g: &Geometry, serial: u32) {
    let sector = g.sector_size();
    let length = volume.len();
    let mut region = vec![0; sector * REGION];
    region[..11].copy_from_slice(b"\xeb\x76\x90EXFAT   ");
    put64(&mut region, 72, (length / sector) as u64);
    put32(&mut region, 80, g.fat_offset);
    put32(&mut region, 84, g.fat_length);
    put32(&mut region, 88, g.cluster_heap_offset);
    put32(&mut region, 92, g.cluster_count);
    put32(&mut region, 96, g.root_cluster);
    put32(&mut region, 100, serial);
    region[105] = 1;
    region[106] = g.active_fat as u8;
    region[108] = g.sector_shift as u8;
    region[109] = g.cluster_shift as u8;
    region[110] = g.number_of_fats as u8;
    region[111] = 0x80;
    region[510] = 0x55;
    region[511] = 0xaa;
    for index in 1..9 {
        put32(&mut region, (index + 1) * sector - 4, 0xaa55_0000);
    }
    seal(&mut region);
    volume[..sector * REGION].copy_from_slice(&region);
    volume[sector * REGION..2 * sector * REGION].copy_from_slice(&region);
}

fn volume_length(rng: &mut Rng, g: &Geometry) -> usize {
    let sector = g.sector_size();
    let spare = if rng.percent(50) {
        0
    } else {
        rng.below(4) as usize * sector
    };
    let length = (g.heap_end() + spare).max(MIN_BYTES);
    length.min(MAX_BYTES).max(g.heap_end())
}

/// Makes a volume whose health is `Tidy` or `Streams`.
pub fn make(rng: &mut Rng, size: Size, tidy: bool) -> Volume {
    let g = choose_geometry(rng, size);
    let mut maker = Maker::new(rng, g, size);
    let (upcase, root) = maker.system();
    let files = maker.rng.below(8);
    for _ in 0..files {
        if maker.rng.percent(70) {
            maker.add_file();
        } else {
            maker.add_lost();
        }
    }
    maker.scatter();
    if !tidy {
        for _ in 0..maker.rng.range(1, 4) {
            maker.damage_stream();
        }
    }
    let capacity = root.len() * maker.g.cluster_size();
    let bytes = maker.root_bytes(capacity, upcase, tidy);
    maker.put_root(&root, &bytes);
    maker.put_bitmaps();
    let length = volume_length(maker.rng, &maker.g);
    let bytes = maker.assemble(length);
    Volume {
        geometry: maker.g,
        bytes,
        health: if tidy { Health::Tidy } else { Health::Streams },
        upcase,
        lost: maker.lost,
        next_name: 1000 + maker.next_name,
        fixed_map: None,
        map_tail: maker.rng.next() as u8,
    }
}

/// Damages the root's chain, or its first cluster, in one place, so that the original does not mount
/// and the file calls refuse.
pub fn damage_root(rng: &mut Rng, volume: &mut Volume) {
    let g = volume.geometry;
    let map = volume.map(&volume.bytes);
    let view = View {
        g,
        bytes: &volume.bytes,
        map: &map,
    };
    let root = view.chain(g.root_cluster).0;
    let any = rng.pick(&root);
    let at = g.fat_entry(g.active_fat, any);
    match rng.below(6) {
        5 => {
            volume.geometry.root_cluster = rng.pick(&[0, 1, g.end(), u32::MAX]);
            put_boot_regions(&mut volume.bytes, &volume.geometry, 1);
        }
        0 | 1 => {
            let values = [
                0,
                1,
                g.end(),
                FAT_BAD,
                0xffff_fff8,
                0xffff_fffe,
                0x7fff_ffff,
            ];
            put32(&mut volume.bytes, at, rng.pick(&values));
        }
        2 => {
            // Back to a cluster that the chain has passed.
            let passed = root.iter().position(|k| *k == any).unwrap_or(0);
            put32(&mut volume.bytes, at, rng.pick(&root[..=passed]));
        }
        3 => {
            let bit = (any - 2) as usize;
            let byte = g.cluster_offset(g.bitmap_first(g.active_fat)) + bit / 8;
            volume.bytes[byte] &= !(1 << (bit % 8));
        }
        _ => {
            let bitmap =
                g.bitmap_first(g.active_fat) + rng.below(u64::from(g.bitmap_clusters())) as u32;
            put32(&mut volume.bytes, at, bitmap);
        }
    }
    volume.health = Health::Root;
    volume.fixed_map = Some(map);
}

/// Damages one file's set, so that the original does not mount and a call at
/// its slot finds no file. `listed` tells what 01 does not look at.
pub fn damage_entry(rng: &mut Rng, volume: &mut Volume) -> bool {
    let g = volume.geometry;
    let map = volume.map(&volume.bytes);
    let view = View {
        g,
        bytes: &volume.bytes,
        map: &map,
    };
    let files: Vec<_> = view
        .entries()
        .into_iter()
        .filter(|entry| !entry.directory)
        .collect();
    if files.is_empty() {
        return false;
    }
    let entry = files[rng.below(files.len() as u64) as usize];
    let root = view.chain(g.root_cluster).0;
    let start = entry.slot as usize * 32;
    let mut bytes = view.root_bytes();
    let length = (usize::from(entry.secondary_count) + 1) * 32;
    let listed = break_set(rng, &g, &mut bytes, start, length);
    let size = g.cluster_size();
    for (cluster, part) in root.iter().zip(bytes.chunks_exact(size)) {
        let at = g.cluster_offset(*cluster);
        volume.bytes[at..at + size].copy_from_slice(part);
    }
    volume.health = Health::Entry {
        slot: entry.slot,
        listed,
    };
    true
}

/// One fault in a set; all but the first leave the checksum right. True where
/// only the original minds it.
fn break_set(rng: &mut Rng, g: &Geometry, root: &mut [u8], start: usize, length: usize) -> bool {
    let size = g.cluster_size() as u64;
    let set = &mut root[start..start + length];
    let mut listed = false;
    match rng.below(15) {
        0 => {
            set[2] ^= 1 << rng.below(8);
            return false;
        }
        1 => set[32] = rng.pick(&[0xc1, 0x40, 0x00, 0xe0, 0x85]),
        2 => set[33] &= !1,
        3 => set[64] = rng.pick(&[0xc0, 0x41, 0x00, 0xe0, 0x85]),
        4 => set[65] |= rng.pick(&[1, 2, 3]),
        5 => set[35] = 0,
        // one name entry more or less than SecondaryCount says
        6 if set[35] > 240 => set[35] -= 15,
        6 => set[35] += 15,
        7 => set[1] = rng.pick(&[0, 1]),
        8 => {
            put64(set, 56, 0);
            put64(set, 40, 0);
            put32(set, 52, 2);
        }
        9 => {
            let valid = u64_at(set, 56) + 1;
            put64(set, 40, valid);
        }
        10 => {
            put64(set, 56, (u64::from(g.cluster_count) + 1) * size);
            put32(set, 52, 2);
        }
        11 => {
            put64(set, 56, 2 * size);
            put32(set, 52, g.end() - 1);
            set[33] |= 2;
        }
        12 => {
            put64(set, 56, 1);
            put64(set, 40, 1);
            put32(set, 52, rng.pick(&[0, 1, g.end(), u32::MAX]));
        }
        13 => {
            listed = true;
            set[36] ^= 1;
        }
        _ => {
            listed = true;
            set[rng.pick(&[20, 21])] = 200;
        }
    }
    let sealed = (usize::from(set[1]) + 1) * 32;
    if sealed <= set.len() {
        entries::seal(&mut set[..sealed]);
    }
    listed
}

/// Breaks one of the limits on the geometry that both sides set.
pub fn damage_geometry(rng: &mut Rng, volume: &mut Volume) {
    let map = volume.map(&volume.bytes);
    let mut g = volume.geometry;
    let fats_end = g.fat_offset + g.fat_length * g.number_of_fats;
    match rng.below(8) {
        0 => g.sector_shift = rng.pick(&[0, 8, 13, 31]),
        1 => g.fat_offset = rng.pick(&[0, 23]),
        2 => g.fat_length = (g.cluster_count * 4 + 7) >> g.sector_shift,
        3 => g.number_of_fats = rng.pick(&[0, 3, 255]),
        4 => (g.number_of_fats, g.active_fat) = (1, 1),
        5 => g.cluster_heap_offset = fats_end - 1,
        6 => g.cluster_count = 0,
        _ => g.cluster_heap_offset += 1 << 20,
    }
    let shift = g.sector_shift;
    // The sectors stay where they are, whatever the field says.
    let sector = volume.geometry.sector_shift;
    put_boot_regions(
        &mut volume.bytes,
        &Geometry {
            sector_shift: sector,
            ..g
        },
        1,
    );
    if shift != sector {
        put_shift(&mut volume.bytes, sector, shift as u8);
    }
    volume.geometry = g;
    volume.health = Health::Geometry;
    volume.fixed_map = Some(map);
}

fn put_shift(volume: &mut [u8], sector: u32, shift: u8) {
    let length = REGION << sector;
    for region in volume[..2 * length].chunks_exact_mut(length) {
        region[108] = shift;
        seal(region);
    }
}

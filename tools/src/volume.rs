//! An image's volume in memory: geometry and system map read from it, calls
//! made on it, and what they changed written back.

use crate::boot;
use crate::directory::{self, File};
use crate::failure::{image, usage, Failure, Outcome};
use crate::files;
use crate::heap::ranges;
use crate::library::{self, Allocation, Number, Setting};
use crate::limits::MAX_BYTES;
use crate::upcase::{self, Upcase};
use exfat::bytes::{bit, set_bit, u32_at, u64_at, FAT_BAD, FAT_END};
use exfat::{Geometry, GeometryWords};
use std::fs;
use std::io::Read;
use std::os::unix::fs::FileExt;

/// What is compared and written back at a time.
const BLOCK: usize = 512;

pub struct Volume {
    pub geometry: Geometry,
    pub words: GeometryWords,
    pub bytes: Vec<u8>,
    /// The system map: every bitmap, the up-case table and the root.
    pub map: Vec<u8>,
    pub upcase: Upcase,
    pub upcase_clusters: Vec<u32>,
    path: String,
    /// The bytes as they stand in the image.
    stored: Vec<u8>,
}

/// Why a chain cannot be walked, or a stream not read.
#[derive(Debug, PartialEq, Eq)]
pub struct Fault {
    pub number: Number,
    pub words: String,
}

impl Fault {
    pub fn new(number: u32, words: String) -> Fault {
        Fault { number: Number(number), words }
    }
}

impl Volume {
    pub fn open(path: &str) -> Outcome<Volume> {
        let told = |failure: Failure| Failure::Image(format!("{path}: {failure}"));
        let bytes = read(path)?;
        Volume::parse(path, bytes).map_err(told)
    }

    fn parse(path: &str, mut bytes: Vec<u8>) -> Outcome<Volume> {
        let (geometry, length) = boot::read(&bytes)?;
        bytes.truncate(length);
        let mut volume = Volume {
            geometry,
            words: geometry.words(),
            stored: bytes.clone(),
            bytes,
            map: Vec::new(),
            upcase: Upcase::recommended(),
            upcase_clusters: Vec::new(),
            path: path.into(),
        };
        volume.find_bitmaps()?;
        volume.find_upcase()?;
        volume.areas_lie_apart()?;
        volume.refresh_map();
        // The library has the last word on the limits.
        let (number, _) = library::free_count(&volume.bytes, volume.setting());
        if number != Number::DONE {
            return image(format!("the library refuses the volume: {number}"));
        }
        Ok(volume)
    }

    /// Entries of the root before the first of type 0, of one type.
    fn primaries(&self, kind: u8) -> Vec<[u8; directory::ENTRY]> {
        let root = self.root();
        let entries = root.chunks_exact(directory::ENTRY).take(directory::used_part(&root));
        let entries = entries.filter(|entry| entry[0] == kind);
        entries.map(|entry| entry.try_into().expect("an entry")).collect()
    }

    fn find_bitmaps(&mut self) -> Outcome<()> {
        let bitmaps = self.primaries(directory::BITMAP);
        for fat in 0..self.geometry.number_of_fats {
            let its = bitmaps.iter().find(|entry| u32::from(entry[1] & 1) == fat);
            let Some(entry) = its else {
                return image(format!("the root has no allocation bitmap of FAT {fat}"));
            };
            let (first, length) = (u32_at(entry, 20), u64_at(entry, 24));
            if length < self.geometry.bitmap_bytes() as u64 {
                return image(format!("the allocation bitmap of FAT {fat} is too short"));
            }
            if !self.geometry.heap().contains(&first) {
                return image(format!("the allocation bitmap of FAT {fat} is not in the heap"));
            }
            match fat {
                0 => self.geometry.bitmap_0 = first,
                _ => self.geometry.bitmap_1 = first,
            }
            let clusters = self.geometry.bitmap(fat);
            if clusters.end > self.geometry.heap().end {
                return image(format!("the allocation bitmap of FAT {fat} goes past the heap"));
            }
            let linked = |k: &u32| *k + 1 == clusters.end || self.fat(*k) == *k + 1;
            if !clusters.clone().all(|k| linked(&k)) {
                return image(format!("the allocation bitmap of FAT {fat} is not in clusters that follow each other"));
            }
        }
        self.words = self.geometry.words();
        Ok(())
    }

    fn find_upcase(&mut self) -> Outcome<()> {
        let Some(entry) = self.primaries(directory::UPCASE).pop() else {
            return image("the root has no up-case table");
        };
        let (first, length) = (u32_at(&entry, 20), u64_at(&entry, 24));
        let (mut clusters, fault) = self.walk(first);
        let count = self.geometry.clusters_for(length);
        if fault.is_some() || length == 0 || clusters.len() as u64 != count {
            return image("the up-case table's clusters do not fit its length");
        }
        let mut table = self.contents(&clusters);
        table.truncate(length as usize);
        if upcase::checksum(&table) != u32_at(&entry, 4) {
            return image("the up-case table's checksum is wrong");
        }
        let Some(upcase) = Upcase::parse(&table) else {
            return image("the up-case table is malformed");
        };
        self.upcase = upcase;
        self.upcase_clusters.append(&mut clusters);
        Ok(())
    }

    /// Bitmaps, up-case table and root share no cluster: a call that stores in
    /// one would destroy the other. A root that meets a bitmap can be looked
    /// at, since the library refuses it (9) in every call on a file.
    fn areas_lie_apart(&self) -> Outcome<()> {
        let g = &self.geometry;
        let bitmap = |fat| (format!("the allocation bitmap of FAT {fat}"), g.bitmap(fat).collect());
        let bitmaps: Vec<(String, Vec<u32>)> = (0..g.number_of_fats).map(bitmap).collect();
        let upcase = ("the up-case table".to_string(), self.upcase_clusters.clone());
        let root = ("the root".to_string(), self.walk(g.root_cluster).0);
        let mut pairs: Vec<_> = bitmaps.iter().chain([&root]).map(|other| (&upcase, other)).collect();
        if let [one, other] = &bitmaps[..] {
            pairs.push((one, other));
        }
        for ((one, its), (other, others)) in pairs {
            let both: Vec<u32> = its.iter().copied().filter(|k| others.contains(k)).collect();
            if !both.is_empty() {
                return image(format!("{one} and {other} share clusters {}", ranges(&both)));
            }
        }
        Ok(())
    }

    /// Anew after a call that may have made the root longer.
    pub fn refresh_map(&mut self) {
        let mut map = vec![0; self.geometry.bitmap_bytes()];
        let bitmaps = (0..self.geometry.number_of_fats).flat_map(|fat| self.geometry.bitmap(fat));
        let root = self.walk(self.geometry.root_cluster).0;
        for cluster in bitmaps.chain(self.upcase_clusters.iter().copied()).chain(root) {
            set_bit(&mut map, cluster);
        }
        self.map = map;
    }

    pub fn setting(&self) -> Setting<'_> {
        Setting { geometry: &self.words, map: &self.map }
    }

    /// The volume's bytes to be changed, beside what the call takes.
    pub fn lend(&mut self) -> (&mut [u8], Setting<'_>) {
        (&mut self.bytes, Setting { geometry: &self.words, map: &self.map })
    }

    /// A cluster's entry in the active FAT.
    pub fn fat(&self, cluster: u32) -> u32 {
        u32_at(&self.bytes, self.geometry.fat_entry(self.geometry.active_fat, cluster))
    }

    pub fn marked(&self, cluster: u32) -> bool {
        self.marked_for(self.geometry.active_fat, cluster)
    }

    pub fn marked_for(&self, fat: u32, cluster: u32) -> bool {
        let bitmap = self.geometry.cluster_offset(self.geometry.bitmap_first(fat));
        bit(&self.bytes[bitmap..], cluster)
    }

    pub fn system(&self, cluster: u32) -> bool {
        bit(&self.map, cluster)
    }

    pub fn bad(&self, cluster: u32) -> bool {
        self.fat(cluster) == FAT_BAD
    }

    pub fn usable(&self, cluster: u32) -> bool {
        !self.marked(cluster) && !self.system(cluster) && !self.bad(cluster)
    }

    /// A chain's clusters as far as it can be walked, and what ends the walk
    /// before the chain's end.
    pub fn walk(&self, first: u32) -> (Vec<u32>, Option<Fault>) {
        let heap = self.geometry.heap();
        let mut clusters = Vec::new();
        if !heap.contains(&first) {
            return (clusters, Some(Fault::new(2, format!("the first cluster {first} is not in the heap"))));
        }
        let mut cluster = first;
        loop {
            clusters.push(cluster);
            let next = self.fat(cluster);
            if next == FAT_END {
                return (clusters, None);
            }
            if !heap.contains(&next) {
                let words = format!("the FAT entry of cluster {cluster} is {next:#x}, neither a cluster nor the end");
                return (clusters, Some(Fault::new(3, words)));
            }
            if clusters.len() == self.geometry.cluster_count as usize {
                return (clusters, Some(Fault::new(4, format!("the chain from cluster {first} does not end"))));
            }
            cluster = next;
        }
    }

    /// A sound file's stream as the library takes it. The last cluster of a
    /// chain is the one at which its walk ends.
    pub fn allocation(&self, file: &File) -> Allocation {
        let count = self.geometry.clusters_for(file.length) as u32;
        if count == 0 {
            return Allocation::default();
        }
        let last = if file.no_fat_chain {
            file.first + count - 1
        } else {
            self.walk(file.first).0.last().copied().unwrap_or(0)
        };
        Allocation { first: file.first, last, count, no_fat_chain: file.no_fat_chain }
    }

    /// The clusters of a sound file, listed by the library.
    pub fn clusters(&self, file: &File) -> Result<Vec<u32>, Number> {
        library::clusters(&self.bytes, self.setting(), self.allocation(file))
    }

    pub fn contents(&self, clusters: &[u32]) -> Vec<u8> {
        let parts = clusters.iter().map(|cluster| &self.bytes[self.geometry.cluster(*cluster)]);
        parts.flatten().copied().collect()
    }

    /// The root's bytes, as far as its chain can be walked.
    pub fn root(&self) -> Vec<u8> {
        self.contents(&self.walk(self.geometry.root_cluster).0)
    }

    pub fn files(&self) -> Vec<(u32, Result<File, String>)> {
        directory::files(&self.root(), &self.geometry)
    }

    pub fn sound_files(&self) -> Vec<File> {
        self.files().into_iter().filter_map(|(_, file)| file.ok()).collect()
    }

    /// That the root has folders, in words.
    pub fn folders(&self) -> Option<String> {
        match self.sound_files().iter().filter(|file| file.is_directory()).count() {
            0 => None,
            1 => Some("the root has 1 folder".into()),
            count => Some(format!("the root has {count} folders")),
        }
    }

    /// The sound file with a name, whatever the case of its letters.
    pub fn find(&self, name: &str) -> Option<File> {
        let units: Vec<u16> = name.encode_utf16().collect();
        let wanted = self.upcase.name(&units);
        let same = |file: &File| self.upcase.name(&file.name) == wanted;
        self.sound_files().into_iter().find(same)
    }

    /// Writes the blocks that differ back to the image, then waits until the
    /// system has them on the disk.
    pub fn store(&mut self) -> Outcome<()> {
        if self.bytes == self.stored {
            return Ok(());
        }
        let told = |error| Failure::Image(format!("{}: cannot write: {error}", self.path));
        let file = fs::OpenOptions::new().write(true).open(&self.path).map_err(told)?;
        let blocks = self.bytes.chunks(BLOCK).zip(self.stored.chunks(BLOCK));
        for (index, (new, old)) in blocks.enumerate() {
            if new != old {
                file.write_all_at(new, (index * BLOCK) as u64).map_err(told)?;
            }
        }
        file.sync_all().map_err(told)?;
        self.stored.clone_from(&self.bytes);
        Ok(())
    }
}

/// Reads an image, at most as much of it as the largest volume has.
fn read(path: &str) -> Outcome<Vec<u8>> {
    let told = |error| Failure::Image(format!("{path}: cannot read: {error}"));
    let file = fs::File::open(path).map_err(told)?;
    if files::standard_output_is(&file.metadata().map_err(told)?) {
        return usage(format!("{path}: the standard output is the image, and is not written over"));
    }
    let mut bytes = Vec::new();
    file.take(MAX_BYTES).read_to_end(&mut bytes).map_err(told)?;
    Ok(bytes)
}

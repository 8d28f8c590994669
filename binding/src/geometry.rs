//! A volume's geometry by its fields, as words, and where the parts of a
//! volume lie.

use std::ops::Range;

/// The words of a geometry: `EXFAT_GEOMETRY_WORDS` of include/exfat.h.
pub const GEOMETRY_WORDS: usize = 11;

/// A geometry as a call takes it.
pub type GeometryWords = [u32; GEOMETRY_WORDS];

/// The boot sector's fields, and the first cluster of one bitmap per FAT.
/// Offsets and lengths are in sectors.
#[derive(Clone, Copy, Debug, Default, PartialEq, Eq)]
pub struct Geometry {
    pub sector_shift: u32,
    pub cluster_shift: u32,
    pub fat_offset: u32,
    pub fat_length: u32,
    pub number_of_fats: u32,
    pub active_fat: u32,
    pub cluster_heap_offset: u32,
    pub cluster_count: u32,
    pub root_cluster: u32,
    pub bitmap_0: u32,
    pub bitmap_1: u32,
}

impl Geometry {
    /// In the order of the C boundary.
    pub fn words(&self) -> GeometryWords {
        [
            self.sector_shift,
            self.cluster_shift,
            self.fat_offset,
            self.fat_length,
            self.number_of_fats,
            self.active_fat,
            self.cluster_heap_offset,
            self.cluster_count,
            self.root_cluster,
            self.bitmap_0,
            self.bitmap_1,
        ]
    }

    /// And back.
    pub fn of(words: GeometryWords) -> Geometry {
        Geometry {
            sector_shift: words[0],
            cluster_shift: words[1],
            fat_offset: words[2],
            fat_length: words[3],
            number_of_fats: words[4],
            active_fat: words[5],
            cluster_heap_offset: words[6],
            cluster_count: words[7],
            root_cluster: words[8],
            bitmap_0: words[9],
            bitmap_1: words[10],
        }
    }

    pub fn sector_size(&self) -> usize {
        1 << self.sector_shift
    }

    pub fn cluster_size(&self) -> usize {
        1 << (self.sector_shift + self.cluster_shift)
    }

    /// How many clusters a length takes.
    pub fn clusters_for(&self, length: u64) -> u64 {
        length.div_ceil(self.cluster_size() as u64)
    }

    /// Every cluster of the heap.
    pub fn heap(&self) -> Range<u32> {
        2..self.end()
    }

    /// One past the last cluster.
    pub fn end(&self) -> u32 {
        self.cluster_count + 2
    }

    pub fn in_heap(&self, cluster: u32) -> bool {
        self.heap().contains(&cluster)
    }

    /// How many bytes a bitmap or the system map has.
    pub fn bitmap_bytes(&self) -> usize {
        (self.cluster_count as usize).div_ceil(8)
    }

    /// How many clusters a bitmap fills.
    pub fn bitmap_clusters(&self) -> u32 {
        self.clusters_for(self.bitmap_bytes() as u64) as u32
    }

    /// The first cluster of a FAT's bitmap.
    pub fn bitmap_first(&self, fat: u32) -> u32 {
        if fat == 0 {
            self.bitmap_0
        } else {
            self.bitmap_1
        }
    }

    /// The clusters of a FAT's bitmap.
    pub fn bitmap(&self, fat: u32) -> Range<u32> {
        let first = self.bitmap_first(fat);
        first..first + self.bitmap_clusters()
    }

    /// Where a cluster's entry in a FAT lies.
    pub fn fat_entry(&self, fat: u32, cluster: u32) -> usize {
        let sector = self.fat_offset as usize + fat as usize * self.fat_length as usize;
        (sector << self.sector_shift) + cluster as usize * 4
    }

    /// Where a cluster's first byte lies.
    pub fn cluster_offset(&self, cluster: u32) -> usize {
        let heap = (self.cluster_heap_offset as usize) << self.sector_shift;
        heap + (cluster - 2) as usize * self.cluster_size()
    }

    /// Where a cluster's bytes lie.
    pub fn cluster(&self, cluster: u32) -> Range<usize> {
        let at = self.cluster_offset(cluster);
        at..at + self.cluster_size()
    }

    /// Where the heap ends.
    pub fn heap_end(&self) -> usize {
        self.cluster_offset(self.end())
    }
}

//! Shim of primitive_chains.rs. What the volume's reader calls is written out
//! from the specification; the rest is only named by primitives.rs.

use crate::Result;
use std::ops::Range;

/// What a FAT entry says (section 4.1).
#[derive(Clone, Copy, Debug, PartialEq, Eq)]
pub enum FatValue {
    Free,
    Bad,
    End,
    Next(u32),
    Reserved,
}

#[derive(Clone, Copy, Debug, PartialEq, Eq)]
pub struct FatEntryReport {
    pub value: u32,
    pub kind: FatValue,
}

/// A cluster of a chain, and whether it lies in the heap.
#[derive(Clone, Copy, Debug, PartialEq, Eq)]
pub struct ChainPosition {
    pub cluster: u32,
    pub valid: bool,
}

/// A walk gives a cluster and then its FAT entry.
#[derive(Clone, Copy, Debug, PartialEq, Eq)]
pub enum FatChainStep {
    Cluster(ChainPosition),
    Entry { cluster: u32, entry: FatEntryReport },
}

pub fn valid_cluster(cluster: u32, cluster_count: u32) -> bool {
    (2..u64::from(cluster_count) + 2).contains(&u64::from(cluster))
}

pub fn decode_fat_entry(value: u32, cluster_count: u32) -> FatEntryReport {
    let kind = match value {
        0 => FatValue::Free,
        super::FAT_BAD => FatValue::Bad,
        super::FAT_END => FatValue::End,
        next if valid_cluster(next, cluster_count) => FatValue::Next(next),
        _ => FatValue::Reserved,
    };
    FatEntryReport { value, kind }
}

/// Reads the 4 bytes of a cluster's entry from a FAT that begins at `offset`.
pub fn read_fat_entry(
    offset: u64,
    cluster: u32,
    cluster_count: u32,
    mut read: impl FnMut(u64, &mut [u8]) -> Result<()>,
) -> Result<FatEntryReport> {
    let mut word = [0; 4];
    read(offset + u64::from(cluster) * 4, &mut word)?;
    Ok(decode_fat_entry(u32::from_le_bytes(word), cluster_count))
}

/// The clusters of a contiguous stream, in 64 bits, where the end fits.
pub fn contiguous_clusters(first: u32, count: u64) -> Range<u64> {
    u64::from(first)..u64::from(first).saturating_add(count)
}

/// One read of a stream that stays within a cluster.
pub struct ClusterRead {
    /// Index of the cluster in the stream.
    pub index: u64,
    /// Where in that cluster the read begins.
    pub within: u64,
    /// Which of the wanted bytes it gives.
    pub output: Range<usize>,
}

/// Cuts `length` bytes of a stream from `offset` at the borders of clusters.
pub fn cluster_reads(
    offset: u64,
    length: usize,
    cluster_size: u64,
) -> impl Iterator<Item = ClusterRead> {
    let mut done = 0;
    std::iter::from_fn(move || {
        if done == length {
            return None;
        }
        let position = offset + done as u64;
        let within = position % cluster_size;
        let count = ((cluster_size - within) as usize).min(length - done);
        let output = done..done + count;
        done += count;
        Some(ClusterRead {
            index: position / cluster_size,
            within,
            output,
        })
    })
}

super::stale::names! {
    allocation_class, boot_check, chain_head, chain_islands, cluster_offset, clusters_for,
    compute_predecessors, compute_stats, decode_fat, is_allocated, predecessor, root_chain,
    walk_fat_chain, AllocationStats, BootCheck, ChainGroup, Island, StreamClusters,
    ALLOC_ALLOCATED, ALLOC_FREE_FAT, ALLOC_FREE_ZERO, ISLAND_END_BROKEN, ISLAND_END_EOF,
    ISLAND_END_JOINS_ANOTHER,
}

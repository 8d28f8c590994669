//! Shim of primitive_streaming.rs: the walk of a chain and the count of a
//! bitmap, written out from the specification and their call sites.

use super::chains::{valid_cluster, ChainPosition, FatChainStep, FatEntryReport, FatValue};
use crate::Result;

/// Walks the FAT chain from `first`: each cluster, then its entry, up to one
/// that is no link. A cluster outside the heap ends the walk, as its entry
/// does not exist. Cycles are the caller's matter. The original also walks
/// contiguous streams, of `_contiguous` clusters; no file built here does.
pub fn walk_allocation<Read>(
    first: u32,
    cluster_count: u32,
    _contiguous: Option<u64>,
    mut read: Read,
) -> impl Iterator<Item = Result<FatChainStep>>
where
    Read: FnMut(u32) -> Result<FatEntryReport>,
{
    let mut cluster = Some(first);
    let mut entry_of = None;
    std::iter::from_fn(move || {
        if let Some(cluster_read) = entry_of.take() {
            let entry = match read(cluster_read) {
                Ok(entry) => entry,
                Err(error) => return Some(Err(error)),
            };
            if let FatValue::Next(next) = entry.kind {
                cluster = Some(next);
            }
            return Some(Ok(FatChainStep::Entry {
                cluster: cluster_read,
                entry,
            }));
        }
        let cluster = cluster.take()?;
        let valid = valid_cluster(cluster, cluster_count);
        if valid {
            entry_of = Some(cluster);
        }
        Some(Ok(FatChainStep::Cluster(ChainPosition { cluster, valid })))
    })
}

/// The ones among a bitmap's first `cluster_count` bits.
pub fn bitmap_count(bytes: &[u8], cluster_count: u32) -> u64 {
    (0..cluster_count as usize)
        .filter(|index| bytes[index / 8] & (1 << (index % 8)) != 0)
        .count() as u64
}

super::stale::names! {
    bitmap_contains_all, claim_bitmap_cluster, directory_record, DirectoryRecord, FatWindow,
    StreamCursor, StreamReadError, VolumeState,
}

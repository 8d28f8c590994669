//! Lists of calls at the borders of one volume. Each is meant for the volume
//! as it is made, so whoever runs them puts the bytes back after each.

use crate::calls::{Call, Data};
use crate::view::{Entry, Record, View};

/// Zero, one short, exactly full, one over, of every measure of the heap.
fn counts(view: View) -> Vec<u32> {
    let (usable, longest) = view.usable_counts();
    let free = view.free_count();
    let all = view.g.cluster_count;
    let mut counts = vec![0, 1, 2, u32::MAX, all, all + 1];
    for measure in [usable, longest, free] {
        counts.extend([measure.saturating_sub(1), measure, measure + 1]);
    }
    counts.sort_unstable();
    counts.dedup();
    counts
}

/// The first and last cluster, and those around the first and last usable one.
fn places(view: View) -> Vec<u32> {
    let usable: Vec<u32> = (2..view.g.end()).filter(|k| view.usable(*k)).collect();
    let mut places = vec![2, view.g.end() - 1];
    for edge in [usable.first(), usable.last()].into_iter().flatten() {
        places.extend([edge - 1, *edge, edge + 1]);
    }
    places.retain(|place| view.g.in_heap(*place));
    places.sort_unstable();
    places.dedup();
    places
}

/// Each call with its hint.
pub fn alloc_calls(view: View, records: &[Record]) -> Vec<(Call, u32)> {
    let (counts, places) = (counts(view), places(view));
    let mut list = vec![(Call::FreeCount, 2)];
    for &hint in &places {
        for &count in &counts {
            list.push((Call::Allocate { count, near: None }, hint));
        }
    }
    let outside = [0, 1, view.g.end(), u32::MAX];
    for near in places.iter().copied().chain(outside) {
        for &count in &counts {
            let near = Some(near);
            list.push((Call::Allocate { count, near }, places[0]));
        }
    }
    for &record in records {
        list.push((Call::Clusters { record }, 2));
        for &more in &counts {
            list.push((Call::Extend { record, more }, places[places.len() - 1]));
        }
        let last = record.count.saturating_sub(1);
        for keep in [0, 1, record.count / 2, last, record.count, record.count + 1] {
            list.push((Call::Shrink { record, keep }, 2));
        }
    }
    list
}

/// Offsets around the ends of a file and of clusters, and near 2^64.
fn offsets(view: View, entry: &Entry) -> Vec<u64> {
    let size = view.g.cluster_size() as u64;
    let (usable, _) = view.usable_counts();
    let whole = entry.length.div_ceil(size).saturating_mul(size);
    let full = whole.saturating_add(u64::from(usable) * size);
    let valid = entry.valid.div_ceil(size).saturating_mul(size);
    let mut offsets = vec![0, 1, u64::MAX, u64::MAX - 1, 1 << 63, u64::MAX - 512];
    for border in [
        entry.length,
        entry.valid,
        whole,
        valid,
        full,
        size,
        2 * size,
    ] {
        offsets.extend([border.saturating_sub(1), border, border.saturating_add(1)]);
    }
    offsets.sort_unstable();
    offsets.dedup();
    offsets
}

pub fn file_calls(view: View) -> Vec<(Call, u32)> {
    let size = view.g.cluster_size() as u32;
    let places = places(view);
    let mut list = Vec::new();
    for entry in view.entries().iter().take(4) {
        let slot = entry.slot;
        list.push((Call::Remove { slot }, 2));
        for offset in offsets(view, entry) {
            let hint = places[(offset % places.len() as u64) as usize];
            let length = offset;
            list.push((Call::SetLength { slot, length }, hint));
            for length in [0, 1, 2, size - 1, size, size + 1] {
                let data = Data { length, seed: 3 };
                list.push((Call::Write { slot, offset, data }, hint));
            }
        }
    }
    list
}

//! The known differences between the library and the original. A difference
//! is only taken for one of these where its cause is seen in the bytes.

use crate::calls::{Call, Step};
use crate::maker::{Health, Volume};
use crate::sides::{Ours, Theirs};
use crate::view::{Record, View};
use original::Error;

#[derive(Clone, Copy, Debug, PartialEq, Eq, PartialOrd, Ord)]
pub enum Difference {
    NearOutside,
    FreesNothing,
    RepeatedName,
    EntryOfOthers,
    InactiveBitmap,
    ExtraSecondary,
    KeepsSystem,
    FileAtRoot,
    LiveCaches,
    LiveMount,
}

impl Difference {
    pub fn text(&self) -> &'static str {
        match self {
            Self::NearOutside => "near outside the heap (listed in 01)",
            Self::FreesNothing => "9 for a call that frees nothing (listed in 01)",
            Self::RepeatedName => "a repeated name (listed in 01)",
            Self::EntryOfOthers => "a set's hash or stamps (listed in 01)",
            Self::InactiveBitmap => "the bitmap of the FAT that is not active",
            Self::ExtraSecondary => "a set with further benign secondaries",
            Self::KeepsSystem => "9 for a call that frees, but no system cluster",
            Self::FileAtRoot => "a file that begins at the root's first cluster",
            Self::LiveCaches => "the original's caches, on one mount",
            Self::LiveMount => "one mount of a volume that the original would not mount again",
        }
    }
}

/// The cause of a difference, seen from the bytes before the call.
pub fn explain(
    view: View,
    volume: &Volume,
    step: &Step,
    ours: &Ours,
    theirs: &Theirs,
) -> Option<Difference> {
    if let (Theirs::NotMounted(_), Health::Entry { listed: true, .. }) = (theirs, volume.health) {
        return Some(Difference::EntryOfOthers);
    }
    if matches!(theirs, Theirs::NotMounted(_)) {
        return None;
    }
    if let Call::Allocate {
        near: Some(near), ..
    } = step.call
    {
        if ours.number == 2 && near >= view.g.end() && gets_further(theirs) {
            return Some(Difference::NearOutside);
        }
    }
    if *theirs == Theirs::Refused(Error::Exists) && matches!(ours.number, 0 | 7) {
        return Some(Difference::RepeatedName);
    }
    match ours.number {
        9 => nine(view, step, theirs),
        10 => extra_secondary(view, step),
        _ => None,
    }
}

fn extra_secondary(view: View, step: &Step) -> Option<Difference> {
    let entry = view.entry(step.call.slot()?)?;
    let names = entry.name_length.div_ceil(15);
    (entry.secondary_count > names + 1).then_some(Difference::ExtraSecondary)
}

pub fn in_inactive_bitmap(view: View, cluster: u32) -> bool {
    let g = view.g;
    if g.number_of_fats != 2 {
        return false;
    }
    g.bitmap(1 - g.active_fat).contains(&cluster)
}

/// The clusters of the stream that a call is about, and how many it keeps.
fn stream_of(view: View, step: &Step) -> Option<(Vec<u32>, usize)> {
    if let Call::Shrink { record, keep } = step.call {
        return Some((view.clusters_of(record), keep as usize));
    }
    let entry = view.entry(step.call.slot()?)?;
    let record: Record = view.record_of(&entry);
    let clusters = view.clusters_of(record);
    let size = view.g.cluster_size() as u64;
    let keep = match step.call {
        Call::Remove { .. } => 0,
        Call::SetLength { length, .. } => length.div_ceil(size).min(clusters.len() as u64) as usize,
        _ => clusters.len(),
    };
    Some((clusters, keep))
}

/// Whether the original met none of the causes that come before 7 and 8.
fn gets_further(theirs: &Theirs) -> bool {
    let late = [Error::NoSpace, Error::Bounds].map(Theirs::Refused);
    matches!(theirs, Theirs::Given(_)) || late.contains(theirs)
}

fn nine(view: View, step: &Step, theirs: &Theirs) -> Option<Difference> {
    let root = view.chain(view.g.root_cluster).0;
    if step.call.kind() >= 5 && root.iter().any(|k| in_inactive_bitmap(view, *k)) {
        return Some(Difference::InactiveBitmap);
    }
    let (clusters, keep) = stream_of(view, step)?;
    if step.call.kind() >= 5 && clusters.first() == Some(&view.g.root_cluster) {
        return Some(Difference::FileAtRoot);
    }
    if !gets_further(theirs) {
        return None;
    }
    let (kept, freed) = clusters.split_at(keep.min(clusters.len()));
    let freed_system: Vec<u32> = freed.iter().copied().filter(|k| view.system(*k)).collect();
    if !freed_system.is_empty() {
        let inactive = freed_system.iter().all(|k| in_inactive_bitmap(view, *k));
        return inactive.then_some(Difference::InactiveBitmap);
    }
    if !kept.iter().any(|k| view.system(*k)) {
        return None;
    }
    Some(if freed.is_empty() {
        Difference::FreesNothing
    } else {
        Difference::KeepsSystem
    })
}

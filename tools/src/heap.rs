//! Which stream holds which cluster.

use crate::directory::{self, File};
use crate::volume::{Fault, Volume};

#[derive(Clone, Copy, Debug, PartialEq, Eq)]
pub enum Owner {
    Bitmap,
    Upcase,
    Root,
    /// An index of `Heap::streams`.
    File(usize),
    /// A file or folder in a folder.
    Inside,
}

/// A sound file with its clusters as far as they can be read, and what is
/// wrong with them.
pub struct Stream {
    pub file: File,
    pub clusters: Vec<u32>,
    pub faults: Vec<Fault>,
}

/// Files are read until they hold this many heaps full of clusters. One heap
/// is the most where no two share any, and a volume that was made to mislead
/// cannot fill the memory.
const HEAPS: usize = 4;

pub struct Heap {
    pub streams: Vec<Stream>,
    /// How many more files there are, not read.
    pub unread: usize,
    /// Entries in folders that are not sound: their clusters are not known.
    pub unsound_inside: usize,
    pub root: Vec<u32>,
    pub root_faults: Vec<Fault>,
    /// The owners of cluster k at k - 2, none of them twice.
    owners: Vec<Vec<Owner>>,
}

impl Heap {
    pub fn of(volume: &Volume) -> Heap {
        let g = &volume.geometry;
        let (root, root_faults) = read_root(volume);
        let mut files = volume.sound_files().into_iter();
        let mut streams: Vec<Stream> = Vec::new();
        let mut room = HEAPS * g.cluster_count as usize;
        while room > 0 {
            let Some(file) = files.next() else {
                break;
            };
            let stream = read(volume, file);
            room = room.saturating_sub(stream.clusters.len());
            streams.push(stream);
        }
        let mut heap = Heap {
            streams,
            unread: files.len(),
            unsound_inside: 0,
            root,
            root_faults,
            owners: vec![Vec::new(); g.cluster_count as usize],
        };
        let bitmaps = (0..g.number_of_fats).flat_map(|fat| g.bitmap(fat));
        let mut claims: Vec<(u32, Owner)> = bitmaps.map(|k| (k, Owner::Bitmap)).collect();
        claims.extend(volume.upcase_clusters.iter().map(|k| (*k, Owner::Upcase)));
        claims.extend(heap.root.iter().map(|k| (*k, Owner::Root)));
        for (index, stream) in heap.streams.iter().enumerate() {
            claims.extend(stream.clusters.iter().map(|k| (*k, Owner::File(index))));
        }
        let (held, unsound) = inside(volume, &heap.streams);
        heap.unsound_inside = unsound;
        claims.extend(held.into_iter().map(|k| (k, Owner::Inside)));
        for (cluster, owner) in claims {
            let owners = &mut heap.owners[(cluster - 2) as usize];
            // The claims of one owner follow each other.
            if owners.last() != Some(&owner) {
                owners.push(owner);
            }
        }
        heap
    }

    pub fn owners(&self, cluster: u32) -> &[Owner] {
        &self.owners[(cluster - 2) as usize]
    }

    /// Marked, and neither bad nor of any stream.
    pub fn lost(&self, volume: &Volume, cluster: u32) -> bool {
        volume.marked(cluster) && !volume.bad(cluster) && self.owners(cluster).is_empty()
    }
}

/// The root: its walk's fault, then unmarked clusters, then bitmap clusters.
fn read_root(volume: &Volume) -> (Vec<u32>, Vec<Fault>) {
    let g = &volume.geometry;
    let (root, fault) = volume.walk(g.root_cluster);
    let mut faults: Vec<Fault> = fault.into_iter().collect();
    faults.extend(unmarked(volume, &root));
    let in_bitmap = |k: &u32| (0..g.number_of_fats).any(|fat| g.bitmap(fat).contains(k));
    let bitmap: Vec<u32> = root.iter().copied().filter(in_bitmap).collect();
    faults.extend(some(9, &bitmap, "lie in a bitmap"));
    (root, faults)
}

/// A sound file's stream: 3 or 4, 5, 6, 9.
fn read(volume: &Volume, file: File) -> Stream {
    let count = volume.geometry.clusters_for(file.length) as usize;
    let mut faults = Vec::new();
    let clusters = if count == 0 {
        Vec::new()
    } else if file.no_fat_chain {
        (file.first..file.first + count as u32).collect()
    } else {
        let (clusters, fault) = volume.walk(file.first);
        if fault.is_none() && clusters.len() != count {
            let words = format!("the length takes {count} clusters and the chain has {}", clusters.len());
            faults.push(Fault::new(5, words));
        }
        faults.extend(fault);
        clusters
    };
    faults.extend(unmarked(volume, &clusters));
    let system: Vec<u32> = clusters.iter().copied().filter(|k| volume.system(*k)).collect();
    faults.extend(some(9, &system, "are system clusters"));
    Stream { file, clusters, faults }
}

/// The clusters of what folders hold, at any depth, as far as it can be read:
/// the calls do not look there, but these clusters are in use. Besides, how
/// many entries there are not sound.
fn inside(volume: &Volume, streams: &[Stream]) -> (Vec<u32>, usize) {
    let (mut held, mut unsound) = (Vec::new(), 0);
    let mut seen = vec![false; volume.geometry.heap().end as usize];
    let folders = streams.iter().filter(|stream| stream.file.is_directory());
    let mut left: Vec<Vec<u32>> = folders.map(|stream| stream.clusters.clone()).collect();
    while let Some(folder) = left.pop() {
        let files = directory::files(&volume.contents(&folder), &volume.geometry);
        unsound += files.iter().filter(|(_, file)| file.is_err()).count();
        for file in files.into_iter().filter_map(|(_, file)| file.ok()) {
            let is_directory = file.is_directory();
            let mut clusters = read(volume, file).clusters;
            // A folder that holds itself is read once.
            clusters.retain(|k| !std::mem::replace(&mut seen[*k as usize], true));
            held.extend(&clusters);
            if is_directory {
                left.push(clusters);
            }
        }
    }
    (held, unsound)
}

fn unmarked(volume: &Volume, clusters: &[u32]) -> Option<Fault> {
    let unmarked: Vec<u32> = clusters.iter().copied().filter(|k| !volume.marked(*k)).collect();
    some(6, &unmarked, "are not marked in the bitmap")
}

fn some(number: u32, clusters: &[u32], words: &str) -> Option<Fault> {
    let told = || Fault::new(number, format!("clusters {} {words}", ranges(clusters)));
    (!clusters.is_empty()).then(told)
}

/// The stretches of a stream in which each cluster follows the one before.
pub fn fragments(clusters: &[u32]) -> Vec<(u32, u32)> {
    let mut fragments: Vec<(u32, u32)> = Vec::new();
    for &cluster in clusters {
        match fragments.last_mut() {
            Some((_, last)) if *last + 1 == cluster => *last = cluster,
            _ => fragments.push((cluster, cluster)),
        }
    }
    fragments
}

/// Clusters as text: `4-6 9 12-13`.
pub fn ranges(clusters: &[u32]) -> String {
    let one = |(first, last): &(u32, u32)| {
        if first == last {
            first.to_string()
        } else {
            format!("{first}-{last}")
        }
    };
    let parts: Vec<String> = fragments(clusters).iter().map(one).collect();
    parts.join(" ")
}

#[cfg(test)]
mod tests {
    use super::*;

    #[test]
    fn stretches_of_clusters() {
        assert_eq!(ranges(&[4, 5, 6, 9, 12, 13]), "4-6 9 12-13");
        assert_eq!(ranges(&[7, 6, 8]), "7 6 8");
        assert_eq!(ranges(&[]), "");
    }
}

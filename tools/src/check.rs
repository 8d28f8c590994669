//! Whether a volume is consistent (01: tidy), and why it is not.

use crate::directory::{self, IN_USE};
use crate::heap::{ranges, Heap, Owner, Stream};
use crate::volume::Volume;
use std::collections::{BTreeMap, HashMap};

/// Consistent where there are no reasons against it. Notes tell what 01's
/// word does not ask for.
pub struct Report {
    pub reasons: Vec<String>,
    pub notes: Vec<String>,
}

pub fn check(volume: &Volume) -> Report {
    let heap = Heap::of(volume);
    // The limits hold: the volume could not be opened else. Sets of file
    // entries overlap nowhere where each is sound, since their second and
    // further entries are no file entries.
    let mut reasons = Vec::new();
    for fault in &heap.root_faults {
        reasons.push(format!("root: {} ({})", fault.words, fault.number.0));
    }
    for (slot, file) in volume.files() {
        if let Err(words) = file {
            reasons.push(format!("slot {slot}: no sound file entry: {words} (10)"));
        }
    }
    for stream in &heap.streams {
        for fault in &stream.faults {
            reasons.push(format!("{}: {} ({})", title(stream), fault.words, fault.number.0));
        }
    }
    reasons.extend(shared(volume, &heap));
    if heap.unread > 0 {
        reasons
            .push(format!("{} more files were not read: those before hold more clusters than there are", heap.unread));
    }
    reasons.extend(behind_the_end(volume));
    Report { reasons, notes: notes(volume, &heap) }
}

fn title(stream: &Stream) -> String {
    format!("slot {} ({})", stream.file.slot, stream.file.name())
}

/// Clusters that two files hold: for each cluster its first file with each
/// other.
fn shared(volume: &Volume, heap: &Heap) -> Vec<String> {
    let mut pairs: BTreeMap<(usize, usize), Vec<u32>> = BTreeMap::new();
    for cluster in volume.geometry.heap() {
        let file = |owner: &Owner| match owner {
            Owner::File(index) => Some(*index),
            _ => None,
        };
        let mut files = heap.owners(cluster).iter().filter_map(file);
        let Some(one) = files.next() else {
            continue;
        };
        for other in files {
            pairs.entry((one, other)).or_default().push(cluster);
        }
    }
    let tell = |((one, other), clusters): (&(usize, usize), &Vec<u32>)| {
        let (one, other) = (&heap.streams[*one], &heap.streams[*other]);
        format!("{} and {} share clusters {}", title(one), title(other), ranges(clusters))
    };
    pairs.iter().map(tell).collect()
}

fn behind_the_end(volume: &Volume) -> Vec<String> {
    let root = volume.root();
    let end = directory::used_part(&root);
    let entries = root.chunks_exact(directory::ENTRY).enumerate().skip(end);
    let in_use = entries.filter(|(_, entry)| entry[0] & IN_USE != 0);
    in_use
        .map(|(slot, entry)| format!("slot {slot}: an in-use entry ({:#04x}) behind the end at slot {end}", entry[0]))
        .collect()
}

fn notes(volume: &Volume, heap: &Heap) -> Vec<String> {
    let g = &volume.geometry;
    let those = |wanted: &dyn Fn(u32) -> bool| -> Vec<u32> { g.heap().filter(|k| wanted(*k)).collect() };
    let mut notes = Vec::new();
    let mut note = |clusters: Vec<u32>, words: &str| {
        if !clusters.is_empty() {
            notes.push(format!("clusters {} {words}", ranges(&clusters)));
        }
    };
    let inside = |k| heap.owners(k).contains(&Owner::Inside);
    note(those(&|k| heap.lost(volume, k)), "are marked and no stream's (lost)");
    note(those(&|k| inside(k) && !volume.marked(k)), "are of what folders hold and not marked");
    note(those(&|k| inside(k) && heap.owners(k).len() > 1), "are of what folders hold and of another stream too");
    note(those(&|k| volume.bad(k)), "are bad");
    note(those(&|k| volume.system(k) && !volume.marked(k)), "are system clusters and not marked");
    if g.number_of_fats == 2 {
        note(those(&|k| volume.marked_for(0, k) != volume.marked_for(1, k)), "are marked in one bitmap alone");
        let entry = |fat, k| &volume.bytes[g.fat_entry(fat, k)..][..4];
        note(those(&|k| entry(0, k) != entry(1, k)), "have different entries in the two FATs");
    }
    if let Some(words) = volume.folders() {
        notes.push(format!("{words}; what is in folders is not checked"));
    }
    if heap.unsound_inside > 0 {
        notes.push(format!(
            "entries in folders that are not sound: {}; their clusters count as lost",
            heap.unsound_inside
        ));
    }
    let mut names = HashMap::new();
    for stream in &heap.streams {
        let file = &stream.file;
        if file.hash != volume.upcase.hash(&file.name) {
            notes.push(format!("{}: the name's hash is wrong", title(stream)));
        }
        if let Some(slot) = names.insert(volume.upcase.name(&file.name), file.slot) {
            notes.push(format!("{}: has the same name as slot {slot}", title(stream)));
        }
    }
    notes
}

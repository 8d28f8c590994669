//! What allocate, extend and shrink cost by themselves: how it grows with the clusters of the volume (C) and of the call (n), on an
//! empty heap and where no two free clusters follow each other. The library alone.

use crate::calls::{shared, Call, List};
use crate::library::Side;
use crate::limits::now;
use crate::measure::{clock_cost, middle};
use crate::volume::Volume;

const CALLS: usize = 31;

fn start(count: usize, fragmented: bool) -> List {
    let mut volume = Volume::with(0, count);
    if fragmented {
        let others: Vec<u32> = (volume.first_free + 1..volume.end()).step_by(2).collect();
        volume.take(&others);
    }
    let hint = volume.first_free;
    List {
        volume,
        files: Vec::new(),
        calls: Vec::new(),
        hint,
    }
}

/// The median of some calls, each on the bytes and the record that are there, in microseconds.
fn time(list: &List, record: [u32; 4], call: Call, clock: u64) -> f64 {
    let mut volume = list.volume.bytes.clone();
    let mut side = Side::new(list, &[], &shared(&[]));
    let one = |_| {
        // These calls write the FAT and the bitmap alone.
        let end = list.volume.cluster_at(list.volume.first_free);
        volume[..end].copy_from_slice(&list.volume.bytes[..end]);
        side.hint = list.hint;
        side.record = record;
        let start = now();
        side.call(&mut volume, &call);
        (now() - start).saturating_sub(clock)
    };
    let times: Vec<u64> = (0..CALLS).map(one).collect();
    middle(&times).expect("some calls") / 1e3
}

/// A row: n clusters taken; n added to that record; the record of n cut to 0, and to half.
fn row(count: usize, fragmented: bool, n: u32, clock: u64) {
    let empty = start(count, fragmented);
    let taken = time(&empty, [0; 4], Call::Allocate { count: n }, clock);
    let mut filled = empty.clone();
    let mut side = Side::new(&empty, &[], &shared(&[]));
    side.call(&mut filled.volume.bytes, &Call::Allocate { count: n });
    let record = side.record;
    let added = time(&filled, record, Call::Extend { more: n }, clock);
    let freed = time(&filled, record, Call::Shrink { keep: 0 }, clock);
    let halved = time(&filled, record, Call::Shrink { keep: n / 2 }, clock);
    let heap = if fragmented { "fragmented" } else { "empty" };
    println!("| {heap} | {count} | {n} | {taken:.1} | {added:.1} | {freed:.1} | {halved:.1} |");
}

pub fn print_table() {
    let clock = clock_cost();
    let most = Volume::new(0).cluster_count as usize;
    println!("| heap | C | n | allocate | extend | shrink to 0 | shrink to n / 2 |");
    println!("|---|---|---|---|---|---|---|");
    for fragmented in [false, true] {
        for n in [1, 10, 100, 1000, 2000, 4000, 8000] {
            row(most, fragmented, n, clock);
        }
    }
    for fragmented in [false, true] {
        for count in [4000, 8000, 16000] {
            row(count, fragmented, 900, clock);
        }
    }
}

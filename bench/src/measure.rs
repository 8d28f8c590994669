//! One workload measured on each side.

use crate::calls::{shared, Call, List, Shared};
use crate::library;
use crate::limits::{clear, copy, now, run, walk};
#[cfg(rust_sources)]
use crate::rust;
use crate::volume::same;
use crate::workloads::{Limit, Workload};
use exfat::bytes::u32_at;

/// How often a workload is run. The sides take turns, so that each meets the machine in the same state.
#[derive(Clone, Copy)]
pub struct Rounds {
    pub all: usize,
    /// In how many of them the Rust is mounted before each call too, which takes long.
    pub fresh: usize,
    /// The same for the longest workloads.
    pub fresh_long: usize,
}

/// Nanoseconds for the whole list, in each round.
#[derive(Default)]
pub struct Times {
    pub library: Vec<u64>,
    pub fresh: Vec<u64>,
    pub warm: Vec<u64>,
    pub limit: Vec<u64>,
}

/// The middle value; none of none.
pub fn median(values: impl IntoIterator<Item = f64>) -> Option<f64> {
    let mut values: Vec<f64> = values.into_iter().collect();
    values.sort_unstable_by(f64::total_cmp);
    let middle = values.len() / 2;
    match values.len() {
        0 => None,
        odd if odd % 2 == 1 => Some(values[middle]),
        _ => Some((values[middle - 1] + values[middle]) / 2.0),
    }
}

pub fn middle(times: &[u64]) -> Option<f64> {
    median(times.iter().map(|time| *time as f64))
}

/// The median of the rounds' ratios.
pub fn ratio(one: &[u64], other: &[u64]) -> Option<f64> {
    median(
        one.iter()
            .zip(other)
            .map(|(one, other)| *one as f64 / *other as f64),
    )
}

/// Takes the bytes out of the processor's caches where they are to be cold.
fn cool(cold: bool, volume: &Shared, data: &[u8]) {
    if cold {
        clear(&volume.borrow());
        clear(data);
    }
}

fn run_library(work: &Workload, data: &[u8], volume: &Shared, cold: bool) -> u64 {
    let mut side = library::Side::new(&work.list, data, volume);
    side.restart();
    if work.repeated {
        side.run();
    }
    if work.anew {
        side.restart();
    }
    cool(cold, volume, data);
    side.run()
}

#[cfg(rust_sources)]
fn run_warm(work: &Workload, data: &[u8], volume: &Shared, cold: bool) -> u64 {
    let mut side = rust::Side::new(&work.list, data, volume);
    side.restart();
    let mut mount = side.mount();
    if work.repeated {
        side.run_on(&mut mount);
    }
    if work.anew {
        side.restart();
        mount = side.mount();
    }
    cool(cold, volume, data);
    side.run_on(&mut mount)
}

#[cfg(rust_sources)]
fn run_fresh(work: &Workload, data: &[u8], volume: &Shared, cold: bool) -> u64 {
    let mut side = rust::Side::new(&work.list, data, volume);
    side.restart();
    if work.repeated {
        side.run_fresh();
    }
    if work.anew {
        side.restart();
    }
    cool(cold, volume, data);
    side.run_fresh()
}

/// What two readings of the clock in a row give.
pub fn clock_cost() -> u64 {
    let cost = |_| {
        let start = now();
        now() - start
    };
    let costs: Vec<u64> = (0..1001).map(cost).collect();
    middle(&costs).expect("some readings") as u64
}

/// The sum of the walks before the calls: each follows the file's chain as the call finds it. Where the file is empty or a run,
/// there is no chain to walk.
fn run_walks(list: &List, data: &[u8], volume: &Shared) -> u64 {
    let clock = clock_cost();
    let mut side = library::Side::new(list, data, volume);
    side.restart();
    let bytes = &mut *volume.borrow_mut();
    let mut sum = 0;
    for call in &list.calls {
        if let Call::Write { file, .. } = call {
            let (first, chain) = stream_of(list, bytes, side.slots[*file]);
            if chain {
                let start = now();
                let last = walk(&bytes[list.volume.fat..list.volume.heap], first);
                sum += (now() - start).saturating_sub(clock);
                assert!(last >= 2);
            }
        }
        side.call(bytes, call);
    }
    sum
}

/// For each call, a walk of the file's chain and nothing else.
fn run_bare_walks(list: &List, volume: &Shared, cold: bool) -> u64 {
    let (first, chain) = stream_of(list, &volume.borrow(), list.files[0].slot);
    assert!(chain, "the file has a chain");
    let walks = |bytes: &[u8]| {
        let fat = &bytes[list.volume.fat..list.volume.heap];
        let start = now();
        for _ in &list.calls {
            assert!(walk(fat, first) >= 2);
        }
        now() - start
    };
    walks(&volume.borrow());
    cool(cold, volume, &[]);
    let bytes = &*volume.borrow();
    walks(bytes)
}

/// For each part, the tests of the run's clusters whose bits fill bytes; at most 14 others are left out.
fn run_tests(list: &List, volume: &Shared, first: u32, count: u32, cold: bool) -> u64 {
    cool(cold, volume, &list.volume.map);
    let bytes = &*volume.borrow();
    let (from, to) = (
        (first as usize - 2).div_ceil(8),
        (first + count - 2) as usize / 8,
    );
    let marks = &bytes[list.volume.heap + from..list.volume.heap + to];
    let map = &list.volume.map[from..to];
    let start = now();
    for _ in &list.calls {
        assert!(run(marks, map));
    }
    now() - start
}

/// The first cluster of the file at a slot of the root's first cluster, and whether the FAT links its clusters.
fn stream_of(list: &List, volume: &[u8], slot: u32) -> (u32, bool) {
    let at = list.volume.cluster_at(list.volume.geometry.root_cluster) + 32 * (slot as usize + 1);
    assert_eq!(
        volume[at], 0xc0,
        "the slot lies in the root's first cluster"
    );
    let first = u32_at(volume, at + 20);
    (first, first != 0 && volume[at + 1] & 2 == 0)
}

/// A copy of the source into the heap, the second of two in a row.
fn run_copy(at: usize, data: &[u8], volume: &Shared, cold: bool) -> u64 {
    copy(&mut volume.borrow_mut()[at..], data);
    cool(cold, volume, data);
    let heap = &mut volume.borrow_mut()[at..];
    let start = now();
    copy(heap, data);
    now() - start
}

/// The sides of a workload, in the order in which a round takes them.
#[derive(Clone, Copy)]
enum Turn {
    Library,
    Limit,
    OneMount,
    Fresh,
}

/// All sides of a workload. `cold`: the volume and the source are taken out of the processor's caches before the calls. Each side
/// goes first in its turn, since what ran before a side decides what of the memory is near the processor.
pub fn measure(work: &Workload, data: &[u8], cold: bool, rounds: Rounds) -> Times {
    let list = &work.list;
    let volume = shared(&list.volume.bytes);
    let mut times = Times::default();
    run_library(work, data, &volume, cold);
    let ours = volume.borrow().clone();
    // One call is short, and its time differs more from round to round.
    let more = if work.repeated { 15 } else { 1 };
    let fresh = more
        * if work.long {
            rounds.fresh_long
        } else {
            rounds.fresh
        };
    let held = |side: &str| {
        let title = &work.title;
        assert!(
            same(&ours, &volume.borrow()),
            "{title}: {side} leaves other bytes"
        );
    };
    // The Rust's reader is not among its files.
    let reads = matches!(list.calls[0], Call::Read { .. });
    let mut turns = [Turn::Library, Turn::Limit, Turn::OneMount, Turn::Fresh];
    for round in 0..more * rounds.all {
        for turn in turns {
            match turn {
                Turn::Library => {
                    times.library.push(run_library(work, data, &volume, cold));
                    held("the library");
                }
                Turn::Limit => match work.limit {
                    Limit::None => {}
                    Limit::Walk if work.repeated => {
                        times.limit.push(run_bare_walks(list, &volume, cold));
                    }
                    Limit::Walk => times.limit.push(run_walks(list, data, &volume)),
                    Limit::Run { first, count } => {
                        times
                            .limit
                            .push(run_tests(list, &volume, first, count, cold));
                    }
                    Limit::Copy { first, length } => {
                        let at = list.volume.cluster_at(first);
                        times
                            .limit
                            .push(run_copy(at, &data[..length], &volume, cold));
                    }
                },
                #[cfg(rust_sources)]
                Turn::OneMount if !reads => {
                    times.warm.push(run_warm(work, data, &volume, cold));
                    held("the Rust on one mount");
                }
                #[cfg(rust_sources)]
                Turn::Fresh if !reads && round < fresh => {
                    times.fresh.push(run_fresh(work, data, &volume, cold));
                    held("the Rust, mounted anew,");
                }
                _ => {}
            }
        }
        turns.rotate_left(1);
    }
    times
}

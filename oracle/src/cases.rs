//! The trials of 01, and each known difference on its smallest input: a volume of 16 clusters of
//! 512 bytes, as in the trials of 01 but with what the original wants for a
//! mount, and one to three calls.

use crate::calls::{Call, Data};
use crate::compare::{timed, Mode, Outcome, Pair};
use crate::entries::{self, StreamFields};
use crate::maker::{put_boot_regions, Health, Volume};
use crate::reads::Found;
use crate::rng::Rng;
use crate::sides::Theirs;
use crate::subject::{NewFile, Subject};
use crate::view::Record;
use exfat::bytes::{put32, set_bit, FAT_BAD, FAT_END};
use exfat::Geometry;
use original::Error;

/// What the original does in a case.
#[derive(Clone, Copy, Debug, PartialEq, Eq)]
enum Rust {
    /// Everything is alike.
    Agrees,
    Accepts,
    /// Both accept, and some bytes differ.
    OtherBytes,
    Refuses,
    /// Refuses, and has written before.
    RefusesLate,
    /// Refuses the volume.
    NotMounted,
}

struct Case {
    title: &'static str,
    listed: bool,
    volume: Volume,
    mode: Mode,
    calls: Vec<Call>,
    /// What the last call gives.
    number: u32,
    rust: Rust,
}

/// A volume that is written by hand. With one FAT: bitmap 2, root 3, up-case
/// table 4. With two: bitmaps 2 and 3, up-case table 4, root 5.
struct Bench {
    g: Geometry,
    bytes: Vec<u8>,
    upcase: u32,
    slots: usize,
    rng: Rng,
}

impl Bench {
    fn new(fats: u32) -> Self {
        let root_cluster = if fats == 1 { 3 } else { 5 };
        Self::with(fats, 16, 4, root_cluster, 0)
    }

    /// Clusters 4 to 17 free, as in the trials, and the up-case table in 18.
    fn for_trials() -> Self {
        Self::with(1, 17, 18, 3, 0)
    }

    fn with(fats: u32, cluster_count: u32, upcase: u32, root: u32, cluster_shift: u32) -> Self {
        let g = Geometry {
            sector_shift: 9,
            cluster_shift,
            fat_offset: 24,
            fat_length: 1,
            number_of_fats: fats,
            cluster_heap_offset: 32,
            cluster_count,
            root_cluster: root,
            bitmap_0: 2,
            bitmap_1: if fats == 2 { 3 } else { 0 },
            ..Geometry::default()
        };
        let mut bench = Self {
            g,
            bytes: vec![0; g.heap_end().max(1 << 20)],
            upcase,
            slots: 0,
            rng: Rng::new(1),
        };
        bench.system();
        bench
    }

    fn system(&mut self) {
        put_boot_regions(&mut self.bytes, &self.g, 1);
        // Old bytes in the heap, so that what is zeroed shows.
        let (start, end) = (self.g.cluster_offset(2), self.g.heap_end());
        self.bytes[start..end].fill(0xee);
        let g = self.g;
        let mut system = vec![g.bitmap_0, g.bitmap_1, self.upcase, g.root_cluster];
        system.retain(|cluster| *cluster != 0);
        for cluster in &system {
            let at = g.cluster_offset(*cluster);
            self.bytes[at..at + g.cluster_size()].fill(0);
            self.fat(*cluster, FAT_END);
        }
        for cluster in system {
            self.mark(cluster);
        }
        let table = entries::upcase_table();
        let at = self.g.cluster_offset(self.upcase);
        self.bytes[at..at + table.len()].copy_from_slice(&table);
        for fat in 0..self.g.number_of_fats {
            let length = self.g.bitmap_bytes() as u64;
            self.put_set(&entries::bitmap_entry(
                fat as u8,
                self.g.bitmap_first(fat),
                length,
            ));
        }
        self.put_set(&entries::upcase_entry(self.upcase));
    }

    fn mark(&mut self, cluster: u32) {
        for fat in 0..self.g.number_of_fats {
            let at = self.g.cluster_offset(self.g.bitmap_first(fat));
            set_bit(&mut self.bytes[at..], cluster);
        }
    }

    fn fat(&mut self, cluster: u32, value: u32) {
        for fat in 0..self.g.number_of_fats {
            let at = self.g.fat_entry(fat, cluster);
            put32(&mut self.bytes, at, value);
        }
    }

    /// Puts a set behind those in the root; the answer is its slot.
    fn put_set(&mut self, set: &[u8]) -> u32 {
        let slot = self.slots;
        let at = self.g.cluster_offset(self.g.root_cluster) + slot * 32;
        self.bytes[at..at + set.len()].copy_from_slice(set);
        self.slots += set.len() / 32;
        slot as u32
    }

    fn set(&mut self, name: &str, first: u32, length: u64, flags: u8, attributes: u16) -> Vec<u8> {
        let name: Vec<u16> = name.encode_utf16().collect();
        let stream = StreamFields {
            flags,
            first,
            valid: length,
            length,
        };
        entries::file_set(&mut self.rng, &name, attributes, stream, false)
    }

    /// A file on a run, whose clusters are marked.
    fn run_file(&mut self, name: &str, first: u32, clusters: u32) -> u32 {
        for cluster in first..first + clusters {
            self.mark(cluster);
        }
        let set = self.set(name, first, u64::from(clusters) * 512, 3, 0x20);
        self.put_set(&set)
    }

    fn volume(self) -> Volume {
        Volume {
            geometry: self.g,
            bytes: self.bytes,
            health: Health::Tidy,
            upcase: self.upcase,
            lost: Vec::new(),
            next_name: 1,
            fixed_map: None,
            map_tail: 0,
        }
    }
}

fn run(first: u32, last: u32) -> Record {
    Record {
        first,
        last,
        count: last - first + 1,
        no_fat_chain: true,
    }
}

fn write(slot: u32, offset: u64, length: u32) -> Call {
    let data = Data { length, seed: 1 };
    Call::Write { slot, offset, data }
}

fn new_file(name: &[u16]) -> Call {
    let stamp = (0x0021_0000, 0, 0);
    Call::NewFile(NewFile {
        name: name.to_vec(),
        attributes: 0x20,
        hash: entries::name_hash(name),
        stamps: [stamp; 3],
    })
}

fn case(
    title: &'static str,
    listed: bool,
    bench: Bench,
    call: Call,
    number: u32,
    rust: Rust,
) -> Case {
    Case {
        title,
        listed,
        volume: bench.volume(),
        mode: Mode::Fresh,
        calls: vec![call],
        number,
        rust,
    }
}

fn listed_cases() -> Vec<Case> {
    let near = Call::Allocate {
        count: 1,
        near: Some(18),
    };
    let mut cases = vec![case(
        "near outside the heap",
        true,
        Bench::new(1),
        near,
        2,
        Rust::Accepts,
    )];

    let mut bench = Bench::new(1);
    let slot = bench.run_file("a", 4, 1);
    let call = write(slot, 0, 0);
    cases.push(case(
        "9 for a call that frees nothing",
        true,
        bench,
        call,
        9,
        Rust::Accepts,
    ));

    // Free clusters enough, usable ones too few: the original has linked the
    // run by the time it sees that.
    let mut bench = Bench::new(1);
    for cluster in 5..=16 {
        bench.mark(cluster);
    }
    bench.fat(17, FAT_BAD);
    let call = Call::Extend {
        record: run(5, 6),
        more: 1,
    };
    cases.push(case(
        "nothing is written before a refusal",
        true,
        bench,
        call,
        7,
        Rust::RefusesLate,
    ));

    let call = new_file(&[0xd800]);
    cases.push(case(
        "a name that is not UTF-16",
        true,
        Bench::new(1),
        call,
        0,
        Rust::Refuses,
    ));

    let mut bench = Bench::new(1);
    bench.run_file("a", 5, 1);
    cases.push(case(
        "a repeated name",
        true,
        bench,
        new_file(&[0x41]),
        0,
        Rust::Refuses,
    ));

    for (title, name, at, value) in [
        ("a set with another hash", "a", 36, 0x7f),
        ("a set with a stamp that is no time", "a", 21, 200),
        ("a set with a refused unit in its name", "?", 6, 0),
    ] {
        let mut bench = Bench::new(1);
        let mut set = bench.set(name, 0, 0, 1, 0x20);
        set[at] = value;
        entries::seal(&mut set);
        let slot = bench.put_set(&set);
        cases.push(case(
            title,
            true,
            bench,
            write(slot, 0, 1),
            0,
            Rust::NotMounted,
        ));
    }

    // Another primary that claims two entries which are not in use.
    let mut bench = Bench::new(1);
    let mut set = vec![0; 32];
    (set[0], set[1]) = (0xa1, 2);
    bench.put_set(&set);
    cases.push(case(
        "another primary",
        true,
        bench,
        new_file(&[0x61]),
        0,
        Rust::NotMounted,
    ));
    cases
}

fn inactive_bitmap_cases() -> Vec<Case> {
    let title = "1. the bitmap of the FAT that is not active";
    let shrink = Call::Shrink {
        record: run(3, 3),
        keep: 0,
    };
    let mut cases = vec![case(title, false, Bench::new(2), shrink, 9, Rust::Accepts)];
    let mut bench = Bench::new(2);
    let slot = bench.run_file("a", 3, 1);
    cases.push(case(
        title,
        false,
        bench,
        Call::Remove { slot },
        9,
        Rust::Accepts,
    ));
    let mut bench = Bench::new(2);
    bench.fat(5, 3);
    cases.push(case(
        title,
        false,
        bench,
        new_file(&[0x61]),
        9,
        Rust::Accepts,
    ));
    cases
}

fn cache_cases() -> Vec<Case> {
    let title = "4. the original's caches, on one mount";
    let mut bench = Bench::new(1);
    let a = bench.run_file("a", 5, 2);
    let b = bench.run_file("b", 6, 2);
    let mut first = case(title, false, bench, write(a, 0, 1), 6, Rust::Accepts);
    first.mode = Mode::List;
    first.calls = vec![write(a, 0, 1), Call::Remove { slot: b }, write(a, 0, 1)];

    let mut bench = Bench::new(1);
    let a = bench.run_file("a", 5, 2);
    bench.mark(9);
    bench.fat(5, 9);
    bench.fat(9, FAT_END);
    let set = bench.set("b", 5, 1024, 1, 0x20);
    let b = bench.put_set(&set);
    let mut second = case(title, false, bench, write(b, 600, 1), 0, Rust::OtherBytes);
    second.mode = Mode::List;
    second.calls = vec![write(a, 0, 1), write(b, 600, 1)];

    // A live run's record with the flag cleared: the FAT says 0 at 5.
    let chain = Record {
        no_fat_chain: false,
        ..run(5, 5)
    };
    let extend = Call::Extend {
        record: chain,
        more: 1,
    };
    let allocate = Call::Allocate {
        count: 1,
        near: None,
    };
    let mut third = case(
        title,
        false,
        Bench::new(1),
        extend.clone(),
        3,
        Rust::Accepts,
    );
    third.mode = Mode::List;
    third.calls = vec![allocate, extend];
    vec![first, second, third]
}

/// An empty file whose set has one more entry behind its name.
fn extra_secondary() -> (Bench, u32) {
    let mut bench = Bench::new(1);
    let mut set = bench.set("a", 0, 0, 1, 0x20);
    set[1] += 1;
    set.push(0xe0);
    set.resize(set.len() + 31, 0);
    entries::seal(&mut set);
    let slot = bench.put_set(&set);
    (bench, slot)
}

fn other_cases() -> Vec<Case> {
    let mut cases = inactive_bitmap_cases();

    let (bench, slot) = extra_secondary();
    let title = "2. a set with a further benign secondary";
    cases.push(case(
        title,
        false,
        bench,
        write(slot, 0, 0),
        10,
        Rust::Accepts,
    ));

    let mut bench = Bench::new(1);
    let slot = bench.run_file("a", 4, 2);
    let call = Call::SetLength { slot, length: 512 };
    let title = "3. 9 for a call that frees, but no system cluster";
    cases.push(case(title, false, bench, call, 9, Rust::Accepts));

    cases.extend(cache_cases());

    // The map leaves the root out, so that the file may use its cluster.
    let mut bench = Bench::new(1);
    let slot = bench.run_file("a", 3, 1);
    let title = "5. a file that begins at the root's first cluster";
    let mut at_root = case(
        title,
        false,
        bench,
        write(slot, 512, 1),
        0,
        Rust::RefusesLate,
    );
    at_root.volume.fixed_map = Some(vec![0b101, 0]);
    cases.push(at_root);

    let call = Call::Allocate {
        count: 1,
        near: None,
    };
    let title = "6. the map is the caller's";
    let mut map = case(
        title,
        false,
        Bench::new(1),
        call.clone(),
        0,
        Rust::OtherBytes,
    );
    map.volume.fixed_map = Some(vec![0b1111, 0]);
    cases.push(map);

    // Trial T2: no up-case table, the bitmap's FAT entry 0, below 1 MiB.
    let mut bench = Bench::new(1);
    bench.bytes.truncate(bench.g.heap_end());
    let (bitmap, root) = (bench.g.cluster_offset(2), bench.g.cluster_offset(3));
    bench.bytes[bitmap] = 0b11;
    bench.bytes[root..root + 512].fill(0);
    bench.fat(2, 0);
    bench.fat(4, 0);
    let call = Call::Allocate {
        count: 3,
        near: None,
    };
    let title = "7. the volume of the trials T1 to T12";
    let mut trial = case(title, false, bench, call, 0, Rust::NotMounted);
    trial.volume.fixed_map = Some(vec![0b11, 0]);
    cases.push(trial);
    cases
}

/// The trials of 01 on a volume that mounts: one cluster more, with the
/// up-case table in it.
fn trials() -> Vec<Case> {
    let allocate = |count| Call::Allocate { count, near: None };
    let extend = |record, more| Call::Extend { record, more };
    let trial = |title, bench, call, number| case(title, true, bench, call, number, Rust::Agrees);
    let bad = || {
        let mut bench = Bench::for_trials();
        bench.fat(6, FAT_BAD);
        bench
    };
    let taken = || {
        let mut bench = Bench::for_trials();
        bench.run_file("a", 4, 3);
        bench.mark(7);
        bench
    };
    let cycle = || {
        let mut bench = Bench::for_trials();
        bench.fat(4, 5);
        bench.fat(5, 4);
        bench
    };
    let chain = |last, count| Record {
        first: 4,
        last,
        count,
        no_fat_chain: false,
    };
    let mut shrunk = trial("T9", taken(), allocate(0), 0);
    let cut = Call::Shrink {
        record: chain(8, 4),
        keep: 3,
    };
    shrunk.calls = vec![extend(run(4, 6), 1), cut];
    let mut cases = vec![
        trial("T1", Bench::for_trials(), allocate(0), 0),
        trial("T2", Bench::for_trials(), allocate(3), 0),
        trial("T3", Bench::for_trials(), allocate(14), 0),
        trial("T4", Bench::for_trials(), allocate(15), 7),
        trial("T5", bad(), allocate(3), 0),
        trial(
            "T6",
            bad(),
            Call::Allocate {
                count: 13,
                near: Some(10),
            },
            0,
        ),
        trial("T7", bad(), allocate(14), 7),
        trial("T8", taken(), extend(run(4, 6), 1), 0),
        shrunk,
        trial(
            "T10",
            cycle(),
            Call::Clusters {
                record: chain(5, 2),
            },
            4,
        ),
    ];
    cases.extend(slips());
    for (title, length) in [("T11", 1300), ("T12", 900)] {
        let mut bench = Bench::for_trials();
        bench.mark(4);
        bench.mark(5);
        let set = bench.set("a", 4, 700, 3, 0x20);
        let slot = bench.put_set(&set);
        cases.push(trial(title, bench, Call::SetLength { slot, length }, 0));
    }
    cases
}

/// What is easily missed beside the trials.
fn slips() -> Vec<Case> {
    let chain = |ending| {
        let mut bench = Bench::for_trials();
        bench.mark(4);
        bench.mark(5);
        bench.fat(4, 5);
        bench.fat(5, ending);
        let set = bench.set("a", 4, 700, 1, 0x20);
        (bench.put_set(&set), bench)
    };
    let (slot, ended) = chain(0xffff_fff8);
    let no_end = write(slot, 0, 1);
    let equal = Call::SetLength { slot, length: 700 };
    let shorter = Call::SetLength { slot, length: 600 };
    let title = "0xFFFFFFF8 is no end";
    vec![
        case(title, true, ended, no_end, 3, Rust::Agrees),
        case(
            "an equal length keeps a chain",
            true,
            chain(FAT_END).1,
            equal,
            0,
            Rust::Agrees,
        ),
        case(
            "a shorter one makes it a run",
            true,
            chain(FAT_END).1,
            shorter,
            0,
            Rust::Agrees,
        ),
    ]
}

/// The trials' volumes and calls, for the sample.
pub fn trial_lists() -> Vec<(Volume, Vec<Call>)> {
    trials()
        .into_iter()
        .map(|case| (case.volume, case.calls))
        .collect()
}

/// The hint of every case.
pub const HINT: u32 = 4;

/// Differences that neither 01 nor the readings name.
fn further_cases() -> Vec<Case> {
    let allocate = Call::Allocate {
        count: 1,
        near: None,
    };
    let mut cases = Vec::new();

    let mut bench = Bench::new(1);
    bench.fat(3, 4);
    let title = "8. the up-case table's cluster in the root's chain";
    cases.push(case(
        title,
        false,
        bench,
        new_file(&[0x61]),
        0,
        Rust::NotMounted,
    ));

    let mut bench = Bench::new(1);
    let at = bench.g.cluster_offset(2);
    bench.bytes[at] = 0b011;
    let title = "9. a system cluster that is not marked";
    cases.push(case(
        title,
        false,
        bench,
        Call::FreeCount,
        0,
        Rust::NotMounted,
    ));

    let mut bench = Bench::new(1);
    bench.mark(5);
    let set = bench.set("a", 5, 1, 3, 0x10);
    let slot = bench.put_set(&set);
    let title = "10. a directory whose length is not whole clusters";
    cases.push(case(
        title,
        false,
        bench,
        Call::Remove { slot },
        11,
        Rust::NotMounted,
    ));

    let mut bench = Bench::new(2);
    let root = bench.g.cluster_offset(bench.g.root_cluster);
    put32(&mut bench.bytes, root + 32 + 20, 2);
    bench.g.bitmap_1 = 2;
    let title = "11. two bitmaps that share a cluster";
    cases.push(case(
        title,
        false,
        bench,
        allocate.clone(),
        1,
        Rust::Accepts,
    ));

    let bench = Bench::with(1, 16, 4, 3, 7);
    let title = "12. shifts that add up to 16";
    cases.push(case(title, false, bench, allocate, 1, Rust::Accepts));
    cases
}

fn step_through(subject: &dyn Subject, case: &Case) -> Outcome {
    let mut pair = Pair::new(subject, &case.volume, case.mode);
    let mut rng = Rng::new(7);
    let mut last = None;
    for call in &case.calls {
        last = Some(pair.step(&timed(call.clone(), HINT, &mut rng)));
    }
    last.expect("a case has a call")
}

fn seen(outcome: &Outcome) -> Rust {
    match outcome.theirs {
        _ if outcome.wrong.is_none() && !outcome.wrote_first => Rust::Agrees,
        Theirs::NotMounted(_) => Rust::NotMounted,
        Theirs::Refused(_) if outcome.wrote_first => Rust::RefusesLate,
        Theirs::Refused(_) => Rust::Refuses,
        Theirs::Given(_) if outcome.ours.number == 0 => Rust::OtherBytes,
        Theirs::Given(_) => Rust::Accepts,
    }
}

/// A file read, the library's number, and how the original's reader of volumes
/// refuses it, if it does.
struct ReadCase {
    title: &'static str,
    volume: Volume,
    slot: u32,
    number: u32,
    refusal: Option<&'static str>,
}

fn read_cases() -> Vec<ReadCase> {
    // A chain of two pieces: nothing differs.
    let mut bench = Bench::for_trials();
    for (cluster, next) in [(4, 5), (5, 9), (9, FAT_END)] {
        bench.mark(cluster);
        bench.fat(cluster, next);
    }
    let set = bench.set("a", 4, 1300, 1, 0x20);
    let slot = bench.put_set(&set);
    let mut cases = vec![ReadCase {
        title: "a file read back",
        volume: bench.volume(),
        slot,
        number: 0,
        refusal: None,
    }];

    let mut bench = Bench::new(2);
    let slot = bench.run_file("a", 3, 1);
    cases.push(ReadCase {
        title: "1. the bitmap of the FAT that is not active, read",
        volume: bench.volume(),
        slot,
        number: 9,
        refusal: None,
    });

    let (bench, slot) = extra_secondary();
    cases.push(ReadCase {
        title: "2. a set with a further benign secondary, read",
        volume: bench.volume(),
        slot,
        number: 10,
        refusal: None,
    });

    let mut bench = Bench::new(1);
    bench.mark(5);
    bench.fat(5, 6);
    bench.fat(6, FAT_END);
    let set = bench.set("a", 5, 512, 1, 0x20);
    let slot = bench.put_set(&set);
    cases.push(ReadCase {
        title: "13. a chain of another length with a cluster that is not marked, read",
        volume: bench.volume(),
        slot,
        number: 5,
        refusal: Some("chain uses a free cluster"),
    });
    cases
}

fn print_reads(subject: &dyn Subject) -> u32 {
    let mut wrong = 0;
    for case in read_cases() {
        let mut pair = Pair::new(subject, &case.volume, Mode::Fresh);
        let reading = pair.read(case.slot, 512, &mut Rng::new(7));
        let rust = match (&reading.found, case.refusal) {
            (Found::Opened(_), None) => true,
            (Found::Refused(Error::Invalid(text)), Some(refusal)) => *text == refusal,
            _ => false,
        };
        // Where the library accepts, the parts have to agree too.
        let agrees = case.number != 0 || reading.wrong.is_none();
        let as_told = rust && agrees && reading.number == case.number;
        wrong += u32::from(!as_told);
        let verdict = if as_told { "as told" } else { "NOT AS TOLD" };
        println!("{verdict} [--] {}", case.title);
        println!(
            "    ours {}; the original: {:?}",
            reading.number, reading.found
        );
    }
    wrong
}

/// Prints every case; the answer is how many are not as told.
pub fn print(subject: &dyn Subject) -> u32 {
    let mut wrong = print_reads(subject);
    let mut cases = trials();
    cases.extend(listed_cases());
    cases.extend(other_cases());
    cases.extend(further_cases());
    for case in cases {
        let outcome = step_through(subject, &case);
        let rust = seen(&outcome);
        let as_told = outcome.ours.number == case.number && rust == case.rust;
        wrong += u32::from(!as_told);
        let verdict = if as_told { "as told" } else { "NOT AS TOLD" };
        let listed = if case.listed { "01" } else { "--" };
        println!("{verdict} [{listed}] {}", case.title);
        println!("    {:?}", case.calls);
        println!(
            "    ours {}; the original: {rust:?}, {:?}",
            outcome.ours.number, outcome.theirs
        );
    }
    wrong
}

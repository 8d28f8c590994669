//! The workloads: each a start and a list of calls.

use crate::calls::{shared, Call, File, List};
use crate::library;
use crate::volume::Volume;

pub const FILE_BYTES: usize = 8 << 20;
const PIECE: usize = 4096;

/// What a workload is held against besides the Rust.
#[derive(Clone, Copy, PartialEq)]
pub enum Limit {
    None,
    /// Before each call, a walk of the file's chain as it then is; where the call is repeated, that alone.
    Walk,
    /// For each read of a run, the marks and the system map of its clusters, byte by byte.
    Run {
        first: u32,
        count: u32,
    },
    /// A memory copy of as many bytes as the call stores, into the heap, from the file's first cluster on.
    Copy {
        first: u32,
        length: usize,
    },
}

pub struct Workload {
    pub title: String,
    pub list: List,
    pub limit: Limit,
    /// How often the limit the library may take at most, where that is a goal.
    pub most: Option<f64>,
    /// The call is made once before it is measured, on either side.
    pub repeated: bool,
    /// Everything is put back between the two, since the second would do less.
    pub anew: bool,
    /// With a mount before each call it takes seconds.
    pub long: bool,
}

fn plain(title: String, list: List) -> Workload {
    Workload {
        title,
        list,
        limit: Limit::None,
        most: None,
        repeated: false,
        anew: false,
        long: false,
    }
}

fn size_text(bytes: usize) -> String {
    if bytes < 1024 {
        format!("{bytes} B")
    } else {
        format!("{} KiB", bytes / 1024)
    }
}

/// The clusters from the first free one on, as far as `holes` of each `period` go, and the others.
fn split(volume: &Volume, holes: u32, period: u32) -> (Vec<u32>, Vec<u32>) {
    (volume.first_free..volume.end())
        .partition(|cluster| (cluster - volume.first_free) % period < holes)
}

/// Holes of 8 clusters: three files were recorded in turns, 8 clusters, 2 and 2, and the first one was removed.
fn holes_of_8(shift: u32) -> Volume {
    let mut volume = Volume::new(shift);
    let (_, kept) = split(&volume, 8, 12);
    let turn = |cluster: &u32| (cluster - volume.first_free) % 12 < 10;
    let (second, third): (Vec<u32>, Vec<u32>) = kept.iter().partition(|cluster| turn(cluster));
    volume.add_file("second", &second);
    volume.add_file("third", &third);
    volume
}

/// Holes of 2 clusters: every third one belongs to another file.
fn holes_of_2(shift: u32) -> Volume {
    let mut volume = Volume::new(shift);
    let (_, kept) = split(&volume, 2, 3);
    volume.add_file("other", &kept);
    volume
}

fn list(volume: Volume, files: Vec<File>, calls: Vec<Call>) -> List {
    List {
        volume,
        files,
        calls,
        hint: 2,
    }
}

/// One file, made before, to which 8 MiB are appended by 4 KiB.
fn appends(title: &str, volume: Volume, limit: Limit, data: &[u8]) -> Workload {
    let title = format!(
        "append 4 KiB up to 8 MiB, {} clusters, {title}",
        size_text(volume.cluster_size)
    );
    let made = after(
        list(
            volume,
            vec![File::new("recording")],
            vec![Call::NewFile { file: 0 }],
        ),
        data,
    );
    let pieces = (0..FILE_BYTES).step_by(PIECE);
    let calls = pieces
        .map(|from| Call::Write {
            file: 0,
            offset: from as u64,
            from,
            length: PIECE,
        })
        .collect();
    let most = (limit == Limit::Walk).then_some(3.0);
    Workload {
        limit,
        most,
        ..plain(title, List { calls, ..made })
    }
}

/// The list's end as the start of another list, with the slots and the hint that its calls gave.
fn after(list: List, data: &[u8]) -> List {
    let volume = shared(&list.volume.bytes);
    let mut side = library::Side::new(&list, data, &volume);
    side.run();
    let (slots, hint) = (side.slots, side.hint);
    let mut next = list.clone();
    next.volume.bytes = volume.take();
    next.hint = hint;
    next.files
        .iter_mut()
        .zip(slots)
        .for_each(|(file, slot)| file.slot = slot);
    next.calls = Vec::new();
    next
}

/// The bytes that are written: 8 MiB of a fixed random sequence.
pub fn source() -> Vec<u8> {
    let mut random = Random(1);
    (0..FILE_BYTES / 8)
        .flat_map(|_| random.next().to_le_bytes())
        .collect()
}

/// splitmix64
struct Random(u64);

impl Random {
    fn next(&mut self) -> u64 {
        self.0 = self.0.wrapping_add(0x9e37_79b9_7f4a_7c15);
        let mut value = self.0;
        value = (value ^ (value >> 30)).wrapping_mul(0xbf58_476d_1ce4_e5b9);
        value = (value ^ (value >> 27)).wrapping_mul(0x94d0_49bb_1331_11eb);
        value ^ (value >> 31)
    }

    fn below(&mut self, limit: u64) -> u64 {
        self.next() % limit
    }
}

/// A file of 8 MiB, on a run or on holes of 2, overwritten in one call.
fn overwrite(shift: u32, run: bool) -> Workload {
    let mut volume = Volume::new(shift);
    let count = FILE_BYTES / volume.cluster_size;
    let (mut own, mut other) = if run {
        split(&volume, 1, 1)
    } else {
        split(&volume, 2, 3)
    };
    own.truncate(count);
    let slot = volume.add_file("recording", &own);
    if !run {
        other.retain(|cluster| *cluster < own[count - 1]);
        volume.add_file("other", &other);
    }
    let form = if run {
        "a run"
    } else {
        "a chain, 2 of 3 clusters"
    };
    let title = format!(
        "overwrite 8 MiB in one call, {} clusters, {form}",
        size_text(volume.cluster_size)
    );
    let calls = vec![Call::Write {
        file: 0,
        offset: 0,
        from: 0,
        length: FILE_BYTES,
    }];
    let list = list(volume, vec![File::at("recording", slot)], calls);
    let most = match shift {
        0 => Some(2.0),
        3 => Some(1.5),
        _ => None,
    };
    Workload {
        limit: Limit::Copy {
            first: own[0],
            length: FILE_BYTES,
        },
        most,
        repeated: true,
        ..plain(title, list)
    }
}

const FILES: usize = 1000;

fn names(long: bool) -> Vec<File> {
    let rest = if long {
        "x".repeat(251)
    } else {
        ".mlt".to_string()
    };
    (0..FILES)
        .map(|index| File::new(&format!("{index:04}{rest}")))
        .collect()
}

fn create_and_remove(shift: u32, long: bool, data: &[u8]) -> [Workload; 2] {
    let files = names(long);
    let length = files[0].name.len();
    let all = |call: fn(usize) -> Call| (0..FILES).map(call).collect::<Vec<Call>>();
    let volume = Volume::new(shift);
    let size = size_text(volume.cluster_size);
    let create = list(volume, files, all(|file| Call::NewFile { file }));
    let mut remove = after(create.clone(), data);
    remove.calls = all(|file| Call::Remove { file });
    let title =
        |verb: &str| format!("{verb} 1,000 files, names of {length} units, {size} clusters");
    let work = |verb, list| Workload {
        long,
        ..plain(title(verb), list)
    };
    [work("create", create), work("remove", remove)]
}

/// 10,000 writes of 1 to 512 bytes at any place of 200 files' first 32 KiB. The files begin with 8 KiB each.
fn random_writes(shift: u32, data: &[u8]) -> Workload {
    let files: Vec<File> = (0..200)
        .map(|index| File::new(&format!("{index:03}.mlt")))
        .collect();
    let volume = Volume::new(shift);
    let title = format!(
        "10,000 random small writes over 200 files, {} clusters",
        size_text(volume.cluster_size)
    );
    let fill = |file| {
        [
            Call::NewFile { file },
            Call::Write {
                file,
                offset: 0,
                from: 0,
                length: 8192,
            },
        ]
    };
    let made = after(list(volume, files, (0..200).flat_map(fill).collect()), data);
    let mut random = Random(2);
    let mut write = || Call::Write {
        file: random.below(200) as usize,
        offset: random.below(32 << 10),
        from: random.below(FILE_BYTES as u64 - 512) as usize,
        length: 1 + random.below(512) as usize,
    };
    let calls = (0..10_000).map(|_| write()).collect();
    Workload {
        long: true,
        ..plain(title, List { calls, ..made })
    }
}

/// Every hundredth cluster is free.
fn nearly_full() -> Volume {
    let mut volume = Volume::new(0);
    let (_, kept) = split(&volume, 1, 100);
    volume.add_file("other", &kept);
    volume
}

fn full_heap(data: &[u8]) -> [Workload; 2] {
    let turn = [
        Call::Allocate { count: 4 },
        Call::Extend { more: 4 },
        Call::Shrink { keep: 0 },
    ];
    let records = list(nearly_full(), Vec::new(), turn.repeat(500));
    let made = after(
        list(
            nearly_full(),
            vec![File::new("recording")],
            vec![Call::NewFile { file: 0 }],
        ),
        data,
    );
    let write = |index: usize| Call::Write {
        file: 0,
        offset: 512 * index as u64,
        from: 512 * index,
        length: 512,
    };
    let writes = List {
        calls: (0..300).map(write).collect(),
        ..made
    };
    let title = |text: &str| format!("heap nearly full, 512 B clusters: {text}");
    [
        plain(title("allocate 4, extend by 4, shrink to 0"), records),
        plain(title("append 512 B"), writes),
    ]
}

/// How many clusters a long chain has, which is written along or read back.
const LONG: usize = 16_384;

/// Every other cluster, then some of those between: no two that follow each other in the stream do so in the heap.
fn scattered(volume: &Volume, count: usize) -> Vec<u32> {
    let (first, end) = (volume.first_free, volume.end());
    (first..end)
        .step_by(2)
        .chain((first + 1..end).step_by(2))
        .take(count)
        .collect()
}

/// One write to a file on scattered clusters of 512 bytes, of which so many bytes are valid.
fn long_write(
    title: String,
    count: usize,
    valid: usize,
    (offset, length): (usize, usize),
) -> Workload {
    let mut volume = Volume::new(0);
    let clusters = scattered(&volume, count);
    let slot = volume.add_stream("recording", &clusters, false);
    volume.set_valid(slot, valid as u64);
    let calls = vec![Call::Write {
        file: 0,
        offset: offset as u64,
        from: 0,
        length,
    }];
    let limit = Limit::Copy {
        first: clusters[0],
        // zeros lie between the valid length and the data
        length: offset + length - valid.min(offset),
    };
    Workload {
        limit,
        most: Some(2.0),
        repeated: true,
        anew: valid < offset,
        ..plain(
            title,
            list(volume, vec![File::at("recording", slot)], calls),
        )
    }
}

/// The chain as a whole; zeros along it and a byte in its last cluster; a byte in the middle.
fn long_writes(mut take: impl FnMut(Workload)) {
    for (text, count) in [("4,096", LONG / 4), ("16,384", LONG)] {
        let bytes = 512 * count;
        let title = format!("write all of {text} clusters of 512 B, scattered");
        take(long_write(title, count, bytes, (0, bytes)));
    }
    for (text, count) in [("4,096", LONG / 4), ("16,384", LONG)] {
        let title = format!(
            "write 1 B to the last of {text} clusters of 512 B, scattered, with no byte valid"
        );
        take(long_write(title, count, 0, (512 * count - 412, 1)));
    }
    let title = "write 1 B to the middle of 16,384 clusters of 512 B, scattered".to_string();
    take(Workload {
        limit: Limit::Walk,
        most: Some(1.5),
        ..long_write(title, LONG, 512 * LONG, (512 * LONG / 2 + 100, 1))
    });
}

/// One file of 8 MiB in clusters of 512 bytes, read back in parts: from which of its clusters on, and how many each has. The Rust
/// has no part in it, since its reader is not among the files.
fn reads(title: &str, clusters: &[u32], run: bool, parts: &[(usize, usize)]) -> Workload {
    let mut volume = Volume::new(0);
    let slot = volume.add_stream("recording", clusters, run);
    let read = |&(from, count): &(usize, usize)| Call::Read {
        file: 0,
        offset: 512 * from as u64,
        length: 512 * count,
    };
    let calls = parts.iter().map(read).collect();
    let limit = if run {
        Limit::Run {
            first: clusters[0],
            count: clusters.len() as u32,
        }
    } else {
        Limit::Walk
    };
    Workload {
        limit,
        most: Some(1.5),
        repeated: !run,
        ..plain(
            format!("read back 16,384 clusters of 512 B, {title}"),
            list(volume, vec![File::at("recording", slot)], calls),
        )
    }
}

fn all_reads(mut take: impl FnMut(Workload)) {
    let volume = Volume::new(0);
    let first = volume.first_free;
    let scattered = scattered(&volume, LONG);
    for (place, from) in [("first", 0), ("middle", LONG / 2), ("last", LONG - 1)] {
        let title = format!("scattered: the part at the {place} cluster");
        take(reads(&title, &scattered, false, &[(from, 1)]));
    }
    // 64 pieces of 256 clusters, and a cluster between each two.
    let pieces: Vec<u32> = (0..LONG as u32).map(|k| first + k + k / 256).collect();
    let whole: Vec<(usize, usize)> = (0..64).map(|piece| (256 * piece, 256)).collect();
    take(reads("64 pieces: all 64 parts", &pieces, false, &whole));
    let together: Vec<u32> = (first..).take(LONG).collect();
    let title = "a chain that rises by one: the one part";
    take(reads(title, &together, false, &[(0, LONG)]));
    // 1,000 times, since the clock would count beside one call.
    take(reads(
        "a run: the one part",
        &together,
        true,
        &[(0, LONG); 1000],
    ));
}

/// Every workload in turn. Each is made only when its turn comes.
pub fn all(data: &[u8], mut take: impl FnMut(Workload)) {
    take(appends("empty heap", Volume::new(3), Limit::None, data));
    take(appends("empty heap", Volume::new(0), Limit::None, data));
    take(appends("holes of 8", holes_of_8(0), Limit::Walk, data));
    take(appends("holes of 2", holes_of_2(0), Limit::Walk, data));
    take(appends("holes of 2", holes_of_2(3), Limit::Walk, data));
    for shift in [0, 3, 6] {
        take(overwrite(shift, true));
        take(overwrite(shift, false));
    }
    for long in [false, true] {
        create_and_remove(3, long, data)
            .into_iter()
            .for_each(&mut take);
    }
    take(random_writes(0, data));
    take(random_writes(3, data));
    full_heap(data).into_iter().for_each(&mut take);
    long_writes(&mut take);
    all_reads(take);
}

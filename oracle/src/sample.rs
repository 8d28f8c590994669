//! A fixed list of the original's answers in a plain text form, which
//! README.md describes, and its replay through the library.

use crate::calls::{Call, Chooser, Data, Kinds, Step, KINDS};
use crate::cases;
use crate::compare::timed;
use crate::maker::{self, Health, Size, Volume};
use crate::rng::Rng;
use crate::sides::{call_original, call_subject, numbers, root_numbers, Given, Numbers, Theirs};
use crate::subject::{NewFile, Subject};
use crate::view::{Record, Stamp, View};
use exfat::{Geometry, GEOMETRY_WORDS};
use original::{Device, Mount};
use std::collections::BTreeSet;
use std::fmt::Write as _;
use std::fs;

const SEED: u64 = 20_260;
/// The first volumes are kept as they come; of those that follow, only what
/// shows a kind of call with a number for the first time.
const VOLUMES: u64 = 12;
const CANDIDATES: u64 = 500;
/// How many calls are chosen for a volume, and how many of those that show
/// nothing for the first time are kept.
const CHOSEN: usize = 300;
const COMMON: usize = 20;
/// Stretches with fewer like bytes between them are told as one.
const GAP: usize = 8;

/// What the original says of a call, in 01's numbers.
struct Answer {
    number: u32,
    given: Given,
}

fn hex(bytes: &[u8]) -> String {
    bytes.iter().fold(String::new(), |mut text, byte| {
        let _ = write!(text, "{byte:02x}");
        text
    })
}

/// Stretches of bytes: those that differ from `before`, as offset and end.
fn stretches(before: &[u8], after: &[u8], from: usize) -> Vec<(usize, usize)> {
    let mut found: Vec<(usize, usize)> = Vec::new();
    for at in from..after.len() {
        if before[at] == after[at] {
            continue;
        }
        match found.last_mut() {
            Some((_, end)) if at - *end <= GAP => *end = at + 1,
            _ => found.push((at, at + 1)),
        }
    }
    found
}

fn put_stretch(text: &mut String, word: &str, bytes: &[u8], at: usize) {
    let alike = bytes.iter().all(|byte| *byte == bytes[0]);
    if alike && bytes.len() > 8 {
        let _ = writeln!(text, "fill {at} {} {:02x}", bytes.len(), bytes[0]);
    } else {
        let _ = writeln!(text, "{word} {at} {}", hex(bytes));
    }
}

/// The volume from the FATs on; the library reads nothing before them. Each
/// cluster begins a stretch of its own, so that what fills one stays short.
fn put_volume(text: &mut String, index: u64, g: &Geometry, bytes: &[u8]) {
    let words: Vec<String> = g.words().iter().map(u32::to_string).collect();
    let _ = writeln!(text, "volume {index} {} {}", g.heap_end(), words.join(" "));
    let zeros = vec![0; g.heap_end()];
    let fats = (g.fat_offset as usize) << g.sector_shift;
    let heap = g.cluster_offset(2);
    let mut parts = vec![(fats, heap)];
    parts.extend((2..g.end()).map(|k| (g.cluster_offset(k), g.cluster_offset(k + 1))));
    for (from, to) in parts {
        for (start, end) in stretches(&zeros[..to], &bytes[..to], from) {
            put_stretch(text, "bytes", &bytes[start..end], start);
        }
    }
}

fn stamp_hex(stamp: Stamp) -> String {
    let [a, b, c, d] = stamp.0.to_le_bytes();
    hex(&[a, b, c, d, stamp.1, stamp.2])
}

fn record_words(record: Record) -> String {
    let run = u32::from(record.no_fat_chain);
    format!("{} {} {} {run}", record.first, record.last, record.count)
}

fn call_words(step: &Step) -> String {
    let stamp = stamp_hex(step.stamp);
    match &step.call {
        Call::FreeCount => String::new(),
        Call::Clusters { record } => record_words(*record),
        Call::Allocate { count, near } => {
            format!(
                "{count} {} {}",
                u32::from(near.is_some()),
                near.unwrap_or(0)
            )
        }
        Call::Extend { record, more } => format!("{} {more}", record_words(*record)),
        Call::Shrink { record, keep } => format!("{} {keep}", record_words(*record)),
        Call::NewFile(file) => {
            let stamps: String = file.stamps.iter().map(|stamp| stamp_hex(*stamp)).collect();
            let units: Vec<String> = file.name.iter().map(u16::to_string).collect();
            let (attributes, hash) = (file.attributes, file.hash);
            format!("{attributes} {hash} {stamps} {}", units.join(" "))
        }
        Call::Write { slot, offset, data } => {
            format!("{slot} {offset} {} {} {stamp}", data.length, data.seed)
        }
        Call::SetLength { slot, length } => format!("{slot} {length} {stamp}"),
        Call::Remove { slot } => slot.to_string(),
    }
}

fn answer_words(kind: usize, number: u32, given: &Given) -> String {
    let values = match kind {
        0 => given.count.to_string(),
        1 => {
            let list: Vec<String> = given.list.iter().map(u32::to_string).collect();
            list.join(" ")
        }
        2..=4 => {
            let record = given.record.expect("these calls give a record");
            format!("{} {}", record_words(record), given.hint)
        }
        5 => format!("{} {}", given.slot, given.hint),
        _ => given.hint.to_string(),
    };
    format!("{number} {values}").trim_end().to_string()
}

/// What a refused call gives back, by 01.
fn refused(step: &Step) -> Given {
    let record = match step.call {
        Call::Allocate { .. } => Some(Record::default()),
        Call::Extend { record, .. } | Call::Shrink { record, .. } => Some(record),
        _ => None,
    };
    Given {
        record,
        hint: step.hint,
        ..Given::default()
    }
}

/// Whether a stream that a call is about holds a system cluster.
fn meets_system(view: View, call: &Call) -> bool {
    let record = match call {
        Call::Shrink { record, .. } => *record,
        _ => match call.slot().and_then(|slot| view.entry(slot)) {
            Some(entry) => view.record_of(&entry),
            None => return false,
        },
    };
    view.clusters_of(record).iter().any(|k| view.system(*k))
}

/// Whether a known difference may lie behind the original's answer, so that
/// it is no answer for the library.
fn doubtful(view: View, step: &Step, number: u32) -> bool {
    match &step.call {
        Call::Allocate {
            near: Some(near), ..
        } => *near >= view.g.end(),
        Call::Shrink { .. } => number == 0 && meets_system(view, &step.call),
        Call::Write { slot, .. } | Call::SetLength { slot, .. } | Call::Remove { slot } => {
            let further = view
                .entry(*slot)
                .is_some_and(|entry| entry.secondary_count > entry.name_length.div_ceil(15) + 1);
            further || matches!(number, 0 | 7 | 8) && meets_system(view, &step.call)
        }
        _ => false,
    }
}

/// The original's answer in 01's numbers, where it has one.
fn answer(volume: &Volume, view: View, step: &Step, theirs: Theirs) -> Option<Answer> {
    let number = match (&theirs, volume.health) {
        (Theirs::Given(_), _) => Numbers::One(0),
        (Theirs::Refused(error), _) => numbers(error),
        (Theirs::NotMounted(error), Health::Root) => root_numbers(error),
        (Theirs::NotMounted(_), Health::Entry { listed: false, .. }) => Numbers::One(10),
        (Theirs::NotMounted(_), Health::Geometry) => Numbers::One(1),
        _ => Numbers::Unknown,
    };
    let Numbers::One(number) = number else {
        return None;
    };
    let mounted = !matches!(theirs, Theirs::NotMounted(_));
    if mounted && doubtful(view, step, number) {
        return None;
    }
    let given = match theirs {
        Theirs::Given(given) if step.call.has_hint() => given,
        Theirs::Given(given) => Given {
            hint: step.hint,
            ..given
        },
        _ => refused(step),
    };
    Some(Answer { number, given })
}

fn make_volume(rng: &mut Rng, index: u64) -> Volume {
    let mut volume = maker::make(rng, Size::Sample, index % 3 != 1);
    match index {
        0..VOLUMES => {}
        _ if index % 6 == 3 => maker::damage_root(rng, &mut volume),
        _ if index % 6 == 2 => maker::damage_geometry(rng, &mut volume),
        _ if index.is_multiple_of(12) => {
            maker::damage_entry(rng, &mut volume);
        }
        _ => {}
    }
    volume
}

/// The sample being written: its text, and which kinds and numbers it has.
#[derive(Default)]
struct Sample {
    text: String,
    volumes: usize,
    calls: usize,
    seen: BTreeSet<(usize, u32)>,
}

impl Sample {
    /// The trials of 01.
    fn trials(&mut self) {
        for (index, (volume, calls)) in cases::trial_lists().into_iter().enumerate() {
            let g = volume.geometry;
            let device = Device::new(volume.bytes.clone());
            put_volume(&mut self.text, 1000 + index as u64, &g, &volume.bytes);
            let map = volume.map(&volume.bytes);
            let _ = writeln!(self.text, "map {}", hex(&map));
            for call in calls {
                let before = device.bytes().clone();
                let view = View {
                    g,
                    bytes: &before,
                    map: &map,
                };
                let step = timed(call, cases::HINT, &mut Rng::new(index as u64));
                let theirs = call_fresh(&device, &step);
                let answer = answer(&volume, view, &step, theirs).expect("a trial has an answer");
                self.seen.insert((step.call.kind(), answer.number));
                self.call(&step, &answer, &before, &device.bytes().clone(), &g);
            }
            self.volumes += 1;
        }
    }

    /// Takes a volume with its calls, if it shows something new.
    fn candidate(&mut self, index: u64) {
        let (length, calls, seen) = (self.text.len(), self.calls, self.seen.len());
        self.volume(index);
        if index >= VOLUMES && self.seen.len() == seen {
            self.text.truncate(length);
            self.calls = calls;
        } else {
            self.volumes += 1;
        }
    }

    /// How many calls that show nothing new a volume may have.
    fn common(index: u64) -> usize {
        if index < VOLUMES {
            COMMON
        } else {
            2
        }
    }

    fn volume(&mut self, index: u64) {
        let mut rng = Rng::for_volume(SEED, index);
        let volume = make_volume(&mut rng, index);
        let device = Device::new(volume.bytes.clone());
        // A broken geometry does not say where the FATs lie.
        let shown = match volume.health {
            Health::Geometry => return self.broken(index, &volume, rng),
            _ => volume.geometry,
        };
        put_volume(&mut self.text, index, &shown, &volume.bytes);
        let mut chooser = Chooser::new(rng, Kinds::All, false, &volume);
        let mut map = Vec::new();
        let mut common = 0;
        for turn in 0..CHOSEN {
            let before = device.bytes().clone();
            let now = volume.map(&before);
            let view = View {
                g: shown,
                bytes: &before,
                map: &now,
            };
            // The free count comes first, while there are free clusters.
            let call = match turn {
                0 if index < VOLUMES => Call::FreeCount,
                _ => chooser.next(view),
            };
            let hint = chooser.cluster(shown);
            let step = timed(call, hint, &mut chooser.rng);
            let theirs = call_fresh(&device, &step);
            let Some(answer) = answer(&volume, view, &step, theirs) else {
                device.roll_back();
                continue;
            };
            if !self.seen.insert((step.call.kind(), answer.number)) {
                common += 1;
                if common > Self::common(index) {
                    device.roll_back();
                    continue;
                }
            }
            if map != now {
                let _ = writeln!(self.text, "map {}", hex(&now));
                map = now.clone();
            }
            let after = device.bytes().clone();
            self.call(&step, &answer, &before, &after, &shown);
            if answer.number == 0 {
                chooser.settle(&step.call, answer.given.record);
            }
        }
    }

    /// A volume whose geometry is refused: a few calls, on zeros.
    fn broken(&mut self, index: u64, volume: &Volume, rng: Rng) {
        let words: Vec<String> = volume.geometry.words().iter().map(u32::to_string).collect();
        let _ = writeln!(self.text, "volume {index} 32768 {}", words.join(" "));
        let _ = writeln!(
            self.text,
            "map {}",
            hex(volume.fixed_map.as_deref().unwrap_or(&[]))
        );
        let device = Device::new(volume.bytes.clone());
        let mut chooser = Chooser::new(rng, Kinds::All, false, volume);
        let view = View {
            g: volume.geometry,
            bytes: &[],
            map: &[],
        };
        for _ in 0..40 {
            let call = chooser.next(view);
            let step = timed(call, 2, &mut chooser.rng);
            let theirs = call_fresh(&device, &step);
            if let Some(answer) = answer(volume, view, &step, theirs) {
                if !self.seen.insert((step.call.kind(), answer.number)) {
                    continue;
                }
                self.call(&step, &answer, &[], &[], &volume.geometry);
            }
        }
    }

    fn call(&mut self, step: &Step, answer: &Answer, before: &[u8], after: &[u8], g: &Geometry) {
        let kind = step.call.kind();
        let words = call_words(step);
        let line = format!("call {kind} {} {words}", step.hint);
        let _ = writeln!(self.text, "{}", line.trim_end());
        let _ = writeln!(
            self.text,
            "answer {}",
            answer_words(kind, answer.number, &answer.given)
        );
        self.calls += 1;
        if answer.number != 0 {
            return;
        }
        let fats = (g.fat_offset as usize) << g.sector_shift;
        for (start, end) in stretches(before, after, fats) {
            put_stretch(&mut self.text, "change", &after[start..end], start);
        }
    }
}

/// One call on a fresh mount. What a refused call wrote is taken back.
fn call_fresh(device: &Device, step: &Step) -> Theirs {
    device.begin();
    device.bytes_mut()[106] &= !2;
    let theirs = match Mount::new(device) {
        Err(error) => Theirs::NotMounted(error),
        Ok(mut mount) => {
            mount.set_hint(step.hint);
            call_original(&mut mount, step)
        }
    };
    if !matches!(theirs, Theirs::Given(_)) {
        device.roll_back();
    }
    theirs
}

/// Writes the sample; the answer tells what it holds.
pub fn write(file: &str) -> Result<String, String> {
    let mut sample = Sample::default();
    sample.trials();
    for index in 0..CANDIDATES {
        sample.candidate(index);
    }
    fs::write(file, &sample.text).map_err(|error| error.to_string())?;
    let mut text = format!("{} calls on {} volumes", sample.calls, sample.volumes);
    for (kind, name) in KINDS.iter().enumerate() {
        let of_kind = sample.seen.iter().filter(|seen| seen.0 == kind);
        let numbers: Vec<String> = of_kind.map(|seen| seen.1.to_string()).collect();
        let _ = write!(text, "\n  {name:10} {}", numbers.join(" "));
    }
    Ok(text)
}

/// The library's side of a replay.
struct Replay<'run> {
    subject: &'run dyn Subject,
    geometry: Option<Geometry>,
    volume: Vec<u8>,
    /// What the volume must be after the last call.
    expected: Vec<u8>,
    map: Vec<u8>,
    last: String,
    answer: String,
    calls: u32,
    wrong: u32,
}

type Words<'line> = std::str::SplitAsciiWhitespace<'line>;

fn next<Number: std::str::FromStr>(words: &mut Words) -> Result<Number, String> {
    let word = words.next().ok_or("a word is missing")?;
    word.parse().map_err(|_| format!("not a number: {word}"))
}

fn next_hex(words: &mut Words) -> Result<Vec<u8>, String> {
    let word = words.next().unwrap_or("");
    (0..word.len() / 2)
        .map(|at| u8::from_str_radix(&word[at * 2..at * 2 + 2], 16))
        .collect::<Result<_, _>>()
        .map_err(|_| format!("not hexadecimal: {word}"))
}

fn next_stamps<const COUNT: usize>(words: &mut Words) -> Result<[Stamp; COUNT], String> {
    let bytes = next_hex(words)?;
    if bytes.len() != COUNT * 6 {
        return Err("a stamp has 6 bytes".to_string());
    }
    Ok(std::array::from_fn(|index| {
        let stamp = &bytes[index * 6..];
        let value = u32::from_le_bytes(stamp[..4].try_into().expect("four bytes"));
        (value, stamp[4], stamp[5])
    }))
}

fn next_record(words: &mut Words) -> Result<Record, String> {
    Ok(Record {
        first: next(words)?,
        last: next(words)?,
        count: next(words)?,
        no_fat_chain: next::<u32>(words)? != 0,
    })
}

fn next_step(words: &mut Words) -> Result<Step, String> {
    let kind: usize = next(words)?;
    let hint = next(words)?;
    let mut stamp = (0, 0, 0);
    let call = match kind {
        0 => Call::FreeCount,
        1 => Call::Clusters {
            record: next_record(words)?,
        },
        2 => {
            let (count, has_near, near) = (next(words)?, next::<u32>(words)?, next(words)?);
            let near = (has_near != 0).then_some(near);
            Call::Allocate { count, near }
        }
        3 => Call::Extend {
            record: next_record(words)?,
            more: next(words)?,
        },
        4 => Call::Shrink {
            record: next_record(words)?,
            keep: next(words)?,
        },
        5 => Call::NewFile(NewFile {
            attributes: next(words)?,
            hash: next(words)?,
            stamps: next_stamps(words)?,
            name: words
                .map(str::parse)
                .collect::<Result<_, _>>()
                .map_err(|_| "a unit")?,
        }),
        6 => {
            let (slot, offset) = (next(words)?, next(words)?);
            let data = Data {
                length: next(words)?,
                seed: next(words)?,
            };
            [stamp] = next_stamps(words)?;
            Call::Write { slot, offset, data }
        }
        7 => {
            let (slot, length) = (next(words)?, next(words)?);
            [stamp] = next_stamps(words)?;
            Call::SetLength { slot, length }
        }
        _ => Call::Remove { slot: next(words)? },
    };
    let clock = 0;
    Ok(Step {
        call,
        hint,
        clock,
        stamp,
    })
}

impl Replay<'_> {
    /// Judges the call before, now that all its changes are read.
    fn settle(&mut self) {
        if self.volume != self.expected || !self.answer.is_empty() {
            self.wrong += 1;
            println!("differs: {}\n  {}", self.last, self.answer);
            self.volume.clone_from(&self.expected);
        }
        self.answer.clear();
    }

    fn line(&mut self, line: &str) -> Result<(), String> {
        let mut words = line.split_ascii_whitespace();
        match words.next().unwrap_or("") {
            "volume" => self.start(&mut words)?,
            "map" => self.map = next_hex(&mut words)?,
            "bytes" => {
                self.store(&mut words)?;
                self.volume.clone_from(&self.expected);
            }
            "fill" => {
                let before_calls = self.last.is_empty();
                self.fill(&mut words)?;
                if before_calls {
                    self.volume.clone_from(&self.expected);
                }
            }
            "change" => self.store(&mut words)?,
            "call" => self.call(line, &mut words)?,
            "answer" => self.compare(line),
            word => return Err(format!("unknown: {word}")),
        }
        Ok(())
    }

    fn start(&mut self, words: &mut Words) -> Result<(), String> {
        self.settle();
        self.last.clear();
        let _index: u32 = next(words)?;
        let length: usize = next(words)?;
        self.volume = vec![0; length];
        self.expected = vec![0; length];
        let mut geometry = [0; GEOMETRY_WORDS];
        for word in &mut geometry {
            *word = next(words)?;
        }
        self.geometry = Some(Geometry::of(geometry));
        Ok(())
    }

    fn store(&mut self, words: &mut Words) -> Result<(), String> {
        let at: usize = next(words)?;
        let bytes = next_hex(words)?;
        self.expected[at..at + bytes.len()].copy_from_slice(&bytes);
        Ok(())
    }

    fn fill(&mut self, words: &mut Words) -> Result<(), String> {
        let (at, length): (usize, usize) = (next(words)?, next(words)?);
        let byte = next_hex(words)?;
        self.expected[at..at + length].fill(byte[0]);
        Ok(())
    }

    fn call(&mut self, line: &str, words: &mut Words) -> Result<(), String> {
        self.settle();
        let step = next_step(words)?;
        let geometry = self.geometry.ok_or("a call before the first volume")?;
        let ours = call_subject(self.subject, &mut self.volume, &self.map, geometry, &step);
        let words = answer_words(step.call.kind(), ours.number, &ours.given);
        self.answer = format!("answer {words}");
        self.last = line.to_string();
        self.calls += 1;
        Ok(())
    }

    /// An empty `answer` stands for one that was as told.
    fn compare(&mut self, line: &str) {
        if self.answer == line {
            self.answer.clear();
        }
    }
}

/// Replays a sample through the library: how many calls, how many differ.
pub fn replay(subject: &dyn Subject, file: &str) -> Result<(u32, u32), String> {
    let text = fs::read_to_string(file).map_err(|error| error.to_string())?;
    let mut replay = Replay {
        subject,
        geometry: None,
        volume: Vec::new(),
        expected: Vec::new(),
        map: Vec::new(),
        last: String::new(),
        answer: String::new(),
        calls: 0,
        wrong: 0,
    };
    for line in text.lines() {
        replay.line(line)?;
    }
    replay.settle();
    Ok((replay.calls, replay.wrong))
}

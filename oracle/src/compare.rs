//! Runs lists of calls through both sides and compares them.

use crate::boundary;
use crate::calls::{Call, Chooser, Kinds, Step, KINDS};
use crate::differences::{explain, in_inactive_bitmap, Difference};
use crate::maker::{self, Health, Size, Volume};
use crate::reads::{self, Found, Parts, Reading};
use crate::rng::Rng;
use crate::sides::{call_original, call_subject, numbers, root_numbers};
use crate::sides::{Numbers, Ours, Theirs};
use crate::subject::Subject;
use crate::view::{Record, View};
use exfat::bytes::clear_bit;
use original::{Device, Mount};
use std::collections::BTreeMap;

#[derive(Clone, Copy, Debug, PartialEq, Eq)]
pub enum Mode {
    /// A fresh mount before each call.
    Fresh,
    /// One mount for a whole list.
    List,
}

#[derive(Clone, Copy, Debug)]
pub struct Options {
    pub calls: u64,
    pub seed: u64,
    pub kinds: Kinds,
    pub mode: Mode,
    /// Only this volume of the run, with every call printed.
    pub only: Option<u64>,
}

/// Counts of a run.
#[derive(Default)]
pub struct Tally {
    pub calls: u64,
    pub volumes: u64,
    /// By kind of call and by the library's number.
    pub numbers: [[u64; 16]; 9],
    /// How often, and the first place.
    pub differences: BTreeMap<Difference, (u64, String)>,
    pub unexplained: u64,
    /// Volumes whose list ended early, as the original would not mount again.
    pub cut_short: u64,
    /// Refusals before which the original had written.
    pub wrote_first: u64,
    /// Reads of files by the library's number, their parts, and how they
    /// differ.
    pub reads: [u64; 16],
    pub parts: Parts,
    pub read_differences: BTreeMap<Difference, (u64, String)>,
    /// How many volumes are of a shape, by what is told of it.
    pub shapes: BTreeMap<String, u64>,
}

/// The bytes that the original's mount and commit write in the main boot
/// sector: VolumeFlags and PercentInUse. The checksum leaves them out.
const BOOT_BYTES: [usize; 3] = [106, 107, 112];

/// Whether two volumes are alike in all other bytes; else the first place
/// where they differ.
fn first_difference(ours: &[u8], theirs: &[u8]) -> Option<usize> {
    let alike = ours[..106] == theirs[..106]
        && ours[108..112] == theirs[108..112]
        && ours[113..] == theirs[113..];
    if alike {
        return None;
    }
    (0..ours.len()).find(|at| ours[*at] != theirs[*at] && !BOOT_BYTES.contains(at))
}

/// Both sides of one volume.
pub struct Pair<'run> {
    subject: &'run dyn Subject,
    volume: &'run Volume,
    ours: Vec<u8>,
    device: Device,
    mount: Option<Mount>,
    map: Vec<u8>,
    /// Whether the map has the root's clusters. On a volume in order nothing
    /// depends on that, as they are marked.
    root_in_map: bool,
    map_checked: bool,
    mode: Mode,
}

/// What came of a step: the answers, and in what they differ.
pub struct Outcome {
    pub ours: Ours,
    pub theirs: Theirs,
    pub wrong: Option<String>,
    pub wrote_first: bool,
}

impl<'run> Pair<'run> {
    pub fn new(subject: &'run dyn Subject, volume: &'run Volume, mode: Mode) -> Self {
        Self {
            subject,
            volume,
            ours: volume.bytes.clone(),
            device: Device::new(volume.bytes.clone()),
            mount: None,
            map: volume.map(&volume.bytes),
            root_in_map: true,
            map_checked: false,
            mode,
        }
    }

    fn view(&self) -> View<'_> {
        View {
            g: self.volume.geometry,
            bytes: &self.ours,
            map: &self.map,
        }
    }

    /// Mounts if nothing is mounted. The map is what the original works out
    /// at that time.
    fn mount(&mut self, hint: u32) -> Result<(), original::Error> {
        if self.mount.is_none() {
            self.map = self.volume.map(&self.ours);
            if !self.root_in_map {
                self.leave_root_out();
            }
            // A mount that ended without unmounting leaves VolumeDirty set.
            self.device.bytes_mut()[106] &= !2;
            let mut mount = Mount::new(&self.device)?;
            mount.set_hint(hint);
            if !self.map_checked && self.root_in_map && self.volume.fixed_map.is_none() {
                self.check_map(&mount);
            }
            self.mount = Some(mount);
        }
        Ok(())
    }

    fn leave_root_out(&mut self) {
        let root = self.view().chain(self.volume.geometry.root_cluster).0;
        for cluster in root {
            clear_bit(&mut self.map, cluster);
        }
    }

    /// The map that the library is given must be the original's system set,
    /// but for the bitmap of the FAT that is not active.
    fn check_map(&mut self, mount: &Mount) {
        let view = self.view();
        for cluster in 2..view.g.end() {
            let alike = view.system(cluster) == mount.is_system(cluster);
            assert!(
                alike || in_inactive_bitmap(view, cluster),
                "the map at {cluster}"
            );
        }
        self.map_checked = true;
    }

    /// Makes the call on both sides. The original's bytes can be rolled back
    /// until the next step.
    pub fn step(&mut self, step: &Step) -> Outcome {
        self.device.begin();
        let mut wrote_first = false;
        let theirs = match self.mount(step.hint) {
            Err(error) => Theirs::NotMounted(error),
            Ok(()) => {
                let mount = self.mount.as_mut().expect("mounted above");
                mount.set_hint(step.hint);
                let before = mount.writes();
                let theirs = call_original(mount, step);
                let refused = matches!(theirs, Theirs::Refused(_));
                wrote_first = refused && mount.writes() != before;
                theirs
            }
        };
        let ours = call_subject(
            self.subject,
            &mut self.ours,
            &self.map,
            self.volume.geometry,
            step,
        );
        if self.mode == Mode::Fresh || wrote_first {
            self.mount = None;
        }
        if matches!(theirs, Theirs::Refused(_)) && self.mount.is_none() {
            self.device.roll_back();
        }
        let wrong = self.judge(&ours, &theirs, step);
        Outcome {
            ours,
            theirs,
            wrong,
            wrote_first,
        }
    }

    /// Reads the file at a slot on both sides, as the volume is.
    pub fn read(&mut self, slot: u32, zeros: usize, rng: &mut Rng) -> Reading {
        self.device.begin();
        let found = match self.mount(2) {
            Err(error) => Found::NotMounted(error),
            Ok(()) => match self.mount.as_ref().expect("mounted above").open(slot) {
                Ok(opened) => Found::Opened(opened),
                Err(error) => Found::Refused(error),
            },
        };
        let zeros = vec![0; zeros];
        let mut side = reads::Side {
            subject: self.subject,
            volume: &mut self.ours,
            map: &self.map,
            geometry: self.volume.geometry,
        };
        let number = side.number(&zeros, slot);
        let parts = match (&found, &self.mount) {
            (Found::Opened(file), Some(mount)) if number == 0 => {
                let theirs = self.device.bytes();
                side.accepted(mount, &theirs, file, &zeros, slot, rng)
            }
            _ if number == 0 => Err("the library accepts".to_string()),
            _ => side.refused(&zeros, slot, rng).map(|()| Parts::default()),
        };
        let allowed = match &found {
            Found::Opened(_) => Numbers::One(0),
            Found::Refused(error) => reads::numbers(error),
            Found::NotMounted(error) => self.mount_numbers(error),
        };
        let other = (!allowed.allow(number)).then(|| "the numbers differ".to_string());
        Reading {
            slot,
            zeros: zeros.len(),
            number,
            found,
            wrong: other.or(parts.as_ref().err().cloned()),
            parts: parts.unwrap_or_default(),
        }
    }

    /// In what the two sides differ, if they do.
    fn judge(&self, ours: &Ours, theirs: &Theirs, step: &Step) -> Option<String> {
        if let Some(fault) = ours.fault {
            return Some(fault.to_string());
        }
        let agreed = match theirs {
            Theirs::Given(given) => {
                let hint = if step.call.has_hint() {
                    given.hint
                } else {
                    step.hint
                };
                let given = crate::sides::Given {
                    hint,
                    ..given.clone()
                };
                ours.number == 0 && ours.given == given
            }
            Theirs::Refused(error) => numbers(error).allow(ours.number),
            Theirs::NotMounted(error) => self.mount_numbers(error).allow(ours.number),
        };
        if !agreed {
            return Some("the answers differ".to_string());
        }
        let at = first_difference(&self.ours, &self.device.bytes())?;
        Some(format!("byte {at} differs"))
    }

    /// What a refused mount says of a call, by what was damaged.
    fn mount_numbers(&self, error: &original::Error) -> Numbers {
        match self.volume.health {
            Health::Root => root_numbers(error),
            Health::Entry { .. } => Numbers::One(10),
            Health::Geometry => Numbers::One(1),
            _ => Numbers::Unknown,
        }
    }

    /// Puts both sides back to the bytes before the last step.
    fn restore(&mut self) {
        self.mount = None;
        self.device.roll_back();
        self.ours.copy_from_slice(&self.device.bytes());
    }
}

/// A run over many volumes.
pub struct Run<'run> {
    pub subject: &'run dyn Subject,
    pub options: Options,
    pub tally: Tally,
}

/// Where a step stands, for a report that lets it be repeated.
struct Place {
    volume: u64,
    step: u64,
}

impl Run<'_> {
    pub fn run(&mut self) {
        if let Some(only) = self.options.only {
            self.run_volume(only);
            return;
        }
        let mut volume = 0;
        while self.tally.calls < self.options.calls {
            self.run_volume(volume);
            volume += 1;
        }
    }

    fn make(&self, rng: &mut Rng) -> Volume {
        let draw = rng.below(100);
        let damaged = (55..88).contains(&draw);
        let mut volume = maker::make(rng, Size::Any, !damaged);
        if self.options.mode == Mode::List {
            return volume;
        }
        match draw {
            88..=91 if self.options.kinds != Kinds::Alloc => maker::damage_root(rng, &mut volume),
            92..=96 if self.options.kinds != Kinds::Alloc => {
                maker::damage_entry(rng, &mut volume);
            }
            97..=99 => maker::damage_geometry(rng, &mut volume),
            _ => {}
        }
        volume
    }

    fn run_volume(&mut self, index: u64) {
        let mut rng = Rng::for_volume(self.options.seed, index);
        let volume = self.make(&mut rng);
        self.tally.volumes += 1;
        for shape in shapes(&volume) {
            *self.tally.shapes.entry(shape).or_insert(0) += 1;
        }
        let mounts = matches!(volume.health, Health::Tidy | Health::Streams);
        if self.options.mode == Mode::Fresh && mounts && rng.percent(12) {
            self.run_boundary(index, &volume);
        } else {
            self.run_random(index, &volume, rng);
        }
    }

    fn run_random(&mut self, index: u64, volume: &Volume, mut rng: Rng) {
        let tidy = volume.health == Health::Tidy;
        let honest = tidy && (self.options.kinds == Kinds::Files || rng.percent(60));
        let length = rng.range(30, 110);
        let mut hint = volume.geometry.root_cluster;
        let mut pair = Pair::new(self.subject, volume, self.options.mode);
        pair.root_in_map = !honest || rng.percent(75);
        let mut chooser = Chooser::new(rng, self.options.kinds, honest, volume);
        for number in 0..length {
            let call = chooser.next(pair.view());
            let anew = self.options.mode == Mode::Fresh && chooser.rng.percent(60);
            if number == 0 || anew {
                hint = self.any_hint(&mut chooser, volume);
            }
            let step = timed(call, hint, &mut chooser.rng);
            let place = Place {
                volume: index,
                step: number,
            };
            let Some(outcome) = self.make_step(&mut pair, &step, &place, honest) else {
                return;
            };
            if outcome.wrong.is_none() && outcome.ours.number == 0 {
                hint = outcome.ours.given.hint;
                chooser.settle(&step.call, outcome.ours.given.record);
            }
        }
    }

    fn any_hint(&self, chooser: &mut Chooser, volume: &Volume) -> u32 {
        match volume.health {
            Health::Geometry => 2,
            _ => chooser.cluster(volume.geometry),
        }
    }

    fn run_boundary(&mut self, index: u64, volume: &Volume) {
        let mut pair = Pair::new(self.subject, volume, self.options.mode);
        let mut rng = Rng::for_volume(self.options.seed, index);
        let mut list = Vec::new();
        if self.options.kinds != Kinds::Files {
            list.extend(boundary::alloc_calls(pair.view(), &boundary_records(&pair)));
        }
        if self.options.kinds != Kinds::Alloc {
            list.extend(boundary::file_calls(pair.view()));
        }
        for (number, (call, hint)) in list.into_iter().enumerate() {
            let step = timed(call, hint, &mut rng);
            let place = Place {
                volume: index,
                step: number as u64,
            };
            if self.make_step(&mut pair, &step, &place, false).is_none() {
                return;
            }
            pair.restore();
        }
    }

    /// One step with its bookkeeping. None: the original would not mount a
    /// volume that should be in order, and the list ends.
    fn make_step(
        &mut self,
        pair: &mut Pair,
        step: &Step,
        place: &Place,
        honest: bool,
    ) -> Option<Outcome> {
        self.make_read(pair, place, honest);
        let outcome = pair.step(step);
        if self.options.only.is_some() {
            let (number, theirs) = (outcome.ours.number, &outcome.theirs);
            println!(
                "{:4} hint {} {:?}: {number} {theirs:?}",
                place.step, step.hint, step.call
            );
        }
        let should_mount = matches!(pair.volume.health, Health::Tidy | Health::Streams);
        if should_mount && matches!(outcome.theirs, Theirs::NotMounted(_)) {
            return self.not_mounted(pair, step, place, outcome, honest);
        }
        self.tally.calls += 1;
        self.tally.wrote_first += u64::from(outcome.wrote_first);
        let number = outcome.ours.number.min(15) as usize;
        self.tally.numbers[step.call.kind()][number] += 1;
        if let Some(wrong) = &outcome.wrong {
            self.difference(pair, step, place, &outcome, wrong, honest);
        }
        Some(outcome)
    }

    /// A read on the volume as the calls before left it, with its
    /// bookkeeping. It has random numbers of its own, so that a seed gives the
    /// same calls with it and without.
    fn make_read(&mut self, pair: &mut Pair, place: &Place, honest: bool) {
        let seed = self.options.seed ^ (place.step << 32);
        let mut rng = Rng::for_volume(seed, !place.volume);
        let slot = reads::slot(pair.view(), pair.volume.health, &mut rng);
        let zeros = reads::zeros(pair.volume.geometry, &mut rng);
        let reading = pair.read(slot, zeros, &mut rng);
        if self.options.only.is_some() {
            println!(
                "{:4} read {slot}, {zeros} zeros: {} {:?}",
                place.step, reading.number, reading.parts
            );
        }
        let should_mount = matches!(pair.volume.health, Health::Tidy | Health::Streams);
        if should_mount && matches!(reading.found, Found::NotMounted(_)) {
            // The call that follows tells it.
            return;
        }
        self.tally.reads[reading.number.min(15) as usize] += 1;
        self.tally.parts.add(reading.parts);
        if reading.wrong.is_some() {
            self.read_differs(pair, place, reading, honest, &mut rng);
        }
    }

    /// Names the cause of a difference between reads, or reports it.
    fn read_differs(
        &mut self,
        pair: &mut Pair,
        place: &Place,
        reading: Reading,
        honest: bool,
        rng: &mut Rng,
    ) {
        let mut cause = reads::explain(pair.view(), pair.volume, &reading);
        if cause.is_none() && pair.mode == Mode::List && !honest {
            cause = live_read_cause(pair, &reading, rng);
        }
        let text = format!(
            "volume {} before step {}: read {}, {} zeros: ours {}, theirs {:?}",
            place.volume, place.step, reading.slot, reading.zeros, reading.number, reading.found
        );
        if let Some(cause) = cause {
            let known = &mut self.tally.read_differences;
            known.entry(cause).or_insert((0, text)).0 += 1;
            return;
        }
        self.tally.unexplained += 1;
        if self.tally.unexplained <= 20 {
            println!("DIFFERENCE: {}", reading.wrong.unwrap_or_default());
            println!("  {text}");
            println!("  {}", self.repeat(place));
        }
    }

    /// The words that repeat a volume.
    fn repeat(&self, place: &Place) -> String {
        let options = self.options;
        format!(
            "repeat: --seed {} --kinds {} --mode {} --only {}",
            options.seed,
            kinds_word(options.kinds),
            mode_word(options.mode),
            place.volume
        )
    }

    /// A list of calls can leave a root that the original will not parse, but
    /// only where it was damaged before, or was extended as if it were any
    /// other stream.
    fn not_mounted(
        &mut self,
        pair: &mut Pair,
        step: &Step,
        place: &Place,
        outcome: Outcome,
        honest: bool,
    ) -> Option<Outcome> {
        if honest {
            self.report(pair, step, place, &outcome, "a tidy volume does not mount");
        }
        self.tally.cut_short += 1;
        None
    }

    /// Names a difference's cause, or reports it. Either way both sides go on
    /// from the bytes before the call.
    fn difference(
        &mut self,
        pair: &mut Pair,
        step: &Step,
        place: &Place,
        outcome: &Outcome,
        wrong: &str,
        honest: bool,
    ) {
        let ours_after = std::mem::take(&mut pair.ours);
        pair.ours = ours_after.clone();
        let theirs_after = pair.device.bytes().clone();
        pair.restore();
        let mut cause = explain(
            pair.view(),
            pair.volume,
            step,
            &outcome.ours,
            &outcome.theirs,
        );
        let mut wrong = wrong.to_string();
        if cause.is_none() && pair.mode == Mode::List {
            let fresh = fresh_step(pair, step);
            if !honest {
                cause = live_cause(pair, step, &fresh);
            }
            wrong += &format!("; on a fresh mount: {:?} {:?}", fresh.theirs, fresh.wrong);
        }
        let Some(cause) = cause else {
            let at = differing_places(&ours_after, &theirs_after);
            wrong += &format!("; differing bytes, ours then theirs: {at}");
            self.report(pair, step, place, outcome, &wrong);
            return;
        };
        let text = format!(
            "volume {} step {}: {:?} hint {}: ours {}, theirs {:?}",
            place.volume, place.step, step.call, step.hint, outcome.ours.number, outcome.theirs
        );
        let entry = self.tally.differences.entry(cause).or_insert((0, text));
        entry.0 += 1;
    }

    fn report(&mut self, pair: &Pair, step: &Step, place: &Place, outcome: &Outcome, wrong: &str) {
        self.tally.unexplained += 1;
        if self.tally.unexplained > 20 {
            return;
        }
        println!("DIFFERENCE: {wrong}");
        println!("  {}", self.repeat(place));
        println!(
            "  step {} of volume {}, {:?}",
            place.step, place.volume, pair.volume.health
        );
        println!("  {:?}", pair.volume.geometry);
        println!("  {step:?}");
        println!("  ours:   {:?}", outcome.ours);
        println!("  theirs: {:?}", outcome.theirs);
    }
}

/// Whether a difference on one mount comes from what the mount holds: on a
/// fresh one the two sides agree, or differ for a known cause.
fn live_cause(pair: &Pair, step: &Step, fresh: &Outcome) -> Option<Difference> {
    if matches!(fresh.theirs, Theirs::NotMounted(_)) {
        return Some(Difference::LiveMount);
    }
    let known = || explain(pair.view(), pair.volume, step, &fresh.ours, &fresh.theirs);
    let agrees = fresh.wrong.is_none() || known().is_some();
    agrees.then_some(Difference::LiveCaches)
}

/// The same for a read. The list goes on with the mount that it has.
fn live_read_cause(pair: &mut Pair, reading: &Reading, rng: &mut Rng) -> Option<Difference> {
    let (mount, map) = (pair.mount.take(), pair.map.clone());
    let fresh = pair.read(reading.slot, reading.zeros, rng);
    let known = || reads::explain(pair.view(), pair.volume, &fresh);
    let cause = if matches!(fresh.found, Found::NotMounted(_)) {
        Some(Difference::LiveMount)
    } else {
        let agrees = fresh.wrong.is_none() || known().is_some();
        agrees.then_some(Difference::LiveCaches)
    };
    pair.mount = mount;
    pair.map = map;
    pair.device.roll_back();
    cause
}

/// The same step on a fresh mount; both sides are put back after it.
fn fresh_step(pair: &mut Pair, step: &Step) -> Outcome {
    pair.mode = Mode::Fresh;
    let outcome = pair.step(step);
    pair.mode = Mode::List;
    pair.restore();
    outcome
}

pub fn kinds_word(kinds: Kinds) -> &'static str {
    match kinds {
        Kinds::Alloc => "alloc",
        Kinds::Files => "files",
        Kinds::All => "all",
    }
}

pub fn mode_word(mode: Mode) -> &'static str {
    match mode {
        Mode::Fresh => "fresh",
        Mode::List => "list",
    }
}

/// Sets the time of a call and the stamp that goes with it: any time of the
/// years 1980 to 2107.
pub fn timed(call: Call, hint: u32, rng: &mut Rng) -> Step {
    let clock = rng.range(315_532_800_000, 4_354_819_199_999) as i64;
    let stamp = original::set_clock(clock);
    Step {
        call,
        hint,
        clock,
        stamp,
    }
}

/// What is told of a volume's shape at the end of a run.
fn shapes(volume: &Volume) -> Vec<String> {
    let g = volume.geometry;
    let health = match volume.health {
        Health::Tidy => "tidy",
        Health::Streams => "with damaged streams",
        Health::Root => "with a damaged root",
        Health::Entry { .. } => "with a damaged set",
        Health::Geometry => "with a damaged geometry",
    };
    if volume.health == Health::Geometry {
        return vec![health.to_string()];
    }
    let most = [16, 64, 512, 4096, 32_768]
        .into_iter()
        .find(|most| g.cluster_count <= *most);
    vec![
        health.to_string(),
        format!("FATs {}, active {}", g.number_of_fats, g.active_fat),
        format!("shifts {:2} + {}", g.sector_shift, g.cluster_shift),
        format!("up to {:5} clusters", most.unwrap_or(0)),
    ]
}

/// Records for the border calls: streams of no file, of files, and empty;
/// each also with a count that is one too high, and with the other flag.
fn boundary_records(pair: &Pair) -> Vec<Record> {
    let view = pair.view();
    let mut records = vec![Record::default()];
    records.extend(pair.volume.lost.iter().take(2));
    let entries = view.entries();
    let streams = entries.iter().map(|entry| view.record_of(entry));
    records.extend(streams.filter(|record| record.count > 0).take(3));
    for index in 1..records.len() {
        let record = records[index];
        let count = record.count + 1;
        let no_fat_chain = !record.no_fat_chain;
        records.push(Record { count, ..record });
        records.push(Record {
            no_fat_chain,
            ..record
        });
    }
    records
}

/// The first few places at which two volumes differ.
fn differing_places(ours: &[u8], theirs: &[u8]) -> String {
    let places: Vec<String> = (0..ours.len())
        .filter(|at| ours[*at] != theirs[*at] && !BOOT_BYTES.contains(at))
        .take(8)
        .map(|at| format!("{at}: {:02x} {:02x}", ours[at], theirs[at]))
        .collect();
    places.join(", ")
}

/// How often a call was made, and how often with each number.
fn print_numbers(kind: &str, numbers: &[u64; 16]) {
    let total: u64 = numbers.iter().sum();
    if total == 0 {
        return;
    }
    let by_number: Vec<String> = (0..16)
        .filter(|number| numbers[*number] > 0)
        .map(|number| format!("{number}: {}", numbers[number]))
        .collect();
    println!("  {kind:10} {total:8}   {}", by_number.join(", "));
}

impl Tally {
    pub fn print(&self) {
        println!("{} calls on {} volumes", self.calls, self.volumes);
        for (kind, numbers) in KINDS.iter().zip(&self.numbers) {
            print_numbers(kind, numbers);
        }
        print_numbers("read", &self.reads);
        let Parts {
            of_volume,
            of_zeros,
            whole,
        } = self.parts;
        println!(
            "  {:10} {:8}   of the volume: {of_volume}, of the zeros: {of_zeros}; files read whole: {whole}",
            "parts",
            of_volume + of_zeros
        );
        println!("volumes by shape:");
        for (shape, count) in &self.shapes {
            println!("  {count:6} {shape}");
        }
        println!("beside the counts:");
        println!(
            "  the original had written before {} refusals",
            self.wrote_first
        );
        println!(
            "  {} lists ended on a root that the original does not parse",
            self.cut_short
        );
        for (cause, (count, first)) in &self.differences {
            println!("  explained, {}: {count}\n    first: {first}", cause.text());
        }
        for (cause, (count, first)) in &self.read_differences {
            println!(
                "  explained in reads, {}: {count}\n    first: {first}",
                cause.text()
            );
        }
        println!("unexplained differences: {}", self.unexplained);
    }
}

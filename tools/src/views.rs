//! The commands that only look at an image.

use crate::args::Args;
use crate::calls::Target;
use crate::check;
use crate::directory::File;
use crate::failure::{refused, say, usage, Failure, Outcome};
use crate::files;
use crate::heap;
use crate::library::{self, Number};
use crate::map::{self, Style};
use crate::stamp;
use crate::volume::Volume;
use std::env;
use std::io::IsTerminal;

pub fn ls(mut args: Args, out: &mut Vec<u8>) -> Outcome<()> {
    let long = args.flag("--long");
    let words = args.words(&["IMAGE"])?;
    let volume = Volume::open(&words[0])?;
    let mut wrong = 0;
    say!(
        out,
        "{:>5} {:>9} {:>9} {:>8} {:18} {:5} {:25} name",
        "slot",
        "length",
        "valid",
        "clusters",
        "layout",
        "attr",
        "modified"
    );
    for (slot, file) in volume.files() {
        match file {
            Ok(file) => wrong += usize::from(!list_file(&volume, &file, long, out)),
            Err(words) => {
                wrong += 1;
                say!(out, "{slot:5} {}: {words}", Number(10));
            }
        }
    }
    if let Some(words) = volume.folders() {
        say!(out, "note: {words}; what is in folders is not listed");
    }
    if wrong == 0 {
        return Ok(());
    }
    refused(format!("{}: entries that cannot be read: {wrong}", words[0]))
}

/// False where the library refuses the file's stream.
fn list_file(volume: &Volume, file: &File, long: bool, out: &mut Vec<u8>) -> bool {
    let clusters = volume.clusters(file);
    let layout = match &clusters {
        Ok(clusters) if clusters.is_empty() => "empty".into(),
        Ok(_) if file.no_fat_chain => "run".into(),
        Ok(clusters) => match heap::fragments(clusters).len() {
            1 => "chain, 1 fragment".into(),
            count => format!("chain, {count} fragments"),
        },
        Err(number) => format!("{number}"),
    };
    say!(
        out,
        "{:5} {:9} {:9} {:8} {layout:18} {} {:25} {}",
        file.slot,
        file.length,
        file.valid,
        volume.geometry.clusters_for(file.length),
        attributes(file.attributes),
        stamp::show(&file.modified),
        file.name()
    );
    if long {
        let listed = clusters.as_deref().unwrap_or_default();
        let listed = if listed.is_empty() { "none".into() } else { heap::ranges(listed) };
        say!(
            out,
            "      created {}, accessed {}, clusters {listed}",
            stamp::show(&file.created),
            stamp::show(&file.accessed)
        );
    }
    clusters.is_ok()
}

fn attributes(bits: u16) -> String {
    let letters = [(0x01, 'R'), (0x02, 'H'), (0x04, 'S'), (0x10, 'D'), (0x20, 'A')];
    let shown = letters.map(|(bit, letter)| if bits & bit != 0 { letter } else { '-' });
    shown.iter().collect()
}

/// Its output is not collected: each part goes out as the volume holds it.
pub fn cat(mut args: Args, _: &mut Vec<u8>) -> Outcome<()> {
    let force = args.flag("--force");
    let words = args.words(&["IMAGE", "FILE", "[TO]"])?;
    let volume = Volume::open(&words[0])?;
    if let Some(path) = words.get(2) {
        files::may_write(path, &words[0], force)?;
    }
    let target = Target::parse(&words[1]);
    let slot = target.slot(&volume).map_err(Failure::Usage)?;
    let told = |number: Number| Failure::Refused(format!("cat {target}: {number}"));
    let parts = library::contents(&volume.bytes, volume.setting(), slot).map_err(told)?;
    match words.get(2) {
        None => files::show(parts),
        Some(path) => files::write(path, parts),
    }
}

pub fn free(args: Args, out: &mut Vec<u8>) -> Outcome<()> {
    let words = args.words(&["IMAGE"])?;
    let volume = Volume::open(&words[0])?;
    let (number, count) = library::free_count(&volume.bytes, volume.setting());
    if number != Number::DONE {
        return refused(format!("free: {number}"));
    }
    let g = &volume.geometry;
    let usable = g.heap().filter(|k| volume.usable(*k)).count();
    say!(
        out,
        "free: {number}, {count} of {} clusters, {} bytes",
        g.cluster_count,
        u64::from(count) * g.cluster_size() as u64
    );
    if usable != count as usize {
        say!(out, "{usable} of them can be used");
    }
    Ok(())
}

pub fn check(args: Args, out: &mut Vec<u8>) -> Outcome<()> {
    let words = args.words(&["IMAGE"])?;
    let volume = Volume::open(&words[0])?;
    let report = check::check(&volume);
    for reason in &report.reasons {
        say!(out, "reason: {reason}");
    }
    for note in &report.notes {
        say!(out, "note: {note}");
    }
    if report.reasons.is_empty() {
        say!(out, "{}: consistent", words[0]);
        return Ok(());
    }
    refused(format!("{}: not consistent: {}", words[0], reasons(report.reasons.len())))
}

fn reasons(count: usize) -> String {
    if count == 1 {
        "1 reason".into()
    } else {
        format!("{count} reasons")
    }
}

pub fn map(mut args: Args, out: &mut Vec<u8>) -> Outcome<()> {
    /// What stands before the cells of a row.
    const MARGIN: usize = 7;
    let columns = || env::var("COLUMNS").ok()?.parse::<usize>().ok()?.checked_sub(MARGIN);
    let width = match args.number("--width")? {
        Some(width) if !(8..=1024).contains(&width) => return usage("--width is not in 8..1024"),
        Some(width) => width,
        None => columns().map_or(64, |columns| columns.clamp(8, 1024)),
    };
    let per_cell = args.number("--per-cell")?;
    if per_cell.is_some_and(|clusters| !(1..=4096).contains(&clusters)) {
        return usage("--per-cell is not in 1..4096");
    }
    let set = |name: &str| env::var_os(name).is_some_and(|value| !value.is_empty());
    let color = match args.value("--color")?.as_deref() {
        Some("always") => true,
        Some("never") => false,
        None | Some("auto") => {
            let dumb = env::var_os("TERM").map_or(true, |term| term == "dumb");
            std::io::stdout().is_terminal() && !set("NO_COLOR") && !dumb
        }
        Some(_) => return usage("--color is not always, never or auto"),
    };
    let words = args.words(&["IMAGE"])?;
    let volume = Volume::open(&words[0])?;
    let picture = map::draw(&volume, &Style { width, per_cell, color });
    out.extend(picture.bytes());
    Ok(())
}

//! The commands that change an image.

use crate::args::{self, Args};
use crate::calls::{self, Call, Place, Target};
use crate::failure::{refused, say, usage, Failure, Outcome};
use crate::files;
use crate::format::{self, Wish};
use crate::library::{Number, Stamp};
use crate::replay::{List, Options, MOST};
use crate::stamp;
use crate::volume::Volume;

/// A volume has a label unless `--label ''` says otherwise: Debian's fsstat
/// (sleuthkit 4.11.1) does not end on one without.
const LABEL: &str = "BITTSALAK";

pub fn format(mut args: Args, out: &mut Vec<u8>) -> Outcome<()> {
    let sector = args.number("--sector")?.unwrap_or(512);
    let stamp = time(&mut args)?;
    let wish = Wish {
        size: args.number("--size")?.unwrap_or(16 << 20),
        sector,
        cluster: args.number("--cluster")?.unwrap_or(sector.max(4096)),
        fats: args.number("--fats")?.unwrap_or(1),
        label: args.value("--label")?.unwrap_or_else(|| LABEL.into()).encode_utf16().collect(),
        serial: u32::from_le_bytes([stamp[0], stamp[1], stamp[2], stamp[3]]),
    };
    let force = args.flag("--force");
    let words = args.words(&["IMAGE"])?;
    let (bytes, g) = format::volume(&wish)?;
    format::store(&words[0], &bytes, force)?;
    say!(
        out,
        "{}: {} bytes, sectors of {}, {} clusters of {}, {} FAT{}",
        words[0],
        bytes.len(),
        g.sector_size(),
        g.cluster_count,
        g.cluster_size(),
        g.number_of_fats,
        if g.number_of_fats == 1 { "" } else { "s" }
    );
    Ok(())
}

/// --time, or now.
fn time(args: &mut Args) -> Outcome<Stamp> {
    let Some(text) = args.value("--time")? else {
        return Ok(stamp::now());
    };
    match stamp::parse(&text) {
        Some(stamp) => Ok(stamp),
        None => usage(format!(
            "--time: {text} is not like 2026-11-16T12:30:05Z or 2026-11-16T12:30:05+01:00, \
             from 1980 to 2107, zones from -16:00 to +15:45 by quarters of an hour"
        )),
    }
}

/// --hint, or the first cluster.
fn hint(args: &mut Args) -> Outcome<u32> {
    Ok(args.number("--hint")?.unwrap_or(2))
}

/// Makes one call and writes back what it changed.
fn call(path: &str, call: &Call, stamp: &Stamp, mut hint: u32, out: &mut Vec<u8>) -> Outcome<()> {
    let mut volume = Volume::open(path)?;
    let answer = calls::run(&mut volume, call, stamp, &mut hint).map_err(Failure::Usage)?;
    if answer.number != Number::DONE {
        return refused(format!("{call}: {answer}"));
    }
    volume.store()?;
    say!(out, "{call}: {answer}");
    Ok(())
}

pub fn new(mut args: Args, out: &mut Vec<u8>) -> Outcome<()> {
    let (stamp, hint) = (time(&mut args)?, hint(&mut args)?);
    let attributes = args.number("--attributes")?.unwrap_or(0x20);
    let words = args.words(&["IMAGE", "NAME"])?;
    let name = words[1].clone();
    call(&words[0], &Call::New { name, attributes }, &stamp, hint, out)
}

pub fn write(mut args: Args, out: &mut Vec<u8>) -> Outcome<()> {
    let (stamp, hint) = (time(&mut args)?, hint(&mut args)?);
    let place = match (args.number("--at")?, args.flag("--append")) {
        (Some(_), true) => return usage("--at and --append exclude each other"),
        (Some(offset), false) => Place::At(offset),
        (None, true) => Place::End,
        (None, false) => Place::At(0),
    };
    let words = args.words(&["IMAGE", "FILE", "[DATA]"])?;
    let target = Target::parse(&words[1]);
    // What is wrong with image or name is told before anything is read. The
    // image is opened anew after that, since it may change while data comes.
    let most = {
        let volume = Volume::open(&words[0])?;
        target.slot(&volume).map_err(Failure::Usage)?;
        volume.bytes.len()
    };
    let data = files::read_input(words.get(2).map_or("-", String::as_str), most)?;
    let more = data.len() > most;
    let done = call(&words[0], &Call::Write { target, place, data }, &stamp, hint, out);
    match done {
        // More than a volume never fits, so what is cut off here is refused.
        Err(Failure::Refused(words)) if more => refused(format!("{words}; no more was read")),
        done => done,
    }
}

pub fn truncate(mut args: Args, out: &mut Vec<u8>) -> Outcome<()> {
    let (stamp, hint) = (time(&mut args)?, hint(&mut args)?);
    let words = args.words(&["IMAGE", "FILE", "LENGTH"])?;
    let length = args::number(&words[2], "LENGTH")?;
    let target = Target::parse(&words[1]);
    call(&words[0], &Call::Truncate { target, length }, &stamp, hint, out)
}

pub fn rm(mut args: Args, out: &mut Vec<u8>) -> Outcome<()> {
    let (stamp, hint) = (time(&mut args)?, hint(&mut args)?);
    let words = args.words(&["IMAGE", "FILE"])?;
    let target = Target::parse(&words[1]);
    call(&words[0], &Call::Remove { target }, &stamp, hint, out)
}

pub fn replay(mut args: Args, out: &mut Vec<u8>) -> Outcome<()> {
    let options = Options {
        stop: args.flag("--stop"),
        check: args.flag("--check"),
        stamp: time(&mut args)?,
        hint: hint(&mut args)?,
    };
    let (quiet, force) = (args.flag("--quiet"), args.flag("--force"));
    let csv = args.value("--csv")?;
    let words = args.words(&["IMAGE", "LIST"])?;
    if let Some(path) = &csv {
        files::may_write(path, &words[0], force)?;
    }
    let text = files::read_input(&words[1], MOST)?;
    if text.len() > MOST {
        return usage(format!("{}: a list has at most {MOST} bytes", words[1]));
    }
    let Ok(text) = String::from_utf8(text) else {
        return usage(format!("{}: not UTF-8", words[1]));
    };
    let told = |failure: Failure| Failure::Usage(format!("{}: {failure}", words[1]));
    let list = List::parse(&text).map_err(told)?;
    let mut volume = Volume::open(&words[0])?;
    let done = list.run(&mut volume, &options);
    if !quiet {
        out.extend(done.lines.as_bytes());
    }
    if let Some(path) = csv {
        files::write(&path, [done.csv.as_bytes()])?;
    }
    if let Some(words) = done.inconsistent {
        return refused(words);
    }
    volume.store()?;
    say!(out, "{} calls, {} not carried out", done.made, done.refused);
    if done.refused > 0 {
        return refused(format!("replay: {} of {} calls not carried out", done.refused, done.made));
    }
    Ok(())
}

//! The calls that change a volume, by names of files instead of slots.

use crate::library::{self, NewFile, Number, Stamp};
use crate::volume::Volume;
use std::fmt;
use std::time::{Duration, Instant};

/// A file by name or, as `@SLOT`, by slot.
#[derive(Clone, Debug, PartialEq, Eq)]
pub enum Target {
    Name(String),
    Slot(u32),
}

impl Target {
    pub fn parse(text: &str) -> Target {
        let slot = text.strip_prefix('@').and_then(|digits| digits.parse().ok());
        slot.map_or_else(|| Target::Name(text.into()), Target::Slot)
    }

    /// The slot, or why there is none.
    pub fn slot(&self, volume: &Volume) -> Result<u32, String> {
        match self {
            Target::Slot(slot) => Ok(*slot),
            Target::Name(name) => match volume.find(name) {
                Some(file) => Ok(file.slot),
                None if in_folder(name) => Err(format!("no file named {name} in the root: {NOT_FOLLOWED}")),
                None => Err(format!("no file named {name}")),
            },
        }
    }
}

const NOT_FOLLOWED: &str = "folders are not followed yet";

/// Whether a name is a path into a folder: no name of the root has a slash.
fn in_folder(name: &str) -> bool {
    name.contains('/')
}

impl fmt::Display for Target {
    fn fmt(&self, out: &mut fmt::Formatter) -> fmt::Result {
        match self {
            Target::Name(name) => out.write_str(name),
            Target::Slot(slot) => write!(out, "@{slot}"),
        }
    }
}

#[derive(Clone, Copy, Debug, PartialEq, Eq)]
pub enum Place {
    At(u64),
    /// Behind the file's last byte.
    End,
}

#[derive(Clone, Debug, PartialEq, Eq)]
pub enum Call {
    New { name: String, attributes: u16 },
    Write { target: Target, place: Place, data: Vec<u8> },
    Truncate { target: Target, length: u64 },
    Remove { target: Target },
    Free,
}

impl Call {
    pub fn verb(&self) -> &'static str {
        match self {
            Call::New { .. } => "new",
            Call::Write { .. } => "write",
            Call::Truncate { .. } => "truncate",
            Call::Remove { .. } => "rm",
            Call::Free => "free",
        }
    }
}

impl fmt::Display for Call {
    fn fmt(&self, out: &mut fmt::Formatter) -> fmt::Result {
        let verb = self.verb();
        match self {
            Call::New { name, .. } => write!(out, "{verb} {name}"),
            Call::Write { target, place: Place::At(at), data } => {
                write!(out, "{verb} {target}: {} bytes at {at}", data.len())
            }
            Call::Write { target, data, .. } => {
                write!(out, "{verb} {target}: {} bytes at the end", data.len())
            }
            Call::Truncate { target, length } => write!(out, "{verb} {target} to {length}"),
            Call::Remove { target } => write!(out, "{verb} {target}"),
            Call::Free => out.write_str(verb),
        }
    }
}

/// What the library answered.
pub struct Answer {
    pub number: Number,
    /// What the call gave, in words; may be empty.
    pub given: String,
    pub took: Duration,
}

impl fmt::Display for Answer {
    fn fmt(&self, out: &mut fmt::Formatter) -> fmt::Result {
        write!(out, "{}", self.number)?;
        if !self.given.is_empty() {
            write!(out, ", {}", self.given)?;
        }
        Ok(())
    }
}

/// Makes a call, or says why it cannot be made: no file, or a second one, of
/// that name. The hint goes in and out.
pub fn run(volume: &mut Volume, call: &Call, stamp: &Stamp, hint: &mut u32) -> Result<Answer, String> {
    match call {
        Call::New { name, attributes } => new_file(volume, name, *attributes, stamp, hint),
        Call::Write { target, place, data } => {
            let slot = target.slot(volume)?;
            let offset = match place {
                Place::At(offset) => *offset,
                Place::End => length(volume, slot),
            };
            Ok(timed(volume, hint, |vol, setting, hint| library::write(vol, setting, slot, offset, data, stamp, hint)))
        }
        Call::Truncate { target, length } => {
            let slot = target.slot(volume)?;
            Ok(timed(volume, hint, |vol, setting, hint| library::set_length(vol, setting, slot, *length, stamp, hint)))
        }
        Call::Remove { target } => {
            let slot = target.slot(volume)?;
            Ok(timed(volume, hint, |vol, setting, hint| library::remove(vol, setting, slot, hint)))
        }
        Call::Free => {
            let start = Instant::now();
            let (number, count) = library::free_count(&volume.bytes, volume.setting());
            let took = start.elapsed();
            Ok(Answer { number, given: format!("{count} clusters"), took })
        }
    }
}

/// 0 where there is no sound file: the library refuses the slot then.
fn length(volume: &Volume, slot: u32) -> u64 {
    let mut files = volume.sound_files().into_iter();
    files.find(|file| file.slot == slot).map_or(0, |file| file.length)
}

fn timed(
    volume: &mut Volume,
    hint: &mut u32,
    call: impl FnOnce(&mut [u8], library::Setting, u32) -> (Number, u32),
) -> Answer {
    let (vol, setting) = volume.lend();
    let start = Instant::now();
    let (number, next) = call(vol, setting, *hint);
    let took = start.elapsed();
    *hint = next;
    Answer { number, given: String::new(), took }
}

fn new_file(volume: &mut Volume, name: &str, attributes: u16, stamp: &Stamp, hint: &mut u32) -> Result<Answer, String> {
    if let Some(file) = volume.find(name) {
        return Err(format!("slot {} has the name {} already", file.slot, file.name()));
    }
    if in_folder(name) {
        return Err(format!("{name} is no name in the root: {NOT_FOLLOWED}"));
    }
    let units: Vec<u16> = name.encode_utf16().collect();
    let file = NewFile { name: &units, attributes, hash: volume.upcase.hash(&units), stamp: *stamp };
    let mut slot = 0;
    let mut answer = timed(volume, hint, |vol, setting, hint| {
        let (number, new, next) = library::new_file(vol, setting, &file, hint);
        slot = new;
        (number, next)
    });
    if answer.number == Number::DONE {
        answer.given = format!("slot {slot}");
        volume.refresh_map();
    }
    Ok(answer)
}

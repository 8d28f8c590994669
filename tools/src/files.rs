//! Files beside the image: data that is read, and output that is written.

use crate::failure::{usage, Failure, Outcome};
use std::fs::{self, File, Metadata};
use std::io::{self, Read, Write};
use std::os::fd::AsFd;
use std::os::unix::fs::{FileTypeExt, MetadataExt};

/// Reads a file; of more than `most` bytes the first `most` and one more.
pub fn read(path: &str, most: usize) -> Outcome<Vec<u8>> {
    read_from(path, File::open(path), most)
}

/// The same, or the standard input for `-`.
pub fn read_input(path: &str, most: usize) -> Outcome<Vec<u8>> {
    match path {
        "-" => read_from(path, Ok(io::stdin()), most),
        path => read(path, most),
    }
}

fn read_from(path: &str, source: io::Result<impl Read>, most: usize) -> Outcome<Vec<u8>> {
    let mut data = Vec::new();
    match source.and_then(|source| source.take(most as u64 + 1).read_to_end(&mut data)) {
        Ok(_) => Ok(data),
        Err(error) => usage(format!("{path}: cannot read: {error}")),
    }
}

/// Whether both are one file or disk, however their paths are spelled.
pub fn same(one: &Metadata, other: &Metadata) -> bool {
    if one.file_type().is_block_device() && other.file_type().is_block_device() {
        return one.rdev() == other.rdev();
    }
    one.is_file() && (one.dev(), one.ino()) == (other.dev(), other.ino())
}

/// Whether the standard output goes into a file.
pub fn standard_output_is(file: &Metadata) -> bool {
    let output = io::stdout().as_fd().try_clone_to_owned().map(File::from);
    output.and_then(|output| output.metadata()).is_ok_and(|output| same(&output, file))
}

/// Refuses an output that is the image, and one that is there already unless
/// it may be replaced.
pub fn may_write(path: &str, image: &str, replace: bool) -> Outcome<()> {
    let Ok(there) = fs::metadata(path) else {
        return Ok(());
    };
    if fs::metadata(image).is_ok_and(|image| same(&there, &image)) {
        return usage(format!("{path}: is the image, and is not written over"));
    }
    if !replace {
        return usage(format!("{path}: is there already; --force replaces it"));
    }
    Ok(())
}

/// Writes parts into a file, one behind the other.
pub fn write<'a>(path: &str, parts: impl IntoIterator<Item = &'a [u8]>) -> Outcome<()> {
    let written = File::create(path).and_then(|mut file| write_parts(&mut file, parts));
    written.map_err(|error| Failure::Output(format!("{path}: cannot write: {error}")))
}

/// Shows what a command says, in parts. A reader that has gone away wants no
/// more; every other error loses what was said.
pub fn show<'a>(parts: impl IntoIterator<Item = &'a [u8]>) -> Outcome<()> {
    match write_parts(&mut io::stdout(), parts) {
        Err(error) if error.kind() != io::ErrorKind::BrokenPipe => {
            Err(Failure::Output(format!("the standard output: cannot write: {error}")))
        }
        _ => Ok(()),
    }
}

fn write_parts<'a>(output: &mut impl Write, parts: impl IntoIterator<Item = &'a [u8]>) -> io::Result<()> {
    for part in parts {
        output.write_all(part)?;
    }
    output.flush()
}

//! Stands in for fs_core: the traits of a block device, and the two devices
//! that the original names. Bytes go in and out; nothing is decided here.

use std::fs::{File, OpenOptions};
use std::os::unix::fs::FileExt;
use std::path::Path;
use std::sync::Arc;

#[derive(Clone, Debug, PartialEq, Eq)]
pub enum Error {
    ReadOnly,
    OutOfBounds,
    Io(String),
}

pub type Result<Value> = std::result::Result<Value, Error>;

pub trait BlockRead {
    fn read_at(&self, offset: u64, output: &mut [u8]) -> Result<()>;
    fn size_bytes(&self) -> u64;
}

pub trait BlockDevice: BlockRead {
    fn write_at(&self, offset: u64, data: &[u8]) -> Result<()>;
    fn flush(&self) -> Result<()>;
    fn is_writable(&self) -> bool {
        true
    }
}

/// A part of another device.
pub struct OwnedRwSlice {
    device: Arc<dyn BlockDevice>,
    offset: u64,
    length: u64,
}

impl OwnedRwSlice {
    pub fn new(device: Arc<dyn BlockDevice>, offset: u64, length: u64) -> Self {
        Self {
            device,
            offset,
            length,
        }
    }

    /// The place in the device below, if the part holds all of it.
    fn place(&self, offset: u64, length: usize) -> Result<u64> {
        match offset.checked_add(length as u64) {
            Some(end) if end <= self.length => Ok(self.offset + offset),
            _ => Err(Error::OutOfBounds),
        }
    }
}

impl BlockRead for OwnedRwSlice {
    fn read_at(&self, offset: u64, output: &mut [u8]) -> Result<()> {
        let place = self.place(offset, output.len())?;
        self.device.read_at(place, output)
    }

    fn size_bytes(&self) -> u64 {
        self.length
    }
}

impl BlockDevice for OwnedRwSlice {
    fn write_at(&self, offset: u64, data: &[u8]) -> Result<()> {
        let place = self.place(offset, data.len())?;
        self.device.write_at(place, data)
    }

    fn flush(&self) -> Result<()> {
        self.device.flush()
    }

    fn is_writable(&self) -> bool {
        self.device.is_writable()
    }
}

/// An image file.
pub struct FileDevice {
    file: File,
    length: u64,
}

fn io(error: std::io::Error) -> Error {
    Error::Io(error.to_string())
}

impl FileDevice {
    pub fn open_rw(path: &Path) -> Result<Self> {
        let file = OpenOptions::new()
            .read(true)
            .write(true)
            .open(path)
            .map_err(io)?;
        let length = file.metadata().map_err(io)?.len();
        Ok(Self { file, length })
    }
}

impl BlockRead for FileDevice {
    fn read_at(&self, offset: u64, output: &mut [u8]) -> Result<()> {
        self.file.read_exact_at(output, offset).map_err(io)
    }

    fn size_bytes(&self) -> u64 {
        self.length
    }
}

impl BlockDevice for FileDevice {
    fn write_at(&self, offset: u64, data: &[u8]) -> Result<()> {
        self.file.write_all_at(data, offset).map_err(io)
    }

    fn flush(&self) -> Result<()> {
        self.file.sync_all().map_err(io)
    }
}

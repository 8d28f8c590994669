//! Shim of file.rs, the reader of a file's contents. The oracle reads the
//! volume's bytes itself, so a file is never opened.

use crate::directory::DirectoryEntry;
use crate::volume::Volume;
use crate::{Error, Result};
use fs_core::BlockRead;
use std::marker::PhantomData;

pub struct File<'volume, Device: BlockRead> {
    volume: PhantomData<&'volume Volume<Device>>,
}

impl<'volume, Device: BlockRead> File<'volume, Device> {
    pub fn open(_volume: &'volume Volume<Device>, _entry: &DirectoryEntry) -> Result<Self> {
        Err(Error::Unsupported(
            "reading files is not part of the oracle",
        ))
    }
}

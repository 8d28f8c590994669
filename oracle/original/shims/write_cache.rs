//! Shim of write_cache.rs. The original holds sectors back until a barrier;
//! reads see what is held, so a cache that holds nothing back gives the same
//! bytes at the end of every operation.

use crate::Result;
use fs_core::{BlockDevice, BlockRead};
use std::cell::Cell;
use std::sync::Arc;

pub struct Cache<Device: BlockDevice> {
    device: Device,
    writes: Cell<u64>,
}

impl<Device: BlockDevice> Cache<Device> {
    pub fn new(device: Device) -> Self {
        Self {
            device,
            writes: Cell::new(0),
        }
    }

    pub fn set_sector(&self, _bytes_per_sector: u64) -> Result<()> {
        Ok(())
    }

    /// How many writes there were, so that an operation can tell whether it
    /// failed before the first one.
    pub fn writes(&self) -> u64 {
        self.writes.get()
    }

    pub fn read(&self, offset: u64, output: &mut [u8]) -> Result<()> {
        Ok(self.device.read_at(offset, output)?)
    }

    pub fn write(&self, offset: u64, data: &[u8]) -> Result<()> {
        self.write_through(offset, data)
    }

    pub fn write_through(&self, offset: u64, data: &[u8]) -> Result<()> {
        self.writes.set(self.writes.get() + 1);
        Ok(self.device.write_at(offset, data)?)
    }

    pub fn flush_dirty(&self) -> Result<()> {
        Ok(())
    }

    pub fn sync(&self) -> Result<()> {
        Ok(self.device.flush()?)
    }
}

/// The device as the strict reader sees it, held writes included.
pub struct CacheView<Device: BlockDevice> {
    cache: Arc<Cache<Device>>,
}

impl<Device: BlockDevice> CacheView<Device> {
    pub fn new(cache: Arc<Cache<Device>>) -> Self {
        Self { cache }
    }
}

impl<Device: BlockDevice> BlockRead for CacheView<Device> {
    fn read_at(&self, offset: u64, output: &mut [u8]) -> fs_core::Result<()> {
        self.cache.device.read_at(offset, output)
    }

    fn size_bytes(&self) -> u64 {
        self.cache.device.size_bytes()
    }
}

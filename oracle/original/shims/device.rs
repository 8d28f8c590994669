//! Shim of device.rs: reads from a device, with the crate's error type.

use crate::Result;
use fs_core::BlockRead;

pub struct Reader<Device: BlockRead> {
    device: Device,
}

impl<Device: BlockRead> Reader<Device> {
    pub fn new(device: Device) -> Self {
        Self { device }
    }

    pub fn read_at(&self, offset: u64, output: &mut [u8]) -> Result<()> {
        Ok(self.device.read_at(offset, output)?)
    }

    pub fn size_bytes(&self) -> u64 {
        self.device.size_bytes()
    }
}

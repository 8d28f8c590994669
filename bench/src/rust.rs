//! The original Rust, over a plain device in memory: the oracle's one keeps what it overwrites, which would count here.

use crate::calls::{Call, List, Shared, CLOCK};
use crate::limits::now;
use fs_core::{BlockDevice, BlockRead};
use original::timestamp::{Timestamp, Timestamps};
use original::write::{Allocation, NewEntry, WriteVolume};

#[derive(Clone)]
pub struct Device(Shared);

fn place(size: usize, offset: u64, length: usize) -> fs_core::Result<usize> {
    match offset.checked_add(length as u64) {
        Some(end) if end <= size as u64 => Ok(offset as usize),
        _ => Err(fs_core::Error::OutOfBounds),
    }
}

impl BlockRead for Device {
    fn read_at(&self, offset: u64, output: &mut [u8]) -> fs_core::Result<()> {
        let bytes = self.0.borrow();
        let at = place(bytes.len(), offset, output.len())?;
        output.copy_from_slice(&bytes[at..at + output.len()]);
        Ok(())
    }

    fn size_bytes(&self) -> u64 {
        self.0.borrow().len() as u64
    }
}

impl BlockDevice for Device {
    fn write_at(&self, offset: u64, data: &[u8]) -> fs_core::Result<()> {
        let mut bytes = self.0.borrow_mut();
        let at = place(bytes.len(), offset, data.len())?;
        bytes[at..at + data.len()].copy_from_slice(data);
        Ok(())
    }

    fn flush(&self) -> fs_core::Result<()> {
        Ok(())
    }
}

pub struct Side<'list> {
    list: &'list List,
    data: &'list [u8],
    device: Device,
    new: NewEntry,
    hint: u32,
    record: Allocation,
}

pub type Mount = WriteVolume<Device>;

impl<'list> Side<'list> {
    pub fn new(list: &'list List, data: &'list [u8], volume: &Shared) -> Self {
        original::set_clock(CLOCK);
        let now = Timestamp::now().expect("a time within the range");
        let times = Timestamps {
            created: now,
            modified: now,
            accessed: now,
        };
        Side {
            list,
            data,
            device: Device(volume.clone()),
            new: NewEntry {
                attributes: 0x20,
                times: Some(times),
            },
            hint: list.hint,
            record: Allocation::EMPTY,
        }
    }

    pub fn restart(&mut self) {
        self.device
            .0
            .borrow_mut()
            .copy_from_slice(&self.list.volume.bytes);
        self.hint = self.list.hint;
        self.record = Allocation::EMPTY;
    }

    pub fn mount(&self) -> Mount {
        let mut mount =
            WriteVolume::mount(self.device.clone()).expect("the original mounts the volume");
        mount.set_hint(self.hint);
        mount
    }

    #[inline]
    fn call(&mut self, mount: &mut Mount, call: &Call) {
        let files = &self.list.files;
        let done = match *call {
            Call::NewFile { file } => mount.create_with(&files[file].text, self.new),
            Call::Write {
                file,
                offset,
                from,
                length,
            } => mount.pwrite(&files[file].text, offset, &self.data[from..from + length]),
            Call::Remove { file } => mount.unlink(&files[file].text),
            Call::Read { .. } => unreachable!("its reader is not among the files"),
            Call::Allocate { count } => mount.allocate(count).map(|record| self.record = record),
            Call::Extend { more } => mount.extend(&mut self.record, more),
            Call::Shrink { keep } => mount.shrink(&mut self.record, keep),
        };
        done.expect("the original takes the call");
    }

    /// All calls, each on a mount of its own. Answers the nanoseconds.
    pub fn run_fresh(&mut self) -> u64 {
        let list = self.list;
        let start = now();
        for call in &list.calls {
            let mut mount = self.mount();
            self.call(&mut mount, call);
            self.hint = mount.hint();
        }
        now() - start
    }

    /// All calls on one mount.
    pub fn run_on(&mut self, mount: &mut Mount) -> u64 {
        let list = self.list;
        let start = now();
        for call in &list.calls {
            self.call(mount, call);
        }
        now() - start
    }
}

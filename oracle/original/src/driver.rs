//! What the oracle uses: a device in memory that can take back its writes, a
//! mount on it, and the clock. Nothing here looks into a volume.

use crate::directory;
use crate::timestamp::{Timestamp, Timestamps};
use crate::write::{Allocation, NewEntry, WriteVolume};
use crate::{Error, Result};
use fs_core::{BlockDevice, BlockRead};
use std::cell::{Ref, RefCell, RefMut};
use std::rc::Rc;
use std::sync::atomic::{AtomicI64, Ordering};

/// A stamp as an entry holds it: value, 10 ms increment, UTC offset.
pub type Stamp = (u32, u8, u8);

/// first, last, count, no_fat_chain.
pub type Record = (u32, u32, u32, bool);

/// What a call of the original gives.
pub type Answer<Value> = Result<Value>;

struct Memory {
    bytes: Vec<u8>,
    /// Offset and old bytes of each write since the last `begin`.
    undo: Vec<(usize, Vec<u8>)>,
}

/// A device in memory. Clones share their bytes.
#[derive(Clone)]
pub struct Device {
    memory: Rc<RefCell<Memory>>,
}

impl Device {
    pub fn new(bytes: Vec<u8>) -> Self {
        let undo = Vec::new();
        Self {
            memory: Rc::new(RefCell::new(Memory { bytes, undo })),
        }
    }

    pub fn bytes(&self) -> Ref<'_, Vec<u8>> {
        Ref::map(self.memory.borrow(), |memory| &memory.bytes)
    }

    pub fn bytes_mut(&self) -> RefMut<'_, Vec<u8>> {
        RefMut::map(self.memory.borrow_mut(), |memory| &mut memory.bytes)
    }

    /// From here on writes can be taken back.
    pub fn begin(&self) {
        self.memory.borrow_mut().undo.clear();
    }

    /// Takes back every write since `begin`.
    pub fn roll_back(&self) {
        let memory = &mut *self.memory.borrow_mut();
        while let Some((offset, old)) = memory.undo.pop() {
            memory.bytes[offset..offset + old.len()].copy_from_slice(&old);
        }
    }
}

/// The place of `length` bytes at `offset`, if the device has them.
fn place(size: usize, offset: u64, length: usize) -> fs_core::Result<usize> {
    match offset.checked_add(length as u64) {
        Some(end) if end <= size as u64 => Ok(offset as usize),
        _ => Err(fs_core::Error::OutOfBounds),
    }
}

impl BlockRead for Device {
    fn read_at(&self, offset: u64, output: &mut [u8]) -> fs_core::Result<()> {
        let memory = self.memory.borrow();
        let at = place(memory.bytes.len(), offset, output.len())?;
        output.copy_from_slice(&memory.bytes[at..at + output.len()]);
        Ok(())
    }

    fn size_bytes(&self) -> u64 {
        self.memory.borrow().bytes.len() as u64
    }
}

impl BlockDevice for Device {
    fn write_at(&self, offset: u64, data: &[u8]) -> fs_core::Result<()> {
        let memory = &mut *self.memory.borrow_mut();
        let at = place(memory.bytes.len(), offset, data.len())?;
        let old = &mut memory.bytes[at..at + data.len()];
        memory.undo.push((at, old.to_vec()));
        old.copy_from_slice(data);
        Ok(())
    }

    fn flush(&self) -> fs_core::Result<()> {
        Ok(())
    }
}

/// A file as the original's reader of volumes opens it: its clusters in stream
/// order and its two lengths.
#[derive(Clone, Debug, PartialEq, Eq)]
pub struct Opened {
    pub clusters: Vec<u32>,
    pub valid: u64,
    pub length: u64,
}

/// A volume mounted by the original.
pub struct Mount {
    volume: WriteVolume<Device>,
}

fn allocation(record: Record) -> Allocation {
    Allocation::from_parts(record.0, record.1, record.2, record.3)
}

fn record(allocation: &Allocation) -> Record {
    (
        allocation.first_cluster(),
        allocation.last_cluster(),
        allocation.count(),
        allocation.no_fat_chain(),
    )
}

impl Mount {
    pub fn new(device: &Device) -> Result<Self> {
        let volume = WriteVolume::mount(device.clone())?;
        Ok(Self { volume })
    }

    pub fn hint(&self) -> u32 {
        self.volume.hint()
    }

    pub fn set_hint(&mut self, hint: u32) {
        self.volume.set_hint(hint);
    }

    pub fn writes(&self) -> u64 {
        self.volume.writes()
    }

    pub fn is_system(&self, cluster: u32) -> bool {
        self.volume.is_system(cluster)
    }

    pub fn free_count(&self) -> u64 {
        self.volume.free_clusters()
    }

    pub fn clusters(&self, given: Record) -> Answer<Vec<u32>> {
        self.volume.clusters(&allocation(given))
    }

    pub fn allocate(&mut self, count: u32, near: Option<u32>) -> Answer<Record> {
        let allocation = self.volume.allocate_near(count, near)?;
        Ok(record(&allocation))
    }

    pub fn extend(&mut self, given: Record, more: u32) -> Answer<Record> {
        let mut allocation = allocation(given);
        self.volume.extend(&mut allocation, more)?;
        Ok(record(&allocation))
    }

    pub fn shrink(&mut self, given: Record, keep: u32) -> Answer<Record> {
        let mut allocation = allocation(given);
        self.volume.shrink(&mut allocation, keep)?;
        Ok(record(&allocation))
    }

    /// Makes a file; the answer is the slot of its set.
    pub fn new_file(&mut self, name: &[u16], attributes: u16, stamps: [Stamp; 3]) -> Answer<u32> {
        let text = String::from_utf16(name).map_err(|_| Error::Invalid("file name UTF-16"))?;
        WriteVolume::<Device>::check_name(&text)?;
        let times = Timestamps {
            created: timestamp(stamps[0])?,
            modified: timestamp(stamps[1])?,
            accessed: timestamp(stamps[2])?,
        };
        let new = NewEntry {
            attributes,
            times: Some(times),
        };
        let before = self.volume.reader().root_bytes().to_vec();
        self.volume.create_with(&text, new)?;
        let offset = self.volume.new_offset(name, &before);
        Ok(offset.ok_or(Error::Invalid("the new file is not in the root"))? as u32 / 32)
    }

    /// The path of the file at a slot. The original finds a file by its name
    /// alone, so a slot without a file is one that it cannot find; so is one
    /// whose bytes do not hold a name that a path can give.
    fn path(&self, slot: u32) -> Answer<String> {
        let offset = (slot as usize).checked_mul(32).ok_or(Error::NotFound)?;
        let name = self.volume.name_at(offset).ok_or(Error::NotFound)?;
        WriteVolume::<Device>::check_name(&name).map_err(|_| Error::NotFound)?;
        Ok(name)
    }

    /// The file at a slot, for reading: its set as the strict parse of the root
    /// gives it, and its stream's clusters as the reader of volumes gives them.
    /// That walk of a chain is a shim's, so the writer's own has to agree.
    pub fn open(&self, slot: u32) -> Answer<Opened> {
        let volume = self.volume.reader();
        let root = volume.root_bytes();
        let sets = directory::parse_located(root, volume.boot(), volume.upcase(), true)?;
        let at = |set: &directory::Located| set.offset / 32 == slot as usize;
        let set = sets.into_iter().find(at).ok_or(Error::NotFound)?;
        if set.entry.is_directory() {
            return Err(Error::IsDirectory);
        }
        let stream = set.entry.stream();
        let read = volume.stream_clusters(stream)?;
        let clusters: Vec<u32> = (0..).map_while(|index| read.get(index)).collect();
        if let (Some(first), Some(last)) = (clusters.first(), clusters.last()) {
            let record = (*first, *last, clusters.len() as u32, stream.no_fat_chain());
            if self.clusters(record)? != clusters {
                return Err(Error::Invalid("reader and writer walk differently"));
            }
        }
        Ok(Opened {
            clusters,
            valid: stream.valid_data_length(),
            length: stream.data_length(),
        })
    }

    /// Where a cluster's first byte lies.
    pub fn place(&self, cluster: u32) -> Answer<u64> {
        self.volume.reader().boot().cluster_offset(cluster)
    }

    pub fn write(&mut self, slot: u32, offset: u64, data: &[u8]) -> Answer<()> {
        let path = self.path(slot)?;
        self.volume.pwrite(&path, offset, data)
    }

    pub fn set_length(&mut self, slot: u32, length: u64) -> Answer<()> {
        let path = self.path(slot)?;
        self.volume.truncate(&path, length)
    }

    pub fn remove(&mut self, slot: u32) -> Answer<()> {
        let path = self.path(slot)?;
        self.volume.unlink(&path)
    }
}

fn timestamp(stamp: Stamp) -> Result<Timestamp> {
    Timestamp::decode(stamp.0, stamp.1, stamp.2)
}

/// The time that the clock below gives, in milliseconds since 1970.
static CLOCK: AtomicI64 = AtomicI64::new(0);

/// Sets the clock and gives the stamp that the original makes of that time.
pub fn set_clock(milliseconds: i64) -> Stamp {
    CLOCK.store(milliseconds, Ordering::Relaxed);
    Timestamp::from_unix_milliseconds(milliseconds, 0)
        .and_then(|time| time.encode())
        .expect("a time within the range of exFAT")
}

/// Whether the original reads the clock below. Where the linker took the
/// system's one, stamps cannot be compared.
pub fn clock_is_ours() -> bool {
    let stamp = set_clock(1_700_000_000_120);
    Timestamp::now().and_then(|time| time.encode()) == Ok(stamp)
}

/// Takes the place of the C library's function of this name in the whole
/// program, so that `Timestamp::now` runs unchanged and gives a time that the
/// other side can be given too. The oracle measures no time itself.
#[no_mangle]
pub extern "C" fn clock_gettime(_clock: i32, time: *mut [i64; 2]) -> i32 {
    let now = CLOCK.load(Ordering::Relaxed);
    // SAFETY: the caller hands a timespec, two 64-bit words on 64-bit systems.
    unsafe { *time = [now / 1000, now % 1000 * 1_000_000] };
    0
}

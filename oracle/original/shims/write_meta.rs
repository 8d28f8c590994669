//! Shim of write_meta.rs. In the original it sets labels, attributes and
//! times, which are not compared. It is a child of `write`, so it sees the
//! private parts of a mount: here the oracle reads and sets the hint
//! (`next_free`), and reaches calls that the original keeps to its crate.

use super::{Allocation, WriteVolume};
use crate::primitives::RawEntrySet;
use crate::Result;
use fs_core::BlockDevice;

/// Named by `write`; not used.
pub struct SetTimes;

impl<Device: BlockDevice> WriteVolume<Device> {
    pub fn hint(&self) -> u32 {
        self.next_free
    }

    pub fn set_hint(&mut self, hint: u32) {
        self.next_free = hint;
    }

    /// How many writes this mount has made.
    pub fn writes(&self) -> u64 {
        self.cache.writes()
    }

    pub fn allocate_near(&mut self, count: u32, near: Option<u32>) -> Result<Allocation> {
        self.operation(|volume| volume.allocate_clusters(count, near))
    }

    pub fn is_system(&self, cluster: u32) -> bool {
        self.volume.is_system_cluster(cluster)
    }

    /// The name in the set at an offset of the root, as the mount holds the
    /// root. Whether there is such a file the mount says when it is called.
    pub fn name_at(&self, offset: usize) -> Option<String> {
        let bytes = self.volume.root.get(offset..)?;
        let set = RawEntrySet::parse(bytes).filter(|_| bytes[0] == 0x85)?;
        let name = set.name();
        name.utf16_ok.then_some(name.text)
    }

    /// Where the set with a name begins in the root, as the mount holds it,
    /// among the entries that were not in use in `before`.
    pub fn new_offset(&self, name: &[u16], before: &[u8]) -> Option<usize> {
        let root = &self.volume.root;
        (0..root.len())
            .step_by(32)
            .filter(|offset| before.get(*offset).is_none_or(|kind| kind & 0x80 == 0))
            .find(|offset| has_name(&root[*offset..], name))
    }

    /// The original's own test of a new file's name, which a path hides when
    /// the name holds a slash or is empty.
    pub fn check_name(name: &str) -> Result<()> {
        super::dir::file_name(name).map(|_| ())
    }
}

/// Whether the bytes begin with a file's set of this name.
fn has_name(bytes: &[u8], name: &[u16]) -> bool {
    bytes[0] == 0x85 && RawEntrySet::parse(bytes).is_some_and(|set| set.name().utf16 == name)
}

//! The proved library: the calls of include/exfat.h.

use crate::calls::{Call, List, Shared, STAMP};
use crate::limits::now;
use exfat::Setting;

/// As many zeros as a cluster has; each read tests them all.
static ZEROS: [u8; 512] = [0; 512];

/// What is kept between calls: the bytes, and what the calls gave.
pub struct Side<'list> {
    list: &'list List,
    data: &'list [u8],
    volume: Shared,
    pub hint: u32,
    pub slots: Vec<u32>,
    pub record: [u32; 4],
}

impl<'list> Side<'list> {
    pub fn new(list: &'list List, data: &'list [u8], volume: &Shared) -> Self {
        let slots = list.files.iter().map(|file| file.slot).collect();
        Side {
            list,
            data,
            volume: volume.clone(),
            hint: list.hint,
            slots,
            record: [0; 4],
        }
    }

    /// Everything as before the first call.
    pub fn restart(&mut self) {
        self.volume
            .borrow_mut()
            .copy_from_slice(&self.list.volume.bytes);
        self.hint = self.list.hint;
        self.record = [0; 4];
    }

    /// Makes a call, which nothing may refuse.
    #[inline]
    pub fn call(&mut self, volume: &mut [u8], call: &Call) {
        let mut out = [0; 8];
        let given = &self.list.volume;
        let setting = Setting {
            geometry: &given.words,
            map: &given.map,
        };
        let hint = self.hint;
        let number = match *call {
            Call::NewFile { file } => {
                let file = &self.list.files[file];
                let new = exfat::NewFile {
                    name: &file.name,
                    attributes: 0x20,
                    hash: file.hash,
                    stamps: [STAMP; 3],
                };
                exfat::new_file(volume, setting, &new, hint, &mut out)
            }
            Call::Write {
                file,
                offset,
                from,
                length,
            } => {
                let data = &self.data[from..from + length];
                let at = (self.slots[file], offset);
                exfat::write(volume, setting, at, data, &STAMP, hint, &mut out)
            }
            Call::Remove { file } => {
                exfat::remove(volume, setting, self.slots[file], hint, &mut out)
            }
            Call::Read {
                file,
                offset,
                length,
            } => {
                let at = (self.slots[file], offset);
                let part = exfat::read(volume, setting, &ZEROS, at, &mut out);
                assert_eq!(part.len(), length, "the library gives another part");
                0
            }
            Call::Allocate { count } => {
                exfat::allocate(volume, setting, count, None, hint, &mut out)
            }
            Call::Extend { more } => {
                exfat::extend(volume, setting, &self.record, more, hint, &mut out)
            }
            Call::Shrink { keep } => {
                exfat::shrink(volume, setting, &self.record, keep, hint, &mut out)
            }
        };
        assert_eq!(number, 0, "the library refused a call");
        match *call {
            Call::NewFile { file } => {
                self.slots[file] = out[0];
                self.hint = out[1];
            }
            Call::Write { .. } | Call::Remove { .. } => self.hint = out[0],
            Call::Read { .. } => {}
            _ => {
                self.record.copy_from_slice(&out[..4]);
                self.hint = out[4];
            }
        }
    }

    /// Makes all calls. Answers the nanoseconds.
    pub fn run(&mut self) -> u64 {
        let (list, shared) = (self.list, self.volume.clone());
        let mut volume = shared.borrow_mut();
        let start = now();
        for call in &list.calls {
            self.call(&mut volume, call);
        }
        now() - start
    }
}

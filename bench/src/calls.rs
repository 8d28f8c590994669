//! A list of calls, as each side is given it.

use crate::volume::{name_hash, units, Volume};
use std::cell::RefCell;
use std::rc::Rc;

/// A volume's bytes. The sides use the same memory, one after the other, so that its place favours none.
pub type Shared = Rc<RefCell<Vec<u8>>>;

pub fn shared(bytes: &[u8]) -> Shared {
    Rc::new(RefCell::new(bytes.to_vec()))
}

/// A file of a workload. Both sides know it by its place in the list of files.
#[derive(Clone)]
pub struct File {
    pub text: String,
    pub name: Vec<u16>,
    pub hash: u16,
    /// Its slot, where it is there before the first call.
    pub slot: u32,
}

impl File {
    pub fn new(text: &str) -> File {
        File::at(text, 0)
    }

    pub fn at(text: &str, slot: u32) -> File {
        let name = units(text);
        let hash = name_hash(&name);
        File {
            text: text.to_string(),
            name,
            hash,
            slot,
        }
    }
}

/// Data is named by its place in the source buffer. The calls on a record work on one, which is empty at first.
#[derive(Clone, Copy)]
pub enum Call {
    NewFile {
        file: usize,
    },
    Write {
        file: usize,
        offset: u64,
        from: usize,
        length: usize,
    },
    Remove {
        file: usize,
    },
    /// Of a part, whose length is known.
    Read {
        file: usize,
        offset: u64,
        length: usize,
    },
    Allocate {
        count: u32,
    },
    Extend {
        more: u32,
    },
    Shrink {
        keep: u32,
    },
}

/// A start and the calls on it.
#[derive(Clone)]
pub struct List {
    pub volume: Volume,
    pub files: Vec<File>,
    pub calls: Vec<Call>,
    pub hint: u32,
}

/// The time of all calls: both sides get the stamp of this one.
pub const CLOCK: i64 = 1_700_000_000_120;

/// That time as an entry holds it: 2023-11-14 22:13:20.12, UTC.
pub const STAMP: [u8; 6] = stamp();

const fn stamp() -> [u8; 6] {
    let value: u32 = (2023 - 1980) << 25 | 11 << 21 | 14 << 16 | 22 << 11 | 13 << 5 | 20 / 2;
    let value = value.to_le_bytes();
    [value[0], value[1], value[2], value[3], 12, 0x80]
}

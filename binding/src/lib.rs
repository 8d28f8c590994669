//! The proved library: each call of include/exfat.h over slices. The only
//! foreign functions of the repository's Rust. Beside them, what the tool, the
//! oracle and the measurements read and write of a volume by themselves.

pub mod boot;
pub mod bytes;
mod geometry;

pub use geometry::{Geometry, GeometryWords, GEOMETRY_WORDS};

/// A stream's record: first and last cluster, count, and NoFatChain.
pub type Record = [u32; 4];

/// A time as an entry holds it, its 10 ms increment and its UTC offset.
pub type Stamp = [u8; 6];

/// What a call gives, then zeros.
pub type Out = [u32; 8];

/// A place in a file: its slot, and an offset or a length.
pub type Place = (u32, u64);

/// Geometry and system map, which every call takes.
#[derive(Clone, Copy)]
pub struct Setting<'a> {
    pub geometry: &'a GeometryWords,
    pub map: &'a [u8],
}

/// What a new file is to be; its stamps are created, modified, accessed.
#[derive(Clone, Copy)]
pub struct NewFile<'a> {
    pub name: &'a [u16],
    pub attributes: u16,
    pub hash: u16,
    pub stamps: [Stamp; 3],
}

/// Declares each function with what every call takes, then its own arguments
/// and what it answers.
macro_rules! foreign {
    ($($name:ident($volume:ty $(, $argument:ident: $kind:ty)*) $(-> $answer:ty)?;)*) => {
        mod foreign {
            use super::{GeometryWords, Out, Record, Stamp};

            extern "C" {
                $(pub fn $name(
                    vol: $volume,
                    vol_len: usize,
                    map: *const u8,
                    map_len: usize,
                    geometry: *const GeometryWords
                    $(, $argument: $kind)*
                ) $(-> $answer)?;)*
            }
        }
    };
}

foreign! {
    exfat_free_count(*const u8, out: *mut Out) -> u32;
    exfat_clusters(*const u8, allocation: *const Record, list: *mut u32, list_len: usize) -> u32;
    exfat_read_number(*const u8, zeros: *const u8, zeros_len: usize, slot: u32) -> u32;
    exfat_read(*const u8, zeros: *const u8, zeros_len: usize, slot: u32, offset: u64, out: *mut Out);
    exfat_allocate(*mut u8, count: u32, has_near: u32, near: u32, hint: u32, out: *mut Out) -> u32;
    exfat_extend(*mut u8, allocation: *const Record, more: u32, hint: u32, out: *mut Out) -> u32;
    exfat_shrink(*mut u8, allocation: *const Record, keep: u32, hint: u32, out: *mut Out) -> u32;
    exfat_new_file(
        *mut u8, name: *const u16, name_len: usize, attributes: u16, hash: u16, stamps: *const [Stamp; 3], hint: u32,
        out: *mut Out
    ) -> u32;
    exfat_write(
        *mut u8, slot: u32, offset: u64, src: *const u8, src_len: usize, stamp: *const Stamp, hint: u32, out: *mut Out
    ) -> u32;
    exfat_set_length(*mut u8, slot: u32, length: u64, stamp: *const Stamp, hint: u32, out: *mut Out) -> u32;
    exfat_remove(*mut u8, slot: u32, hint: u32, out: *mut Out) -> u32;
}

/// Calls a function with what every call takes, then its own arguments.
/// SAFETY of each call: a pointer and its length come from one slice or array
/// of the length that the header names, so it is aligned and not null, and
/// what is written is borrowed mutably, so it overlaps nothing.
macro_rules! call {
    ($name:ident, $vol:expr, $pointer:ident, $setting:expr $(, $argument:expr)*) => {
        unsafe {
            foreign::$name(
                $vol.$pointer(), $vol.len(), $setting.map.as_ptr(), $setting.map.len(), $setting.geometry $(, $argument)*
            )
        }
    };
}

/// Each call answers its number, 0 for success; but for the read of a part,
/// whose number is a call of its own.
pub fn free_count(vol: &[u8], setting: Setting, out: &mut Out) -> u32 {
    call!(exfat_free_count, vol, as_ptr, setting, out)
}

pub fn clusters(vol: &[u8], setting: Setting, record: &Record, list: &mut [u32]) -> u32 {
    call!(exfat_clusters, vol, as_ptr, setting, record, list.as_mut_ptr(), list.len())
}

pub fn read_number(vol: &[u8], setting: Setting, zeros: &[u8], slot: u32) -> u32 {
    call!(exfat_read_number, vol, as_ptr, setting, zeros.as_ptr(), zeros.len(), slot)
}

/// The bytes of a file from an offset on that lie together, in the volume or in
/// the zeros; none where the read is refused, and at or past the file's length.
pub fn read<'a>(vol: &'a [u8], setting: Setting, zeros: &'a [u8], at: Place, out: &mut Out) -> &'a [u8] {
    call!(exfat_read, vol, as_ptr, setting, zeros.as_ptr(), zeros.len(), at.0, at.1, out);
    let (start, length) = (out[1] as usize, out[2] as usize);
    let lent = if out[0] == 0 { vol } else { zeros };
    &lent[start..start + length]
}

pub fn allocate(vol: &mut [u8], setting: Setting, count: u32, near: Option<u32>, hint: u32, out: &mut Out) -> u32 {
    let (has_near, near) = (u32::from(near.is_some()), near.unwrap_or(0));
    call!(exfat_allocate, vol, as_mut_ptr, setting, count, has_near, near, hint, out)
}

pub fn extend(vol: &mut [u8], setting: Setting, record: &Record, more: u32, hint: u32, out: &mut Out) -> u32 {
    call!(exfat_extend, vol, as_mut_ptr, setting, record, more, hint, out)
}

pub fn shrink(vol: &mut [u8], setting: Setting, record: &Record, keep: u32, hint: u32, out: &mut Out) -> u32 {
    call!(exfat_shrink, vol, as_mut_ptr, setting, record, keep, hint, out)
}

pub fn new_file(vol: &mut [u8], setting: Setting, file: &NewFile, hint: u32, out: &mut Out) -> u32 {
    let NewFile { name, attributes, hash, stamps } = file;
    call!(exfat_new_file, vol, as_mut_ptr, setting, name.as_ptr(), name.len(), *attributes, *hash, stamps, hint, out)
}

pub fn write(vol: &mut [u8], setting: Setting, at: Place, data: &[u8], stamp: &Stamp, hint: u32, out: &mut Out) -> u32 {
    call!(exfat_write, vol, as_mut_ptr, setting, at.0, at.1, data.as_ptr(), data.len(), stamp, hint, out)
}

pub fn set_length(vol: &mut [u8], setting: Setting, at: Place, stamp: &Stamp, hint: u32, out: &mut Out) -> u32 {
    call!(exfat_set_length, vol, as_mut_ptr, setting, at.0, at.1, stamp, hint, out)
}

pub fn remove(vol: &mut [u8], setting: Setting, slot: u32, hint: u32, out: &mut Out) -> u32 {
    call!(exfat_remove, vol, as_mut_ptr, setting, slot, hint, out)
}

//! Little-endian words in bytes, the bits of a bitmap, and FAT values.

pub const FAT_END: u32 = 0xffff_ffff;
pub const FAT_BAD: u32 = 0xffff_fff7;

pub fn u16_at(bytes: &[u8], at: usize) -> u16 {
    u16::from_le_bytes([bytes[at], bytes[at + 1]])
}

pub fn u32_at(bytes: &[u8], at: usize) -> u32 {
    u32::from_le_bytes(bytes[at..at + 4].try_into().expect("four bytes"))
}

pub fn u64_at(bytes: &[u8], at: usize) -> u64 {
    u64::from_le_bytes(bytes[at..at + 8].try_into().expect("eight bytes"))
}

pub fn put32(bytes: &mut [u8], at: usize, value: u32) {
    bytes[at..at + 4].copy_from_slice(&value.to_le_bytes());
}

pub fn put64(bytes: &mut [u8], at: usize, value: u64) {
    bytes[at..at + 8].copy_from_slice(&value.to_le_bytes());
}

/// The bit of a cluster in a bitmap.
pub fn bit(bitmap: &[u8], cluster: u32) -> bool {
    let index = (cluster - 2) as usize;
    bitmap[index / 8] & (1 << (index % 8)) != 0
}

pub fn set_bit(bitmap: &mut [u8], cluster: u32) {
    let index = (cluster - 2) as usize;
    bitmap[index / 8] |= 1 << (index % 8);
}

pub fn clear_bit(bitmap: &mut [u8], cluster: u32) {
    let index = (cluster - 2) as usize;
    bitmap[index / 8] &= !(1 << (index % 8));
}

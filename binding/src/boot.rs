//! The checksum of a boot region (section 3.4 of the standard).

/// Sectors of one boot region: the boot sector, eight extended ones, OEM
/// parameters, a reserved one and the checksum.
pub const REGION: usize = 12;
pub const CHECKSUM_SECTOR: usize = 11;

/// VolumeFlags and PercentInUse, which change in use.
pub fn is_mutable(index: usize) -> bool {
    matches!(index, 106 | 107 | 112)
}

/// Over the sectors before the checksum's, those bytes left out.
pub fn checksum(sectors: &[u8]) -> u32 {
    let kept = sectors.iter().enumerate().filter(|(index, _)| !is_mutable(*index));
    kept.fold(0, |sum: u32, (_, byte)| sum.rotate_right(1).wrapping_add(u32::from(*byte)))
}

/// Fills the last sector of a region with the checksum of those before it.
pub fn seal(region: &mut [u8]) {
    let (summed, last) = region.split_at_mut(region.len() / REGION * CHECKSUM_SECTOR);
    let sum = checksum(summed).to_le_bytes();
    last.chunks_exact_mut(4).for_each(|word| word.copy_from_slice(&sum));
}

//! The limits of 01 on a geometry.

use exfat::Geometry;

/// Largest volume of 01, in bytes.
pub const MAX_BYTES: u64 = 16_777_216;
pub const MAX_CLUSTERS: u32 = 32_768;
/// 32 KiB: sector and cluster shift add up to at most 15.
pub const MAX_CLUSTER_SHIFT: u32 = 15;
/// Both boot regions take 12 sectors each.
pub const MIN_FAT_OFFSET: u32 = 24;

/// What breaks a limit in a volume of `length` bytes. The bitmaps' places are
/// not looked at.
pub fn over_limits(g: &Geometry, length: u64) -> Option<String> {
    let (s, c, clusters) = (g.sector_shift, g.cluster_shift, g.cluster_count);
    if !(9..=12).contains(&s) {
        return Some(format!("BytesPerSectorShift {s} is not in 9..12"));
    }
    if s + c > MAX_CLUSTER_SHIFT {
        return Some(format!("clusters of 2^{} bytes are above 32 KiB", s + c));
    }
    if length > MAX_BYTES {
        return Some(format!("{length} bytes are above {MAX_BYTES}"));
    }
    if !(1..=2).contains(&g.number_of_fats) {
        return Some(format!("NumberOfFats {} is not 1 or 2", g.number_of_fats));
    }
    if g.active_fat >= g.number_of_fats {
        return Some("ActiveFat names a second FAT and there is one".into());
    }
    if g.fat_offset < MIN_FAT_OFFSET {
        return Some(format!("FatOffset {} is below {MIN_FAT_OFFSET}", g.fat_offset));
    }
    if !(1..=MAX_CLUSTERS).contains(&clusters) {
        return Some(format!("ClusterCount {clusters} is not in 1..{MAX_CLUSTERS}"));
    }
    if u64::from(g.fat_length) << s < 4 * (u64::from(clusters) + 2) {
        return Some(format!("FatLength {} holds fewer than {clusters} clusters", g.fat_length));
    }
    let fats = u64::from(g.fat_offset) + u64::from(g.fat_length) * u64::from(g.number_of_fats);
    if u64::from(g.cluster_heap_offset) < fats {
        return Some(format!("ClusterHeapOffset {} lies inside the FATs", g.cluster_heap_offset));
    }
    let heap_end = (u64::from(g.cluster_heap_offset) << s) + (u64::from(clusters) << (s + c));
    if heap_end > length {
        return Some(format!("the heap ends at byte {heap_end} of {length}"));
    }
    None
}

//! Shim of primitive_deviations.rs: only named by primitives.rs.

super::stale::names! {
    backup_boot_deviations, bitmap_reserved_byte, boot_region_deviations, fat_head_deviations,
    invalid_name_character, percent_in_use_deviation, system_allocation_deviations,
    timestamp_valid, Deviation, DeviationReport, DirectoryOutcome, DirectoryRules,
    EntryAllocation, RootStreams, Rule, VolumeRules, MAX_LISTED_PER_RULE,
}

//! Shim of primitive_uninterpreted.rs: only named by primitives.rs.

super::stale::names! {
    uninterpreted_entries, DirectoryWalk, SetMembership, UninterpretedCounts, UninterpretedKind,
    UninterpretedRecord,
}

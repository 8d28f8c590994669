//! Shim of primitive_structures.rs: only named by primitives.rs.

super::stale::names! {
    bitmap_location, checked_bitmap_bit, checked_fat_entry, inspect_structures, read_structures,
    BitmapLocation, StructureCopy, StructureError, StructureGeometry,
}

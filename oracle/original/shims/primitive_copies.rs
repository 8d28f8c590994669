//! Shim of primitive_copies.rs: only named by primitives.rs.

super::stale::names! { bitmap_differences, fat_differences, Compared, FatCopy, FatLayout }

//! Shim of write_rename.rs: renaming is not compared.

//! The C functions of limits.c.

mod c {
    extern "C" {
        pub fn bench_walk(fat: *const u8, first: u32) -> u32;
        pub fn bench_run(marks: *const u8, map: *const u8, length: usize) -> u32;
        pub fn bench_copy(to: *mut u8, from: *const u8, length: usize);
        pub fn bench_clear(bytes: *const u8, length: usize);
        pub fn bench_now() -> u64;
    }
}

/// Walks a chain that is known to end. Answers its last cluster.
pub fn walk(fat: &[u8], first: u32) -> u32 {
    // SAFETY: the chains that are walked lie in the FAT and end.
    unsafe { c::bench_walk(fat.as_ptr(), first) }
}

/// Whether all bits of the marks are ones and all of the map zeros, looked at byte by byte.
pub fn run(marks: &[u8], map: &[u8]) -> bool {
    assert!(map.len() >= marks.len());
    // SAFETY: the map has as many bytes as the marks.
    unsafe { c::bench_run(marks.as_ptr(), map.as_ptr(), marks.len()) == 1 }
}

pub fn copy(to: &mut [u8], from: &[u8]) {
    assert!(to.len() >= from.len());
    // SAFETY: `to` has room for all of `from`.
    unsafe { c::bench_copy(to.as_mut_ptr(), from.as_ptr(), from.len()) }
}

/// Takes the bytes out of the processor's caches.
pub fn clear(bytes: &[u8]) {
    // SAFETY: only bytes of the slice are named.
    unsafe { c::bench_clear(bytes.as_ptr(), bytes.len()) }
}

/// Nanoseconds of this thread.
pub fn now() -> u64 {
    // SAFETY: no arguments.
    unsafe { c::bench_now() }
}

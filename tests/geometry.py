#!/usr/bin/env python3
"""The words of a geometry, for every script here; run, it holds them against the other languages.

Each language says its count and its fields in one place: Rattle in crates/boot, C in include/exfat.h, Rust in binding/, Python here.
The counts and the fields' order are the same in all, and no other place says the length of a geometry's array by a number.
"""

import ctypes
import pathlib
import re
import sys

sys.dont_write_bytecode = True
import verdict  # noqa: E402, beside this file

FIELDS = (
    "sector_shift",
    "cluster_shift",
    "fat_offset",
    "fat_length",
    "number_of_fats",
    "active_fat",
    "cluster_heap_offset",
    "cluster_count",
    "root_cluster",
    "bitmap_0",
    "bitmap_1",
)
WORDS = len(FIELDS)


def array(*words):
    """A geometry as the library takes it."""
    assert len(words) == WORDS
    return (ctypes.c_uint32 * WORDS)(*words)


# Each text that tells the count or the fields: its file, and the patterns of the part, of a field with its place, and of the count.
TOLD = (
    ("crates/boot/src/geometry.rt", r"pub struct Geometry \{(.*?)\n\}", r"pub (\w+): u32"),
    ("crates/boot/src/geometry.rt", r"fn geometry_of[^{]*\{[^}]*\}\n\{\n    let \[(.*?)\] = \*w;", r"(\w+),"),
    ("crates/boot/src/geometry.rt", r"\] = \*w;\n    Geometry \{(.*?)\n    \}", r"(\w+),"),
    ("crates/boot/specs/Geometry.antt", r"\ngeometry_of ws =(.*?)\}", r"(\w+) = get_or ws (\d+) 0"),
    ("binding/src/geometry.rs", r"pub struct Geometry \{(.*?)\n\}", r"pub (\w+): u32"),
    ("binding/src/geometry.rs", r"fn words\(.*?\[\n(.*?)\]", r"self\.(\w+),"),
    ("binding/src/geometry.rs", r"fn of\((.*?)\n    \}", r"(\w+): words\[(\d+)\]"),
)
COUNTS = (
    ("crates/boot/src/geometry.rt", r"const GEOMETRY_WORDS: usize = (\d+);"),
    ("include/exfat.h", r"#define EXFAT_GEOMETRY_WORDS (\d+)\n"),
    ("binding/src/geometry.rs", r"const GEOMETRY_WORDS: usize = (\d+);"),
)
# an array of as many words by a number: a type of Rattle or Rust, one of C, one of Python
BY_NUMBER = r"\[u32; %d\]|uint32_t \w+\[%d\]|c_uint32 \* %d\b"
SOURCES = ("crates/*/src/*.rt", "*/src/*.rs", "include/*.h", "examples/*.c", "tests/c/*.[ch]", "tests/*.py", "README.md")


def faults():
    for path, part, field in TOLD:
        found = re.search(part, pathlib.Path(path).read_text(encoding="utf-8"), re.S)
        told = re.findall(field, found[1]) if found else []
        if told != list(FIELDS) and told != [(name, str(place)) for place, name in enumerate(FIELDS)]:
            yield "%s: `%s` tells other fields or another order: %s" % (path, part, told)
    for path, count in COUNTS:
        found = re.findall(count, pathlib.Path(path).read_text(encoding="utf-8"))
        if found != [str(WORDS)]:
            yield "%s: the count is %s, and there are %d fields" % (path, found, WORDS)
    by_number = re.compile(BY_NUMBER % (WORDS, WORDS, WORDS))
    for path in (path for pattern in SOURCES for path in sorted(pathlib.Path().glob(pattern))):
        for found in by_number.findall(path.read_text(encoding="utf-8")):
            yield "%s: `%s` says the count by a number" % (path, found)


if __name__ == "__main__":
    good = "the %d words of a geometry are said once in each language, in one order" % WORDS
    sys.exit(verdict.verdict("geometry", list(faults()), good))

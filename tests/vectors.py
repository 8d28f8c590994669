#!/usr/bin/env python3
"""The vectors of crates/vectors, made by other means.

Written from the scope document (01) and Microsoft's exFAT specification with Python's standard library alone, not from the Rattle code.

  vectors.py                       print the lines that the program has to print
  vectors.py --sets                write the entry sets that the program reads
  vectors.py --check STDIN STDOUT  compare the two with files; exit status 0 where they are the same
"""

import struct
import sys
from itertools import zip_longest

sys.dont_write_bytecode = True
from geometry import FIELDS  # noqa: E402, beside this file

LINES = []


def say(*words):
    LINES.append(" ".join(str(w) for w in words))


# One bit of a byte. A byte is a text of eight digits here, the highest bit first.


def with_bit(b, j, digit):
    digits = list(format(b, "08b"))
    digits[7 - j] = digit
    return int("".join(digits), 2)


def bits():
    for b in (0x00, 0xFF, 0xA5, 0x5A, 0x01, 0x80, 0x7F, 0xFE):
        for j in range(8):
            test = format(b, "08b")[7 - j]
            on, off = with_bit(b, j, "1"), with_bit(b, j, "0")
            say("bit", b, j, test, on, off, off, on)


# The ones of a bitmap's first n bits: a bitmap is a text of digits here, the lowest bit of the first byte first.


def ones(bitmap, n):
    digits = "".join(format(b, "08b")[::-1] for b in bitmap)
    assert n <= len(digits)
    return digits[:n].count("1")


LOW = (0, 1, 2, 7, 8, 9, 15, 16, 17, 23, 24)
HIGH = (25, 4095, 4096, 4097, 32760, 32761, 32767, 32768)


def counts():
    ends = bytearray(4096)
    ends[0], ends[3], ends[4094], ends[4095] = 0x81, 0xFF, 0x80, 0x81
    for name, bitmap, sizes in (
        ("ones", b"\xff\xff\xff", LOW),
        ("zeros", b"\x00\x00\x00", LOW),
        ("mixed", b"\x1f\x80\xa5", LOW),
        ("past", b"\x00\xfe\xff", LOW),
        ("full", b"\xff" * 4096, LOW + HIGH),
        ("half", b"\x55" * 4096, HIGH),
        ("ends", bytes(ends), LOW + HIGH),
    ):
        for n in sizes:
            say("count", name, n, ones(bitmap, n))


# Little-endian words.


def words():
    s = bytes.fromhex("00017f80fefffffff7ffffff12345678")
    for at in range(9):
        h, i, q = (struct.unpack_from(f, s, at)[0] for f in ("<H", "<I", "<Q"))
        say("read", at, format(h, "04x"), format(i, "08x"), format(q, "016x"))
    for width, at, v in (
        (2, 0, 0x1234),
        (2, 1, 0xFFFF),
        (2, 9, 0x00FF),
        (2, 10, 0xFF00),
        (4, 0, 0x12345678),
        (4, 3, 0xFFFFFFF7),
        (4, 8, 0xFFFFFFFF),
        (8, 0, 0x123456789ABCDEF0),
        (8, 1, 0xFFFFFFFFFFFFFFFF),
        (8, 4, 0x00000000FFFFFFF7),
    ):
        s = bytearray(b"\xee" * 12)
        s[at : at + width] = v.to_bytes(width, "little")
        say("store", width, at, format(v, "0%dx" % (2 * width)), s.hex())


# Copies and fills.


def slices():
    source = bytes(range(12))
    for at, start, n in ((0, 0, 0), (0, 0, 1), (0, 0, 12), (4, 0, 12), (3, 5, 7), (15, 11, 1), (16, 12, 0)):
        d = bytearray(b"\xee" * 16)
        d[at : at + n] = source[start : start + n]
        say("copy", at, start, n, d.hex())
    for at, n in ((0, 0), (0, 1), (0, 16), (5, 6), (15, 1), (16, 0)):
        d = bytearray(b"\xee" * 16)
        d[at : at + n] = bytes(n)
        say("fill", at, n, d.hex())


# Entry sets of files (specification 7.4, 7.6, 7.7), with the checksum of 6.3.3 and the hash of 7.6.4.


def set_checksum(data):
    total = 0
    for i, byte in enumerate(data):
        if i in (2, 3):
            continue
        total = ((0x8000 if total & 1 else 0) + (total >> 1) + byte) & 0xFFFF
    return total


def name_hash(name):
    value = 0
    for byte in name.upper().encode("utf-16-le"):
        value = ((0x8000 if value & 1 else 0) + (value >> 1) + byte) & 0xFFFF
    return value


def stamp(year, month, day, hour, minute, second):
    return (year - 1980) << 25 | month << 21 | day << 16 | hour << 11 | minute << 5 | second // 2


def file_set(name, attributes, created, modified, accessed, flags, first, valid, length):
    units = name.encode("utf-16-le")
    count = len(units) // 2
    names = (count + 14) // 15
    (c, c10, cz), (m, m10, mz), (a, az) = created, modified, accessed
    entry = struct.pack("<BBHHHIIIBBBBB7x", 0x85, 1 + names, 0, attributes, 0, c, m, a, c10, m10, cz, mz, az)
    stream = struct.pack("<BBBBHHQIIQ", 0xC0, flags, 0, count, name_hash(name), 0, valid, 0, first, length)
    data = bytearray(entry + stream)
    for i in range(names):
        data += b"\xc1\x00" + units[30 * i : 30 * i + 30].ljust(30, b"\x00")
    data[2:4] = set_checksum(data).to_bytes(2, "little")
    return bytes(data)


def file_sets():
    short = file_set(
        "MELT.RAW",
        0x20,
        (stamp(2026, 3, 14, 9, 26, 52), 135, 0x84),
        (stamp(2026, 3, 14, 9, 31, 8), 42, 0x84),
        (stamp(2026, 3, 15, 0, 0, 0), 0x84),
        0x03,
        6,
        1234567,
        1310720,
    )
    two = file_set(
        "furnace-03 run 0117.csv",
        0x21,
        (stamp(1980, 1, 1, 0, 0, 0), 0, 0x80),
        (stamp(2107, 12, 31, 23, 59, 58), 199, 0xFF),
        (stamp(2024, 2, 29, 12, 0, 0), 0x00),
        0x01,
        0x00007FFF,
        0,
        0xFFFFFFFFFF,
    )
    long_name = "".join(chr(0x61 + i % 26) if i % 5 else chr(0x4E00 + 7 * i) for i in range(251)) + ".bin"
    long = file_set(
        long_name,
        0x26,
        (stamp(2026, 11, 15, 21, 17, 0), 1, 0xF0),
        (stamp(2026, 11, 15, 21, 17, 2), 100, 0xF0),
        (stamp(2026, 11, 15, 21, 17, 4), 0xF0),
        0x01,
        0,
        0,
        0,
    )
    assert (len(short), len(two), len(long)) == (96, 128, 608)
    return (("short", short), ("two", two), ("long", long))


def checksums():
    sets = file_sets()

    def line(name, data, n):
        value = format(set_checksum(data[:n]), "04x")
        say("checksum", name, n, value, value)

    for name, data in sets:
        for i in range(len(data) // 32):
            say("entry", name, i, data[32 * i : 32 * i + 32].hex())
        line(name, data, len(data))
        say("stored", name, format(struct.unpack_from("<H", data, 2)[0], "04x"))
    long = bytearray(sets[2][1])
    for n in (0, 1, 2, 3, 4, 5, 32, 607):
        line("long", long, n)
    long[2], long[3] = 0xFF, 0x01
    line("changed-2-3", long, 608)
    long[1] = 0x11
    line("changed-1", long, 608)


def sets_file():
    """What the program reads: each set in 608 bytes, zeros after it, and the last one twice."""
    sets = [data.ljust(608, b"\x00") for _, data in file_sets()]
    return b"".join(sets + sets[-1:])


# Geometries: 01, "The volume". Numbers are unbounded here.

# the volume of the marked trials
BASE = dict(zip(FIELDS, (9, 0, 24, 1, 1, 0, 32, 16, 3, 2, 0)))
MOST = 16777216


def in_map(system_map, k):
    return "".join(format(b, "08b")[::-1] for b in system_map)[k - 2] == "1"


def kept(g, length, system_map):
    """Whether every limit is kept; otherwise the number is 1."""
    s, c, count = g["sector_shift"], g["cluster_shift"], g["cluster_count"]
    fats = g["number_of_fats"]
    if s not in range(9, 13) or s + c > 15:
        return False
    if g["fat_offset"] < 24 or fats not in (1, 2) or not g["active_fat"] < fats:
        return False
    if count not in range(1, 32769):
        return False
    if g["fat_length"] * 2**s < 4 * (count + 2):
        return False
    if g["cluster_heap_offset"] < g["fat_offset"] + fats * g["fat_length"]:
        return False
    cluster = 2 ** (s + c)
    if not g["cluster_heap_offset"] * 2**s + count * cluster <= length <= MOST:
        return False
    size = -(-count // 8)
    if len(system_map) != size:
        return False
    span = -(-size // cluster)
    runs = [range(first, first + span) for first in (g["bitmap_0"], g["bitmap_1"])[:fats]]
    for run in runs:
        if not all(k in range(2, count + 2) and in_map(system_map, k) for k in run):
            return False
    return not (fats == 2 and set(runs[0]) & set(runs[1]))


def limit_cases():
    """Name, geometry, length of the volume and system map of each case."""
    cases = []

    def case(name, length, system_map, **changes):
        cases.append((name, dict(BASE, **changes), length, system_map))

    # shifts
    def shift(name, s, c, fat_length, heap, length):
        changes = dict(sector_shift=s, cluster_shift=c, fat_length=fat_length, cluster_heap_offset=heap)
        case(name, length, b"\x03\x00", **changes)

    shift("trials", 9, 0, 1, 32, 24576)
    shift("sector-8", 8, 0, 2, 32, 24576)
    shift("sector-9", 9, 0, 2, 32, 24576)
    shift("sector-12", 12, 0, 1, 32, 196608)
    shift("sector-13", 13, 0, 1, 32, 393216)
    shift("sector-0", 0, 0, 72, 96, 24576)
    shift("sector-16", 16, 0, 1, 32, MOST)
    shift("sector-41", 41, 0, 1, 32, 24576)
    shift("sector-high", 0xFFFFFFFF, 0, 1, 32, 24576)
    shift("cluster-9-6", 9, 6, 1, 32, 540672)
    shift("cluster-9-7", 9, 7, 1, 32, 1064960)
    shift("cluster-12-3", 12, 3, 1, 32, 655360)
    shift("cluster-12-4", 12, 4, 1, 32, 1179648)
    shift("cluster-11-4", 11, 4, 1, 32, 589824)
    shift("cluster-11-5", 11, 5, 1, 32, 1114112)
    shift("cluster-32", 9, 32, 1, 32, 24576)
    shift("cluster-wraps", 9, 0xFFFFFFF7, 1, 32, 24576)
    shift("cluster-high", 9, 0xFFFFFFFF, 1, 32, 24576)
    shift("both-high", 0xFFFFFFFF, 0xFFFFFFFF, 1, 32, 24576)

    # FATs and the start of the heap; the second bitmap is in cluster 3
    def fat(name, offset, length, fats, active, heap):
        changes = dict(fat_offset=offset, fat_length=length, number_of_fats=fats, active_fat=active, cluster_heap_offset=heap)
        case(name, 26624, b"\x03\x00", bitmap_1=3, **changes)

    fat("offset-24", 24, 1, 1, 0, 32)
    fat("offset-23", 23, 1, 1, 0, 32)
    fat("offset-0", 0, 1, 1, 0, 32)
    fat("offset-wraps", 0xFFFFFFFF, 1, 1, 0, 32)
    fat("fats-0", 24, 1, 0, 0, 32)
    fat("fats-1", 24, 1, 1, 0, 32)
    fat("fats-2", 24, 1, 2, 0, 32)
    fat("fats-3", 24, 1, 3, 0, 32)
    fat("fats-high", 24, 1, 0xFFFFFFFF, 0, 32)
    fat("active-1-of-1", 24, 1, 1, 1, 32)
    fat("active-1-of-2", 24, 1, 2, 1, 32)
    fat("active-2-of-2", 24, 1, 2, 2, 32)
    fat("active-high", 24, 1, 1, 0xFFFFFFFF, 32)
    fat("heap-24", 24, 1, 1, 0, 24)
    fat("heap-25", 24, 1, 1, 0, 25)
    fat("heap-25-of-2", 24, 1, 2, 0, 25)
    fat("heap-26-of-2", 24, 1, 2, 0, 26)
    fat("heap-moved", 30, 6, 1, 0, 36)
    fat("heap-moved-short", 30, 7, 1, 0, 36)
    fat("heap-moved-2", 26, 5, 2, 0, 36)
    fat("heap-moved-2-short", 27, 5, 2, 0, 36)
    fat("heap-wraps", 24, 1, 1, 0, 0x00800020)
    fat("heap-high", 24, 1, 1, 0, 0xFFFFFFFF)
    fat("fat-length-0", 24, 0, 1, 0, 32)
    fat("fat-length-wraps", 24, 0x80000000, 2, 0, 32)
    fat("fat-length-bytes-wrap", 24, 0x00800000, 1, 0, 32)
    fat("fat-length-high", 24, 0xFFFFFFFF, 1, 0, 32)
    fat("sum-high", 0xFFFFFFF0, 15, 1, 0, 0xFFFFFFFF)

    # the cluster count against FatLength and the volume, with 512-byte clusters; the map has its first eight bits set
    def count(name, clusters, fat_length, heap, length):
        system_map = bytes([0xFF] + [0] * 4096)[: -(-min(clusters, 32776) // 8)]
        changes = dict(cluster_count=clusters, fat_length=fat_length, cluster_heap_offset=heap)
        case(name, length, system_map, **changes)

    count("count-0", 0, 1, 32, 24576)
    count("count-1", 1, 1, 32, 16896)
    count("count-126", 126, 1, 32, 80896)
    count("count-127-fat-1", 127, 1, 32, 81408)
    count("count-127-fat-2", 127, 2, 32, 81408)
    count("count-254-fat-2", 254, 2, 32, 146432)
    count("count-255-fat-2", 255, 2, 32, 146944)
    count("count-most", 32490, 254, 278, MOST)
    count("count-most-short", 32490, 254, 278, MOST - 1)
    count("count-most-fat", 32490, 253, 278, MOST)
    count("count-most-heap", 32490, 254, 277, MOST)
    count("count-and-one", 32491, 254, 278, MOST)
    count("count-32768", 32768, 257, 281, MOST)
    count("count-32768-held", 32768, 257, 281, 16921088)
    count("count-32769", 32769, 257, 281, 16921600)
    count("count-high", 0xFFFFFFFF, 257, 281, MOST)
    count("length-exact", 16, 1, 32, 24576)
    count("length-short", 16, 1, 32, 24575)
    count("length-0", 16, 1, 32, 0)
    count("length-more", 16, 1, 32, 24577)
    count("length-most", 16, 1, 32, MOST)
    count("length-past-most", 16, 1, 32, MOST + 1)
    count("length-32-bits", 16, 1, 32, 2**32 + 24576)
    count("length-high", 16, 1, 32, 2**64 - 1)

    # the system map's length and the bitmaps of one cluster
    def bitmap(name, clusters, fats, first, second, system_map):
        changes = dict(cluster_count=clusters, number_of_fats=fats, bitmap_0=first, bitmap_1=second)
        case(name, 25088, system_map, **changes)

    bitmap("map-0", 16, 1, 2, 0, b"")
    bitmap("map-1", 16, 1, 2, 0, b"\x03")
    bitmap("map-2", 16, 1, 2, 0, b"\x03\x00")
    bitmap("map-3", 16, 1, 2, 0, b"\x03\x00\x00")
    bitmap("map-1-of-8", 8, 1, 2, 0, b"\x01")
    bitmap("map-2-of-8", 8, 1, 2, 0, b"\x01\x00")
    bitmap("map-1-of-9", 9, 1, 2, 0, b"\x01")
    bitmap("map-2-of-9", 9, 1, 2, 0, b"\x01\x00")
    bitmap("map-3-of-9", 9, 1, 2, 0, b"\x01\x00\x00")
    bitmap("map-2-of-15", 15, 1, 2, 0, b"\x01\x00")
    bitmap("map-2-of-17", 17, 1, 2, 0, b"\x01\x00")
    bitmap("map-3-of-17", 17, 1, 2, 0, b"\x01\x00\x00")
    bitmap("map-bits-past", 9, 1, 2, 0, b"\x01\xfe")
    bitmap("at-0", 16, 1, 0, 0, b"\xff\xff")
    bitmap("at-1", 16, 1, 1, 0, b"\xff\xff")
    bitmap("at-2", 16, 1, 2, 0, b"\xff\xff")
    bitmap("not-in-map", 16, 1, 2, 0, b"\xfe\xff")
    bitmap("at-17", 16, 1, 17, 0, b"\x00\x80")
    bitmap("at-17-not-in-map", 16, 1, 17, 0, b"\xff\x7f")
    bitmap("at-18", 16, 1, 18, 0, b"\xff\xff")
    bitmap("at-10-of-9", 9, 1, 10, 0, b"\xff\xff")
    bitmap("at-11-of-9", 9, 1, 11, 0, b"\xff\xff")
    bitmap("at-high", 16, 1, 0xFFFFFFFF, 0, b"\xff\xff")
    bitmap("both-2-3", 16, 2, 2, 3, b"\x03\x00")
    bitmap("both-3-2", 16, 2, 3, 2, b"\x03\x00")
    bitmap("both-2-2", 16, 2, 2, 2, b"\x03\x00")
    bitmap("both-2-4", 16, 2, 2, 4, b"\x03\x00")
    bitmap("both-2-17", 16, 2, 2, 17, b"\x01\x80")
    bitmap("both-2-18", 16, 2, 2, 18, b"\xff\xff")
    bitmap("both-2-1", 16, 2, 2, 1, b"\xff\xff")
    bitmap("both-2-0", 16, 2, 2, 0, b"\xff\xff")
    bitmap("both-2-high", 16, 2, 2, 0xFFFFFFFF, b"\xff\xff")
    bitmap("first-not-in-map", 16, 2, 2, 3, b"\x02\x00")
    bitmap("second-not-in-map", 16, 2, 2, 3, b"\x01\x00")
    bitmap("unused-high", 16, 1, 2, 0xFFFFFFFF, b"\x03\x00")
    bitmap("unused-same", 16, 1, 2, 2, b"\x03\x00")
    bitmap("unused-not-in-map", 16, 1, 2, 9, b"\x03\x00")

    # bitmaps of two clusters: 4,097 clusters of 512 bytes. Of the map two bits are set, or all
    def wide(name, fats, first, second, *clusters):
        system_map = bytearray(513 if clusters else b"\xff" * 513)
        for k in clusters:
            system_map[(k - 2) // 8] += 2 ** ((k - 2) % 8)
        changes = dict(cluster_count=4097, fat_length=33, cluster_heap_offset=90)
        case(name, 2143744, bytes(system_map), number_of_fats=fats, bitmap_0=first, bitmap_1=second, **changes)

    wide("wide", 1, 2, 0, 2, 3)
    wide("wide-first-missing", 1, 2, 0, 3, 4)
    wide("wide-second-missing", 1, 2, 0, 2, 4)
    wide("wide-at-end", 1, 4097, 0, 4097, 4098)
    wide("wide-at-end-missing", 1, 4097, 0, 4096, 4097)
    wide("wide-past-end", 1, 4098, 0)
    wide("wide-2-4", 2, 2, 4)
    wide("wide-4-2", 2, 4, 2)
    wide("wide-2-3", 2, 2, 3)
    wide("wide-3-2", 2, 3, 2)
    wide("wide-2-4097", 2, 2, 4097)
    wide("wide-2-4098", 2, 2, 4098)

    # the root cluster is no part of the limits
    case("root-0", 24576, b"\x03\x00", root_cluster=0)
    case("root-high", 24576, b"\x03\x00", root_cluster=0xFFFFFFFF)
    return cases


def limits():
    for name, g, length, system_map in limit_cases():
        numbers = [g[f] for f in FIELDS]
        say("limits", name, *numbers, length, len(system_map), int(kept(g, length, system_map)))


# The free count: number, and C less the ones in the active FAT's bitmap, its first C bits.


def free():
    def case(name, first, second, length=24576, system_map=b"\x03\x00", **changes):
        g = dict(BASE, bitmap_1=3, **changes)
        volume = bytearray(24576)
        volume[16384:16386] = first
        volume[16896:16898] = second
        volume = volume[:length]
        count, number = 0, 1
        if kept(g, length, system_map):
            bitmap = (g["bitmap_0"], g["bitmap_1"])[g["active_fat"]]
            start = g["cluster_heap_offset"] * 512 + (bitmap - 2) * 512
            c = g["cluster_count"]
            count, number = c - ones(volume[start : start + -(-c // 8)], c), 0
        say("free", name, *(g[f] for f in FIELDS), length, number, count)

    none, trial, full = b"\x00\x00", b"\x1f\x00", b"\xff\xff"
    case("empty", none, full)
    case("trial", trial, full)
    case("full", full, none)
    case("mixed", b"\xa5\x81", none)
    case("past-13", b"\x03\xe0", none, cluster_count=13)
    case("full-13", full, none, cluster_count=13)
    case("last-13", b"\x00\xf0", none, cluster_count=13)
    case("past-1", b"\xfe\xff", none, 24576, b"\x01", cluster_count=1)
    case("one-1", b"\x01\x00", none, 24576, b"\x01", cluster_count=1)
    case("eight", b"\x0f\xff", none, 24576, b"\x03", cluster_count=8)
    case("first-active", trial, full, number_of_fats=2)
    case("second-active", trial, full, number_of_fats=2, active_fat=1)
    case("second-active-other", full, b"\x03\x80", number_of_fats=2, active_fat=1)
    case("short-volume", trial, full, 24575)
    case("short-map", trial, full, 24576, b"\x03")
    case("bitmap-not-in-map", trial, full, 24576, b"\x02\x00")
    case("active-past", trial, full, active_fat=1)


def make():
    for part in (bits, counts, words, slices, checksums, limits, free):
        part()
    return "".join(line + "\n" for line in LINES)


def check(stdin, stdout):
    """Compares both files; says which differ."""
    lines = make()
    with open(stdin, "rb") as f:
        sets = f.read()
    with open(stdout, encoding="ascii") as f:
        have = f.read()
    if sets != sets_file():
        print("vectors: %s does not hold the entry sets that tests/vectors.py makes" % stdin)
        return 1
    if have != lines:
        for i, (a, b) in enumerate(zip_longest(lines.splitlines(), have.splitlines())):
            if a != b:
                print("vectors: line %d differs\n  made: %s\n  file: %s" % (i + 1, a, b))
                break
        print("vectors: %s is not what tests/vectors.py makes" % stdout)
        return 1
    print("vectors: the %d lines of %s are those that tests/vectors.py makes" % (len(LINES), stdout))
    return 0


def main():
    words = sys.argv[1:]
    if words == []:
        sys.stdout.write(make())
    elif words == ["--sets"]:
        sys.stdout.buffer.write(sets_file())
    elif words[0] == "--check" and len(words) == 3:
        sys.exit(check(words[1], words[2]))
    else:
        sys.exit(__doc__)


if __name__ == "__main__":
    main()

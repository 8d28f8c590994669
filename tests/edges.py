#!/usr/bin/env python3
"""Border cases of the calls on files, each against what a sentence of 01 or 02 says of it.

edges.py LIBRARY: a shared library made of dist/libexfat.a. Nothing here is computed by the writer's rules but the checksum of a set.
"""

import ctypes
import struct
import sys

import geometry
from trials import chain, checksum

SECTOR, FAT_AT, HEAP_AT, END = 512, 24 * 512, 32 * 512, 0xFFFFFFFF
LAST = 2**64 - 1
library = ctypes.CDLL(sys.argv[1])
seen, faults = 0, []


def entry_set(flags, first, length, valid, attributes=0x20, name=0x61):
    """The set of file "a", or of one with another name of one unit."""
    s = bytearray(96)
    s[0], s[1], s[4], s[32], s[33], s[35], s[64], s[66] = 0x85, 2, attributes, 0xC0, flags, 1, 0xC1, name
    s[40:48], s[52:56], s[56:64] = struct.pack("<Q", valid), struct.pack("<I", first), struct.pack("<Q", length)
    s[2:4] = struct.pack("<H", checksum(s))
    return s


class Volume:
    """The volume of the trials: C 16, bitmap in 2, root in 3 unless told otherwise. With more clusters the FAT is longer. With two
    FATs the second, whose bitmap is in `second`, is active, and marks and links go there."""

    def __init__(self, root=3, marks=(2, 3), fat=((3, END),), system=(2, 3), at_root=b"", count=16, second=None):
        fats, fat_length = 2 if second else 1, 1 if count == 16 else 8
        self.geometry = geometry.array(9, 0, 24, fat_length, fats, fats - 1, 32, count, root, 2, second or 0)
        self.bytes, self.map = bytearray(SECTOR * (32 + count)), bytearray((count + 7) // 8)
        self.fat_at, self.marks_at = FAT_AT + (fats - 1) * fat_length * SECTOR, self.at(second or 2)
        for k in system:
            self.reserve(k)
        for k in marks:
            self.mark(k)
        for k, v in fat:
            self.link(k, v)
        self.put(3, at_root)

    def at(self, k):
        return HEAP_AT + (k - 2) * SECTOR

    def put(self, k, bytes_, at=0):
        self.bytes[self.at(k) + at : self.at(k) + at + len(bytes_)] = bytes_

    def reserve(self, k):
        self.map[(k - 2) // 8] |= 1 << (k - 2) % 8

    def mark(self, k):
        self.bytes[self.marks_at + (k - 2) // 8] |= 1 << (k - 2) % 8

    def unmark(self, k):
        self.bytes[self.marks_at + (k - 2) // 8] &= ~(1 << (k - 2) % 8)

    def marked(self, k):
        return self.bytes[self.marks_at + (k - 2) // 8] >> (k - 2) % 8 & 1

    def link(self, k, v):
        self.bytes[self.fat_at + 4 * k : self.fat_at + 4 * k + 4] = struct.pack("<I", v)

    def fat(self, *ks):
        return [struct.unpack_from("<I", self.bytes, self.fat_at + 4 * k)[0] for k in ks]

    def call(self, name, *arguments):
        """The number and out[0..1]; a refused call must leave every byte."""
        before = bytes(self.bytes)
        vol = (ctypes.c_uint8 * len(before)).from_buffer(self.bytes)
        map_ = (ctypes.c_uint8 * len(self.map)).from_buffer(self.map)
        out = (ctypes.c_uint32 * 8)(*[0xDEAD] * 8)
        number = getattr(library, name)(
            vol, ctypes.c_size_t(len(before)), map_, ctypes.c_size_t(len(self.map)), self.geometry, *arguments, out
        )
        del vol, map_
        if number and bytes(self.bytes) != before:
            faults.append(f"{name}: {number}, and bytes changed")
        return number, out[0], out[1]

    def new(self, name, attributes=0, hint=4):
        units = (ctypes.c_uint16 * max(1, len(name)))(*name)
        return self.call(
            "exfat_new_file", units, ctypes.c_size_t(len(name)), ctypes.c_uint16(attributes), ctypes.c_uint16(0),
            (ctypes.c_uint8 * 18)(), ctypes.c_uint32(hint),
        )  # fmt: skip

    def write(self, slot, offset, data, hint=4):
        src = (ctypes.c_uint8 * max(1, len(data)))(*data)
        return self.call(
            "exfat_write", ctypes.c_uint32(slot), ctypes.c_uint64(offset), src, ctypes.c_size_t(len(data)),
            (ctypes.c_uint8 * 6)(), ctypes.c_uint32(hint),
        )  # fmt: skip

    def set_length(self, slot, length, hint=4):
        return self.call(
            "exfat_set_length", ctypes.c_uint32(slot), ctypes.c_uint64(length), (ctypes.c_uint8 * 6)(), ctypes.c_uint32(hint)
        )

    def remove(self, slot, hint=4):
        return self.call("exfat_remove", ctypes.c_uint32(slot), ctypes.c_uint32(hint))

    def read(self, slot=0, offset=0, zeros=bytes(4)):
        """The number, whether the part is of the zeros, its start there and its length. Nothing may change, and a refused read's
        part is empty."""
        before, lent = (bytes(self.bytes), bytes(self.map)), (ctypes.c_uint8 * len(zeros))(*zeros)
        vol = (ctypes.c_uint8 * len(self.bytes)).from_buffer(self.bytes)
        map_ = (ctypes.c_uint8 * len(self.map)).from_buffer(self.map)
        out = (ctypes.c_uint32 * 8)(*[0xDEAD] * 8)
        place = [vol, ctypes.c_size_t(len(self.bytes)), map_, ctypes.c_size_t(len(self.map)), self.geometry]
        place += [lent, ctypes.c_size_t(len(zeros)), ctypes.c_uint32(slot)]
        number = library.exfat_read_number(*place)
        library.exfat_read(*place, ctypes.c_uint64(offset), out)
        del vol, map_, place
        if (bytes(self.bytes), bytes(self.map), bytes(lent)) != (*before, zeros):
            faults.append(f"read of slot {slot} at {offset}: something was changed")
        if any(out[3:]) or number and any(out):
            faults.append(f"read of slot {slot} at {offset}: number {number}, out {list(out)}")
        return number, *out[:3]


def same(what, got, said):
    global seen
    seen += 1
    if got != said:
        faults.append(f"{what}: {got}, and the documents say {said}")


def the_root():
    """1, the hint's 2, then the root's 2, 3, 4, 6, 9."""
    short = Volume()
    short.map = bytearray(3)
    same("a map of 3 bytes", short.new([97])[0], 1)
    same("hint 0 and a root outside", Volume(root=0).new([97], hint=0), (2, 0, 0))
    same("root 0", Volume(root=0).new([97])[0], 2)
    same("root 2^32 - 1", Volume(root=END).new([97])[0], 2)
    same("the root's FAT entry 0", Volume(fat=((3, 0),)).new([97])[0], 3)
    same("a root that is a loop", Volume(fat=((3, 3),)).new([97])[0], 4)
    same("a root that is not marked", Volume(marks=(2,)).new([97])[0], 6)
    same("a bitmap cluster in the root", Volume(fat=((3, 2), (2, END))).new([97])[0], 9)
    same("6 before 9", Volume(marks=(3,), fat=((3, 2), (2, END))).new([97])[0], 6)


def new_files():
    v = Volume()
    same("no name", v.new([])[0], 12)
    same("256 units", v.new([97] * 256)[0], 12)
    same('".."', v.new([46, 46])[0], 12)
    same("12 before 13", v.new([31], 0x10)[0], 12)
    same("attribute 0x40", v.new([97], 0x40)[0], 13)
    same("attribute 0x100", v.new([97], 0x100)[0], 13)
    same('"...", attributes 0x27', v.new([46] * 3, 0x27), (0, 0, 4))
    same("five more of 3 entries", [v.new([97 + i])[1] for i in range(4)], [3, 6, 9, 12])
    same("4 entries from the last one on: the root grows", v.new([110] * 16) + tuple(v.fat(3, 4)), (0, 15, 5, 4, END))
    v = Volume()
    same("255 units in an empty root of 16 entries", v.new([97] * 255) + tuple(v.fat(3, 4)), (0, 0, 5, 4, END))


def writes():
    v = Volume()
    same("a slot far away", v.write(END, 0, [1])[0], 10)
    same("the slot behind the root", v.write(16, 0, [1])[0], 10)
    v.new([97])
    same("no data at 2^64 - 1", v.write(0, LAST, [])[0], 0)
    same("1 byte at 2^64 - 1", v.write(0, LAST, [1])[0], 8)
    same("1 byte at 2^64 - 2", v.write(0, LAST - 1, [1])[0], 7)
    v.put(4, b"\xff" * SECTOR)
    same("1 byte at 3,584", v.write(0, 3584, [9])[:2] + (v.marked(11), v.marked(12)), (0, 12, 1, 0))
    same("the gap is zeroed", bytes(v.bytes[v.at(4) : v.at(5)]), bytes(SECTOR))
    same("all 14 clusters", v.set_length(0, 14 * SECTOR)[0], 0)
    same("and one byte more", v.set_length(0, 14 * SECTOR + 1)[0], 7)
    same("files while the root has room", [v.new([98 + i])[0] for i in range(4)], [0, 0, 0, 0])
    same("and one that it has no room for", v.new([110])[0], 7)


def streams():
    """10, 11, then the stream's."""
    v = Volume(at_root=entry_set(1, 4, 512, 512, attributes=0x10))
    same("a directory whose chain is bad", v.remove(0)[0], 11)
    v = Volume(at_root=entry_set(1, 4, 512, 512))
    same("FAT entry 0", v.remove(0)[0], 3)
    v.link(4, END)
    same("not marked", v.remove(0)[0], 6)
    v.mark(4)
    same("now it is a file", v.remove(0)[0], 0)
    v = Volume(marks=(2, 3, 4, 5), fat=((3, END), (4, 5), (5, END)), at_root=entry_set(1, 4, 512, 512))
    same("another count", v.set_length(0, 1)[0], 5)
    v = Volume(marks=(2, 3, 4), system=(2, 3, 4), at_root=entry_set(3, 4, 512, 512))
    same("a system cluster, for no data too", v.write(0, 0, [])[0], 9)
    v = Volume(at_root=entry_set(1, 4, 0, 0))
    same("length 0 with a first cluster", v.remove(0)[0], 10)


def lengths():
    """A rising chain, with odd flag bits."""
    v = Volume(marks=(2, 3, 4, 5), fat=((3, END), (4, 5), (5, END)), at_root=entry_set(0xF1, 4, 600, 600))
    same("equal: it stays a chain, the flags byte is whole", v.set_length(0, 600)[:1] + (v.bytes[v.at(3) + 33],), (0, 1))
    same("shorter, nothing freed: a run", v.set_length(0, 599)[:1] + (v.bytes[v.at(3) + 33],), (0, 3))
    same("and the FAT is untouched", v.fat(4, 5), [5, END])
    same("to 0", v.set_length(0, 0)[:1] + (v.bytes[v.at(3) + 33], v.marked(4), v.marked(5)), (0, 1, 0, 0))
    same("and its FAT entries are 0", v.fat(4, 5), [0, 0])


def over_the_root():
    """A file's run 4..6 over the root's first cluster 5, the root being 5, 9 and not in the map; 7 is taken, so the run is linked."""
    v = Volume(root=5, marks=(2, 4, 5, 6, 7, 9), fat=((5, 9), (9, END)), system=(2,))
    for entry in range(16):
        v.put(5, b"\x05", 32 * entry)
    v.put(9, entry_set(3, 4, 1536, 1536))
    same("write behind the run's end", v.write(16, 1536, [7] * 10)[0], 0)
    same("the run is linked", v.fat(4, 5, 6, 8), [5, 6, 8, END])
    stored = v.bytes[v.at(9) : v.at(9) + 96]
    same("the set is where the root was read", struct.unpack_from("<Q", stored, 56)[0], 1546)
    same("with its checksum", struct.unpack_from("<H", stored, 2)[0], checksum(stored))


def long_writes():
    """Writes around 32,768 bytes, where a copy takes another form, into a run and into a chain that goes down the heap."""
    for run in (True, False):
        own = list(range(10, 160)) if run else list(range(310, 10, -2))
        links = [] if run else list(zip(own, own[1:] + [END]))
        for offset, n in ((0, 32768), (0, 32769), (1, 32768), (511, 32770), (700, 70000), (76800 - 32769, 32769)):
            v = Volume(marks=(2, 3, *own), fat=((3, END), *links), at_root=entry_set(3 if run else 1, own[0], 76800, 76800), count=400)
            for k in range(4, 402):
                v.put(k, bytes([k % 251]) * SECTOR)
            data = [(7 * i + n) % 256 for i in range(n)]
            left = bytearray(v.bytes)
            for i, byte in enumerate(data):
                left[v.at(own[(offset + i) // SECTOR]) + (offset + i) % SECTOR] = byte
            what = f"{n} bytes at {offset} of a {'run' if run else 'chain'}"
            same(what, v.write(0, offset, data)[:2], (0, 4))
            left[v.at(3) : v.at(3) + 96] = v.bytes[v.at(3) : v.at(3) + 96]
            same(f"{what}, and no other byte but the set's", v.bytes == left, True)


# ---- where a write's zeros and data begin (02, 2027-02)


# Streams of file "a": its clusters, whether they are a run, those of file "b", and those that "a" grows by with hint 4, in this order,
# one to three of them. In what is scattered no two clusters follow each other. An empty file becomes a run if it takes one.
STREAMS = [
    ("a scattered chain", [9, 5, 13, 4, 11], False, [7, 12, 15, 17], [14, 16, 6]),
    ("a chain that rises", [4, 5, 6, 7, 8], False, [13, 12], [9, 10, 11]),
    ("a run", [4, 5, 6, 7, 8], True, [13, 12], [9, 10, 11]),
    ("a run, the next cluster taken", [4, 5, 6, 7, 8], True, [9, 17, 11, 15, 13], [10, 12, 14]),
    ("a chain of one cluster", [11], False, [9, 5, 13, 4, 7, 12, 15, 17], [14, 16, 6]),
    ("an empty file", [], True, [13, 12], [4, 5, 6]),
    ("an empty file, no two free clusters together", [], True, [5, 17, 7, 9, 15, 13, 11], [4, 6, 8]),
]
# What the clusters hold: bytes 1 to 127, no two clusters the same one at the same place. Data have 128 to 255.
FILLED = [bytes(1 + (11 * k + i) % 127 for i in range(SECTOR)) for k in range(18)]
DATA = bytes(128 + 7 * i % 128 for i in range(1200))


def placed(own, run, others, length, valid, *stored):
    """A volume with the files "a" and "b", and with bytes stored at offsets of "a". A FAT entry of no chain leads to "b"."""
    run = run and all(b == a + 1 for a, b in zip(own, own[1:]))  # "A run keeps its flag if the next clusters are usable."
    links = {3: END, **dict.fromkeys(range(4, 18), others[0]), **chain(*others), **({} if run else chain(*own))}
    sets = entry_set(3 if run and own else 1, own[0] if own else 0, length, valid)
    sets += entry_set(1, others[0], SECTOR * len(others), 700, name=0x62)
    v, tape = Volume(marks=(2, 3, *own, *others), fat=links.items(), at_root=sets), bytearray().join(FILLED[k] for k in own)
    for offset, bytes_ in stored:
        tape[offset : offset + len(bytes_)] = bytes_
    v.put(4, b"".join(FILLED[4:]))
    for i, k in enumerate(own):
        v.put(k, tape[SECTOR * i : SECTOR * (i + 1)])
    return v


def around(borders, least, most):
    """The borders and one byte to either side of each, within these."""
    return sorted({b + d for b in borders for d in (-1, 0, 1) if least <= b + d <= most})


def grown(own, free, length):
    """The clusters for a length, and the hint: "last + 1", or as given."""
    new = free[: max(0, -(-length // SECTOR) - len(own))]
    return own + new, new[-1] + 1 if new else 4


def write_places():
    """Every byte of the volume after writes and longer lengths, the valid length and the offset at borders of clusters and beside
    them: in one cluster, in two, past the length, and past the clusters that were there."""
    for name, own, run, others, free in STREAMS:
        borders, most = range(0, SECTOR * (len(own) + 4), SECTOR), SECTOR * (len(own) + 3)
        for length in (SECTOR * len(own) - 511, SECTOR * len(own)) if own else (0,):
            for valid in around([*borders, length], 0, length):
                wrong, what = [], f"{name}, length {length:,}, valid {valid:,}"
                for offset in around(borders, 0, most):
                    for data in (DATA[:n] for n in (1, 2, 1200) if offset + n <= most):
                        v, end = placed(own, run, others, length, valid), offset + len(data)
                        clusters, hint = grown(own, free, max(length, end))
                        # "if offset passes valid, zero valid up to offset; store; length and valid become the larger of
                        # themselves and the end."
                        stored = (valid, bytes(max(0, offset - valid))), (offset, data)
                        left = placed(clusters, run, others, max(length, end), max(valid, end), *stored)
                        if (v.write(0, offset, data), v.bytes) != ((0, hint, 0), left.bytes):
                            wrong.append((offset, len(data)))
                same(f"{what}, writes (offset, bytes) that leave other bytes", wrong, [])
                wrong = []
                for longer in around(borders, length + 1, most):
                    v, (clusters, hint) = placed(own, run, others, length, valid), grown(own, free, longer)
                    # "zeroes from valid to the smaller of valid rounded up to whole clusters and the new length, valid unchanged."
                    until = min(-(-valid // SECTOR) * SECTOR, longer)
                    left = placed(clusters, run, others, longer, valid, (valid, bytes(until - valid)))
                    if (v.set_length(0, longer), v.bytes) != ((0, hint, 0), left.bytes):
                        wrong.append(longer)
                same(f"{what}, longer lengths that leave other bytes", wrong, [])


# ---- reading back (02, 2027-01)


UNUSED = b"\x05".ljust(32, b"\0")  # an entry that is not in use


def file_of(clusters, length, valid, run=False, slot=0, **other):
    """A volume with one file, its clusters full of bytes that are not 0 and differ from cluster to cluster."""
    links = () if run else tuple(zip(clusters, clusters[1:] + [END]))
    set_ = entry_set(3 if run else 1, clusters[0] if clusters else 0, length, valid)
    v = Volume(at_root=UNUSED * slot + set_, **{"marks": (2, 3, *clusters), "fat": ((3, END), *links), **other})
    for k in clusters:
        v.put(k, bytes(1 + (11 * k + i) % 255 for i in range(SECTOR)))
    return v


def tape_of(v, clusters, length, valid):
    """ "A file's tape is its stored bytes below valid and 0 from valid to length." """
    return b"".join(bytes(v.bytes[v.at(k) : v.at(k + 1)]) for k in clusters)[:valid] + bytes(length - valid)


def fetched(v, slot, zeros, most):
    """ "Parts fetched one after another from offset 0": until one is empty, or there are more bytes than the file has. """
    got = b""
    while len(got) <= most:
        number, of_zeros, start, length = v.read(slot, len(got), zeros)
        if number or not length:
            break
        got += (zeros if of_zeros else bytes(v.bytes))[start : start + length]
    return got


# What refuses a read, in order: the number, what it is, the place that it changes, and how. Two at one place cannot be tried
# together. The root is 3, 6, the file 4, 5, 7.
CAUSES = [
    (1, "a map that is too long", "map", lambda v, how: v.map.append(0)),
    (15, "a byte of 1 in the zeros", "zeros", lambda v, how: how.update(zeros=bytes(3) + b"\1")),
    (2, "a root outside", "root", lambda v, how: v.geometry.__setitem__(geometry.FIELDS.index("root_cluster"), 18)),
    (3, "the root's last FAT entry 0", "6", lambda v, how: v.link(6, 0)),
    (4, "a root that is a loop", "6", lambda v, how: v.link(6, 3)),
    (6, "a root that is not marked", "mark of 6", lambda v, how: v.unmark(6)),
    (9, "a bitmap cluster in the root", "3", lambda v, how: (v.link(3, 2), v.link(2, 6))),
    (10, "a wrong checksum", "checksum", lambda v, how: v.put(3, bytes([v.bytes[v.at(3) + 2] ^ 1]), 2)),
    (11, "a directory", "attributes", lambda v, how: v.put(3, entry_set(1, 4, 1300, 1300, attributes=0x10))),
    (3, "the file's last FAT entry 0xFFFFFFF8", "7", lambda v, how: v.link(7, 0xFFFFFFF8)),
    (4, "a file that is a loop", "7", lambda v, how: v.link(7, 4)),
    (5, "another count", "4", lambda v, how: v.link(4, 7)),
    (6, "a cluster that is not marked", "mark of 7", lambda v, how: v.unmark(7)),
    (9, "a system cluster", "system 7", lambda v, how: v.reserve(7)),
]


def read_numbers():
    """Each cause alone, and each two of them: the earlier one's number."""

    def number(*causes):
        links = ((3, 6), (6, END), (4, 5), (5, 7), (7, END))
        v, how = file_of([4, 5, 7], 1300, 1300, marks=(2, 3, 4, 5, 6, 7), fat=links), {}
        for *_, spoil in reversed(causes):  # the checksum behind what it covers
            spoil(v, how)
        return v.read(**how)[0]

    same("nothing refuses it", number(), 0)
    for i, one in enumerate(CAUSES):
        same(one[1], number(one), one[0])
        for other in CAUSES[i + 1 :]:
            if other[2] != one[2]:
                same(f"{one[1]}, and {other[1]}", number(one, other), one[0])


def read_refusals():
    """15 by each place of the byte, and slots far away."""
    v = file_of([4, 5], 700, 700, run=True)
    for offset in (0, 699, 700, LAST):
        same(f"no zeros, at {offset}", v.read(0, offset, b""), (15, 0, 0, 0))
        same(f"one zero, at {offset}", v.read(0, offset, b"\0")[0], 0)
    for n in (1, 2, 3, 15, 16, 17, 33, 512, 4096, 4099):
        for at in sorted({0, n // 2, n - 1}):
            same(f"{n} zeros, and one of them not at {at}", v.read(0, 0, bytes(at) + b"\x80" + bytes(n - at - 1))[0], 15)
        same(f"{n} zeros", v.read(0, 0, bytes(n)), (0, 0, v.at(4), 700))
    for slot in (1, 2, 3, 13, 14, 15, 16, 2**27, 2**27 + 1, 2**31, END):
        same(f"slot {slot}", v.read(slot)[0], 10)
    v.put(3, b"\0", 32)
    same("its second entry of type 0", v.read(0)[0], 10)
    same("a file of length 0", [file_of([], 0, 0).read(0, o) for o in (0, 1, 512, LAST)], [(0, 0, 0, 0)] * 4)
    same("and no zeros", file_of([], 0, 0).read(0, 0, b"")[0], 15)
    behind = file_of([4], 512, 512, run=True, slot=3)
    same("a file at slot 3", behind.read(3), (0, 0, behind.at(4), 512))
    behind.put(3, b"\0", 32)
    same("behind a type 0", behind.read(3)[0], 10)


def read_parts():
    """What lies together: a chain that rises counts like a run, and a cluster's end does not cut."""
    v = file_of([4, 5, 9], 1400, 1400)
    a, b = v.at(4), v.at(9)
    said = {0: (a, 1024), 100: (a + 100, 924), 511: (a + 511, 513), 512: (a + 512, 512), 513: (a + 513, 511), 1023: (a + 1023, 1)}
    said |= {1024: (b, 376), 1025: (b + 1, 375), 1399: (b + 375, 1), 1400: (0, 0), 1401: (0, 0), 1536: (0, 0)}
    said |= {2**32: (0, 0), 2**32 + 100: (0, 0), 2**63: (0, 0), LAST - 1: (0, 0), LAST: (0, 0)}
    for offset, (start, length) in said.items():
        same(f"the chain 4, 5, 9 at {offset}", v.read(0, offset), (0, 0, start, length))
    for run in (True, False):
        v = file_of([4, 5, 6], 1300, 700, run=run)
        what, a = "the run 4..6" if run else "the rising chain 4, 5, 6", v.at(4)
        said = {0: (0, a, 700), 1: (0, a + 1, 699), 512: (0, a + 512, 188), 699: (0, a + 699, 1)}
        said |= {700: (1, 0, 600), 701: (1, 0, 599), 1023: (1, 0, 277), 1024: (1, 0, 276), 1299: (1, 0, 1)}
        said |= {1300: (0, 0, 0), 1301: (0, 0, 0), LAST: (0, 0, 0)}
        for offset, part in said.items():
            same(f"{what} with valid 700 at {offset}", v.read(0, offset, bytes(4096)), (0, *part))
        same(f"{what} at its valid length, one zero lent", v.read(0, 700, b"\0"), (0, 1, 0, 1))
        same(f"{what} at 1,299, one zero lent", v.read(0, 1299, b"\0"), (0, 1, 0, 1))
        same(f"{what} at 1,297, as many zeros as that", v.read(0, 1297, bytes(3)), (0, 1, 0, 3))
        same(f"{what} at 1,298, one zero too many", v.read(0, 1298, bytes(3)), (0, 1, 0, 2))
    v = file_of([9, 8, 7], 1536, 1536)
    said = [(v.at(9), 512), (v.at(8), 512), (v.at(7), 512), (0, 0)]
    same("a chain that falls", [v.read(0, o)[2:] for o in (0, 512, 1024, 1536)], said)
    v = file_of([4, 5], 1024, 1024, run=True)
    same("a length of whole clusters, its end", [v.read(0, o)[2:] for o in (1023, 1024)], [(v.at(5) + 511, 1), (0, 0)])
    v = file_of([4, 5], 1024, 512, run=True)
    same("valid at a border", [v.read(0, o) for o in (0, 511, 512)], [(0, 0, v.at(4), 512), (0, 0, v.at(4) + 511, 1), (0, 1, 0, 4)])
    v = file_of([4, 5], 1024, 0)
    same("valid 0", [v.read(0, o, bytes(2000)) for o in (0, 1023, 1024)], [(0, 1, 0, 1024), (0, 1, 0, 1), (0, 0, 0, 0)])
    v = file_of([4], 1, 1)
    same("a file of one byte", [v.read(0, o) for o in (0, 1)], [(0, 0, v.at(4), 1), (0, 0, 0, 0)])
    v = file_of([16, 17], 1024, 1024, run=True)
    same("up to the last cluster", v.read(0, 0), (0, 0, len(v.bytes) - 1024, 1024))
    v = file_of([16, 17, 4], 1100, 1100)
    said = [(v.at(16), 1024), (v.at(17) + 511, 1), (v.at(4), 76)]
    same("the last cluster, then 4", [v.read(0, o)[2:] for o in (0, 1023, 1024)], said)
    v = file_of(list(range(4, 18)), 7168, 7168)
    same("all clusters, linked", v.read(0, 0), (0, 0, v.at(4), 7168))
    own = list(range(10, 310))
    same("300 clusters, linked", file_of(own, 153600, 153600, count=400).read(0, 0), (0, 0, v.at(10), 153600))


def read_places():
    """Where the file's entries lie, and which FAT and bitmap tell of it."""
    v = Volume(root=6, marks=(2, 3, 4, 5, 6), fat=((6, 3), (3, END)), system=(2, 3, 6))
    set_ = entry_set(3, 4, 600, 600)
    v.put(6, UNUSED * 14 + set_[:64])
    v.put(3, set_[64:])
    same("a set over two clusters of a root that falls", v.read(14, 500), (0, 0, v.at(4) + 500, 100))
    v.put(3, b"\0")
    same("and its name entry of type 0", v.read(14, 500)[0], 10)
    v = file_of([5, 6, 9], 1400, 1400, marks=(2, 3, 4, 5, 6, 9), system=(2, 3, 4), second=4)
    same("the second FAT and bitmap are read", [v.read(0, o)[2:] for o in (0, 1024)], [(v.at(5), 1024), (v.at(9), 376)])
    v.bytes[FAT_AT : FAT_AT + SECTOR] = b"\xf7" * SECTOR
    v.put(2, b"\xff" * 2)
    same("whatever the first say", v.read(0, 100), (0, 0, v.at(5) + 100, 924))
    v.unmark(9)
    same("a cluster that the first bitmap alone marks", v.read(0, 100)[0], 6)
    v = file_of([4, 5], 1024, 700, run=True)
    v.link(4, 9)
    v.link(5, 0)
    same("a run's FAT entries are not looked at", v.read(0, 0), (0, 0, v.at(4), 700))
    v = Volume()
    v.new([97])
    v.write(0, 600, [7] * 100)
    same("a file that was written: the gap is the volume's", v.read(0, 0), (0, 0, v.at(4), 700))
    v.set_length(0, 1300)
    same("made longer: zeros from the valid length on", [v.read(0, o)[1:] for o in (699, 700)], [(0, v.at(5) + 187, 1), (1, 0, 4)])
    same("and the whole of it", fetched(v, 0, bytes(7), 1300), bytes(600) + b"\7" * 100 + bytes(600))
    v.remove(0)
    same("removed", v.read(0, 0), (10, 0, 0, 0))


def read_whole():
    """At every offset of some files, byte by byte: below valid, the part goes on as long as the next byte lies behind the last."""
    for clusters, length, valid, run in (
        ([4, 5, 9, 8, 7, 10, 11], 3500, 2700, False),
        ([17, 4, 6, 5, 7, 8, 9], 3584, 3584, False),
        ([12, 13, 14], 1536, 1, True),
        ([12, 13, 14], 1025, 1024, False),
    ):
        v = file_of(clusters, length, valid, run)
        places = [v.at(clusters[i // SECTOR]) + i % SECTOR for i in range(valid)]
        wrong = []
        for offset in range(length + 2):
            end = offset
            while end < valid and places[end] - places[offset] == end - offset:
                end += 1
            part = (0, 0, 0) if offset >= length else (1, 0, min(3, length - offset))
            if offset < valid:
                part = (0, places[offset], end - offset)
            wrong += [offset] if v.read(0, offset, bytes(3)) != (0, *part) else []
        same(f"every offset of {clusters}, valid {valid}", wrong, [])
        for n in (1, 3, 600, 4096):
            same(f"{clusters} fetched whole, {n} zeros lent", fetched(v, 0, bytes(n), length), tape_of(v, clusters, length, valid))


library.exfat_read.restype = None
for part in (the_root, new_files, writes, streams, lengths, over_the_root, long_writes, write_places):
    part()
for part in (read_numbers, read_refusals, read_parts, read_places, read_whole):
    part()
for fault in faults:
    print(f"edges: {fault}")
if faults:
    sys.exit(1)
print(f"edges: {seen} border cases of the calls on files, all as 01 and 02 say")

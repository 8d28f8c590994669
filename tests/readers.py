#!/usr/bin/env python3
"""Volumes that the library leaves, read by other programs: fsck.exfat, exfat-fuse, and sleuthkit's fls and icat; and read back by
the library itself, through `bittsalak cat`.

readers.py LIBRARY TOOL [--first SEED] [--seeds N] [--keep FOLDER]
LIBRARY is a shared library made of dist/libexfat.a. TOOL, the program bittsalak, formats some volumes and mkfs.exfat the others.
On each a random list of calls runs, with a fixed seed; a plain table from slots to bytes says what the files must hold, and each
program has to show exactly that. The known limits of these programs (FUSE_VALID and below) are allowed for, and nothing else: from
the valid length on exfat-fuse and icat show what the clusters hold, and `cat`, to which no limit is allowed, has to show zeros.
--seeds N runs N lists on each kind of volume in place of one, from seed 1 or --first on; --keep leaves the images in a folder.
"""

import argparse
import collections
import contextlib
import ctypes
import datetime
import itertools
import os
import random
import re
import signal
import struct
import subprocess
import sys
import tempfile

sys.dont_write_bytecode = True
import geometry  # noqa: E402, beside this file
import left_out  # noqa: E402

END = 0xFFFFFFFF
MIB = 1 << 20


class Unsound(Exception):
    """A call answered wrongly, or the script's own reading of an image failed."""


# what a reader has to show of a file: name, bytes and modified time as the table has them, valid length, clusters and whether the
# FAT links them from the image
File = collections.namedtuple("File", "slot name data modified valid clusters linked")


class Volume:
    """An image, read by the exFAT specification alone."""

    def __init__(self, image):
        self.image = image
        self.fat_offset, self.fat_length, self.heap_offset, self.count, self.root = struct.unpack_from("<5I", image, 80)
        self.active, self.sector_shift, self.cluster_shift, self.fats = image[106] & 1, image[108], image[109], image[110]
        self.cluster = 1 << self.sector_shift + self.cluster_shift
        root = self.root_bytes()
        found, self.label = {}, ""
        for at in range(0, len(root), 32):
            if root[at] == 0x83:
                self.label = root[at + 2 : at + 2 + 2 * root[at + 1]].decode("utf-16-le")
            elif root[at] in (0x81, 0x82):
                found[root[at], root[at + 1] & 1] = at // 32, *struct.unpack_from("<IQ", root, at + 20)
        # where the entries of the bitmaps stand, and the bitmaps' first clusters
        self.bitmap_slots = [found[0x81, k][0] for k in range(self.fats)]
        self.bitmaps = [found[0x81, k][1] for k in range(self.fats)]
        _, first, length = found[0x82, 0]
        upcase = self.chain(first)
        self.upcase = expand(b"".join(map(self.bytes_of, upcase))[:length])
        bitmap_clusters = -(-(-(-self.count // 8)) // self.cluster)
        bitmaps = [first + k for first in self.bitmaps for k in range(bitmap_clusters)]
        self.system = set(bitmaps) | set(upcase) | set(self.chain(self.root))

    def fat_at(self, k, fat):
        return (self.fat_offset + fat * self.fat_length << self.sector_shift) + 4 * k

    def link(self, k):
        return struct.unpack_from("<I", self.image, self.fat_at(k, self.active))[0]

    def at(self, k):
        return (self.heap_offset << self.sector_shift) + (k - 2) * self.cluster

    def bytes_of(self, k):
        return self.image[self.at(k) : self.at(k) + self.cluster]

    def chain(self, first):
        found = []
        while first != END:
            if not 2 <= first < self.count + 2 or len(found) == self.count:
                raise Unsound(f"a chain leads to {first:#x}")
            found.append(first)
            first = self.link(first)
        return found

    def root_at(self, slot):
        clusters = self.chain(self.root)
        return self.at(clusters[32 * slot // self.cluster]) + 32 * slot % self.cluster

    def root_bytes(self):
        return b"".join(map(self.bytes_of, self.chain(self.root)))

    def bitmap(self, fat):
        """The first C bits as a number, cluster 2 lowest."""
        at = self.at(self.bitmaps[fat])
        return int.from_bytes(self.image[at : at + -(-self.count // 8)], "little") & (1 << self.count) - 1

    def free(self):
        return self.count - self.bitmap(self.active).bit_count()

    def mark(self, k, taken):
        for first in self.bitmaps:
            at, bit = self.at(first) + (k - 2) // 8, 1 << (k - 2) % 8
            self.image[at] = self.image[at] | bit if taken else self.image[at] & ~bit

    def root_is_last_sector(self):
        return self.root == self.count + 1 and self.cluster_shift == 0

    def sets(self):
        """Slot and bytes of each file's entry set."""
        root, slot = self.root_bytes(), 0
        while 32 * slot < len(root) and root[32 * slot]:
            entries = 1 + root[32 * slot + 1] if root[32 * slot] == 0x85 else 1
            if root[32 * slot] == 0x85:
                yield slot, root[32 * slot : 32 * (slot + entries)]
            slot += entries

    def files(self):
        """For each slot the units of the name, the valid length, the length, the clusters and whether the FAT links them."""
        found = {}
        for slot, bytes_ in self.sets():
            valid, first, length = *struct.unpack_from("<Q", bytes_, 40), *struct.unpack_from("<IQ", bytes_, 52)
            units = b"".join(bytes_[at + 2 : at + 32] for at in range(64, len(bytes_), 32))
            number = -(-length // self.cluster)
            clusters = list(range(first, first + number)) if bytes_[33] & 2 else self.chain(first) if number else []
            if len(clusters) != number:
                raise Unsound(f"the file at slot {slot} has {len(clusters)} clusters for {length} bytes")
            linked = number > 0 and not bytes_[33] & 2
            found[slot] = struct.unpack_from(f"<{bytes_[35]}H", units), valid, length, clusters, linked
        return found

    def link_run(self, slot, clusters):
        """Makes a chain of a run, as programs do that know no runs: the FAT links its clusters, and the flag is cleared."""
        for k, next_ in zip(clusters, [*clusters[1:], END]):
            for fat in range(self.fats):
                struct.pack_into("<I", self.image, self.fat_at(k, fat), next_)
        self.image[self.root_at(slot + 1) + 1] = 1
        bytes_, sum_ = dict(self.sets())[slot], 0
        for at, byte in enumerate(bytes_):
            if at not in (2, 3):
                sum_ = ((sum_ >> 1 | (sum_ & 1) << 15) + byte) & 0xFFFF
        struct.pack_into("<H", self.image, self.root_at(slot) + 2, sum_)

    def stored(self, clusters):
        return b"".join(map(self.bytes_of, clusters))

    def upper(self, units):
        return tuple(self.upcase[unit] for unit in units)

    def hash(self, units):
        hash_ = 0
        for byte in struct.pack(f"<{len(units)}H", *self.upper(units)):
            hash_ = ((hash_ >> 1 | (hash_ & 1) << 15) + byte) & 0xFFFF
        return hash_

    def sum_boot(self):
        """Stores the checksum of the boot region, and the region's backup."""
        sector, sum_ = 1 << self.sector_shift, 0
        for at in range(11 * sector):
            if at not in (106, 107, 112):
                sum_ = ((sum_ >> 1 | (sum_ & 1) << 31) + self.image[at]) & END
        self.image[11 * sector : 12 * sector] = struct.pack("<I", sum_) * (sector // 4)
        self.image[12 * sector : 24 * sector] = self.image[: 12 * sector]


def expand(table):
    """The up-case table, its runs of unchanged units (0xFFFF and a count) written out."""
    units, full = iter(struct.unpack(f"<{len(table) // 2}H", table)), []
    for unit in units:
        if unit == 0xFFFF and len(full) < 0xFFFF:
            run = next(units)
            full.extend(range(len(full), len(full) + run))
        else:
            full.append(unit)
    return full + list(range(len(full), 0x10000))


def root_to_the_end(image):
    """The same fresh volume with its root of one cluster in the heap's last one."""
    volume = Volume(image)
    old, new = volume.root, volume.count + 1
    assert len(volume.chain(old)) == 1 and not volume.bitmap(0) >> new - 2 & 1
    image[volume.at(new) : volume.at(new) + volume.cluster] = volume.bytes_of(old)
    for fat in range(volume.fats):
        struct.pack_into("<I", image, volume.fat_at(new, fat), END)
        struct.pack_into("<I", image, volume.fat_at(old, fat), 0)
    volume.mark(old, False)
    volume.mark(new, True)
    struct.pack_into("<I", image, 96, new)
    volume.sum_boot()


def one_fat(image, fat):
    """A copy of a volume with two FATs that has one of them, with its bitmap, and no sign of the other."""
    volume = Volume(bytearray(image))
    for k, slot in enumerate(volume.bitmap_slots):
        at = volume.root_at(slot)
        volume.image[at], volume.image[at + 1] = 0x81 if k == fat else 0x01, 0
    struct.pack_into("<I", volume.image, 80, volume.fat_offset + fat * volume.fat_length)
    volume.image[106], volume.image[110] = volume.image[106] & 0xFE, 1
    volume.sum_boot()
    return volume.image


class Lists:
    """A random list of calls on a volume, and the plain table of what the files hold."""

    # code points of the names: all but the refused ones of ASCII, letters with and without case, and some that take two units
    RANGES = ((0x20, 0x7F), (0xA1, 0x250), (0x370, 0x530), (0x3041, 0x3097), (0x4E00, 0xA000), (0xAC00, 0xD7A4), (0x1F300, 0x1F700))

    MOST = 30  # files: icat is started for each

    def __init__(self, library, volume, rng, longest):
        self.library, self.volume, self.rng, self.longest = library, volume, rng, longest
        self.geometry = geometry.array(
            volume.sector_shift, volume.cluster_shift, volume.fat_offset, volume.fat_length, volume.fats, volume.active,
            volume.heap_offset, volume.count, volume.root, volume.bitmaps[0], volume.bitmaps[-1],
        )  # fmt: skip
        self.map = bytearray(-(-volume.count // 8))
        for k in volume.system:
            self.map[(k - 2) // 8] |= 1 << (k - 2) % 8
        self.hint = 2
        self.names, self.data, self.modified, self.taken = {}, {}, {}, set()  # by slot; the upper-case names
        self.growing = True
        self.answers = collections.Counter()

    def call(self, name, said, *arguments):
        """Calls with the hint and keeps the new one; `said` are the numbers that the call may answer."""
        vol = (ctypes.c_uint8 * len(self.volume.image)).from_buffer(self.volume.image)
        map_ = (ctypes.c_uint8 * len(self.map)).from_buffer(self.map)
        out = (ctypes.c_uint32 * 8)()
        number = getattr(self.library, name)(
            vol, ctypes.c_size_t(len(vol)), map_, ctypes.c_size_t(len(map_)), self.geometry, *arguments,
            ctypes.c_uint32(self.hint), out,
        )  # fmt: skip
        if number not in said:
            raise Unsound(f"{name} answered {number} in place of {said}")
        self.answers[number] += 1
        self.hint = out[1] if name == "exfat_new_file" else out[0]
        return number, out[0]

    def stamp(self):
        """A time before 2100, which exfat-fuse takes for a leap year."""
        at_most = (119, 12, 28, 23, 59, 29)
        year, month, day, hour, minute, second = (self.rng.randint(k in (1, 2), top) for k, top in enumerate(at_most))
        time = year << 25 | month << 21 | day << 16 | hour << 11 | minute << 5 | second
        return struct.pack("<IBB", time, self.rng.randrange(200), self.rng.choice((0x80, 0x84, 0xF0)))

    def name(self):
        """The units of a name that no file has, upper and lower case being the same."""
        while True:
            top = self.rng.choice((8, 15, 30, 120, self.longest, self.longest))
            length = self.rng.randint(top // 2 + 1 if top > 100 else 1, min(top, self.longest))
            ranges = self.rng.choice((self.RANGES[:1], self.RANGES))
            text = "".join(chr(self.rng.randrange(*self.rng.choice(ranges))) for _ in range(length))
            for refused in '"*/:<>?\\|':
                text = text.replace(refused, "-")
            while len(text.encode("utf-16-le")) > 2 * length:
                text = text[:-1]
            units = struct.unpack(f"<{len(text.encode('utf-16-le')) // 2}H", text.encode("utf-16-le"))
            if len(units) == 128 and not self.volume.root_is_last_sector():
                continue  # fls could not read the volume
            if units and text not in (".", "..") and self.volume.upper(units) not in self.taken:
                return units

    def new_file(self, units=None, attributes=None, said=None):
        units = self.name() if units is None else units
        attributes = self.rng.randrange(256) & 0x27 if attributes is None else attributes
        # the root never grows by more than two clusters
        said = said or ((0,) if self.volume.free() >= 2 else (0, 7))
        created, modified, accessed = self.stamp(), self.stamp(), self.stamp()
        number, slot = self.call(
            "exfat_new_file", said, (ctypes.c_uint16 * max(1, len(units)))(*units), ctypes.c_size_t(len(units)),
            ctypes.c_uint16(attributes), ctypes.c_uint16(self.volume.hash(units)),
            (ctypes.c_uint8 * 18)(*created, *modified, *accessed),
        )  # fmt: skip
        if number == 0:
            if slot in self.data:
                raise Unsound(f"exfat_new_file gave slot {slot}, which is taken")
            self.names[slot], self.data[slot], self.modified[slot] = units, bytearray(), modified
            self.taken.add(self.volume.upper(units))

    def fits(self, slot, length):
        """The number for a file's new length: 0, or 7 where there are too few clusters."""
        must_add = -(-length // self.volume.cluster) - -(-len(self.data[slot]) // self.volume.cluster)
        return (7,) if must_add > self.volume.free() else (0,)

    def write(self, slot, offset, data, said=None):
        said = said or (self.fits(slot, max(offset + len(data), len(self.data[slot]))) if data else (0,))
        stamp = self.stamp()
        number, _ = self.call(
            "exfat_write", said, ctypes.c_uint32(slot), ctypes.c_uint64(offset),
            (ctypes.c_uint8 * max(1, len(data))).from_buffer_copy(data or b"\0"), ctypes.c_size_t(len(data)),
            (ctypes.c_uint8 * 6)(*stamp),
        )  # fmt: skip
        if number == 0:
            self.modified[slot] = stamp
        if number == 0 and data:
            file = self.data[slot]
            file.extend(bytes(max(0, offset - len(file))))
            file[offset : offset + len(data)] = data

    def set_length(self, slot, length, said=None):
        said = said or self.fits(slot, length)
        stamp = self.stamp()
        number, _ = self.call(
            "exfat_set_length", said, ctypes.c_uint32(slot), ctypes.c_uint64(length), (ctypes.c_uint8 * 6)(*stamp)
        )
        if number == 0:
            file, self.modified[slot] = self.data[slot], stamp
            del file[length:]
            file.extend(bytes(length - len(file)))

    def remove(self, slot, said=(0,)):
        number, _ = self.call("exfat_remove", said, ctypes.c_uint32(slot))
        if number == 0:
            self.taken.remove(self.volume.upper(self.names.pop(slot)))
            del self.data[slot], self.modified[slot]

    def refused(self):
        """A call that must be refused."""
        rng, heap = self.rng, self.volume.count * self.volume.cluster
        nowhere = rng.choice((self.volume.bitmap_slots[0], END, *(slot + 1 for slot in self.data)))
        some = rng.choice(list(self.data))
        kind = rng.randrange(9)
        if kind == 0:
            self.write(nowhere, 0, b"x", (10,))
        elif kind == 1:
            self.set_length(nowhere, 5, (10,))
        elif kind == 2:
            self.remove(nowhere, (10,))
        elif kind == 3:
            self.set_length(some, rng.choice((heap, 2**64 - 1)), (7,))
        elif kind == 4:
            self.write(some, rng.choice((heap, 2**64 - 2)), b"x", (7,))
        elif kind == 5:
            self.write(some, 2**64 - 1, b"xy", (8,))
        elif kind == 6:
            self.new_file(rng.choice(((), (46,), (46, 46), (97, 31), (0x2A,), (97,) * 256)), 0, (12,))
        elif kind == 7:
            self.new_file((97,), rng.choice((0x10, 0x40, 0x100)), (13,))
        else:
            hint, self.hint = self.hint, self.volume.count + 2
            self.remove(some, (2,))
            self.hint = hint

    def size(self):
        """Bytes to write: few, some clusters, or a good part of the heap."""
        part = self.volume.count * self.volume.cluster // self.rng.choice((12, 20, 40, 80))
        return self.rng.choice((self.rng.randint(1, 100), self.rng.randint(1, 4 * self.volume.cluster), self.rng.randint(1, part)))

    def step(self):
        rng, free = self.rng, self.volume.free()
        # the heap is filled until next to nothing is free, then emptied by a third
        if free <= max(2, self.volume.count // 100):
            self.growing = False
        elif free > self.volume.count // 3:
            self.growing = True
        if rng.randrange(10) == 0:
            self.hint = rng.randrange(2, self.volume.count + 2)
        weights = (6, 9, 2, 1, 1, 1) if self.growing else (2, 3, 1, 6, 6, 1)
        kind = rng.choices(("new", "write", "longer", "shorter", "remove", "refused"), weights)[0]
        if kind == "new" and len(self.data) < self.MOST or not self.data:
            return self.new_file()
        slot = rng.choice(list(self.data))
        length = len(self.data[slot])
        if kind in ("new", "write"):
            data = rng.randbytes(rng.choice((0, *[self.size()] * 9)))
            gap = rng.randint(1, 3 * self.volume.cluster)
            self.write(slot, rng.choice((length, length, rng.randint(0, length), length + gap)), data)
        elif kind == "longer":
            self.set_length(slot, length + rng.choice((0, self.size(), self.size())))
        elif kind == "shorter":
            self.set_length(slot, rng.choice((0, rng.randint(0, length), rng.randint(0, length))))
        elif kind == "remove":
            self.remove(slot)
        else:
            self.refused()

    def own_reading(self):
        """The image against the table, by this script's own reading."""
        volume, taken, files = self.volume, list(self.volume.system | set(self.volume.chain(self.volume.root))), []
        found = volume.files()
        if found.keys() != self.data.keys():
            raise Unsound("its files are at other slots")
        for slot, (units, valid, length, clusters, linked) in found.items():
            data = bytes(self.data[slot])
            if units != self.names[slot] or length != len(data):
                raise Unsound(f"the file at slot {slot} has another name or length")
            if data != volume.stored(clusters)[:valid] + bytes(length - valid):
                raise Unsound(f"the file at slot {slot} has other contents")
            taken += clusters
            name = struct.pack(f"<{len(units)}H", *units).decode("utf-16-le").encode()
            files.append(File(slot, name, data, self.modified[slot], valid, clusters, linked))
        marks = sum(1 << k - 2 for k in set(taken))
        if len(set(taken)) != len(taken) or any(volume.bitmap(fat) != marks for fat in range(volume.fats)):
            raise Unsound("clusters and marks are not the same")
        return files


class Tally(collections.Counter):
    """What was counted; and the faults, each with the image that shows it."""

    def __init__(self, tool):
        super().__init__()
        self.tool, self.faults, self.image, self.answers = tool, [], "", collections.Counter()

    def fault(self, text):
        self.faults.append(f"{self.image}: {text}")

    def limit(self, name, excused):
        """A case in which a program's known limit would show; `excused` where it did."""
        self[name] += 1
        self[name, "excused"] += excused


# the known limits of these programs; nothing else is allowed for
FUSE_VALID = "exfat-fuse does not heed ValidDataLength"
ICAT_VALID = "icat does not heed ValidDataLength"
FSCK_THREE = "fsck.exfat misreads an entry set in three clusters"
FLS_LAST = "fls opens no volume whose root is the heap's last sector"
FLS_128 = "fls breaks off at a name of 128 units"


def run(*words):
    """Status and output of a program, both its streams together."""
    options = {"stdout": subprocess.PIPE, "stderr": subprocess.STDOUT, "env": {**os.environ, "LC_ALL": "C.UTF-8"}}
    try:
        done = subprocess.run(words, timeout=30, **options)
    except subprocess.TimeoutExpired:
        raise OSError(f"{words[0]} does not end") from None
    return done.returncode, done.stdout


def run_well(*words):
    status, output = run(*words)
    if status:
        raise OSError(f"{words[0]}: {output.decode().strip()}")
    return output.decode().strip()


@contextlib.contextmanager
def device(path, *options):
    """A loop device over an image."""
    made = run_well("losetup", "--find", "--show", *options, path)
    try:
        yield made
    finally:
        run_well("losetup", "--detach", made)


@contextlib.contextmanager
def mounted(path):
    """The image mounted by exfat-fuse, which takes a block device and no file; gives the folder."""
    with tempfile.TemporaryDirectory() as folder, device(path, "--read-only") as block:
        said = run_well("mount.exfat-fuse", "-o", "ro", block, folder)
        try:
            if said and not re.fullmatch("FUSE exfat [^ \n]*", said):  # a warning, and not the version alone
                raise OSError(f"mount.exfat-fuse: {said}")
            yield folder
        finally:
            run_well("umount", folder)


def shown(program, limit, volume, file, got, tally):
    """Compares what a program showed of a file with its bytes; above the valid length it may show what the clusters hold."""
    old = volume.stored(file.clusters)[file.valid : len(file.data)]
    as_held = got == file.data[: file.valid] + old
    tally[program] += 1
    if any(old):
        tally.limit(limit, as_held)
    if got != file.data and not as_held:
        at = next((k for k, (a, b) in enumerate(zip(got, file.data)) if a != b), min(len(got), len(file.data)))
        tally.fault(f"{program} shows {len(got)} bytes at slot {file.slot}, other than its {len(file.data)} from {at} on")


def same_names(program, there, right, tally):
    if there != right:
        more, less = len(there - right), len(right - there)
        tally.fault(f"{program} shows {more} names too many and {less} too few, such as {min(there ^ right)[:60]}")


def seconds(stamp):
    """A stamp as seconds since 1970."""
    time, increment, zone = struct.unpack("<IBB", stamp)
    date = datetime.datetime(
        1980 + (time >> 25), time >> 21 & 15, time >> 16 & 31, time >> 11 & 31, time >> 5 & 63, 2 * (time & 31),
        tzinfo=datetime.timezone.utc,
    )  # fmt: skip
    quarters = (zone & 0x7F) - (zone << 1 & 0x80)
    return int(date.timestamp()) + increment // 100 - 900 * quarters


def fsck_says(path, volume):
    """What fsck.exfat 1.2.0, which keeps two clusters of a directory, says of a clean volume with sets in three: of each such set
    that its checksum is wrong, and then that it does not know the entries behind the first. None where there is no such set."""
    root, lines, misread, number = volume.chain(volume.root), [], 0, 0
    for slot, bytes_ in volume.sets():
        number += 1
        first, end = 32 * slot, 32 * slot + len(bytes_)
        if volume.cluster != 512 or (end - 1) // 512 - first // 512 < 2:
            continue
        misread += 1
        for at in range(first, end, 32):
            type_ = bytes_[at - first]
            what = "the checksum of a file is wrong" if at == first else f"unknown entry type {type_:#x} at {at:07x}"
            lines.append(f"ERROR: /: {what} at {volume.at(root[at // 512]) + at % 512:#x}. Delete (y/N)? n")
    lines.append(f"{path}: corrupted. directories 1, files {number - misread}")
    lines.append(f"{path}: files corrupted {misread}, files fixed 0")
    return lines if misread else None


def fsck(path, volume, files, tally):
    status, output = run("fsck.exfat", "-n", path)
    lines = [line for line in output.decode().splitlines() if not line.startswith("exfatprogs version")]
    misread = fsck_says(path, volume)
    clean = status == 0 and lines == [f"{path}: clean. directories 1, files {len(files)}"]
    tally["clean"] += clean
    if misread:
        tally.limit(FSCK_THREE, lines == misread)
    if not clean and lines != misread:
        tally.fault(f"fsck.exfat says: {next((line for line in lines if line not in (misread or ())), lines)}")


def exfat_fuse(path, volume, files, tally):
    with mounted(path) as folder:
        there, right = set(os.listdir(os.fsencode(folder))), {file.name for file in files}
        same_names("exfat-fuse", there, right, tally)
        for file in files:
            if file.name in there:
                with open(os.path.join(os.fsencode(folder), file.name), "rb") as opened:
                    shown("exfat-fuse", FUSE_VALID, volume, file, opened.read(), tally)
                    if os.fstat(opened.fileno()).st_mtime != seconds(file.modified):
                        tally.fault(f"exfat-fuse shows another modified time at slot {file.slot}")


def sleuthkit(path, volume, files, tally):
    status, output = run("fls", "-u", path)
    if volume.root_is_last_sector():
        not_opened = status != 0 and b":\t" not in output
        tally.limit(FLS_LAST, not_opened)
        if not_opened:
            return
    if any(bytes_[35] == 128 for _, bytes_ in volume.sets()):
        broken_off = status == -signal.SIGABRT and b"Assertion" in output
        tally.limit(FLS_128, broken_off)
        if broken_off:
            return
    inodes, right = {}, {file.name for file in files}
    for line in output.split(b"\n")[:-1]:
        inode, _, name = line.partition(b":\t")
        inodes[name] = inode.rpartition(b" ")[2]
    label = f"{volume.label} (Volume Label Entry)".encode()
    for name in (b"$ALLOC_BITMAP", b"$UPCASE_TABLE", b"$MBR", b"$FAT1", b"$FAT2", b"$OrphanFiles", label):
        inodes.pop(name, None)
    if status:
        tally.fault(f"fls ended with status {status}")
    same_names("fls", inodes.keys(), right, tally)
    for file in files:
        if file.name in inodes:
            status, got = run("icat", path, inodes[file.name])
            if status:
                tally.fault(f"icat ended with status {status} at slot {file.slot}")
            shown("icat", ICAT_VALID, volume, file, got, tally)


def cat(path, volume, files, tally):
    for file in files:
        status, got = run(tally.tool, "cat", path, f"@{file.slot}")
        tally["cat"] += 1
        if status or got != file.data:
            tally.fault(f"bittsalak cat ends with status {status} and {len(got)} bytes at slot {file.slot}, not its {len(file.data)}")
        tally["cat", "held"] += any(volume.stored(file.clusters)[file.valid : len(file.data)])
        tally["cat", "pieces"] += file.linked and not rises(file)
        tally["cat", "rising"] += file.linked and rises(file) and len(file.clusters) > 1


def rises(file):
    return file.clusters == [*range(file.clusters[0], file.clusters[0] + len(file.clusters))]


CALLS = 600

# who formats, bytes of a sector and of a cluster, FATs, MiB, the longest name, what is done to the fresh volume; a name of 225
# units makes a set of 17 entries, which never lies in three clusters
KINDS = (
    ("bittsalak", 512, 512, 1, 1, 225, ""),
    ("bittsalak", 512, 512, 1, 2, 255, ""),
    ("bittsalak", 512, 512, 1, 1, 225, "root last"),
    ("bittsalak", 512, 512, 2, 1, 225, "active FAT 1"),
    ("bittsalak", 512, 4096, 1, 4, 255, ""),
    ("bittsalak", 512, 4096, 2, 4, 255, ""),
    ("bittsalak", 512, 32768, 1, 8, 255, ""),
    ("bittsalak", 512, 32768, 2, 8, 255, "active FAT 1"),
    ("bittsalak", 4096, 4096, 1, 2, 255, ""),
    ("bittsalak", 4096, 4096, 2, 2, 255, ""),
    ("bittsalak", 4096, 4096, 1, 2, 255, "root last"),
    ("bittsalak", 4096, 32768, 1, 8, 255, ""),
    ("bittsalak", 4096, 32768, 2, 16, 255, ""),
    ("mkfs.exfat", 512, 512, 1, 2, 225, ""),
    ("mkfs.exfat", 512, 512, 1, 16, 255, ""),
    ("mkfs.exfat", 512, 4096, 1, 16, 255, "root last"),
    ("mkfs.exfat", 512, 32768, 1, 16, 255, ""),
    ("mkfs.exfat", 4096, 4096, 1, 4, 255, ""),
    ("mkfs.exfat", 4096, 32768, 1, 16, 255, ""),
)


def fresh(tool, path, maker, sector, cluster, fats, mib, _, done):
    """A volume as it was formatted, with old bytes in every free cluster."""
    if maker == "bittsalak":
        words = "--force", "--size", mib * MIB, "--sector", sector, "--cluster", cluster, "--fats", fats
        run_well(tool, "format", path, *map(str, words))
    else:
        with open(path, "wb") as file:
            file.truncate(mib * MIB)
        words = "mkfs.exfat", "-b", "4096", "-c", str(cluster)
        if sector == 512:
            run_well(*words, path)
        else:  # it asks the device for its sector size
            with device(path, "--sector-size", str(sector)) as block:
                run_well(*words, block)
    with open(path, "rb") as file:
        image = bytearray(file.read())
    if done == "root last":
        root_to_the_end(image)
    elif done == "active FAT 1":
        image[106] |= 1
        Volume(image).sum_boot()
    volume, old = Volume(image), random.Random(cluster)
    marks = volume.bitmap(0)
    for k in range(2, volume.count + 2):
        if not marks >> k - 2 & 1:
            image[volume.at(k) : volume.at(k) + volume.cluster] = old.randbytes(volume.cluster)
    return volume


def save(path, image):
    with open(path, "wb") as file:
        file.write(image)


def judge(path, volume, files, programs, refuse_two, tally):
    """Each program on the image; a program that refuses two FATs, on two copies that have one of them each."""
    for name, program in programs.items():
        images = [volume.image]
        if volume.fats == 2 and name in refuse_two:
            images = [one_fat(volume.image, fat) for fat in (0, 1)]
        for image in images:
            save(path, image)
            try:
                program(path, Volume(image), files, tally)
            except OSError as error:
                tally.fault(f"{name}: {error}")
    save(path, volume.image)


def who_refuses_two(tool, path, programs):
    """The programs that open no volume with two FATs, not even a fresh one on which no call was made; with one FAT each has to."""
    refuse = []
    for fats in (1, 2):
        volume = fresh(tool, path, "bittsalak", 512, 4096, fats, 2, 0, "")
        for name, program in programs.items():
            tally = Tally(tool)
            judge(path, volume, [], {name: program}, [], tally)
            if fats == 2 and any("unsupported FAT count" in fault for fault in tally.faults):
                refuse.append(name)
            elif tally.faults:
                raise OSError(f"a fresh volume{tally.faults[0]}")
    os.remove(path)
    return refuse


def damaged(volume):
    """Damaged images, and the programs that must notice."""
    slot, (_, _, _, clusters, _) = max(volume.files().items(), key=lambda item: item[1][1])
    content, name, mark = (Volume(bytearray(volume.image)) for _ in range(3))
    content.image[content.at(clusters[0])] ^= 1
    name.image[name.root_at(slot + 2) + 2] ^= 1
    mark.mark(clusters[-1], False)
    return (
        (content, ("exfat-fuse", "fls and icat", "bittsalak cat")),
        (name, ("fsck.exfat", "fls and icat", "bittsalak cat")),
        (mark, ("fsck.exfat", "bittsalak cat")),
    )


def all_notice(path, volume, files, programs, tally):
    """Each program has to find fault with damaged copies of an image, else its silence says nothing."""
    for number, (copy, names) in enumerate(damaged(volume)):
        for name in names:
            if name in programs:
                scratch = Tally(tally.tool)
                judge(path, copy, files, {name: programs[name]}, [], scratch)
                tally["noticed"] += 1
                if not scratch.faults:
                    tally.fault(f"{name} does not notice damage {number}")
    save(path, volume.image)


def play(lists, path, programs, refuse_two, tally):
    """A list of calls; the image is judged when the heap is full for the first time, and at the end with chains for half of the runs,
    which no call makes."""
    for until_full in (True, False):
        for _ in range(CALLS):
            lists.step()
            if until_full and not lists.growing:
                break
        if not until_full:
            runs = [file for file in lists.own_reading() if len(file.clusters) > 1 and not file.linked]
            for file in runs[::2]:
                lists.volume.link_run(file.slot, file.clusters)
        files = lists.own_reading()
        judge(path, lists.volume, files, programs, refuse_two, tally)
        tally["images"] += 1
        tally["full"] += 50 * lists.volume.free() < lists.volume.count
        tally["files"] += len(files)
        tally["pieces"] += sum(not rises(file) for file in files if file.data)
    if not tally["noticed"]:
        all_notice(path, lists.volume, files, programs, tally)


def meet_limits(library, tool, path, programs, tally):
    """A short list of calls whose volume meets the limits that random lists may miss."""
    tally.image = "limits"
    lists = Lists(library, fresh(tool, path, "bittsalak", 512, 512, 1, 1, 255, ""), random.Random(0), 255)
    # names of which no two entries are alike: else fsck.exfat, misreading a set, finds its checksum right and does not end
    names = (tuple(97 + (first + k // 15) % 26 for k in range(255)) for first in range(26))
    try:
        while fsck_says(path, lists.volume) is None:
            lists.new_file(next(names))
        slot = min(lists.data)
        lists.write(slot, 0, b"data")
        lists.set_length(slot, 5000)
        judge(path, lists.volume, lists.own_reading(), programs, [], tally)
        lists.new_file(next(names)[:128])
        judge(path, lists.volume, lists.own_reading(), programs, [], tally)
    except Unsound as error:
        tally.fault(error)
    tally["images"] += 2
    tally.answers += lists.answers


def random_lists(library, tool, folder, kinds, seeds, keep, programs, refuse_two, tally):
    for seed, kind in itertools.product(seeds, kinds):
        tally.image = "-".join(str(word).replace(" ", "-") for word in (*kind, "seed", seed) if word)
        path = os.path.join(folder, tally.image)
        lists = Lists(library, fresh(tool, path, *kind), random.Random(f"{kind} {seed}"), kind[5])
        try:
            play(lists, path, programs, refuse_two, tally)
        except Unsound as error:
            tally.fault(error)
            save(path, lists.volume.image)
        tally.answers += lists.answers
        if not keep:
            os.remove(path)


def report(tally, refuse_two):
    numbers = ", ".join(f"{number}: {times}" for number, times in sorted(tally.answers.items()))
    print(f"readers: {tally.answers.total()} calls; by their answers, {numbers}")
    print(
        f"readers: {tally['images']} images, {tally['full']} with less than 2 % free; {tally['files']} files, "
        f"{tally['pieces']} in several pieces"
    )
    for name in refuse_two:
        print(f"readers: {name} opens no volume with two FATs, not even a fresh one; it read copies that have the one or the other")
    for limit in (FUSE_VALID, ICAT_VALID, FSCK_THREE, FLS_LAST, FLS_128):
        if limit == FUSE_VALID and not tally["exfat-fuse"]:
            continue
        if not tally[limit]:
            tally.faults.append(f"no case met the limit: {limit}")
        elif tally[limit, "excused"] < tally[limit]:
            print(f"readers: not so in {tally[limit] - tally[limit, 'excused']} of {tally[limit]} cases: {limit}")
    for kind in ("pieces", "rising", "held"):
        if not tally["cat", kind]:
            tally.faults.append(f"bittsalak cat met no file of this kind: {kind}")
    for fault in tally.faults:
        print(f"readers: {fault}")
    if tally.faults:
        print("readers: FAILED; --keep FOLDER leaves the images there")
        return 1
    mounted_ = f"exfat-fuse read {tally['exfat-fuse']} files back" if tally["exfat-fuse"] else "exfat-fuse NOT USED"
    print(
        f"readers: fsck.exfat judged {tally['clean']} images clean, {mounted_}, fls and icat {tally['icat']}; "
        f"{tally['noticed']} damaged images noticed; "
        f"allowed: ValidDataLength {tally[FUSE_VALID, 'excused']} and {tally[ICAT_VALID, 'excused']} files, "
        f"three-cluster set {tally[FSCK_THREE, 'excused']} images, root last {tally[FLS_LAST, 'excused']} images, "
        f"name of 128 units {tally[FLS_128, 'excused']} image"
    )
    print(
        f"readers: bittsalak cat gave {tally['cat']} files, each as it was written: {tally['cat', 'pieces']} in several pieces, "
        f"{tally['cat', 'rising']} chains whose clusters rise by one, and zeros in {tally['cat', 'held']} whose clusters hold other "
        "bytes above ValidDataLength"
    )
    return 0


def main():
    words = argparse.ArgumentParser()
    words.add_argument("library")
    words.add_argument("tool")
    words.add_argument("--first", type=int, default=1)
    words.add_argument("--seeds", type=int, default=1)
    words.add_argument("--keep")
    words = words.parse_args()
    library, tally = ctypes.CDLL(words.library), Tally(words.tool)
    programs = {"fsck.exfat": fsck, "exfat-fuse": exfat_fuse, "fls and icat": sleuthkit, "bittsalak cat": cat}
    kinds = KINDS
    if os.environ.get("READERS_WITHOUT_MOUNT") == "1":
        del programs["exfat-fuse"]
        kinds = [kind for kind in KINDS if kind[:2] != ("mkfs.exfat", 4096)]
        print("readers: ================================================================")
        print("readers: NOT MOUNTED, as READERS_WITHOUT_MOUNT asks: no exfat-fuse, and no 4096-byte sectors from mkfs.exfat")
        left_out.left_out("no volume was mounted with exfat-fuse, nor made with 4096-byte sectors by mkfs.exfat (no loop device or no /dev/fuse)")
        print("readers: ================================================================")
    with tempfile.TemporaryDirectory() as scratch:
        folder = words.keep or scratch
        os.makedirs(folder, exist_ok=True)
        try:
            refuse_two = who_refuses_two(words.tool, os.path.join(folder, "two"), programs)
        except OSError as error:
            print(f"readers: {error}")
            print("readers: where there is no loop device or no fuse, READERS_WITHOUT_MOUNT=1 leaves exfat-fuse out")
            return 1
        meet_limits(library, words.tool, os.path.join(folder, "limits"), programs, tally)
        seeds = range(words.first, words.first + words.seeds)
        random_lists(library, words.tool, folder, kinds, seeds, words.keep, programs, refuse_two, tally)
    return report(tally, refuse_two)


if __name__ == "__main__":
    sys.exit(main())

#!/usr/bin/env python3
"""An image changed past the library: the damage of tests/tool and tests/damaged.py, and folders, which no call makes.

image.py IMAGE STEP..    carries out steps in turn
  fat CLUSTER VALUE      an entry of the first FAT
  mark, unmark CLUSTER   a bit of the first bitmap
  in CLUSTER PLACE HEX   bytes of a cluster
  entry SLOT PLACE HEX   bytes of a set in the root; its checksum is made right
  byte PLACE HEX         bytes of the image
  boot PLACE HEX         bytes of the boot region; its checksum is made right
  fold FOLDER SLOT       the set at a slot goes into the file at slot FOLDER, which becomes a folder
"""

import struct
import sys

ENTRY = 32
END = 0xFFFFFFFF


def checksum(data, skip, bits):
    total = 0
    for at, byte in enumerate(data):
        if at not in skip:
            total = ((total >> 1 | total << bits - 1) + byte) & (1 << bits) - 1
    return total


class Image:
    def __init__(self, data):
        self.bytes = bytearray(data)
        self.sector = 1 << self.bytes[108]
        self.cluster = self.sector << self.bytes[109]
        self.fats = self.bytes[110]
        fat, self.fat_length, heap, self.count, self.root = struct.unpack_from("<5I", self.bytes, 80)
        self.fat, self.heap = fat * self.sector, heap * self.sector

    def word(self, at):
        return struct.unpack_from("<I", self.bytes, at)[0]

    def put(self, at, data):
        self.bytes[at:at + len(data)] = data

    def place(self, cluster):
        return self.heap + (cluster - 2) * self.cluster

    def fat_entry(self, cluster, fat=0):
        return self.fat + fat * self.fat_length * self.sector + 4 * cluster

    def chain(self, first):
        """The clusters of a sound chain."""
        clusters = [first]
        while self.word(self.fat_entry(clusters[-1])) != END:
            clusters.append(self.word(self.fat_entry(clusters[-1])))
        return clusters

    def places(self, first):
        """Where each entry of a directory lies that is a sound chain."""
        return [self.place(k) + at for k in self.chain(first) for at in range(0, self.cluster, ENTRY)]

    def marked(self, cluster):
        """In the first bitmap, which begins at cluster 2 wherever the tool or mkfs.exfat made it."""
        return self.bytes[self.place(2) + (cluster - 2) // 8] >> (cluster - 2) % 8 & 1

    def mark(self, cluster, on):
        at, bit = self.place(2) + (cluster - 2) // 8, 1 << (cluster - 2) % 8
        self.bytes[at] = self.bytes[at] | bit if on else self.bytes[at] & ~bit

    def set_at(self, places, slot):
        """Where the entries of a set lie, as many as its file entry says and the directory has."""
        return places[slot:slot + 1 + self.bytes[places[slot] + 1]]

    def mend_set(self, places, slot):
        entries = self.set_at(places, slot)
        data = b"".join(self.bytes[at:at + ENTRY] for at in entries)
        self.put(entries[0] + 2, struct.pack("<H", checksum(data, (2, 3), 16)))

    def mend_boot(self):
        total = checksum(self.bytes[:11 * self.sector], (106, 107, 112), 32)
        self.put(11 * self.sector, struct.pack("<I", total) * (self.sector // 4))

    def fold(self, folder, slot):
        """The folder is one cluster of zeros, or a folder already; its clusters are as long as its length says."""
        root = self.places(self.root)
        stream = root[folder + 1]
        inside = [self.place(self.word(stream + 20)) + at for at in range(0, self.cluster, ENTRY)]
        room = next(at for at, place in enumerate(inside) if self.bytes[place] == 0)
        for at, place in zip(self.set_at(root, slot), inside[room:]):
            self.put(place, self.bytes[at:at + ENTRY])
            self.bytes[at] &= 0x7F
        self.bytes[root[folder] + 4] = 0x10
        self.mend_set(root, folder)


def main(path, steps):
    image = Image(open(path, "rb").read())
    number = lambda: int(steps.pop(0), 0)
    data = lambda: bytes.fromhex(steps.pop(0))
    while steps:
        step = steps.pop(0)
        if step == "fat":
            image.put(image.fat_entry(number()), struct.pack("<I", number()))
        elif step in ("mark", "unmark"):
            image.mark(number(), step == "mark")
        elif step == "in":
            image.put(image.place(number()) + number(), data())
        elif step == "entry":
            slot, places = number(), image.places(image.root)
            image.put(places[slot] + number(), data())
            image.mend_set(places, slot)
        elif step == "fold":
            image.fold(number(), number())
        elif step in ("byte", "boot"):
            image.put(number(), data())
            if step == "boot":
                image.mend_boot()
        else:
            sys.exit(f"image.py: unknown step {step}")
    with open(path, "wb") as file:
        file.write(image.bytes)


if __name__ == "__main__":
    main(sys.argv[1], sys.argv[2:])

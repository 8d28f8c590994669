"""Random small volumes for tests/model_run.py: a geometry that keeps the limits, a root with files and other entries, FATs,
bitmaps and a system map; then, for most, damage. Places of clusters and entries are asked of tests/model.py.
"""

import geometry
import model
from model import BAD, END, ceil_div

TOP = 2**32 - 1


def make_geometry(rng):
    """Words that keep the limits; the root's cluster is still to come."""
    s = rng.choice([9] * 12 + [10, 10, 11, 12])
    c = rng.choice([0] * 7 + [1, 1, 2, 15 - s])
    size, roll = 2 ** (s + c), rng.random()
    if roll < 0.25:
        count = rng.randint(1, 12)
    elif roll < 0.92 or size > 1024:
        count = rng.randint(8, 70 if size <= 4096 else 12)
    elif roll < 0.99 or size > 512:
        count = rng.randint(71, 400)
    else:
        count = rng.randint(4097, 4200)  # bitmaps of two clusters
    if rng.random() < 0.2:
        count = max(8, count // 8 * 8)
    bitmap = ceil_div(ceil_div(count, 8), size)
    fats = rng.randint(1, 2) if 2 * bitmap <= count else 1
    first, second = 2, 2 + bitmap
    if rng.random() < 0.4:
        pairs = [(rng.randint(2, count + 2 - bitmap), rng.randint(2, count + 2 - bitmap)) for _ in range(9)]
        first, second = ([(a, b) for a, b in pairs if abs(a - b) >= bitmap] + [(first, second)])[0]
    if fats == 1:
        second = rng.choice([0, first, rng.getrandbits(32)])
    fat_offset = 24 + rng.choice([0, 0, 1, 5])
    fat_length = ceil_div(4 * (count + 2), 2**s) + rng.choice([0, 0, 1, 2])
    heap = fat_offset + fats * fat_length + rng.choice([0, 0, 1, 3])
    return [s, c, fat_offset, fat_length, fats, rng.randrange(fats), heap, count, 0, first, second]


def take_some(rng, free, count, together):
    """Some clusters out of the free ones, as many as there are: in a row where that is asked and possible; a row may be turned
    round, or its end may come first."""
    count = min(count, len(free))
    starts = [k for k in sorted(free) if all(k + i in free for i in range(count))] if together else []
    if starts:
        first = rng.choice(starts)
        taken = list(range(first, first + count))
        turn, cut = rng.random(), rng.randint(0, count)
        taken = taken[::-1] if turn < 0.1 else taken[cut:] + taken[:cut] if turn < 0.25 else taken
    else:
        taken = rng.sample(sorted(free), count)
        if rng.random() < 0.4:
            taken.sort()
    free.difference_update(taken)
    return taken


def make_set(rng, size, clusters, run, long):
    """A sound file entry set over a stream."""
    units = rng.randint(226, 255) if long else rng.choice([rng.randint(1, 12)] * 4 + [15, 16, 30, 31, rng.randint(1, 255)])
    length = len(clusters) * size - rng.choice([0, 1, rng.randrange(size)]) if clusters else 0
    valid = rng.choice([length, length, 0, rng.randint(0, length), max(0, length - size), length // size * size])
    entries = 2 + ceil_div(units, 15)
    e = bytearray(rng.randbytes(32 * entries) if rng.random() < 0.5 else 32 * entries)
    e[0], e[1], e[32], e[35] = 0x85, entries - 1, 0xC0, units
    model.put(e, 4, 2, rng.choice([0, 0x20, 0x10] + [rng.getrandbits(16) & ~0x10] * 6))
    e[33] = (3 if run else 1) | rng.choice([0, 0, rng.getrandbits(8) & 0xFC])
    for at in range(64, len(e), 32):
        e[at], e[at + 1] = 0xC1, rng.choice([0, 0, rng.getrandbits(8) & 0xFC])
    model.put(e, 40, 8, valid)
    model.put(e, 52, 4, clusters[0] if clusters else 0)
    model.put(e, 56, 8, length)
    model.put(e, 2, 2, model.checksum(e))
    return e


def unused(rng):
    return bytes([rng.randint(1, 0x7F)]) + rng.randbytes(31)


def other(rng):
    """A label, a table or a secondary that belongs to no set."""
    return bytes([rng.choice([0x81, 0x82, 0x83, 0xA0, 0xA1, 0xC0, 0xC1, 0xE0])]) + rng.randbytes(31)


def tail(rng, left):
    """The root's last entries: from a type 0 on, or with none: all unused, or none but a few at the end."""
    roll, spare = rng.random(), rng.randint(0, min(left, 6))
    if roll < 0.4:
        return [bytes(32)] * left
    if roll < 0.55:
        return ([bytes(32)] + [rng.choice([bytes(32), unused(rng), other(rng)]) for _ in range(left)])[:left]
    if roll < 0.75:
        return [unused(rng) for _ in range(left)]
    return [other(rng) for _ in range(left - spare)] + [unused(rng) for _ in range(spare)]


class Case:
    """A volume `v` with its geometry `words`, and what is known of it: `streams`, each a list of clusters with a run flag, the
    root's first; `slots`, for each stream its slot and count of entries (the root has none); `hurt`, which streams have damage in
    them or in their set; `made`, records that calls gave; `long`, whether names are; `calls`, how many there will be."""

    def __init__(self, rng):
        self.rng, self.words, self.made, self.hurt = rng, make_geometry(rng), [], []
        s, c, heap, count = self.words[0], self.words[1], self.words[6], self.words[7]
        end = heap * 2**s + count * 2 ** (s + c)
        data = bytearray(rng.randbytes(end + rng.choice([0, 0, 1, rng.randrange(2000)])))
        map = bytearray(rng.choice([bytes(ceil_div(count, 8)), rng.randbytes(ceil_div(count, 8))]))
        self.v = model.Volume(data, map, self.words)

        bitmaps = {k for bitmap in model.bitmaps(self.v) for k in bitmap}
        free = set(range(2, count + 2)) - bitmaps
        self.long = rng.random() < 0.15  # sets of 18 or 19 entries, in up to three clusters
        root = take_some(rng, free, rng.choice([1, 1, 1, 2, 3, 4]) + 2 * self.long, rng.random() < 0.4) or [2]
        self.words[8] = self.v.root = root[0]
        self.streams, self.slots = [(root, False)], [(0, 0)]
        self.fill_root(free)
        extra = take_some(rng, free, rng.choice([0, 0, 0, 1, 2]), False)
        lost = take_some(rng, free, int(len(free) * rng.choice([0, 0, 0.1, 0.5, 0.9, 1])), rng.random() < 0.5)
        in_map = bitmaps | {*extra, *(root if rng.random() < 0.7 else [])}
        in_use = {k for clusters, _ in self.streams for k in clusters} | {*lost}
        self.fill_tables(in_map, in_use | (bitmaps | {*extra} if rng.random() < 0.8 else set()))

        self.calls = rng.choice([2, 12, 30, 60])
        if rng.random() < 0.7:
            self.calls = rng.choice([3, 6, 9])
            for _ in range(rng.choice([1, 1, 2, 4])):
                rng.choice([damage_stream] * 3 + [damage_set] * 4 + [damage_shared] * 2 + [damage_any])(self)

    def fill_root(self, free):
        """Sets, removed sets, other and unused entries in any order, and the tail."""
        rng, root, size = self.rng, self.streams[0][0], model.cluster_size(self.v)
        items = [(rng.choice([other, unused])(rng), None) for _ in range(rng.randint(0, 5))]
        items += [(unused(rng) * rng.randint(1, 4), None) for _ in range(rng.randint(0, 2))]
        for _ in range(rng.choice([0, 1, 2, 3, 4, 4, 6])):
            clusters = take_some(rng, free, rng.choice([0, 1, 1, 2, 3, rng.randint(1, 20)]), rng.random() < 0.6)
            run = len(clusters) > 0 and model.rises(clusters) and rng.random() < 0.5
            items.append((make_set(rng, size, clusters, run, self.long), (clusters, run)))
        rng.shuffle(items)
        entries, total = [], len(root) * size // 32
        for item, stream in items:
            if len(entries) + len(item) // 32 > total:
                continue
            if stream and rng.random() < 0.1:
                item[0::32] = bytes(type & 0x7F for type in item[0::32])
            elif stream:
                self.slots.append((len(entries), len(item) // 32))
                self.streams.append(stream)
            entries += [item[at : at + 32] for at in range(0, len(item), 32)]
        model.store_bytes(self.v, root, 0, b"".join(entries + tail(rng, total - len(entries))))

    def fill_tables(self, in_map, in_use):
        """System map, bitmaps and FATs. The copies that are not active may differ; bits past C, and FAT entries of no chain, say
        nothing."""
        rng, v, dirt = self.rng, self.v, self.rng.choice([0, 0, 0.1, 0.5])
        for k in range(2, v.C + 2):
            store_bit(v.map, 0, k, k in in_map)
        for copy in range(v.fats):
            differs = copy != v.active and rng.random() < 0.5
            at = model.cluster_at(v, v.bitmap_first[copy])
            if rng.random() < 0.5:
                v.data[at : at + len(v.map)] = bytes(len(v.map))
            for k in range(2, v.C + 2):
                if not (differs and rng.random() < 0.3):
                    store_bit(v.data, at, k, k in in_use)
                junk = [0, BAD, BAD, END, 0xFFFFFFF8, 1, rng.getrandbits(32), rng.randint(2, v.C + 1)]
                self.store_fat(copy, k, rng.choice(junk) if rng.random() < dirt else 0)
            for clusters, run in self.streams:
                if not run and not (differs and rng.random() < 0.3):
                    for k, following in zip(clusters, clusters[1:] + [END]):
                        self.store_fat(copy, k, following)

    def store_fat(self, copy, k, value):
        at = model.entry_at(self.v, copy, k)
        self.v.data[at : at + 4] = value.to_bytes(4, "little")

    def some_set(self):
        """A set to be damaged."""
        i = self.rng.randrange(1, len(self.slots))
        self.hurt.append(i)
        slot, entries = self.slots[i]
        return slot, bytearray(model.bytes_of(self.v, self.streams[0][0])[32 * slot : 32 * (slot + entries)])

    def store_set(self, slot, e, with_checksum):
        if with_checksum:
            model.put(e, 2, 2, model.checksum(e))
        model.store_bytes(self.v, self.streams[0][0], 32 * slot, e)


def store_bit(table, at, k, on):
    byte, mask = model.bit(k)
    table[at + byte] = table[at + byte] | mask if on else table[at + byte] & ~mask


# ---- Damage -------------------------------------------------------------------------------------------------------------------


def damage_stream(case):
    """One to three faults in one stream: a chain's FAT entries, marks or the system map."""
    rng, v = case.rng, case.v
    i = rng.choice([0] + [i for i, (clusters, _) in enumerate(case.streams) if clusters])
    clusters, run = case.streams[i]
    case.hurt.append(i)
    for _ in range(rng.choice([1, 2, 2, 3])):
        k, what, bitmap = rng.choice(clusters), rng.randrange(5 if run else 0, 7), rng.choice(rng.choice(model.bitmaps(v)))
        bad = rng.choice([0, 1, v.C + 2, BAD, BAD - 1, 0xFFFFFFF8, 0xFFFFFFF8, END - 1, rng.getrandbits(32)])
        for copy in [v.active] if rng.random() < 0.5 else range(v.fats):
            if what < 5:  # no cluster, a cycle, an early end, any cluster, a bitmap's cluster
                back, aside = rng.choice(clusters[: clusters.index(k) + 1]), rng.randint(2, v.C + 1)
                case.store_fat(copy, k, [bad, back, END, aside, bitmap][what])
            if what == 4:
                case.store_fat(copy, bitmap, rng.choice([END, rng.choice(clusters), 0]))
            if what == 5 or what == 4 and rng.random() < 0.3:
                store_bit(v.data, model.cluster_at(v, v.bitmap_first[copy]), k, False)
        if what == 6:
            store_bit(v.map, 0, rng.choice([k, clusters[0]]), True)


def damage_set(case):
    """One or two fields of a set made wrong, mostly with a checksum that fits; now and then a type 0 before it."""
    rng, v = case.rng, case.v
    if len(case.slots) == 1:
        return
    size, (slot, e) = model.cluster_size(v), case.some_set()
    length, name = model.number_at(e, 56, 8), rng.randrange(64, len(e), 32)
    firsts = [0, 1, 2, v.C + 1, v.C + 2, rng.choice(rng.choice(case.streams)[0] or [0]), rng.getrandbits(32)]
    lengths = [0, 1, length + size, max(0, length - size), length + 1, v.C * size, v.C * size + 1, 2**64 - 1, rng.getrandbits(64)]
    fields = [  # place, width and values
        (rng.randrange(len(e)), 1, range(256)),
        (0, 1, [0x05, 0x84, 0]),
        (1, 1, [0, 1, 2, 3, 17, 18, 19]),
        (4, 2, [0x10, 0x30, 0xFFFF]),
        (32, 1, [0x40, 0xC1, 0]),
        (33, 1, [0, 1, 2, 3, 0xFE, e[33] ^ 2, e[33] ^ 2, e[33] ^ 2]),
        (35, 1, [0, 1, e[35] + 1 & 0xFF, max(0, e[35] - 1), 255, e[35] + 15 & 0xFF]),
        (40, 8, [length + 1 & 2**64 - 1, 2**64 - 1, rng.getrandbits(64)]),
        (52, 4, firsts),
        (52, 4, firsts),
        (56, 8, [value & 2**64 - 1 for value in lengths]),
        (56, 8, [value & 2**64 - 1 for value in lengths]),
        (name, 1, [0xC0, 0xE0, 0x41, 0]),
        (name + 1, 1, [1, 2, 3]),
    ]
    for at, width, values in rng.sample(fields, rng.choice([1, 1, 2])):
        model.put(e, at, width, rng.choice(values))
    if rng.random() < 0.3:
        model.put(e, 40, 8, rng.choice([0, model.number_at(e, 56, 8)]))
    case.store_set(slot, e, rng.random() < 0.9)
    if rng.random() < 0.1 and slot:
        model.store_bytes(v, case.streams[0][0], 32 * rng.randrange(slot), bytes(1))


def damage_shared(case):
    """A set whose stream is another's, the root's or any cluster; the map may not tell."""
    rng, v, size = case.rng, case.v, model.cluster_size(case.v)
    clusters, run = rng.choice([case.streams[0]] * 3 + [rng.choice(case.streams), ([rng.randint(2, v.C + 1)], True)])
    if len(case.slots) == 1 or not clusters:
        return
    slot, e = case.some_set()
    e[33] = 3 if run or model.rises(clusters) and rng.random() < 0.3 else 1
    model.put(e, 40, 8, len(clusters) * size - rng.randrange(size))
    model.put(e, 52, 4, clusters[0])
    model.put(e, 56, 8, len(clusters) * size)
    case.store_set(slot, e, True)
    for k in clusters if rng.random() < 0.7 else []:
        store_bit(v.map, 0, k, False)


def damage_any(case):
    """A byte of the root, or of anything from the FATs on; or a byte of the map."""
    rng, v = case.rng, case.v
    at = rng.randrange(model.entry_at(v, 0, 2), len(v.data))
    if rng.random() < 0.7:
        at = model.cluster_at(v, rng.choice(case.streams[0][0])) + rng.randrange(model.cluster_size(v))
    if rng.random() < 0.8:
        v.data[at] = rng.choice([0, 0x85, 0xFF, rng.getrandbits(8)])
    else:
        v.map[rng.randrange(len(v.map))] = rng.getrandbits(8)


def bend(case):
    """Copies of the slices and words for one call, one of them changed: mostly just outside a limit, or just inside."""
    rng, v, words = case.rng, case.v, list(case.words)
    data, map = bytearray(v.data), bytearray(v.map)
    s, c, fat_offset, fat_length, fats, _, heap, count = words[:8]
    fat_least, fats_end = ceil_div(4 * (count + 2), 2**s), fat_offset + fats * fat_length
    cluster = [0, 1, 2, count + 1, count + 2, TOP, rng.randint(2, count + 1)]
    bent = [
        [0, 8, 13, TOP, s + 1, s - 1],
        [15 - s, 16 - s, 16 - s, 16 - s, 23, TOP, 2**32 - s, c + 1],
        [0, 23, 23, TOP, fat_offset + 1, heap],
        [0, fat_least - 1, fat_least - 1, fat_least, TOP, fat_length + 1, 2**32 // 2**s],
        [0, 1, 2, 3, TOP],
        [0, 1, fats, TOP],
        [0, fats_end - 1, fats_end - 1, fats_end, TOP, heap + 1],
        [0, 0, 0, count - 1, count + 1, count + 8, 32_768, 32_769, TOP],
        cluster,
        cluster + [words[10], words[10] + 1 & TOP],
        cluster + [words[9], words[9] + 1],
    ]
    what = rng.choice([*range(geometry.WORDS), "end", "end", "map", "bitmap", "bitmap", "longest"])
    if what == "end":
        del data[model.cluster_at(v, count + 2) - rng.choice([0, 1, 1]) :]
    elif what == "map":
        map = rng.choice([map[:-1], map + b"\0", bytearray()])
    elif what == "bitmap":
        store_bit(map, 0, rng.choice([k for bitmap in model.bitmaps(v) for k in bitmap]), False)
    elif what == "longest":
        if rng.random() < 0.3:
            data += bytes(16_777_216 + rng.randint(0, 1) - len(data))
    else:
        words[what] = rng.choice(bent[what])
        if words[0] <= 13 and words[1] <= 7 and words[7] <= 32_769 and rng.random() < 0.8:
            # the slices follow, so that this limit alone is broken
            map = (map + bytes(4100))[: ceil_div(words[7], 8)]
            end = model.cluster_at(model.Volume(data, map, words), words[7] + 2)
            data += bytes(end - len(data) if len(data) < end < 2**21 else 0)
    return data, map, words

"""Documents 01 and 02 computed a second way: 01's nine calls, and reading back (02, 2027-01), its number and its part as one, in
plain Python, written from the documents and their readings (docs/DECISIONS.md) alone.

It shares nothing with the Rattle code, its definitions or the other tests. Each part stands in 01's order and carries the sentence
that it computes. The table CALLS, at the end, has for each call what can refuse it, in order, what it does where nothing does, and
what it returns refused. `answer(kind, volume, arguments)` is a call: the volume's bytes are changed in place. `tape(volume, slot)`
is what a file that can be read holds.

tests/model_run.py holds the library against it. tests/model_slips.py has wrong variants of this text.
"""

from collections import namedtuple
from types import SimpleNamespace

END, BAD = 0xFFFFFFFF, 0xFFFFFFF7
Record = namedtuple("Record", "first last count run")
EMPTY = Record(0, 0, 0, False)  # "a newly made empty record is 0 throughout, flag clear"


def ceil_div(a, b):
    return (a + b - 1) // b


# ---- The volume ---------------------------------------------------------------------------------------------------------------


class Volume:
    """The lent slice, the system map and the geometry: its words, in the order of include/exfat.h."""

    def __init__(self, data, map, geometry):
        self.data, self.map = data, map
        self.s, self.c, self.fat_offset, self.fat_length, self.fats, self.active, self.heap_offset, self.C = geometry[:8]
        self.root, self.bitmap_first = geometry[8], geometry[9:11]


def keeps_limits(v):
    map_bytes = ceil_div(v.C, 8)
    return (
        len(v.data) <= 16_777_216  # "A volume is one lent byte slice of at most 16,777,216 bytes."
        and 9 <= v.s <= 12  # "sector shift s 9..12;"
        and v.s + v.c <= 15  # "cluster shift c with s + c at most 15;"
        and v.fat_offset >= 24  # "FatOffset at least 24;"
        and 1 <= v.fats <= 2  # "one or two FATs;"
        and v.active < v.fats  # "active FAT below that number;"
        and v.fat_length * 2**v.s >= 4 * (v.C + 2)  # "FatLength times 2^s at least 4 × (C + 2);"
        and v.heap_offset >= v.fat_offset + v.fats * v.fat_length  # "ClusterHeapOffset at least FatOffset plus all FATs;"
        and 1 <= v.C <= 32_768  # "cluster count C 1..32,768;"
        and cluster_at(v, v.C + 2) <= len(v.data)  # "The slice holds the heap to its end."
        and len(v.map) == map_bytes  # "a second slice of exactly ceil(C / 8) bytes"
        # "Each bitmap fills consecutive clusters, all in the heap and in the system map; two bitmaps share none; otherwise 1."
        and all(in_heap(v, k) and system(v, k) for bitmap in bitmaps(v) for k in bitmap)
        and (v.fats == 1 or not set(bitmaps(v)[0]) & set(bitmaps(v)[1]))
    )


def cluster_size(v):
    return 2 ** (v.s + v.c)


def cluster_at(v, k):
    """Where cluster k begins in the slice."""
    return v.heap_offset * 2**v.s + (k - 2) * cluster_size(v)


def in_heap(v, k):
    return 2 <= k <= v.C + 1


def bitmaps(v):
    """The clusters of each bitmap: "first cluster of one bitmap per FAT"."""
    count = ceil_div(ceil_div(v.C, 8), cluster_size(v))
    return [range(first, first + count) for first in v.bitmap_first[: v.fats]]


def bit(k):
    """ "Cluster k has bit (k - 2) modulo 8, lowest first, of bitmap byte (k - 2) / 8." """
    return (k - 2) // 8, 1 << (k - 2) % 8


def system(v, k):
    byte, mask = bit(k)
    return v.map[byte] & mask != 0


def marked(v, k):
    """ "The active FAT's bitmap is read" """
    byte, mask = bit(k)
    return v.data[cluster_at(v, v.bitmap_first[v.active]) + byte] & mask != 0


def store_mark(v, k, on):
    byte, mask = bit(k)
    old = v.data[cluster_at(v, v.bitmap_first[v.active]) + byte]
    new = old | mask if on else old & ~mask
    for first in v.bitmap_first[: v.fats]:  # "its changed byte is written to every bitmap."
        v.data[cluster_at(v, first) + byte] = new


def entry_at(v, copy, k):
    """Where FAT `copy` has its entry of cluster k."""
    return (v.fat_offset + copy * v.fat_length) * 2**v.s + 4 * k


def fat(v, k):
    at = entry_at(v, v.active, k)
    return int.from_bytes(v.data[at : at + 4], "little")


def store_fat(v, k, value):
    for copy in range(v.fats):  # "FAT stores go to every FAT, 4 bytes, low byte first."
        at = entry_at(v, copy, k)
        v.data[at : at + 4] = value.to_bytes(4, "little")


def usable(v):
    """ "A cluster is *usable* if unmarked, not in the system map and not bad in the active FAT." All of them, as a set."""
    return {k for k in range(2, v.C + 2) if not marked(v, k) and not system(v, k) and fat(v, k) != BAD}


def free_count(v):
    """ "The free count is C less the ones in the bitmap's first C bits" """
    return v.C - sum(marked(v, k) for k in range(2, v.C + 2))


# ---- Streams ------------------------------------------------------------------------------------------------------------------


def walk(v, first):
    """A chain walked whole: a number, and its clusters. "first outside: 2; then 3 or 4" """
    if not in_heap(v, first):
        return 2, []
    clusters = [first]
    while fat(v, clusters[-1]) != END:  # "0xFFFFFFFF ends a chain"
        following = fat(v, clusters[-1])
        if not in_heap(v, following):
            return 3, []  # "a chain meets a FAT value that is neither in the heap nor the end"
        if len(clusters) == v.C:
            return 4, []  # "C clusters collected and another in the heap follows"
        clusters.append(following)
    return 0, clusters


def read_record(v, r):
    """A record's error, and its clusters."""
    if r.count == 0:  # "Count 0 is empty whatever the rest"
        return 0, []
    if r.run:
        if r.last - r.first + 1 != r.count:  # "A run must satisfy last - first + 1 = count, else 5;"
            return 5, []
        for k in range(r.first, r.last + 1):  # "then its clusters in order give 2 or 6, the earliest first."
            if not in_heap(v, k):
                return 2, []
            if not marked(v, k):
                return 6, []
        return 0, list(range(r.first, r.last + 1))
    number, clusters = walk(v, r.first)
    if number:
        return number, []
    if len(clusters) != r.count or clusters[-1] != r.last:  # "then 5,"
        return 5, []
    if not all(marked(v, k) for k in clusters):  # "then 6."
        return 6, []
    return 0, clusters


def wrap(v, k):
    """ "or 2 after cluster C+1" """
    return k if k <= v.C + 1 else 2


def lowest_run(v, fit, start, count):
    """ "the lowest run of usable clusters starting at or after the start": `count` clusters, or none. """
    length = 0
    for k in range(start, v.C + 2):
        length = length + 1 if k in fit else 0
        if length == count:
            return list(range(k - count + 1, k + 1))
    return []


def choose(v, start, count):
    """Which clusters are taken, and whether as a run. There are enough of them."""
    fit = usable(v)
    run = lowest_run(v, fit, start, count) or lowest_run(v, fit, 2, count)  # "else the lowest of all;"
    if run:
        return run, True
    # "With no such run, take usable clusters from the start to the end, then from 2"
    around = [k for k in range(start, v.C + 2) if k in fit] + [k for k in range(2, start) if k in fit]
    return around[:count], False


def link(v, clusters):
    """ "linked in that order": each entry leads to the next cluster, the last one is the end."""
    for k, following in zip(clusters, clusters[1:] + [END]):
        store_fat(v, k, following)


def take(v, start, count):
    """A new stream: its record, the new hint, and its clusters."""
    clusters, run = choose(v, start, count)
    if not run:  # "it is a run and its FAT entries are untouched."
        link(v, clusters)
    for k in clusters:
        store_mark(v, k, True)
    # "The new hint is last + 1, or 2 after cluster C+1."
    return Record(clusters[0], clusters[-1], count, run), wrap(v, clusters[-1] + 1), clusters


def grow(v, r, more, hint):
    """A record with `more` clusters: the record, the hint, and the new clusters."""
    if more == 0:  # "0 changes nothing."
        return r, hint, []
    if r.count == 0:  # "An empty record is an allocation without near."
        return take(v, hint, more)
    _, old = read_record(v, r)
    new, run = list(range(r.last + 1, r.last + 1 + more)), r.run
    if not (run and set(new) <= usable(v)):  # "A run keeps its flag if the next clusters are usable."
        # "new clusters are sought from last + 1 as above and linked on."
        new, _ = choose(v, wrap(v, r.last + 1), more)
        # "Otherwise all its clusters are first linked in every FAT and the flag cleared;"
        link(v, old + new if run else old[-1:] + new)
        run = False
    for k in new:
        store_mark(v, k, True)
    return Record(r.first, new[-1], r.count + more, run), wrap(v, new[-1] + 1), new


def rises(clusters):
    return all(b == a + 1 for a, b in zip(clusters, clusters[1:]))


def cut(v, r, keep):
    """A record cut to `keep` clusters."""
    _, clusters = read_record(v, r)
    kept, freed = clusters[:keep], clusters[keep:]
    if kept and not r.run:
        store_fat(v, kept[-1], END)  # "A chain's last kept entry becomes the end."
    for k in freed:  # "Each freed cluster, of a run too, gets FAT entry 0 and is unmarked."
        store_fat(v, k, 0)
        store_mark(v, k, False)
    if not kept:
        return EMPTY
    # "A kept chain whose numbers rise by one becomes a run, one cluster included."
    return Record(kept[0], kept[-1], keep, r.run or rises(kept))


# ---- Entries and files --------------------------------------------------------------------------------------------------------


def bytes_of(v, clusters):
    return b"".join(v.data[cluster_at(v, k) : cluster_at(v, k + 1)] for k in clusters)


def store_bytes(v, clusters, offset, data):
    """Bytes of a stream from the offset on become the data."""
    size = cluster_size(v)
    while data:
        piece, at = data[: size - offset % size], cluster_at(v, clusters[offset // size]) + offset % size
        v.data[at : at + len(piece)] = piece
        offset, data = offset + len(piece), data[len(piece) :]


def number_at(e, at, size):
    return int.from_bytes(e[at : at + size], "little")


def put(e, at, size, value):
    e[at : at + size] = value.to_bytes(size, "little")


def checksum(e):
    """ "starts at 0: for each byte except 2 and 3 of the set, rotate right by one in 16 bits, then add the byte and let the sum
    wrap." """
    total = 0
    for at, byte in enumerate(e):
        if at not in (2, 3):
            total = ((total >> 1 | (total & 1) << 15) + byte) % 2**16
    return total


class Fields:
    """What a set, the bytes `e`, says of its file."""

    def __init__(self, e):
        self.attributes, self.flags, self.name_length = number_at(e, 4, 2), e[32 + 1], e[32 + 3]
        self.valid, self.first, self.length = number_at(e, 32 + 8, 8), number_at(e, 32 + 20, 4), number_at(e, 32 + 24, 8)
        self.run = self.flags & 2 != 0


def sound_set(v, root, slot):
    """The set of the sound file entry at a slot, of the root's bytes; or none."""
    types = root[0::32]
    if slot >= len(types) or 0 in types[:slot]:  # "A sound file entry lies before the first entry whose type byte is 0,"
        return None
    secondaries = root[32 * slot + 1]
    if types[slot] != 0x85 or not 2 <= secondaries <= 18:  # "begins 0x85, has SecondaryCount 2..18"
        return None
    if slot + 1 + secondaries > len(types):  # "fits the root,"
        return None
    e = bytearray(root[32 * slot : 32 * (slot + 1 + secondaries)])  # "A set is copied into a 608-byte array"
    f = Fields(e)
    count = ceil_div(f.length, cluster_size(v))
    sound = (
        secondaries == 1 + ceil_div(f.name_length, 15)  # "equal to 1 + ceil(NameLength / 15),"
        and number_at(e, 2, 2) == checksum(e)  # "has the right checksum,"
        and e[32] == 0xC0  # "then 0xC0 with flag bit 0 set,"
        and f.flags & 1 == 1
        and all(type == 0xC1 for type in e[64::32])  # "then 0xC1 entries with flag bits 0 and 1 clear;"
        and all(flags & 3 == 0 for flags in e[65::32])
        and f.name_length != 0  # "NameLength is not 0;"
        and f.valid <= f.length  # "valid length at most length;"
        and (
            (f.first == 0 and not f.run)  # "length 0 means first cluster 0 and no run flag;"
            if f.length == 0
            # "otherwise first is in the heap, ceil(length / cluster size) is at most C and a run ends in the heap."
            else (in_heap(v, f.first) and count <= v.C and (not f.run or in_heap(v, f.first + count - 1)))
        )
    )
    return e if sound else None


def refresh(k, r, valid, length):
    """Write's and set length's last store: the set with stream, lengths, stamp, attribute and checksum."""
    e, time, increment, offset = k.set, k.stamp[:4], k.stamp[4], k.stamp[5]
    e[32 + 1] = 3 if r.run else 1  # "Both write the flags byte whole (1, or 3 for a run),"
    put(e, 32 + 20, 4, r.first)
    put(e, 32 + 8, 8, valid)
    put(e, 32 + 24, 8, length)
    e[12:16], e[21], e[23] = time, increment, offset  # "set the modified and accessed stamps from the one given,"
    e[16:20], e[24] = time, offset  # "(accessed, no increment)"
    put(e, 4, 2, number_at(e, 4, 2) | 0x20)  # "or 0x20 into the attributes,"
    put(e, 2, 2, checksum(e))  # "and store the checksum."
    store_bytes(k.v, k.root, 32 * k.slot, e)


def new_set(k):
    units = len(k.name)
    e = bytearray(32 * entries_of(k))  # "every other byte of its set, units past the name included, is 0."
    e[0], e[1] = 0x85, 1 + ceil_div(units, 15)
    put(e, 4, 2, k.attributes)
    created, modified, accessed = k.stamps[0:6], k.stamps[6:12], k.stamps[12:18]  # "A new file gets all three stamps,"
    e[8:12], e[20], e[22] = created[:4], created[4], created[5]
    e[12:16], e[21], e[23] = modified[:4], modified[4], modified[5]
    e[16:20], e[24] = accessed[:4], accessed[5]
    e[32], e[33], e[35] = 0xC0, 1, units  # "flags 1 and an empty stream;"
    put(e, 36, 2, k.hash)
    for i in range(ceil_div(units, 15)):  # "Name entry: 15 units of 2 bytes from 2."
        e[64 + 32 * i] = 0xC1
        for j, unit in enumerate(k.name[15 * i : 15 * i + 15]):
            put(e, 64 + 32 * i + 2 + 2 * j, 2, unit)
    put(e, 2, 2, checksum(e))
    return e


def entries_of(k):
    """How many entries a new set takes."""
    return 2 + ceil_div(len(k.name), 15)


def place_of(root, count):
    """ "the lowest sequence of enough entries with type bit 0x80 clear": its slot, or none."""
    length = 0
    for slot, type in enumerate(root[0::32]):
        length = length + 1 if type & 0x80 == 0 else 0
        if length == count:
            return slot - count + 1
    return None


def tape(v, slot):
    """ "A file's tape is its stored bytes below valid and 0 from valid to length." """
    k = SimpleNamespace(v=v, slot=slot)
    for test in (root, entry, directory, stream):
        test(k)
    return bytes_of(v, k.clusters)[: k.fields.valid] + bytes(k.fields.length - k.fields.valid)


def file_record(k):
    """The file's record, once its stream has been read."""
    return Record(k.fields.first, k.clusters[-1], len(k.clusters), k.fields.run) if k.clusters else EMPTY


# ---- What refuses a call: each cause gives a number, or 0 where it has nothing to say -------------------------------------------

ACCEPTED = -1  # the call passes, and what follows in the list is not tested


def limits(k):
    return 0 if keeps_limits(k.v) else 1


def hint(k):
    return 0 if in_heap(k.v, k.hint) else 2


def short_list(k):
    return 14 if len(k.list) < k.record.count else 0


def count_0(k):
    return ACCEPTED if k.count == 0 else 0


def above_free(k):
    return 7 if k.count > free_count(k.v) else 0  # "More than the free count: 7."


def near(k):
    return 2 if k.has_near and not in_heap(k.v, k.near) else 0  # "Near outside the heap: 2"


def more_0(k):
    return ACCEPTED if k.more == 0 else 0


def above_all(k):
    # "Count plus more above C, or more above the free count: 7;"
    return 7 if k.record.count + k.more > k.v.C or k.more > free_count(k.v) else 0


def record(k):
    number, k.clusters = read_record(k.v, k.record)
    return number


def keeps_all(k):
    return ACCEPTED if k.keep >= k.record.count else 0


def freed_system(k):
    return 9 if any(system(k.v, x) for x in k.clusters[k.keep :]) else 0  # "then 9 for the freed ones."


def root(k):
    """ "The root is the chain from the root cluster; its 2, 3, 4, 6 and 9, in this order, come after the hint's." """
    number, k.root = walk(k.v, k.v.root)
    if number:
        return number
    if not all(marked(k.v, x) for x in k.root):
        return 6
    return 9 if any(x in bitmap for x in k.root for bitmap in bitmaps(k.v)) else 0  # "or a bitmap cluster in the root"


def name(k):
    """ "name of 1 to 255 units of 16 bits, none below 32, none of 34, 42, 47, 58, 60, 62, 63, 92, 124, not "." or "..": 12;" """
    refused = (
        not 1 <= len(k.name) <= 255
        or any(unit < 32 or unit in (34, 42, 47, 58, 60, 62, 63, 92, 124) for unit in k.name)
        or k.name in ([46], [46, 46])
    )
    return 12 if refused else 0


def attributes(k):
    return 13 if k.attributes & ~0x27 else 0  # "attribute outside 0x27"


def entry(k):
    k.set = sound_set(k.v, bytes_of(k.v, k.root), k.slot)
    if k.set is None:
        return 10  # "no sound file entry at the slot"
    k.fields = Fields(k.set)
    return 0


def directory(k):
    return 11 if k.fields.attributes & 0x10 else 0  # "the entry has attribute 0x10 (directory)"


def stream(k):
    """ "then 3 or 4 from a chain's walk, 5 for another count, 6, and 9" """
    f, count = k.fields, ceil_div(k.fields.length, cluster_size(k.v))
    if f.run or count == 0:
        number, k.clusters = 0, list(range(f.first, f.first + count))
    else:
        number, k.clusters = walk(k.v, f.first)
    if number:
        return number
    if len(k.clusters) != count:
        return 5
    if not all(marked(k.v, x) for x in k.clusters):
        return 6
    return 9 if any(system(k.v, x) for x in k.clusters) else 0


def zero_slice(k):
    return 15 if not k.zeros or any(k.zeros) else 0  # "the zero slice is empty or holds another byte"


def empty_data(k):
    return ACCEPTED if not k.data else 0


def past_end(k):
    return 8 if k.offset + len(k.data) > 2**64 - 1 else 0  # "offset plus data length above 2^64 - 1"


def few(k):
    return 7 if ADDS[k.kind](k) > len(usable(k.v)) else 0  # "too few clusters"


# ---- How many clusters a call must add ----------------------------------------------------------------------------------------


def added(k, length):
    """ "A call must add what its new length takes beyond the old;" """
    size = cluster_size(k.v)
    return max(0, ceil_div(length, size) - ceil_div(k.fields.length, size))


def end_of(k):
    """ "length and valid become the larger of themselves and the end": the length after a write. """
    return max(k.fields.length, k.offset + len(k.data))


def growth(k):
    """ "a new file the fewest zeroed clusters that give the root 2 + ceil(units / 15) entries in a row with type bit 0x80
    clear;" """
    old, clusters = bytes_of(k.v, k.root), 0
    while place_of(old + bytes(clusters * cluster_size(k.v)), entries_of(k)) is None:
        clusters += 1
    return clusters


ADDS = {
    "allocate": lambda k: k.count,
    "extend": lambda k: k.more,
    "new file": growth,
    "write": lambda k: added(k, end_of(k)),
    "set length": lambda k: added(k, k.length),
}


# ---- What an accepted call does: gives the words of its answer ------------------------------------------------------------------


def do_free_count(k):
    return [free_count(k.v)]


def do_listing(k):
    k.list[: len(k.clusters)] = k.clusters  # "writes count numbers and leaves the rest of the list"
    return []


def do_allocate(k):
    if k.count == 0:  # "0 gives the empty record."
        return [*EMPTY, k.hint]
    start = k.near if k.has_near else k.hint  # "The start is near, or the hint without it."
    made, new_hint, _ = take(k.v, start, k.count)
    return [*made, new_hint]


def do_extend(k):
    longer, new_hint, _ = grow(k.v, k.record, k.more, k.hint)
    return [*longer, new_hint]


def do_shrink(k):
    if k.keep >= k.record.count:  # "keep at or above count does nothing, unread."
        return [*k.record, k.hint]
    return [*cut(k.v, k.record, k.keep), k.hint]  # "Hint unchanged."


def do_new_file(k):
    r, new_hint = Record(k.root[0], k.root[-1], len(k.root), False), k.hint
    # "the root grows one zeroed cluster at a time until it fits."
    while place_of(bytes_of(k.v, k.root), entries_of(k)) is None:
        r, new_hint, new = grow(k.v, r, 1, new_hint)
        store_bytes(k.v, new, 0, bytes(cluster_size(k.v)))
        k.root += new
    slot = place_of(bytes_of(k.v, k.root), entries_of(k))  # "The answer is the set's slot"
    store_bytes(k.v, k.root, 32 * slot, new_set(k))
    return [slot, new_hint]


def do_write(k):
    valid, length, r = k.fields.valid, k.fields.length, file_record(k)
    if not k.data:  # "empty data only refreshes the entry."
        refresh(k, r, valid, length)
        return [k.hint]
    r, new_hint, new = grow(k.v, r, added(k, end_of(k)), k.hint)  # "grow;"
    clusters = k.clusters + new
    if k.offset > valid:  # "if offset passes valid, zero valid up to offset;"
        store_bytes(k.v, clusters, valid, bytes(k.offset - valid))
    store_bytes(k.v, clusters, k.offset, k.data)  # "store;"
    end = k.offset + len(k.data)  # "length and valid become the larger of themselves and the end."
    refresh(k, r, max(valid, end), max(length, end))
    return [new_hint]


def do_set_length(k):
    valid, size, r, new_hint = k.fields.valid, cluster_size(k.v), file_record(k), k.hint
    if k.length < k.fields.length:  # "shorter caps valid and frees,"
        valid = min(valid, k.length)
        if ceil_div(k.length, size) < r.count:
            r = cut(k.v, r, ceil_div(k.length, size))
        else:  # "and a kept chain whose numbers rise by one becomes a run even where nothing is freed;"
            r = r._replace(run=r.run or rises(k.clusters))
    if k.length > k.fields.length:  # "longer adds clusters"
        r, new_hint, new = grow(k.v, r, added(k, k.length), k.hint)
        # "and zeroes from valid to the smaller of valid rounded up to whole clusters and the new length, valid unchanged."
        until = min(ceil_div(valid, size) * size, k.length)
        store_bytes(k.v, k.clusters + new, valid, bytes(until - valid))
    refresh(k, r, valid, k.length)
    return [new_hint]


def do_remove(k):
    for at in range(0, len(k.set), 32):  # "bit 0x80 of each entry cleared,"
        k.set[at] &= 0x7F
    store_bytes(k.v, k.root, 32 * k.slot, k.set)
    if k.clusters:
        cut(k.v, file_record(k), 0)  # "stream freed."
    return [k.hint]


def do_read(k):
    valid, length, size = k.fields.valid, k.fields.length, cluster_size(k.v)
    if k.offset >= length:
        return [0, 0, 0]  # "At or past the length it is an empty part."
    if k.offset >= valid:  # "From the valid length to the length, the answer is a part of a lent slice of zeros instead,"
        return [1, 0, min(length - k.offset, len(k.zeros))]  # "as long as both allow."
    # "the longest part of the volume that starts there, stays below the valid length and runs through consecutive clusters."
    at = k.offset // size
    end = at + 1
    while end < len(k.clusters) and k.clusters[end] == k.clusters[end - 1] + 1:
        end += 1
    return [0, cluster_at(k.v, k.clusters[at]) + k.offset % size, min(valid, end * size) - k.offset]


# "Every call tests 1 first, then the hint if it has one; the rest follows in the order told below."
Call = namedtuple("Call", "causes does refused")
OPEN = [limits, hint, root, entry, directory, stream]
READ = [limits, zero_slice, root, entry, directory, stream]  # "Neither carries a hint. Checks: 15, .. after 1."
CALLS = {
    "free count": Call([limits], do_free_count, lambda k: [0]),
    "listing": Call([limits, short_list, record], do_listing, lambda k: []),
    # "A refused allocation returns the empty record, a refused free count 0."
    "allocate": Call([limits, hint, count_0, above_free, near, few], do_allocate, lambda k: [*EMPTY, k.hint]),
    "extend": Call([limits, hint, more_0, above_all, record, few], do_extend, lambda k: [*k.record, k.hint]),
    "shrink": Call([limits, hint, keeps_all, record, freed_system], do_shrink, lambda k: [*k.record, k.hint]),
    "new file": Call([limits, hint, root, name, attributes, few], do_new_file, lambda k: [0, k.hint]),
    "write": Call([*OPEN, empty_data, past_end, few], do_write, lambda k: [k.hint]),
    "set length": Call([*OPEN, few], do_set_length, lambda k: [k.hint]),
    "remove": Call(OPEN, do_remove, lambda k: [k.hint]),
    "read": Call(READ, do_read, lambda k: [0, 0, 0]),  # "a refused read's part is empty."
}

# the numbers that a cause can give
NUMBERS = {
    **{limits: [1], hint: [2], near: [2], above_free: [7], above_all: [7], few: [7], past_end: [8], freed_system: [9]},
    **{entry: [10], directory: [11], name: [12], attributes: [13], short_list: [14], zero_slice: [15], record: [2, 3, 4, 5, 6]},
    **{root: [2, 3, 4, 6, 9], stream: [3, 4, 5, 6, 9], count_0: [], more_0: [], keeps_all: [], empty_data: []},
}


def answer(kind, v, arguments):
    """A call on a volume: its number, the cause that refused it ("" on success) and the eight words of `out`."""
    k, call = SimpleNamespace(kind=kind, v=v, **arguments), CALLS[kind]
    number, cause = 0, ""
    for test in call.causes:
        number, cause = test(k), test.__name__
        if number:
            break
    if number in (0, ACCEPTED):
        number, cause, words = 0, "", call.does(k)
    else:
        words = call.refused(k)
    return number, cause, [int(word) for word in words] + [0] * (8 - len(words))

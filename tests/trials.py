#!/usr/bin/env python3
"""What 01 says of its marked trials, and 02 of reads (2027-01), as the program of crates/trials_run prints it.

Without arguments: print the lines. With --check FILE: compare them with FILE.
Every number here is 01's or 02's or follows from a sentence of them; nothing is computed by the writer's rules.
"""

import sys

END, BAD = 0xFFFFFFFF, 0xFFFFFFF7
NEW = (0x03, 0x00)
BAD6 = {6: BAD}
OLD = {4: 9, 5: END, 6: 0x12345678}
EMPTY = (0, 0, 0, "chain")


def chain(*clusters):
    """The FAT entries of a chain."""
    return dict(zip(clusters, clusters[1:] + (END,)))


LIST6 = [10, 11, 12, 13, 14, 15, 16, 17, 4, 5, 7, 8, 9]

# name; answer (number, record, hint), or None where a record is only listed; its listing (number, clusters); the volume after it:
# bitmap bytes, FAT entries that are not 0 besides the root's
TRIALS = [
    ("T1", (0, EMPTY, 4), (0, []), NEW, {}),
    ("T2", (0, (4, 6, 3, "run"), 7), (0, [4, 5, 6]), (0x1F, 0x00), {}),
    ("T3", (0, (4, 17, 14, "run"), 2), (0, list(range(4, 18))), (0xFF, 0xFF), {}),
    ("T4", (7, EMPTY, 4), (0, []), NEW, {}),
    ("T5", (0, (7, 9, 3, "run"), 10), (0, [7, 8, 9]), (0xE3, 0x00), BAD6),
    ("T6", (0, (10, 9, 13, "chain"), 10), (0, LIST6), (0xEF, 0xFF), {**BAD6, **chain(*LIST6)}),
    ("T7", (7, EMPTY, 10), (0, []), NEW, BAD6),
    ("T8", (0, (4, 8, 4, "chain"), 9), (0, [4, 5, 6, 8]), (0x7F, 0x00), chain(4, 5, 6, 8)),
    ("T9", (0, (4, 6, 3, "run"), 9), (0, [4, 5, 6]), (0x3F, 0x00), chain(4, 5, 6)),
    ("T10", None, (4, []), (0x0F, 0x00), {4: 5, 5: 4}),
    ("T10 extend", (4, (4, 5, 2, "chain"), 4), (4, []), (0x0F, 0x00), {4: 5, 5: 4}),
    ("T10 shrink", (4, (4, 5, 2, "chain"), 4), (4, []), (0x0F, 0x00), {4: 5, 5: 4}),
    ("old entries stay", (0, (4, 6, 3, "run"), 7), (0, [4, 5, 6]), (0x1F, 0x00), OLD),
    ("FFFFFFF8 is no end", None, (3, []), (0x0F, 0x00), {4: 5, 5: 0xFFFFFFF8}),
    ("FFFFFFF8 extend", (3, (4, 5, 2, "chain"), 4), (3, []), (0x0F, 0x00), {4: 5, 5: 0xFFFFFFF8}),
    ("FFFFFFF8 shrink", (3, (4, 5, 2, "chain"), 4), (3, []), (0x0F, 0x00), {4: 5, 5: 0xFFFFFFF8}),
]


# name; answer (number, slot, hint); bitmap byte; checksum, attributes, stamp and length of the set; how many of the bytes behind
# byte 700 of the file are zeroed, the others of clusters 5 and 6 keep 0xB5
EARLIER, GIVEN = (0x5A210000, 10, 0x84), (0x5B65A80F, 150, 0xA0)
LENGTHS = [
    ("T11", (0, 0, 7), 0x1F, 0x21, 1300, 1024 - 700),
    ("T12", (0, 0, 4), 0x0F, 0x21, 900, 900 - 700),
]


# reads of a file on the chain 4, 5, 9 with so many lent zeros: name; number; part: of the volume or of the zeros, its first byte there,
# its length. Cluster k begins at byte 16,384 + 512 (k - 2).
LENGTH, VALID, ZEROS = 1400, 1100, 100
EMPTY_PART = ("volume", 0, 0)
READS = [
    ("R1", 0, ("volume", 16384 + 512 * 2 + 100, 2 * 512 - 100)),
    ("R2", 0, ("volume", 16384 + 512 * 7, VALID - 1024)),
    ("R3", 0, ("zeros", 0, ZEROS)),
    ("R4", 0, ("zeros", 0, LENGTH - 1350)),
    ("R5", 0, EMPTY_PART),
    ("R6", 0, EMPTY_PART),
    ("R7", 15, EMPTY_PART),
    ("R8", 15, EMPTY_PART),
    ("R9", 10, EMPTY_PART),
]


def entry_set(attributes, stamp, length):
    """The set of file "a": valid length 700, run from cluster 4, created at the earlier stamp."""
    value, increment, offset = stamp
    head = bytes([0x85, 2, 0, 0, attributes, 0, 0, 0])
    times = b"".join(v.to_bytes(4, "little") for v in (EARLIER[0], value, value))
    small = bytes([EARLIER[1], increment, EARLIER[2], offset, offset])
    stream = bytes([0xC0, 3, 0, 1, 0x34, 0x12, 0, 0]) + (700).to_bytes(8, "little") + bytes(4)
    stream += (4).to_bytes(4, "little") + length.to_bytes(8, "little")
    whole = bytearray((head + times + small).ljust(32, b"\0") + stream + bytes([0xC1, 0, 0x61]).ljust(32, b"\0"))
    whole[2:4] = checksum(whole).to_bytes(2, "little")
    return whole


def volume(marks, links):
    """The 48 sectors."""
    bytes_ = bytearray(24576)
    for k, v in {3: END, **links}.items():
        bytes_[12288 + 4 * k : 12292 + 4 * k] = v.to_bytes(4, "little")
    bytes_[16384:16386] = bytes(marks)
    return bytes_


def checksum(bytes_):
    """01's checksum, over all bytes."""
    sum_ = 0
    for k, b in enumerate(bytes_):
        if k not in (2, 3):
            sum_ = ((sum_ >> 1 | (sum_ & 1) << 15) + b) & 0xFFFF
    return sum_


def sum_of(bytes_):
    """The program's own checksum of a volume: each word of eight bytes into the sum before it, turned left by one and folded."""
    sum_ = 0
    for at in range(0, len(bytes_), 8):
        turned = sum_ << 1 & (1 << 64) - 1 | sum_ >> 63
        sum_ = turned ^ sum_ >> 57 ^ int.from_bytes(bytes_[at : at + 8], "little")
    return sum_


def lines():
    for name, answer, (number, clusters), marks, links in TRIALS:
        vol = volume(marks, links)
        yield name
        if answer:
            n, (first, last, count, kind), hint = answer
            yield f"  answer {n} {first} {last} {count} {kind} {hint}"
        yield "  list " + " ".join(str(k) for k in [number] + clusters + [99] * (16 - len(clusters)))
        yield f"  free 0 {16 - sum(bin(b).count('1') for b in marks)}"
        yield "  marks " + " ".join(f"{b:02x}" for b in marks)
        yield "  fat " + " ".join(f"{({3: END} | links).get(k, 0):08x}" for k in range(18))
        yield f"  sum {sum_of(vol):016x}"


def length_lines():
    for name, (number, slot, hint), mark, attributes, length, zeroed in LENGTHS:
        vol = volume((mark, 0), {})
        vol[16896:16992] = entry_set(attributes, GIVEN, length)
        vol[17408:18944] = b"\xA5" * 700 + bytes(zeroed) + b"\xB5" * (836 - zeroed)
        yield name
        yield f"  answer {number} {slot} {hint}"
        yield f"  free 0 {16 - bin(mark).count('1')}"
        yield f"  marks {mark:02x} 00"
        yield "  fat " + " ".join(f"{({3: END}).get(k, 0):08x}" for k in range(18))
        yield f"  sum {sum_of(vol):016x}"
        for label, at, n in (("set", 16896, 96), ("from 696", 18104, 8), ("from 896", 18304, 8), ("from 1020", 18428, 8)):
            yield f"  {label} " + " ".join(f"{b:02x}" for b in vol[at : at + n])


def read_lines():
    for name, number, (kind, start, length) in READS:
        yield name
        yield f"  read {number} {kind} {start} {length}"


def all_lines():
    """In the program's order: T11 and T12 behind T10, the reads behind all."""
    first = list(lines())
    cut = first.index("old entries stay")
    return first[:cut] + list(length_lines()) + first[cut:] + list(read_lines())


def main():
    text = "".join(line + "\n" for line in all_lines())
    if sys.argv[1:2] == ["--check"]:
        with open(sys.argv[2], encoding="utf-8") as f:
            if f.read() != text:
                sys.exit(f"trials: {sys.argv[2]} does not hold the lines of tests/trials.py")
        print(f"trials: {len(TRIALS) + len(LENGTHS)} trials and {len(READS)} reads, as stored")
    else:
        sys.stdout.write(text)


if __name__ == "__main__":
    main()

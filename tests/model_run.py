#!/usr/bin/env python3
"""The library held against tests/model.py: random volumes, tidy, damaged and bent, and random calls on them, through ctypes.

    model_run.py LIBRARY --share          the gate's share, then each wrong variant of the model (tests/model_slips.py) within it
    model_run.py LIBRARY --calls N --seed SEED
    model_run.py LIBRARY --case SEED:N    one case again, each call printed

Case N of a seed is one volume and a list of calls on it; it depends on nothing but SEED and N. Compared after each call: the
number, all words of `out`, the whole list, every byte of the volume, and that map, geometry and the other arguments stay as they
were. A read is both calls of the library, that of the number and that of the part; after most accepted ones the file is fetched
whole, part by part, and compared with its tape.
"""

import argparse
import collections
import ctypes
import pathlib
import random
import sys
import types

import model
from model import Record, ceil_div
from model_slips import SLIPS
from model_volumes import TOP, Case, bend

SHARE_CALLS, SHARE_SEED = 20_000, 3


# ---- Calls --------------------------------------------------------------------------------------------------------------------

KINDS = ["free count"] + ["listing", "allocate", "extend", "shrink", "new file"] * 3 + ["remove"] * 4
KINDS += ["write", "set length", "read"] * 5


def some_cluster(rng, v):
    """A hint or a near cluster."""
    return rng.choice([rng.randint(2, v.C + 1)] * 9 + [2, v.C + 1] + [rng.choice([0, 1, v.C + 2, TOP])])


def some_record(case):
    rng, v = case.rng, case.v
    clusters, run = case.streams[rng.choice(case.hurt)] if case.hurt and rng.random() < 0.4 else rng.choice(case.streams)
    real = [clusters[0], clusters[-1], len(clusters), int(run)] if clusters else [0, 0, 0, 0]
    if case.made and rng.random() < 0.4:
        real = list(rng.choice(case.made))
    roll = rng.random()
    if roll < 0.25:
        at = rng.randrange(4)
        real[at] = 1 - real[at] if at == 3 else max(0, min(TOP, real[at] + rng.choice([-1, 1])))
    elif roll < 0.35:
        real = [rng.choice([0, 1, 2, v.C + 1, v.C + 2, TOP, rng.randint(2, v.C + 1)]) for _ in "abc"] + [rng.randrange(2)]
    elif roll < 0.42:
        real = [rng.getrandbits(32), rng.choice([0, 7, TOP]), 0, rng.randrange(2)]
    elif roll < 0.45:
        first = rng.choice([rng.randint(2, v.C + 1), max(2, v.C - 1)])
        real = [first, first + rng.randrange(4), 0, 1]
        real[2] = real[1] - first + 1
    return Record(real[0], real[1], real[2], bool(real[3]))


def some_slot(case):
    """A slot, and what stands there."""
    rng, v = case.rng, case.v
    number, root = model.walk(v, v.root)
    types = model.bytes_of(v, case.streams[0][0] if number else root)[0::32]
    real = [slot for slot, type in enumerate(types) if type == 0x85] or [0]
    slot = rng.choice(real)
    if case.hurt and rng.random() < 0.4:
        slot, _ = case.slots[rng.choice(case.hurt)]
    if rng.random() < 0.15:
        slot = rng.choice([slot + 1, max(0, slot - 1), rng.randrange(len(types)), len(types), len(types) - 1, slot + 2**27, TOP])
    at = 32 * slot + 32
    e = bytes(32) + model.bytes_of(v, root if not number else [])[at : at + 32]
    return slot, model.Fields(e if len(e) == 64 else bytes(64))


def some_length(case, slot, fields):
    """An offset or a length near something that matters, its own set where the file lies over the root, now and then far out."""
    rng, size = case.rng, model.cluster_size(case.v)
    length, valid = fields.length, fields.valid
    borders = [length // size * size, valid // size * size, ceil_div(length, size) * size]
    over_root = [32 * slot] * 8 if fields.first == case.v.root else []
    base = rng.choice([0, length, length, valid, valid] + borders + over_root)
    step = rng.choice([0, 0, 1, -1, -1, rng.randint(0, size), -rng.randint(0, size), size, -size, 3 * size])
    heap = case.v.C * size
    far = rng.choice([2**64 - 1, 2**64 - 1, 2**64 - rng.randint(1, 2000), heap, rng.getrandbits(64), rng.randint(0, heap)])
    return max(0, min(2**64 - 1, base + step)) if rng.random() < 0.8 else far


def some_offset(case, fields):
    """An offset of a read: a border of the file or of one of its clusters, a byte beside it, any byte; now and then far out."""
    rng, size = case.rng, model.cluster_size(case.v)
    length, valid = fields.length, fields.valid
    cluster = rng.randint(0, min(ceil_div(length, size), case.v.C)) * size
    base = rng.choice([0, valid, valid, length, length, cluster, cluster, cluster])
    inside = rng.randint(0, max(0, min(length, case.v.C * size) - 1))
    far = rng.choice([2**32, 2**32 + inside, 2**64 - 1, 2**64 - rng.randint(1, 2000), len(case.v.data), rng.getrandbits(64)])
    near = max(0, min(2**64 - 1, base + rng.choice([-1, 0, 0, 1])))
    return rng.choice([near] * 6 + [inside] * 3 + [far])


def some_zeros(case):
    """A zero slice: most are right, of any length from 1 on; else there is none, or one byte of it is another."""
    rng = case.rng
    zeros = bytearray(rng.choice([1, 1, 2, rng.randint(3, 40), model.cluster_size(case.v), 4096, rng.randint(1, 5000)]))
    roll = rng.random()
    if roll < 0.05:
        return b""
    if roll < 0.2:
        at = rng.choice([0, len(zeros) // 2, len(zeros) - 1, rng.randrange(len(zeros))])
        zeros[at] = rng.choice([1, 0x80, 0xFF, rng.randint(1, 255)])
    return bytes(zeros)


def some_name(rng, long):
    length = rng.randint(226, 255)
    if not long:
        length = rng.choice([rng.randint(1, 14)] * 6 + [15, 16, 30, 31, 45, rng.randint(1, 255), 255])
    name = [rng.choice([rng.randint(97, 122), rng.randint(125, 65535), 33, 46, 32]) for _ in range(length)]
    roll = rng.random()
    if roll < 0.1:
        name[rng.randrange(length)] = rng.choice([0, 31, 34, 42, 47, 58, 60, 62, 63, 92, 124])
    elif roll < 0.15:
        name = rng.choice([[], [46], [46, 46], [46] * 3, [65] * 256, [65] * 300])
    return name


def make_call(case):
    """A kind, and its arguments by the model's names."""
    rng, v = case.rng, case.v
    kind = rng.choice(KINDS)
    a = {} if kind in ("free count", "listing", "read") else {"hint": some_cluster(rng, v)}
    if kind in ("listing", "extend", "shrink"):
        a["record"] = r = some_record(case)
    if kind == "listing":
        length = rng.choice([r.count, r.count, r.count + 3, r.count - 1, 0]) if r.count < 5000 else rng.randint(0, 9)
        a["list"] = [rng.getrandbits(32) for _ in range(max(0, length))]
    amount = rng.choice([1, 1, 2, 3, 4, rng.randint(0, v.C), 0, rng.choice([v.C, v.C + 1, TOP])])
    if kind == "allocate":
        a.update(count=amount, has_near=rng.choice([0, 0, 1, 1, 2, 2**31]), near=some_cluster(rng, v))
    if kind == "extend":
        a["more"] = amount
    if kind == "shrink":
        a["keep"] = max(0, rng.choice([r.count - 1, r.count - 2, 0, 1, r.count // 2, r.count, TOP, amount]))
    if kind == "new file":
        wide = rng.getrandbits(16) if rng.random() < 0.15 else rng.getrandbits(16) & 0x27
        a.update(name=some_name(rng, case.long), attributes=wide, hash=rng.getrandbits(16), stamps=rng.randbytes(18))
    if kind in ("write", "set length", "remove", "read"):
        a["slot"], fields = some_slot(case)
    if kind == "write":
        size = model.cluster_size(v)
        length = rng.choice([0, 1, rng.randint(1, 40), rng.randint(1, 40), rng.randint(1, size), size, rng.randint(1, 4 * size)])
        a.update(offset=some_length(case, a["slot"], fields), data=rng.randbytes(length), stamp=rng.randbytes(6))
    if kind == "set length":
        a.update(length=some_length(case, a["slot"], fields), stamp=rng.randbytes(6))
    if kind == "read":
        a.update(offset=some_offset(case, fields), zeros=some_zeros(case))
    return kind, a


class Library:
    """The calls of include/exfat.h."""

    NAMES = {kind: "exfat_" + ("clusters" if kind == "listing" else kind.replace(" ", "_")) for kind in model.CALLS}

    def __init__(self, path):
        self.library = ctypes.CDLL(str(path))
        self.fetched = self.parts = 0

    def call(self, rng, kind, data, map, words, a):
        """The number, the words of `out`, the list, and the arguments that are only read and were changed all the same."""

        def word(value, bits=32):
            """A number as a register holds it: the bits above its type may be anything."""
            return ctypes.c_uint64(value | (rng.getrandbits(64) << bits & 2**64 - 1 if rng.random() < 0.2 else 0))

        def array(type, values):
            made = (type * len(values))(*values)
            kept.append((made, list(values)))
            return made

        def slice(type, values):
            return [array(type, values), ctypes.c_size_t(len(values))]

        def lent(bytes):
            return [(ctypes.c_uint8 * len(bytes)).from_buffer(bytes), ctypes.c_size_t(len(bytes))]

        byte, unit, u32 = ctypes.c_uint8, ctypes.c_uint16, ctypes.c_uint32
        kept = []
        out = (u32 * 8)(*[rng.getrandbits(32) for _ in range(8)])
        list_ = (u32 * len(a.get("list", [])))(*a.get("list", []))
        if "record" in a:
            record = array(u32, [*a["record"][:3], rng.choice([1, 7, 2**31]) if a["record"].run else 0])
        own = {
            "free count": lambda: [],
            "listing": lambda: [record, list_, ctypes.c_size_t(len(list_))],
            "allocate": lambda: [word(a["count"]), word(a["has_near"]), word(a["near"])],
            "extend": lambda: [record, word(a["more"])],
            "shrink": lambda: [record, word(a["keep"])],
            "new file": lambda: [*slice(unit, a["name"]), word(a["attributes"], 16), word(a["hash"], 16), array(byte, a["stamps"])],
            "write": lambda: [word(a["slot"]), ctypes.c_uint64(a["offset"]), *slice(byte, a["data"]), array(byte, a["stamp"])],
            "set length": lambda: [word(a["slot"]), ctypes.c_uint64(a["length"]), array(byte, a["stamp"])],
            "remove": lambda: [word(a["slot"])],
            "read": lambda: [*slice(byte, a["zeros"]), word(a["slot"])],
        }[kind]()
        tail = ([word(a["hint"])] if "hint" in a else []) + ([out] if kind != "listing" else [])
        place = [*lent(data), *lent(map), array(u32, words)]
        function = getattr(self.library, self.NAMES[kind])
        if kind == "read":  # the number alone, then the part alone
            self.library.exfat_read_number.restype, function.restype = u32, None
            number = self.library.exfat_read_number(*place, *own)
            function(*place, *own, ctypes.c_uint64(a["offset"]), *tail)
        else:
            function.restype = u32
            number = function(*place, *own, *tail)
        changed = [values for made, values in kept if list(made) != values]
        return number, list(out) if kind != "listing" else [0] * 8, list(list_), changed


    def fetch(self, rng, data, map, words, slot, zeros, most):
        """A file's bytes, part by part from offset 0 until a part is empty, or there are more than `most` of them."""
        got, slices = bytearray(), (data, zeros)
        self.fetched += 1
        while len(got) <= most:
            a = {"slot": slot, "offset": len(got), "zeros": zeros}
            _, (of_zeros, start, length, *_), _, _ = self.call(rng, "read", data, map, words, a)
            self.parts += 1
            if length == 0:
                break
            got += slices[of_zeros != 0][start : start + length]
        return bytes(got)


# ---- Comparison ---------------------------------------------------------------------------------------------------------------


def told(arguments):
    """Arguments as text, long ones cut."""
    short = {key: value.hex() if isinstance(value, bytes) else value for key, value in arguments.items()}
    return ", ".join(f"{key}={str(value)[:80]}" + ("..." if len(str(value)) > 80 else "") for key, value in short.items())


def one_call(library, case, tried, theirs):
    """One call of a case by the model under trial and by the library. Gives kind, number, cause and the differences."""
    rng = case.rng
    kind, a = make_call(case)
    bent = rng.random() < (0.08 if case.v.C <= 4096 else 0.6)  # there are few volumes with bitmaps of two clusters
    if bent:
        data, map, words = bend(case)
        given = bytearray(data)
    else:
        data, map, words, given = case.v.data, case.v.map, case.words, theirs
    own = {**a, "list": list(a["list"])} if "list" in a else dict(a)
    if "has_near" in a:
        own["has_near"] = a["has_near"] != 0
    given_map = bytearray(map)
    got, out, list_, changed = library.call(rng, kind, given, given_map, words, a)
    number, cause, expected = tried.answer(kind, tried.Volume(data, map, words), own)
    found = []
    if got != number:
        found.append(f"number: the model says {number} ({cause or 'accepted'}), the library {got}")
    if out != expected:
        found.append(f"out: the model says {expected}, the library {out}")
    if list_ != own.get("list", []):
        found.append(f"list: the model says {own['list'][:20]}, the library {list_[:20]}")
    if given != data:
        at = [i for i, (x, y) in enumerate(zip(data, given)) if x != y]
        first = ", ".join(f"at {i} the model says {data[i]:#04x}, the library {given[i]:#04x}" for i in at[:5])
        found.append(f"volume: {len(at)} bytes differ: {first}")
    if given_map != map or changed:
        found.append(f"an argument that is only read was changed: {'map' if given_map != map else changed[0][:20]}")
    if number == 0 and kind == "read" and not found and rng.random() < 0.6:
        whole, zeros = tried.tape(tried.Volume(data, map, words), a["slot"]), a["zeros"]
        if len(whole) > 200 * len(zeros):  # a file of many zeros, and few to show them by
            zeros = bytes(len(whole) // 20)
        fetched = library.fetch(rng, given, given_map, words, a["slot"], zeros, len(whole))
        if fetched != whole:
            found.append(f"tape: the model says {len(whole)} bytes, the library gave {len(fetched)}, or others")
        if given != data or given_map != map:
            found.append("fetching the file changed volume or map")
    if number == 0 and kind in ("allocate", "extend", "shrink") and not bent:
        case.made.append(expected[:4])
    return kind, number, cause, found, f"{kind}({told(a)}) on geometry {words}, {len(data)} bytes, map of {len(map)}"


def run(library, seed, calls, tried=model, first_only=False, case_only=None):
    """As many cases as give so many calls. The counts, and the cases that differ."""
    counts, causes, differing, volumes, done = collections.Counter(), set(), [], 0, 0
    n = 0 if case_only is None else case_only
    while done < calls if case_only is None else volumes == 0:
        case = Case(random.Random(f"{seed}:{n}"))
        theirs = bytearray(case.v.data)
        volumes += 1
        for at in range(case.calls):
            kind, number, cause, found, text = one_call(library, case, tried, theirs)
            done += 1
            counts[kind, number] += 1
            causes.add((kind, cause, number))
            if case_only is not None:
                print(f"call {at}: {text}\n    {number} {cause}")
            if found:
                differing.append((n, at, text, found))
                break
        if differing and (first_only or len(differing) == 5):
            break
        n += 1
    return counts, causes, differing, volumes, done


def summary(counts):
    kinds = {kind: " ".join(f"{n}:{counts[kind, n]}" for n in range(16) if counts[kind, n]) for kind in model.CALLS}
    return "; ".join(f"{kind} {text}" for kind, text in kinds.items())


def honest(library, seed, calls, case_only=None, all_met=False):
    """The model as it stands. True where nothing differs and, if asked, each number of each cause of each call was met."""
    counts, causes, differing, volumes, done = run(library, seed, calls, case_only=case_only)
    for n, at, text, found in differing:
        print(f"model: DIFFERENCE in case {seed}:{n} (tests/model --case {seed}:{n}), call {at}: {text}")
        print("\n".join("    " + line for line in found))
    wanted = {(kind, c.__name__, number) for kind, call in model.CALLS.items() for c in call.causes for number in model.NUMBERS[c]}
    missing = sorted(wanted - causes) if all_met else []
    for kind, cause, number in missing:
        print(f"model: NOT TRIED: {kind} refused with {number} ({cause})")
    print(f"model: {done} calls on {volumes} volumes, seed {seed}, by number: {summary(counts)}; {len(differing)} differences")
    if not differing:
        print(f"model: {library.fetched} of the files read were fetched whole, in {library.parts} parts, and are their tapes")
    return not differing and not missing


def variant(name, old, new):
    """The model with one text of it replaced."""
    source = pathlib.Path(model.__file__).read_text()
    if source.count(old) != 1:
        sys.exit(f"model: the slip '{name}' does not fit the text of tests/model.py")
    made = types.ModuleType("wrong_model")
    exec(compile(source.replace(old, new), f"<slip {name}>", "exec"), vars(made))
    return made


def wrong(library, seed, calls):
    """Each slip has to be reported within the share."""
    latest, missed = 0, []
    for name, old, new in SLIPS:
        *_, differing, _, done = run(library, seed, calls, variant(name, old, new), first_only=True)
        latest = max(latest, done)
        if not differing:
            missed.append(name)
            print(f"model: NOT REPORTED: the slip '{name}'")
    print(f"model: {len(SLIPS) - len(missed)} of {len(SLIPS)} wrong variants reported, the last one after {latest} calls")
    return not missed


def main():
    parser = argparse.ArgumentParser()
    parser.add_argument("library")
    parser.add_argument("--share", action="store_true")
    parser.add_argument("--calls", type=int, default=SHARE_CALLS)
    parser.add_argument("--seed", default=str(SHARE_SEED))
    parser.add_argument("--case")
    given = parser.parse_args()
    library = Library(given.library)
    if given.case:
        seed, n = given.case.rsplit(":", 1)
        good = honest(library, seed, 0, case_only=int(n))
    elif given.share:
        good = honest(library, SHARE_SEED, SHARE_CALLS, all_met=True) and wrong(library, SHARE_SEED, SHARE_CALLS)
    else:
        good = honest(library, given.seed, given.calls)
    return 0 if good else 1


if __name__ == "__main__":
    sys.exit(main())

#!/usr/bin/env python3
"""The sample of the Rust's answers (tests/sample/sample.txt), as crates/sample_run reads it, and the lines that it must print.

Without arguments: write crates/sample_run/stdin and stdout. With --check: compare the two stored files with what is made here.
tests/sample/README.md tells both forms. Nothing here knows the writer's rules: the answers are those of the list.
"""

import pathlib
import struct
import sys

sys.dont_write_bytecode = True
import geometry  # noqa: E402, beside this file

SAMPLE = "tests/sample/sample.txt"
STDIN, STDOUT = "crates/sample_run/stdin", "crates/sample_run/stdout"
KINDS = ["free count", "clusters", "allocate", "extend", "shrink", "new file", "write", "set length", "remove"]
# what a record asks for besides the bytes that it changes: nothing, that a volume begins, a call
BYTES, BEGIN, CALL = range(3)
# a row: the answer, the volume, the words of a call, then map, name, data and geometry; where each begins, and where the row ends
VOLUME, WORDS, STREAM, FILE, MAP, NAME, DATA, GEOMETRY, ROW = 128, 41088, 41164, 41184, 41224, 41240, 41840, 46960, 47024
LONGEST_NAME = 300
# a listing's places, and what stands in those that it does not write
LIST, UNTOUCHED = 24, 99
# what stands in the arguments that a kind of call on files does not read, so that a use of them shows
NOT_READ = {"attributes": 0x21, "hash": 0xBEEF, "slot": 3, "number": 77, "stamps": bytes(range(0x41, 0x53)), "name": b"", "data": b""}


def data_of(length, seed):
    """The data of a write."""
    return bytes((seed + 7 * i + i // 256) % 256 for i in range(length))


def file_arguments(kind, words):
    """All arguments of a call on files: those that it reads from the list, and others in the places of the rest."""
    args = dict(NOT_READ)
    if kind == 5:
        units = b"".join(struct.pack("<H", int(word)) for word in words[3:])
        return args | {"attributes": int(words[0]), "hash": int(words[1]), "stamps": bytes.fromhex(words[2]), "name": units}
    args["slot"] = int(words[0])
    if kind < 8:
        args["number"] = int(words[1])
        modified = bytes.fromhex(words[-1])
        args["stamps"] = NOT_READ["stamps"][:6] + modified + NOT_READ["stamps"][12:]
    if kind == 6:
        args["data"] = data_of(int(words[2]), int(words[3]))
    return args


def stream_arguments(kind, words):
    """The arguments of a call on streams as first, last, count, flag and number; allocate has near, whether it is given, and the count."""
    given = [int(word) for word in words]
    return [given[2], 0, 0, given[1], given[0]] if kind == 2 else given


def values(kind, words):
    """What a call gives, as words: a listing with the places that it leaves, a slot before the hint of a call on files."""
    given = [int(word) for word in words]
    if kind == 1:
        return given + [UNTOUCHED] * (LIST - len(given))
    return [0] + given if kind > 5 else given


class Reader:
    """Reads the list and keeps the row as the program has it: the records tell what changes."""

    def __init__(self):
        self.has, self.row, self.open = bytearray(ROW), bytearray(ROW), BYTES
        self.records, self.lines, self.calls, self.volumes = [], [], 0, 0

    def record(self, what, at=0, part=b""):
        self.records.append(struct.pack("<2BH", what, len(part), at) + part)

    def finish(self):
        """Tells the bytes that changed (and short stretches between them), then the volume's start or the call."""
        places = [i for i in range(ROW) if self.has[i] != self.row[i]]
        while places:
            first = last = places[0]
            while places and places[0] - last <= 4 and places[0] - first < 255:
                last = places.pop(0)
            self.record(BYTES, first, self.row[first : last + 1])
        if self.open != BYTES:
            self.record(self.open)
        self.has[:], self.open = self.row, BYTES

    def line(self, words):
        getattr(self, words[0])(words[1:])

    def put(self, at, part, end):
        assert at + len(part) <= end
        self.row[at : at + len(part)] = part

    def volume(self, words):
        self.finish()
        self.volumes += 1
        self.index, self.length, self.geometry = int(words[0]), int(words[1]), [int(word) for word in words[2:]]
        self.put(VOLUME, bytes(WORDS - VOLUME), WORDS)
        self.open = BEGIN

    def map(self, words):
        self.bits = bytes.fromhex(words[0]) if words else b""

    def bytes(self, words):
        self.put(VOLUME + int(words[0]), bytes.fromhex(words[1]), VOLUME + self.length)

    change = bytes

    def fill(self, words):
        self.put(VOLUME + int(words[0]), bytes.fromhex(words[2]) * int(words[1]), VOLUME + self.length)

    def call(self, words):
        self.finish()
        self.call_words = words

    def answer(self, words):
        kind, hint, rest = int(self.call_words[0]), int(self.call_words[1]), self.call_words[2:]
        self.calls += 1
        args = file_arguments(kind, rest) if kind > 4 else NOT_READ
        head = [self.index, self.calls, kind, self.length, len(self.bits), len(args["data"]), len(args["name"]) // 2, hint]
        stream = stream_arguments(kind, rest) if kind < 5 else []
        given = [int(words[0])] + values(kind, words[1:])
        assert len(self.geometry) == geometry.WORDS and len(args["name"]) <= 2 * LONGEST_NAME
        for at, numbers, end in (0, given, VOLUME), (WORDS, head, STREAM), (STREAM, stream, FILE), (GEOMETRY, self.geometry, ROW):
            self.put(at, struct.pack(f"<{len(numbers)}I", *numbers), end)
        self.put(FILE, struct.pack("<HHIQ18s", *(args[name] for name in ("attributes", "hash", "slot", "number", "stamps"))), MAP)
        for at, part, end in (MAP, self.bits, NAME), (NAME, args["name"], DATA), (DATA, args["data"], GEOMETRY):
            self.put(at, part, end)
        line = f"volume {self.index} call {self.calls} {KINDS[kind]}%s: {given[0]} agrees"
        self.lines += [line % way for way in (["", " by carry_out"] if kind > 4 else [""])]
        self.open = CALL


def main():
    reader = Reader()
    for line in pathlib.Path(SAMPLE).read_text(encoding="ascii").splitlines():
        reader.line(line.split())
    reader.finish()
    last = f"{reader.calls} calls on {reader.volumes} volumes"
    stdin = struct.pack("<3I", len(reader.records), reader.calls, reader.volumes) + b"".join(reader.records)
    made = {STDIN: stdin, STDOUT: "\n".join(reader.lines + [last, ""]).encode("ascii")}
    for path, content in made.items():
        if sys.argv[1:2] != ["--check"]:
            pathlib.Path(path).write_bytes(content)
        elif pathlib.Path(path).read_bytes() != content:
            sys.exit(f"sample: {path} is not what tests/sample.py makes of {SAMPLE}")
    print(f"sample: {last}" + (", as stored" if sys.argv[1:2] == ["--check"] else f", {len(made[STDIN])} bytes"))


main()

#!/usr/bin/env python3
"""The counts in the documents, each held against what is there.

    python3 tests/counts.py          the counts that the repository itself gives
    python3 tests/counts.py SAID     those that the tests print too, and the library's sum; SAID is what they printed

A count is a document, a pattern whose groups are the figures, and how they are counted; tests/stack.py holds the stack's. A pattern
that is not found is a fault; so is a test that printed nothing, unless it is among what was left out (tests/left_out.py).
"""

import os
import pathlib
import re
import sys

sys.dont_write_bytecode = True
import contracts  # noqa: E402, beside this file
import verdict  # noqa: E402

faults, held = [], 0


def text_of(path):
    return pathlib.Path(path).read_text(encoding="utf-8")


def number(text):
    return int(text.replace(",", ""))


def gate():
    """What the gate's last line counts: crates and edits, and both."""
    crates = [line for line in text_of("crates.txt").splitlines() if line.split("#")[0].strip()]
    edits = list(pathlib.Path("crates").glob("*/must-fail/*.edit"))
    return len(crates) + len(edits), len(crates), len(edits)


def compared():
    """The calls of the table of docs/DIFFERENCES.md: what is compared is what was carried out and what was refused."""
    rows = re.findall(r"^\| ([a-z ]+) \| ([\d,]+) \| ([\d,]+) \| (\d+: .*) \|$", text_of("docs/DIFFERENCES.md"), re.M)
    for call, all_, done, refused in rows:
        if number(all_) != number(done) + sum(map(number, re.findall(r": ([\d,]+)", refused))):
            faults.append("docs/DIFFERENCES.md: the row of %s does not add up" % call)
    return (sum(number(all_) for _, all_, _, _ in rows), len(rows))


def volumes():
    """The volumes that docs/DIFFERENCES.md names for those calls."""
    return tuple(map(number, re.search(r"calls of all nine kinds on ([\d,]+) volumes", text_of("docs/DIFFERENCES.md")).groups()))


def sample():
    """The stored sample: its calls and volumes."""
    return tuple(map(int, re.search(r"(\d+) calls on (\d+) volumes\n\Z", text_of("crates/sample_run/stdout")).groups()))


def public():
    """The calls of 01 and 02, as they are exported: without `carry_out`, which makes four of them, `validate`, which is none of them,
    and `read`, which lends what `read_part` gives the place of."""
    return (len(contracts.EXPORTED),)


WORDS = ["zero", "one", "two", "three", "four", "five", "six", "seven", "eight", "nine", "ten", "eleven", "twelve"]

# document, pattern, count
HERE = [
    ("docs/CERTIFICATE.md", r"`([\d,]+) passed, 0 failed`: (\d+) crates .*?(\d+) wrong edits", gate),
    ("docs/CERTIFICATE.md", r"([\d,]+) calls of all (nine) kinds", compared),
    ("docs/CERTIFICATE.md", r"calls of all nine kinds on ([\d,]+) volumes", volumes),
    ("docs/DIFFERENCES.md", r"([\d,]+) calls of all (nine) kinds", compared),
    ("docs/CERTIFICATE.md", r"(\d+) more are kept", lambda: sample()[:1]),
    ("docs/DIFFERENCES.md", r"kept in tests/sample: (\d+) calls on (\d+) volumes", sample),
    ("docs/ARCHITECTURE.md", r"There are (\w+), and `[\w:]*carry_out`", public),
]

# document, pattern, what the test prints, and what a test that is left out says of itself
PRINTED = [
    ("docs/CERTIFICATE.md", r"(\d+) border cases", r"^edges: (\d+) border cases", "border cases"),
    ("docs/CERTIFICATE.md", r"a C program's (\d+) checks", r"^boundary: ok +\S", "C program"),
    ("docs/CERTIFICATE.md", r"(\d+) figures of writes along", r"^long writes: (\d+) figures", "long writes"),
    ("docs/CERTIFICATE.md", r"([\d,]+) calls in the gate's share", r"^model: (\d+) calls on", "Python model"),
    ("docs/CERTIFICATE.md", r"(\d+) wrong variants", r"^model: \d+ of (\d+) wrong variants reported", "Python model"),
    ("docs/CERTIFICATE.md", r"`([\d,]+) passed, 0 failed`", r"^(\d+) passed, 0 failed$", "-"),
]


def hold(document, pattern, there):
    global held
    found = re.search(pattern, text_of(document))
    if not found:
        faults.append("%s has no text like %s" % (document, pattern))
        return
    said = tuple(WORDS.index(g) if g in WORDS else number(g) for g in found.groups())
    if said != there:
        faults.append("%s says `%s`, and there are %s" % (document, found[0], ", ".join(map(str, there))))
    held += 1


def hold_library():
    """The certificate names the library that was made."""
    global held
    said = re.search(r"sha256 `([0-9a-f]{64})`", text_of("docs/CERTIFICATE.md"))
    made = re.search(r"^([0-9a-f]{64})  libexfat\.a$", text_of("dist/SHA256SUMS"), re.M)
    if not said or not made or said[1] != made[1]:
        faults.append("docs/CERTIFICATE.md does not have the sum of dist/libexfat.a, %s" % (made[1] if made else "which has none"))
    held += 1


def main():
    for document, pattern, count in HERE:
        hold(document, pattern, count())
    if len(sys.argv) > 1:
        printed, left = text_of(sys.argv[1]), os.environ.get("LEFT_OUT")
        left = text_of(left) if left else ""
        hold_library()
        for document, pattern, shown, word in PRINTED:
            lines = [m for m in re.finditer(shown, printed, re.M)]
            if lines:
                hold(document, pattern, (number(lines[-1][1]),) if lines[0].groups() else (len(lines),))
            elif word in left:
                print("counts: not held, since its test was left out: %s" % pattern)
            else:
                faults.append("no test printed a line like %s" % shown)
    return verdict.verdict("counts", faults, "%d counts of the documents are those that are there" % held)


if __name__ == "__main__":
    sys.exit(main())

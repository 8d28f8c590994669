#!/usr/bin/env python3
"""The stack that a call of the library may take, against the documents that tell it.

stack.py LIBRARY. Reads the machine code: what each function pushes and subtracts from the stack pointer, all of it at once, and
which functions it calls or jumps to. The sum along the deepest path, return addresses included, is a bound, without what the C
library's functions take. A cycle of calls, a call through a pointer or a frame that is no constant is a fault.
"""

import functools
import pathlib
import re
import subprocess
import sys

# what each document says of it
TOLD = {"docs/CERTIFICATE.md": "add up to %s bytes", "include/exfat.h": "at most %s bytes in", "README.md": "and %s bytes of stack"}
TABLE = "(the table of addresses)"
faults = []


def read(library):
    """The bytes that each function takes, and the functions that it goes to."""
    command = ["objdump", "-dr", "--no-show-raw-insn", library]
    listing = subprocess.run(command, check=True, capture_output=True, text=True).stdout
    frames, goes, name, target = {}, {}, None, None
    for line in listing.splitlines():
        head = re.fullmatch(r"[0-9a-f]+ <(.+)>:", line)
        relocation = re.match(r"\s+[0-9a-f]+: R_X86_64_\w+\s+(\S+)", line)
        if head:
            name = head[1]
            frames[name], goes[name] = 0, set()
        elif relocation and target:
            # the place that a call leads to stands in its relocation
            goes[name].discard(target)
            other = re.sub(r"^\.text\.|[-+]0x[0-9a-f]+$", "", relocation[1])
            if other != name or target != name:
                goes[name].add(other)
        if head or relocation or not name or "\t" not in line:
            target = None
            continue
        text, target = line.split("\t")[-1].strip(), None
        taken = re.match(r"sub\s+\$0x([0-9a-f]+),%rsp", text)
        led = re.match(r"(call|j\w+)\s+[0-9a-f]+ <(.+?)(?:\+0x[0-9a-f]+)?>$", text)
        if text.startswith("push"):
            frames[name] += 8
        elif taken:
            frames[name] += int(taken[1], 16)
        elif re.match(r"(?:sub|and|lea|mov)\b.*,%rsp$", text):
            faults.append("%s: %s" % (name, text))
        elif led:
            target = led[2]
        elif re.match(r"(?:call|jmp)\s+\*.*\(%rip\)", text):
            target = TABLE
        elif re.match(r"(?:call|jmp)\s+\*", text):
            faults.append("%s: %s" % (name, text))
        # a jump to the function itself leads elsewhere only where a relocation says so
        if target and (target != name or text.startswith("call")):
            goes[name].add(target)
    return frames, goes


def main():
    frames, goes = read(sys.argv[1])
    on_path = []

    @functools.cache
    def deepest(name):
        if name not in frames:
            return 0
        if name in on_path:
            faults.append("a cycle of calls through %s" % name)
            return 0
        on_path.append(name)
        below = max((deepest(other) for other in goes[name]), default=0)
        on_path.pop()
        return frames[name] + 8 + below

    most, call = max((deepest(name), name) for name in frames if name.startswith("exfat_"))
    outside = sorted({other for all_ in goes.values() for other in all_} - set(frames))
    if outside != ["memmove", "memset"]:
        faults.append("the library goes to %s" % ", ".join(outside))
    for document, words in TOLD.items():
        if words % format(most, ",") not in pathlib.Path(document).read_text(encoding="utf-8"):
            faults.append("%s does not say, of %s, `%s`" % (document, call, words % format(most, ",")))
    for fault in faults:
        print("stack: " + fault)
    if faults:
        return 1
    print("stack: %d functions, at most %s bytes (%s), besides %s" % (len(frames), format(most, ","), call, ", ".join(outside)))
    return 0


if __name__ == "__main__":
    sys.exit(main())

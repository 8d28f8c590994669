#!/usr/bin/env python3
"""docs/TRACE.md against the repository, and against 01 and 02 where they are at hand.

A line of TRACE.md is  - "BEGINNING": `FILE: NAME`, `FILE`, ..  or  - "BEGINNING": demands nothing, REASON  under a heading of 01, or
under one with the number and the title of a request of 02 that has landed (LANDED); a line for a clause inside a sentence is indented.
Every file must be there and define the name, every must-fail edit and every public call must be cited, and the beginnings must be
those of all sentences of 01 and then of these requests, in their order. 01 is ../shared/docs/01-scope.md, or the file that EXFAT_SCOPE
names; 02 is ../shared/docs/02-change-requests.md, or the file that EXFAT_REQUESTS names. docs/CLAIM.md must have each clause of the
claim over lists, with an edit of it. The C code of README.md must be a part of examples/firmware.c.
"""

import functools
import os
import pathlib
import re
import sys

sys.dont_write_bytecode = True
import contracts  # noqa: E402, beside this file
import left_out  # noqa: E402
import verdict  # noqa: E402

TRACE = pathlib.Path("docs/TRACE.md")
SCOPE = pathlib.Path(os.environ.get("EXFAT_SCOPE", "../shared/docs/01-scope.md"))
REQUESTS = pathlib.Path(os.environ.get("EXFAT_REQUESTS", "../shared/docs/02-change-requests.md"))
LANDED = ("2027-01", "2027-02")
LINE = re.compile(r'(?P<inside>  )?- "(?P<quote>.+?)": (?P<answer>`.+|demands nothing, .+)')
MARKS = r"(?:unfoldable |abbrev |pub )*"
faults = []


def plain(text):
    """Without markup and quotation marks."""
    return re.sub(r'[*`"]', "", text).strip()


@functools.cache
def text_of(path):
    return pathlib.Path(path).read_text(encoding="utf-8")


@functools.cache
def antt_names(path):
    """The definitions and theorems of a file, those of a section `module _` too; a field or constructor as OWNER.NAME."""
    names, owner, inner = set(), None, -1
    for line in text_of(path).splitlines():
        if not line.strip() or line.lstrip().startswith("--"):
            continue
        depth = len(line) - len(line.lstrip())
        if owner and depth <= inner:
            owner = None
        declared = re.match(r"\s*%s(?:record|data) ([^\s:({]+)" % MARKS, line)
        signed = re.match(r"\s*%s([^\s:({]+) :(?: |$)" % MARKS, line)
        if declared:
            owner, inner = declared[1], depth
            names.add(owner)
        elif signed and owner:
            names.add(owner + "." + signed[1])
        elif signed and (depth == 0 or re.match(r"\s*(?:unfoldable |abbrev |pub )", line)):
            names.add(signed[1])
    return names


def is_there(path, name):
    """Whether a file defines a name: a definition, a function, a heading; of any other file, whether it has the text."""
    text = text_of(path)
    if path.endswith(".antt"):
        return name in antt_names(path)
    if path.endswith(".rt"):
        return re.search(r"^\s*(?:pub )?(?:extern \"C\" )?(?:fn|struct|enum|const) %s\b" % re.escape(name), text, re.M)
    if path.endswith(".md"):
        return any(re.sub(r"^#+ ", "", line) == name for line in text.splitlines() if line.startswith("#"))
    return name in text


def read_trace():
    """Each heading and each answer: line number, heading, whether it is a clause's, beginning (None for a heading), names."""
    heading, lines = None, []
    for at, line in enumerate(text_of(str(TRACE)).splitlines(), 1):
        if line.startswith("## "):
            heading = line[3:].strip()
            lines.append((at, heading, False, None, []))
        elif line.lstrip().startswith("- "):
            m = LINE.fullmatch(line)
            if not m or heading is None:
                faults.append("TRACE.md:%d: not of the form" % at)
                continue
            lines.append((at, heading, bool(m["inside"]), plain(m["quote"]), re.findall(r"`([^`]+)`", m["answer"])))
    return lines


def check_names(lines):
    """Every name is there; every edit and every public call is cited."""
    cited = set()
    for at, *_, names in lines:
        for entry in names:
            path, _, name = entry.partition(": ")
            cited.add(entry)
            if not pathlib.Path(path).is_file():
                faults.append("TRACE.md:%d: no file %s" % (at, path))
            elif name and not is_there(path, name):
                faults.append("TRACE.md:%d: %s has no %s" % (at, path, name))
    for edit in sorted(pathlib.Path("crates").glob("*/must-fail/*.edit")):
        if str(edit) not in cited:
            faults.append("%s is cited nowhere" % edit)
    for call in sorted(set(contracts.PUBLIC_CALLS) | exported()):
        crate, *modules, name = call.split("::")
        if "crates/%s/src/%s.rt: %s" % (crate, "/".join(modules) or "lib", name) not in cited:
            faults.append("the public call %s is cited nowhere" % call)
    return cited


def exported():
    """The functions that are exported to C."""
    found = set()
    for path in pathlib.Path("crates").glob("*/src/**/*.rt"):
        for name in re.findall(r'^pub extern "C" fn (\w+)', text_of(str(path)), re.M):
            found.add(contracts.module_of(path) + "::" + name)
    return found


def split(text):
    return [plain(s) for s in re.split(r"(?<=\.)\s+", text)]


def sentences():
    """(heading, sentence) of 01, where a row of a table is one, and its first cell comes first; then of the requests."""
    heading, found = None, []
    for line in SCOPE.read_text(encoding="utf-8").splitlines():
        line = line.strip()
        if line.startswith("#"):
            heading = line.lstrip("# ")
        elif line.startswith("|"):
            cell = plain(line.strip("|").split("|")[0])
            if cell.strip("-") and cell != "Cause":
                found.append((heading, cell))
        elif line:
            line = re.sub(r"^(?:- |\d+\. )", "", line)
            found += [(heading, s) for s in split(line)]
    requests = REQUESTS.read_text(encoding="utf-8")
    for number in LANDED:
        title, text = re.search(r"^\*\*(%s .+?)\.\*\* (.+)$" % number, requests, re.M).groups()
        found += [(title, s) for s in split(text)]
    return found


def check_scope(lines):
    """The lines are these sentences, none left out, in order, each under its heading; a clause stands in the sentence before it."""
    left, now, offset = sentences(), None, 0
    headings = list(dict.fromkeys(heading for heading, _ in left))
    if [heading for _, heading, _, quote, _ in lines if quote is None] != headings:
        faults.append("TRACE.md does not have the documents' headings in their order")
    for at, heading, inside, quote, _ in lines:
        if quote is None:
            continue
        if inside:
            found = now[1].find(quote, offset) if now else -1
            offset = found + len(quote)
        else:
            found = next((i for i, (_, s) in enumerate(left) if s.startswith(quote)), -1)
            for _, s in left[: max(found, 0)]:
                faults.append('TRACE.md:%d: before it the documents have "%s"' % (at, s[:60]))
            if found >= 0:
                now, left, offset = left[found], left[found + 1 :], len(quote)
        if found < 0:
            faults.append('TRACE.md:%d: the documents have no "%s" there' % (at, quote))
        elif now[0] != heading:
            faults.append('TRACE.md:%d: "%s" stands under "%s" in the documents' % (at, quote, now[0]))
    for heading, s in left:
        faults.append('TRACE.md ends before "%s" of "%s"' % (s[:60], heading))


def check_claim():
    """docs/CLAIM.md has a row for each clause of the claim, with an edit that is there, and names each edit of the claim's crate."""
    text, told = text_of("docs/CLAIM.md"), set()
    for record, path in (("Demand", "Demand"), ("Done", "Demand"), ("Consistent", "Consistent")):
        part = re.search(r"^## [^\n]*`%s`\n(.*?)(?=^## |\Z)" % record, text, re.M | re.S)
        rows = [[cell.strip() for cell in line.strip("|").split("|")] for line in (part[1] if part else "").splitlines() if line.startswith("| ")][1:]
        clauses = {name.partition(".")[2] for name in antt_names("crates/write/specs/%s.antt" % path) if name.startswith(record + ".")}
        there = [re.search(r"`([^`]+)`", next(cell for cell in row if "`" in cell))[1] for row in rows]
        if sorted(there) != sorted(clauses):
            faults.append("CLAIM.md does not have the clauses of %s: %s" % (record, ", ".join(sorted(set(there) ^ clauses))))
        for clause, row in zip(there, rows):
            edits = [crate or "write/" + name for crate, name in re.findall(r"\b([a-z]+/\w+)|\b([a-z]+(?:_[a-z]+)+)\b", row[-1])]
            told.update(edits)
            if not edits and clause != "each_call":
                faults.append("CLAIM.md names no edit for %s.%s" % (record, clause))
    there = {"%s/%s" % (edit.parts[1], edit.stem) for edit in pathlib.Path("crates").glob("*/must-fail/*.edit")}
    for edit in sorted(told - there) + sorted(edit for edit in there - told if edit.startswith("write/")):
        faults.append("CLAIM.md and the must-fail folders do not both have %s" % edit)


def check_readme():
    """The C code of README.md is a part of the firmware example, which the tests compile."""
    blocks = re.findall(r"^```c\n(.*?)^```$", pathlib.Path("README.md").read_text(encoding="utf-8"), re.M | re.S)
    example = pathlib.Path("examples/firmware.c").read_text(encoding="utf-8")
    if len(blocks) != 1 or blocks[0] not in example:
        faults.append("README.md does not quote examples/firmware.c")


def main():
    lines = read_trace()
    cited = check_names(lines)
    check_claim()
    check_readme()
    count = sum(quote is not None and not inside for _, _, inside, quote, _ in lines)
    if count == 0:
        faults.append("TRACE.md has no sentence")
    if SCOPE.is_file() and REQUESTS.is_file():
        check_scope(lines)
    else:
        missing = ("01", SCOPE, "EXFAT_SCOPE") if not SCOPE.is_file() else ("02", REQUESTS, "EXFAT_REQUESTS")
        print("trace: NOT COMPARED WITH %s, which is not at %s (%s names another file)" % missing)
        left_out.left_out("docs/TRACE.md was not compared with %s, which is not at %s" % missing[:2])
    return verdict.verdict("trace", faults, "%d sentences, %d names, all there" % (count, len(cited)))


if __name__ == "__main__":
    sys.exit(main())

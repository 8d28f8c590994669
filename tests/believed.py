#!/usr/bin/env python3
"""The definitions that a reader has to believe stand apart from those that only inner contracts and proofs need.

Reads crates/*/specs/*.antt and the contracts in crates/*/src. What a public call, a function exported to C or a claim (CLAIMS) speaks
of, and what that is defined by, is to be believed. Such a definition does not stand in a file Internal.antt; every other one does, or
in a file that is apart for another reason (APART). docs/ARCHITECTURE.md, "The order in which to read the definitions", names each file
with something to believe once, after the files that it needs, and no other.
"""

import pathlib
import re
import sys

sys.dont_write_bytecode = True
import contracts  # noqa: E402, beside this file
import verdict  # noqa: E402, beside this file

# What the certificate cites besides the public calls: the claim over lists, the choice of clusters, what new-fewest speaks of, and what
# reading a file part by part gives.
CLAIMS = [("write", "Demand", "Demand"), ("choice_claim", "Adds", "Allocates"), ("choice_claim", "Extends", "Extends"), ("directory", "Room", "Row")]
CLAIMS += [("read_file", "ReadBack", "ReadBack")]
# Example: a concrete consistent volume, which shows that the claim over lists is not empty.
APART = ["Internal", "Example"]
# Their definitions are of tests, and no promise cites them.
TEST_CRATES = ["trials"]

ORDER = "## The order in which to read the definitions"
USE = re.compile(r"^(?:ghost )?use Rattle\.(\w+)\.specs\.(\w+)(?:\.\{([^}]*)\}| as (\w+));?$", re.M)
HEAD = re.compile(r"^ *(?:unfoldable |abbrev )?(?:pub )?(?:record |data )?([^\s:({]+)(?: \{[^}]*\})*(?= :| \()")
WORD = re.compile(r"[^\s(){};,λ]+")


def bare(text):
    """The text without its comments."""
    return re.sub(r"(?:--|//)[^\n]*", "", text)


def names_used(text):
    """The names in a text; of `alias.name` the whole, of `record .field` the record."""
    words = set()
    for word in WORD.findall(text):
        words.add(word.rstrip("."))
        words.add(word.split(".")[0])
    return words


class Module:
    """A file of definitions: each with its text, what it brings in, and the constructors of its data types."""

    def __init__(self, path):
        self.key = (path.parts[1], path.stem)
        text = path.read_text()
        self.imports = imports(text)
        self.texts, self.makers = {}, {}
        now = None
        for line in bare(text).split("\n"):
            if line.startswith(("use ", "module ", "pub mod ")) or not line.strip():
                continue
            head = HEAD.match(line)
            if head and re.match(r" *(?:unfoldable |abbrev |pub )", line) and not (now and line.startswith("  pub ") and self.is_open):
                now = head.group(1)
                self.texts[now] = ""
                self.is_open = re.match(r" *pub (?:record|data) ", line) is not None
            elif now and self.is_open and re.match(r"  (?:pub )?(\S+) :", line):
                self.makers[re.match(r"  (?:pub )?(\S+) :", line).group(1)] = now
            if now:
                self.texts[now] += line + "\n"


def imports(text):
    """Names and aliases that `use` lines bring in from definitions, each with where it stands."""
    found = {}
    for crate, module, names, alias in USE.findall(text):
        if alias:
            found[alias] = (crate, module, None)
        for name in names.split(","):
            if name.strip():
                found[name.strip()] = (crate, module, name.strip())
    return found


def resolve(modules, here, found, word):
    """The definition that a word in a module stands for, or None."""
    alias, _, rest = word.partition(".")
    if word in found and found[word][2]:
        crate, module, name = found[word]
    elif alias in found and found[alias][2] is None and rest:
        crate, module, name = found[alias][0], found[alias][1], rest
    elif here and (word in here.texts or word in here.makers):
        crate, module, name = *here.key, word
    else:
        return None
    there = modules.get((crate, module))
    if not there:
        return None
    name = there.makers.get(name, name)
    return (crate, module, name) if name in there.texts else None


def roots(modules):
    """What the contracts of public calls and exported functions cite, and the claims."""
    found = set(CLAIMS)
    for path in sorted(pathlib.Path("crates").glob("*/src/*.rt")):
        text = contracts.plain(path.read_text())
        brought = imports(path.read_text())
        module = [] if path.stem in ("lib", "main") else [path.stem]
        for head in contracts.HEAD.finditer(text):
            name = "::".join([path.parts[1]] + module + [head.group(2)])
            if name in contracts.PUBLIC_CALLS or name in contracts.EXPORTED:
                for word in names_used(contracts.head_of(text, head.start(2))):
                    found.add(resolve(modules, None, brought, word))
    return found - {None}


def believed(modules):
    """Every definition that the roots reach, and which file needs which."""
    seen, left, needs = set(), list(roots(modules)), set()
    while left:
        crate, module, name = left.pop()
        if (crate, module, name) in seen:
            continue
        seen.add((crate, module, name))
        here = modules[(crate, module)]
        for word in names_used(here.texts[name]):
            there = resolve(modules, here, here.imports, word)
            if there:
                left.append(there)
                needs.add(("%s/%s" % here.key, "%s/%s" % there[:2]))
    return seen, needs


def order_named():
    """The files that the reading order names, as crate/Module."""
    text = pathlib.Path("docs/ARCHITECTURE.md").read_text()
    section = text.split(ORDER + "\n", 1)[1].split("\n## ", 1)[0]
    return re.findall(r"`(\w+/\w+)`", section)


def main():
    paths = [p for p in sorted(pathlib.Path("crates").glob("*/specs/*.antt")) if p.stem != "Lib" and p.parts[1] not in TEST_CRATES]
    modules = {(p.parts[1], p.stem): Module(p) for p in paths}
    faults = ["no definition %s.%s.%s" % claim for claim in CLAIMS if claim[2] not in modules[claim[:2]].texts]
    seen, needs = believed(modules)
    apart = 0
    for (crate, module), here in sorted(modules.items()):
        for name in here.texts:
            if (crate, module, name) in seen and module in APART:
                faults.append("crates/%s/specs/%s.antt: %s is cited by a promise or a claim" % (crate, module, name))
            if (crate, module, name) not in seen and module not in APART:
                faults.append("crates/%s/specs/%s.antt: nothing to be believed needs %s" % (crate, module, name))
            apart += module in APART
    named, files = order_named(), {"%s/%s" % key[:2] for key in seen}
    faults += ["the reading order does not name " + f for f in sorted(files - set(named))]
    faults += ["the reading order names %s, which has nothing to believe or stands there twice" % f for f in sorted({f for f in named if f not in files or named.count(f) > 1})]
    if not faults:
        faults += ["the reading order has %s before %s, which it needs" % pair for pair in sorted(needs) if named.index(pair[0]) < named.index(pair[1])]
    lines = sum(len([l for l in modules[d[:2]].texts[d[2]].split("\n") if l.strip()]) for d in seen)
    return verdict.verdict("believed", faults, "%d definitions, %d lines in %d files, are to be believed; %d stand apart" % (len(seen), lines, len(files), apart))


if __name__ == "__main__":
    sys.exit(main())

#!/usr/bin/env python3
"""Brings this repository's own definitions and lemmas to today's spelling, once, after port.py of the kit.

usage: python3 tools/respell.py            at the top of the repository, with port.py's work committed
       python3 tools/respell.py --again    where a run of this script stands already
       python3 tools/respell.py --table    the names, old and new; nothing is written

Definitions, fields and constructors in mixed case get snake case. Of a lemma's dashes one stays where it joins the names of two
definitions ('count-upd'); else it becomes an underscore ('one_le'), as in a field. Functions of src/, exported C names, strings, inputs
and outputs keep theirs. It goes by whole words, in crates/*/{specs,proofs}, in the clauses and comments of crates/*/src, and in the
edits of crates/*/must-fail; a run that would make two names fall together in one file stops before it writes.
"""
import collections
import glob
import re
import sys

WORD = re.compile(r"[^\s(){}.;,@\"«»\[\]|:`⌜⌝]+")
HEAD = re.compile(r"^\s*(?:unfoldable |abbrev |abstract |pub )*([^\s(){}:,.]+)(?: \{[^}\n]*\})* :\s")
# where the plain rule would meet another name
OWN = {
    "takeAll": "take_each",        # std has a lemma take_all
    "takeOne": "take_single",
    "entry_place": "entry_place_lem", "head_ok": "head_ok_lem", "in_place": "in_place_lem", "place_at": "place_at_lem",
    "read_number": "read_number_lem", "same_answer": "same_answer_lem", "same_flag": "same_flag_lem", "same_read": "same_read_lem",
    "set_after": "set_after_lem", "in-heap": "in_heap_lem",
    # fields that would be called like the definition that they speak of
    "of-volume": "from_volume", "of-zeros": "from_zeros", "root-bytes": "root_bytes_are", "root-clusters": "root_clusters_are",
}
# a field of a struct, read behind a dot, beside the definition of that name: these two do not meet
FIELDS = {
    "fat_offset", "fat_length", "active_fat", "number_of_fats", "root_cluster", "cluster_count", "sector_shift", "cluster_heap_offset",
    "cluster_shift", "no_fat_chain", "unit_ok",
}
LEMMAS = {k for k, v in OWN.items() if v.endswith("_lem")}


def antt():
    return sorted(glob.glob("crates/*/specs/*.antt") + glob.glob("crates/*/proofs/**/*.antt", recursive=True))


def is_walk(path):
    return path.endswith(("/Proof.antt", "/Answers.antt", "/Invariants.antt"))


def read(path):
    with open(path, encoding="utf-8") as f:
        return f.read()


def plain(text):
    return re.sub(r"--[^\n]*", "", text)


def declared(text):
    """The names that a file declares at its left margin, and those of its fields and constructors."""
    top, inner = set(), set()
    held = False
    for line in plain(text).split("\n"):
        if line and not line[0].isspace():
            held = bool(re.match(r"(?:\w+ )*(?:record|data) ", line))
        m = HEAD.match(line)
        if m and line[0].isspace() and held:
            inner.add(m.group(1))
        elif m:  # also the definitions of a module with parameters, which stand further in
            top.add(m.group(1))
    return top, inner


def snake(name):
    return re.sub(r"(?<=[a-z0-9])[A-Z]", lambda m: "_" + m[0].lower(), name)


def table():
    specs, lemmas, inner = set(), set(), set()
    for p in antt():
        if is_walk(p):
            continue
        top, within = declared(read(p))
        inner |= within
        (specs if "/specs/" in p else lemmas).update(top)
    rows = {}
    for n in specs | lemmas | inner:
        if re.match(r"[a-z]", n) and snake(n) != n and "-" not in n:
            rows[n] = snake(n)
    # two dashes-and-words: the names of definitions, which a dash may join
    known = {rows.get(n, n) for n in specs} | {
        "true", "false", "zero", "suc", "none", "some", "length", "take", "drop", "set", "and", "or", "not", "cond", "replicate", "min", "max",
        "add", "mul", "sub", "map", "append", "reverse", "cons", "nil",
    }
    for n in (specs | inner) - set(rows):
        if "-" in n and re.match(r"[A-Za-z]", n):
            rows[n] = snake(n).replace("-", "_")
    taken = {rows.get(n, n) for n in specs | lemmas | inner if "-" not in n}
    for n in lemmas - set(rows):
        if "-" in n and re.match(r"[A-Za-z]", n):
            parts = snake(n).split("-")
            new = parts[0]
            for a, b in zip(parts, parts[1:]):
                new += ("-" if a in known and b in known else "_") + b
            if new != n:
                # a lemma that would have its definition's name
                rows[n] = new + "_lem" if new in taken else new
    rows.update(OWN)
    return rows


def imported(text):
    """The names between the braces of a file's use items."""
    names = set()
    for m in re.finditer(r"\buse [^\s;{]+\.\{([^}]*)\}", text):
        names |= set(WORD.findall(m.group(1)))
    return names


def turned(path, text, rows):
    mixed = {k: v for k, v in rows.items() if "-" not in k and k not in LEMMAS}
    if path.endswith(".rt") or path.endswith(".edit"):
        use = dict(mixed)
        if path.endswith(".edit"):
            use.update({k: v for k, v in rows.items() if "-" in k and k not in LEMMAS})
    elif is_walk(path):
        own = imported(text)
        use = {k: v for k, v in rows.items() if k in mixed or k in own}
    else:
        here = declared(text)[0] | imported(text)
        use = {k: v for k, v in rows.items() if k not in LEMMAS or k in here}
    out, at = [], 0
    paths = [m.span() for m in re.finditer(r"Rattle\.[\w.+'-]*[\w'-]", text)]
    for m in WORD.finditer(text):
        w = m.group(0)
        base, tail = (w, "") if w in use else re.match(r"(.*?)('*)$", w, re.S).groups()
        if base not in use:
            continue
        if any(a <= m.start() < b for a, b in paths):
            continue
        out.append(text[at : m.start()])
        out.append(use[base] + tail)
        at = m.end()
    return "".join(out) + text[at:]


def met(path, text, rows):
    """Rows of which a file has the old and the new name, so that they would fall together."""
    words = set(WORD.findall(re.sub(r"Rattle\.[\w.+'-]*[\w'-]", "", plain(text))))
    return [(k, v) for k, v in rows.items() if k in words and v in words and v not in rows and v not in FIELDS]


def main():
    rows = table()
    if "--again" in sys.argv:  # in a tree where a run of this script stands
        rows = {k: v for k, v in rows.items() if k not in LEMMAS}
    back = collections.defaultdict(set)
    for k, v in rows.items():
        back[v].add(k)
    bad = [f"{v}: {sorted(ks)}" for v, ks in back.items() if len(ks) > 1]
    if "--table" in sys.argv:
        print("\n".join(f"{k}\t{v}" for k, v in sorted(rows.items())))
        return 0
    files = antt() + sorted(glob.glob("crates/*/src/**/*.rt", recursive=True)) + sorted(glob.glob("crates/*/must-fail/*.edit"))
    for p in antt():
        for k, v in met(p, read(p), rows):
            bad.append(f"{p}: {k} and {v}")
    if bad:
        print("\n".join(bad))
        return 1
    n = 0
    for p in files:
        old = read(p)
        new = turned(p, old, rows)
        if new != old:
            n += 1
            with open(p, "w", encoding="utf-8") as f:
                f.write(new)
    print(f"{len(rows)} names, {n} files")
    return 0


if __name__ == "__main__":
    raise SystemExit(main())

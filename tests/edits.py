#!/usr/bin/env python3
"""What the prover refuses first in each must-fail edit. Runs after `rt ci`, which prints a line of each edit; SAID is what it printed.

An edit counts where the first refusal is a function's promised result, a loop's or a type's invariant, or a law, which should be false
under the edit: the script prints how its proof fails, and cannot tell whether another proof would do. Any other first refusal is a lesser
reason: an index, a cast, an overflow, a call's `requires`, a loop's end, a name out of scope, a text that does not parse or has a wrong
type, a limit of the prover's, or nothing at all. An edit that is refused for a lesser reason says so in a line of its own,
`# lesser: why`, which rt passes over. An edit that could not be tried, or has no line, is a fault. Lines that are wrong on purpose are
judged first.

    python3 tests/edits.py SAID [CRATE...]     without names: the edits of every crate
"""

import functools
import pathlib
import re
import sys

sys.dont_write_bytecode = True
import verdict  # noqa: E402, beside this file

# a line of `rt ci`: the edit, and what came of it
LINE = r"^rt: must-fail %s\.edit: (.*)$"
REFUSED = "refused, as it must be: "

# what was refused first, with the place: an error in a file, or a goal that no file answers; rt cuts both
ERROR = re.compile(r"(?P<path>[^\s:]+\.(?:rt|antt)):(?P<line>\d+):\d+: error(?P<code>\[[^\]]*\])?: (?:`(?P<name>[^`\s]+)`: )?(?P<text>.*)")
OPEN = re.compile(r"note: (?P<path>[^\s:]+\.rt):(?P<line>\d+):\d+: it is not proved that (?P<text>.*?) \(`(?P<name>[^`]+)`\)")

# a value of a type whose facts, its ghost fields, do not hold of it
VALUE = re.compile(r"note: (?P<path>[^\s:]+\.rt):(?P<line>\d+):\d+: `search` found no proof \(`(?P<name>invariant_of[^`]*)`\)")

# messages that tell nothing of the statement: the text is wrong, or the prover stopped at a limit
TEXT = re.compile(
    r"is not in scope|^not in scope|can be named from here|is not a constructor|does not define it|is no library|was not admitted"
    r"|could not tell|ran out of|deep nesting|has no field|gives no name"
)

# the facts about a function that its contract and its loops state; all others are about single steps
PROMISE = re.compile(r"returns(-[\w'-]+)?")
INVARIANT = re.compile(r"loop(-[\w'-]+)?-(init|preserved)(-[\w'-]+)?")
FACTS = re.compile(r"invariant_of-[\w'-]+")


def statement_of(text, name):
    """The lines of a name's signature in a file of proofs, and the signature itself."""
    lines = text.splitlines()
    for at, line in enumerate(lines):
        head = re.match(r"(\s*)(?:pub |unfoldable |abbrev )*%s(?: \{[^}]*\})* :(?: |$)" % re.escape(name), line)
        if head:
            end = at + 1
            while end < len(lines) and lines[end].startswith(head[1] + " ") and not lines[end].lstrip().startswith("unfolding"):
                end += 1
            return range(at + 1, end + 1), " ".join(lines[at:end])
    return None, ""


def fact_of(name, function, where):
    """(whether a function's fact counts, what it is)."""
    fact = "`%s` of %s" % (name, function)
    if PROMISE.fullmatch(name):
        return True, "promised result, %s" % fact
    if INVARIANT.fullmatch(name):
        return True, "loop's invariant, %s" % fact
    if FACTS.fullmatch(name):
        return True, "type's invariant, %s" % fact
    return False, "%s, %s, a fact about a single step" % (where, fact)


def first_refused(said, read):
    """(whether it counts, what was refused first). `read` gives the text of the edited file at a path."""
    if not said.startswith(REFUSED):
        return False, "no refusal that tells what is false: %s" % said[:100]
    said = said[len(REFUSED) :]
    goal = OPEN.match(said) or VALUE.match(said)
    if goal:
        return fact_of(goal["name"], "the function at %s:%s" % (goal["path"], goal["line"]), goal["path"])
    m = ERROR.match(said)
    if not m:
        return False, "nothing is refused by name"
    path, name = m["path"][2:] if m["path"].startswith("./") else m["path"], m["name"]
    where = "%s:%s" % (path, m["line"])
    if m["code"] or path.startswith("src/") or not name:
        return False, "%s, the text itself" % where
    if TEXT.search(m["text"]):
        return False, "%s, `%s`: %s" % (where, name, m["text"][:60])
    if path.startswith("specs/"):
        return False, "%s, the text of the definition `%s`" % (where, name)
    lines, statement = statement_of(read(path), name)
    if lines is None:
        return False, "%s, `%s`, which is stated nowhere" % (where, name)
    if int(m["line"]) in lines:
        return False, "%s, the text of the statement `%s`" % (where, name)
    function = re.fullmatch(r"proofs/(.*)/(Answers|Invariants)\.antt", path)
    if function and re.search(r": goal\.", statement):
        if function[2] == "Invariants":
            return False, "%s, the text of `%s`" % (where, name)
        return fact_of(name, function[1].replace("/", "::"), where)
    # whether the law is false, or only its proof no longer fits, shows in the message
    return True, "law `%s` (%s): %s" % (name, where, m["text"][:90])


# ---- lines that are wrong on purpose

PROOF = "returns : goal.returns\nreturns c = refl\n\nsub-sum : goal.sub-sum\nsub-sum c = refl\n\nloop-i-preserved : goal.loop-i-preserved\nloop-i-preserved c = refl\n\nloop-i-ends : goal.loop-i-ends\nloop-i-ends c = refl\n"
LAWS = "one : Set\none = ok\n\npub two : (n : ℕ) →\n    n ≡ n\ntwo n = refl\n"
AT = REFUSED + "./proofs/m/f/Answers.antt:%d:3: error: `%s`: %s"
LAW = REFUSED + "./proofs/Laws.antt:%d:3: error: `two`: the goal fails"
NOTE = REFUSED + "note: src/m.rt:2:17: it is not proved that %s (`%s`); the facts kn"
BAD = [
    ("", "an empty line"),
    ("NOT REFUSED: the crate is still proved with this edit", "a crate that is proved"),
    ("BAD EDIT: an 'old:' text is in src/lib.rt 0 times, and not once", "an edit that does not fit"),
    ("NOT TRIED: its check was killed", "an edit that was not tried"),
    ("refused, as it must be", "no refusal"),
    (REFUSED + "note: src/m.rt:2:17: `search` found no proof (`overflow_add-a`); `search` gave up", "a single step that no search finds"),
    (AT % (5, "sub-sum", "the goal fails"), "a single step first"),
    (NOTE % ("the index is within bounds", "index-a"), "a single step that no file answers"),
    (AT % (11, "loop-i-ends", "the goal fails"), "a loop's end"),
    (AT % (2, "returns", "`x` is not in scope; did you mean `y`?"), "a name out of scope"),
    ("refused, as it must be (only because a proof file names what the edit took away, so ..): " + (AT % (2, "returns", "x"))[24:], "a name that is gone"),
    (AT % (2, "returns", "antt ran out of the steps that the check of one declaration may take"), "a limit"),
    ("refused, as it must be (only by a limit of the prover, ..): " + (AT % (2, "returns", "x"))[24:], "a limit that rt tells"),
    (AT % (1, "returns", "the goal fails"), "a statement that is none"),
    (AT % (14, "returns-more", "the goal fails"), "an answer that is stated nowhere"),
    (LAW % 5, "a law's own text"),
    (REFUSED + "./specs/D.antt:8:12: error: `one`: expected type `ℕ`, but this has type `Bool`", "a definition's own text"),
    (REFUSED + "./specs/D.antt:9:1: error: this line starts at column 1", "a text that does not parse"),
    (REFUSED + "src/lib.rt:2:17: error[mismatched-types]: expected `u32`, found `u64`", "a wrong type in the code"),
]
GOOD = [
    AT % (2, "returns", "the goal fails"),
    AT % (8, "loop-i-preserved", "the goal fails"),
    NOTE % ("what the function ensures holds when it returns", "returns-then-v-ge7"),
    NOTE % ("the invariant of the loop holds", "loop-i-init"),
    REFUSED + "note: src/m.rt:2:17: `search` found no proof (`invariant_of-result-in-None`); `search` gave up",
    LAW % 6,
]


def self_faults():
    def read(path):
        return PROOF if path.endswith("Answers.antt") else LAWS

    faults = ["the script counts a line that is wrong on purpose: " + why for said, why in BAD if first_refused(said, read)[0]]
    return faults + ["the script does not count a right line: " + first_refused(said, read)[1] for said in GOOD if not first_refused(said, read)[0]]


def edited(edit, path):
    """The text of a file of a crate under an edit; nothing for one that rattle makes itself."""
    file = edit.parents[1] / path
    if not file.is_file():
        return ""
    text, at, old = file.read_text(encoding="utf-8"), None, None
    for line in edit.read_text(encoding="utf-8").splitlines():
        word, _, rest = line.partition(":")
        rest = rest[1:] if rest.startswith(" ") else rest
        if word == "file":
            at = rest.strip()
        elif word == "old":
            old = rest
        elif word == "new" and at == path and old:
            text = text.replace(old, rest)
    return text


def main():
    faults, lesser = self_faults(), 0
    if len(sys.argv) < 2:
        sys.exit(__doc__)
    told = pathlib.Path(sys.argv[1]).read_text(encoding="utf-8", errors="replace")
    edits = sorted(pathlib.Path("crates").glob("*/must-fail/*.edit"))
    crates = sys.argv[2:] or sorted({e.parts[1] for e in edits})
    edits = [e for e in edits if e.parts[1] in crates]
    for edit in edits:
        label = "%s/%s" % (edit.parts[1], edit.stem)
        line = re.search(LINE % re.escape(label), told, re.M)
        reason = re.search(r"^(?:# )?lesser: (.+)$", edit.read_text(encoding="utf-8"), re.M)
        if not line:
            faults.append("%s: nothing was said of it" % label)
            continue
        if not line[1].startswith("refused, as it must be"):
            faults.append("%s: %s" % (label, line[1][:160]))
            continue
        counts, what = first_refused(line[1], functools.partial(edited, edit))
        print("edits: %-45s %s%s" % (label, "" if counts else "LESSER: ", what))
        if counts and reason:
            faults.append("%s says `lesser: %s`, and is refused for what counts" % (label, reason[1]))
        if not counts and not reason:
            faults.append("%s is refused for a lesser reason first, and does not say so: %s" % (label, what))
        lesser += not counts
    if not edits:
        faults.append("no edit was found")
    told = "%d edits, %d refused first at a promised result, an invariant or a law, %d for a reason that they name; %d wrong lines reported"
    return verdict.verdict("edits", faults, told % (len(edits), len(edits) - lesser, lesser, len(BAD)))


if __name__ == "__main__":
    sys.exit(main())

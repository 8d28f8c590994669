#!/usr/bin/env python3
"""Every function says its result, and no public call asks anything of its caller.

Reads crates/*/src/*.rt. A function that returns something or takes a `&mut` has one `ensures` or several that settle it: the result, or
every field of it, and each `&mut` afterwards stand in an equation whose other side names only what went in, or what another equation
settles. So `result ≡ result` and `result ≡ f result` say nothing, and an equation behind an arrow does not count. A result that is lent
is settled by two: its bytes and where they lie. `main` is left out. A public call (one of the calls of 01 and 02, listed here, or a
function that is exported to C) has no `requires`, and each of its equations cites the definition that is named for it here, applied to
every argument of the call. An equation for a map that shows different results differently, listed here, settles the result; one for every
number settles what it speaks of; `MatchOption` and `MatchResult` settle what they settle case by case, `IfOk` what is returned. Contracts that are
wrong on purpose are tried first.
"""

import pathlib
import re
import sys

sys.dont_write_bytecode = True
import verdict  # noqa: E402, beside this file

# Each public call, and the definition that its promise cites for the result and for each `&mut`; where they differ, for each by name.
PUBLIC_CALLS = {
    "boot::geometry::validate": "boot.specs.Limits.limits",
    "metadata::free::free_clusters": "metadata.specs.Free.free_clusters",
    "read_file::read::read_number": "read_file.specs.Read.read_number",
    "read_file::read::read_part": "read_file.specs.Read.read_part",
    "read_file::read::read": "read_file.specs.Read.read_part",
    "stream::list::clusters": {"result": "stream.specs.Listing.listing_number", "list": "stream.specs.Listing.listing_list"},
    "write_alloc::allocate::allocate_clusters": "write_alloc.specs.Allocate.allocate_clusters",
    "write_extend::extend::extend_clusters": "write_extend.specs.Extend.extend_clusters",
    "write_shrink::shrink::shrink_clusters": "write_shrink.specs.Shrink.shrink_clusters",
    "write_file::new_file::make_in": "write_file.specs.NewFile.new_file",
    "write_file::write::write_into": "write_file.specs.Write.write_into",
    "write_length::set_length::set_length": "write_length.specs.SetLength.set_length",
    "write_remove::remove::remove": "write_remove.specs.Remove.remove",
    "carry_out::carry_out::carry_out": "write.specs.Calls.step",
}

# Each function that is exported to C, and the public call that it makes: it cites the same definitions.
EXPORTED = {
    "exfat::exfat_free_count": "metadata::free::free_clusters",
    "exfat::exfat_clusters": "stream::list::clusters",
    "exfat::exfat_read_number": "read_file::read::read_number",
    "exfat::exfat_read": "read_file::read::read_part",
    "exfat::exfat_allocate": "write_alloc::allocate::allocate_clusters",
    "exfat::exfat_extend": "write_extend::extend::extend_clusters",
    "exfat::exfat_shrink": "write_shrink::shrink::shrink_clusters",
    "exfat::exfat_new_file": "write_file::new_file::make_in",
    "exfat::exfat_write": "write_file::write::write_into",
    "exfat::exfat_set_length": "write_length::set_length::set_length",
    "exfat::exfat_remove": "write_remove::remove::remove",
}

# The maps that show different results differently, each by the type that it shows (None: the one that it takes): the record of the specs
# that a result is shown as. What refuses a call has a number of its own, which is not 0, and where there is none the result is shown whole.
SHOWN = {
    "boot.specs.Causes.number": "Result<(), Cause>",
    "metadata.specs.Free.free_answer": None,
    "stream.specs.Internal.walked_of": None,
    "directory.specs.Internal.directory_opened": None,
    "directory.specs.Internal.stream_opened": None,
    "directory.specs.Internal.file_opened": None,
    "write_alloc.specs.Outcome.success": None,
    "write_alloc.specs.Outcome.answer_of": None,
    "file.specs.Outcome.file_answer": None,
    "write_file.specs.Internal.data_answer": None,
}

# What does so together: the number, and what is returned where it is 0, as a map or as `IfOk` shows it.
SHOWN_TOGETHER = ("boot.specs.Causes.number", "std.specs.Result.result_unwrap_or")

# what settles a result that is lent: its bytes, and where they lie
LENT = ((".now",), (".ref_ptr",))

# an argument that is only written to, so that no definition takes what it holds before
ONLY_WRITTEN = "out"

HEAD = re.compile(r"^[ \t]*(?:#\[[^\]]*\]\s*)*((?:pub(?:\([a-z]+\))? )?(?:extern \"C\" )?)fn (\w+)", re.M)


def plain(text):
    """The text with comments blanked, so that words in them count for nothing, and array types without their semicolon."""
    text = re.sub(r"//[^\n]*", lambda m: " " * len(m.group()), text)
    return re.sub(r"\[(\w+); (\w+)\]", r"[\1, \2]", text)


def head_of(text, start):
    """A function's signature and contract: up to the brace that opens its body. Braces of clauses are passed over whole."""
    at, depth = text.index("(", start), 0
    while True:
        depth += {"(": 1, ")": -1}.get(text[at], 0)
        at += 1
        if depth == 0:
            break
    while True:
        clause = re.compile(r"[^{;]*?\b(?:requires|ensures)\b[^{;]*\{").match(text, at)
        if not clause:
            break
        at, depth = clause.end(), 1
        while depth:
            depth += {"{": 1, "}": -1}.get(text[at], 0)
            at += 1
    end = re.compile(r"[{;]").search(text, at)
    return text[start : end.start()]


def module_of(path):
    crate = path.parts[path.parts.index("crates") + 1]
    inner = list(path.parts[path.parts.index("src") + 1 : -1])
    if path.stem not in ("lib", "main", "mod"):
        inner.append(path.stem)
    return "::".join([crate] + inner)


# ---- a promise as a term: a list of words and terms


def term_of(text):
    """A text as nested lists, by its parentheses. A name in quotes is the name; a projection is a word of its own, with its point."""
    stack = [[]]
    text = re.sub(r"(?<=[\w'])\.(?=[A-Za-z_])", " .", text.replace("«", "").replace("»", ""))
    for word in re.findall(r"[()]|[^\s()]+", text):
        if word == "(":
            stack.append([])
        elif word == ")":
            inner = stack.pop()
            stack[-1].append(inner)
        else:
            stack[-1].append(word)
    if len(stack) != 1:
        raise ValueError("its parentheses do not close")
    return stack[0]


def bare(term):
    """A term without parentheses that say nothing: those around all of it, around one word, and around a function that is applied."""
    if isinstance(term, str):
        return term
    parts = [bare(t) for t in term]
    while len(parts) == 1 and isinstance(parts[0], list):
        parts = parts[0]
    if parts and isinstance(parts[0], list) and all(plain_word(w) for w in parts[0] + parts[1:]):
        parts = parts[0] + parts[1:]
    return parts[0] if len(parts) == 1 else parts


def plain_word(word):
    return isinstance(word, list) or re.fullmatch(r"\.?[A-Za-z0-9_-]+", word)


def with_let(term):
    """A term whose `let x = e in t` are replaced by t, with e for each x."""
    if isinstance(term, str):
        return term
    if len(term) > 3 and term[0] == "let" and term[2] == "=" and "in" in term:
        at = term.index("in")
        return with_let(put(term[at + 1 :], term[1], term[3:at]))
    if "let" in term and term[term.index("let") - 1] == "→":
        at = term.index("let")
        return [with_let(t) for t in term[:at]] + [with_let(term[at:])]
    return [with_let(t) for t in term]


def put(term, name, value):
    if isinstance(term, str):
        return value if term == name else term
    return [put(t, name, value) for t in term]


def parted(term, sign):
    """The parts of a term between a sign that stands outside of its parentheses."""
    parts = [[]]
    for t in term:
        if t == sign:
            parts.append([])
        else:
            parts[-1].append(t)
    return parts


def claims_of(term):
    """What a promise claims: its parts, each an equation (left, right), or something else, as what stands under hypotheses."""
    while isinstance(term, list) and len(term) == 1:
        term = term[0]
    if isinstance(term, str):
        return [("fact", term)]
    under = parted(term, "→")
    if len(under) > 1:
        return claims_of(under[-1]) if all(map(for_each_number, under[:-1])) else [("fact", term)]
    if len(parted(term, "×")) > 1:
        return [c for part in parted(term, "×") for c in claims_of(part)]
    if term[0] == "MatchOption" and len(term) == 4 and isinstance(term[3], list) and term[3][0] == "λ" and term[3][1].endswith("."):
        return [("cases", bare(term[1]), claims_of([term[2]]), term[3][1][:-1], claims_of(term[3][2:]))]
    if term[0] == "MatchResult" and len(term) == 4 and all(isinstance(t, list) and t[0] == "λ" and t[1].endswith(".") for t in term[2:]):
        return [("each", bare(term[1]), [(t[1][:-1], claims_of(t[2:])) for t in term[2:]])]
    if term[0] == "IfOk" and len(term) == 3 and isinstance(term[2], list) and term[2][0] == "λ" and term[2][1].endswith("."):
        return [("returned", bare(term[1]), term[2][1][:-1], claims_of(term[2][2:]))]
    sides = parted(term, "≡")
    if len(sides) == 2:
        return [("equation", bare(sides[0]), bare(sides[1]))]
    return [("fact", term)]


def for_each_number(term):
    """Whether what stands before an arrow is no hypothesis, but a number that the rest is said of."""
    return len(term) == 1 and isinstance(term[0], list) and len(term[0]) == 3 and term[0][1:] == [":", "ℕ"]


def same_sides(term):
    """Whether some equation in a term, at any depth, has the same text on both sides."""
    if isinstance(term, str):
        return False
    for under in parted(term, "→"):
        for part in parted(under, "×"):
            sides = parted(part, "≡")
            if len(sides) == 2 and bare(sides[0]) == bare(sides[1]):
                return True
    return any(same_sides(t) for t in term)


def words_of(term):
    return [term] if isinstance(term, str) else [w for t in term for w in words_of(t)]


def fields_of(kind, structs):
    """The fields of a type that is a struct, whatever its lifetimes and const parameters are."""
    return structs.get(re.sub(r"<'\w+(?:, \w+)*>$", "", kind) if kind else kind)


def kind_at(path, kind, structs):
    """The type of a field, by its path from the result."""
    for field in path[1:]:
        kind = dict(fields_of(kind, structs) or ()).get(field[1:])
    return kind


def path_of(term, result, kind, structs, uses):
    """What an equation's side is, if it is something that the function gives: ("result", field, ..), of a result that is lent
    ("result", ".now") and ("result", ".ref_ptr"), or (lent,). A result, or a field of it, that is shown by a map that shows it whole is
    that result or field; by one of two that do so together, the result and the map."""
    words = words_of(term)
    if isinstance(term, list) and len(words) > 2 and words[1] == result and all(w.startswith(".") for w in words[2:]):
        path = ("result",) + tuple(words[2:])
        full = uses.get(words[0])
        if full in SHOWN and SHOWN[full] == kind_at(path, kind, structs):
            return path
    if isinstance(term, list) and len(gives(term[1:], result)) == 1 and (result in term or ["Ok", result] in term):
        full = uses.get(term[0]) if isinstance(term[0], str) else None
        if full in SHOWN and SHOWN[full] in (None, kind):
            return ("result",)
        if full in SHOWN_TOGETHER:
            return ("result", full)
    if words and words[0] == result and all(w.startswith(".") for w in words[1:]):
        return ("result",) + tuple(words[1:])
    if len(words) == 2 and words[1] == ".new":
        return (words[0],)
    return None


def gives(term, result):
    """Each thing in a term that the function gives, as path_of has it."""
    words, found = words_of(term), []
    for i, w in enumerate(words):
        if w == result:
            j = i + 1
            while j < len(words) and words[j].startswith("."):
                j += 1
            found.append(("result",) + tuple(words[i + 1 : j]))
        if i + 1 < len(words) and words[i + 1] in (".new", ".exit"):
            found.append((w,))
    return found


def given_by(kind):
    """The types in an option or a result, and None for what is neither."""
    m = re.fullmatch(r"(?:Option|Result)<(.*?)(?:, (\w+))?>", kind or "")
    return (m[1], m[2]) if m else (None, None)


def settled(path, told, kind, structs):
    """Whether a path is settled: by an equation for it or for a whole that it is part of, or by one for each of its fields."""
    if any(path[:n] in told for n in range(1, len(path) + 1)):
        return True
    if kind and kind.startswith("&"):
        return all(path + part in told for part in LENT)
    if all(path + (full,) in told for full in SHOWN_TOGETHER):
        return True
    fields = fields_of(kind, structs)
    return bool(fields) and all(settled(path + ("." + f,), told, t, structs) for f, t in fields)


def told_by(claims, result, kind, structs, uses):
    """What the equations settle, each from what went in and from what is settled already."""
    told, left = set(), [c for c in claims if c[0] == "equation"]
    for claim in claims:
        if claim[0] == "cases" and claim[1] == result:
            none = told_by(claim[2], None, None, structs, uses)
            some = told_by(claim[4], claim[3], None, structs, uses)
            told |= {path for path in some if path == ("result",) or path in none}
            if settled(("result",), some, given_by(kind)[0], structs):
                told.add(("result",))
        if claim[0] == "each" and claim[1] == result:
            parts = zip(claim[2], given_by(kind))
            if all(settled(("result",), told_by(claims, name, None, structs, uses), one, structs) for (name, claims), one in parts):
                told.add(("result",))
        if claim[0] == "returned" and claim[1] == result and ("result",) in told_by(claim[3], claim[2], None, structs, uses):
            told.add(("result", SHOWN_TOGETHER[1]))
    while True:
        for claim in left:
            for mine, other in ((claim[1], claim[2]), (claim[2], claim[1])):
                path = path_of(mine, result, kind, structs, uses)
                if path and all(settled(p, told, None, structs) for p in gives(other, result)):
                    told.add(path)
                    left.remove(claim)
                    break
            else:
                continue
            break
        else:
            return told


def applied(term, name):
    """The arguments of each application of a name in a term."""
    if isinstance(term, str):
        return [[]] if term == name else []
    own = [term[1:]] if term and term[0] == name else []
    return own + [a for t in (term[1:] if own else term) for a in applied(t, name)]


def structs_of(texts):
    """The fields of each struct, by its name, without the ghost fields, which hold no value."""
    found = {}
    for text in texts:
        for name, body in re.findall(r"\bstruct (\w+)(?:<'\w+(?:, const \w+: \w+)*>)?\s*\{((?:[^{}]|\{[^}]*\})*)\}", text):
            body = re.sub(r"(?:pub )?ghost \w+: \{[^}]*\}", "", body)
            found[name] = re.findall(r"(?:pub )?(\w+): ([^\n]+),\n", body + "\n")
    for text in texts:
        for name, other in re.findall(r"\btype (\w+)<'\w+> = (\w+)<'\w+(?:, \w+)*>;", text):
            found[name] = found[other]
    return found


# ---- one file


def uses_of(text):
    """The full name of each definition that a file's proofs may name, by its short name."""
    uses = {}
    for module, names in re.findall(r"ghost use Rattle\.(\S+)\.\{([^}]*)\};", text):
        for name in names.split(","):
            uses[name.strip()] = module + "." + name.strip()
    return uses


def cite_faults(claims, result, kind, parts, lent, names, structs, uses, cited):
    """Whether each equation of a public call cites its definition, applied to every argument of the call."""
    faults = []

    def cites(thing, sides):
        full = cited if isinstance(cited, str) else cited.get(thing)
        if full is None and thing == ONLY_WRITTEN:
            full = cited["result"]
        if full is None:
            return faults.append("has no definition in the table for `%s`" % thing)
        short = full.split(".")[-1]
        if uses.get(short) != full:
            return faults.append("does not take `%s` from %s" % (short, full))
        for side in sides:
            for args in applied(side, short):
                missing = [n for n in names if n not in words_of(args) and n != ONLY_WRITTEN]
                if not missing:
                    return None
        faults.append("does not cite `%s`, applied to every argument, for `%s`" % (short, thing))

    for thing in ([("result",) + part for part in parts] if result else []) + [(one,) for one in lent]:
        sides = []
        for claim in claims:
            if claim[0] == "equation":
                for mine, other in ((claim[1], claim[2]), (claim[2], claim[1])):
                    path = path_of(mine, result, kind, structs, uses)
                    if path and path[: len(thing)] == thing:
                        sides.append(other)
        cites(thing[0], sides)
    return faults


def promise_faults(signature, promises, structs, uses, cited):
    """The faults of a function's `ensures`; `cited` is the table's entry of a public call, or None."""
    gives_back = re.search(r"\)\s*->\s*([^{]+?)\s*$", signature.strip())
    lent = re.findall(r"(\w+): &(?:'\w+ )?mut ", signature) + ["self"] * bool(re.search(r"\(\s*&(?:'\w+ )?mut self\b", signature))
    names = re.findall(r"(\w+):", signature[signature.index("(") :])
    result, kind = ("result", gives_back[1]) if gives_back else (None, None)
    try:
        whole = [with_let(term_of(promise.strip()[1:-1])) for promise in promises]
        claims = [claim for one in whole for claim in claims_of(one)]
    except ValueError as e:
        return ["has an `ensures` that cannot be read: %s" % e]
    faults = ["has an equation with the same text on both sides"] if any(map(same_sides, whole)) else []
    told = told_by(claims, result, kind, structs, uses)
    if result and not settled(("result",), told, kind, structs):
        if kind.startswith("&"):
            faults.append("does not say which bytes it lends and where they lie")
        else:
            faults.append("does not say what its result equals, whole or every field of it")
    for one in lent:
        if (one,) not in told:
            faults.append("does not say what `%s` equals afterwards" % one)
    if cited:
        parts = LENT if result and kind.startswith("&") else ((),)
        faults += cite_faults(claims, result, kind, parts, lent, names, structs, uses, cited)
    return faults


def text_faults(path, text, structs, calls):
    """The faults of a file, with where each is; how many functions it has, how many give something, and its public calls."""
    faults, seen, giving, public = [], 0, 0, set()
    uses = uses_of(text)
    for m in HEAD.finditer(text):
        visibility, name = m.groups()
        if name == "main":
            continue
        seen += 1
        full = module_of(path) + "::" + name
        where = "%s:%d: %s " % (path, text.count("\n", 0, m.start(2)) + 1, full)
        head = head_of(text, m.end(1))
        signature = re.split(r"\b(?:requires|ensures)\b", head)[0]
        asks = re.search(r"\brequires\b", head)
        promises = re.findall(r"\bensures\b(?:\s+\w+)?\s*(\{.*?\})\s*(?=\bensures\b|\brequires\b|\Z)", head, re.S)
        exported = 'extern "C"' in visibility
        cited = calls.get(full)
        if exported and not cited:
            faults.append(where + "is exported, and the table has no public call for it")
        if re.search(r"\)\s*->", signature) or "&mut " in signature:
            giving += 1
            if not promises or len(promises) != len(re.findall(r"\bensures\b", head)):
                faults.append(where + "does not say its result (%d of its `ensures` can be read)" % len(promises))
            else:
                faults += [where + f for f in promise_faults(signature, promises, structs, uses, cited)]
        if cited:
            public.add(full)
            if asks:
                faults.append(where + "is a public call and has a `requires`")
            if not promises:
                faults.append(where + "is a public call and has no `ensures`")
            if not visibility.startswith("pub"):
                faults.append(where + "is a public call and is not `pub`")
    return faults, seen, giving, public


# ---- contracts that are wrong on purpose: what each must be reported for

USES = "ghost use Rattle.c.specs.D.{right};\nghost use Rattle.c.specs.E.{other};\nghost use Rattle.boot.specs.Causes.{number};\nghost use Rattle.std.specs.Result.{result_unwrap_or};\nghost use Rattle.file.specs.Outcome.{file_answer};\npub struct Pair {\n    pub a: u32,\n    pub b: u32,\n}\npub struct View<'a> {\n    pub all: &'a [u8],\n    pub ghost long: { 1 ≤ length all.now },\n}\n"
USES += "pub struct Test {\n    pub outcome: Result<(), Cause>,\n    pub clear: bool,\n}\n"
USES += "pub struct Facts<'a, const A: usize, const B: usize> {\n    pub all: &'a [u8],\n    pub n: u32,\n    pub ghost long: { 1 ≤ A → 1 ≤ length all.now },\n}\n"
USES += "pub type Known<'a> = Facts<'a, 1, 1>;\n"
CALLS = {"c::f": "c.specs.D.right"}
BAD = [
    ("fn h(x: u32) -> u32 ensures { result ≡ result } {", "same text on both sides"),
    ("fn h(x: u32) -> u32 ensures { (result ≡ right x) × ((right (x)) ≡ (right x)) } {", "same text on both sides"),
    ("fn h(x: u32) -> u32 ensures { (let o = result in result ≡ o) } {", "same text on both sides"),
    ("fn h(x: u32) -> u32 ensures { (result ≡ right x) × ((y : T) → other y ≡ other y) } {", "same text on both sides"),
    ("fn h(x: u32) -> u32 ensures { result ≡ right result } {", "what its result equals"),
    ("fn h(x: u32) -> u32 ensures { result ≤ x } {", "what its result equals"),
    ("fn h(x: u32) -> u32 ensures { x ≡ 1 → result ≡ right x } {", "what its result equals"),
    ("fn h(x: u32) -> Pair ensures { result.a ≡ right x } {", "every field of it"),
    ("fn h(x: u32) -> Pair ensures { (result.a ≡ right result.b) × (result.b ≡ right result.a) } {", "every field of it"),
    ("fn h(x: u32) -> Pair ensures a { result.a ≡ right result.b } ensures b { result.b ≡ right result.a } {", "every field of it"),
    ("fn h(v: &mut [u8], x: u32) ensures { v.new ≡ right (v.new) } {", "what `v` equals afterwards"),
    ("fn h(x: u32) -> u32 {", "does not say its result"),
    ("fn h(from: &mut impl Read) -> io::Result<()> {", "does not say its result"),
    ("fn h<'a>(v: &'a [u8]) -> &'a [u8] ensures { result.now ≡ right v.now } {", "where they lie"),
    ("fn h<'a>(v: &'a [u8]) -> &'a [u8] ensures { result.ref_ptr ≡ right v.entry.ref_ptr } {", "where they lie"),
    ("fn h<'a>(v: &'a [u8]) -> &'a [u8] ensures { (result.now ≡ right result.now) × (result.ref_ptr ≡ v.entry.ref_ptr) } {", "where they lie"),
    (
        "pub fn f<'a>(v: &'a [u8]) -> &'a [u8] ensures { (result.now ≡ right v.now) × (result.ref_ptr ≡ v.entry.ref_ptr) } {",
        "does not cite `right`",
    ),
    ("pub fn f(x: u32) -> u32 ensures { result ≡ other x } {", "does not cite `right`"),
    ("pub fn f(x: u32, y: u32) -> u32 ensures { result ≡ right x 0 } {", "does not cite `right`"),
    ("pub fn f(x: u32) -> u32 ensures { (result ≡ other x) × (right x ≡ right 0) } {", "does not cite `right`"),
    ("pub fn f(v: &mut [u8]) -> u32 ensures { (result ≡ right v.old) × (v.new ≡ v.old) } {", "for `v`"),
    ("pub fn f(x: u32) -> u32 requires { x ≤ 1 } ensures { result ≡ right x } {", "has a `requires`"),
    ("fn f(x: u32) -> u32 ensures { result ≡ right x } {", "is not `pub`"),
    ("fn h(x: u32) -> Result<Pair, Cause> ensures { number result ≡ right x } {", "what its result equals"),
    ("fn h(x: u32) -> Result<Pair, Cause> ensures { result_unwrap_or result other ≡ right x } {", "what its result equals"),
    ("fn h(x: u32) -> Result<Pair, Cause> ensures { IfOk result (λ p. p ≡ right x) } {", "what its result equals"),
    ("fn h(x: u32) -> Result<Pair, Cause> ensures { (number result ≡ 0) × IfOk result (λ p. p ≡ right p) } {", "what its result equals"),
    ("fn h(x: u32) -> Result<(), Cause> ensures { number result ≡ right result } {", "what its result equals"),
    ("fn h(x: u32) -> Result<Pair, Cause> ensures { other result ≡ right x } {", "what its result equals"),
    ("fn h(x: u32) -> Result<Pair, Cause> ensures { file_answer result result ≡ right x } {", "what its result equals"),
    ("fn h(x: u32) -> u32 ensures { (n : Fin x) → result ≡ right x } {", "what its result equals"),
    ("fn h(x: u32) -> Option<u32> ensures { MatchOption result (x ≡ 0) (λ p. p ≤ x) } {", "what its result equals"),
    ("fn h(&mut self) -> Option<u32> ensures { MatchOption result (self.old ≡ 0) (λ p. (p ≡ right self.old) × (self.new ≡ 0)) } {", "what `self` equals"),
    ("fn h(&mut self) ensures { right self.old ≡ 0 } {", "what `self` equals"),
    ("fn h(x: u32) -> Option<Pair> ensures { MatchOption result (x ≡ 0) (λ p. p.a ≡ right x) } {", "what its result equals"),
    ("fn h(x: u32) -> Result<Pair, Cause> ensures { MatchResult result (λ p. p.a ≡ right x) (λ e. e ≡ other x) } {", "what its result equals"),
    ("fn h(x: u32) -> Result<Pair, Cause> ensures { MatchResult result (λ p. p ≡ right x) (λ e. x ≡ 0) } {", "what its result equals"),
    ("fn h(v: &[u8]) -> Result<View<'_>, Cause> ensures { MatchResult result (λ p. p.all.now ≡ v.now) (λ e. e ≡ other v) } {", "what its result equals"),
    ("pub fn f(x: u32, y: u32) -> Result<Pair, Cause> ensures { file_answer y result ≡ right x } {", "does not cite `right`"),
    ("fn h(x: u32) -> Test ensures { (number result.clear ≡ right x) × (result.outcome ≡ other x) } {", "every field of it"),
    ("fn h(x: u32) -> Test ensures { number result.outcome ≡ right x } {", "every field of it"),
    ("fn h(v: &[u8]) -> Known<'_> ensures { (result.all.now ≡ v.now) × (result.all.ref_ptr ≡ v.entry.ref_ptr) } {", "every field of it"),
    ('pub extern "C" fn e(x: u32) -> u32 ensures { result ≡ right x } {', "no public call for it"),
]
GOOD = [
    "fn h(x: u32) -> Test ensures { (number result.outcome ≡ right x) × (result.clear ≡ other x) } {",
    "fn h(v: &[u8]) -> Known<'_> ensures { (result.all.now ≡ v.now) × ((result.all.ref_ptr ≡ v.entry.ref_ptr) × (result.n ≡ right v)) } {",
    "fn h(v: &[u8]) -> Facts<'_, 1, N> ensures { (result.all.now ≡ v.now) × ((result.all.ref_ptr ≡ v.entry.ref_ptr) × (result.n ≡ right v)) } {",
    "pub fn f(x: u32) -> Result<(), Cause> ensures { number result ≡ right x } {",
    "pub fn f(x: u32, y: u32) -> Result<Pair, Cause> ensures { file_answer y result ≡ right x y } {",
    "fn h(x: u32) -> Pair ensures { file_answer x (Ok result) ≡ right x } {",
    "fn h(x: u32) -> Result<Pair, Cause> ensures { (number result ≡ right x) × (result_unwrap_or result other ≡ right x) } {",
    "fn h(x: u32) -> Result<Pair, Cause> ensures { (number result ≡ right x) × IfOk result (λ p. p ≡ right x) } {",
    "fn h(x: u32) -> Result<Pair, Cause> ensures { ((n : ℕ) → let o = right x n in file_answer n result ≡ o) × other x } {",
    "fn h(&mut self) -> Option<u32> ensures { MatchOption result ((self.old ≡ 0) × (self.new ≡ self.old)) (λ p. (p ≡ right self.old) × (self.new ≡ 0)) } {",
    "fn h(x: u32) -> Option<Pair> ensures { MatchOption result (x ≡ 0) (λ p. (p.a ≡ right x) × (p.b ≡ x)) } {",
    "fn h(v: &[u8]) -> Result<View<'_>, Cause> ensures { MatchResult result (λ p. (p.all.now ≡ v.now) × (p.all.ref_ptr ≡ v.entry.ref_ptr)) (λ e. e ≡ other v) } {",
    "fn h(x: u32) -> Pair ensures a { result.a ≡ right x } ensures b { other x result.a ≡ result.b } {",
    "fn h(x: u32) -> Pair ensures { (other x result.a ≡ result.b) × (result.a ≡ right x) } {",
    "pub fn f(v: &mut [u8]) -> u32 ensures { (let o = right v.old in (result ≡ o.a) × (v.new ≡ o.b)) } {",
    "pub fn f<'a>(v: &'a [u8]) -> &'a [u8] ensures { (let o = right v.now in (result.now ≡ o.a) × (result.ref_ptr ≡ other o)) } {",
]


def self_faults():
    structs, path, faults = structs_of([USES]), pathlib.Path("crates/c/src/lib.rt"), []
    for text, reason in BAD:
        found = text_faults(path, USES + text, structs, CALLS)[0]
        if not any(reason in f for f in found):
            faults.append("the script passes a contract that is wrong on purpose: " + text)
    for text in GOOD:
        faults += ["the script refuses a right contract: " + f for f in text_faults(path, USES + text, structs, CALLS)[0]]
    return faults


def main():
    faults, seen, giving, public = self_faults(), 0, 0, set()
    calls = dict(PUBLIC_CALLS, **{name: PUBLIC_CALLS[call] for name, call in EXPORTED.items()})
    texts = {p: plain(p.read_text(encoding="utf-8")) for p in sorted(pathlib.Path("crates").glob("*/src/**/*.rt"))}
    structs = structs_of(texts.values())
    for path, text in texts.items():
        more, n, g, names = text_faults(path, text, structs, calls)
        faults += more
        seen, giving, public = seen + n, giving + g, public | names
    for name in sorted(set(calls) - public):
        faults.append("%s is listed as a public call and is not there" % name)
    if seen == 0:
        faults.append("no function was found under crates/")
    told = "%d functions, the %d that return or change something say so, %d public calls ask nothing and cite their definitions; %d wrong contracts reported"
    return verdict.verdict("contracts", faults, told % (seen, giving, len(public), len(BAD)))


if __name__ == "__main__":
    sys.exit(main())

#!/usr/bin/env python3
"""Gives the definitions and lemmas of specs/ and proofs/ the spelling of today's Rattle: words in snake case (bits_before, row_sound), and
types and facts in upper camel case (LawOfShares).

usage: python3 tools/respell.py [ROOT]       rewrites the files below ROOT/crates in place (ROOT: the folder above tools/)
       python3 tools/respell.py --list [ROOT] prints each old name with its new one, and changes nothing

It takes the names that are defined below specs/ and proofs/, and writes them anew wherever an antt text stands: in .antt files, in clauses, ghost
members, ghost fields and `ghost use` lines of .rt files. Functions of src/, strings and comments stay as they are, but for a name in camel case,
which a comment can only mean as such. It ends with an error, and writes nothing, where two names of one file would fall together.
"""
import os
import re
import sys

WORD = r"[^\s(){}\[\].,;:\"|]+"
HEAD = re.compile(
    r"^\s*(?:(?:abbrev|unfoldable|pub|record|data)\s+)*(%s(?: %s)*?)\s*((?:\s(?:\([^()]*\)|\{[^{}]*\})\s*)*): (.*)$" % (WORD, WORD)
)
CLAUSE = re.compile(r"\b(ghost|requires|ensures|law)\b[^{;\n]*\{")


# A lemma about a function that it would be named as (or another name of a lemma) gets a name of its own. The first is the folder of a crate.
OWN = {
    ("server", "earliest-of"): "earliest_of_lem",
    ("server", "supplies-by"): "supplies_by_lem",
    ("server", "can-run"): "can_run_lem",
    ("records", "kind-bit"): "kind_bit_lem",
    ("records", "record-read"): "record_read_lem",
    ("records", "row_read"): "row_read_lem",
    ("plan_text", "past-cut"): "past_cut_lem",
    ("executive", "OnePayer"): "OnePays",
}


def antt_files(root):
    for folder, dirs, files in os.walk(os.path.join(root, "crates")):
        dirs[:] = sorted(d for d in dirs if d != "out")
        for f in sorted(files):
            path = os.path.join(folder, f)
            if f.endswith(".antt") and ("/specs/" in path or "/proofs/" in path):
                yield path


def rt_files(root):
    for folder, dirs, files in os.walk(os.path.join(root, "crates")):
        dirs[:] = sorted(d for d in dirs if d != "out")
        for f in sorted(files):
            if f.endswith(".rt"):
                yield os.path.join(folder, f)


def read(path):
    with open(path, encoding="utf-8") as f:
        return f.read()


def defined(text):
    """The names that a file of specs/ or proofs/ defines, but for the answers to goals, whose names are the checker's."""
    for line in text.split("\n"):
        for it in re.finditer(r"\blet (%s) [:=]" % WORD, line):
            yield it.group(1)
        m = HEAD.match(line.split(" -- ")[0])
        if m and not line.lstrip().startswith(("--", "use ", "pub use ", "let ")) and not m.group(3).startswith("goal."):
            yield from m.group(1).split()


def is_old(name):
    if not re.match(r"^[A-Za-z][A-Za-z0-9_\-']*$", name):
        return False
    if name[0].isupper():
        return "-" in name or "_" in name
    return "-" in name or bool(re.search(r"[A-Z]", name))


def anew(name):
    if name[0].isupper():
        return "".join(w[:1].upper() + w[1:] for w in re.split(r"[-_]", name))
    name = re.sub(r"(?<=[a-z0-9])([A-Z])", lambda m: "_" + m.group(1).lower(), name.replace("-", "_"))
    return name.lower()


def imported_from_library(text):
    """Names that a file takes from the library, which keep their spelling there."""
    names = set()
    for m in re.finditer(r"use Rattle\.std\.[^{;\n]*\{([^}]*)\}|use borrow\.[^{;\n]*\{([^}]*)\}|use [a-z]\w*\.Mathlib[^{;\n]*\{([^}]*)\}", text):
        for it in (m.group(1) or m.group(2) or m.group(3)).split(","):
            names.update(it.split(" as ")[0].split())
            if " as " in it:
                names.add(it.split(" as ")[1].strip())
    return names


def collect(root):
    names, where = {}, {}
    texts = {p: read(p) for p in antt_files(root)}
    library = set()
    for t in texts.values():
        library |= imported_from_library(t)
    for p in rt_files(root):
        library |= imported_from_library(read(p))
    for p, t in texts.items():
        for name in defined(t):
            where.setdefault(p, set()).add(name)
            if is_old(name) and name not in library:
                names[name] = anew(name)
    return names, where


def pattern(names):
    # What follows `c.` in an answer is a step of the code, named by the checker.
    some = sorted(names, key=len, reverse=True)
    return re.compile(r"(?<![\w\-'◌≡≤⊎])(?<!\bc\.)(%s)(?![\w\-'◌])" % "|".join(re.escape(n) for n in some))


def respell_antt(text, names, pat):
    out = []
    for line in text.split("\n"):
        code, mark, comment = line, "", ""
        m = re.search(r"(^|\s)--(\s|$)", line)
        if m:
            code, mark, comment = line[: m.start()], line[m.start() : m.end()], line[m.end() :]
        parts = re.split(r'("(?:[^"\\]|\\.)*")', code)
        code = "".join(p if p.startswith('"') else pat.sub(lambda w: names[w.group(1)], p) for p in parts)
        comment = pat.sub(lambda w: names[w.group(1)] if re.search(r"[a-z][A-Z]", w.group(1)) else w.group(1), comment)
        out.append(code + mark + comment)
    return "\n".join(out)


def respell_rt(text, names, pat):
    out, at = [], 0
    while True:
        use = re.compile(r"^\s*ghost use [^;]*;", re.M).search(text, at)
        clause = CLAUSE.search(text, at)
        m = min((x for x in (use, clause) if x), key=lambda x: x.start(), default=None)
        if m is None:
            out.append(text[at:])
            return "".join(out)
        end = m.end()
        if m is clause:
            depth = 1
            while depth:
                depth += {"{": 1, "}": -1}.get(text[end], 0)
                end += 1
        out.append(text[at : m.start()])
        out.append(pat.sub(lambda w: names[w.group(1)], text[m.start() : end]))
        at = end


def main(argv):
    listing = argv[:1] == ["--list"]
    rest = argv[1:] if listing else argv
    root = rest[0] if rest else os.path.dirname(os.path.dirname(os.path.abspath(__file__)))
    names, where = collect(root)
    if listing:
        for old in sorted(names):
            print(old, names[old])
        return 0
    bad = []
    for p, own in sorted(where.items()):
        crate = os.path.relpath(p, os.path.join(root, "crates")).split(os.sep)[0]
        seen = {}
        for name in sorted(own):
            new = OWN.get((crate, name), names.get(name, name))
            if seen.setdefault(new, name) != name:
                bad.append(f"{p}: {seen[new]} and {name} fall together as {new}")
    if bad:
        print("\n".join(bad), file=sys.stderr)
        return 1
    if not names:
        print("nothing to respell")
        return 0
    changed, kept = 0, {}
    for paths, turn in ((antt_files(root), respell_antt), (rt_files(root), respell_rt)):
        for p in paths:
            crate = os.path.relpath(p, os.path.join(root, "crates")).split(os.sep)[0]
            if crate not in kept:
                own = names | {old: new for (c, old), new in OWN.items() if c == crate}
                kept[crate] = own, pattern(own)
            own, pat = kept[crate]
            old = read(p)
            new = turn(old, own, pat)
            if new != old:
                with open(p, "w", encoding="utf-8") as f:
                    f.write(new)
                changed += 1
    print(f"{len(names)} names, {changed} files")
    return 0


if __name__ == "__main__":
    raise SystemExit(main(sys.argv[1:]))

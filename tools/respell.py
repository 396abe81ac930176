#!/usr/bin/env python3
"""Brings the names of this repository's own definitions and lemmas to snake case, as `bookVerdict` to `book_verdict` and `step-answer` to `step_answer`.

usage: tools/respell.py [--check]       at the top of the repository

A name is one that a file of specs/, or a file right in proofs/, declares at a type: a definition, a lemma, a field or a constructor. Types keep their
capitals, names of Rust keep their spelling, and so do the names that the check makes, behind `goal.` and `tie.`. It turns whole words in .antt files and in
the clauses of .rt files. Where a lemma would get the name of a definition it gets `_lem` behind it. --check only lists what would turn.
"""
import collections
import os
import re
import sys

WORD = r"[^\s(){}.;,@\"«»\[\]]+"
DECLARED = re.compile(r"(\s*)((?:(?:abbrev|unfoldable|pub|private|opaque)\s+)*)(" + WORD + r"(?:\s+" + WORD + r")*)\s*(?:\([^()]*\)\s*|\{[^{}]*\}\s*)*:(?=\s|$)")
HEAD = re.compile(r"\s*(?:(?:abbrev|unfoldable|pub|private|opaque)\s+)*(?:record|data|module)\s")
CAPITALS = re.compile(r"[A-Z][A-Z0-9]*(?:-[A-Z0-9]+)*$")
# Where the rule would give a name of something else in scope: fields that say what a definition of their name does, and a book's counts beside a table's.
CHOSEN = {
    "entryCount": "entry_count_of",
    "machineCount": "machine_count_of",
    "inFlight": "in_flight_of",
    "to-root": "ends_at_root",
    "is-nan": "is_nan_lem",
}
KEYWORDS = {"unfolding", "let", "where", "case", "of", "use", "syntax", "mod"}


def snake(name):
    """`bookVerdict` and `step-answer` in snake case; NOT-ADMITTED and X0 keep their capitals; a type keeps its own."""
    if CAPITALS.match(name):
        return name.replace("-", "_")
    if re.match(r"[A-Z]", name):
        return name
    parts = [re.sub(r"(?<=[a-z0-9])([A-Z])", lambda m: "_" + m[1].lower(), part) for part in name.split("-")]
    return "_".join(parts)


def files(kind, below=""):
    for folder, folders, names in os.walk("crates"):
        folders[:] = sorted(f for f in folders if f != "out")
        for name in sorted(names):
            if name.endswith(kind):
                yield os.path.join(folder, name)


def declared():
    """Each name that is declared outside the folders of single functions, with where."""
    found = collections.defaultdict(set)
    for path in files(".antt"):
        parts = path.split(os.sep)
        if parts[2] == "proofs" and len(parts) > 4:
            continue
        with open(path, encoding="utf-8") as text:
            for line in text:
                if line.lstrip().startswith(("--", "let ", "use ")) or HEAD.match(line):
                    continue
                m = DECLARED.match(line)
                if m and not set(m[3].split()) & KEYWORDS:
                    for name in m[3].split():
                        found[name].add(path)
    return found


def table():
    """What each name turns to: in a place of its own, and behind a dot."""
    names = declared()
    plain = {old: CHOSEN.get(old, snake(old)) for old in names if re.fullmatch(r"[\w'′-]+", old)}
    by_new = collections.defaultdict(set)
    for old, new in plain.items():
        by_new[new].add(old)
    turns = dict(plain)
    for new, olds in by_new.items():
        if len(olds) > 1:
            stated = [old for old in olds if any(os.sep + "specs" + os.sep in path for path in names[old])]
            stays = stated[0] if len(stated) == 1 else next(old for old in olds if "-" not in old and "_" not in old)
            for old in olds - {stays}:
                turns[old] = new + "_lem"
    keep = lambda them: {old: new for old, new in them.items() if old != new}
    return keep(turns), keep(plain)


def turned(text, tables, own=True):
    """The text with the words of the tables turned, but not behind `goal.` and `tie.`; where it is the proof of a function, by the rule alone behind a dot."""
    turns, plain = tables
    out, end = [], 0
    for m in re.finditer(r"[\w'′₀-₉-]+", text):
        out.append(text[end : m.start()])
        word = m[0]
        if text[max(0, m.start() - 5) : m.start()].endswith(("goal.", "tie.")):
            out.append(word)
        elif text[m.start() - 1 : m.start()] == ".":
            out.append(plain.get(word, word) if own else snake(word) if word in plain else word)
        else:
            out.append(turns.get(word, word))
        end = m.end()
    return "".join(out) + text[end:]


def clauses(text, tables):
    """A .rt file with the words turned in its clauses, its `ghost use` items and what comments quote."""
    out, at = [], 0
    for m in re.finditer(r"ghost use [^;]*;|//[^\n]*|\b(?:requires|ensures)\*?(?:\s+\w+)?\s*\{|\bghost\s+\w*:?\s*\{|\bghost\s*\{", text):
        if m.start() < at:
            continue
        out.append(text[at : m.start()])
        at = m.end()
        if m[0].startswith("//"):
            out.append(re.sub(r"`[^`]*`", lambda q: turned(q[0], tables), m[0]))
        elif m[0].startswith("ghost use"):
            out.append(turned(m[0], tables))
        else:
            depth = 1
            while depth:
                depth += {"{": 1, "}": -1}.get(text[at], 0)
                at += 1
            out.append(turned(text[m.start() : at], tables))
    return "".join(out) + text[at:]


def main():
    tables = table()
    if "--check" in sys.argv:
        for old in sorted(tables[0]):
            print(old, tables[0][old], sep="\t")
        return
    for kind in (".antt", ".rt"):
        for path in files(kind):
            parts = path.split(os.sep)
            with open(path, encoding="utf-8", newline="") as source:
                text = source.read()
            new = clauses(text, tables) if kind == ".rt" else turned(text, tables, not (parts[2] == "proofs" and len(parts) > 4))
            if new != text:
                with open(path, "w", encoding="utf-8", newline="") as target:
                    target.write(new)


if __name__ == "__main__":
    main()

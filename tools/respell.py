#!/usr/bin/env python3
"""Brings the names of definitions and lemmas to the spelling of today's Rattle, once, right after the kit's port.py.

usage: python3 tools/respell.py [FOLDER]

A definition's words are joined by `_`, a type's stand in camel case. In a lemma's name a dash joins two names of definitions, and other words are added with `_`; `getD` is
`get_or`. Renamed is what the files of specs/ declare, wherever it stands as a whole word of antt: in specs/, proofs/, the clauses and ghost
items of src/ and of must-fail edits, and between backticks in comments and pages. Functions of src/, strings, and what a proof file declares for itself stay.
Two names that would fall together stop it.
"""

import glob
import os
import re
import sys

TOKEN = re.compile(r"[^\s(){}\[\],;.@`\"]+")
DECLARED = re.compile(r"^(\s*)((?:abbrev |pub |unfoldable )*)([^\s:(){}.,;λ=]+)((?: [^\s:(){}.,;λ=]+)*) : ")
LOCAL = re.compile(r"^(?:pub )?([^\s:(){}.,;λ=]+) : tie\.")
PLACES = re.compile(r"^\s*(?:pub )?(?:data|record) (\S+)")


def read(path):
    with open(path, encoding="utf-8") as f:
        return f.read()


def antt(root):
    for p in sorted(glob.glob(os.path.join(root, "crates/*/specs/**/*.antt"), recursive=True)):
        yield p, True
    for p in sorted(glob.glob(os.path.join(root, "crates/*/proofs/**/*.antt"), recursive=True)):
        yield p, False


def declared(root):
    """The names that specs/ declares: those of definitions, and those of lemmas."""
    definitions, lemmas = set(), set()
    for path, spec in antt(root):
        if not spec:
            continue
        inside = None
        for line in read(path).split("\n"):
            code = line.split("--")[0] if line.lstrip().startswith("--") else line
            place = PLACES.match(code)
            if place:
                definitions.add(place.group(1))
                inside = len(code) - len(code.lstrip())
                continue
            if code.strip() and inside is not None and len(code) - len(code.lstrip()) <= inside:
                inside = None
            m = DECLARED.match(code)
            if not m or m.group(3) in ("use", "module", "where", "let", "in"):
                continue
            names = [m.group(3)] + m.group(4).split()
            if inside is not None or "abbrev" in m.group(2) or "unfoldable" in m.group(2):
                definitions.update(names)
            else:
                lemmas.update(names)
    return definitions, lemmas - definitions


def as_now(name):
    return re.sub(r"^(getD|get_d)(?![A-Za-z])", "get_or", name)


def spelled(name, known):
    """A lemma's name: a dash between two known names, `_` before any other word."""
    parts = as_now(name).split("-")
    groups, i = [], 0
    while i < len(parts):
        for j in range(len(parts), i, -1):
            word = "_".join(parts[i:j])
            if word in known:
                groups.append((word, True))
                i = j
                break
        else:
            groups.append((parts[i], False))
            i += 1
    out = groups[0][0]
    for (_, a), (word, b) in zip(groups, groups[1:]):
        out += ("-" if a and b else "_") + word
    return out


def renamings(root):
    definitions, lemmas = declared(root)
    known = {as_now(n).replace("-", "_") for n in definitions} | {"get_or", "length", "take", "drop"}
    to = {}
    for n in definitions:
        to[n] = "".join(w[:1].upper() + w[1:] for w in n.split("-")) if n[0].isupper() else as_now(n).replace("-", "_")
    for n in lemmas:
        to[n] = spelled(n, known)
    to = {a: b for a, b in to.items() if a != b}
    return to, definitions | lemmas


def code(text, to):
    return TOKEN.sub(lambda m: to.get(m.group(0), m.group(0)), text)


def quoted(text, to):
    """Between backticks alone."""
    return re.sub(r"`[^`\n]*`", lambda m: code(m.group(0), to), text)


def in_antt(text, to):
    local = {m.group(1) for m in map(LOCAL.match, text.split("\n")) if m}
    here = {a: b for a, b in to.items() if a not in local}
    out = []
    for line in text.split("\n"):
        at = line.find("--") if line.lstrip().startswith("--") else -1
        out.append(line[:at] + quoted(line[at:], here) if at >= 0 else code(line, here))
    return "\n".join(out)


LITERAL = re.compile(r'b?"(?:[^"\\]|\\.)*"|b?\'(?:[^\'\\]|\\.)\'|//[^\n]*')


def in_source(text, to):
    out, at = [], 0
    for m in LITERAL.finditer(text):
        out.append(code(text[at:m.start()], to))
        out.append(quoted(m.group(0), to) if m.group(0).startswith("//") else m.group(0))
        at = m.end()
    out.append(code(text[at:], to))
    return "".join(out)


def main():
    root = sys.argv[1] if len(sys.argv) > 1 else "."
    to, all_names = renamings(root)
    seen = {}
    for a, b in sorted(to.items()):
        if b in all_names or b in seen:
            print(f"respell: {a} and {seen.get(b, b)} fall together", file=sys.stderr)
            return 1
        seen[b] = a
    changed = 0
    sources = sorted(glob.glob(os.path.join(root, "crates/*/src/**/*.rt"), recursive=True)) + sorted(glob.glob(os.path.join(root, "crates/*/must-fail/*.edit")))
    pages = sorted(glob.glob(os.path.join(root, "docs/*.md"))) + [os.path.join(root, "README.md")]
    for path, turn in [(p, in_antt) for p, _ in antt(root)] + [(p, in_source) for p in sources] + [(p, quoted) for p in pages]:
        old = read(path)
        new = turn(old, to)
        if new != old:
            with open(path, "w", encoding="utf-8") as f:
                f.write(new)
            changed += 1
    print(f"respell: {len(to)} names in {changed} files")
    return 0


if __name__ == "__main__":
    sys.exit(main())

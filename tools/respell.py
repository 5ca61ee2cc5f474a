#!/usr/bin/env python3
"""Brings the repository's own definitions and lemmas to today's spelling: words in snake case, types and modules in camel case.

usage: python3 tools/respell.py [--check]      at the top of the repository, once, behind port.py

It takes each name that a file of specs/ or proofs/ declares (a definition, a lemma, a field, a constructor) and writes it with `_` where it
had a dash or a capital inside, everywhere below crates/ where the whole word stands: in .antt files, in the clauses and imports of .rt files,
in must-fail edits, and in comments and pages between backticks. Functions of src/, exported C names and strings are no declared names and
stay. A name that a library has too stays, as do D and S. --check writes nothing and lists what would fall together.
"""

import os
import re
import sys

TOP = os.path.dirname(os.path.dirname(os.path.realpath(__file__)))
CRATES = os.path.join(TOP, "crates")
WORD = r"[^\s(){}\[\],;.:=|\"`«»]+"
HEAD = re.compile(r"( *)((?:(?:abbrev|opaque|unfoldable|pub|instance|private)\s+)*)(?:(record|data|ruleset)\s+)?(" + WORD + r")(.*)$")
NOT_NAMES = {"use", "mod", "unfolding", "infixl", "infixr", "infix", "module", "open", "syntax", "let", "in", "where"}
# What libraries name too: laws of a ring.
KEPT = {"add-mul", "mul-one", "one-mul"}
# Lemmas that get a word more: behind a dot the same spelling is another thing.
STEPS = set()


def files(*ends):
    for folder, dirs, names in os.walk(CRATES):
        dirs[:] = sorted(d for d in dirs if d != "out")
        for name in sorted(names):
            if name.endswith(ends):
                yield os.path.join(folder, name)


def text_of(path):
    with open(path, encoding="utf-8") as it:
        return it.read()


def declared():
    """Each declared name, and whether it is a definition of specs/, a field, or a lemma."""
    found = {}
    for path in files(".antt"):
        # A walk's own names are those of its goals, which the check makes.
        if os.path.basename(path) == "Proof.antt":
            continue
        lines = [re.sub(r"--.*", "", line) for line in text_of(path).split("\n")]
        # What stands behind a module's head or a `where` is declared there: its equations begin with its name.
        begun = {(len(l) - len(l.lstrip()), l.split()[0]) for l in lines if l.strip() and "=" in l.split()}
        holder, depth = None, None
        for i, line in enumerate(lines):
            m = HEAD.match(line)
            if not m:
                continue
            indent, marks, new, name, rest = len(m[1]), m[2], m[3], m[4], m[5]
            typed = re.match(r"\s*:(\s|$)", rest)
            below = rest.strip() == "" and i + 1 < len(lines) and lines[i + 1].lstrip().startswith(":")
            if holder is not None and indent <= holder:
                holder, depth = None, None
            if name in NOT_NAMES:
                continue
            if holder is not None:
                depth = indent if depth is None else depth
                if indent == depth and (typed or below):
                    found.setdefault(name, set()).add("field")
            elif new:
                found.setdefault(name, set()).add("definition" if "/specs/" in path else "lemma")
                holder = indent if new in ("record", "data") else None
            elif (typed or below) and (indent == 0 or marks.strip() or (indent, name) in begun):
                found.setdefault(name, set()).add("definition" if "/specs/" in path else "lemma")
    return found


def renamings():
    """Old and new. Where two would fall together the one in camel case, else that of specs/, has the plain name; the other, a lemma or a
    field, gets a word more."""
    known = declared()
    groups = {}
    for name in known:
        groups.setdefault(snake(name), []).append(name)
    names, left_behind_dots = {}, set()
    for new, olds in groups.items():
        first = sorted(olds, key=lambda n: ("-" in n, n == new and len(olds) > 1 and "definition" not in known[n], n))[0]
        for old in olds:
            if old == first:
                to = new
            elif "field" in known[old]:
                to = new + "_fact"
            else:
                to = new + "_lem"
                if "field" not in known[old]:
                    left_behind_dots.add(old)
            if to != old:
                names[old] = to
    return names, left_behind_dots, known


def snake(name):
    if name in KEPT or name[0].isupper() and "-" not in name:
        return name
    name = name.replace("-", "_")
    return re.sub(r"(?<=[A-Za-z0-9])([A-Z])(?=[A-Za-z0-9]|$)", lambda m: "_" + m[1].lower(), name)


def turned(text, names, word=WORD):
    def new(m):
        # behind a dot stands a field, or a step of a walk, and no lemma
        behind_dot = m.start() > 0 and text[m.start() - 1] == "."
        return m[0] if behind_dot and m[0] in STEPS else names.get(m[0], m[0])

    return re.sub(word, new, text)


def ticked(text, names):
    """Names between backticks alone."""
    return re.sub(r"`[^`\n]*`", lambda m: turned(m[0], names, r"[^\s(){}\[\],;.:=|\"`«»/]+"), text)


def by_lines(text, names, mark, word):
    out = []
    for line in text.split("\n"):
        at = line.find(mark)
        head, tail = (line, "") if at < 0 else (line[:at], line[at:])
        out.append(turned(head, names, word) + ticked(tail, names))
    return "\n".join(out)


def main(argv):
    names, steps, known = renamings()
    STEPS.update(steps)
    writes = {}
    everything = set()
    for path in files(".antt", ".rt", ".edit"):
        text = text_of(path)
        word = r"[^\s(){}\[\],;.:=|\"`«»<>&*!/+%?]+" if path.endswith((".rt", ".edit")) else WORD
        mark = "--" if path.endswith(".antt") else "//"
        new = by_lines(text, names, mark, word)
        tokens = set(re.findall(word, "\n".join(l.split(mark)[0] for l in text.split("\n"))))
        for t in sorted(tokens & names.keys()):
            if names[t] in tokens:
                print(f"fall together: {os.path.relpath(path, TOP)}: {t} and {names[t]}")
        if new != text:
            writes[path] = new
    for old, new in sorted(names.items()):
        if new in known and new not in names:
            print(f"two names are one: {old} and {new}")
        if new.endswith(("_lem", "_fact")):
            print(f"a word more: {old} is {new}")
    for folder, dirs, found in os.walk(TOP):
        dirs[:] = [d for d in dirs if d not in (".git", "crates", "target")]
        for f in found:
            if f.endswith(".md"):
                path = os.path.join(folder, f)
                text = text_of(path)
                new = ticked(text, names)
                if new != text:
                    writes[path] = new
    print(f"{len(names)} names, {len(writes)} files")
    if "--check" not in argv:
        for path, new in writes.items():
            with open(path, "w", encoding="utf-8") as it:
                it.write(new)
    return 0


if __name__ == "__main__":
    sys.exit(main(sys.argv[1:]))

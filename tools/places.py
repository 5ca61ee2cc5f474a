#!/usr/bin/env python3
"""Lists the places in crates/*/src where an older form of the language may stand, by the points of docs/DESIGN-PASS.md.

    python3 tools/places.py [POINT..]       a line for each place, then the count of the point

It goes by text: a place is somewhere to look, and docs/DESIGN-PASS.md says of each what became of it.
"""
import collections
import glob
import re
import sys


def sources():
    for name in sorted(glob.glob("crates/*/src/*.rt")):
        yield name, open(name, encoding="utf-8").read()


def functions():
    """Each function: its file, line, name, parameters, clauses and body."""
    for name, text in sources():
        lines = text.splitlines()
        for i, line in enumerate(lines):
            m = re.match(r'( *)(?:pub )?(?:extern "C" )?fn (\w+)', line)
            if not m:
                continue
            indent = m.group(1)
            end = next(k for k in range(i, len(lines)) if lines[k] == indent + "}")
            alone = [k for k in range(i, end) if lines[k] == indent + "{"]
            if alone:
                head, body = "\n".join(lines[i : alone[0]]), "\n".join(lines[alone[0] + 1 : end])
            else:
                brace = next(k for k in range(i, end) if lines[k].endswith("{"))
                head, body = "\n".join(lines[i : brace + 1]), "\n".join(lines[brace + 1 : end])
            opened = head.index("(", m.end() if "<" not in head[m.end() :].split("(")[0] else m.end())
            depth, at = 0, opened
            while True:
                depth += {"(": 1, ")": -1}.get(head[at], 0)
                at += 1
                if depth == 0:
                    break
            parameters = " ".join(head[opened + 1 : at - 1].split()).rstrip(",")
            yield name, i + 1, m.group(2), parameters, head[at:], body


def lines_with(pattern):
    for name, text in sources():
        for number, line in enumerate(text.splitlines(), 1):
            if re.search(pattern, line) and not line.lstrip().startswith("//"):
                yield f"{name}:{number}: {line.strip()}"


def point_1():
    yield from lines_with(r"^(pub )?enum ")
    yield from lines_with(r"^ +pub (answer|removal|best): ")
    yield from lines_with(r"Refused\(u8\)|^pub const [A-Z_]+: u8 = |^ +(pub )?(kind|call|version): u|fn \w+\((number|answer|version): u8|call: u(8|size)|pub const \w+: Refusal = ")
    yield from lines_with(r"^pub struct Refusal")


def shape(text):
    text = re.sub(r"//[^\n]*", "", text)
    keep = {"if", "else", "for", "in", "while", "match", "return", "let", "mut", "as", "self", "true", "false", "break"}
    return " ".join(
        t if t in keep or not re.match(r"\w", t) else "_" for t in re.findall(r"\w+(?:::\w+)*|[^\w\s]", text)
    )


def point_2():
    groups = collections.defaultdict(list)
    for name, line, function, parameters, _, body in functions():
        if len(re.findall(r"\w+", body)) >= 3:
            groups[shape(parameters) + " | " + shape(body)].append(f"{name}:{line} {function}")
    for members in groups.values():
        if len(members) > 1:
            yield "  ~  ".join(members)


def point_3():
    yield from lines_with(r"^ *while ")
    for name, line, function, _, _, body in functions():
        for m in re.finditer(r"for (\w+) in (?!&)[^{;]*\.\.[^{;]*\{", body):
            variable = m.group(1)
            if re.search(r"\[[^\]]*\b%s\b[^\]]*\]" % variable, body[m.end() :]):
                yield f"{name}:{line} {function}: indexes by {variable}"
        for m in re.finditer(r"(\w+) (?:\+|-)= 1;", body):
            if re.search(r"\b(?:while|for)\b", body):
                yield f"{name}:{line} {function}: counts {m.group(1)}"


def point_4():
    names = r"lesser|greater|smaller|larger|same|worse|worse_of|number|kind_number|kind_code|added_by|copy|clear|differs|put|two_at|four_at|number_at|print_name|put_decimal|digit|has_worst|worst_number|has_octave|octave_number|cell_of|ring_of|corner_number"
    for name, line, function, parameters, _, _ in functions():
        if re.fullmatch(names, function):
            yield f"{name}:{line} {function}({parameters})"


def point_5():
    facts = collections.defaultdict(set)
    groups = collections.defaultdict(set)
    for name, line, function, parameters, clauses, _ in functions():
        here = f"{name.split('/')[1]}::{function}"
        for m in re.finditer(r"(?:requires|ensures)(?: \w+)? \{(.*?)\}\n", clauses + "\n", re.S):
            for part in re.split(r" × ", " ".join(m.group(1).split())):
                part = part.strip(" ()")
                if " " in part and "result" not in part:
                    facts[part].add(here)
        parts = [re.sub(r"&'a ", "&", p.strip()) for p in parameters.split(", ") if ":" in p]
        for size in (2, 3, 4):
            for i in range(len(parts) - size + 1):
                groups[", ".join(parts[i : i + size])].add(here)
    for fact, where in sorted(facts.items(), key=lambda f: -len(f[1])):
        if len(where) >= 3:
            yield f"fact in {len(where)}: {fact}"
    for group, where in sorted(groups.items(), key=lambda g: (-len(g[0]), g[0])):
        if len(where) >= 3 and not any(group in other and where <= groups[other] and other != group for other in groups):
            yield f"together in {len(where)}: {group}"


def point_6():
    for name, text in sources():
        for m in re.finditer(r"^(?:pub )?struct (\w+) \{(.*?)^\}", text, re.M | re.S):
            arrays = re.findall(r"(\w+): \[\w+; (\w+)\]", m.group(2))
            counted = re.search(r"\b(n|m|len): u", m.group(2))
            line = text.count("\n", 0, m.start()) + 1
            if arrays and counted:
                yield f"{name}:{line} {m.group(1)}: a buffer and its length"
            for size, several in collections.Counter(a[1] for a in arrays).items():
                if several > 1:
                    yield f"{name}:{line} {m.group(1)}: {several} arrays of {size}"
    for name, line, function, parameters, _, _ in functions():
        if re.search(r"\[\w+; \w+\], n: usize", parameters):
            yield f"{name}:{line} {function}: a buffer and its length"
        for size, several in collections.Counter(re.findall(r"\[\w+; (\w+)\]", parameters)).items():
            if several > 1:
                yield f"{name}:{line} {function}: {several} arrays of {size}"


def point_7():
    for name, line, function, parameters, _, body in functions():
        if len(re.findall(r"if (\w+) == \d+ \{\s+return \w+\(", body)) > 1 or re.search(r"match \w+ \{\s+0 =>", body):
            yield f"{name}:{line} {function}: a step by a number"
        if re.search(r"\b(over|chains): bool", parameters):
            yield f"{name}:{line} {function}: a step by a flag"
    yield from lines_with(r"\bdyn |\bfn\(|\[fn")


def point_8():
    trivial = 0
    for name in sorted(glob.glob("crates/*/proofs/**/Answers.antt", recursive=True)):
        text = open(name, encoding="utf-8").read()
        for m in re.finditer(r"^(\S+)(?: c| g c)? = (tt|search rules|refl)$", text, re.M):
            trivial += 1
            yield f"{name}: {m.group(1)}"


if __name__ == "__main__":
    points = [int(p) for p in sys.argv[1:]] or range(1, 9)
    for point in points:
        places = list(globals()[f"point_{point}"]())
        print(f"point {point}: {len(places)}")
        for place in places:
            print("   ", place)

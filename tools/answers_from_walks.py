#!/usr/bin/env python3
"""Turns a walk of the older kit, proofs/F/Proof.antt, into Invariants.antt and Answers.antt.

usage: python3 tools/answers_from_walks.py NAMES CRATE [FUNCTION..]

NAMES is the folder that `rt names NAMES` wrote at the top of the repository: it lists the old and the new name of each goal and each step.
A goal keeps its proof; `.before` goes, since a step is named from anywhere behind it; the names of steps and fields are turned; invariants
take one record in place of the variables. What only says `search rules` is left out. Proof.antt becomes Proof.antt.old, which is to be
removed by hand once the function is proved. What it could not turn it prints.
"""

import json
import os
import re
import sys

TOP = os.path.dirname(os.path.dirname(os.path.realpath(__file__)))
IDENT = r"[^\s(){}\[\],;.:=|\"`«»]+"


def plain(name):
    """A name with dashes for underscores, and no word for the kind of bound."""
    return re.sub(r"^(overflow|nonzero|bounds)[-_]", "", name).replace("_", "-")


def blocks(text):
    """The declarations at the margin, each with the comments above it."""
    out, now, name = [], [], None
    for line in text.split("\n"):
        if line.startswith("--"):
            if now and not now[-1].startswith("--"):
                out.append("\n".join(now).strip("\n"))
                now, name = [], None
        elif line and not line[0].isspace():
            word = re.sub(r"^((abbrev|pub|unfoldable|opaque) )+", "", line).split()[0]
            if word not in ("unfolding", name) and (name is not None or any(not l.startswith("--") and l.strip() for l in now)):
                out.append("\n".join(now).strip("\n"))
                now = []
            if word != "unfolding":
                name = word
        now.append(line)
    out.append("\n".join(now).strip("\n"))
    return [b for b in out if b.strip()]


class Turner:
    def __init__(self, crate, function, data, said):
        self.crate, self.function, self.said = crate, function, said
        # old step -> new step
        self.steps = {}
        self.given = {}
        self.fields = {}
        for i, (_, _, (old, new), _, _) in enumerate(data["places"]):
            if old:
                key = old.replace("-", "_").lower()
                self.steps.setdefault(key, new)
                self.fields.setdefault(key, {}).update(dict(data["places"][i][4]))
            arm = data["arms"][i]
            if arm:
                for field, at, *path in arm[2]:
                    path = path[0]
                    if path:
                        self.given[at.replace("-", "_").lower(), tuple(path)] = (arm[0], field)
        self.args = {}
        for old, new in data["args"]:
            m = re.match(r"\.(args|ranges) \.(\S+)$", old)
            if m:
                self.args[m[2]] = new.split(".")[-1]
        self.goals = {}
        for old, new in data["needs"]:
            self.goals[plain(old)] = new
            self.goals[plain(old.replace("part-", "slice-bounds-"))] = new
        self.loops = {old.replace("-", "_"): (new, names, changed) for ((old, new), names), changed in zip(data["loops"], data["changed"])}
        self.places = {p[0].replace("_", "-"): n for p, n in zip(data["places"], data["places_by_name"])}
        self.typed = {step: var for place in data["typed"] for var, step in place}
        self.walkers = set()

    def say(self, text):
        self.said.append(f"{self.crate}/{self.function}: {text}")

    # ---- paths

    def path(self, root, fields, rooted):
        """A path from a place, without `.before` and with today's names."""
        fields = [{"type-inv": "type_inv", "well-formed": "well_formed"}.get(f, f) for f in fields]
        if "before" not in fields and not rooted:
            return root + "".join("." + f for f in fields)
        while fields and fields[0] == "before":
            fields.pop(0)
        if not fields:
            return root
        first = fields[0].replace("-", "_").lower()
        rest = fields[1:]
        if first in ("pre", "requires"):
            return root + ".requires" + "".join("." + f for f in rest)
        if first in ("fits", "ranges") and first not in self.steps:
            return root + ".ranges" + "".join("." + self.args.get(f, f) for f in rest[:1]) + "".join("." + f for f in rest[1:])
        if first == "args":
            return root + ".args" + "".join("." + self.args.get(f, f) for f in rest[:1]) + "".join("." + f for f in rest[1:])
        if rest and rest[0] == "given" and first in self.typed:
            return f"{root}.type_inv.{self.typed[first]}" + "".join("." + f for f in rest[1:])
        if rest and rest[0] == "given":
            for n in range(len(rest), 0, -1):
                if (first, tuple(rest[:n])) in self.given:
                    arm, field = self.given[first, tuple(rest[:n])]
                    return f"{root}.{arm}.{field}" + "".join("." + f for f in rest[n:])
            self.say(f"a value that is told: .{'.'.join(fields)}")
        if first in self.steps:
            rest = [{"taken": "true", "left": "false", "inv": "invariant", "came": "branch"}.get(f, f) if i == 0 else f for i, f in enumerate(rest)]
            rest = [self.fields[first].get(f, f) if i == 0 else f for i, f in enumerate(rest)]
            return root + "." + self.steps[first] + "".join("." + f for f in rest)
        if first in self.loops:
            return root + "." + self.loops[first][0] + "".join("." + ("invariant" if f == "inv" else f) for f in rest)
        if fields[0] not in ("the_lifetimes", "well_formed", "well-formed", "auto"):
            self.say(f"no step of this name: {root}.{'.'.join(fields)}")
        return root + "".join("." + f for f in fields)

    def body(self, text, rooted):
        """An expression. rooted: the names that stand for places."""
        rooted = set(rooted)
        # walkers between places go: their argument stands for them
        changed = True
        while changed:
            changed = False
            for w in self.walkers:
                new = re.sub(r"\(" + re.escape(w) + r" (" + IDENT + r"|\((?:[^()]|\([^()]*\))*\))((?:\.before)*)\)", lambda m: m[1] + m[2], text)
                new = re.sub(r"(?<![\w.'-])" + re.escape(w) + r" (" + IDENT + r"(?:\.before)*|\((?:[^()]|\([^()]*\))*\))", lambda m: m[1], new)
                if new != text:
                    text, changed = new, True
        text = re.sub(r"\((" + IDENT + r"(?:\.before)*)\)", lambda m: m[1] if m[1].split(".")[0] in rooted or ".before" in m[1] else m[0], text)
        # names for places
        for _ in range(6):
            for m in re.finditer(r"\blet (" + IDENT + r") = (" + IDENT + r")((?:\.before)*) in", text):
                if m[2] in rooted:
                    rooted.add(m[1])

        def turn(m):
            root, fields = m[1], m[2].split(".")[1:]
            return self.path(root, fields, root in rooted)

        # the root is no field
        text = re.sub(r"(?<![.\w'-])(" + IDENT + r")((?:\.[^\s(){}\[\],;.:=|\"`«»]+)+)", turn, text)
        # a test that is turned round says at once what was tested
        part = r"(?:" + IDENT + r"(?:\.[^\s(){}\[\],;.:=|\"`«»]+)*|\((?:[^()]|\([^()]*\))*\))"
        return re.sub(r"not-(true|false) " + part + r" (" + IDENT + r"(?:\.[\w-]+)+)\.\1-raw", r"\2.\1", text)

    # ---- declarations

    def invariant(self, block):
        m = re.search(r"^(?:abbrev )?(?:pub )?(invariant|decreases)-(" + IDENT + r")((?: " + IDENT + r")*) =", block, re.M)
        kind, loop, params = m[1], m[2].replace("-", "_"), m[3].split()
        new, names, changed = self.loops[loop]
        wants = list(names) + [n for n, c in zip(names, changed) if c]
        if len(params) != len(wants):
            self.say(f"{kind}-{loop}: {len(params)} variables, and {wants} are wanted")
            return None
        first = {}
        for i, (p, w) in enumerate(zip(params, wants)):
            first[p] = f"l.initial.{w}" if i < len(names) and changed[i] else f"l.{w}"
        head, body = block[: m.start()], block[m.end() :]
        comment = "\n".join(l for l in head.split("\n") if l.startswith("--"))
        opened = "\n".join(l for l in head.split("\n") if l.startswith("unfolding"))

        def turn(t):
            return first.get(t[0], t[0])

        # (a record's field keeps its name)
        body = re.sub(r"(?<![.\w'-])" + IDENT + r"(?! [:=] )", turn, body)
        out = f"abbrev pub {kind}-{new} : goal.{kind}-{new}\n" + (opened + "\n" if opened else "") + f"{kind}-{new} l ={body}"
        return (comment + "\n" if comment else "") + out

    def goal(self, block, name, old):
        new = self.goals.get(plain(old))
        if new is None:
            self.say(f"no goal of this name: {old}")
            return None
        m = re.search(r"^" + re.escape(name) + r"((?: " + IDENT + r")*) =", block, re.M)
        if not m:
            self.say(f"{old}: no equation")
            return None
        params = [p for p in m[1].split() if p != "κs"]
        comment = "\n".join(l for l in block[: m.start()].split("\n") if l.startswith("--"))
        opened = "\n".join(l for l in block[: m.start()].split("\n") if l.startswith("unfolding"))
        body = self.body(block[m.end() :], params)
        if "κs" in body.split():
            self.say(f"{new}: cites κs")
        if not opened and body.strip() in ("search rules", "search needs", "omega arith"):
            return ""
        out = f"pub {new} : goal.{new}\n" + (opened + "\n" if opened else "") + f"{new} {' '.join(params)} ={body}"
        return (comment + "\n" if comment else "") + out

    def other(self, block):
        """A lemma of the file's own."""
        m = re.search(r"^(?:abbrev )?(?:pub )?(" + IDENT + r") : ", block, re.M)
        # from a place to a place: only a walk
        if m and re.search(r" : (?:tie\.[A-Z][\w-]*|At-[\w-]+) → (?:tie\.[A-Z][\w-]*|At-[\w-]+)\n", block):
            self.walkers.add(m[1])
            return ""
        rooted = set(re.findall(r"\((" + IDENT + r") : (?:tie\.[A-Z]|[A-Z][\w-]*\))", block)) | {"c", "k"}

        def place(t):
            old = t[1].replace("_", "-")
            if old not in self.places:
                self.say(f"no place of this name: {t[1]}")
                return t[0]
            return "goal." + self.places[old]

        block = re.sub(r"tie\.((?:Start|Else|Then|After|At|In|Left|Joined)[\w-]*)((?: (?:invariant|decreases)-[\w-]+)*)", place, block)
        return self.body(block, rooted)


def turn(names, crate, function, path, data, said):
    with open(path, encoding="utf-8") as it:
        text = it.read()
    t = Turner(crate, function, data, said)
    parts = blocks(text)
    uses, invariants, answers, header = [], [], [], ""
    module = f"Rattle.{crate}.proofs.{function.replace('/', '.')}"
    for b in parts:
        lines = b.split("\n")
        code = [l for l in lines if not l.startswith("--")]
        if not code or not "".join(code).strip():
            header = header or b
            continue
        if not uses and not answers and not invariants and lines[0].startswith("--") and code[0].startswith("use "):
            header = "\n".join(l for l in lines if l.startswith("--"))
        if code[0].startswith("use "):
            uses += [l for l in code if l.startswith("use ")]
            continue
        head = " ".join(code)
        m = re.match(r"(?:abbrev )?(?:pub )?(" + IDENT + r") : (?:\(t : ℕ\) → )?(?:tie|[\w-]+lts|lts)\.Need-(" + IDENT + r")", head)
        if m:
            it = t.goal(b, m[1], m[2])
            answers.append(it if it is not None else "-- LEFT\n" + re.sub("(?m)^", "-- ", b))
        elif re.match(r"(abbrev )?(pub )?(invariant|decreases)-", head):
            it = t.invariant(b)
            invariants.append(it if it is not None else "-- LEFT\n" + re.sub("(?m)^", "-- ", b))
        elif re.search(r"statement M\b", head) or os.path.basename(os.path.dirname(path)).startswith("+") and re.match(r"(abbrev )?(μ-|\w+-(at|below) :)", head):
            if "statement M" not in head:
                t.say("measure of a cycle by hand: " + head[:120])
        else:
            answers.append(t.other(b))
    uses = [u for u in uses if not re.search(rf"{re.escape(module)}\.|borrow\.Fn\.|\.Lts| as tie| as lts|\.Statement\.|\.Reads|\.Kinds|\+\w+\.", u)]
    answers = [a for a in answers if a]
    folder = os.path.dirname(path)
    if invariants:
        with open(os.path.join(folder, "Invariants.antt"), "w", encoding="utf-8") as it:
            it.write("\n".join(uses + [f"use {module}.Given as goal", ""]) + "\n" + "\n\n".join(invariants) + "\n")
    if answers:
        with open(os.path.join(folder, "Answers.antt"), "w", encoding="utf-8") as it:
            it.write((header + "\n" if header else "") + "\n".join(uses + [f"use {module}.Goals as goal", ""]) + "\n" + "\n\n".join(answers) + "\n")
    os.rename(path, path + ".old")


def main(argv):
    names, crate, *only = argv
    with open(os.path.join(names, "crates", crate, "names.json"), encoding="utf-8") as it:
        data = json.load(it)
    said = []
    for folder, _, files in sorted(os.walk(os.path.join(TOP, "crates", crate, "proofs"))):
        if "Proof.antt" not in files:
            continue
        function = os.path.relpath(folder, os.path.join(TOP, "crates", crate, "proofs"))
        if only and function not in only:
            continue
        dotted = function.replace("/", ".")
        keys = [k for k in data if re.match(rf"Rattle-{crate}-proofs\.{re.escape(dotted)}\.Lts(-\w+)?$", k)]
        if len(keys) != 1:
            said.append(f"{crate}/{function}: names {keys}")
            continue
        turn(names, crate, function, os.path.join(folder, "Proof.antt"), data[keys[0]], said)
    print("\n".join(said))
    return 0


if __name__ == "__main__":
    sys.exit(main(sys.argv[1:]))

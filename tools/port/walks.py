#!/usr/bin/env python3
"""Brings the proofs that walk the code (`proofs/F/Proof.antt`) to the names and places that today's check makes.

usage: python3 tools/port/walks.py NAMES CRATE..     at the top; NAMES is the folder that `rt names NAMES` wrote

A step, a place and a goal are named after the source today, and were numbered before: `if1` is `if-a-b`, `Need-returns-2` is
`Need-returns`. An arm of a match is one place today, and what its pattern binds is a field of it; it was up to three places before. What
a place knows stands in each place below it, so no chain of `.before` is needed before a field. `rt names` lists all of this for each
function. Only names and places change: what a proof says stays.
"""

import json
import os
import re
import sys

TOKEN = r"[^\s(){}\[\];,.@\"`:|]+"
PLACE = r"tie\.((?:After|At|In|Then|Else|Joined|Start)" + r"[^\s(){}\[\];,.@\"`:|]*)"
START = ("args", "requires", "ranges", "fits", "lifetimes", "well_formed")


def plain(name):
    return name.replace("-", "_")


class Names:
    def __init__(self, names):
        self.places = [p[0] for p in names["places"]]
        self.index = {}
        for i, p in enumerate(self.places):
            self.index.setdefault(plain(p), i)
        self.parent = [None if p[1] is None else self.index[plain(p[1])] for p in names["places"]]
        self.new_place = names["places_by_name"]
        self.steps = {plain(p[2][0]): p[2][1] for p in names["places"] if p[2][0]}
        self.needs = {plain(old): new for old, new in names["needs"]}
        self.asked = {plain(n[0]): self.index[plain(a[0])] for n, a in zip(names["needs"], names["asked_at"])}
        self.loops = {plain(l[0][0]): l[0][1] for l in names["loops"]}
        self.arms = {}
        self.depth = {}
        for i, arm in enumerate(names["arms"]):
            if arm:
                name, depth, fields = arm
                self.depth[i] = depth
                for field, step, path in fields:
                    self.arms.setdefault(plain(step), {})[tuple(path)] = f"{name}.{field}"
        # an arm is one place today: its last one has all that its pattern binds
        self.last = {}
        arm_name = {i: names["arms"][i][0] for i in range(len(self.places)) if names["arms"][i]}
        for i in self.depth:
            j = i
            while True:
                below = [k for k in self.depth if self.parent[k] == j and arm_name[k] == arm_name[i]]
                if not below:
                    break
                j = below[0]
            self.last[i] = j
        self.goals = [self.index[plain(a[0])] for a in names["asked_at"]]
        self.want = len(names["needs"]) + 2 * len(names["loops"])

    def up(self, place, k):
        for _ in range(k):
            place = None if place is None else self.parent[place]
        return place

    def up_today(self, place):
        return self.up(place, self.depth.get(place, 1))

    def steps_up(self, of, to):
        """How many `.before` lead from one place to another today."""
        of, to = self.last.get(of, of), self.last.get(to, to)
        n = 0
        while of is not None and of != to:
            of = self.up_today(of)
            n += 1
        return n if of == to else None


class Turner:
    def __init__(self, names):
        self.n = names
        self.said = []
        self.vars = {}

    def field(self, path):
        """Today's path of a field below a place, given as it was."""
        head, rest = path[0], path[1:]
        if head in START or plain(head) in START:
            return [plain(head)] + rest
        key = plain(head)
        if key not in self.n.steps and key.endswith("_lem"):
            key = key[: -len("_lem")]  # a step with the name of a lemma that respell.py renamed
        arm = self.n.arms.get(key)
        if arm:
            for k in range(len(rest), -1, -1):
                if tuple(rest[:k]) in arm:
                    return arm[tuple(rest[:k])].split(".") + rest[k:]
        if key in self.n.steps:
            return [self.n.steps[key]] + rest
        if key != "branch":
            self.said.append(f"no step {head}")
        return [head] + rest

    def chain(self, m):
        var, tail = m.group(1), m.group(2)
        if var not in self.vars or self.vars[var] is None:
            return m.group(0)
        path = [w for w in tail.split(".") if w]
        k = 0
        while k < len(path) and path[k] == "before":
            k += 1
        at = self.n.up(self.vars[var], k)
        rest = path[k:]
        if rest:
            if rest[0] == "type-inv":
                rest[0] = "type_inv"
            return ".".join([var] + self.field(rest))
        if k == 0:
            return m.group(0)
        up = self.n.steps_up(self.vars[var], at)
        if up is None:
            self.said.append(f"{m.group(0)}: no place of today")
            return m.group(0)
        return var + ".before" * up

    def expression(self, text):
        """Turns a piece of a body, and notes what its lets bind to places."""
        out = []
        pos = 0
        for m in re.finditer(r"\blet (" + TOKEN + r") = (" + TOKEN + r")((?:\.before)*) in\b", text):
            out.append(self.plain_text(text[pos : m.start()]))
            var, of, befores = m.groups()
            if of in self.vars and self.vars[of] is not None:
                at = self.n.up(self.vars[of], befores.count("before"))
                up = self.n.steps_up(self.vars[of], at) or 0
                out.append(f"let {var} = {of}{'.before' * up} in")
                self.vars[var] = at
            else:
                out.append(m.group(0))
            pos = m.end()
        out.append(self.plain_text(text[pos:]))
        return "".join(out)

    def plain_text(self, text):
        for m in re.finditer(r"\blet (" + TOKEN + r") (?:=|:)", text):
            self.vars.pop(m.group(1), None)
        text = re.sub(r"(?<![^\s(){}\[\];,←])(" + TOKEN + r")((?:\.(?:" + TOKEN + r"))+)", self.chain, text)
        # what a lemma of a place gives: `(at_loop c).loop.at`
        def given(m):
            path = [w for w in m.group(2).split(".") if w]
            while path and path[0] == "before":
                path = path[1:]
            return m.group(1) + ("." + ".".join(self.field(path)) if path else m.group(2))

        return re.sub(r"(\(" + TOKEN + r" " + TOKEN + r"(?:\.before)*\))((?:\.(?:" + TOKEN + r"))+)", lambda m: given(m) if self.is_place(m.group(1)) else m.group(0), text)

    def spec(self, whole):
        """Turns what a proof gives for each goal in its place."""
        start = whole.index("(tie.spec") + len("(tie.spec")
        parts, depth, begin = [], 0, start
        for i in range(start, len(whole)):
            ch = whole[i]
            if ch == "(":
                depth += 1
            elif ch == ")":
                if depth == 0:
                    parts.append((begin, i))
                    break
                depth -= 1
            elif ch.isspace() and depth == 0:
                parts.append((begin, i))
                begin = i
        parts = [(a, b) for a, b in parts if whole[a:b].strip()]
        goals = self.n.goals
        skip = len(parts) - len(goals)
        out, at = [whole[:start]], start
        for k, (a, b) in enumerate(parts):
            out.append(whole[at:a])
            self.vars = {"c": goals[k - skip]} if skip == 2 * len(self.n.loops) and k >= skip else {}
            out.append(self.expression(whole[a:b]))
            at = b
        return "".join(out) + whole[at:]

    def is_place(self, call):
        return call[1:].split(" ")[0] in self.gives

    def file(self, text, function):
        self.gives = set(re.findall(r"(?m)^ *(?:abbrev )?(" + TOKEN + r") : (?:.* → )?tie\.(?:After|At|In|Then|Else|Joined|Start)[^→\n]*$", text))
        lines = text.split("\n")
        blocks = []
        for line in lines:
            if re.match(r" *(?:abbrev |pub )*(?:" + TOKEN + r") : ", line) or re.match(r" *module _ ", line):
                blocks.append([line])
            elif blocks:
                blocks[-1].append(line)
            else:
                blocks.append([line])
        out = []
        module = {}
        for b in blocks:
            whole = "\n".join(b)
            if not whole.startswith(" ") and not whole.startswith("module _"):
                module = {}
            value = re.match(r" +(?:abbrev |pub )*(" + TOKEN + r") : " + PLACE + r" *$", b[0])
            if module and value:
                # a place that a module's place leads to
                self.vars = dict(module)
                out.append(self.expression(whole))
                module[value.group(1)] = self.n.index.get(plain(value.group(2)))
                continue
            if module and whole.startswith(" "):
                self.vars = dict(module)
                out.append(self.expression(whole))
                continue
            if "(tie.spec" in whole:
                out.append(self.spec(whole))
                continue
            m = re.match(r"( *(?:abbrev |pub )*)(" + TOKEN + r") : tie\.Need-(" + TOKEN + r")(.*)", whole)
            here = re.match(r" *(?:abbrev |pub )*(?:" + TOKEN + r") : .*?" + PLACE, whole.split("=")[0]) or re.match(r" *module _ \(c : " + PLACE, whole)
            if m:
                old = plain(re.sub(r"^overflow-", "", m.group(3)))
                if old not in self.n.needs:
                    self.said.append(f"no goal {m.group(3)}")
                    out.append(whole)
                    continue
                self.vars = {"c": self.n.asked[old]}
            elif here and not re.match(r" *(?:abbrev |pub )*(?:" + TOKEN + r") : \{M", whole):
                at = self.n.index.get(plain(here.group(1)))
                if at is None:
                    self.said.append(f"no place {here.group(1)}")
                var = re.search(r"\((" + TOKEN + r") : " + re.escape("tie." + here.group(1)), whole)
                self.vars = {(var.group(1) if var else "c"): at}
                if not var:
                    first = re.search(r"(?m)^ *" + TOKEN + r" (c|l|s) ?.*=", whole)
                    if first:
                        self.vars = {first.group(1): at}
            if whole.startswith("module _"):
                module = dict(self.vars)
            whole = self.expression(whole)
            out.append(whole)
        text = "\n".join(out)

        def need(m):
            old = plain(re.sub(r"^overflow-", "", m.group(1)))
            return "tie.Need-" + self.n.needs[old] if old in self.n.needs else m.group(0)

        def place(m):
            i = self.n.index.get(plain(m.group(1)))
            return m.group(0) if i is None else "tie." + self.n.new_place[self.n.last.get(i, i)]

        text = re.sub(r"tie\.Need-(" + TOKEN + ")", need, text)
        text = re.sub(PLACE, place, text)
        text = re.sub(r"tie\.(invariant|decreases)_(" + TOKEN + ")", lambda m: "tie." + m.group(1) + "-" + self.n.loops.get(plain(m.group(2)), m.group(2)), text)
        text = re.sub(r"\.type-inv\b", ".type_inv", text)
        # the test of `if !f(x)` says `f(x) ≡ false` itself today
        text = re.sub(r"\bnot-(?:true|false) [^\s()]+ ([a-z]\w*\.if-not-" + TOKEN + r"\.(?:true|false))", r"\1", text)
        last = function.split(".")[-1]
        text = re.sub(r"\b" + re.escape(last.replace("_", "-")) + r"-spec\b", last + "_spec", text)
        count = arguments(text)
        if count is not None and count != self.n.want:
            self.said.append(f"{count} arguments of tie.spec, and {self.n.want} wanted")
        return text


def arguments(text):
    m = re.search(r"\(tie\.spec\b(.*)\)\s*$", text, re.S)
    if not m:
        return None
    depth, count, word = 0, 0, False
    for ch in m.group(1):
        if ch == "(":
            count += depth == 0
            depth += 1
            word = False
        elif ch == ")":
            depth -= 1
            word = False
        elif ch.isspace():
            word = False
        elif depth == 0 and not word:
            count += 1
            word = True
    return count


def main(folder, crates):
    for crate in crates:
        with open(f"{folder}/crates/{crate}/names.json", encoding="utf-8") as f:
            listed = json.load(f)
        for key, names in listed.items():
            m = re.fullmatch(r"Rattle-" + crate + r"-proofs\.(.*)\.Lts", key)
            if not m:
                continue
            path = f"crates/{crate}/proofs/{m.group(1).replace('.', '/')}/Proof.antt"
            if not os.path.isfile(path):
                continue
            with open(path, encoding="utf-8") as f:
                text = f.read()
            turner = Turner(Names(names))
            new = turner.file(text, m.group(1))
            if new != text:
                with open(path, "w", encoding="utf-8") as f:
                    f.write(new)
            for s in turner.said:
                print(f"{path}: {s}")


if __name__ == "__main__":
    main(sys.argv[1], sys.argv[2:])

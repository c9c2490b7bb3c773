#!/usr/bin/env python3
"""Respells this repository's own definitions and lemmas as today's Rattle spells its own.

usage: python3 tools/port/respell.py [--look]      at the top of the repository, right after the kit's port.py

Words in specs/ and proofs/ are in snake case: `isoDaysInMonth` becomes `iso_days_in_month`, `year-small` becomes `year_small`. A dash
stays where it joins a symbol, as in `fdiv-⊖`. Types, facts and modules are in camel case already. Names of functions of src/ and of what
the check makes of them keep their spelling, and so do the words of the TC39 proposal in comments and pages, which begin with a capital
letter. It runs once. With --look it writes nothing, and prints the names and where a new name falls together with another.
"""

import glob
import os
import re
import sys

WORD = r"[^\s(){}\[\];,.@\"`:|]+"


def snake(name):
    s = re.sub(r"([a-z0-9])([A-Z])", r"\1_\2", name)
    s = re.sub(r"([A-Z]+)([A-Z][a-z])", r"\1_\2", s)
    return s.lower()


def respelled(name):
    """The new spelling of a name that antt reads."""
    parts = re.split(r"(?<=[A-Za-z0-9'])-(?=[A-Za-z0-9])", name)
    out = []
    for p in parts:
        if re.match(r"[a-z]", p):
            head = re.match(r"[A-Za-z0-9_']*", p).group(0)
            p = "_".join(snake(w) if re.match(r"[a-z]", w) else w for w in head.split("_")) + p[len(head) :]
        out.append(p)
    return "_".join(out)


def files(kind):
    return sorted(p for p in glob.glob("crates/**/*" + kind, recursive=True) if "/out/" not in p)


SIGNATURE = re.compile(r"^( *)(?:unfoldable +)?(?:abbrev +)?(?:pub +)?(" + WORD + r") :(?: |$)(.*)")
HEADED = re.compile(r"^( *)(?:unfoldable +)?(?:abbrev +)?(?:pub +)?(?:record|data|ruleset) +(" + WORD + r")")


def own_names():
    """The names that specs/ and proofs/ of this repository declare, but for those of goals, which the check makes."""
    names = set()
    for p in files(".antt"):
        goals = p.endswith("/Proof.antt")
        for line in open(p, encoding="utf-8"):
            line = re.sub(r"--.*", "", line)
            m = SIGNATURE.match(line)
            if m and not (goals and re.match(r"(tie|goal)\.(Need|Inv|Measure)", m.group(3))) and not m.group(3).startswith("{M : "):
                names.add(m.group(2))
            m = HEADED.match(line)
            if m:
                names.add(m.group(2))
            for m in re.finditer(r"(?:\blet|;) (" + WORD + r")(?: :| =)", line):
                names.add(m.group(1))
            for m in re.finditer(r"λ ([^.]*)\.", line):
                for w in re.split(r"[\s():,]+", m.group(1)):
                    names.add(w)
            for m in re.finditer(r"[({]((?:" + WORD + r" )+): ", line):
                names.update(m.group(1).split())
    return names


def library_names(text):
    """The names that a file takes from libraries."""
    own = set(os.listdir("crates"))
    found = set()
    for m in re.finditer(r"use ([\w.\-«»+']+)\.\{([^}]*)\}", text):
        path = m.group(1).split(".")
        if not (path[0] == "Rattle" and len(path) > 1 and path[1] in own and "declared" not in path):
            found.update(w.split(" as ")[0].strip() for w in m.group(2).split(","))
    return found


def main(look):
    table = {}
    for n in own_names():
        new = respelled(n)
        if new != n and not n.startswith("◌"):
            table[n] = new
    # a lemma that would have its function's name: the lemma has the dash, or stands in snake case already, and gets `_lem`
    have = own_names() - set(table)
    olds = {}
    for n, new in sorted(table.items()):
        olds.setdefault(new, []).append(n)
    for new, ns in sorted(olds.items()):
        if len(ns) > 1 or new in have:
            lemmas = [n for n in ns if "-" in n] + ([new] if new in have else [])
            if len(lemmas) != 1 or len(ns) + (new in have) != 2 or new + "_lem" in have | set(olds):
                raise SystemExit(f"falls together: {', '.join(ns)} -> {new}{' (stands already)' if new in have else ''}")
            table[lemmas[0]] = new + "_lem"
            print(f"falls together: {', '.join(ns)} -> {new}, and {lemmas[0]} -> {new}_lem")
    if not table:
        raise SystemExit("every name has today's spelling: nothing to do")
    word = re.compile(r"(?<![^\s(){}\[\];,.@\"`:|«])(" + "|".join(re.escape(n) for n in sorted(table, key=len, reverse=True)) + r")(?![^\s(){}\[\];,.@\"`:|»])")
    for p in files(".antt") + files(".rt") + files(".edit") + ["README.md", "CONTRIBUTING.md"] + sorted(glob.glob("docs/*.md")):
        with open(p, encoding="utf-8") as f:
            text = f.read()
        taken = library_names(text)

        def turn(m):
            return m.group(0) if m.group(1) in taken else table[m.group(1)]

        def turn_camel(m):
            return turn(m) if "-" not in m.group(1) else m.group(0)

        if p.endswith(".antt"):
            new = "".join(turn_proof(l, word, turn, turn_camel) for l in text.splitlines(keepends=True))
        elif p.endswith(".rt"):
            new = "".join(turn_line(l, word, turn, turn_camel) for l in text.splitlines(keepends=True))
        elif p.endswith(".edit"):
            new = "".join(l if l.startswith("file:") else word.sub(turn_camel, l) if l[:4] not in ("old:", "new:") else word.sub(turn, l) for l in text.splitlines(keepends=True))
        else:
            new = re.sub(r"`([^`\n]*)`", lambda q: "`" + word.sub(turn, q.group(1)) + "`", text)
        if new != text:
            if look:
                clash(p, text, table)
            else:
                with open(p, "w", encoding="utf-8") as f:
                    f.write(new)
    if look:
        for n, new in sorted(table.items()):
            print(f"{n} -> {new}")


def turn_proof(line, word, turn, turn_camel):
    """A comment has words with dashes of its own."""
    code, dashes, comment = line.partition("--")
    return word.sub(turn, code) + dashes + word.sub(turn_camel, comment)


def turn_line(line, word, turn, turn_camel):
    """Of a source only clauses, imports for clauses and comments have antt's names; code has its own."""
    clause = re.match(r"\s*(ghost |requires|ensures|and |×)", line) or "≡" in line or "≤" in line
    return word.sub(turn if clause else turn_camel, line)


def clash(path, text, table):
    words = set(re.findall(WORD, text))
    for old, new in table.items():
        if old in words and new in library_names(text):
            print(f"clash: {path}: {old} -> {new}, which it takes from a library")
        if old in words and new in words:
            print(f"clash: {path}: {old} -> {new}, which stands there too")


if __name__ == "__main__":
    main("--look" in sys.argv[1:])

#!/usr/bin/env python3
"""Brings this repository's own definitions, lemmas, fields and variables to the spelling of the kit's library: words in snake case.

usage: tools/respell.py [names]     at the top, once, right after the kit's port.py; with `names` it only says what it would rename

Functions of src/, exported C names, strings, inputs and outputs keep their names, and so do names that the kit makes of code. A
lemma that would get the name of the definition that it speaks of gets `_lem` behind it.
"""
import collections
import glob
import re
import sys

WORD = r"[^\W\d][\w']*(?:-[\w']+)*"
TOKEN = re.compile(r"(?<![\w'◌-])" + WORD + r"(?![\w'◌])")
DECLARED = re.compile(r"^\s*(?:(?:unfoldable|abbrev|pub|opaque|private)\s+)*(" + WORD + r")\s*:(?!:)")
ALIAS = re.compile(r"^use \S+ as (" + WORD + r")\s*$")


def antt():
    return sorted(p for d in ("specs", "proofs") for p in glob.glob(f"crates/*/{d}/**/*.antt", recursive=True) if "/out/" not in p)


def text(path):
    with open(path, encoding="utf-8") as f:
        return f.read()


def camel(name):
    return name[0].islower() and re.search(r"[a-z0-9][A-Z]", name)


def snake(name):
    return re.sub(r"(?<=[a-z0-9])([A-Z])", lambda m: "_" + m.group(1).lower(), name.replace("-", "_"))


def renamed():
    names, stated, kit = collections.defaultdict(set), set(), set()
    for p in antt():
        for line in text(p).split("\n"):
            m = DECLARED.match(line) or ALIAS.match(line)
            if m and ("-" in m.group(1) or camel(m.group(1))) and not re.search(r": tie\.", line):
                names[m.group(1)].add(p)
                if DECLARED.match(line):
                    stated.add(m.group(1))
            code = line.split("--")[0]
            for t in TOKEN.findall(code):
                if camel(t) and "-" not in t:
                    names[t].add(p)
            m = re.match(r"\s*use ([\w.]+)\.\{(.*)\}", line)
            if m and not re.match(r"Rattle\.(" + "|".join(c.split("/")[1] for c in glob.glob("crates/*")) + r")\.", m.group(1)):
                kit |= {x.strip() for x in m.group(2).split(",")}
    both = sorted(kit & set(names))
    if both:
        sys.exit(f"names of the kit's too: {both}")
    camels = {snake(n) for n in names if "-" not in n}
    return {n: snake(n) + ("_lem" if "-" in n and n in stated and snake(n) in camels else "") for n in names}


def apart(names):
    """Stops where two names that stand today would become one."""
    taken = collections.defaultdict(set)
    for p in antt():
        for line in text(p).split("\n"):
            m = DECLARED.match(line)
            if m:
                taken[names.get(m.group(1), m.group(1))].add(m.group(1))
    for new, olds in taken.items():
        if len(olds) > 1:
            sys.exit(f"{sorted(olds)} would all be {new}")


def respell(t, names):
    return TOKEN.sub(lambda m: names.get(m.group(0), m.group(0)), t)


def clauses(t, names):
    """A source file: `ghost use` lines, and what stands in the braces of a clause; code, strings and comments stay."""
    out = []
    for line in t.split("\n"):
        if re.match(r"\s*ghost use ", line) or re.match(r"\s*(requires|ensures|invariant)\b.*\{", line):
            line = respell(line, names)
        out.append(line)
    return "\n".join(out)


def main():
    names = renamed()
    apart(names)
    if sys.argv[1:] == ["names"]:
        for n in sorted(names):
            print(n, names[n])
        return
    for p in antt():
        t = text(p)
        u = respell(t, names)
        if u != t:
            open(p, "w", encoding="utf-8").write(u)
    for p in sorted(glob.glob("crates/*/src/**/*.rt", recursive=True)):
        t = text(p)
        u = clauses(t, names)
        if u != t:
            open(p, "w", encoding="utf-8").write(u)


if __name__ == "__main__":
    main()

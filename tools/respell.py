#!/usr/bin/env python3
"""Respells the repository's own definitions and lemmas as the kit's own: words in snake case, types in camel case.

usage: respell.py [ROOT]

Names whose respelled form a library has get another one (OTHER). A name that only a Rust function or variable has too,
which a clause never means by it, may be respelled so (APART).

It goes over crates/*/specs, crates/*/proofs and the clauses of crates/*/src, once, after the kit's port.py. A name is
respelled if it is defined here, and wherever it stands as a whole name. Names that the check makes (goals, steps) and
names of libraries are left. It stops, and changes nothing, where two names would fall together.
"""

import os
import re
import sys

NAME = r"[A-Za-zμ_][\w'₀-₉-]*"
OTHER = {"bit-and": "bit_of_and", "bit-or": "bit_of_or"}
# Types that the kit's script put into snake case, since a library has a word of the same spelling.
SNAKED = {"Read_in": "ReadIn"}
APART = {"in-effect", "in-lists", "in-move", "in-range", "is-first", "move-of", "with-effect"}
HEAD = re.compile(r"\s*(?:(?:pub|abbrev|opaque|unfoldable)\s+)*(?:(?:record|data)\s+)?(" + NAME + r")(?:\s+[^=:]*)?\s*:(?:\s|$)")
LET = re.compile(r"\blet\s+(" + NAME + r")\s+[\w' ]*(?::|=)")
BOUND = re.compile(r"[({]((?:" + NAME + r"\s+)+):|λ\s+((?:" + NAME + r"\s*)+)\.")
AS = re.compile(r"\bas\s+(" + NAME + r")")
USE = re.compile(r"\buse\s+(Rattle\.\w+)[\w.+']*\.\{([^}]*)\}")
TOKEN = re.compile(r"(?<![\w'₀-₉·-])" + NAME)


def files(root):
    for folder, dirs, names in os.walk(os.path.join(root, "crates")):
        dirs[:] = sorted(d for d in dirs if d not in ("out", "target"))
        for name in sorted(names):
            if name.endswith((".antt", ".rt")):
                yield os.path.join(folder, name)


def defined(path, text):
    """The names with a hyphen that a file defines, apart from answers to goals."""
    for line in text.split("\n"):
        line = re.sub(r"(--|//).*", "", line)
        if path.endswith(".antt"):
            head = HEAD.match(line)
            if head and not line[head.end() :].lstrip().startswith("goal."):
                yield head[1]
            yield from (m[1] for m in LET.finditer(line))
            for m in BOUND.finditer(line):
                yield from (m[1] or m[2]).split()
        if re.search(r"\buse\b", line):
            yield from (m[1] for m in AS.finditer(line))


def respelled(name):
    if name in OTHER:
        return OTHER[name]
    if name[0].isupper():
        return "".join(w[:1].upper() + w[1:] for w in name.split("-"))
    return name.replace("-", "_")


def outside_strings(line):
    """A line of source in parts, every second one a string."""
    return re.split(r'("(?:[^"\\]|\\.)*")', line)


def main():
    root = sys.argv[1] if len(sys.argv) > 1 else "."
    texts = {}
    for path in files(root):
        with open(path, encoding="utf-8") as f:
            texts[path] = f.read()
    own, libraries, words = set(), set(), set()
    crates = {"Rattle." + c for c in os.listdir(os.path.join(root, "crates"))}
    for path, text in texts.items():
        own.update(n for n in defined(path, text) if "-" in n)
        words.update(TOKEN.findall(text))
        for m in USE.finditer(text):
            if m[1] not in crates:
                libraries.update(re.split(r"[\s,]+", m[2]))
    shared = own & libraries
    new = {n: respelled(n) for n in own - shared}
    new.update((n, s) for n, s in SNAKED.items() if n in words)
    together = sorted(n for n, s in new.items() if s in words) + sorted(shared)
    if set(together) - APART:
        print("respell: would fall together: " + " ".join(n for n in together if n not in APART))
        return 1
    turn = lambda t: TOKEN.sub(lambda m: new.get(m[0], m[0]), t)  # noqa: E731
    for path, text in texts.items():
        if path.endswith(".antt"):
            done = turn(text)
        else:
            done = "\n".join("".join(p if i % 2 else turn(p) for i, p in enumerate(outside_strings(l))) for l in text.split("\n"))
        if done != text:
            with open(path, "w", encoding="utf-8") as f:
                f.write(done)
    print(f"respell: {len(new)} names")
    return 0


if __name__ == "__main__":
    sys.exit(main())

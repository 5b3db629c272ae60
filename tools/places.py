#!/usr/bin/env python3
"""Lists the places in src/ where a form of the language may be older than it need be, point by point.

    tools/places.py            of the files as they are
    tools/places.py COMMIT     of a commit

A line that is listed is a candidate: docs/DESIGN-PASS.md says how many of them are places, and why those that stay do.
"""
import itertools
import re
import subprocess
import sys
from collections import defaultdict


def git(*words):
    return subprocess.run(["git", *words], check=True, capture_output=True, text=True).stdout


def files(commit):
    if commit:
        names = git("ls-tree", "-r", "--name-only", commit).splitlines()
    else:
        names = git("ls-files").splitlines()
    for name in names:
        if re.fullmatch(r"crates/\w+/src/\w+\.rt", name):
            if commit:
                yield name, git("show", f"{commit}:{name}")
            else:
                try:
                    with open(name, encoding="utf-8") as file:
                        yield name, file.read()
                except FileNotFoundError:
                    pass


LINES = {
    "1 enums, flags, numbers or words for kinds": r"^\s*(pub(\([a-z]*\))? )?enum |: bool\b|<bool[,>]|&'static str\b|const NONE|=> \d+,$",
    "1 refusals without ?": r"Fault::Refused\(|Refusal \{ ?|Err\(\w+\) => (return )?Err\(|return Err\(\w+::\w+\(",
    "3 loops": r"^\s*(for|while|loop)\b",
    "4 conversions, printing and matches by hand": r"\bfn (from|try_from|from_byte|eq|ne|cmp|clone|hash|number|value|byte|name)\b| as (u8|u16|u32|u64|u128|usize)\b|^\s*(None|Some\(\w+\)|Ok\(\(\)\)|Ok\(\w+\)|Err\(\w+\)|true|false) => ",
    "4 Display": r"impl.* fmt::Display for",
    "5 requires": r"^\s*requires\b",
    "6 arrays, indices and ranges": r"\[[\w&'\[\]]+; \d+\]|\w\[[^\]\"]*\.\.[^\]]*\]|\w\[\w+( as usize)?\]",
    "7 flags and functions that choose": r"\b\w+: bool\b|dyn |fn\(",
}


def functions(text):
    for found in re.finditer(r"\bfn (\w+)(?:<[^{;]*?>)?\(([^()]*(?:\([^()]*\)[^()]*)*)\)", text):
        names = [part.split(":")[0].strip().removeprefix("mut ") for part in found.group(2).split(",") if ":" in part]
        yield found.group(1), sorted(set(names))


def main():
    commit = sys.argv[1] if len(sys.argv) > 1 else None
    texts = list(files(commit))
    for point, pattern in LINES.items():
        hits = [
            f"{name}:{at}: {line.strip()}"
            for name, text in texts
            for at, line in enumerate(text.splitlines(), 1)
            if re.search(pattern, line) and not line.strip().startswith("//")
        ]
        print(f"== {point}: {len(hits)}")
        print("\n".join(hits))
    clauses, pairs = defaultdict(set), defaultdict(set)
    for name, text in texts:
        where = name.replace("crates/", "").replace("src/", "")
        inside = None
        for line in text.splitlines():
            if found := re.search(r"\bfn (\w+)", line):
                inside = found.group(1)
            if found := re.match(r"\s*(requires|ensures)\s*\w*\s*\{ (.*) \}\s*$", line):
                clauses[found.group(1) + " " + found.group(2)].add(f"{where}:{inside}")
        for function, names in functions(text):
            for pair in itertools.combinations(names, 2):
                pairs[" and ".join(pair)].add(f"{where}:{function}")
    for title, table in (("5 clauses in three functions or more", clauses), ("5 pairs of parameters in three functions or more", pairs)):
        hits = sorted(((len(who), what, sorted(who)) for what, who in table.items() if len(who) >= 3), reverse=True)
        print(f"== {title}: {len(hits)}")
        for count, what, who in hits:
            print(f"{count} {what}: {', '.join(who)}")
    names = git("ls-tree", "-r", "--name-only", commit) if commit else git("ls-files")
    proofs = [name for name in names.splitlines() if re.fullmatch(r"crates/\w+/proofs/.*\.antt", name)]
    answers = 0
    lines = 0
    for name in proofs:
        try:
            text = git("show", f"{commit}:{name}") if commit else open(name, encoding="utf-8").read()
        except (subprocess.CalledProcessError, FileNotFoundError):
            continue
        lines += text.count("\n")
        if name.endswith("/Answers.antt"):
            answers += len(re.findall(r"^pub [\w-]+ :", text, re.M))
    print(f"== 8 proofs: {len(proofs)} files, {lines} lines, {answers} answers")


main()

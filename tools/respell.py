#!/usr/bin/env python3
"""Brings the names of this repository's definitions and lemmas to today's spelling.

usage: respell.py FOLDER

FOLDER is a checkout in which /opt/rattle/port/port.py has just run. Each name with a
dash that specs/ or proofs/ declare (a definition, a lemma, a field, a parameter or a
local) is spelled in snake case, and a fact or a type in camel case. Where that spelling
belongs to a function of src/ or to the library, EXCEPTIONS has another. A name that the
library has too keeps the library's spelling, and so do the names that Rattle makes for
goals and steps.

The words are replaced by the kit's own snake.py, from the table made here.
"""

import collections
import os
import re
import subprocess
import sys
import tempfile

KIT = "/opt/rattle/port/notes/2026-11-18-names-are-in-snake-case/snake.py"
NAME = r"[^\s(){}.;,@\"«»:]+"
DASHED = re.compile(r"[^\W\d_][\w']*-[\w']")
DECLARED = re.compile(rf"^\s*(?:(?:abbrev|unfoldable|pub|record|data) )*({NAME}) (?:\(|\{{|:)")
BINDER = re.compile(rf"[({{]((?:{NAME}\s+)*{NAME}) : ")
LOCAL = re.compile(rf"\blet ({NAME}) (?::|=)")

EXCEPTIONS = {
    "bit-and": "bit_bit_and",
    "bit-or": "bit_bit_or",
    "free-first": "freed_first",
    "free-or-met": "vacant_or_met",
    "is-filling": "at_filling",
    "is-nothing": "amounts_to_nothing",
    "is-plan": "is_whole_plan",
    "is-sealed": "at_sealed",
    "met-if-hard": "hard_is_met",
    "one-clause": "one_clause_case",
    "takes-steps": "at_steps",
}

# Names of ours that some text of the library happens to have too.
OURS = {
    "amount-is", "count-is", "empty-is", "first-at", "first-same", "fresh-rows", "kept-empty",
    "made-is", "not-true", "part-more", "put-done", "row-found", "total-is",
}

# Words of comments that are English where they stand.
ENGLISH = ["used-up", "no-plan", "whole-case", "so-far"]


def spelled(name):
    if name in EXCEPTIONS:
        return EXCEPTIONS[name]
    if name[0].isupper():
        return "".join(part[:1].upper() + part[1:] for part in name.split("-"))
    return name.replace("-", "_")


def antt_files(folder):
    for where, _, names in os.walk(folder):
        if "/out" not in where:
            yield from (os.path.join(where, n) for n in names if n.endswith(".antt"))


def words_of_the_library():
    words = set()
    for f in antt_files("/opt/rattle/rattle"):
        with open(f, encoding="utf-8", errors="replace") as text:
            words.update(re.findall(NAME, text.read()))
    return words


def declared_in(text):
    for line in text.split("\n"):
        if line.strip().startswith("--") or line.startswith("use ") or re.search(r" : goal\.", line):
            continue
        found = DECLARED.match(line)
        if found:
            yield found[1]
        for names in BINDER.findall(line):
            yield from names.split()
        yield from LOCAL.findall(line)


def main():
    folder = sys.argv[1]
    names = {n for f in antt_files(os.path.join(folder, "crates")) for n in declared_in(open(f).read()) if DASHED.match(n)}
    names -= words_of_the_library() - set(EXCEPTIONS) - OURS
    together = collections.Counter(spelled(n) for n in names)
    for name, times in together.items():
        if times > 1:
            sys.exit(f"these fall together: {name}")
    with tempfile.TemporaryDirectory() as d:
        table, leave = os.path.join(d, "table"), os.path.join(d, "leave")
        with open(table, "w") as f:
            f.writelines(f"{n}\t{spelled(n)}\n" for n in sorted(names))
        with open(leave, "w") as f:
            f.writelines(f"{w}\n" for w in ENGLISH)
        crates = os.path.join(folder, "crates")
        subprocess.run(
            [sys.executable, KIT, "--table", table, "--leave", leave, "--skip-behind", "goal,c,w", crates],
            check=True,
        )


main()

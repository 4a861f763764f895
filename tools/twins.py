#!/usr/bin/env python3
"""Lists pairs of functions in crates/*/src that have one shape.

    tools/twins.py [RATIO]

Two bodies have one shape where they are alike once the names of variables, numbers and
texts are left out of account. RATIO is how alike, 0.9 if it is not given. Bodies of
fewer than 30 tokens are passed over: a line or two has few shapes. A pair is a place to
look, and no verdict.
"""
import difflib
import glob
import re
import sys

FN = re.compile(r"^( *)(?:pub(?:\(crate\))? )?fn (\w+)", re.M)
TOKEN = re.compile(r'"[^"]*"|\w+|[^\s\w]')
KEPT = {"for", "in", "if", "else", "match", "return", "let", "while", "Ok", "Err", "Some", "None", "self", "mut", "fn"}


def bodies(path):
    text = re.sub(r"//[^\n]*", "", open(path).read())
    for found in FN.finditer(text):
        indent = found.group(1)
        start = re.compile(r"\{\}?$", re.M).search(text, found.end())
        end = re.compile(r"^" + indent + r"\}$", re.M).search(text, found.end())
        if start and end and start.group() == "{" and start.start() < end.start():
            yield found.group(2), text[start.end():end.start()]


def shape(body):
    return [t if t in KEPT or not re.match(r"\w|\"", t) else "x" for t in TOKEN.findall(body)]


def main():
    ratio = float(sys.argv[1]) if len(sys.argv) > 1 else 0.9
    found = []
    for path in sorted(glob.glob("crates/*/src/**/*.rt", recursive=True)):
        for name, body in bodies(path):
            tokens = shape(body)
            if len(tokens) >= 30:
                found.append((f"{path.removeprefix('crates/')}:{name}", tokens))
    pairs = 0
    for i, (a, x) in enumerate(found):
        for b, y in found[i + 1:]:
            # no ratio is above twice the shorter over both
            if 2 * min(len(x), len(y)) < ratio * (len(x) + len(y)):
                continue
            alike = difflib.SequenceMatcher(None, x, y, False).ratio()
            if alike >= ratio:
                pairs += 1
                print(f"{alike:.2f} {a} {b}")
    print(f"{pairs} pairs of {len(found)} functions")


main()

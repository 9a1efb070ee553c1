#!/usr/bin/env python3
"""Pairs of functions in crates/*/src that read alike once names and numbers are blotted out. Run it at the top.

Clauses, comments and tests' crates do not count. A pair is printed if nine tenths of its tokens agree and it has twelve or more:
how far they agree, how many tokens, and both places.
"""
import difflib
import glob
import re

KEPT = set("fn let mut match if else for in while loop return self Ok Err Some None pub impl as ref true false".split())


def functions(path):
    text = re.sub(r"//[^\n]*", "", open(path).read())
    for head in re.finditer(r"\bfn (\w+)", text):
        body, depth = "", 0
        for line in text[head.start():].split("\n"):
            clause = re.match(r"\s*(requires|ensures|ghost)\b", line)
            if not clause:
                body += line + "\n"
                depth += line.count("{") - line.count("}")
            closed = depth == 0 and "}" in line and not clause
            if closed or (depth == 0 and line.rstrip().endswith(";")):
                break
        yield head.group(1), body


def shape(body):
    tokens = re.findall(r"\w+|[^\w\s]", body)
    return [t if t in KEPT or not re.match(r"\w", t) else "0" if t[0].isdigit() else "x" for t in tokens]


paths = [p for p in sorted(glob.glob("crates/*/src/*.rt")) if not re.search("trials|_tests", p)]
found = [(path[7:], name, shape(body)) for path in paths for name, body in functions(path)]
for i, (path, name, one) in enumerate(found):
    for other_path, other_name, two in found[i + 1:]:
        short, long = sorted([len(one), len(two)])
        if short < 12 or long > 1.2 * short:
            continue
        agree = difflib.SequenceMatcher(None, one, two, autojunk=False).ratio()
        if agree >= 0.9:
            print(f"{agree:.2f} {len(one):4} {path} {name} | {other_path} {other_name}")

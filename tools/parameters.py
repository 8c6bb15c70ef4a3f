#!/usr/bin/env python3
"""Which functions of crates/*/src take many parameters: tools/parameters.py [LEAST]

Prints a line for each function with at least LEAST parameters (8): how many, its file and its name."""
import pathlib
import re
import sys

ROOT = pathlib.Path(__file__).resolve().parent.parent
least = int(sys.argv[1]) if len(sys.argv) > 1 else 8
for path in sorted(ROOT.glob("crates/*/src/**/*.rt")):
    text = path.read_text(encoding="utf-8")
    for head in re.finditer(r"\bfn (\w+)(?:<[^>]*>)?\(", text):
        depth, at = 1, head.end()
        while depth:
            depth += {"(": 1, ")": -1}.get(text[at], 0)
            at += 1
        parameters = [part for part in re.split(r",\s*", text[head.end() : at - 1].strip()) if part]
        if len(parameters) >= least:
            print(len(parameters), path.relative_to(ROOT), head.group(1))

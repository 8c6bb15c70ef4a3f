#!/usr/bin/env python3
"""Removes functions with their proofs from a CLONE, so that a check takes seconds: tools/prune.py CRATE KEEP..

KEEP is `module.function`, `module.*`, or `function` for those of lib.rt; declared types stay. Never run it in the repository itself.
"""
import os
import re
import shutil
import sys


def wanted(module, name, keep):
    if module == "lib":
        return name in keep
    return f"{module}.{name}" in keep or f"{module}.*" in keep


def pruned(crate, module, text, keep):
    lines = text.split("\n")
    out = []
    i = 0
    while i < len(lines):
        function = re.match(r"(?:pub )?(?:extern \"C\" )?fn (\w+)", lines[i])
        if not function:
            out.append(lines[i])
            i += 1
            continue
        end = lines.index("}", i)
        name = function.group(1)
        if wanted(module, name, keep):
            out += lines[i : end + 1]
        else:
            while out and out[-1].startswith(("//", "#[")):
                out.pop()
            folder = [crate, "proofs"] + ([] if module == "lib" else [module]) + [name]
            shutil.rmtree(os.path.join(*folder), ignore_errors=True)
        i = end + 1
    return "\n".join(out)


def main(crate, keep):
    source = os.path.join(crate, "src")
    for file in sorted(os.listdir(source)):
        path = os.path.join(source, file)
        with open(path) as opened:
            text = opened.read()
        with open(path, "w") as opened:
            opened.write(pruned(crate, file[:-3], text, keep))


main(os.path.join("crates", sys.argv[1]), set(sys.argv[2:]))

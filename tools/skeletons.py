#!/usr/bin/env python3
"""Writes the files to start a proof from, holes and all, for each function without one: tools/skeletons.py CRATE

`rt check --start` writes them for a function that is named; this names all those of which a check says that they have no proof."""
import pathlib
import re
import subprocess
import sys


def main(crate):
    folder = pathlib.Path(__file__).resolve().parent.parent / "crates" / crate
    said = subprocess.run(["rt", "check"], cwd=folder, capture_output=True, text=True, errors="replace").stdout
    lacking = re.findall(r"^fn (\S+): no proof", said, re.M)
    if not lacking:
        print("every function has a proof, or a file for one")
        return 0
    return subprocess.run(["rt", "check", *[word for name in lacking for word in ("--start", name)]], cwd=folder).returncode


if __name__ == "__main__":
    sys.exit(main(sys.argv[1]))

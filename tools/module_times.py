#!/usr/bin/env python3
"""Where the check of a crate spends its time: tools/module_times.py CRATE [LINES]

`rt check` writes each module as soon as it is checked, so the times of its files tell how long each took. Remove crates/CRATE/out, run
`rt check --jobs 1` in crates/CRATE on a machine with no other work, then this. Times are of the clock, by function or file of laws, and by module."""
import collections
import os
import sys


def written(folder):
    files = []
    for root, _, names in os.walk(folder):
        files += [(os.stat(os.path.join(root, name)).st_mtime, name) for name in names if name.endswith(".oantt")]
    return sorted(files)


def owner(module):
    parts = module.split(".")
    below = parts[parts.index("proofs") + 1:] if "proofs" in parts else []
    if not below:
        return module
    return ".".join(below[:2] if below[0][0].islower() else below[:1])


def main():
    crate, lines = sys.argv[1], int(sys.argv[2]) if len(sys.argv) > 2 else 20
    files = written(os.path.join("crates", crate, "out", "incremental"))
    modules = collections.Counter()
    for (before, _), (after, name) in zip(files, files[1:]):
        modules[name.replace(".decls", "").removesuffix(".oantt").replace("Rattle.", "")] += after - before
    owners = collections.Counter()
    for module, spent in modules.items():
        owners[owner(module)] += spent
    print(f"{sum(modules.values()):7.1f} s in all")
    for table in (owners, modules):
        print()
        for name, spent in table.most_common(lines):
            print(f"{spent:7.1f} {name}")


main()

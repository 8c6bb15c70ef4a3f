#!/usr/bin/env python3
"""Names what a commit moved: definitions (specs/), promises (contracts of src/), statements and proofs (proofs/).

Usage: tools/moved.py COMMIT [OLDER]      (OLDER: COMMIT's parent)

A name stands under 'new', 'gone', 'moved' (its definition, contract or statement reads otherwise) or, for proofs, 'proof' (its statement stayed and
its proof reads otherwise). Comments and layout don't count. Test programs are left out.
"""
import re
import subprocess
import sys

ITEM = re.compile(r"^\s*(?:(?:unfoldable|pub|abbrev|record|data)\s+)*([^\s:(){}\[\],]+)\s+(?:[({][^:]*:[^)}]*[)}]\s*)*:\s")
FUNCTION = re.compile(r"^\s*(?:#\[no_mangle\]\s*)?(?:pub\s+)?(?:extern \"C\"\s+)?fn\s+(\w+)")


def git(*words):
    return subprocess.run(["git", *words], capture_output=True, text=True).stdout


def plain(lines, comment):
    text = " ".join(line.split(comment)[0] for line in lines)
    return re.sub(r"\s+", "", text)


def antt_items(text):
    """name -> (statement, body) of a file of antt; a record's fields belong to the record"""
    items, name, lines, within = {}, None, [], None

    def close():
        if name:
            cut = next((k for k, line in enumerate(lines) if k and re.match(r"\s*(unfolding\b|%s(\s|$))" % re.escape(name), line)), len(lines))
            items[name] = (plain(lines[:cut], "--"), plain(lines[cut:], "--"))

    for line in text.splitlines():
        if line.lstrip().startswith("--") or not line.strip() or line.startswith("use ") or line.lstrip().startswith("module "):
            continue
        indent = len(line) - len(line.lstrip())
        found = ITEM.match(line)
        field = within is not None and indent > within
        if found and not field:
            close()
            name, lines = found.group(1), [line]
            within = indent if re.match(r"\s*(pub\s+)?(record|data)\b", line) else None
        elif name:
            lines.append(line)
    close()
    return items


def rattle_items(text):
    """name -> (signature with contract, body) of a file of Rattle"""
    items, name, head, body, in_body = {}, None, [], [], False
    for line in text.splitlines() + ["fn end"]:
        found = FUNCTION.match(line)
        if found:
            if name:
                items[name] = (plain(head, "//"), plain(body, "//"))
            name, head, body, in_body = found.group(1), [line], [], line.rstrip().endswith("{")
        elif name and in_body:
            body.append(line)
        elif name:
            head.append(line)
            in_body = line.rstrip() == "{" or (line.rstrip().endswith("{") and "ensures" not in line and "requires" not in line)
    return items


def main():
    commit = sys.argv[1]
    older = sys.argv[2] if len(sys.argv) > 2 else commit + "^"
    kinds = {"specs": {}, "src": {}, "proofs": {}}
    for path in git("diff", "--name-only", older, commit, "--", "crates").split():
        parts = path.split("/")
        if len(parts) < 4 or parts[1].endswith("_test") or parts[2] not in kinds:
            continue
        read = rattle_items if path.endswith(".rt") else antt_items
        before, after = (read(git("show", f"{at}:{path}")) for at in (older, commit))
        shown = "/".join(parts[3:-1]) if parts[-1] in ("Proof.antt", "Answers.antt", "Invariants.antt") else "/".join(parts[3:])
        told = kinds[parts[2]].setdefault(parts[1], {}).setdefault(shown, {})
        for name in list(before) + [n for n in after if n not in before]:
            if name not in before:
                told.setdefault("new", []).append(name)
            elif name not in after:
                told.setdefault("gone", []).append(name)
            elif before[name][0] != after[name][0] or (parts[2] == "specs" and before[name] != after[name]):
                told.setdefault("moved", []).append(name)
            elif before[name] != after[name]:
                told.setdefault("code" if parts[2] == "src" else "proof", []).append(name)
    for kind, title in (("specs", "Definitions"), ("src", "Promises"), ("proofs", "Proofs")):
        print(f"{title}")
        for crate, files in kinds[kind].items():
            for shown, told in files.items():
                print(f"  {crate}: {shown}: " + "; ".join(f"{how} {', '.join(names)}" for how, names in told.items()))


main()

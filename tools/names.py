#!/usr/bin/env python3
"""Whether the documents name what is there: tools/names.py

Every name in backticks in README.md, CONTRIBUTING.md and docs/*.md stands in the tree, as a word of a source or as a file, and every
relative link leads to a file, its anchor to a heading. Prints each that doesn't and answers 1. docs/PORT.md, docs/DESIGN-PASS.md and the
notes in docs/changes name things as they were and are left out, but for their links."""
import pathlib
import re
import subprocess
import sys

ROOT = pathlib.Path(__file__).resolve().parent.parent
# sources whose words count as names; the documents themselves don't
SOURCES = (".rt", ".antt", ".rs", ".c", ".h", ".py", ".sh", ".toml", ".edit", ".txt", ".in", ".1", "Makefile")
FENCE = re.compile(r"^```.*?^```", re.M | re.S)
# names of the toolchain, of the system and of packages
ELSEWHERE = {"graphviz", "grind", "rattle-kit-13f", "port.py", "perf", "NULL", "clippy", "rustfmt"}
NAME = re.compile(r"[A-Za-z_][\w·-]*['′]?")


def tracked():
    listed = subprocess.run(["git", "ls-files"], cwd=ROOT, capture_output=True, text=True, check=True).stdout.split("\n")
    return [name for name in listed if name and (ROOT / name).is_file()]


def words(files):
    found = set()
    for name in files:
        if name.endswith(SOURCES) or name.startswith(".ci/") or name.endswith("stdin"):
            text = (ROOT / name).read_text(encoding="utf-8", errors="replace")
            found.update(re.findall(r"[\w·'′-]+", text))
            # a name of several words, as in a path or behind a dash
            found.update(re.findall(r"\w+", text))
    return found


def anchors(path):
    """the anchors of a document's headings, as they are made of their words"""
    made = set()
    for line in FENCE.sub("", path.read_text(encoding="utf-8")).split("\n"):
        heading = re.match(r"#+ (.*)", line)
        if heading:
            plain = re.sub(r"[`*]", "", heading.group(1)).strip().lower()
            made.add(re.sub(r"[^\w\- ]", "", plain).replace(" ", "-"))
    return made


def bad_links(path):
    text = FENCE.sub("", path.read_text(encoding="utf-8"))
    for target in re.findall(r"\]\(([^)\s]+)\)", text):
        if re.match(r"[a-z]+:", target):
            continue
        file, _, anchor = target.partition("#")
        there = (path.parent / file).resolve() if file else path
        if not there.exists():
            yield f"no file {file}"
        elif anchor and there.suffix == ".md" and anchor not in anchors(there):
            yield f"no heading #{anchor} in {there.name}"


def is_there(name, known, tails):
    if name in known or name in ELSEWHERE:
        return True
    # a file or a folder, from the root or by the end of its path
    stripped = name.rstrip("/")
    return (ROOT / stripped).exists() or stripped in tails


def bad_names(path, known, tails):
    text = FENCE.sub("", path.read_text(encoding="utf-8"))
    for quoted in re.findall(r"`([^`\n]+)`", text):
        for part in parts(quoted):
            if not is_there(part, known, tails):
                yield f"`{quoted}`: no {part} in the tree"


def parts(quoted):
    """the names in a quotation: one name, a path of names, or a file; nothing of a line, a command or a formula"""
    if re.fullmatch(r"[\w./·-]+", quoted) and "/" in quoted and not re.search(r"\d/\d|//", quoted):
        # target/ is made by a check, and capitals stand for any name
        return [] if re.search(r"^target/|NAME|LABEL|OUT|COMMIT|CRATE", quoted) else [quoted]
    if re.fullmatch(r"[\w-]+\.(antt|rt|rs|md|c|h|py|sh|txt|toml|svg|patch|edit)", quoted):
        return [quoted]
    bare = re.sub(r"\(.*\)$", "", quoted)
    if re.fullmatch(r"(\w+::)*" + NAME.pattern, bare) and len(bare) > 2:
        return bare.split("::")
    return []


def main():
    files = tracked()
    known = words(files)
    tails = set()
    for name in files:
        bits = name.split("/")
        tails.update("/".join(bits[i:k]) for i in range(len(bits)) for k in range(i + 1, len(bits) + 1))
        # an edit is named without its ending
        tails.add(bits[-1].removesuffix(".edit"))
    documents = [ROOT / "README.md", ROOT / "CONTRIBUTING.md"] + sorted(p for p in (ROOT / "docs").glob("*.md") if p.name not in ("PORT.md", "DESIGN-PASS.md"))
    faults = []
    for path in documents:
        faults += [f"{path.relative_to(ROOT)}: {what}" for what in [*bad_names(path, known, tails), *bad_links(path)]]
    for path in sorted((ROOT / "docs" / "changes").glob("*.md")):
        faults += [f"{path.relative_to(ROOT)}: {what}" for what in bad_links(path)]
    for fault in faults:
        print(fault)
    return 1 if faults else 0


if __name__ == "__main__":
    sys.exit(main())

#!/usr/bin/env python3
"""The names of our own definitions and lemmas in the spelling of today's Rattle: tools/port_names.py [--list]

Run once, at the top, right after port.py. A word in camel case becomes one in snake case (`baseCost`, base_cost). In a name with dashes a
dash stays only between the names of two definitions (`length-up_to`), every other becomes `_`. A lemma that would then be called as a
definition or as another lemma gets `_lem`. Names of src/, of types, of modules and of Rattle's own goals stay. Every use follows, in src/,
specs/, proofs/, must-fail/ and, in backticks, in README.md, CONTRIBUTING.md and docs/*.md. --list prints old and new name and writes nothing.
Answers 1 and writes nothing where a new name already stands in a file that gets it."""
import collections
import pathlib
import re
import sys

ROOT = pathlib.Path(__file__).resolve().parent.parent
WORD = r"[^\s(){}.;,@\"«»\[\]\\:`←]+"
HEAD = re.compile(r"^(\s*)((?:pub |abbrev |unfoldable )*)(" + WORD + r") :(?: |$)")
IMPORT = re.compile(r"^(?:ghost )?use ([\w.'+-]+)\.\{([^}]*)\}", re.M)
TOKEN = re.compile(r"[A-Za-z_][\w'′≢≡≤-]*")
# words of the language, and what Rattle calls its own
TAKEN = set(
    "module where let in rw elim use mod pub open as unfolding abbrev record data deriving tie goal returns args before requires ensures".split()
)
# definitions of the library that lemmas name
LIBRARY = set(
    "length take drop set get_or map filter concat replicate reverse slice sum min max all any append add sub mul pow div eq le lt both".split()
)

# a definition whose new name is that of a parameter of src/; a field that port.py turned, and that a definition's new name falls on
BY_HAND = {"inTree": "tree_has", "edges_most": "edges_most_lem"}
# a lemma of text that has the name of a function of search, which never meets it
STAYS = {"too_many"}


def snake(word):
    word = re.sub(r"getD(?![a-z])", "get_or", word)
    word = re.sub(r"(?<=[a-z0-9])([A-Z])", lambda m: "_" + m.group(1).lower(), word)
    return word.replace("′", "'")


def antt_files():
    for kind in ("specs", "proofs"):
        yield from ((p, kind) for p in sorted(ROOT.glob(f"crates/*/{kind}/**/*.antt")))


def defined():
    """Name: the kinds of places where it is declared. A goal of a Proof.antt and what it hands to `tie` is no name of ours."""
    library = imported()
    found = collections.defaultdict(set)
    for path, kind in antt_files():
        own = path.name == "Proof.antt"
        for line in path.read_text(encoding="utf-8").split("\n"):
            if line.lstrip().startswith("--"):
                continue
            m = HEAD.match(line)
            if not m or m.group(3) in TAKEN or not re.match(r"[a-z]", m.group(3)):
                continue
            if own and (re.search(r": tie\.\S", line) or m.group(3).endswith("-spec")):
                continue
            found[m.group(3)].add(kind)
    return {name: kinds for name, kinds in found.items() if name not in library | STAYS}


def imported():
    """Names that a file has from a library: they are not ours to spell."""
    own = {line.split(":")[0] for line in (ROOT / "crates.txt").read_text().split("\n") if not line.startswith("#")}
    found = set()
    for path, _ in antt_files():
        for module, names in IMPORT.findall(path.read_text(encoding="utf-8")):
            if module.split(".")[:1] != ["Rattle"] or module.split(".")[1] not in own:
                found.update(name.strip().split(" as ")[0] for name in names.split(","))
    return found


def spelled(name, definitions):
    """The new spelling: dashes stay between two definitions."""
    parts = [snake(part) for part in name.split("-")]
    if len(parts) == 1:
        return parts[0]
    units, i = [], 0
    while i < len(parts):
        for j in range(len(parts), i, -1):
            unit = "_".join(parts[i:j])
            if unit in definitions:
                units.append((unit, True))
                break
        else:
            j = i + 1
            units.append((parts[i], False))
        i = j
    said = units[0][0]
    for (_, left), (unit, right) in zip(units, units[1:]):
        said += ("-" if left and right else "_") + unit
    return said


def mapping():
    found = defined()
    specs = {name for name, kinds in found.items() if "specs" in kinds and "-" not in name}
    definitions = {BY_HAND.get(name, snake(name)) for name in specs} | LIBRARY
    new = {name: BY_HAND.get(name, snake(name)) for name in specs}
    taken = set(new.values())
    # lemmas and fields give way to definitions, those that change their spelling to those that keep it
    for name in sorted(found, key=lambda n: (spelled(n, definitions) != n, n)):
        if name in new:
            continue
        to = spelled(name, definitions)
        while to in taken:
            to += "_lem" if not to.endswith("_lem") else "_2"
        taken.add(to)
        new[name] = to
    return {old: to for old, to in new.items() if old != to}


def turned(text, new):
    return TOKEN.sub(lambda m: new.get(m.group(0), m.group(0)), text)


def locals_turned(text):
    """Variables in camel case follow, where the new name doesn't stand in the file."""
    here = set(TOKEN.findall(text))

    def one(m):
        to = snake(m.group(0))
        return m.group(0) if to in here else to

    return re.sub(r"(?<![\w.'-])[a-z][a-z0-9]*(?:[A-Z][a-z0-9]+)+(?![\w'-])", one, text)


def in_backticks(text, new):
    return re.sub(r"`[^`\n]+`", lambda m: turned(m.group(0), new), text)


def names_in_code(text):
    """Parameters, variables and fields: functions may have the name of a definition."""
    code = re.sub(r"//[^\n]*", "", text)
    return set(re.findall(r"\b(\w+)\s*:(?!:)", code)) | set(re.findall(r"\blet (?:mut )?(\w+)", code))


def names_in_antt(text):
    """Names that stand by themselves: what follows a dot is a field or a step."""
    lines = [line for line in re.sub(r"--[^\n]*", "", text).split("\n") if not line.startswith(("use ", "unfolding "))]
    return set(re.findall(r"(?<![\w.′'≢≡≤-])[A-Za-z_][\w'′≢≡≤-]*", "\n".join(lines)))


def main(argv):
    new = mapping()
    if "--list" in argv:
        for old in sorted(new):
            print(f"{old}\t{new[old]}")
        return 0
    files = [p for p, _ in antt_files()] + sorted(ROOT.glob("crates/*/src/**/*.rt")) + sorted(ROOT.glob("crates/*/must-fail/*.edit"))
    bad = 0
    after = {}
    for path in files:
        text = path.read_text(encoding="utf-8")
        here = set(TOKEN.findall(text))
        bound = names_in_code(text) if path.suffix == ".rt" else names_in_antt(text)
        for old in here & set(new):
            if new[old] in bound and new[old] not in new:
                print(f"{path.relative_to(ROOT)}: {old} becomes {new[old]}, which stands there")
                bad = 1
        after[path] = turned(text, new)
        if path.suffix != ".edit":
            after[path] = locals_turned(after[path])
    if bad:
        return 1
    for path in [ROOT / "README.md", ROOT / "CONTRIBUTING.md", *sorted(ROOT.glob("docs/*.md"))]:
        if path.exists() and path.name != "PORT.md":
            after[path] = in_backticks(path.read_text(encoding="utf-8"), new)
    for path, text in after.items():
        if text != path.read_text(encoding="utf-8"):
            path.write_text(text, encoding="utf-8")
    return 0


if __name__ == "__main__":
    sys.exit(main(sys.argv[1:]))

#!/usr/bin/env python3
"""Tests that what comments of specs/ and src/ quote stands in the demands, the specification or the requests. Names each quotation that doesn't.

Usage: tools/quotations.py [DOCUMENTS]      (DOCUMENTS: a folder; else 'shared' beside the repository)

A quotation is the text between two quotation marks of a comment, which may go on over several lines. It stands in a document where one
paragraph, list item or table row has its words one after the other, white space aside; '..' stands for words left out between them.
Without the documents nothing is tested, and the last line says so.
"""
import pathlib
import re
import sys

HERE = pathlib.Path(__file__).resolve().parent.parent
DOCUMENTS = ["00-demands.md", "01-scope.md", "02-change-requests.md"]
# what begins a passage of its own
BEGINS = re.compile(r"\s*(#|\||- |\d+\. |\*\*)")
# a quotation mark that has an even number of backquotes behind it: one within `code` is part of the code
MARK = re.compile(r'"(?=[^`]*(?:`[^`]*`[^`]*)*$)')


def passages(text):
    """the paragraphs, headings, list items and table rows of a document, each with single blanks; a table's bars are none of its words"""
    found, open_ = [], False
    for line in text.splitlines():
        line = re.sub(r"^> ?", "", line)
        if not line.strip():
            open_ = False
        elif open_ and not BEGINS.match(line):
            found[-1] += " " + line
        else:
            found.append(line)
            open_ = True
    return [" ".join(one.replace("|", " ").split()) for one in found]


def comments(text):
    """(number of its first line, words) of each comment of antt or Rattle; comments on lines that follow each other are one"""
    found, last = [], None
    for number, line in enumerate(text.splitlines(), 1):
        alone = re.match(r"\s*(?:--+|//+)(.*)", line)
        behind = None if alone else re.search(r"\s--+\s(.*)", line)
        if alone and last == number - 1:
            found[-1][1].append(alone.group(1))
        elif alone or behind:
            found.append((number, [(alone or behind).group(1)]))
        if alone:
            last = number
    return [(number, " ".join(" ".join(words).split())) for number, words in found]


def whole(part):
    """a pattern of these words, of which the first doesn't begin and the last doesn't end within a word"""
    return (r"\b" if re.match(r"\w", part) else "") + re.escape(part) + (r"\b" if re.search(r"\w$", part) else "")


def stands(quotation, places):
    parts = [part.strip() for part in quotation.split("..") if part.strip()]
    pattern = re.compile(".*?".join(whole(part) for part in parts))
    return bool(parts) and any(pattern.search(place) for place in places)


def main():
    documents = pathlib.Path(sys.argv[1]) if len(sys.argv) > 1 else HERE.parent / "shared"
    if not all((documents / name).is_file() for name in DOCUMENTS):
        print(f"quotations: not tested, since {', '.join(DOCUMENTS)} are not in {documents}")
        return 0
    places = [place for name in DOCUMENTS for place in passages((documents / name).read_text())]
    tested, wrong = 0, []
    for file in sorted([*HERE.glob("crates/*/specs/**/*.antt"), *HERE.glob("crates/*/src/**/*.rt")]):
        for number, words in comments(file.read_text()):
            where = f"{file.relative_to(HERE)}:{number}"
            between = re.split(MARK, words)
            if len(between) % 2 == 0:
                wrong.append(f"{where}: a quotation mark without its other: {words}")
            for quotation in between[1::2]:
                tested += 1
                if not stands(quotation, places):
                    wrong.append(f'{where}: "{quotation}"')
    if wrong:
        print("quotations that stand in none of the documents:", *wrong, sep="\n")
    else:
        print(f"quotations: {tested} stand in {', '.join(DOCUMENTS)}")
    return 1 if wrong else 0


sys.exit(main())

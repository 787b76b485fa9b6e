#!/usr/bin/env python3
"""Counts the words of each sentence of the pages, and finds words that the pages avoid.

    dev/voice.py                      all pages that are written by hand
    dev/voice.py docs/TASKS.md ..     these
    dev/voice.py --most 30            sentences over 30 words too

It prints the place of each such sentence, what is wrong, and the sentence. Then the status is 1. dev/check_pages calls it.

Blocks of code, pictures' addresses and links' targets are passed over, and code within a sentence is one word. A heading, an item
of a list and a cell of a table begin a sentence and end one. Pages that are generated and docs/history/ are not looked at.
"""

import argparse
import glob
import os
import re
import sys

TOP = os.path.dirname(os.path.dirname(os.path.abspath(__file__)))
MOST = 40  # words of a sentence
PAGES = ("*.md", "docs/*.md", "bench/*.md", "examples/*.md", "dev/*.md", "dev/*/*.md")
GENERATED = ("docs/CALLS.md", "docs/DEFINITIONS.md")

# What a page is not to say, and what it says in its place. Code is not looked at, since there words stand to the letter.
PARTS = r"(?:edit|space|word|comma|colon|brace|command|call|transcript|write|put|save|letter|digit|sign|option)s?"
AVOIDED = {
    r"\d+ in 100\b": "per cent",
    r"\bby turns\b": "alternately",
    r"\bwants? of memory\b": "out of memory",
    rf"\bbehind (?:(?:an?|the|its|each|every|that|another|last|first|next|failed|killed) )*{PARTS}\b": "after",
    r"\b(?:is|are|was|were) told\b": "is reported, is stated",
    r"\b(?:an?|any|no|each|every) beginning of\b": "a prefix of",
}
AVOIDED = {re.compile(pattern, re.I): better for pattern, better in AVOIDED.items()}

CODE, LINK = "\0", "\1"  # the first stands for code within a sentence, the second before the text of a link
# A full stop, or another end of a sentence, behind which another sentence begins.
END = re.compile(r"(?<!\.)[.!?][)'\"”’]*\s+(?=['\"“‘(]*[A-Z0-9\0\1])")


def pages():
    """The pages that are written by hand."""
    found = [os.path.relpath(path, TOP) for kind in PAGES for path in glob.glob(os.path.join(TOP, kind))]
    return sorted(page for page in found if page not in GENERATED and not page.startswith("docs/history/"))


def parts_of(lines):
    """The paragraphs, headings, items and cells of a page, each as its lines with their numbers. Code is left out."""
    part, fenced, code = [], False, False
    for number, line in enumerate(lines, 1):
        bare = line.strip()
        item = re.match(r"(?:[-*+]|\d+[.)])\s+", bare)
        if bare.startswith("```"):
            fenced = not fenced
        code = line.startswith("    ") and not item and (code or not part) and bool(bare)
        if fenced or code or not bare or item or bare.startswith(("#", "|", "```")):
            yield part
            part = []
        if fenced or code or not bare or bare.startswith("```"):
            continue
        if bare.startswith("|"):
            cells = re.split(r"(?<!\\)\|", without_marks(bare).strip("|"))
            yield from ([(number, cell)] for cell in cells)
        elif bare.startswith("#"):
            yield [(number, bare.lstrip("#"))]
        else:
            part.append((number, bare[item.end() :] if item else bare))
    yield part


def without_marks(text):
    """A text with one character for each piece of code, links as their texts, and without marks of bold and HTML. Its lines stay."""
    text = re.sub(r"(`+)(?!`).+?(?<!`)\1(?!`)", lambda code: CODE + "\n" * code.group().count("\n"), text, flags=re.S)
    text = re.sub(r"!?\[([^\]]*)\]\([^)]*\)", rf"{LINK}\1", text)
    text = re.sub(r"<!--.*?-->|</?[a-z][^>]*>", "", text)
    return re.sub(r"\*\*|(?<!\w)[*_](?=\S)|(?<=\S)[*_](?!\w)", "", text)


def sentences_of(part):
    """The sentences of a part, each with the number of the line on which it begins."""
    text, begin = without_marks("\n".join(line for _, line in part)), 0
    for end in [match.end() for match in END.finditer(text)] + [len(text)]:
        if text[begin:end].strip():
            yield part[text.count("\n", 0, begin)][0], " ".join(text[begin:end].replace(LINK, "").split())
        begin = end


def faults_of(page, most=MOST):
    """A line for each sentence of a page that is too long or has a word that pages avoid."""
    with open(os.path.join(TOP, page), encoding="utf-8") as file:
        lines = file.read().split("\n")
    for part in parts_of(lines):
        for number, sentence in sentences_of(part):
            words = sum(any(sign.isalnum() or sign == CODE for sign in word) for word in sentence.split())
            shown = sentence.replace(CODE, "`..`")
            if words > most:
                yield f"{page}:{number}: {words} words: {shown}"
            for pattern, better in AVOIDED.items():
                for said in pattern.findall(sentence):
                    yield f"{page}:{number}: '{said}' for '{better}': {shown}"


def main():
    words = argparse.ArgumentParser(description=__doc__, formatter_class=argparse.RawDescriptionHelpFormatter)
    words.add_argument("--most", type=int, default=MOST, metavar="N")
    words.add_argument("pages", nargs="*")
    options = words.parse_args()
    faults = [fault for page in options.pages or pages() for fault in faults_of(os.path.relpath(os.path.abspath(page), TOP), options.most)]
    print("\n".join(faults), end="\n" if faults else "")
    sys.exit(1 if faults else 0)


if __name__ == "__main__":
    main()

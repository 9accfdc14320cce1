#!/usr/bin/env python3
"""Checks the links of README.md, docs/*.md and bench/README.md.

A relative link must name a file or folder of the repository, and an anchor a heading of the file
that it points into. Links to other sites are not looked at, and neither is code. One line for each
link that fails; the status is 1 if there is any.
"""

import pathlib
import re
import sys
import urllib.parse

ROOT = pathlib.Path(__file__).resolve().parent.parent

FENCE = re.compile(r" {0,3}(`{3,}|~{3,})")
CODE = re.compile(r"(`+)(?!`).*?(?<!`)\1(?!`)")
HEADING = re.compile(r" {0,3}#{1,6}[ \t]+(.*?)(?:[ \t]+#+)?[ \t]*$")
# [text](target), ![text](target), with an optional title; and the definition [name]: target
INLINE = re.compile(r"\]\(\s*(?:<([^>]*)>|([^\s()]*(?:\([^\s()]*\)[^\s()]*)*))(?:\s+(?:\"[^\"]*\"|'[^']*'))?\s*\)")
DEFINITION = re.compile(r" {0,3}\[[^\]]+\]:\s*<?([^\s>]+)>?")
SCHEME = re.compile(r"[A-Za-z][A-Za-z0-9+.-]*:|//")


def prose(text):
    """The numbered lines that are not in a fenced block."""
    fence = None
    for number, line in enumerate(text.splitlines(), 1):
        mark = FENCE.match(line)
        if fence is None and mark:
            fence = mark.group(1)
        elif fence is None:
            yield number, line
        elif mark and mark.group(1).startswith(fence) and not line.strip().strip(fence[0]):
            fence = None


def links(text):
    """The number of the line and the target of each link."""
    for number, line in prose(text):
        line = CODE.sub("", line)
        definition = DEFINITION.match(line)
        if definition:
            yield number, definition.group(1)
        for found in INLINE.finditer(line):
            yield number, found.group(1) if found.group(1) is not None else found.group(2)


def anchors(text):
    """The anchors of the headings, as the usual viewers make them: small letters, punctuation left
    out, spaces as hyphens, and a number after those that come again."""
    seen = {}
    names = set()
    for _, line in prose(text):
        heading = HEADING.match(line)
        if not heading:
            continue
        title = re.sub(r"\[([^\]]*)\]\([^)]*\)", r"\1", heading.group(1))
        name = re.sub(r"[^\w\- ]", "", title.strip().lower()).replace(" ", "-")
        count = seen.get(name, 0)
        seen[name] = count + 1
        names.add(f"{name}-{count}" if count else name)
    return names


def fault(root, page, target):
    """What is wrong with a link on a page, or None."""
    if SCHEME.match(target):
        return None
    path, _, anchor = target.partition("#")
    if not path and not anchor:
        return "is empty"
    if path.startswith("/"):
        return "is not relative"
    place = (page.parent / urllib.parse.unquote(path)).resolve() if path else page.resolve()
    if not place.is_relative_to(root.resolve()):
        return "points outside the repository"
    if not place.exists():
        return "does not exist"
    if anchor and place.suffix == ".md" and urllib.parse.unquote(anchor) not in anchors(place.read_text("utf-8")):
        return "has no such heading"
    return None


def pages(root):
    others = sorted((root / "docs").glob("*.md"))
    return [root / "README.md", *others, *(p for p in [root / "bench" / "README.md"] if p.exists())]


def check(root):
    """A line for each fault."""
    faults = []
    for page in pages(root):
        name = page.relative_to(root)
        if not page.is_file():
            faults.append(f"{name}: is missing")
            continue
        for number, target in links(page.read_text("utf-8")):
            said = fault(root, page, target)
            if said:
                faults.append(f"{name}:{number}: the link {target!r} {said}")
    return faults


def main():
    faults = check(ROOT)
    for said in faults:
        print(said)
    return 1 if faults else 0


if __name__ == "__main__":
    sys.exit(main())

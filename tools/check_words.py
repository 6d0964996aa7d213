#!/usr/bin/env python3
"""Checks that the names that the pages have in backquotes stand in the sources, and that links lead somewhere.

usage: tools/check_words.py

The pages are those in docs/ that speak of the code, README, CONTRIBUTING and the READMEs of crates. A name is a word
that begins with a capital (`IsLegal`), one with an underscore (`page_after_command`), or a path of such words
(`thread_pieces::RingRun`). Each must stand as a whole word in a source, or be the name of a file or folder. Of
`Effects.retiles`, where the first is a file of specs/, that file must have the second. It prints the names that
lead nowhere, each with its place, and fails if there is one. Blocks of code are not looked at.

A link of any page to a file of this repository must lead to one that is there, and its part after `#` to a heading.
"""
import pathlib
import re
import subprocess
import sys

ROOT = pathlib.Path(__file__).resolve().parent.parent
PAGES = ["README.md", "CONTRIBUTING.md", "docs/DEFINITIONS.md", "docs/LAWS.md", "docs/DECISIONS.md", "docs/LOCK.md",
         "docs/GATE.md", "docs/BELL.md", "docs/TRUST.md", "crates/README.md", "crates/*/README.md"]
SOURCES = ["*.rt", "*.antt", "*.py", "*.html", "*Makefile", ".ci/run", "crates.txt", "docs/script.schema.json"]
QUOTED, FENCE = re.compile(r"`([^`\n]+)`"), re.compile(r"^```.*?^```$", re.M | re.S)
NAME, STEP = re.compile(r"(?:\w+(?:::|\.))*\w+"), re.compile(r"::|\.")
LINK, HEADING = re.compile(r"\]\(([^)\s]+)\)"), re.compile(r"^#+ (.+)$", re.M)
LOOKS = re.compile(r"[a-z0-9]+(?:_[a-z0-9]+)+|(?:[A-Z][a-z0-9]*)+")

# Names of Chromium's compositor, which some crates say they are like.
FOREIGN = {"SingleThreadProxy", "ProxyImpl", "ProxyMain"}


def tracked(*patterns):
    """The tracked files of these patterns that are there."""
    told = subprocess.run(["git", "ls-files", "--", *patterns], cwd=ROOT, capture_output=True, text=True, check=True)
    return [ROOT / line for line in told.stdout.splitlines() if (ROOT / line).is_file()]


def words_of(path):
    return set(re.findall(r"\w+", path.read_text()))


def names_in(page):
    """The quoted names of a page, each with the number of its line."""
    for number, line in enumerate(without_code(page).splitlines(), 1):
        for quoted in QUOTED.findall(line):
            for token in re.split(r"[ (,/]+", quoted):
                if NAME.fullmatch(token) and token not in FOREIGN and any(map(LOOKS.fullmatch, STEP.split(token))):
                    yield number, token


def leads_nowhere(token, known, specs):
    """Whether a word of the name is in no source, or not in the file of specs/ that the name has before it."""
    parts = STEP.split(token)
    if len(parts) == 2 and "." in token and parts[0] in specs and parts[1] not in ("rt", "antt"):
        return parts[1] not in specs[parts[0]]
    return any(LOOKS.fullmatch(it) and it not in known for it in parts)


def without_code(page):
    """The text of a page without its blocks of code, each line at its place."""
    return FENCE.sub(lambda block: "\n" * block[0].count("\n"), page.read_text())


def anchors_of(page):
    """What links to the headings of a page are called."""
    heads = (re.sub(r"\[([^\]]*)\]\([^)]*\)", r"\1", it) for it in HEADING.findall(without_code(page)))
    return {re.sub(r"[^\w\- ]", "", it.lower()).replace(" ", "-") for it in heads}


def bad_links(page, anchors):
    """The links of a page that lead nowhere, each with the number of its line."""
    for number, line in enumerate(without_code(page).splitlines(), 1):
        for link in LINK.findall(line):
            path, _, part = link.partition("#")
            to = (page.parent / path).resolve() if path else page
            if "://" not in link and (not to.exists() or part and part not in anchors.setdefault(to, anchors_of(to))):
                yield page, number, link


def main():
    sources = {path: words_of(path) for path in tracked(*SOURCES) if path != pathlib.Path(__file__).resolve()}
    specs = {}
    known = set().union(*sources.values(), *(path.relative_to(ROOT).with_suffix("").parts for path in tracked()))
    for path, words in sources.items():
        if "specs" in path.parts:
            specs.setdefault(path.stem, set()).update(words)
    names = [(page, line, token) for page in tracked(*PAGES) for line, token in names_in(page)]
    anchors = {}
    wrong = [it for it in names if leads_nowhere(it[2], known, specs)]
    wrong += [it for page in tracked("*.md") for it in bad_links(page, anchors)]
    for page, line, token in wrong:
        print(f"check_words: {page.relative_to(ROOT)}:{line}: `{token}` leads nowhere", file=sys.stderr)
    print(f"check_words: {len(names)} names, {len(wrong)} wrong")
    return 1 if wrong or not names else 0


if __name__ == "__main__":
    sys.exit(main())

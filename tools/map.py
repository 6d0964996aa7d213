#!/usr/bin/env python3
"""Draws the map of the crates from crates.txt, and checks that map, READMEs and sources agree.

usage: tools/map.py [--write]

crates.txt lists the crates in families, each below a heading `# FAMILY: what it is for`. With --write the parts of
crates/README.md between the marker comments are made anew: the drawing of the families, and for each family a table
of its crates with the first sentence of their README.md and the crates of this repository that they stand on.

Without a flag nothing is written. It fails, with a line for each fault, if one of these parts is not what --write
would make; if crates.txt, the folders of crates/ and their README.md do not belong together; if a README.md does not
begin with its crate's name, has more than 60 lines, or lacks one of the sections that the map promises; if its section
"Who uses it" does not name, in backquotes, exactly the crates that use it, one by one or those of a family together
(`viz_*`); if the dependencies have a cycle, or a chain of more than 14 crates; if a crate uses one of a family that
comes later in the list, since the families are floors and nothing goes upstairs; and if a crate's sources name a
library that its line of crates.txt lacks, or name nothing of one that it lists. Both ways it prints the longest chain.
"""
import argparse
import re
import sys

sys.dont_write_bytecode = True
from crate_list import CRATES, ROOT, CrateList

MAP = CRATES / "README.md"
MOST_LINES, MOST_CHAIN = 60, 14

# The sections of each crate's README.md. A crate of the last family has rows that try something, and the last one alone.
USERS = "Who uses it"
SECTIONS = ["What its calls promise", "What it does not know", USERS]

MARKED = re.compile(r"(<!-- map: (\w+) -->\n).*?(<!-- end of \2 -->)", re.S)
SENTENCE = re.compile(r".*?[.?!](?=\s|$)", re.S)
SECTION = re.compile(r"^## ([^\n]+)\n(.*?)(?=^## |\Z)", re.M | re.S)
# A crate, or all crates of a family together.
NAMED = re.compile(r"`(\w+\*?)`")
COMMENT = {".rt": re.compile(r"//.*"), ".antt": re.compile(r"--.*")}
# A path of Rust that begins with a crate, and a path of the logic that begins with one.
PATH, LOGIC = re.compile(r"(?<![\w:.])(\w+)::"), re.compile(r"\bRattle\.(\w+)")
WHOLE, MODULE = re.compile(r"\buse (\w+);"), re.compile(r"\bmod (\w+)")


def misplaced(crates):
    """Faults of crates whose name begins with another family than their heading's."""
    for name, family in crates.family.items():
        prefix = name.partition("_")[0]
        if prefix in crates.families and prefix != family:
            yield f"crates.txt: {name} stands below the heading of {family}"


def upstairs(crates):
    """Faults of crates that use one of a family that comes later in the list."""
    order = list(crates.families)
    for name, family in crates.family.items():
        for it in crates.own(name):
            if order.index(crates.family[it]) > order.index(family):
                yield f"crates.txt: {name} ({family}) stands on {it} ({crates.family[it]}), which is upstairs"


def longest_chain(crates):
    """The longest chain of crates that each use the one before it, and the crates of a cycle if there is one."""
    chains, open_now = {}, []

    def chain(name):
        if name in open_now:
            raise ValueError(" -> ".join([*open_now[open_now.index(name):], name]))
        if name not in chains:
            open_now.append(name)
            chains[name] = max((chain(it) for it in crates.own(name)), key=len, default=[]) + [name]
            open_now.pop()
        return chains[name]

    try:
        return max((chain(name) for name in crates.uses), key=len, default=[]), None
    except ValueError as cycle:
        return [], str(cycle)


def first_sentence(name):
    """The first sentence of a crate's README.md, for the map: its links lead from crates/ then."""
    readme = CRATES / name / "README.md"
    if not readme.is_file():
        return ""
    paragraphs = readme.read_text().split("\n\n")
    found = SENTENCE.match(paragraphs[1].strip()) if len(paragraphs) > 1 else None
    return " ".join(found[0].split()).replace("](../", "](").replace("|", "\\|") if found else ""


def tables(crates):
    """For each family a heading and a table of its crates."""
    lines = []
    for family, names in crates.families.items():
        purpose = crates.purpose[family]
        lines += [f"### {family}", "", f"{purpose[0].upper()}{purpose[1:]}.", ""]
        lines += ["| Crate | What it is | Stands on |", "|---|---|---|"]
        for name in names:
            below = ", ".join(f"`{it}`" for it in crates.own(name))
            lines.append(f"| [{name}]({name}) | {first_sentence(name)} | {below} |")
        lines.append("")
    return "\n".join(lines[:-1]) + "\n"


def drawing(crates):
    """A graph of the families. An arrow that follows from others is left out."""
    order = list(crates.families)
    direct = {family: set() for family in order}
    for name, family in crates.family.items():
        direct[family].update(crates.family[below] for below in crates.own(name))
        direct[family].discard(family)
    reached = {family: set() for family in order}
    for family in order:
        reached[family] = direct[family].union(*(reached[it] for it in direct[family]))
    lines = ["```mermaid", "flowchart TD"]
    for family in order:
        through = set().union(*(reached[it] for it in direct[family]))
        lines += [f"    {family} --> {it}" for it in order if it in direct[family] - through]
    return "\n".join(lines) + "\n```\n"


def drawn(crates, text):
    """The text of crates/README.md with its marked parts made anew, and the parts that it has."""
    parts = {"families": drawing, "crates": tables}
    found = [it[2] for it in MARKED.finditer(text)]
    text = MARKED.sub(lambda it: it[1] + parts[it[2]](crates) + it[3] if it[2] in parts else it[0], text)
    return text, [it for it in parts if it not in found]


def without_comments(path):
    """The text of a source without its comments."""
    return COMMENT[path.suffix].sub("", path.read_text())


def named_by(name, known):
    """The libraries that a crate's sources name."""
    logic, paths, modules = set(), set(), set()
    for folder in ("src", "specs", "proofs"):
        for path in sorted((CRATES / name / folder).rglob("*")):
            if path.suffix not in COMMENT:
                continue
            text = without_comments(path)
            logic.update(LOGIC.findall(text))
            if path.suffix == ".rt":
                modules.update(MODULE.findall(text))
                paths.update(PATH.findall(text), WHOLE.findall(text))
    # A path that begins with a module of the crate's own names no library.
    return (logic | paths - modules) & known - {name}


def faults_of_uses(crates):
    """Libraries that are named and not listed, or listed and not named."""
    known = set(crates.uses).union(*crates.uses.values())
    for name, uses in crates.uses.items():
        named = named_by(name, known)
        for it in sorted(named - set(uses)):
            yield f"crates.txt: {name} lacks {it}, which its sources name"
        for it in uses:
            if it not in named:
                yield f"crates.txt: {name} lists {it}, which its sources do not name"


def faults_of_folders(crates):
    """Folders, lines of crates.txt and README files that do not belong together."""
    folders = {it.name for it in CRATES.iterdir() if it.is_dir()}
    for name in sorted(folders - set(crates.uses)):
        yield f"crates/{name}: crates.txt does not list it"
    for name in crates.uses:
        sources = [CRATES / name / "src" / it for it in ("lib.rt", "main.rt")]
        if not any(it.is_file() for it in sources):
            yield f"crates.txt: {name} has no sources in crates/"
        if not (CRATES / name / "README.md").is_file():
            yield f"crates/{name}: no README.md"


def faults_of_readmes():
    """READMEs without their heading, and too long ones."""
    for readme in sorted(CRATES.glob("*/README.md")):
        at, lines = readme.relative_to(ROOT), readme.read_text().splitlines()
        if lines[:1] != [f"# {readme.parent.name}"]:
            yield f"{at}: the first line is not '# {readme.parent.name}'"
        if len(lines) > MOST_LINES:
            yield f"{at}: {len(lines)} lines, more than {MOST_LINES}"
        if not first_sentence(readme.parent.name):
            yield f"{at}: no sentence below the heading"


def faults_of_sections(crates):
    """READMEs that lack a section that the map promises."""
    for name, family in crates.family.items():
        readme = CRATES / name / "README.md"
        found = dict(SECTION.findall(readme.read_text())) if readme.is_file() else {}
        for it in SECTIONS[-1:] if family == list(crates.families)[-1] else SECTIONS:
            if not found.get(it, "").strip():
                yield f"crates/{name}/README.md: no section '## {it}'"
        yield from faults_of_users(crates, name, set(NAMED.findall(found.get(USERS, ""))))


def faults_of_users(crates, name, named):
    """Crates that use this one and are not named, and crates that are named and do not use it."""
    users = {it for it in crates.uses if name in crates.own(it)}
    groups = {f"{family}_*": users & set(names) for family, names in crates.families.items()}
    told = named & (set(crates.uses) | set(groups))
    for it in sorted(told - users - {it for it in groups if groups[it]}):
        yield f"crates/{name}/README.md: {USERS}: `{it}` does not use it"
    covered = told.union(*(groups.get(it, set()) for it in told))
    for it in sorted(users - covered):
        yield f"crates/{name}/README.md: {USERS}: lacks `{it}`"


def all_faults(crates, chain, cycle):
    """All that does not agree, but the marked parts of the map."""
    faults = [*crates.faults, *misplaced(crates), *upstairs(crates), *faults_of_folders(crates), *faults_of_readmes(),
              *faults_of_sections(crates)]
    if cycle:
        faults.append(f"crates.txt: a cycle: {cycle}")
    if len(chain) > MOST_CHAIN:
        faults.append(f"crates.txt: a chain of {len(chain)} crates, more than {MOST_CHAIN}")
    return faults + list(faults_of_uses(crates))


def main():
    words = argparse.ArgumentParser(description="Draws and checks the map of the crates.")
    words.add_argument("--write", action="store_true", help="make the marked parts of crates/README.md anew")
    asked = words.parse_args()
    crates = CrateList()
    chain, cycle = longest_chain(crates)
    text = MAP.read_text() if MAP.is_file() else ""
    made, lacking = drawn(crates, text)
    if asked.write and made != text:
        MAP.write_text(made)
    faults = [f"crates/README.md: no part '<!-- map: {it} -->'" for it in lacking]
    faults += all_faults(crates, chain, cycle)
    if not asked.write and made != text:
        faults.append("crates/README.md: its drawing or its tables are stale; run tools/map.py --write")
    for fault in faults:
        print(fault, file=sys.stderr)
    print(f"{len(crates.uses)} crates; the longest chain has {len(chain)}: {' < '.join(chain)}")
    sys.exit(1 if faults else 0)


if __name__ == "__main__":
    main()

#!/usr/bin/env python3
"""Lists the definitions that the contract of `run` rests on, what a reader has to believe, and makes the page of them.

usage: tools/believed.py [--words] [--of CRATE/FILE:FUNCTION] [--word WORD | --table | --write]

It begins with the names in the `ensures` clauses of the function (player_run/program.rt:run if none is named) and
follows each to its definition, by the `ghost use` lines of the source and the `use` lines of the specs, and so on
through the names in those definitions, into the crates of the kit too. The records of which the fields are the clauses
of `run` are followed, but not counted: their lines are clauses. It prints each file of specs/ with the lines of it that
count, and the whole in lines (comments, signatures and bodies apart) and in pages of 50 lines; then the same of the
kit's crates; with --words each word too. With --word step (play, gen, demo, film, shot, serve, frames, check) it leaves
out the cases of the program's other words; --table writes a row for each of them.

With --write the parts of docs/DEFINITIONS.md between the marker comments are made anew from the comments of the
definitions: those that the theorem rests on, and those that the public contracts of crates name beside them; and so
are the numbers of lines there and in README.md. Without a flag nothing is written, and it fails if one of these is
stale, if the hand-written part of the page has more than 300 lines, if a definition that the theorem rests on has no
comment, nor any above it in its file, or if a name leads nowhere. Without a kit on the PATH its definitions are left
out, and the table of them is taken as it stands.
"""
import argparse
import re
import sys

sys.dont_write_bytecode = True
import definitions_page
from crate_list import CRATES, ROOT
from spec_words import WORDS, World, clauses_of, public_words, told_words

DEFINITIONS, README = ROOT / "docs" / "DEFINITIONS.md", ROOT / "README.md"
PAGE, MOST_BY_HAND = 50, 300
# The call whose contract is the theorem.
RUN = "player_run/program.rt:run"

# README's table of lines: its words and their numbers.
TOLD_LINES = re.compile(r"^(\| `step` \|.*)\n\|[-|]+\n(\|.*)$", re.M)


def world_of(word, text, names, short):
    """The definitions that these clauses rest on; for one word of the program where it is named."""
    world = World(word)
    world.names_in(text, names, short, {})
    return world


def worlds(text, names, short):
    """The definitions that each word of the program rests on, and those of all."""
    return {word.lower() if word else "all": world_of(word, text, names, short) for word in (*WORDS, None)}


def readme_made(text, of_words):
    """The text of README with the numbers of lines that its words rest on."""
    def row(found):
        numbers = (f"{of_words[it].count(of_words[it].found.values()).lines:,}" for it in re.findall(r"\w+", found[1]))
        return found[0].removesuffix(found[2]) + "| " + " | ".join(numbers) + " |"
    return TOLD_LINES.sub(row, text)


def untold(world):
    """Definitions without a comment, nor any above it in their file."""
    for module in world.modules.values():
        wanted = {name for crate, file, name in world.found if (crate, file) == (module.crate, module.name)}
        for words, items in definitions_page.groups_of(module, wanted):
            if not words:
                yield from (f"{module.crate}/{module.name}: `{it.name}` has no comment" for it in items)


def stale_pages(of_words, write):
    """What is wrong with the pages that tell of these definitions; with `write` they are made anew first."""
    text, readme = DEFINITIONS.read_text(), README.read_text()
    page, lacking = definitions_page.made(text, of_words, public_words(of_words["all"]), PAGE)
    numbers = readme_made(readme, of_words)
    if write:
        DEFINITIONS.write_text(page)
        README.write_text(numbers)
    yield from (f"docs/DEFINITIONS.md: no part '<!-- believed: {it} -->'" for it in lacking)
    if not write:
        yield from ("docs/DEFINITIONS.md is stale; run tools/believed.py --write" for _ in range(page != text))
        yield from ("README.md tells other numbers of lines; run tools/believed.py --write" for _ in range(numbers != readme))
    hand = definitions_page.by_hand(page)
    if hand > MOST_BY_HAND:
        yield f"docs/DEFINITIONS.md has {hand} lines by hand, more than {MOST_BY_HAND}"


def print_table(text, names, short):
    """A row for each word of the program."""
    print(definitions_page.numbers_table(worlds(text, names, short), PAGE), end="")
    return 0


def print_items(world, items, name, with_words):
    """The lines of some definitions that stand together, and which these are."""
    print(f"{world.count(items).lines:5}  {name}")
    if with_words:
        print("       " + ", ".join(sorted(it.name for it in items)))


def told_count(count):
    """A number of lines, and of which they are."""
    return f"{count.lines} lines ({count.comments} of comments, {count.signatures} of signatures, {count.bodies} of bodies)"


def main():
    words = argparse.ArgumentParser(description=__doc__, formatter_class=argparse.RawDescriptionHelpFormatter)
    words.add_argument("--words", action="store_true", help="each word too")
    words.add_argument("--word", choices=[it.lower() for it in WORDS], help="what the answers of one word rest on")
    words.add_argument("--table", action="store_true", help="a row for each word of the program")
    words.add_argument("--write", action="store_true", help="make docs/DEFINITIONS.md and the numbers of README.md anew")
    words.add_argument("--of", default=RUN, help="CRATE/FILE:FUNCTION, the file below src/")
    words = words.parse_args()
    file, function = words.of.rsplit(":", 1)
    crate, rest = file.split("/", 1)
    text, names, short = clauses_of(CRATES / crate / "src" / rest, function)
    if words.table:
        return print_table(text, names, short)
    world = world_of(words.word and words.word.capitalize(), text, names, short)
    by_file = world.by_file()
    for path, items in sorted(by_file.items()):
        print_items(world, items, path, words.words)
    for kit_crate, items in sorted(world.by_kit_crate().items()):
        print_items(world, items, f"the kit's {kit_crate}", words.words)
    whole, told = world.count(world.found.values()), told_words(text, names)
    print(f"believed: {len(told)} words in the clauses of `{function}`, {len(world.found)} definitions in {len(by_file)} files, "
          f"{told_count(whole)}, {-(-whole.lines // PAGE)} pages; beside them {len(world.types)} types of the sources")
    if world.kit:
        print(f"believed: of the kit {len(world.kit)} definitions, {told_count(world.count(world.kit.values()))}")
    wrong = [f"a name that leads nowhere: {'.'.join(it)}" for it in sorted(world.lost)]
    if words.of == RUN:
        of_words = worlds(text, names, short)
        wrong += [*untold(of_words["all"]), *stale_pages(of_words, words.write)]
    for line in wrong:
        print(f"believed: {line}", file=sys.stderr)
    return 1 if wrong else 0


if __name__ == "__main__":
    sys.exit(main())

#!/usr/bin/env python3
"""Tries tools/test.py and tools/rows.py: which rows a word and a crate pick, and what is said if they pick none.

usage: tools/try_test.py [--rows PROGRAM]

It builds nothing. --rows also runs each title of test_rows alone by PROGRAM (crates/test_rows/out/test_rows, which the
gate builds): each has to be right by itself, and all of them together are as many answers as test_rows counts.
"""
import argparse
import pathlib
import re
import subprocess
import sys

sys.dont_write_bytecode = True
import rows
from crate_list import CRATES, ROOT, CrateList

PROGRAMS = ("test_rows", "test_program")
KNOWN = CrateList().uses
# A small program's tables, and what a choice of crates and a word leaves of them.
TABLES = """# About all.
table: a
# crates: test_a pixel

# for all: what a stands on
ground

# title: one tile
1

# title: geom: a scroll
2

table: b
# crates: test_b

# title: another tile
3"""
PICKS = [
    ([], None, "ground 1 2 3", 3),
    ([], "tile", "ground 1 3", 2),
    ([], "scroll", "ground 2", 1),
    ([], "geom", "ground 2", 1),
    ([], "nothing", "ground", 0),
    (["test_a"], None, "ground 1 2", 2),
    (["pixel"], "scroll", "ground 2", 1),
    (["geom"], None, "ground 2", 1),
    (["test_b"], None, "ground 3", 1),
    (["test_b"], "scroll", "ground", 0),
    (["whole"], "tile", "ground 1 3", 2),
]
# Wrong tables, and what is said of them.
WRONG = [
    ("table: a\n# title: one\n1", "1: table a names no crate"),
    ("table: a\n# crates: none\n# title: one\n1", "1: crates.txt has no none"),
    ("table: a\n# crates: geom\n# title: one\n\n# title: two\n2", "3: a title without rows"),
    ("table: a\n# crates: geom\n0\n# title: one\n1", "1: rows of a below no title"),
    ("table: a\n# crates: geom\n# title: one\n1\n# title: one\n2", "the title stands twice: one"),
]
# Words for test.py, the status, and a line that it says.
CALLS = [
    (["tile"], 0, r"test_rows: \d+ of \d+ titles"),
    # These words stand below histories alone.
    (["one left out"], 1, "FAILED no title has one left out"),
    (["tile"], 0, r"test_program: \d+ of its titles"),
    (["scroll"], 0, r"test_rows: \d+ of \d+ titles"),
    (["no such word"], 1, "FAILED no title has no such word"),
    (["--crate", "test_pages"], 0, r"test_rows: \d+ of \d+ titles"),
    (["--crate", "test_pages", "wheel"], 0, r"test_rows: \d+ of \d+ titles"),
    (["--crate", "test_pages", "no such word"], 1, "FAILED test_pages has no row with no such word in its title"),
    (["--crate", "test_histories"], 0, r"test_program: \d+ of its titles"),
    (["--crate", "test_rows"], 0, "test_rows: all of it"),
    (["--crate", "ghost_list"], 1, "FAILED ghost_list has no program, no rows and no tests of its own; test_cases calls it"),
    (["--crate", "geom", "--crate", "ghost_list"], 1, "FAILED ghost_list .*"),
    (["--crate", "no_crate"], 1, "test: crates.txt has no no_crate"),
    ([], 0, "test_rows: all of it"),
]


def wrong_picks():
    """What a choice leaves otherwise than it should, of the small tables and of those that there are."""
    groups = rows.groups_of("whole", TABLES)
    for named, word, wanted, count in PICKS:
        text, found = rows.picked(groups, "whole", named, word)
        left = " ".join(line for line in text.split("\n") if rows.says_something(line) and not line.startswith("table: "))
        if (left, found, text.count("\n")) != (wanted, count, TABLES.count("\n")):
            yield f"{named} {word} picks {found}: {left}, and not {count}: {wanted}"
    for text, wanted in WRONG:
        if wanted not in list(rows.faults("whole", text, KNOWN)):
            yield f"it is not said that {wanted}"


def wrong_tables():
    """What is wrong with the tables of the programs."""
    for crate in PROGRAMS:
        text = (CRATES / crate / "stdin").read_text()
        for fault in rows.faults(crate, text, KNOWN):
            yield f"crates/{crate}/stdin:{fault}"
        for group in titled(rows.groups_of(crate, text)):
            if not rows.is_picked(group, crate, [], group.title):
                yield f"{crate}: its title does not pick {group.title}"


def wrong_calls():
    """What test.py says otherwise than it should."""
    for words, status, wanted in CALLS:
        run = subprocess.run([sys.executable, "tools/test.py", "--list", *words], cwd=ROOT, capture_output=True, text=True)
        said = (run.stdout + run.stderr).splitlines()
        if run.returncode != status or not any(re.fullmatch(wanted, line) for line in said):
            yield f"test.py --list {' '.join(words)}: status {run.returncode}: {' / '.join(said[:5])}"


def titled(groups):
    """The groups that run alone."""
    return [group for group in groups if group.title is not None]


def wrong_rows(program):
    """What of the titles of test_rows is not right by itself."""
    text, wanted = (CRATES / "test_rows" / "stdin").read_text(), (CRATES / "test_rows" / "stdout").read_bytes()
    groups = rows.groups_of("test_rows", text)
    numbers = lambda out: [int(it) for it in re.findall(rb"\d+", out)]
    sums = [0] * len(numbers(wanted))
    for group in titled(groups):
        alone = [it if it is group or it.title is None else it._replace(title="") for it in groups]
        given, count = rows.picked(alone, "test_rows", [], group.title)
        run = subprocess.run([program], input=given.encode(), capture_output=True)
        sums = [a + b for a, b in zip(sums, numbers(run.stdout))]
        if run.returncode or count != 1:
            yield f"{group.title}: status {run.returncode}, {count} picked: {run.stdout.decode()[:200]}"
    if sums != numbers(wanted):
        yield f"the titles have {sums}, and all rows {numbers(wanted)}"


def main():
    words = argparse.ArgumentParser(description=__doc__, formatter_class=argparse.RawDescriptionHelpFormatter)
    words.add_argument("--rows", type=pathlib.Path, metavar="PROGRAM", help="test_rows, built")
    words = words.parse_args()
    wrong = [*wrong_picks(), *wrong_tables(), *wrong_calls(), *(wrong_rows(words.rows.resolve()) if words.rows else ())]
    print("\n".join([f"rows: {len(PICKS) + len(WRONG)} choices, {len(CALLS)} calls, {len(wrong)} wrong", *wrong]))
    return bool(wrong)


if __name__ == "__main__":
    sys.exit(main())

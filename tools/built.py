#!/usr/bin/env python3
"""Puts the proved program at build/cc_player.

usage: tools/built.py [--sum | --note SUM]

Where build/cc_player was built of the text that now stands in crates/, nothing is done; nor where it was not built here
(it has no note beside it), as one that somebody built elsewhere and copied there. Where the gate's
crates/cc_player/out/cc_player was built of that text, it is copied; and else the program is proved and built by
`rt run`.

--sum prints a sum of the text, of crates.txt and of the kit's name. --note SUM is for the gate: it notes that
crates/cc_player/out/cc_player and the libraries were built of the text with this sum, unless the text is another one
by now.
"""
import argparse
import hashlib
import pathlib
import shutil
import subprocess
import sys

sys.dont_write_bytecode = True
import gate_libraries

ROOT = pathlib.Path(__file__).resolve().parent.parent
CRATE = ROOT / "crates" / "cc_player"
PROVED, PLAYER = CRATE / "out" / "cc_player", ROOT / "build" / "cc_player"
PARTS = ("src", "specs", "proofs")


def text_sum():
    """A sum of all that programs are made of."""
    whole = hashlib.sha256(subprocess.run(["rt", "version"], check=True, capture_output=True).stdout)
    files = [it for part in PARTS for it in (ROOT / "crates").glob(f"*/{part}/**/*") if it.is_file()]
    for path in [ROOT / "crates.txt", *sorted(files)]:
        whole.update(f"{path.relative_to(ROOT)}\0".encode() + hashlib.sha256(path.read_bytes()).digest())
    return whole.hexdigest()


def note_of(program):
    """The note beside a program: the sum of its text, and its own."""
    return program.with_name(program.name + ".text")


def file_sum(path):
    """The sum of a file."""
    return hashlib.sha256(path.read_bytes()).hexdigest()


def write_note(program, text, built=None):
    """Notes the text that a program was built of, or the one that is about to be copied there was."""
    note_of(program).write_text(f"{text} {file_sum(built or program)}\n")


def is_foreign(program):
    """Whether a program is there that was not built here: none is without its note but one that was copied."""
    return program.is_file() and not note_of(program).exists()


def put(built, program, text):
    """Copies a program that was built of this text, its note first: no copy that breaks off looks foreign."""
    program.parent.mkdir(exist_ok=True)
    write_note(program, text, built)
    shutil.copy(built, program)


def is_of(program, text):
    """Whether a program is there and is the one that was built of this text."""
    is_there = program.is_file() and note_of(program).is_file()
    return is_there and note_of(program).read_text().split() == [text, file_sum(program)]


def main():
    words = argparse.ArgumentParser(description=__doc__, formatter_class=argparse.RawDescriptionHelpFormatter)
    words.add_argument("--sum", action="store_true", help="print the sum of the text")
    words.add_argument("--note", metavar="SUM", help="note the text of the program that the gate built")
    words = words.parse_args()
    name = PLAYER.relative_to(ROOT)
    if not (words.sum or words.note) and is_foreign(PLAYER):
        print(f"{name} was not built here, and is taken as it is (remove it to have it proved and built)")
        return 0
    if not shutil.which("rt"):
        sys.exit("rt is missing: install the Rattle kit and put its bin/ on the PATH, or copy a built program to " + str(name))
    text = text_sum()
    if words.sum:
        print(text)
    elif words.note:
        if words.note == text and PROVED.is_file():
            write_note(PROVED, text)
            gate_libraries.note()
    elif is_of(PLAYER, text):
        print(f"{name} is of this text")
    else:
        if is_of(PROVED, text):
            print(f"{name}: as the gate built it")
        elif subprocess.run(["rt", "run", "--", "--version"], cwd=CRATE).returncode or text_sum() != text:
            return 1
        put(PROVED, PLAYER, text)
    return 0


if __name__ == "__main__":
    sys.exit(main())

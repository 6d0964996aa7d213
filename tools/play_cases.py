#!/usr/bin/env python3
"""Plays the cases of crates/test_program by the proved program itself.

usage: tools/play_cases.py [--program PROGRAM] [--table TABLE] [WORD]

test_program plays them over sources and sinks in memory. Here each case that needs no source or sink of its own is a
call of PROGRAM (crates/cc_player/out/cc_player, which the gate builds) with the case's words and input: its status, the
line on standard error and what it writes have to be as the case says. So main is tried too, and so is any other program
of the same words. The head of src/main.rt of test_program tells the keys of the table. With a WORD only the cases with it
in their titles are played. It prints how many cases and runs there were, and each wrong case with its line, and ends
with 1 where one is wrong.
"""
import argparse
import concurrent.futures
import dataclasses
import functools
import pathlib
import re
import subprocess
import sys

sys.dont_write_bytecode = True
from built import PROVED
from crate_list import CRATES

TABLE = CRATES / "test_program" / "stdin"
# What no process of its own can be given: calls that fail, sinks that are full or wait, gates, and the half of `run` that
# starts none.
INSIDE = ("alone", "room", "reads fail", "puts fail", "notes room", "gate", "sink waits", "until")
RANGE = re.compile(r"(\d+)(?:\.\.(\d+))?")


class Fault(Exception):
    """A line that can't be read."""


@dataclasses.dataclass
class Case:
    """A case: how its runs are made, and how they have to end."""
    line: int
    title: str
    words: list = dataclasses.field(default_factory=lambda: ["step", "1"])
    data: bytes = None
    cuts: range = None
    status: int = 0
    note: str = None
    is_recording: bool = False
    is_inside: bool = False
    # The whole output, or its end or beginning; or its length and sum; where nothing is said, there is none.
    out: bytes = b""
    is_end: bool = False
    is_start: bool = False
    sum: tuple = None


def numbers(text):
    """`A..B`, or one number alone."""
    found = RANGE.fullmatch(text) or fail("no number: " + text)
    return range(int(found[1]), int(found[2] or int(found[1]) + 1))


def fail(text):
    raise Fault(text)


def image(text):
    """A picture: its width, its height, and the colour of each pixel, `N*COLOUR` for that many of it."""
    width, height, *groups = text.split()
    split = [group.rpartition("*") for group in groups]
    pixels = b"".join(bytes.fromhex(colour) * int(count or 1) for count, _, colour in split)
    if len(pixels) != 3 * int(width) * int(height):
        fail("a picture has a colour for each pixel")
    return b"P6\n%d %d\n255\n" % (int(width), int(height)) + pixels


def fnv(data):
    """The 64-bit FNV-1a sum of bytes."""
    total = 0xCBF29CE484222325
    for byte in data:
        total = (total ^ byte) * 0x100000001B3 & 0xFFFFFFFFFFFFFFFF
    return total


class Table:
    """What was read of the table so far: the texts and files that it has named, and its cases."""

    def __init__(self):
        self.texts, self.files, self.file, self.base, self.cases = {}, {}, None, None, []

    def filled(self, value):
        """The value with the text of each `<NAME>` in its place."""
        return re.sub(r"<([^>]*)>", lambda name: self.texts[name[1]], value)

    def built(self, value):
        """The text that a value says: blanks, copies with commas between, or itself."""
        if value.endswith(" blanks"):
            return " " * int(value.removesuffix(" blanks"))
        count, of, text = value.partition(" of ")
        if not of or not RANGE.fullmatch(count):
            return self.filled(value)
        text, copies = self.filled(text), numbers(count) if ".." in count else range(1, int(count) + 1)
        return ",".join(text.replace("{i-1}", str(max(i - 1, 0))).replace("{i}", str(i)) for i in copies)

    def change(self, case, old, new):
        """Changes a part of the input, which stands there once."""
        if case.data.count(old) != 1:
            fail("what is changed does not stand in the input once")
        case.data = case.data.replace(old, new)

    def take_change(self, line, row):
        """A line of a table of changes: `OLD => NEW | END`."""
        change, _, end = row.rpartition(" | ")
        change, (status, rest) = change.rstrip(), end.split(" ", 1)
        case = Case(line, change, data=self.base.encode(), status=int(status))
        old, _, new = change.partition(" => ")
        self.change(case, self.built(old).encode(), self.built(new).encode())
        if case.status:
            case.note = rest
        else:
            self.set_sum(case, rest)
        self.cases.append(case)

    @staticmethod
    def set_sum(case, text):
        length, total = text.split()
        case.sum = int(length), int(total, 16)

    def take_input(self, case, key, value):
        """A line of a case about its input. Answers whether it is one."""
        if key == "input":
            case.data = self.built(value).encode()
        elif key == "input hex":
            case.data = bytes.fromhex(value)
        elif key == "input file":
            case.data = self.files[value]
        elif key == "change":
            old, _, new = value.partition(" => ")
            self.change(case, self.built(old).encode(), self.built(new).encode())
        elif key == "change hex":
            old, _, new = value.partition(" => ")
            self.change(case, bytes.fromhex(old), bytes.fromhex(new))
        elif key == "cut":
            case.cuts = numbers(value)
        else:
            return False
        return True

    def take_output(self, case, key, value):
        """A line of a case about what it writes. Answers whether it is one."""
        if key == "out" and value == "...":
            case.is_end, case.is_start = not case.out, bool(case.out)
        elif key == "out":
            case.out += self.built(value).encode() + b"\n"
        elif key == "image":
            case.out += image(value)
        elif key == "out hex":
            case.out += bytes.fromhex(value)
        elif key == "out sum":
            self.set_sum(case, value)
        else:
            return False
        return True

    def take_case(self, case, key, value):
        """A line of a case."""
        if self.take_input(case, key, value) or self.take_output(case, key, value):
            return
        if key == "words":
            case.words = ["" if word == '""' else word for word in value.split()]
        elif key == "status":
            case.status = int(value)
        elif key == "note":
            case.note = value
        elif key == "legal recording":
            case.is_recording = True
        elif key in INSIDE:
            case.is_inside = True
        elif key != "step":
            fail("there is no such key: " + key)

    def take(self, line, text):
        """A line that says something."""
        if text.startswith("    "):
            self.take_change(line, text[4:])
            return
        key, colon, value = text.partition(":")
        value = value.removeprefix(" ")
        if not colon:
            fail("a line is `key: value`")
        elif key.startswith("text "):
            self.texts[key[5:]] = self.built(value)
        elif key.startswith("file "):
            self.file = key[5:]
            self.files[self.file] = b""
        elif key == "line":
            self.files[self.file] += self.built(value).encode() + b"\n"
        elif key == "picture":
            self.files[self.file] += image(value)
        elif key == "changes of":
            self.base = self.built(value)
        elif key == "case":
            self.cases.append(Case(line, value))
        else:
            self.take_case(self.cases[-1], key, value)


def read_table(path):
    """The cases of a table; those of histories, which come last, are none of the program's."""
    table = Table()
    for line, text in enumerate(path.read_text().split("\n"), 1):
        if text.startswith("table: "):
            break
        if not text or text.startswith("#"):
            continue
        try:
            table.take(line, text)
        except (Fault, KeyError, ValueError, IndexError) as fault:
            sys.exit("%s:%d: %s" % (path, line, fault))
    return table.cases


def fits(case, out):
    """Whether the output is as the case says."""
    if case.sum:
        return len(out) == case.sum[0] and fnv(out) == case.sum[1]
    if case.is_start:
        return out.startswith(case.out)
    return out.endswith(case.out) if case.is_end else out == case.out


def wrong(program, case, data):
    """What of a run of a case over these bytes is not as it has to be, if anything."""
    run = lambda words, given: subprocess.run([program, *words], input=given, capture_output=True)
    done = run(case.words, data)
    said = b"" if case.note is None else case.note.encode() + b"\n"
    if done.returncode != case.status:
        return "status %d, not %d" % (done.returncode, case.status)
    if done.stderr != said:
        return "standard error is %r, not %r" % (done.stderr[:200], said)
    out = done.stdout
    if case.is_recording:
        judged = run(["check"], out)
        if judged.returncode:
            return "no legal recording: %r" % judged.stderr[:200]
        out = run(["frames"], out).stdout
    return None if fits(case, out) else "%d bytes of output are not as told" % len(out)


def play(program, case):
    """Plays a case: how many runs it had, and what is wrong with the first wrong one."""
    given = [case.data] if case.cuts is None else [case.data[:cut] for cut in case.cuts]
    for number, data in enumerate(given):
        complaint = wrong(program, case, data)
        if complaint:
            return len(given), "line %d: %s: run %d: %s" % (case.line, case.title[:120], number, complaint)
    return len(given), None


def main():
    words = argparse.ArgumentParser(description=__doc__.splitlines()[0])
    words.add_argument("--program", type=pathlib.Path, default=PROVED)
    words.add_argument("--table", type=pathlib.Path, default=TABLE)
    words.add_argument("word", nargs="?", default="")
    words = words.parse_args()
    cases = [it for it in read_table(words.table) if not it.is_inside and words.word in it.title]
    # Processes, since the sums of large outputs are made here.
    with concurrent.futures.ProcessPoolExecutor() as pool:
        played = list(pool.map(functools.partial(play, words.program), cases, chunksize=8))
    complaints = [complaint for _, complaint in played if complaint]
    print("\n".join(["cases: %d played in %d runs, %d wrong"
                     % (len(cases), sum(runs for runs, _ in played), len(complaints)), *complaints]))
    return bool(complaints) or not cases


if __name__ == "__main__":
    sys.exit(main())

#!/usr/bin/env python3
"""Explains why a script is refused: the first fault in words, its place in the text, and what to do.

usage: explain.py SCRIPT [LINE]

SCRIPT is a file, or - for standard input. LINE is what the program wrote on standard error, as
'cc: shape: list 2 index 5 field 8'; where it is given, it is held against what is found here, and lines that are not
of a script (usage, faults of reading and writing, a bad recording, a wrong event) are explained as well. The status is
0 where the script is accepted, else 1. For an accepted script it tells what playing it costs at most, and remarks what
is legal and seldom meant.

Nothing is run. Where the rules stand: docs/FORMAT.md; for JSON the definition of the kit's serde_json
(json_places.py), for the shape crates/script_json/specs and crates/script_fields/specs (script_shape.py), for refused
commands `Refusals` and `Outcomes` of crates/page_layers/specs (page_model.py). It needs Python alone.
"""
import argparse
import dataclasses
import sys

sys.dont_write_bytecode = True
import json_places
import page_model
import recording
import script_advice as advice
import script_cost
import script_remarks
import script_shape

MOST_BYTES = 16777216
# How many steps of a path are told after those of a command: no script is deeper.
MOST_STEPS = 6


@dataclasses.dataclass
class Explanation:
    """A fault in words: where it is, what stands there, what is wanted or why it is refused, what to do, and the
    program's line for it."""
    where: str
    at: int | None
    stands: str
    do: str
    line: str
    wanted: str = ""
    why: str = ""

    def lines(self, name, text):
        """The explanation as lines of text."""
        place = ""
        if self.at is not None:
            line, column = json_places.line_and_column(text, self.at)
            place = f"{name}:{line}:{column}: "
        yield place + self.where
        if self.at is not None and text:
            yield from excerpt(text, self.at)
        for told, value in (("stands", self.stands), ("wanted", self.wanted), ("why", self.why), ("do", self.do), ("program", self.line)):
            if value:
                yield f"  {told + ':':9} {value}"


def excerpt(text, at, most=96):
    """The part of a line around a place, with a mark below that place."""
    first = max(text.rfind("\n", 0, at) + 1, at - most // 2)
    last = text.find("\n", at)
    last = min(len(text) if last < 0 else last, first + most)
    yield "    " + text[first:last].replace("\t", " ").rstrip("\r")
    yield "    " + " " * (at - first) + "^"


# Where

def place_told(path, script=None):
    """A path in words: main frame 0, command 5 (insert_item), "colour"."""
    if path[:1] == ("main",) and len(path) > 1:
        told = [f"main frame {path[1]}", *(f"command {it}" for it in path[2:3])]
        rest, depth = path[3:], 3
    elif path[:1] == ("inputs",) and len(path) > 1:
        told, rest, depth = [f"input {path[1]}"], path[2:], 2
    else:
        told, rest, depth = [], path, None
    op = op_at(script, path[:depth]) if depth and len(path) >= depth else None
    if op:
        told[-1] += f" ({op})"
    told += [f'"{it}"' if isinstance(it, str) else f"element {it}" for it in rest[:MOST_STEPS]] + [".."] * (len(rest) > MOST_STEPS)
    return ", ".join(told) or "the top object"


def value_at(script, path):
    """The value that a path leads to."""
    for step in path:
        script = script[step]
    return script


def op_at(script, path):
    """The name of a command or an input."""
    try:
        op = value_at(script, path)["op"]
    except (TypeError, KeyError, IndexError):
        return None
    return op if isinstance(op, str) else None


# The faults

def no_json(text, fault):
    """A text that is no JSON."""
    if text.startswith("cc1\n"):
        return Explanation("this is a recording, and a script is wanted", 0, "cc1", advice.for_json(text, fault), "cc: not JSON")
    if not text.strip():
        where, stands = "the input is empty", ""
    elif text[:1] == "\ufeff":
        where, stands = "the file begins with a byte order mark", "the bytes EF BB BF"
    elif json_places.is_cut(text, fault):
        inside = ", in the string that begins here" if fault.why == json_places.NO_END else ""
        where, stands = f"the text ends inside {place_told(fault.path)}{inside}", ""
    else:
        where, stands = f"not JSON, in {place_told(fault.path)}: {fault.why}", ""
    return Explanation(where, fault.at, stands, advice.for_json(text, fault), "cc: not JSON")


def wrong_shape(text, script, fault):
    """The first fault of shape."""
    is_member = fault.cause in ("form", "op", "further")
    path = fault.path
    span, name_at = json_places.find(text, path)
    at = name_at if fault.cause == "further" else span[0]
    value = value_at(script, path)
    owner = value_at(script, path[:-1]) if is_member and path and isinstance(path[-1], str) else value
    owner = owner if isinstance(owner, dict) else {}
    stands = text[span[0]:span[1]] if is_member else ""
    where = place_told(path, script) + {
        "missing": f': "{fault.name}" is missing', "both": ': "colour" and "pixels" both stand', "draws": ": a draw too many",
        "further": ": no such member", "op": ": no such name", "object": ": no object", "form": ""}[fault.cause]
    wanted = advice.wanted_of(fault, owner) if fault.cause in ("form", "missing") else ""
    return Explanation(where, at, stands if len(stands) <= 96 else stands[:90] + " ..",
                       advice.for_shape(fault, value, owner), fault.line, wanted)


def refused_command(text, script, found):
    """The first command that is refused."""
    number, place, refused = found
    path = ("main", number, place, refused.field)
    span, _ = json_places.find(text, path)
    return Explanation(f"{place_told(path, script)}: {refused.fault}", span[0], text[span[0]:span[1]], refused.do,
                       f"cc: script: frame {number} command {place}: {refused.fault}", why=refused.told)


def explanation(data):
    """The first fault of bytes that are to be a script, with the text; or the script, where it is accepted."""
    if len(data) > MOST_BYTES:
        where = f"the script has {len(data)} bytes"
        return "", None, Explanation(where, None, "", OTHER_LINES["cc: too long"], f"cc: too long, limit {MOST_BYTES}")
    text = data.decode("utf-8", "replace")
    try:
        text = json_places.text_of(data)
        script = json_places.read(text)
    except json_places.NotJson as fault:
        return text, None, no_json(text, fault)
    fault = script_shape.first_fault(script)
    if fault:
        return text, None, wrong_shape(text, script, fault)
    found = page_model.refusal(script)
    return text, script, refused_command(text, script, found) if found else None


# The program's other lines

OTHER_LINES = {
    "cc: usage: word ": "the words fit no use, and the one with this number, from 0, is the first that does not fit: write "
                        "cc_player step 1 < SCRIPT > RECORDING; cc_player --help lists the uses. The script comes on standard input",
    "cc: read fault": "standard input could not be read: is it open, and a file or a pipe?",
    "cc: write fault": "standard output could not be written: is the disk full, or did the reader of the pipe end?",
    "cc: too long": "a script has at most 16777216 bytes, the recording that frames and check read at most 268435456",
    "cc: out of memory": "there was no memory: play a script with a smaller view, fewer layers or a smaller budget",
    "cc: no picture": "no draw of the script gave a picture: leave its inputs out, or await a main frame before the last draw",
    "cc: event ": "the recording has this form and tells something that may not come: tools/judge.py RECORDING says what",
}


def recording_told(name, data, line):
    """What is wrong with an input that is to be a recording."""
    if data[:4] != b"cc1\n" and data.lstrip()[:1] in (b"{", b"["):
        yield f"{name}: this is a script, and a recording is wanted"
        yield f"  {'do:':9} play it first: cc_player step 1 < {name} > RECORDING"
    else:
        yield f"{name}: {recording.first_fault(data) or 'a recording, whose form is right'}"
        yield f"  {'do:':9} take the file as the program wrote it: nothing may be changed in a recording or cut from it"
    yield f"  {'program:':9} {line}"


def told(name, data, line):
    """The lines that explain an input, and whether it is accepted."""
    if line and line.startswith("cc: bad recording"):
        return [*recording_told(name, data, line)], False
    for begins, does in OTHER_LINES.items():
        if line and line.startswith(begins):
            return [line, f"  {'do:':9} {does}"], False
    text, script, found = explanation(data)
    lines = [*found.lines(name, text)] if found else [
        f"{name}: accepted: {script_remarks.size_told(script)}", script_cost.told(script), *script_remarks.told(script)]
    if line and line != (found.line if found else ""):
        lines.append(f"  The line that was given is another one: {line}. Is it of this script, as it stands now?")
    return lines, not found


def main():
    words = argparse.ArgumentParser(description=__doc__, formatter_class=argparse.RawDescriptionHelpFormatter)
    words.add_argument("script")
    words.add_argument("line", nargs="?", default="")
    words = words.parse_args()
    try:
        data = bytes(recording.opened(words.script))
    except recording.Trouble as fault:
        sys.exit(f"explain: {fault}")
    lines, is_accepted = told("standard input" if words.script == "-" else words.script, data, words.line.strip())
    print("\n".join(lines))
    return 0 if is_accepted else 1


if __name__ == "__main__":
    sys.exit(main())

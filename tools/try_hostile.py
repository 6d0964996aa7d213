#!/usr/bin/env python3
"""Tries what is made to harm those who read it: texts that are no scripts, recordings, sessions, and what the tools in
Python read. bench/worst and try_worst.py have the scripts that are accepted.

usage: tools/try_hostile.py [--large] [--measure] [PROGRAM]

PROGRAM is crates/cc_player/out/cc_player, which the gate and `rt run` build. Each input is as large as the program
takes (16 MiB of script, 256 MiB of recording with --large, else 32), has its answer, and bounds of memory and of
processor seconds, by which a reader is told that looks again at what it has read. --measure prints what each took.
"""
import argparse
import contextlib
import os
import pathlib
import re
import subprocess
import sys
import tempfile
import threading
import time
import zlib

sys.dont_write_bytecode = True
import explain
import png_chunks
import recording
from built import PROVED
from limited import MIB, run, slowness, started, wait_until_asleep
from tally import Tally

ROOT = pathlib.Path(__file__).resolve().parent.parent
FIRST = ROOT / "crates" / "cc_player" / "stdout"
MOST_SCRIPT = 16 * MIB
# Bounds of memory in MiB, and of processor seconds. The JSON value of a text takes 20 times its bytes, and a list as much
# again while it grows.
TEXT_MEMORY, TEXT_SECONDS = 800, 6
FLOOR, RECORDING_SECONDS = 40, 6
SESSION_MEMORY, PATIENCE = 96, 120
# The part of a text that the tools in Python are given: they read a hundred times slower.
SHARE = 64
TALLY = Tally("try_hostile", 400)
check = TALLY.check


def written(path, *parts):
    """A file of parts, each bytes and how often they stand there."""
    with open(path, "wb") as file:
        for part, times in parts:
            while times:
                now = min(times, max(1, MIB // len(part)))
                file.write(part * now)
                times -= now
    return path


# Texts that are no scripts

BEGIN = b'{"version":2,"viewport":[1,1],"tile":16,"background":"000000","budget":0,"raster_per_frame":0,"soon":0,"eventually":0,"priority":"same",'


def no_scripts():
    """What is wrong, the parts of the text, and what `step` says of it."""
    most = MOST_SCRIPT
    yield "open brackets", [(b"[", most)], "cc: not JSON"
    yield "open braces", [(b'{"":', most // 4)], "cc: not JSON"
    yield "digits", [(b"1", most)], "cc: not JSON"
    yield "digits after a point", [(b"0.", 1), (b"1", most - 2)], "cc: shape: list 0 index 0 field 0"
    yield "blanks", [(b" ", most)], "cc: not JSON"
    yield "a text without an end", [(b'"', 1), (b"a", most - 1)], "cc: not JSON"
    yield "escapes", [(b'"', 1), (b"\\u00e9", most // 6 - 1), (b'"', 1)], "cc: shape: list 0 index 0 field 0"
    yield "one name again and again", [(b"{", 1), (b'"a":0,', most // 6 - 2), (b'"a":0}', 1)], "cc: shape: list 0 index 0 field 1"
    yield "empty lists", [(b"[", 1), (b"[],", most // 3 - 2), (b"[]]", 1)], "cc: shape: list 0 index 0 field 0"
    yield "inputs that are too many", [(BEGIN + b'"main":[],"inputs":[', 1), (b"0,", most // 2 - 200), (b"0]}", 1)], "cc: shape: list 0 index 0 field 11"
    yield "a main frame of numbers", [(BEGIN + b'"inputs":[],"main":[[', 1), (b"0,", most // 2 - 200), (b"0]]}", 1)], "cc: shape: list 2 index 0 field 0"
    yield "too long by one", [(b" ", most + 1)], "cc: too long, limit 16777216"


def try_texts(program, folder, factor, is_measured):
    """Each text by `step`: its line, within the memory that its JSON value takes."""
    for what, parts, wanted in no_scripts():
        done = run([program, "step", "1"], written(folder / "text", *parts), TEXT_MEMORY)
        is_within = done.memory <= TEXT_MEMORY and done.seconds <= TEXT_SECONDS * factor
        check(f"a text, {what}", done.notes == wanted and not done.size and is_within, f"{done.status} {done.notes}, {done.told()}")
        if is_measured:
            print(f"a text, {what}: {done.told()}", flush=True)


# Recordings

def no_recordings(first, size):
    """What a recording has, its parts, what `frames` and `check` say of it, and how many times its bytes they may hold.
    A list is read into 16 bytes a key or 24 a move, and copied where it grows; all else is looked at where it stands."""
    head = first[:first.index(b"\n", 4) + 1]
    at = len(head)
    image, keys = first[first.index(b"P6\n"):first.index(b"finish\nend\n")], b" 1/0/0/0"
    bad = lambda place: (f"cc: bad recording at {place}",) * 2
    yield "no end of its second line", [(b"cc1\n", 1), (b"a", size)], bad(4), 2
    yield "open brackets", [(b"cc1\n", 1), (b"[", MOST_SCRIPT), (b"\nend\n", 1)], bad(4), 2
    yield "one word again and again", [(head, 1), (b"finish\n", size // 7), (b"end\n", 1)], ("", "cc: event 0 is wrong"), 2
    yield "awaits", [(head, 1), (b"await 0\n", size // 8), (b"end\n", 1)], ("", "cc: event 0 is wrong"), 2
    yield "awaits without an end", [(head, 1), (b"await 0\n", size // 8)], bad(at + size // 8 * 8), 2
    yield "a line without an end", [(head, 1), (b"draw 1", 1), (keys, size // 8)], bad(at), 6
    yield "a draw that lacks everything", [(head, 1), (b"draw 1", 1), (keys, size // 8), (b"\n" + image + b"end\n", 1)], ("", "cc: event 0 is wrong"), 9
    yield "evicted tiles", [(head, 1), (b"start 0 1/0/0/0", 1), (keys, size // 8), (b"\nend\n", 1)], ("", "cc: event 0 is wrong"), 9
    yield "moves", [(head, 1), (b"begin -\nsend 0", 1), (b" 1:0,0", size // 6), (b"\nend\n", 1)], ("", "cc: event 1 is wrong"), 11
    yield "digits", [(head, 1), (b"await ", 1), (b"1", size), (b"\nend\n", 1)], bad(at), 2
    yield "draws", [(head, 1), (b"draw 1\n" + image, size // (7 + len(image))), (b"end\n", 1)], ("", "cc: event 0 is wrong"), 3
    yield "bytes after its end", [(first, 1), (b"\0", size)], bad(len(first)), 2


def try_large_recordings(program, folder, first, size, factor, is_measured):
    """Each recording by `frames` and by `check`: its line, within the memory that its bytes take and some more."""
    for what, parts, wanted, times in no_recordings(first, size):
        path, most = written(folder / "recording", *parts), times * size // MIB + FLOOR
        for word, line in zip(("frames", "check"), wanted):
            done = run([program, word], path, most)
            is_within = done.memory <= most and done.seconds <= RECORDING_SECONDS * factor * max(1, size // (32 * MIB))
            check(f"{word}, {what}", done.notes == line and is_within, f"{done.status} {done.notes}, {done.told()} of {most}")
            if is_measured:
                print(f"{word}, {what}: {done.told()}", flush=True)


def try_cut(program, folder, first):
    """A recording that is cut after any byte is bad where the tool in Python finds it bad."""
    for size in range(0, len(first), 5):
        path = written(folder / "cut", (first[:size], 1)) if size else folder / "empty"
        path.touch()
        fault = recording.first_fault(first[:size])
        done = run([program, "frames"], path, FLOOR)
        check(f"frames, cut at {size}", fault.startswith(done.notes.removeprefix("cc: ") + ":"), f"{done.notes}, {fault}")


# Sessions

def session(program, workers, memory=SESSION_MEMORY):
    """A server, with pipes on both sides."""
    return started([program, "serve", str(workers)], memory, stdin=subprocess.PIPE, stderr=subprocess.DEVNULL, bufsize=0)


def ended(server, what):
    """The status of a server that has to end by itself soon."""
    try:
        return server.wait(PATIENCE)
    except subprocess.TimeoutExpired:
        server.kill()
        server.wait()
        return f"no end: {what}"


def byte_by_byte(program, size):
    """A line that comes a byte at a time is answered once it is whole; what has come is not read again at each byte."""
    line = BEGIN + b'"main":[],"inputs":[]' + b" " * (size - len(BEGIN) - 23) + b"}\n"
    server = session(program, 1)
    began = time.process_time()
    for at in range(len(line)):
        os.write(server.stdin.fileno(), line[at:at + 1])
    took = time.process_time() - began
    answer = os.read(server.stdout.fileno(), MIB)
    server.stdin.close()
    while piece := os.read(server.stdout.fileno(), MIB):
        answer += piece
    status = ended(server, "a line byte by byte")
    check("a line byte by byte", status == 0 and answer.endswith(b"ok 0\n"), f"{status}, {answer[-100:]!r}")
    return took


def reads_nothing(program, script):
    """A client that writes lines and reads no answer: the server waits, and holds no more than it may. It ends once the
    client goes away."""
    server = session(program, 4)
    fed = threading.Thread(target=feed, args=(server.stdin, script + b"\n"), daemon=True)
    fed.start()
    check("a client that reads nothing: the server sleeps", wait_until_asleep(server.pid, looks=100))
    most = int(pathlib.Path(f"/proc/{server.pid}/status").read_text().split("VmHWM:")[1].split()[0]) // 1024
    check("a client that reads nothing: memory", most <= SESSION_MEMORY, f"{most} MiB")
    server.stdout.close()
    status = ended(server, "a client that reads nothing")
    check("a client that reads nothing goes away", status == 7, status)
    return most


def feed(pipe, line):
    """Writes a line again and again, until nobody takes it."""
    with contextlib.suppress(OSError, ValueError):
        while True:
            pipe.write(line)


def goes_away(program, script):
    """Clients that go away: in the middle of a line, of an answer, and before they read any."""
    server = session(program, 1)
    server.stdin.write(script[:len(script) // 2])
    server.stdin.close()
    answer = server.stdout.read()
    check("a client goes away in a line", ended(server, "half a line") == 0 and answer == b"no 0 3: cc: not JSON\n", answer[:100])
    for what, read in (("in an answer", 10), ("before it reads", 0)):
        server = session(program, 4)
        server.stdin.write(script + b"\n")
        if read:
            os.read(server.stdout.fileno(), read)
        server.stdout.close()
        with contextlib.suppress(OSError):
            server.stdin.write(script + b"\n")
            server.stdin.close()
        status = ended(server, what)
        check(f"a client goes away {what}", status == 7, status)


def try_sessions(program, is_large, is_measured):
    """All of these, with a page of 3 MiB a picture, more than pipes hold."""
    script = (ROOT / "examples" / "first.json").read_bytes().replace(b"\n", b" ")
    large = re.sub(rb'"viewport": *\[[^]]*\]', b'"viewport":[1024,1024]', script)
    took = byte_by_byte(program, MOST_SCRIPT if is_large else MIB)
    most = reads_nothing(program, large)
    goes_away(program, large)
    if is_measured:
        print(f"serve: a line byte by byte {took:.2f} s of the client, a client that reads nothing {most} MiB", flush=True)


# What the tools in Python read

def try_explained(is_measured):
    """explain.py finds a fault in a part of each text, tells it in a few lines, and ends soon."""
    for what, parts, wanted in no_scripts():
        began = time.process_time()
        text, _, found = explain.explanation(b"".join(part * -(-times // SHARE) for part, times in parts))
        lines = [*found.lines("text", text)]
        took = time.process_time() - began
        is_short = len(lines) < 9 and all(len(line) < 400 for line in lines)
        check(f"explain.py, {what}", is_short and found.line.startswith("cc: ") and took < TEXT_SECONDS, f"{found.line}, {took:.2f} s")
        if is_measured:
            print(f"explain.py, {what}, a part of it: {took:.2f} s", flush=True)


def png(rows, width=1, height=1):
    """A PNG file whose rows are these bytes."""
    return recording.png.head(width, height, 3) + recording.png.chunk(b"IDAT", zlib.compress(rows, 9)) + recording.png.chunk(b"IEND", b"")


def try_png():
    """png_chunks.py, which reads what `shot` writes: a file that is cut, one that claims more than it has, and one whose
    few bytes are a gigabyte of rows end with a ValueError, and at once."""
    whole = png(bytes(4))
    check("a picture", png_chunks.picture_of(whole) == (1, 1, bytes(3)))
    faults = [("cut", whole[:size]) for size in range(8, len(whole))]
    faults += [("rows without end", png(bytes(64 * MIB))), ("a side of nothing", png(bytes(4), 0)), ("sides beyond all", png(bytes(4), 2 ** 31, 2 ** 31))]
    for what, file in faults:
        try:
            png_chunks.picture_of(file)
            told = "a picture"
        except ValueError as fault:
            told = str(fault)
        check(f"a PNG file, {what}", told != "a picture", f"{len(file)} bytes")


VIEWER = ROOT / "tools" / "viewer.html"
# What would make text of a recording part of the page, or run it.
RUNS = "innerHTML", "outerHTML", "insertAdjacentHTML", "document.write", "eval(", "Function(", "srcdoc", "javascript:", "setTimeout(\""


def try_viewer():
    """The viewer puts what it has of a recording, and of its name, into the page as text alone."""
    page = VIEWER.read_text()
    for way in RUNS:
        check(f"viewer.html has no {way}", way not in page)


def main():
    words = argparse.ArgumentParser(description=__doc__, formatter_class=argparse.RawDescriptionHelpFormatter)
    words.add_argument("program", nargs="?", default=str(PROVED))
    words.add_argument("--large", action="store_true")
    words.add_argument("--measure", action="store_true")
    words = words.parse_args()
    factor, first = slowness(), FIRST.read_bytes()
    with tempfile.TemporaryDirectory() as made:
        folder = pathlib.Path(made)
        try_texts(words.program, folder, factor, words.measure)
        try_large_recordings(words.program, folder, first, (255 if words.large else 32) * MIB, factor, words.measure)
        try_cut(words.program, folder, first)
    try_sessions(words.program, words.large, words.measure)
    try_png()
    try_viewer()
    try_explained(words.measure)
    return TALLY.status()


if __name__ == "__main__":
    sys.exit(main())

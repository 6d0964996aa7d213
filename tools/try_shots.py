#!/usr/bin/env python3
"""Holds the PNG files of `shot` against the pictures of `step` and `frames`, by Python's zlib.

usage: tools/try_shots.py [PROGRAM]      (crates/cc_player/out/cc_player, which the gate and `rt run` build)

Each script of examples/ and docs/tutorial/ and ten that the program makes itself are played as they stand, and without
their inputs, where the picture has to be that of an await of the last main frame, a settle and a draw. The file is to
be the same for 1 and 4 raster workers.
"""
import json
import pathlib
import subprocess
import sys

sys.dont_write_bytecode = True
from built import PROVED
from png_chunks import chunks_of, picture_of
from script_cost import shot_of

ROOT = pathlib.Path(__file__).resolve().parent.parent
NO_PICTURE = (12, b"", b"cc: no picture\n")


def run(program, words, given=b""):
    """The status of a run, what it wrote, and its notes."""
    done = subprocess.run([program, *words.split()], input=given, capture_output=True, timeout=120)
    return done.returncode, done.stdout, done.stderr


def last_image(images):
    """The last of some raw portable pixmaps, or None."""
    last = None
    while images:
        head = images.index(b"\n255\n") + 5
        width, height = map(int, images[3:head - 5].split())
        last, images = images[:head + 3 * width * height], images[head + 3 * width * height:]
    return last


def image_of(file):
    """The picture of a PNG file as a raw portable pixmap. The file has one chunk of data, and eight bits a colour."""
    parts = list(chunks_of(file))
    form = parts[0][1][8:]
    if [kind for kind, _ in parts] != [b"IHDR", b"IDAT", b"IEND"] or form != bytes([8, 2, 0, 0, 0]):
        raise ValueError("another kind of file")
    return b"P6\n%d %d\n255\n%b" % picture_of(file)


def is_right(program, script, played):
    """Whether the shots of a script show the last picture of the one that is to be played for it."""
    shots = [run(program, f"shot {workers}", script) for workers in (1, 4)]
    want = last_image(run(program, "frames", run(program, "step 1", played)[1])[1])
    if shots[0] != shots[1] or want is None:
        return shots[0] == shots[1] == NO_PICTURE
    return shots[0][0] == 0 and image_of(shots[0][1]) == want


def main():
    program = sys.argv[1] if len(sys.argv) > 1 else PROVED
    scripts = {path.name: path.read_bytes() for path in sorted([*ROOT.glob("examples/*.json"), *ROOT.glob("docs/tutorial/*.json")])}
    scripts |= {f"gen {number}": run(program, f"gen {number}")[1] for number in range(10)}
    wrong = []
    for name, script in scripts.items():
        page = json.loads(script)
        bare, asked = (json.dumps(played).encode() for played in (page | {"inputs": []}, shot_of(page)))
        wrong += [name] * (not is_right(program, script, script if page["inputs"] else asked))
        wrong += [f"{name} without inputs"] * (not is_right(program, bare, asked))
    print(f"try_shots: {2 * len(scripts)} pictures, {len(wrong)} wrong", *wrong, sep="\n  " if wrong else " ")
    sys.exit(bool(wrong))


if __name__ == "__main__":
    main()

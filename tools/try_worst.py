#!/usr/bin/env python3
"""Plays the scripts of bench/worst, each made to cost much of one thing, and fails if one takes more memory or time
than it may.

usage: tools/try_worst.py [--large] [--measure] [--only NAME] [PROGRAM]

PROGRAM is crates/cc_player/out/cc_player, which the gate and `rt run` build. Each script is played by `step 1`, `step 4`
and `play 4`, and nothing is read of what is written until all threads of the program sleep or it has ended. A run has to
end well within its bounds: in address space, of which the system grants no more, so that a run which asks for it
ends with status 11; in resident memory; and in processor seconds of all threads. --large takes the large size, which
the gate does not (minutes, and 2 GiB); --measure prints what each run took.
"""
import argparse
import dataclasses
import pathlib
import subprocess
import sys
import tempfile

sys.dont_write_bytecode = True
from built import PROVED
from limited import run, slowness
from tally import Tally

ROOT = pathlib.Path(__file__).resolve().parent.parent
SCRIPTS = ROOT / "bench" / "worst" / "scripts.py"
WORDS = "step 1", "step 4", "play 4"
TALLY = Tally("try_worst")


@dataclasses.dataclass(frozen=True)
class Most:
    """What runs of a script with these numbers may take: MiB by each of the words, and processor seconds by any."""
    numbers: tuple
    memory: tuple
    seconds: float


FEW = (40, 40, 40)
# Small, which the gate plays, and large. The bounds are what was measured and half as much again, and three times the
# seconds. Those with a comment grow without a bound of the product; all others stay below 64 MiB and four times
# the bytes of their page, their tiles and one picture.
BOUNDS = {
    "missing_lists": (Most((16, 1024, 60), (40, 96, 140), 2.5), Most((16, 1024, 300), (40, 140, 140), 6)),
    # `play` goes on until 256 MiB wait for its reader: here tiles, 4 MiB for each picture of one pixel.
    "slow_reader_tiles": (Most((16, 160), (40, 240, 520), 3), Most((16, 500), (40, 240, 600), 9)),
    # An await is written main frame by main frame. With `play` its lines wait for their reader.
    "await_frames": (Most((80, 1024), (24, 28, 36), 4), Most((600, 1024), (18, 24, 150), 40)),
    # A tile keeps the list of items that it was made of: 10 KiB for each tile of a layer of 256 items.
    "list_versions": (Most((16, 60), (96, 128, 128), 5), Most((64, 200), (600, 800, 800), 60)),
    # A stamp of four bytes a place, in three trees: 12 MiB a layer of a million places.
    "stamps_retiled": (Most((8, 6), (100, 100, 100), 1), Most((32, 10), (600, 600, 600), 6)),
    "sends_copied": (Most((600,), FEW, 1.5), Most((4096,), FEW, 8)),
    "ranks_rebuild": (Most((8, 512, 8), FEW, 1), Most((16, 1024, 20), (64, 200, 120), 6)),
    "budget_zero": (Most((2, 512, 8), FEW, 1), Most((4, 1024, 20), (64, 96, 96), 5)),
    "layers_items": (Most((16, 512, 2), FEW, 5), Most((64, 1024, 3), (200, 200, 200), 30)),
    "required_scan": (Most((16, 512), FEW, 1.5), Most((32, 1024), (100, 100, 100), 30)),
    "cull_quadratic": (Most((32, 512, 3), (48, 64, 64), 1.5), Most((64, 1024, 4), (200, 250, 250), 12)),
    "same_draws": (Most((1024, 2, 6), (40, 48, 56), 0.8), Most((1024, 4, 20), (64, 96, 120), 3)),
    "nested_groups": (Most((64, 512, 4), FEW, 1), Most((256, 2048, 8), (64, 120, 120), 12)),
    "deep_chains": (Most((64, 64, 20, 256), FEW, 1.2), Most((64, 64, 40, 256), FEW, 2)),
    "one_frame_items": (Most((40000, 1000), FEW, 1.2), Most((100000, 180000), (120, 120, 120), 8)),
    "wheel_collisions": (Most((200, 64), FEW, 0.8), Most((2000, 64), FEW, 5)),
    "unknown_scrollers": (Most((8000,), FEW, 0.5), Most((30000,), FEW, 1)),
    "wide_rects": (Most((100,), FEW, 0.8), Most((2000,), FEW, 8)),
    "strips_quads": (Most((8, 512, 2), FEW, 2.5), Most((32, 1024, 3), (64, 96, 96), 30)),
    "one_pixel_frames": (Most((8, 512, 10), FEW, 0.8), Most((64, 1024, 10), (120, 160, 160), 8)),
}


def script_file(folder, name, numbers):
    """A file with a script, which another process makes, so that this one stays small."""
    path = pathlib.Path(folder) / f"{name}.json"
    with open(path, "wb") as file:
        subprocess.run([sys.executable, SCRIPTS, name, *map(str, numbers)], stdout=file, check=True)
    return path


def try_script(program, name, most, factor, is_measured):
    """A script by all words."""
    with tempfile.TemporaryDirectory() as folder:
        path = script_file(folder, name, most.numbers)
        for words, memory in zip(WORDS, most.memory):
            done = run([program, *words.split()], path, memory, is_read_late=True)
            is_within = done.memory <= memory and done.seconds <= most.seconds * factor
            told = (f"{name} {' '.join(map(str, most.numbers))}, {words}: {done.memory} MiB of {memory}, "
                    f"{done.seconds:.2f} s of {most.seconds * factor:.2f}")
            TALLY.check(told, done.status == 0 and is_within, f"status {done.status} {done.notes}")
            if is_measured:
                print(told, done.notes, flush=True)


def main():
    words = argparse.ArgumentParser(description=__doc__, formatter_class=argparse.RawDescriptionHelpFormatter)
    words.add_argument("program", nargs="?", default=str(PROVED))
    words.add_argument("--large", action="store_true")
    words.add_argument("--measure", action="store_true")
    words.add_argument("--only", metavar="NAME", default="")
    words = words.parse_args()
    factor = slowness()
    for name, sizes in BOUNDS.items():
        if words.only in name:
            try_script(words.program, name, sizes[words.large], factor, words.measure)
    return TALLY.status()


if __name__ == "__main__":
    sys.exit(main())

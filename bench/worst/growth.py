#!/usr/bin/env python3
"""Measures how the cost of each call grows with what it depends on: what stands in docs/COSTS.md.

usage: bench/worst/growth.py [--instructions] [--only WORD] [--beside PROGRAM] [PROGRAM]      (build/cc_player)

For each line two scripts are played at three sizes, which differ in how often the call is made; the difference of
their costs, for one call, is printed, and the exponent by which it grows from the first size to the last: 1 is linear.
Costs are processor seconds, the least of three runs in turn, or with --instructions what valgrind counts, which
a busy machine doesn't change (and which takes 50 times as long). --beside measures another program in turn.
"""
import argparse
import dataclasses
import json
import math
import pathlib
import re
import subprocess
import sys
import tempfile
from collections.abc import Callable

sys.dont_write_bytecode = True
HERE = pathlib.Path(__file__).resolve().parent
sys.path.insert(0, str(HERE.parent))
import scripts
from scripts import DRAW, SETTLE, item, layer, rolling, script, scroll, until
from timing import least_seconds


@dataclasses.dataclass(frozen=True)
class Line:
    """A call, what its cost depends on, the script that makes it so often at a size, three sizes, how much there is
    at a size of what it depends on, and how often it is made."""
    call: str
    grows: str
    make: Callable[[int, int], dict]
    sizes: tuple
    amount: Callable[[int], int] = lambda size: size
    times: int = 20
    words: str = "step 1"


def tiles(side):
    """How many tiles of 16 a layer of this side has."""
    return (side // 16) ** 2


def idle_scrollers(count, times):
    """Scrolls of one of many scrollers."""
    frame = [{"op": "add_scroller", "id": node, "parent": 0, "max_x": 0, "max_y": 9999} for node in range(1, count + 1)]
    return script([frame + [layer(1, 1, 1)]], [until(0)] + [scroll(0, 1, count)] * times, 1)


def chain_wheels(count, times):
    """Wheels that move each scroller of a chain."""
    frame = [{"op": "add_scroller", "id": node, "parent": node - 1, "max_x": 0, "max_y": 1} for node in range(1, count + 1)]
    frame += [{"op": "add_transform", "id": 1, "parent": 0, "x": 0, "y": 0, "scroller": count}, layer(1, 16, 16, 1)]
    wheel = lambda turn: {"op": "wheel", "x": 0, "y": 0, "dx": 0, "dy": -count if turn % 2 else count}
    return script([frame], [until(0)] + [wheel(turn) for turn in range(times)], 1)


def still_draws(side, times):
    """Draws of a page that stays."""
    return script([[layer(1, side, side)]], [until(0)] + [DRAW] * times, side)


def moved_draws(side, times):
    """Draws of a page after a scroll by nothing."""
    return script([[layer(1, side, side)]], [until(0)] + [scroll(0, 0), DRAW] * times, side)


def settled(side, times):
    """Settles, each of which makes all tiles of a layer that has just been added, and removes it."""
    frames = [[layer(1, 1, 1)]]
    for turn in range(times):
        frames.append([layer(2 + turn, side, side, at=1)] + [{"op": "remove_layer", "id": 1 + turn}] * (turn > 0))
    return script(frames, [until(turn) for turn in range(times + 1)], side)


def items_made(count, times):
    """Frames that make a tile of 256 by 256 anew with so many items that lie over each other."""
    first = [layer(1, 256, 256)] + [item(1, at, [at, at, 256 - at, 256 - at], scripts.FAINT) for at in range(count)]
    change = lambda turn: [item(1, 0, [0, 0, 256, 256], f"0102{turn % 4:02x}04", "replace_item")]
    return script([first] + [change(turn) for turn in range(times)], [until(turn) for turn in range(times + 1)], 1, tile=256)


def of(name, numbers):
    """A script of that name, by its numbers for a size and how often the call is made."""
    return lambda size, times: scripts.SCRIPTS[name](*numbers(size, times))


LINES = [
    Line("`scroll`", "scrollers", idle_scrollers, (64, 128, 256), times=4000),
    Line("`wheel`", "scrollers that move", chain_wheels, (64, 128, 256), times=2000),
    Line("`wheel`", "depth of chains", lambda size, times: scripts.wheel_collisions(times, size), (16, 32, 64), times=200),
    Line("`draw` after a scroll", "visible tiles", moved_draws, (256, 512, 1024), tiles),
    Line("`draw` again", "visible tiles", still_draws, (256, 512, 1024), tiles),
    Line("`start` and `done`", "tiles of the page", settled, (256, 512, 1024), tiles, 4),
    Line("`done`", "depth of chains", of("deep_chains", lambda size, times: (16, 64, times, size)), (64, 128, 256)),
    Line("`start`, all evicted", "tiles evicted", of("budget_zero", lambda size, times: (1, size, times)), (256, 512, 1024), tiles, 6),
    Line("`upcoming` (`step 4`)", "tiles near", of("ranks_rebuild", lambda size, times: (size, 256, times)), (4, 8, 16), times=8, words="step 4"),
    Line("a main frame, to its activation", "visible tiles", of("one_pixel_frames", lambda size, times: (1, size, times + 1)), (256, 512, 1024), tiles),
    Line("a main frame", "its rects", of("one_frame_items", lambda size, times: (size * times, 0)), (5000, 10000, 20000), times=2),
    Line("`commit`", "rects, each on a million places", of("wide_rects", lambda size, times: (size * times,)), (50, 100, 200), times=2),
    Line("an activation that waits", "tiles needed", of("required_scan", lambda size, times: (size if times > 1 else 2, 256)), (8, 16, 32), lambda size: 256 * size, 1),
    Line("a tile of 256 by 256", "its items", items_made, (64, 128, 255), times=10),
    Line("a picture", "quads, and opaque rects", of("cull_quadratic", lambda size, times: (size, 512, times)), (16, 32, 64), times=3),
    Line("a picture", "depth of groups", of("nested_groups", lambda size, times: (size, 256, times)), (64, 128, 256), times=4),
    Line("a picture of 256 groups", "quads", of("strips_quads", lambda size, times: (size, 256, times)), (9, 17, 33), lambda size: size - 1, 3),
]


def instructions(program, text, words):
    """The instructions of a run."""
    with tempfile.TemporaryDirectory() as folder:
        command = ["valgrind", "--tool=callgrind", f"--callgrind-out-file={folder}/out", program, *words.split()]
        done = subprocess.run(command, input=text, stdout=subprocess.DEVNULL, stderr=subprocess.PIPE)
        if done.returncode:
            sys.exit(f"growth.py: {done.stderr[-300:]}")
        return int(re.search(r"^(?:summary|totals): (\d+)", (pathlib.Path(folder) / "out").read_text(), re.M)[1])


def cost(program, line, size, is_counted):
    """What one call costs at a size."""
    texts = [json.dumps(line.make(size, times), separators=(",", ":")).encode() for times in (1, 1 + line.times)]
    if is_counted:
        less, more = (instructions(program, text, line.words) for text in texts)
    else:
        less, more = (least_seconds(program, text, 3, line.words.split()) for text in texts)
    return max(more - less, 1e-9) / line.times


def exponent(line, costs):
    """By which power the cost grows with what it depends on, from the first size to the last."""
    return math.log(costs[-1] / costs[0]) / math.log(line.amount(line.sizes[-1]) / line.amount(line.sizes[0]))


def told(value, is_counted):
    """A cost: millions of instructions, or milliseconds."""
    return f"{value / 1e6:.3f} M" if is_counted else f"{1000 * value:.3f} ms"


def main():
    words = argparse.ArgumentParser(description=__doc__, formatter_class=argparse.RawDescriptionHelpFormatter)
    words.add_argument("program", nargs="?", default="build/cc_player")
    words.add_argument("--instructions", action="store_true")
    words.add_argument("--only", default="")
    words.add_argument("--beside")
    words = words.parse_args()
    programs = [it for it in (words.program, words.beside) if it]
    print("| What | Grows with | Sizes |" + "".join(f" {pathlib.Path(it).name}: one, exponent |" for it in programs))
    print("|---|---|---|" + "---|" * len(programs))
    for line in LINES:
        if words.only not in line.call + line.grows:
            continue
        amounts = [line.amount(size) for size in line.sizes]
        row = f"| {line.call} | {line.grows} | {', '.join(map(str, amounts))} |"
        costs = {it: [] for it in programs}
        for size in line.sizes:
            for program in programs:
                costs[program].append(cost(program, line, size, words.instructions))
        for program in programs:
            row += f" {', '.join(told(it, words.instructions) for it in costs[program])}; {exponent(line, costs[program]):.1f} |"
        print(row, flush=True)


if __name__ == "__main__":
    main()

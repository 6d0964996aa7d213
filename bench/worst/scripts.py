#!/usr/bin/env python3
"""Scripts that every word accepts, each made to cost much of one thing.

usage: bench/worst/scripts.py NAME [NUMBER ..]      prints a script; without numbers the small one
       bench/worst/scripts.py                       lists the names with their numbers: small, large, full

A name is a function below, whose arguments the numbers are. *Small* is played by the gate
(tools/try_worst.py), *large* by hand (tools/try_worst.py --large), *full* is as much as the limits of a script allow.
docs/COSTS.md tells what each costs.
"""
import inspect
import json
import signal
import sys

CLEAR, OPAQUE, FAINT = "00000000", "ffffffff", "01020304"


def script(main, inputs, side, **more):
    """A script with a viewport of this side. Nothing is made ahead unless `more` says so."""
    head = {"version": 2, "viewport": [side, side], "tile": 16, "background": "000000", "budget": 0,
            "raster_per_frame": 4096, "soon": 0, "eventually": 0, "priority": "same"}
    return {**head, **more, "main": main, "inputs": inputs}


def layer(number, width, height, transform=0, **more):
    """Adds a layer before all that have a higher number."""
    return {"op": "add_layer", "id": number, "at": number - 1, "transform": transform, "clip": 0, "effect": 0,
            "w": width, "h": height, "colour": CLEAR, **more}


def item(number, at, rect, paint, op="insert_item"):
    """An item of one colour, or of pixels if the paint is longer."""
    return {"op": op, "layer": number, "at": at, "rect": rect, "colour" if len(paint) == 8 else "pixels": paint}


def rolling(across, down, x=0, y=0):
    """A scroller of this range, and a transform that follows it."""
    return [{"op": "add_scroller", "id": 1, "parent": 0, "max_x": across, "max_y": down},
            {"op": "add_transform", "id": 1, "parent": 0, "x": x, "y": y, "scroller": 1}]


def scroll(across, down, scroller=1):
    return {"op": "scroll", "scroller": scroller, "dx": across, "dy": down}


def until(frame):
    return {"op": "await", "frame": frame}


DRAW, SETTLE = {"op": "draw"}, {"op": "settle"}


def each_awaited(frames):
    """Each main frame awaited by an input of its own, and a draw."""
    return [until(number) for number in range(frames)] + [DRAW]


# What is held

def missing_lists(layers, side, draws):
    """Draws that list every visible tile as missing: 16 bytes a key in each event."""
    far = side + 600
    frame = rolling(0, far, y=far) + [layer(number, side, side, 1, colour=OPAQUE) for number in range(1, layers + 1)]
    return script([frame], [until(0), scroll(0, far)] + [DRAW] * draws, side, raster_per_frame=0)


def slow_reader_tiles(layers, frames):
    """Pictures of one pixel, each of which shows tiles of 256 KiB that no other picture shows. They wait to be painted
    and written while nobody reads what `play` writes."""
    column = "".join(f"{row % 128:02x}00ffff" for row in range(256))
    first = []
    for number in range(1, layers + 1):
        first += [layer(number, 256, 256), item(number, 0, [0, 0, 256, 256], "00000080"),
                  item(number, 1, [100, 0, 1, 256], column)]
    change = lambda turn: [item(number, 0, [0, 0, 256, 256], f"0000{turn % 128:02x}80", "replace_item")
                           for number in range(1, layers + 1)]
    inputs = [it for number in range(frames) for it in (until(number), DRAW)]
    return script([first] + [change(turn) for turn in range(1, frames)], inputs, 1, tile=256)


def await_frames(frames, side):
    """One input that brings all main frames, each of which makes all visible tiles anew: two events a tile."""
    first = [layer(1, side, side, colour=OPAQUE), item(1, 0, [0, 0, side, side], "0000ffff")]
    main = [first] + [[item(1, 0, [0, 0, side, side], f"{turn % 256:02x}00ffff", "replace_item")]
                      for turn in range(1, frames)]
    return script(main, [until(frames - 1)], side, raster_per_frame=0)


def list_versions(layers, frames):
    """Frames that change one tile of each layer, another one each time. A tile keeps the list that it was made of, and a
    list of 256 items is copied at the first change of a frame."""
    first = []
    for number in range(1, layers + 1):
        first.append(layer(number, 1024, 1024))
        first += [item(number, at, [-9, -9, 1, 1], "ff0000ff") for at in range(256)]
    place = lambda turn: [turn % 64 * 16, turn // 64 % 64 * 16, 16, 16]
    main = [first] + [[item(number, 0, place(turn), "00ff00ff", "replace_item") for number in range(1, layers + 1)]
                      for turn in range(1, frames)]
    return script(main, each_awaited(frames), 1024)


def stamps_retiled(layers, frames):
    """Layers of 16384 by 16384 that get another size of tile each second frame, and a pixel changed in the other one, so
    that a stamp a place is written: 4 MiB a layer and tree."""
    first = [it for number in range(1, layers + 1)
             for it in (layer(number, 16384, 16384), item(number, 0, [0, 0, 1, 1], "ff0000ff"))]
    pixels = [item(number, 0, [0, 0, 1, 1], "ff0000ff", "replace_item") for number in range(1, layers + 1)]
    view = lambda turn: [{"op": "set_view", "w": 1, "h": 1, "tile": 16 + turn // 2 % 2}]
    main = [first] + [view(turn) if turn % 2 else pixels for turn in range(1, frames)]
    return script(main, [until(frames - 1), DRAW], 1)


def sends_copied(frames):
    """256 scrollers in a chain that each wheel moves, all of which each main frame is told."""
    first = [{"op": "add_scroller", "id": node, "parent": node - 1, "max_x": 1, "max_y": 0} for node in range(1, 257)]
    first += [{"op": "add_transform", "id": 1, "parent": 0, "x": 0, "y": 0, "scroller": 256}, layer(1, 16, 16, 1)]
    main = [first] + [[{"op": "set_colour", "id": 1, "colour": CLEAR}]] * (frames - 1)
    wheel = lambda turn: {"op": "wheel", "x": 0, "y": 0, "dx": 256 if turn % 2 else -256, "dy": 0}
    return script(main, [until(0)] + [it for turn in range(1, frames) for it in (wheel(turn), DRAW)], 1, budget=8)


# What is made

def ranks_rebuild(layers, side, draws):
    """Scrolls under borders of 512 pixels in tiles of 16, each of which leaves all tiles near the viewport to be ranked
    anew."""
    frame = rolling(16384, 16384, -1024, -1024) + [layer(number, 16384, 16384, 1) for number in range(1, layers + 1)]
    return script([frame], [until(0)] + [scroll(1, 17), DRAW] * draws, side, budget=4096, raster_per_frame=1, soon=512,
                  eventually=512)


def budget_zero(layers, side, draws):
    """A page that jumps to and fro by more than the viewport, with no budget: all that is visible is made and evicted
    each time."""
    frame = rolling(0, 3 * side)
    for number in range(1, layers + 1):
        frame.append(layer(number, side, 4 * side, 1))
        frame += [item(number, at, [at * side // 32, 0, side // 64, 4 * side], "20202040") for at in range(32)]
    turns = [it for turn in range(draws) for it in (scroll(0, -2 * side if turn % 2 else 3 * side), SETTLE, DRAW)]
    return script([frame], [until(0)] + turns, side, priority="smooth")


def layers_items(layers, side, frames):
    """256 faint items in each layer, all of which lie over each other in every tile, made anew each frame."""
    step = side // 256
    first = []
    for number in range(1, layers + 1):
        first.append(layer(number, side, side))
        first += [item(number, at, [at * step, at * 101 % 256 * step, side - at * step, side], FAINT)
                  for at in range(256)]
    main = [first] + [[item(number, 0, [0, 0, side, side], f"0102{turn % 4:02x}04", "replace_item")
                       for number in range(1, layers + 1)] for turn in range(1, frames)]
    return script(main, each_awaited(frames), side, tile=256)


def required_scan(layers, side):
    """An activation that waits for the tiles of a new layer while those of an old one, scrolled into view, come first."""
    far = side + 600
    frame = rolling(0, far, y=far) + [layer(number, side, side) for number in range(1, layers)]
    frame.append(layer(layers, side, side, 1))
    change = [{"op": "remove_layer", "id": layers}, layer(layers + 1, side, side, at=layers - 1)]
    inputs = [until(0), scroll(0, far), DRAW, until(1), DRAW]
    return script([frame, change], inputs, side, raster_per_frame=0, priority="smooth")


# What is drawn

def cull_quadratic(layers, side, draws):
    """Stripes of which no two quads join, over opaque cells of which no two touch: many quads, many opaque rects."""
    wide = side // 16
    cells = [(x * 16, y * 16) for y in range(1, wide, 2) for x in range(1, wide, 2)]
    frame = rolling(4096, 0)
    for number in range(1, layers + 1):
        shift = (number - 1) % 64
        frame.append({"op": "add_transform", "id": number + 1, "parent": 1, "x": shift % 8 * 2 - 16,
                      "y": shift // 8 * 2 - 16, "scroller": 0})
        frame.append(layer(number, side + 64, side + 64, number + 1))
        stripes = [[column * 16, 0, 16, side + 64] for column in range(0, wide + 4, 2)]
        frame += [item(number, at, rect, "08080810") for at, rect in enumerate(stripes)]
        for at in range(256 - len(stripes)):
            x, y = cells[(number * 190 + at) % len(cells)]
            frame.append(item(number, len(stripes) + at, [x, y, 16, 16], "ff8000ff"))
    return script([frame], [until(0)] + [scroll(1, 0), DRAW] * draws, side)


def same_draws(side, bitmaps, draws):
    """Draws of a page on which nothing has changed, with bitmaps of 256 KiB on its tiles. The scroll by nothing makes
    each draw look."""
    frame = [layer(1, side, side)]
    frame += [item(1, at, [column, 0, 8, side], "00ff00ff") for at, column in enumerate(range(0, side, 16))]
    frame += [item(1, side // 16 + number, [0, 0, 256, 256], f"{number:02x}000080" * 65536) for number in range(bitmaps)]
    return script([frame], [until(0)] + [scroll(0, 0), DRAW] * draws, side)


def nested_groups(depth, side, draws):
    """Effects within each other, each of which fades the whole screen, over a page that scrolls sideways."""
    bars = 196
    frame = rolling(8192, 0)
    frame += [{"op": "add_effect", "id": node, "parent": node - 1, "opacity": 254} for node in range(1, depth + 1)]
    frame.append(layer(1, 8192, side, 1, effect=depth, colour=OPAQUE))
    frame += [item(1, at, [0, at * side // bars, 8192, side // bars // 2 or 1], f"{at:02x}40{255 - at:02x}ff")
              for at in range(bars)]
    frame += [item(1, at, [(at - bars) * 137, 0, 60, side], "30303060") for at in range(bars, 256)]
    return script([frame], [until(0)] + [scroll(1, 0), DRAW] * draws, side, tile=256)


def deep_chains(layers, side, draws, depth):
    """Clips in a chain, each in the last of a chain of transforms: depth times depth nodes for one layer's clip."""
    frame = [{"op": "add_scroller", "id": 1, "parent": 0, "max_x": 0, "max_y": 1048576}]
    frame += [{"op": "add_transform", "id": node, "parent": node - 1, "x": 0, "y": 0, "scroller": 1 if node == 1 else 0}
              for node in range(1, depth + 1)]
    frame += [{"op": "add_clip", "id": node, "parent": node - 1, "transform": depth, "rect": [0, 0, 65536, 65536]}
              for node in range(1, depth + 1)]
    frame += [layer(number, side, 16384, depth, clip=depth) for number in range(1, layers + 1)]
    return script([frame], [until(0)] + [scroll(0, 16), DRAW] * draws, side, budget=4096)


# Commands and inputs

def one_frame_items(commands, still):
    """One main frame with all the commands that a script can hold, each changing another place of one layer; and
    commands that change none."""
    first = rolling(1, 0)[:1] + [layer(1, 16384, 16384)]
    first += [item(1, at, [at * 3, 0, 1, 1], "ff0000ff") for at in range(256)]
    change = [item(1, turn % 256, [turn * 3 % 16383, 3 + turn * 3 // 16383 * 3, 1, 1], "ff0000ff", "replace_item")
              for turn in range(commands)]
    change += [{"op": "scroll_by", "id": 1, "dx": 0, "dy": 0}] * still
    return script([first, change], [until(1), DRAW], 16, tile=256, budget=8, raster_per_frame=8)


def wheel_collisions(wheels, layers):
    """Wheels over layers whose clips and transforms have ids that a table of 256 by id would give one place, in two chains
    each that alternate. The first clips are empty, so that the search goes through all layers."""
    ids = [256 * block + (7 - block) % 256 for block in range(256)]
    chains = ids[:128], ids[128:]
    frame = [{"op": "add_transform", "id": node, "parent": above, "x": 0, "y": 0, "scroller": 0}
             for chain in chains for above, node in zip([0] + chain, chain)]
    frame += [{"op": "add_clip", "id": node, "parent": above, "transform": chains[place % 2][-1],
               "rect": [0, 0, 64 if place else 0, 64]}
              for chain in chains for place, (above, node) in enumerate(zip([0] + chain, chain))]
    frame += [layer(number, 64, 64, clip=chains[number % 2][-1]) for number in range(1, layers + 1)]
    return script([frame], [until(0)] + [{"op": "wheel", "x": 3, "y": 3, "dx": 0, "dy": 1}] * wheels, 64,
                  raster_per_frame=0)


def unknown_scrollers(inputs):
    """Scrolls of scrollers that no page has, each of another one."""
    return script([[layer(1, 1, 1)]], [until(0)] + [scroll(1, 1, number) for number in range(inputs, 0, -1)], 1,
                  raster_per_frame=0)


# What is written against docs/COSTS.md

def wide_rects(commands):
    """One main frame whose rects each touch nearly all of a million places, and none of which holds another of the last
    512: what writes the places of each rect writes each place once a rect."""
    at = lambda turn: [-(turn % 1024), turn % 1024 - 1023, 16384, 16384]
    first = [layer(1, 16384, 16384), item(1, 0, at(0), "ff0000ff")]
    change = [item(1, 0, at(turn), "ff0000ff", "replace_item") for turn in range(1, commands + 1)]
    return script([first, change], [until(1), DRAW], 1)


def strips_quads(layers, side, draws):
    """A chain of 256 groups, so that a picture is drawn in strips of a few rows, beside many quads, each of which is
    looked at in each strip."""
    frame = rolling(4096, 0)
    frame += [{"op": "add_effect", "id": node, "parent": node - 1, "opacity": 254} for node in range(1, 257)]
    frame += [layer(1, side, side, effect=256), item(1, 0, [0, 0, side, side], FAINT)]
    for number in range(2, layers + 1):
        frame.append(layer(number, side + 4096, side, 1))
        frame += [item(number, at, [column, 0, 16, side], "08080810") for at, column in enumerate(range(0, min(8192, side + 4096), 32))]
    return script([frame], [until(0)] + [scroll(1, 0), DRAW] * draws, side)


def one_pixel_frames(layers, side, frames):
    """Frames that change one pixel, while many tiles are seen: each commit is asked for all of them, and so is each
    activation."""
    first = [it for number in range(1, layers + 1)
             for it in (layer(number, side, side), item(number, 0, [0, 0, 1, 1], "ff0000ff"))]
    main = [first] + [[item(1, 0, [0, 0, 1, 1], f"{turn % 256:02x}0000ff", "replace_item")] for turn in range(1, frames)]
    return script(main, [until(0)] + [DRAW] * (frames - 1), side)


# The numbers of each: small, large, full.
SIZES = {
    missing_lists: [(4, 512, 60), (16, 1024, 300), (64, 2048, 4096)],
    slow_reader_tiles: [(16, 60), (16, 500), (64, 2600)],
    await_frames: [(60, 512), (600, 1024), (4096, 2048)],
    list_versions: [(16, 60), (64, 200), (64, 2600)],
    stamps_retiled: [(8, 6), (32, 10), (64, 4096)],
    sends_copied: [(400,), (1500,), (4096,)],
    ranks_rebuild: [(4, 256, 8), (16, 1024, 20), (64, 2048, 4096)],
    budget_zero: [(2, 512, 6), (4, 1024, 20), (64, 2048, 2000)],
    layers_items: [(16, 512, 2), (64, 1024, 3), (64, 2048, 2600)],
    required_scan: [(8, 512), (32, 1024), (64, 2048)],
    cull_quadratic: [(16, 512, 3), (64, 1024, 4), (64, 2048, 4096)],
    same_draws: [(512, 2, 6), (1024, 4, 10), (2048, 30, 4096)],
    nested_groups: [(64, 512, 4), (256, 2048, 8), (256, 2048, 4096)],
    deep_chains: [(16, 64, 8, 128), (64, 64, 40, 256), (64, 2048, 4096, 256)],
    one_frame_items: [(10000, 1000), (100000, 180000), (100000, 180000)],
    wheel_collisions: [(200, 32), (2000, 64), (65535, 64)],
    unknown_scrollers: [(8000,), (30000,), (65535,)],
    wide_rects: [(200,), (2000,), (180000,)],
    strips_quads: [(8, 512, 2), (32, 1024, 3), (64, 2048, 4096)],
    one_pixel_frames: [(8, 512, 10), (64, 1024, 10), (64, 2048, 4096)],
}
SCRIPTS = {make.__name__: make for make in SIZES}
SMALL, LARGE, FULL = range(3)


def text_of(name, *numbers):
    """A script's text; without numbers that of the small one."""
    make = SCRIPTS[name]
    return json.dumps(make(*(numbers or SIZES[make][SMALL])), separators=(",", ":")).encode()


def listed():
    """A line for each name: its arguments, and its numbers at each size."""
    for name, make in SCRIPTS.items():
        sizes = "; ".join(" ".join(map(str, numbers)) for numbers in SIZES[make])
        yield f"{name} ({', '.join(inspect.signature(make).parameters)}): {sizes}"


def main():
    signal.signal(signal.SIGPIPE, signal.SIG_DFL)
    name, *numbers = sys.argv[1:] or [None]
    if name is None:
        print("\n".join(listed()))
    elif name not in SCRIPTS:
        sys.exit(__doc__)
    else:
        sys.stdout.buffer.write(text_of(name, *map(int, numbers)))


if __name__ == "__main__":
    main()

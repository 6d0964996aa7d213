"""What playing a script can cost at most: its events, draws and pixels, by the script alone.

It holds for lockstep, which is what `step`, `film`, `shot` and `serve` play (docs/COSTS.md, "A script's cost, told
beforehand"):

- A main frame that is empty brings five events at most: a begin, a send, an abort, a no-draw, a finish. Another one
  brings seven: a ready, a commit and an activation in place of the abort.
- A draw brings a begin, the draw and a finish, and up to `raster_per_frame` tiles. A scroll, a wheel, an await, a settle
  and the end bring one event each.
- An activation makes tiles, and so does a settle: at most all that are wanted. A tile is a start and its end.
- Wanted are at most the tiles of two pages near the viewport: of a main frame's page and of one before it. Of a layer
  these are as many as its grid has, and as many as lie in the viewport with its border.
- A draw has at most the pixels of the largest view.
"""
import dataclasses

import page_model
from script_remarks import plural

EMPTY_FRAME, FRAME, DRAW = 5, 7, 3


@dataclasses.dataclass(frozen=True)
class Cost:
    """The most events, draws and pixels of a script's recording."""
    events: int
    draws: int
    pixels: int


def most_touched(length, tile):
    """How many tiles in a row an interval of this length touches at most."""
    return (length + tile - 2) // tile + 1


def tiles_near(page, border):
    """How many tiles of a page lie near its viewport at most, wherever its layers stand."""
    width, height, tile = page.view
    across, down = (most_touched(side + 2 * (border + 1), tile) for side in (width, height))
    return sum(min(across, -(-layer.width // tile)) * min(down, -(-layer.height // tile)) for layer in page.layers)


def pages_of(script):
    """The page after each main frame, which is the same object each time."""
    page = page_model.Page(*script["viewport"], script["tile"])
    for commands in script["main"]:
        for command in commands:
            page.apply(command)
        yield page


def cost_of(script):
    """The most that an accepted script can cost."""
    width, height = script["viewport"]
    largest, wanted, most_near, activated = width * height, 0, 0, 0
    for commands, page in zip(script["main"], pages_of(script)):
        near = tiles_near(page, script["eventually"])
        largest = max(largest, page.view[0] * page.view[1])
        wanted, most_near = max(wanted, most_near + near), max(most_near, near)
        activated += wanted if commands else 0
    ops = [it["op"] for it in script["inputs"]]
    draws, settles = ops.count("draw"), ops.count("settle")
    tiles = activated + settles * wanted + draws * min(script["raster_per_frame"], wanted)
    frames = sum(FRAME if commands else EMPTY_FRAME for commands in script["main"])
    return Cost(frames + DRAW * draws + len(ops) - draws + 2 * tiles + 1, draws, draws * largest)


def shot_of(script):
    """The script that `shot` plays for one without inputs."""
    last = len(script["main"]) - 1
    inputs = [{"op": "await", "frame": last}] * (last >= 0) + [{"op": "settle"}, {"op": "draw"}]
    return {**script, "inputs": inputs}


def told(script):
    """The line that tells it."""
    is_played = bool(script["inputs"])
    cost = cost_of(script if is_played else shot_of(script))
    counts = [plural(cost.events, "event"), plural(cost.draws, "draw"), plural(cost.pixels, "pixel")]
    by = "step, film, shot or serve" if is_played else "shot; without inputs the others draw nothing"
    return f"  {'cost:':9} at most {', '.join(counts)} (by {by})"

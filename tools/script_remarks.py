"""What is legal in a script and seldom meant: remarks on a script that is accepted."""

import script_wheels

SEEN_BY = 'docs/FORMAT.md, "When frames come"'


def plural(count, what):
    """A count with its noun."""
    return f"{count} {what}{'' if count == 1 else 's'}"


def size_told(script):
    """How large a script is."""
    commands, draws = sum(map(len, script["main"])), sum(it["op"] == "draw" for it in script["inputs"])
    return (f"{plural(len(script['main']), 'main frame')} with {plural(commands, 'command')}, "
            f"{plural(len(script['inputs']), 'input')}, of them {plural(draws, 'draw')}")


def commands_of(script):
    """Each command with the number of its main frame."""
    return ((number, command) for number, commands in enumerate(script["main"]) for command in commands)


def played_at_most(script):
    """How many main frames the inputs play at most: an await all up to its own, a draw one."""
    played = 0
    for it in script["inputs"]:
        if it["op"] == "await":
            played = max(played, it["frame"] + 1)
        elif it["op"] == "draw":
            played = min(played + 1, len(script["main"]))
    return played


def late_frames(script):
    """Main frames that no picture can show; a script without inputs is a page, of which `shot` makes one."""
    if not script["inputs"]:
        yield ("it has no inputs: `shot` makes the picture of its last main frame, and `step`, `film` and `play` make none; "
               "add an await of that frame and a draw for theirs")
        return
    first, last = played_at_most(script), len(script["main"]) - 1
    if first <= last:
        which = f"main frame {first} is" if first == last else f"main frames {first} to {last} are"
        yield (f"{which} played after the last input, where no picture shows it: a draw plays one main frame, an await all "
               f"up to its own; put an await of frame {last} before the draw that is to show it ({SEEN_BY})")


def bare_layers(script):
    """Layers that never have an item."""
    painted = {command["layer"] for _, command in commands_of(script) if command["op"] == "insert_item"}
    for number, command in commands_of(script):
        if command["op"] == "add_layer" and command["id"] not in painted:
            yield (f"layer {command['id']} of main frame {number} never has an item, so nothing of it is seen: its colour "
                   f"stands for missing tiles alone; for a background insert an item [0, 0, {command['w']}, {command['h']}]")


def idle_scrolls(script):
    """Scrolls of scrollers that no main frame adds."""
    added = {command["id"] for _, command in commands_of(script) if command["op"] == "add_scroller"}
    used = {command["scroller"] for _, command in commands_of(script) if command["op"] == "add_transform"}
    for place, it in enumerate(script["inputs"]):
        if it["op"] == "scroll" and it["scroller"] not in added:
            yield f"input {place} scrolls scroller {it['scroller']}, which no main frame adds: it moves nothing"
    for scroller in sorted(added - used):
        yield f"scroller {scroller} is named by no transform, so nothing moves where it scrolls: add_transform names it as its \"scroller\""


def early_draws(script):
    """Draws before anything can be active."""
    first = next((it["op"] for it in script["inputs"] if it["op"] in ("draw", "await")), None)
    if first == "draw" and script["main"]:
        yield ("the first draw comes before an await: it has a picture only if raster_per_frame is enough for all visible "
               "tiles of main frame 0; an await of frame 0 before it makes them all")


def idle_raster(script):
    """A draw right after a scroll, where draws make no tiles."""
    inputs = [it["op"] for it in script["inputs"]]
    place = next((at for at, pair in enumerate(zip(inputs, inputs[1:]), 1) if pair[0] in ("scroll", "wheel") and pair[1] == "draw"), None)
    if script["raster_per_frame"] == 0 and place is not None:
        yield (f"raster_per_frame is 0, so the draw of input {place} makes none of the tiles that the scroll before it "
               "uncovers: put a settle between them, or make raster_per_frame larger")


def told(script, most=6):
    """The remarks on an accepted script, each as a line."""
    found = [line for remarks in (late_frames, bare_layers, idle_scrolls, script_wheels.remarks, early_draws, idle_raster) for line in remarks(script)]
    yield from (f"  remark: {line}" for line in found[:most])
    if len(found) > most:
        yield f"  and {len(found) - most} more"

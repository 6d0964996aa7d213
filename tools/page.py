#!/usr/bin/env python3
"""Makes a script of a page that is described in a few lines.

usage: page.py PAGE > SCRIPT

A line is a word and what it takes; lines that belong to it stand indented below it; # begins a comment, unless a
digit or a letter follows at once. Things have names instead of ids. Colours are red, green, blue and, where two digits
more stand, alpha: straight, as in CSS; the script has them premultiplied. A known name changes what has it.

  view W H                             the viewport; in a later frame another one (set_view)
  tile N, background RRGGBB, budget N, raster N, soon N, eventually N, priority same|smooth|new

  frame [NAME]                         the commands of a main frame; the first one needs no such line. One with a name
                                       comes with the draw or the await that names it, another with the next draw
  scroller NAME MAX_X MAX_Y [under SCROLLER]
  transform NAME X Y [under TRANSFORM] [scrolls SCROLLER]
  clip NAME X Y W H [under CLIP] [on TRANSFORM]
  effect NAME OPACITY [under EFFECT]
  layer NAME W H [on TRANSFORM] [in CLIP] [of EFFECT] [colour COLOUR] [below LAYER]
      [ITEM:] rect X Y W H COLOUR ..    an item; of several colours a repeat takes one in turn
      text X Y W LINES COLOUR           little bars, one a line of text
      card X Y W H COLOUR PICTURE       a box with a square picture, a title and lines of text
      repeat N [right DX] [down DY]     the items below it N times, each time further on
  into LAYER                           more items, on top of those that it has
  paint LAYER ITEM [X Y W H] COLOUR    another colour, or another rect too, for an item, by its name or its number from 0
  scroll_by SCROLLER DX DY, scroll_to SCROLLER X Y
  move LAYER AT, remove LAYER

  inputs                               and below it, indented:
      draw [FRAME]                     a picture; with a name the first one that shows this main frame
      await FRAME                      by its name or its number; await 0 at the beginning makes the whole page
      settle, scroll SCROLLER DX DY, wheel X Y DX DY, repeat N

A draw asks for one main frame, so empty ones are put between those with names where a draw has none to ask for. That
holds as long as `raster` is enough for the tiles that a frame changes (docs/FORMAT.md, "When frames come").
"""
import argparse
import collections
import contextlib
import dataclasses
import json
import pathlib
import re
import sys

sys.dont_write_bytecode = True
from script_advice import premultiplied

HEAD = {"viewport": [320, 240], "tile": 64, "background": "ffffff", "budget": 256, "raster_per_frame": 64, "soon": 64,
        "eventually": 128, "priority": "same"}
SETTINGS = {"tile": "tile", "background": "background", "budget": "budget", "raster": "raster_per_frame", "soon": "soon",
            "eventually": "eventually", "priority": "priority"}
LINE_HEIGHT, BAR_HEIGHT = 10, 4
COMMENT = re.compile(r"#(?![0-9a-zA-Z]).*")


class Wrong(Exception):
    """What is wrong with a line of a page. The line's number is noted by the innermost that knows it."""

    line = None

    def __str__(self):
        return f"{self.line}: {self.args[0]}" if self.line else self.args[0]


@contextlib.contextmanager
def at(line):
    """What is refused inside is refused at this line."""
    try:
        yield
    except Wrong as fault:
        fault.line = fault.line or line.number
        raise


@dataclasses.dataclass
class Line:
    """A line of a page with those below it that are indented further."""
    number: int
    words: list
    below: list = dataclasses.field(default_factory=list)


def lines_of(text):
    """The lines of a page as a tree."""
    top = Line(0, [])
    open_lines = [(-1, top)]
    for number, whole in enumerate(text.splitlines(), 1):
        line = COMMENT.sub("", whole).rstrip()
        if not line:
            continue
        depth = len(line) - len(line.lstrip(" "))
        while depth <= open_lines[-1][0]:
            open_lines.pop()
        found = Line(number, line.split())
        open_lines[-1][1].below.append(found)
        open_lines.append((depth, found))
    return top.below


def number_of(word):
    try:
        return int(word)
    except ValueError as fault:
        raise Wrong(f"{word} is no whole number") from fault


def numbers_of(words, count, what):
    """The first words as numbers, and the words after them."""
    if len(words) < count:
        raise Wrong(f"{what} are wanted")
    return [number_of(it) for it in words[:count]], words[count:]


def colour_of(word):
    """A colour as a script has it."""
    if not re.fullmatch(r"[0-9a-f]{6}([0-9a-f]{2})?", word.removeprefix("#")):
        raise Wrong(f"{word} is no colour: six digits 0-9 a-f, or eight with alpha")
    digits = word.removeprefix("#")
    return premultiplied(digits) if len(digits) == 8 else digits + "ff"


def options_of(words, *names):
    """What follows each of these words, where it stands."""
    found = {}
    while words:
        if words[0] not in names or len(words) < 2:
            raise Wrong(f"{words[0]} is not expected here; after a name and its numbers come {', '.join(names) or 'no words'}")
        found[words[0]], words = words[1], words[2:]
    return found


# Items

def text_bars(x, y, width, lines, colour):
    """Bars for lines of text, of which the last is shorter."""
    for line in range(lines):
        part = 60 if line == lines - 1 and lines > 1 else (100, 92, 97)[line % 3]
        yield [x, y + LINE_HEIGHT * line, max(width * part // 100, 1), BAR_HEIGHT], colour


def card_items(rect, colour, picture):
    """A box with a square picture at its left, a title and what lines of text have room."""
    x, y, width, height = rect
    side = height - 16
    yield rect, colour
    yield [x + 8, y + 8, side, side], picture
    left, room = x + side + 18, width - side - 28
    yield [left, y + 10, room * 2 // 3, BAR_HEIGHT + 2], "3b4754ff"
    yield from text_bars(left, y + 24, room, max((height - 30) // LINE_HEIGHT, 1), "aab4beff")


def items_of(lines, turn=0):
    """The items that lines describe: name or None, rect, colour. `turn` tells how often the lines were repeated."""
    for line in lines:
        words, name = line.words, None
        if words[0].endswith(":"):
            name, words = words[0][:-1], words[1:]
        with at(line):
            if words and words[0] == "repeat":
                yield from repeated_items(line, words[1:])
            else:
                yield from ((name, *it) for it in items_of_word(words, turn))


def items_of_word(words, turn):
    """The items of one line that is no repeat."""
    if words[:1] == ["text"]:
        (x, y, width, lines), rest = numbers_of(words[1:], 4, "x, y, width and the number of lines")
        return text_bars(x, y, width, lines, paint_in_turn(rest, turn))
    if not words or words[0] not in ("rect", "card"):
        raise Wrong(f"{words[0] if words else 'a name'} is no item: rect, text, card or repeat")
    rect, rest = numbers_of(words[1:], 4, "x, y, width and height")
    if words[0] == "rect":
        return [(rect, paint_in_turn(rest, turn))]
    return card_items(rect, paint_in_turn(rest[:1], turn), paint_in_turn(rest[1:], turn))


def paint_in_turn(words, turn):
    if not words:
        raise Wrong("a colour is wanted at the end")
    return colour_of(words[turn % len(words)])


def repeated_items(line, words):
    """Items again and again, each time further on."""
    (count,), rest = numbers_of(words, 1, "how often, a number,")
    options = options_of(rest, "right", "down")
    right, down = number_of(options.get("right", "0")), number_of(options.get("down", "0"))
    for turn in range(count):
        for name, (x, y, width, height), colour in items_of(line.below, turn):
            yield name, [x + turn * right, y + turn * down, width, height], colour


def placed_frames(frames, names, inputs):
    """The main frames as a script has them, with empty ones where a draw has none to ask for, and the inputs with the
    numbers of frames for their names. `names` has the number of each frame that has one."""
    main, named, placed, out = [], set(names.values()), {}, []

    def come_to(number):
        for it in range(len(placed), number + 1):
            placed[it] = len(main)
            main.append(frames[it])

    for it in inputs:
        number = it.get("frame")
        if it["op"] == "await":
            come_to(number)
            out.append({**it, "frame": placed[number]})
            continue
        if it["op"] == "draw" and number is not None:
            if number != len(placed):
                has = f"main frame {number} has come" if number < len(placed) else f"main frame {len(placed)} has not come"
                raise Wrong(f"{has} before the draw of main frame {number}: each draw brings one, in their order")
            come_to(number)
        elif it["op"] == "draw" and len(placed) < len(frames):
            if len(placed) in named:
                main.append([])
            else:
                come_to(len(placed))
        out.append({name: value for name, value in it.items() if name != "frame"})
    come_to(len(frames) - 1)
    return main, out


class Maker:
    """Makes a script of the lines of a page."""

    def __init__(self):
        self.head, self.main, self.inputs, self.version = dict(HEAD), [], [], 1
        self.ids = {family: {} for family in ("scroller", "transform", "clip", "effect", "layer")}
        self.last_ids, self.order, self.items, self.frames = collections.Counter(), [], {}, {}

    def script(self):
        main, inputs = placed_frames(self.main, self.frames, self.inputs)
        return {"version": self.version, **self.head, "main": main, "inputs": inputs}

    def add(self, op, **fields):
        """One more command of the present main frame."""
        if not self.main:
            self.main.append([])
        self.main[-1].append({"op": op, **fields})

    def known(self, family, name):
        """A name that has to be known."""
        if name not in self.ids[family]:
            raise Wrong(f"there is no {family} {name}; known: {', '.join(self.ids[family]) or 'none'}")
        return name

    def id_of(self, family, name):
        """The id of a name that is known."""
        return self.ids[family][self.known(family, name)]

    def root_or(self, family, options, word):
        """The id of what stands after a word, or 0."""
        return self.id_of(family, options[word]) if word in options else 0

    def new_id(self, family, name):
        """The id of a name, which is a new one where the name is not known."""
        if name not in self.ids[family]:
            self.last_ids[family] += 1
            self.ids[family][name] = self.last_ids[family]
        return self.ids[family][name]

    def make(self, lines):
        for line in lines:
            word, words = line.words[0], line.words[1:]
            with at(line):
                if word in SETTINGS:
                    self.set(word, words)
                elif hasattr(self, f"make_{word}"):
                    getattr(self, f"make_{word}")(line, words)
                else:
                    raise Wrong(f"{word} is no word of a page; tools/page.py --help lists them")

    def set(self, word, words):
        if len(words) != 1:
            raise Wrong(f"one value is wanted after {word}")
        self.head[SETTINGS[word]] = words[0] if word in ("background", "priority") else number_of(words[0])

    def make_view(self, line, words):
        (width, height), _ = numbers_of(words, 2, "width and height")
        self.version = 2 if max(width, height) > 1024 or self.main else self.version
        if self.main:
            self.add("set_view", w=width, h=height, tile=self.head["tile"])
        else:
            self.head["viewport"] = [width, height]

    def make_frame(self, line, words):
        if words:
            self.frames[words[0]] = len(self.main)
        self.main.append([])
        self.make(line.below)

    def named(self, family, words, count, what):
        """The name, the numbers and the rest of a line, and whether the name is new."""
        if not words:
            raise Wrong(f"a name is wanted after {family}")
        numbers, rest = numbers_of(words[1:], count, what)
        is_new = words[0] not in self.ids[family]
        return is_new, self.new_id(family, words[0]), numbers, rest

    def make_scroller(self, line, words):
        is_new, id, (x, y), rest = self.named("scroller", words, 2, "the ends of its range, two numbers,")
        if is_new:
            self.add("add_scroller", id=id, parent=self.root_or("scroller", options_of(rest, "under"), "under"), max_x=x, max_y=y)
        else:
            self.add("set_range", id=id, max_x=x, max_y=y)

    def make_transform(self, line, words):
        is_new, id, (x, y), rest = self.named("transform", words, 2, "x and y")
        options = options_of(rest, "under", "scrolls")
        if is_new:
            self.add("add_transform", id=id, parent=self.root_or("transform", options, "under"), x=x, y=y,
                     scroller=self.root_or("scroller", options, "scrolls"))
        else:
            self.add("set_transform", id=id, x=x, y=y)

    def make_clip(self, line, words):
        is_new, id, rect, rest = self.named("clip", words, 4, "x, y, width and height")
        options = options_of(rest, "under", "on")
        if is_new:
            self.add("add_clip", id=id, parent=self.root_or("clip", options, "under"), transform=self.root_or("transform", options, "on"), rect=rect)
        else:
            self.add("set_clip", id=id, rect=rect)

    def make_effect(self, line, words):
        is_new, id, (opacity,), rest = self.named("effect", words, 1, "an opacity from 0 to 255")
        if is_new:
            self.add("add_effect", id=id, parent=self.root_or("effect", options_of(rest, "under"), "under"), opacity=opacity)
        else:
            self.add("set_opacity", id=id, opacity=opacity)

    def make_layer(self, line, words):
        is_new, id, (width, height), rest = self.named("layer", words, 2, "width and height")
        options = options_of(rest, "on", "in", "of", "colour", "below")
        if is_new:
            at = self.order.index(self.known("layer", options["below"])) if "below" in options else len(self.order)
            self.order.insert(at, words[0])
            self.items[words[0]] = []
            self.add("add_layer", id=id, at=at, transform=self.root_or("transform", options, "on"), clip=self.root_or("clip", options, "in"),
                     effect=self.root_or("effect", options, "of"), w=width, h=height, colour=colour_of(options.get("colour", "00000000")))
        else:
            self.add("resize_layer", id=id, w=width, h=height)
        self.fill(words[0], line.below)

    def make_into(self, line, words):
        self.id_of("layer", words[0] if words else "")
        self.fill(words[0], line.below)

    def fill(self, layer, lines):
        """Puts the items of these lines on top of a layer's."""
        for name, rect, colour in items_of(lines):
            self.add("insert_item", layer=self.ids["layer"][layer], at=len(self.items[layer]), rect=rect, colour=colour)
            self.items[layer].append((name, rect))

    def make_paint(self, line, words):
        if len(words) not in (3, 7):
            raise Wrong("a layer, an item, x, y, width and height where they change, and a colour are wanted")
        (layer, item), colour = words[:2], words[-1]
        id, names = self.id_of("layer", layer), [name for name, _ in self.items[layer]]
        at = names.index(item) if item in names else number_of(item)
        if at >= len(names):
            raise Wrong(f"layer {layer} has {len(names)} items")
        rect = [number_of(it) for it in words[2:6]] if len(words) == 7 else self.items[layer][at][1]
        self.items[layer][at] = (names[at], rect)
        self.add("replace_item", layer=id, at=at, rect=rect, colour=colour_of(colour))

    def make_scroll_by(self, line, words):
        (dx, dy), _ = numbers_of(words[1:], 2, "dx and dy")
        self.add("scroll_by", id=self.id_of("scroller", words[0]), dx=dx, dy=dy)

    def make_scroll_to(self, line, words):
        (x, y), _ = numbers_of(words[1:], 2, "x and y")
        self.add("scroll_to", id=self.id_of("scroller", words[0]), x=x, y=y)

    def make_move(self, line, words):
        (at,), _ = numbers_of(words[1:], 1, "a place in the list of layers")
        id = self.id_of("layer", words[0])
        self.order.remove(words[0])
        self.order.insert(at, words[0])
        self.add("move_layer", id=id, at=at)

    def make_remove(self, line, words):
        self.add("remove_layer", id=self.id_of("layer", words[0] if words else ""))
        self.order.remove(words[0])
        del self.ids["layer"][words[0]], self.items[words[0]]

    def make_inputs(self, line, words):
        self.inputs += self.inputs_of(line.below)

    def inputs_of(self, lines):
        """The inputs that lines describe."""
        for line in lines:
            word, *words = line.words
            with at(line):
                if word == "repeat":
                    (count,), _ = numbers_of(words, 1, "how often, a number,")
                    yield from count * list(self.inputs_of(line.below))
                else:
                    yield self.input_of(word, words)

    def frame_number(self, name):
        """The number of a main frame that is named, or told by its number."""
        number = self.frames[name] if name in self.frames else int(name) if name.isdecimal() else len(self.main)
        if number >= len(self.main):
            raise Wrong(f"there is no frame {name}; known: 0 to {len(self.main) - 1}, {', '.join(self.frames) or 'and none has a name'}")
        return number

    def input_of(self, word, words):
        if word == "settle" or word == "draw" and not words:
            return {"op": word}
        if word in ("await", "draw"):
            return {"op": word, "frame": self.frame_number(words[0] if words else "")}
        if word == "scroll":
            (dx, dy), _ = numbers_of(words[1:], 2, "a scroller, dx and dy")
            return {"op": word, "scroller": self.id_of("scroller", words[0]), "dx": dx, "dy": dy}
        if word == "wheel":
            (x, y, dx, dy), _ = numbers_of(words, 4, "x, y, dx and dy")
            return {"op": word, "x": x, "y": y, "dx": dx, "dy": dy}
        raise Wrong(f"{word} is no input: draw, settle, await, scroll, wheel or repeat")


def script_text(script):
    """A script as JSON, a command and an input a line."""
    def listed(values, depth):
        space = " " * depth
        return "[\n" + ",\n".join(space + "  " + it for it in values) + "\n" + space + "]" if values else "[]"
    frames = [listed([json.dumps(it) for it in commands], 4) for commands in script["main"]]
    members = [f'"{name}": {json.dumps(value)}' for name, value in script.items() if name not in ("main", "inputs")]
    members += [f'"main": {listed(frames, 2)}', f'"inputs": {listed([json.dumps(it) for it in script["inputs"]], 2)}']
    return "{\n" + ",\n".join("  " + it for it in members) + "\n}\n"


def script_of(text):
    """The script of a page's text."""
    maker = Maker()
    maker.make(lines_of(text))
    return maker.script()


def main():
    words = argparse.ArgumentParser(description=__doc__, formatter_class=argparse.RawDescriptionHelpFormatter)
    words.add_argument("page")
    words = words.parse_args()
    try:
        text = sys.stdin.read() if words.page == "-" else pathlib.Path(words.page).read_text()
        print(script_text(script_of(text)), end="")
    except Wrong as fault:
        sys.exit(f"page: {words.page}:{fault}")
    except (OSError, UnicodeDecodeError) as fault:
        sys.exit(f"page: {words.page}: {getattr(fault, 'strerror', None) or 'not UTF-8'}")


if __name__ == "__main__":
    main()

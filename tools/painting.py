"""The picture of a page, painted from the definition: docs/FORMAT.md, "How a picture is made".

It shares nothing with the program, and is made for looking at one picture: a page is cut into cells within which
nothing changes, and one point of each is painted. Bitmaps change at each pixel, so they are slow.
"""
import copy

import page_model

CLEAR = (0, 0, 0, 0)


def mul(one, other):
    """The part of 255 that is nearest to the product."""
    return (one * other + 127) // 255


def over(source, below):
    """A colour laid over another."""
    if source[3] == 255 or below == CLEAR:
        return source
    rest = 255 - source[3]
    return tuple(top + mul(it, rest) for top, it in zip(source, below))


def faded(colour, opacity):
    return tuple(mul(it, opacity) for it in colour)


def colour_of(digits):
    """The components of six or eight digits."""
    return tuple(int(digits[at:at + 2], 16) for at in range(0, len(digits), 2))


class Placed:
    """A layer at its place: the box in which it can be seen, the groups that it is in, the outermost first, and its items
    with their boxes, of which a plain one has its colour and a bitmap its digits."""

    def __init__(self, layer, place, clip, groups):
        self.layer, self.place, self.groups = layer, place, groups
        self.box = meet(moved((0, 0, layer.width, layer.height), place), clip)
        self.items = [(moved(rect, place), colour_of(paint) if len(paint) == 8 else paint) for rect, paint in layer.items]

    def within(self, top, bottom):
        """The same, with the items alone that lie in some rows."""
        found = copy.copy(self)
        found.items = [it for it in self.items if it[0][1] < bottom and it[0][3] > top]
        return found

    def colour(self, x, y, missing, tile):
        """What the layer shows at a pixel."""
        if not holds(self.box, x, y):
            return CLEAR
        if missing and (self.layer.id, (x - self.place[0]) // tile, (y - self.place[1]) // tile) in missing:
            return colour_of(self.layer.colour)
        colour = CLEAR
        for box, paint in self.items:
            if holds(box, x, y):
                colour = over(paint if isinstance(paint, tuple) else pixel_of(box, paint, x, y), colour)
        return colour


def pixel_of(box, digits, x, y):
    """A pixel of a bitmap."""
    at = 8 * ((y - box[1]) * (box[2] - box[0]) + x - box[0])
    return colour_of(digits[at:at + 8])


def holds(box, x, y):
    return box[0] <= x < box[2] and box[1] <= y < box[3]


def meet(box, clip):
    """What a clip leaves of a box; no clip leaves all."""
    return box if clip is None else (max(box[0], clip[0]), max(box[1], clip[1]), min(box[2], clip[2]), min(box[3], clip[3]))


class Places:
    """Where the layers of a page lie at offsets of its scrollers."""

    def __init__(self, page, offsets):
        self.page, self.offsets = page, offsets

    def translation(self, id):
        """How far what is under a transform is moved."""
        x = y = 0
        while id:
            node = self.page.nodes["transform"][id]
            off_x, off_y = self.offsets.get(node["scroller"], (0, 0)) if node["scroller"] else (0, 0)
            x, y, id = x + node["x"] - off_x, y + node["y"] - off_y, node["parent"]
        return x, y

    def clip_box(self, id):
        """What a clip and those above it leave; None where that is all."""
        box = None
        while id:
            node = self.page.nodes["clip"][id]
            box, id = meet(moved(node["rect"], self.translation(node["transform"])), box), node["parent"]
        return box


class Scene(Places):
    """A page at offsets of its scrollers, with the tiles that are missing: a set of layer, column and row."""

    def __init__(self, page, offsets, missing, background):
        super().__init__(page, offsets)
        self.missing, self.background = missing, (*colour_of(background), 255)
        self.layers = [Placed(it, self.translation(it.transform), self.clip_box(it.clip), self.groups_of(it)) for it in page.layers]

    def groups_of(self, layer):
        """The effects of a layer that make groups, the outermost first."""
        effects = self.page.nodes["effect"]
        return [it for it in reversed(list(self.page.effects_of(layer))) if effects[it]["opacity"] < 255]

    def point(self, layers, x, y):
        """The colour of a pixel under these layers: red, green, blue."""
        stack, open_groups = [self.background], []
        for placed in layers:
            self.close(stack, open_groups, placed.groups)
            while len(open_groups) < len(placed.groups):
                open_groups.append(placed.groups[len(open_groups)])
                stack.append(CLEAR)
            stack[-1] = over(placed.colour(x, y, self.missing, self.page.view[2]), stack[-1])
        self.close(stack, open_groups, [])
        return stack[0][:3]

    def close(self, stack, open_groups, groups):
        """Ends the groups that are not among these, and lays each over what is below it."""
        while open_groups != groups[:len(open_groups)]:
            opacity = self.page.nodes["effect"][open_groups.pop()]["opacity"]
            group = stack.pop()
            stack[-1] = over(faded(group, opacity), stack[-1])

    def topmost(self, x, y):
        """The id of the uppermost layer that shows something at a pixel, or None."""
        return next((it.layer.id for it in reversed(self.layers) if it.colour(x, y, self.missing, self.page.view[2])[3]), None)

    def cuts(self, layers, axis):
        """Where something of these layers may begin or end along an axis, with the view's ends."""
        most, tile = self.page.view[axis], self.page.view[2]
        found = {0, most}
        for placed in layers:
            found.update((placed.box[axis], placed.box[axis + 2]))
            for box, paint in placed.items:
                found.update(range(box[axis], box[axis + 2] + 1) if isinstance(paint, str) else (box[axis], box[axis + 2]))
            for key in self.missing:
                if key[0] == placed.layer.id:
                    found.update((key[1 + axis] * tile + placed.place[axis], (key[1 + axis] + 1) * tile + placed.place[axis]))
        return sorted(it for it in found if 0 <= it <= most)

    def rows(self):
        """The rows of the picture, each as bytes."""
        lines = self.cuts(self.layers, 1)
        for top, bottom in zip(lines, lines[1:]):
            layers = [it.within(top, bottom) for it in self.layers if it.box[1] < bottom and it.box[3] > top]
            columns = self.cuts(layers, 0)
            row = b"".join(bytes(self.point(layers, left, top)) * (right - left) for left, right in zip(columns, columns[1:]))
            yield from [row] * (bottom - top)


def moved(rect, place):
    """A rect at its place, as left, top, right, bottom."""
    return rect[0] + place[0], rect[1] + place[1], rect[0] + place[0] + rect[2], rect[1] + place[1] + rect[3]


class Shown:
    """What the compositor shows, followed along the lines of a recording: the active page and its offsets."""

    def __init__(self, script):
        self.script = script
        self.page = page_model.Page(*script["viewport"], script["tile"])
        self.told, self.moved, self.own, self.committed, self.active = {}, {}, [], set(), None

    def enter(self, line):
        """Follows an event."""
        word, *fields = line.split(" ")
        if word == "send":
            self.told[int(fields[0])] = moves_of(fields[1:])
        elif word == "commit":
            self.committed.add(int(fields[0]))
        elif word == "scroll":
            x, y = map(int, fields[1].split(","))
            self.move([(self.script["inputs"][int(fields[0])]["scroller"], x, y)])
        elif word == "wheel":
            self.move(moves_of(fields[3:]))
        elif word == "activate":
            self.active = int(fields[0])
            self.move(moves_of(fields[1:]))

    def move(self, moves):
        for scroller, x, y in moves:
            before = self.moved.get(scroller, (0, 0))
            self.moved[scroller] = (before[0] + x, before[1] + y)

    def play(self, frame):
        """Does a main frame's commands, after the moves that it was told; keeps its own move of each scroller."""
        before = dict(self.page.places)
        for scroller, x, y in self.told.get(frame, []):
            if scroller in self.page.places:
                at = self.page.places[scroller]
                self.page.scroll(scroller, at[0] + x, at[1] + y)
        for command in self.script["main"][frame]:
            self.page.apply(command)
        told = {scroller: (x, y) for scroller, x, y in self.told.get(frame, [])}
        own = {}
        for scroller, (x, y) in self.page.places.items():
            was, by = before.get(scroller, (0, 0)), told.get(scroller, (0, 0))
            own[scroller] = (x - was[0] - by[0], y - was[1] - by[1])
        self.own.append(own)

    def offsets(self):
        """Where the scrollers of the active page stand. (An aborted frame moves none by itself.)"""
        while self.active is not None and len(self.own) <= self.active:
            self.play(len(self.own))
        found = dict(self.moved)
        for frame in self.committed.intersection(range(len(self.own))):
            for scroller, (x, y) in self.own[frame].items():
                before = found.get(scroller, (0, 0))
                found[scroller] = (before[0] + x, before[1] + y)
        return found

    def accepted(self, scroller, dx, dy):
        """How far a scroll moves a scroller of the active page."""
        offsets = self.offsets()
        if scroller not in self.page.nodes["scroller"]:
            return 0, 0
        node, (x, y) = self.page.nodes["scroller"][scroller], offsets.get(scroller, (0, 0))
        return min(max(x + dx, 0), node["max_x"]) - x, min(max(y + dy, 0), node["max_y"]) - y

    def scene(self, keys):
        """What is seen while these tiles are missing."""
        offsets = self.offsets()
        missing = {tuple(map(int, key.split("/")[:3])) for key in keys}
        return Scene(self.page, offsets, missing, self.script["background"])


def moves_of(fields):
    """The moves of a line: scroller, x, y."""
    return [(int(scroller), *map(int, amounts.split(","))) for scroller, amounts in (it.split(":") for it in fields)]

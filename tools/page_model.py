"""A page and its commands: which are refused, and what each makes of the page.

The rules are those of docs/FORMAT.md ("What the commands do") and of crates/page_layers/specs: `Refusals` has the
tests of each command in their order, `Outcomes` that layers have to stand together, `Effects` what a command does.
Commands are those of a script whose shape is right (script_shape.py).
"""
import dataclasses

MOST_NODES, MOST_LAYERS, MOST_ITEMS = 256, 64, 256
MOST_ID, MOST_SIDE, MOST_VIEWPORT, MOST_OFFSET, MOST_SCROLL = 65535, 16384, 2048, 65536, 2 ** 20
FAMILIES = ("transform", "clip", "effect", "scroller")
ID, OFFSET, SCROLL, PLACE = [(1, MOST_ID)], [(-MOST_OFFSET, MOST_OFFSET)], [(-MOST_SCROLL, MOST_SCROLL)], [(0, MOST_SCROLL)]
OPACITY, SIDE, VIEWPORT, TILE = [(0, 255)], [(1, MOST_SIDE)], [(1, MOST_VIEWPORT)], [(16, 256)]
CLIP_RECT = 2 * [(-MOST_OFFSET, MOST_OFFSET)] + 2 * [(0, MOST_OFFSET)]
ITEM_RECT = 2 * [(-MOST_SIDE, MOST_SIDE)] + 2 * [(1, MOST_SIDE)]
# The ranges of the fields that have one, in the order in which they are tested, after all other tests. A rect has four.
RANGES = {
    "add_transform": {"id": ID, "x": OFFSET, "y": OFFSET}, "set_transform": {"x": OFFSET, "y": OFFSET},
    "add_clip": {"id": ID, "rect": CLIP_RECT}, "set_clip": {"rect": CLIP_RECT},
    "add_effect": {"id": ID, "opacity": OPACITY}, "set_opacity": {"opacity": OPACITY},
    "add_scroller": {"id": ID, "max_x": PLACE, "max_y": PLACE}, "set_range": {"max_x": PLACE, "max_y": PLACE},
    "scroll_by": {"dx": SCROLL, "dy": SCROLL}, "scroll_to": {"x": PLACE, "y": PLACE},
    "add_layer": {"id": ID, "w": SIDE, "h": SIDE}, "resize_layer": {"w": SIDE, "h": SIDE},
    "insert_item": {"rect": ITEM_RECT}, "replace_item": {"rect": ITEM_RECT},
    "set_view": {"w": VIEWPORT, "h": VIEWPORT, "tile": TILE},
}


class Refused(Exception):
    """A command that the page refuses: the fault as the program tells it, the field that it is about, what the page
    has there, and what to do."""

    def __init__(self, fault, field, told, do):
        super().__init__(fault)
        self.fault, self.field, self.told, self.do = fault, field, told, do


@dataclasses.dataclass
class Layer:
    """A layer with its items: pairs of a rect and a paint, which is a colour or pixels."""
    id: int
    transform: int
    clip: int
    effect: int
    width: int
    height: int
    colour: str
    items: list = dataclasses.field(default_factory=list)


def listed(ids, what):
    """Which of a family there are."""
    ids = sorted(ids)
    shown = ", ".join(map(str, ids[:12])) + (", .." if len(ids) > 12 else "")
    return f"{what}s {shown}" if ids else f"there is no {what} yet"


class Page:
    """A page: its view, four families of nodes by their ids, its layers in order, and the scrollers' places."""

    def __init__(self, width, height, tile):
        self.view = (width, height, tile)
        self.nodes = {family: {} for family in FAMILIES}
        self.layers, self.used, self.places = [], {}, {}

    def apply(self, command, by=None):
        """Does a command, or refuses it with the page as it was. `by` is kept as who used a new id."""
        op = command["op"]
        getattr(self, f"test_{op}")(command)
        need_ranges(command)
        if op in MAY_PART:
            self.refuse_parted(command)
        getattr(self, op)(command)
        if op.startswith("add_"):
            self.used[op.removeprefix("add_"), command["id"]] = by

    # Tests

    def layer(self, id):
        """The layer with an id, or None."""
        return next((it for it in self.layers if it.id == id), None)

    def need_layer(self, command, field="id"):
        """The layer that a command names."""
        found = self.layer(command[field])
        if not found:
            gone = ("layer", command[field]) in self.used
            raise Refused("unknown id", field, f"layer {command[field]} was {'removed' if gone else 'never added'}",
                          f"name a layer that is there ({listed((it.id for it in self.layers), 'layer')}), or add it before")
        return found

    def need_node(self, family, command, field="id", is_root_fine=False):
        """The node of a family that a command names; 0 where the root will do."""
        id = command[field]
        if id not in self.nodes[family] and not (is_root_fine and id == 0):
            root = ", or 0, the root" if is_root_fine else ""
            told = "the root, 0, is never changed" if id == 0 else f"{family} {id} was never added"
            raise Refused("unknown id", field, told, f"name a {family} that is there ({listed(self.nodes[family], family)}){root}, or add it before")

    def need_new(self, family, command):
        """A new id, and room for one more of its family."""
        is_layer, id = family == "layer", command["id"]
        if (family, id) in self.used:
            told = f"{family} {id} was added by {self.used[family, id] or 'an earlier command'}"
            gone = " and was removed, and ids of layers are never free again" if is_layer and not self.layer(id) else ""
            free = next(it for it in range(1, MOST_ID + 1) if (family, it) not in self.used)
            raise Refused("id used", "id", told + gone, f"give it an id that no {family} has or had, as {free}")
        if is_layer:
            need_place(command, len(self.layers), "the page has {} layers")
        most, count = (MOST_LAYERS, len(self.layers)) if is_layer else (MOST_NODES, len(self.nodes[family]))
        if count >= most:
            raise Refused(f"too many, limit {most}", "id", f"there are {count} {family}s already", f"do with {most} {family}s: more is never taken")

    def test_add_transform(self, it):
        self.need_node("transform", it, "parent", True)
        self.need_node("scroller", it, "scroller", True)
        self.need_new("transform", it)

    def test_set_transform(self, it):
        self.need_node("transform", it)

    def test_add_clip(self, it):
        self.need_node("clip", it, "parent", True)
        self.need_node("transform", it, "transform", True)
        self.need_new("clip", it)

    def test_set_clip(self, it):
        self.need_node("clip", it)

    def test_add_effect(self, it):
        self.need_node("effect", it, "parent", True)
        self.need_new("effect", it)

    def test_set_opacity(self, it):
        self.need_node("effect", it)

    def test_add_scroller(self, it):
        self.need_node("scroller", it, "parent", True)
        self.need_new("scroller", it)

    def test_set_range(self, it):
        self.need_node("scroller", it)

    test_scroll_by = test_scroll_to = test_set_range

    def test_add_layer(self, it):
        for family in ("transform", "clip", "effect"):
            self.need_node(family, it, family, True)
        self.need_new("layer", it)

    def test_remove_layer(self, it):
        self.need_layer(it)

    test_resize_layer = test_set_colour = test_remove_layer

    def test_insert_item(self, it):
        items = self.need_layer(it, "layer").items
        need_place(it, len(items), f"layer {it['layer']} has {{}} items")
        if len(items) >= MOST_ITEMS:
            raise Refused(f"too many, limit {MOST_ITEMS}", "layer", f"layer {it['layer']} has {len(items)} items already",
                          "put it into a layer of its own, with the same transform and clip")

    def test_remove_item(self, it):
        need_place(it, len(self.need_layer(it, "layer").items) - 1, f"layer {it['layer']} has {{}} items", 1)

    test_replace_item = test_remove_item

    def test_move_layer(self, it):
        self.need_layer(it)
        need_place(it, len(self.layers) - 1, "the page has {} layers", 1)

    def test_set_view(self, it):
        pass

    def refuse_parted(self, command):
        """No layer between two of an effect that it is not in."""
        layers = self.layers
        self.layers = list(layers)
        try:
            getattr(self, command["op"])(command)
            parted = self.parted()
        finally:
            self.layers = layers
        if parted:
            effect, before, between, after = parted
            raise Refused("not nested", "at" if "at" in command else "id",
                          f"layers {before} and {after} are in effect {effect}, and layer {between}, which is not, would "
                          "come between them in the list of layers",
                          f"put the layer where those of effect {effect} stay together, or layer {between} into that effect")

    def effects_of(self, layer):
        """The effect of a layer and all above it, the innermost first."""
        effect = layer.effect
        while effect:
            yield effect
            effect = self.nodes["effect"][effect]["parent"]

    def parted(self):
        """An effect with two of its layers and one between them that is not in it, or None."""
        inside = [set(self.effects_of(layer)) for layer in self.layers]
        for effect in sorted(set().union(*inside)):
            places = [at for at, effects in enumerate(inside) if effect in effects]
            for at in range(places[0], places[-1]):
                if effect not in inside[at]:
                    before, after = max(it for it in places if it < at), min(it for it in places if it > at)
                    return effect, self.layers[before].id, self.layers[at].id, self.layers[after].id
        return None

    # Effects

    def add_node(self, family, it):
        self.nodes[family][it["id"]] = dict(it)

    def set_node(self, family, it):
        self.nodes[family][it["id"]].update(it)

    def add_transform(self, it):
        self.add_node("transform", it)

    def set_transform(self, it):
        self.set_node("transform", it)

    def add_clip(self, it):
        self.add_node("clip", it)

    def set_clip(self, it):
        self.set_node("clip", it)

    def add_effect(self, it):
        self.add_node("effect", it)

    def set_opacity(self, it):
        self.set_node("effect", it)

    def add_scroller(self, it):
        self.add_node("scroller", it)
        self.places[it["id"]] = (0, 0)

    def set_range(self, it):
        self.set_node("scroller", it)
        self.scroll(it["id"], *self.places[it["id"]])

    def scroll(self, id, x, y):
        """A scroller's place, kept in its range."""
        node = self.nodes["scroller"][id]
        self.places[id] = (min(max(x, 0), node["max_x"]), min(max(y, 0), node["max_y"]))

    def scroll_by(self, it):
        x, y = self.places[it["id"]]
        self.scroll(it["id"], x + it["dx"], y + it["dy"])

    def scroll_to(self, it):
        self.scroll(it["id"], it["x"], it["y"])

    def add_layer(self, it):
        self.layers.insert(it["at"], Layer(it["id"], it["transform"], it["clip"], it["effect"], it["w"], it["h"], it["colour"]))

    def remove_layer(self, it):
        self.layers.remove(self.layer(it["id"]))

    def resize_layer(self, it):
        layer = self.layer(it["id"])
        layer.width, layer.height = it["w"], it["h"]

    def set_colour(self, it):
        self.layer(it["id"]).colour = it["colour"]

    def insert_item(self, it):
        self.layer(it["layer"]).items.insert(it["at"], item_of(it))

    def remove_item(self, it):
        del self.layer(it["layer"]).items[it["at"]]

    def replace_item(self, it):
        self.layer(it["layer"]).items[it["at"]] = item_of(it)

    def move_layer(self, it):
        layer = self.layer(it["id"])
        self.layers.remove(layer)
        self.layers.insert(it["at"], layer)

    def set_view(self, it):
        self.view = (it["w"], it["h"], it["tile"])


# The commands after which layers may no longer stand together: a layer that goes parts none, and a new effect has none.
MAY_PART = {"add_layer", "move_layer"}


def item_of(command):
    """The item that a command brings: its rect and its paint."""
    return command["rect"], command["colour"] if "colour" in command else command["pixels"]


def need_ranges(command):
    """Each number of a command in its range: the first that is not is told, of a rect's numbers the first."""
    for field, ranges in RANGES.get(command["op"], {}).items():
        numbers = command[field] if field == "rect" else [command[field]]
        for value, (low, high) in zip(numbers, ranges):
            if not low <= value <= high:
                raise Refused(f"{value} out of range, limit {low if value < low else high}", field, f"the range is {low} to {high}",
                              f"write a number from {low} to {high}")


def need_place(command, last, told, less=0):
    """A place that is at most the last one; `told` has a gap for how many there are."""
    if command["at"] > last:
        count = last + less
        places = "insert one first" if last < 0 else "write 0" if last == 0 else f"write 0 to {last}"
        raise Refused("bad place", "at", told.format(count), places)


def refusal(script):
    """The first command of a script that is refused: its main frame, its place there, and the fault; or None."""
    page = Page(*script["viewport"], script["tile"])
    for number, commands in enumerate(script["main"]):
        for at, command in enumerate(commands):
            try:
                page.apply(command, f"main frame {number}, command {at}")
            except Refused as refused:
                return number, at, refused
    return None

"""What the wheels and scrolls of a script move, as far as the script alone tells it."""
import dataclasses

import page_model
import painting

# How many wheels and scrolls are looked at.
MOST_LOOKED = 4096
SCROLLING = ("scroll", "wheel")


@dataclasses.dataclass
class Scrolled:
    """What a wheel or scroll did: its input, the layer below a wheel (0 where there is none), the moves of scrollers, and
    why it moved nothing, where it did not."""
    place: int
    layer: int
    moves: list
    why: str


def page_scrolled(script):
    """The page that all wheels and scrolls find: where the first of them comes after an await of the last main frame that
    has a command. Else which page one finds is up to the run, and the answer is None."""
    last = max((number for number, commands in enumerate(script["main"]) if commands), default=-1)
    awaited = -1
    for it in script["inputs"]:
        if it["op"] == "await":
            awaited = max(awaited, it["frame"])
        elif it["op"] in SCROLLING:
            break
    if awaited < last:
        return None
    page = page_model.Page(*script["viewport"], script["tile"])
    for commands in script["main"]:
        for command in commands:
            page.apply(command)
    return page


class Wheels:
    """A page whose scrollers move: docs/FORMAT.md, "Inputs"."""

    def __init__(self, page):
        self.page, self.boxes = page, None

    def boxes_seen(self):
        """The layers from the topmost down, each with its box; not those under an opacity of 0."""
        if self.boxes is None:
            places, effects = painting.Places(self.page, self.page.places), self.page.nodes["effect"]
            shown = [it for it in reversed(self.page.layers) if all(effects[id]["opacity"] for id in self.page.effects_of(it))]
            self.boxes = [(it, painting.meet(painting.moved((0, 0, it.width, it.height), places.translation(it.transform)),
                                             places.clip_box(it.clip))) for it in shown]
        return self.boxes

    def chain(self, layer):
        """The scrollers that take a wheel over a layer, the nearest first."""
        transform, scroller, found = layer.transform, 0, []
        while transform and not scroller:
            node = self.page.nodes["transform"][transform]
            scroller, transform = node["scroller"], node["parent"]
        while scroller:
            found.append(scroller)
            scroller = self.page.nodes["scroller"][scroller]["parent"]
        return found

    def moved(self, scroller, dx, dy):
        """Moves a scroller as far as it goes, and tells how far."""
        x, y = self.page.places[scroller]
        self.page.scroll(scroller, x + dx, y + dy)
        to = self.page.places[scroller]
        if to != (x, y):
            self.boxes = None
        return to[0] - x, to[1] - y

    def scroll(self, place, it):
        """A scroll of a scroller that the page has."""
        by = self.moved(it["scroller"], it["dx"], it["dy"])
        why = "" if by != (0, 0) else f"scroller {it['scroller']} can go no further that way"
        return Scrolled(place, 0, [(it["scroller"], *by)], why)

    def wheel(self, place, it):
        """A wheel at a point of the screen."""
        at = f"at {it['x']}, {it['y']}"
        layer = next((layer for layer, box in self.boxes_seen() if painting.holds(box, it["x"], it["y"])), None)
        if layer is None:
            return Scrolled(place, 0, [], f"no layer lies {at}")
        chain, dx, dy, moves = self.chain(layer), it["dx"], it["dy"], []
        for scroller in chain:
            x, y = self.moved(scroller, dx, dy)
            dx, dy = dx - x, dy - y
            moves += [(scroller, x, y)] if (x, y) != (0, 0) else []
        why = ""
        if not chain:
            why = (f"layer {layer.id} is uppermost {at}, painted or not, and no transform of it names a scroller; aim "
                   "elsewhere, or make that layer smaller")
        elif not moves:
            why = f"scroller{'s' * (len(chain) > 1)} {', '.join(map(str, chain[:4]))} of layer {layer.id} {at} can go no further that way"
        return Scrolled(place, layer.id, moves, why)


def scrolled(script):
    """What each wheel and scroll did, where the script alone tells it; those of unknown scrollers are left out."""
    page = page_scrolled(script)
    if page is None:
        return
    wheels, looked = Wheels(page), 0
    for place, it in enumerate(script["inputs"]):
        if it["op"] not in SCROLLING or it["op"] == "scroll" and it["scroller"] not in page.places:
            continue
        looked += 1
        if looked > MOST_LOOKED:
            return
        yield wheels.wheel(place, it) if it["op"] == "wheel" else wheels.scroll(place, it)


def remarks(script):
    """Wheels and scrolls that move nothing, those of one cause together."""
    groups = []
    for it in scrolled(script):
        if groups and groups[-1][0].why == it.why:
            groups[-1].append(it)
        else:
            groups.append([it])
    for group in groups:
        if group[0].why:
            op = script["inputs"][group[0].place]["op"]
            what = f"the {op} of input {group[0].place} moves" if len(group) == 1 else \
                f"the {len(group)} {op}s of inputs {group[0].place} to {group[-1].place} move"
            yield f"{what} nothing: {group[0].why}"

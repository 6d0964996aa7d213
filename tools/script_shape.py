"""The shape of a script: the fields of its objects, their forms, and the first that is wrong.

The rules are those of docs/FORMAT.md ("Numbers, colours, rects" to "The place of a fault") and of the definitions in
crates/script_json/specs (`Reading`, `CommandReading`, `ItemReading`, `InputReading`)
and crates/script_fields/specs (`Forms`, `Fields`). A field's number is its place in the tables below, from 1.
"""
import dataclasses
import re
from collections.abc import Callable

import command_fields
from command_fields import SECOND_VERSION

MOST_FRAMES, MOST_INPUTS, MOST_DRAWS = 4096, 65536, 4096
MOST_SCROLL, MOST_ID, MOST_WHOLE, MOST_SIGNED = 2 ** 20, 65535, 2 ** 32 - 1, 2 ** 31 - 1
MOST_PICTURE_SIDE = 256
NO_LIST, FURTHER = 98, 99
SIX, EIGHT = re.compile(r"[0-9a-f]{6}"), re.compile(r"[0-9a-f]{8}")


def is_whole(value):
    """Whether a value is a whole number that 64 bits hold."""
    return type(value) is int


@dataclasses.dataclass(frozen=True)
class Form:
    """A form of values: its kind, what it is in words, and whether a value has it."""
    kind: str
    wanted: str
    takes: Callable[[object], bool]


def whole_from(low, high):
    """A whole number in a range."""
    kind = "whole" if low >= 0 else "signed"
    return Form(kind, f"a whole number from {low} to {high}", lambda it: is_whole(it) and low <= it <= high)


def is_premultiplied(digits):
    """Whether red, green and blue of eight digits are at most alpha."""
    return max(digits[0:2], digits[2:4], digits[4:6]) <= digits[6:8]


def is_colour(value):
    return isinstance(value, str) and bool(EIGHT.fullmatch(value)) and is_premultiplied(value)


def is_rect(value):
    return isinstance(value, list) and len(value) == 4 and all(SIGNED.takes(it) for it in value)


def sides_to(most):
    """A list of width and height."""
    return Form("sides", f"a list of width and height, each a whole number from 1 to {most}",
                lambda it: isinstance(it, list) and len(it) == 2 and all(is_whole(side) and 1 <= side <= most for side in it))


def list_to(most, what):
    """A list of at most the given number of elements."""
    return Form("list", f"a list of at most {most} {what}", lambda it: isinstance(it, list) and len(it) <= most)


def picture_of(rect):
    """The pixels of a bitmap in this rect."""
    width, height = rect[2:]
    if not (1 <= width <= MOST_PICTURE_SIDE and 1 <= height <= MOST_PICTURE_SIDE):
        return Form("pixels", f"the sides of a bitmap's rect are 1 to {MOST_PICTURE_SIDE}; this one is {width} by {height}", lambda it: False)
    digits = 8 * width * height

    def takes(it):
        return isinstance(it, str) and len(it) == digits and all(is_colour(it[at:at + 8]) for at in range(0, digits, 8))
    return Form("pixels", f"a text of {digits} digits, eight for each pixel of the rect ({width} by {height}), each "
                "pixel red, green, blue, alpha, with none above alpha", takes)


WHOLE, SIGNED = whole_from(0, MOST_WHOLE), whole_from(-MOST_SIGNED - 1, MOST_SIGNED)
AMOUNT, POINT = whole_from(-MOST_SCROLL, MOST_SCROLL), whole_from(0, 2047)
OPAQUE = Form("opaque", "a text of six digits 0-9 a-f: red, green, blue", lambda it: isinstance(it, str) and bool(SIX.fullmatch(it)))
COLOUR = Form("colour", "a text of eight digits 0-9 a-f: red, green, blue, alpha, with none of the first three above alpha", is_colour)
RECT = Form("rect", f"a list of four whole numbers from {-MOST_SIGNED - 1} to {MOST_SIGNED}: x, y, width, height", is_rect)
PRIORITY = Form("word", '"same", "smooth" or "new"', lambda it: it in ("same", "smooth", "new"))
OBJECT = Form("object", "an object", lambda it: isinstance(it, dict))
PAINT = ("colour", "pixels")

FORMS = {"whole": WHOLE, "signed": SIGNED, "rect": RECT, "colour": COLOUR}


def fields_of(command):
    """The fields of a command after `op`, in their order. The paint of an item stands for one of two members."""
    for field in command.fields:
        yield from [("rect", RECT), ("paint", None)] if field.form == "item" else [(field.name, FORMS[field.form])]


COMMANDS = {it.name: list(fields_of(it)) for it in command_fields.read_commands()}
INPUTS = {
    "scroll": [("scroller", whole_from(1, MOST_ID)), ("dx", AMOUNT), ("dy", AMOUNT)],
    "wheel": [("x", POINT), ("y", POINT), ("dx", AMOUNT), ("dy", AMOUNT)],
    "draw": [],
    "await": [("frame", WHOLE)],
    "settle": [],
}
TOP = ("version", "viewport", "tile", "background", "budget", "raster_per_frame", "soon", "eventually", "priority",
       "main", "inputs")


@dataclasses.dataclass(frozen=True)
class ShapeFault:
    """The first fault of a script's shape. `path` leads to the value at fault, or to the object that lacks it or has
    a member too many; `cause` is one of missing, form, op, object, draws, both, further; `name` the field's."""
    list: int
    index: int
    field: int
    path: tuple
    cause: str
    name: str = ""
    form: Form | None = None

    @property
    def line(self):
        """What the program says of it."""
        return f"cc: shape: list {self.list} index {self.index} field {self.field}"


class Wrong(Exception):
    """The fault of one object: the number of its field, the path below the object, and what is wrong there."""

    def __init__(self, field, path, cause, name="", form=None):
        super().__init__(cause)
        self.field, self.path, self.cause, self.name, self.form = field, path, cause, name, form


def take(value, field, name, form):
    """The member of an object, which has to have its form."""
    if name not in value:
        raise Wrong(field, (), "missing", name, form)
    if not form.takes(value[name]):
        raise Wrong(field, (name,), "form", name, form)
    return value[name]


def take_paint(value, field):
    """The paint of an item: one of two members."""
    stand = [name for name in PAINT if name in value]
    if not stand:
        raise Wrong(field, (), "missing", "colour", COLOUR)
    if len(stand) == 2:
        raise Wrong(field, (), "both", "paint")
    take(value, field, stand[0], COLOUR if stand == ["colour"] else picture_of(value["rect"]))


def refuse_further(value, names):
    """No other members than these."""
    further = [name for name in value if name not in names]
    if further:
        raise Wrong(FURTHER, (further[0],), "further", further[0])


def take_fields(value, fields):
    """All fields of a command or an input after `op`, and no other."""
    for field, (name, form) in enumerate(fields, 1):
        if name == "paint":
            take_paint(value, field)
        else:
            take(value, field, name, form)
    refuse_further(value, {"op", *(name for name, _ in fields), *(PAINT if ("paint", None) in fields else ())})


def take_op(value, names):
    """The name of a command or an input, one of these."""
    if not isinstance(value, dict):
        raise Wrong(0, (), "object", form=OBJECT)
    if "op" not in value:
        raise Wrong(0, (), "missing", "op")
    if not isinstance(value["op"], str) or value["op"] not in names:
        raise Wrong(0, ("op",), "op", "op")
    return value["op"]


def take_head(value):
    """The first nine fields of the top object."""
    if not isinstance(value, dict):
        raise Wrong(0, (), "object", form=OBJECT)
    version = take(value, 1, "version", whole_from(1, 2))
    take(value, 2, "viewport", sides_to(1024 if version == 1 else 2048))
    take(value, 3, "tile", whole_from(16, 256))
    take(value, 4, "background", OPAQUE)
    take(value, 5, "budget", whole_from(0, 4096))
    take(value, 6, "raster_per_frame", whole_from(0, 4096))
    soon = take(value, 7, "soon", whole_from(0, 512))
    take(value, 8, "eventually", whole_from(soon, 512))
    take(value, 9, "priority", PRIORITY)


def take_top(value):
    """The top object; what its lists hold is not looked at."""
    take_head(value)
    take(value, 10, "main", list_to(MOST_FRAMES, "main frames"))
    take(value, 11, "inputs", list_to(MOST_INPUTS, "inputs"))
    refuse_further(value, TOP)


def take_command(value, version):
    op = take_op(value, [it for it in COMMANDS if version == 2 or it not in SECOND_VERSION])
    take_fields(value, COMMANDS[op])


def take_input(value, frames, draws):
    """An input of a script of the given number of main frames, after the given number of draws."""
    op = take_op(value, INPUTS)
    if op == "draw" and draws == MOST_DRAWS:
        raise Wrong(0, (), "draws", "op")
    take_fields(value, [("frame", frame_of(frames))] if op == "await" else INPUTS[op])


def frame_of(frames):
    """The number of one of the main frames."""
    numbers = f", from 0 to {frames - 1}" if frames > 1 else ": 0, which is the only one" if frames else ", and there is none"
    wanted = f"the number of a main frame{numbers}"
    return Form("frame", wanted, lambda it: is_whole(it) and 0 <= it < frames)


def faults(script):
    """The faults of a script's parts in their order, each with the list and the index: an iterator of calls that were
    refused."""
    yield 0, 0, (), lambda: take_top(script)
    for number, commands in enumerate(script["main"]):
        path = ("main", number)
        if not isinstance(commands, list):
            yield 2 + number, 0, path, refuse_frame
        for at, command in enumerate(commands):
            yield 2 + number, at, (*path, at), lambda it=command: take_command(it, script["version"])
    draws = 0
    for at, it in enumerate(script["inputs"]):
        yield 1, at, ("inputs", at), lambda it=it, draws=draws: take_input(it, len(script["main"]), draws)
        draws += it["op"] == "draw"


def refuse_frame():
    raise Wrong(NO_LIST, (), "form", "", Form("list", "a main frame, which is a list of commands", lambda it: False))


def first_fault(script):
    """The first fault of a JSON value that is to be a script, or None."""
    for number, at, path, take_part in faults(script):
        try:
            take_part()
        except Wrong as wrong:
            return ShapeFault(number, at, wrong.field, (*path, *wrong.path), wrong.cause, wrong.name, wrong.form)
    return None

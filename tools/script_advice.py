"""What to do about a fault of a script: one sentence for each, with a guess at what was meant where there is one."""
import difflib
import json
import re

import json_places
import page_model
import script_shape as shape

# Names that other formats use, and ours.
ALIASES = {
    "color": "colour", "fill": "colour", "width": "w", "height": "h", "bounds": "rect", "rectangle": "rect",
    "frames": "main", "commands": "main", "events": "inputs", "tile_size": "tile", "z": "at", "index": "at",
    "position": "at", "type": "op", "command": "op", "name": "op", "delta_x": "dx", "delta_y": "dy", "alpha": "opacity",
    "raster": "raster_per_frame", "size": "viewport", "layer_id": "layer", "number": "frame", "id": "scroller",
}
HEX = re.compile(r"[0-9a-f]+")


def shown(value, most=60):
    """A value as JSON, cut where it is long."""
    text = json.dumps(value, ensure_ascii=False)
    return text if len(text) <= most else text[:most] + " .."


def likely_name(wanted, names):
    """The name among these that was meant to be the wanted one, or None."""
    for name in names:
        if name.lower() == wanted or ALIASES.get(name.lower()) == wanted:
            return name
    near = difflib.get_close_matches(wanted, names, 1, 0.7)
    return near[0] if near else None


# JSON

def for_json(text, fault):
    """What to do about a text that is no JSON."""
    rest = text[fault.at:fault.at + 40]
    if not text.strip():
        return "give a script: the program reads one from standard input, as in cc_player step 1 < page.json"
    if text[:1] == "\ufeff":
        return "save the file as UTF-8 without a byte order mark"
    if text.startswith("cc1\n"):
        return "give step and play a script; what a recording holds is told by frames, check and tools/recording.py"
    if json_places.is_cut(text, fault):
        return "write the rest: a bracket or a quote that was opened is not closed"
    for begins, advice in COMMON.items():
        if re.match(begins, rest):
            return advice
    if "before" in fault.why:
        return "take out the comma before the closing bracket"
    if "comma" in fault.why:
        return for_comma(text, fault)
    if "deep" in fault.why:
        return "take out the nested value: no script is more than five deep"
    return OTHERS.get(fault.why, "write it as JSON: docs/FORMAT.md begins with an example")


def for_comma(text, fault):
    """What to do where neither a comma nor the closing bracket comes after an element."""
    what, closing, part = ("object", "}", "member") if "}" in fault.why else ("list", "]", "element")
    follows = json_places.SPACE.match(text, fault.at).end()
    if re.compile("0[0-9xX]").match(text, fault.at - 1):
        return "write the number in plain decimal, without leading zeros or a prefix"
    if what == "list" and re.compile(r':|"[^"\n]*"\s*:').match(text, follows):
        return "close the list before this name: names with a colon stand in objects alone"
    if json_places.NEXT[closing].match(text, follows):
        line, _ = json_places.line_and_column(text, follows)
        is_below = line > json_places.line_and_column(text, fault.at)[0]
        return f"put a comma here: another {part} follows" + (f", on line {line}" if is_below else "")
    if text[follows:follows + 1] in ("]", "}"):
        return f"close the {what} with {closing} before this bracket"
    return f"take out what stands here: after the {part} before it a comma or {closing} is due"


COMMON = {
    r"//|/\*|#": "take out the comment: JSON has none",
    r"'": "put names and texts in double quotes",
    r"[A-Za-z_]+\s*:": "put the name in double quotes",
    r"True|False|None|NaN|-?Infinity|undefined": "write true, false, null or a number: JSON has no other words",
    r"[-+]?0[xX0-9]|\+|\.": "write the number in plain decimal, without a plus, a leading zero or a prefix",
}
OTHERS = {
    "more stands after the value": "give one script a run: take out what stands after its closing bracket",
    "a colon is due after the name": "put a colon between the name and its value",
    "a name in double quotes is due": "put names in double quotes, each with a colon and a value after it",
    "a string with half of a surrogate pair": "write the character itself, in UTF-8",
    "no escape of JSON begins like this": "write a backslash as two: \\\\",
    "a line break, a tab or another control character stands in a string": "keep a text on one line, without tabs",
    "a number that is too large for any reader": "write a number that a field takes: none is above 4294967295",
}


# Shape

def for_shape(fault, value, owner):
    """What to do about a fault of shape: `value` is what stands at its path, `owner` the object that has the field."""
    if fault.cause == "missing":
        return for_missing(fault, owner)
    if fault.cause == "op":
        return for_op(fault, value)
    if fault.cause == "further":
        return f"take {shown(fault.name)} out, or mend its spelling: the members are {', '.join(members_of(fault, owner))}"
    if fault.cause == "both":
        return 'keep one of "colour" and "pixels"'
    if fault.cause == "draws":
        return f"leave draws out: a script has at most {shape.MOST_DRAWS}"
    if fault.cause == "object":
        return "write an object here, in braces"
    return for_form(fault.form, value) or f"write {wanted_of(fault, owner)}"


def for_missing(fault, owner):
    known = members_of(fault, owner)
    likely = likely_name(fault.name, [it for it in owner if it not in known])
    if likely:
        return f"write {shown(fault.name)} for {shown(likely)}"
    either = ' or "pixels"' if fault.name == "colour" and "rect" in owner else ""
    return f"add {shown(fault.name)}{either}: {wanted_of(fault, owner)}"


def wanted_of(fault, owner):
    """What a field takes: of a number that has a range in the page, that one."""
    ranges = page_model.RANGES.get(owner.get("op"), {}).get(fault.name, ()) if isinstance(owner.get("op"), str) else ()
    if len(ranges) == 1 and fault.list > 1:
        return "a whole number from {} to {}".format(*ranges[0])
    return fault.form.wanted if fault.form else "the name of a command or an input"


def members_of(fault, owner):
    """The members that the object at fault has by the tables."""
    if fault.list == 0:
        return list(shape.TOP)
    fields = {**shape.COMMANDS, **shape.INPUTS}.get(owner.get("op"), []) if isinstance(owner.get("op"), str) else []
    names = [name for name, _ in fields if name != "paint"]
    return ["op", *names, *(shape.PAINT if ("paint", None) in fields else ())]


def for_op(fault, value):
    own, other = (shape.INPUTS, shape.COMMANDS) if fault.list == 1 else (shape.COMMANDS, shape.INPUTS)
    if not isinstance(value, str):
        return f"write one of {', '.join(own)}"
    if value in shape.SECOND_VERSION and fault.list != 1:
        return f'write "version": 2: version 1 has no {value}'
    if value in other:
        return f"move it to {'main: it is a command' if fault.list == 1 else 'inputs: it is an input, not a command'}"
    near = likely_ops(value.lower(), own)
    return f"write {' or '.join(map(shown, near))}" if near else f"write one of {', '.join(own)}"


def likely_ops(wanted, names):
    """The names that were most likely meant: those for the same thing, or else the nearest."""
    thing = wanted.rsplit("_", 1)[-1]
    return [it for it in names if it.endswith(f"_{thing}") and "_" in wanted][:4] or difflib.get_close_matches(wanted, names, 1, 0.6)


def for_form(form, value):
    """What was likely meant by a value that is not of its form, or None."""
    return GUESSES.get(form.kind, lambda value: None)(value)


def number_guess(value):
    if isinstance(value, float) and value.is_integer() and abs(value) < 2 ** 53:
        return f"write {int(value)}: numbers have no point, no exponent and no -0"
    if isinstance(value, float):
        return "write a whole number: pixels are not divided"
    if isinstance(value, str) and re.fullmatch(r"-?(0|[1-9][0-9]*)", value):
        return f"write {value} without quotes"
    return None


def listed_guess(count, what):
    """A guess for a list of numbers."""
    def guess(value):
        if not isinstance(value, list) or len(value) != count:
            return f"write a list of {what}"
        wrong = next((it for it in value if not shape.is_whole(it)), None)
        return wrong is not None and number_guess(wrong) or None
    return guess


def plain_digits(value):
    """Digits of a colour as they may have been meant: lower case, without what stands before them; or None."""
    text = value.strip().lower().removeprefix("#").removeprefix("0x") if isinstance(value, str) else ""
    text = "".join(2 * it for it in text) if len(text) in (3, 4) else text
    return text if len(text) in (6, 8) and HEX.fullmatch(text) else None


def colour_guess(value):
    digits = plain_digits(value)
    if not digits:
        return None
    digits = digits if len(digits) == 8 else digits + "ff"
    if shape.is_premultiplied(digits):
        return f"write {shown(digits)}: {why_rewritten(value, digits)}"
    return (f"write {shown(premultiplied(digits))}, if {digits[:6]} at alpha {digits[6:]} was meant: red, green and blue are "
            "multiplied by alpha beforehand")


def why_rewritten(value, digits):
    """What is changed in a colour."""
    changes = {"no sign before the digits": not value[:1].isalnum() or value[:2].lower() == "0x",
               "lower case": value != value.lower(), "eight digits, of which the last two are alpha": len(value.lstrip("#")) < 8 == len(digits),
               "six digits, without alpha": len(digits) == 6 and len(value) != 6}
    return ", ".join(what for what, holds in changes.items() if holds) or "the digits alone"


def premultiplied(digits):
    """Eight digits of straight alpha, with red, green and blue multiplied by it."""
    alpha = int(digits[6:], 16)
    return "".join(f"{(int(digits[at:at + 2], 16) * alpha + 127) // 255:02x}" for at in (0, 2, 4)) + digits[6:]


def opaque_guess(value):
    digits = plain_digits(value)
    return f"write {shown(digits[:6])}: {why_rewritten(value, digits[:6])}" if digits else None


GUESSES = {
    "whole": number_guess, "signed": number_guess, "frame": number_guess, "colour": colour_guess, "opaque": opaque_guess,
    "rect": listed_guess(4, "four numbers: x, y, width, height"), "sides": listed_guess(2, "two numbers: width, height"),
}


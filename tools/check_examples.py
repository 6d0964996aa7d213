#!/usr/bin/env python3
"""Checks docs/script.schema.json against the scripts in examples/ and docs/tutorial/.

usage: tools/check_examples.py

What command_fields.py makes must be as it makes it; the schema must be one of its draft and have the fields that
script_shape.py has, and each example must be valid by it. Of each of the changed scripts below it must say one fault,
at the place of the change. It needs the Python package jsonschema (Debian's python3-jsonschema); if that is not to be
had, it says so and checks the commands alone.
"""
import copy
import json
import pathlib
import sys

sys.dont_write_bytecode = True
import command_fields
import script_shape

ROOT = pathlib.Path(__file__).resolve().parent.parent

# A script of one main frame: a layer with an item, a wait and a draw.
BASE = {
    "version": 1, "viewport": [4, 4], "tile": 16, "background": "ffffff", "budget": 8, "raster_per_frame": 0,
    "soon": 0, "eventually": 0, "priority": "same",
    "main": [[
        {"op": "add_layer", "id": 1, "at": 0, "transform": 0, "clip": 0, "effect": 0, "w": 4, "h": 4,
         "colour": "00000000"},
        {"op": "insert_item", "layer": 1, "at": 0, "rect": [0, 0, 2, 2], "colour": "ff0000ff"},
    ]],
    "inputs": [{"op": "await", "frame": 0}, {"op": "draw"}],
}

# What is changed, where it stands, and the value there; None takes the member out.
CHANGES = [
    ("a version that is not there", ["version"], 3),
    ("no viewport", ["viewport"], None),
    ("a viewport of one side", ["viewport"], [4]),
    ("a tile below 16", ["tile"], 15),
    ("a colour in upper case", ["background"], "FFFFFF"),
    ("a number with a point", ["budget"], 8.5),
    ("a priority without a meaning", ["priority"], "none"),
    ("a further member", ["speed"], 1),
    ("a command without a name", ["main", 0, 0, "op"], None),
    ("a command that is not there", ["main", 0, 0, "op"], "add_picture"),
    ("a further field of a command", ["main", 0, 0, "name"], "page"),
    ("an id that is a text", ["main", 0, 0, "id"], "1"),
    ("a rect of three numbers", ["main", 0, 1, "rect"], [0, 0, 2]),
    ("an item of both paints", ["main", 0, 1, "pixels"], "ff0000ff"),
    ("an item of no paint", ["main", 0, 1, "colour"], None),
    ("a main frame that is no list", ["main", 0], {}),
    ("a view in version 1", ["main", 0, 1], {"op": "set_view", "w": 4, "h": 4, "tile": 16}),
    ("a viewport that version 1 does not have", ["viewport"], [1025, 4]),
    ("an input that is not there", ["inputs", 1, "op"], "touch"),
]


def changed(place, value):
    """The base script with another value at a place."""
    script = copy.deepcopy(BASE)
    inner = script
    for step in place[:-1]:
        inner = inner[step]
    if value is None:
        del inner[place[-1]]
    else:
        inner[place[-1]] = value
    return script


def is_told(errors, place):
    """Whether the one fault is at a place, or is that its object lacks it or has it."""
    paths = [list(it.absolute_path) for it in errors]
    return len(paths) == 1 and (paths[0] == place[:-1] or paths[0][:len(place)] == place)


def other_fields(schema):
    """The commands and inputs whose fields in the schema are not those of the tables."""
    tables = [("", script_shape.COMMANDS), ("input_", script_shape.INPUTS)]
    for name, fields, key in ((name, fields, begins + name) for begins, table in tables for name, fields in table.items()):
        wanted = {"op"} | {it for field, _ in fields for it in (script_shape.PAINT if field == "paint" else [field])}
        if set(schema["$defs"][key]["properties"]) != wanted:
            yield name


def main():
    if not command_fields.is_all_made():
        return 1
    try:
        import jsonschema
    except ImportError:
        print("check_examples: jsonschema is not installed, so the schema is not checked")
        return 0
    schema = json.loads((ROOT / "docs" / "script.schema.json").read_text())
    draft = jsonschema.Draft202012Validator
    draft.check_schema(schema)
    validator = draft(schema)
    is_valid = validator.is_valid
    examples = sorted([*(ROOT / "examples").glob("*.json"), *(ROOT / "docs" / "tutorial").glob("*.json")])
    wrong = [f"{path.name} is refused" for path in examples if not is_valid(json.loads(path.read_text()))]
    wrong += [] if is_valid(BASE) else ["the script to be changed is refused"]
    for what, place, value in CHANGES:
        errors = list(validator.iter_errors(changed(place, value)))
        if not is_told(errors, place):
            wrong.append(f"not told at its place: {what}, but at {[list(it.absolute_path) for it in errors]}")
    wrong += [f"other fields than in script_shape.py: {name}" for name in other_fields(schema)]
    for line in wrong:
        print(f"check_examples: {line}", file=sys.stderr)
    print(f"check_examples: {len(examples)} examples, {len(CHANGES)} changed scripts, {len(wrong)} wrong")
    return 1 if wrong or not examples else 0


if __name__ == "__main__":
    sys.exit(main())

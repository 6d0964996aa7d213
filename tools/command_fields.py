#!/usr/bin/env python3
"""The fields of each command, in their order, and its number for C, as crates/page_layers/src/command.rt lists them.

    command_fields.py           fails if what is made from that list is not as it would be made
    command_fields.py --write   makes it

A command is a struct; its comment and those of its fields are the descriptions. Made are the commands of
docs/script.schema.json, and what stands between two lines that say so in docs/FORMAT.md (the table of fields) and in
include/cc.h, clients/python/cc.py and clients/rust/src/lib.rs (a function for each command): client_commands.py.
"""
import dataclasses
import json
import pathlib
import re
import sys

import client_commands

ROOT = pathlib.Path(__file__).resolve().parent.parent
SOURCE = ROOT / "crates" / "page_layers" / "src" / "command.rt"
SCHEMA = ROOT / "docs" / "script.schema.json"
FORMS = {"u32": "whole", "i32": "signed", "Rect": "rect", "Colour": "colour", "Item": "item"}
# The commands of version 2 alone.
SECOND_VERSION = {"set_view"}


@dataclasses.dataclass(frozen=True)
class Field:
    """A field: its name, its form and what it is. An item has the members `rect`, and `colour` or `pixels`."""
    name: str
    form: str
    text: str


@dataclasses.dataclass(frozen=True)
class Command:
    """A command: its name in scripts, what it does, and its fields."""
    name: str
    text: str
    fields: tuple
    number: int


def words_of(comment):
    """The text of `///` lines."""
    return " ".join(line.strip().removeprefix("///").strip() for line in comment.strip().splitlines())


def snake(name):
    return re.sub(r"(?<!^)([A-Z])", r"_\1", name).lower()


def read_commands(source=SOURCE):
    """The commands, in the order of the enum."""
    text = source.read_text()
    variants = re.findall(r"((?:    ///.*\n)+)    (\w+)\(\2\),\n", text)
    structs = dict(re.findall(r"pub struct (\w+) \{\n((?:    .*\n)+)\}\n", text))
    numbers = {name: int(number) for number, name in re.findall(r" (\d+) => Some\(Op::(\w+)\)", text)}
    commands = []
    for comment, name in variants:
        fields = re.findall(r"((?:    ///.*\n)+)    pub (\w+): (\w+),\n", structs[name])
        commands.append(Command(snake(name), words_of(comment), tuple(Field(it, FORMS[kind], words_of(what)) for what, it, kind in fields), numbers[name]))
    return commands


def member(form, text):
    return {"$ref": f"#/$defs/{form}", "description": text}


def form_of(command):
    """A command's form in the schema."""
    members, required, paint = {}, [], {}
    for field in command.fields:
        if field.form != "item":
            members[field.name] = member(field.form, field.text)
            required.append(field.name)
            continue
        members |= {"rect": member("rect", field.text), "colour": {"$ref": "#/$defs/colour"}, "pixels": {"$ref": "#/$defs/pixels"}}
        required.append("rect")
        paint = {"if": {"required": ["pixels"]}, "then": {"properties": {"colour": False}}, "else": {"required": ["colour"]}}
    text = command.text + (" In version 2 alone." if command.name in SECOND_VERSION else "")
    return {"description": text, "properties": {"op": True} | members, "required": required, "additionalProperties": False} | paint


def made(schema, commands):
    """The schema with these commands."""
    names = [it.name for it in commands]
    old = schema["$defs"]
    rules = [{"if": {"properties": {"op": {"const": name}}, "required": ["op"]}, "then": {"$ref": f"#/$defs/{name}"}} for name in names]
    definitions = {}
    for key, form in old.items():
        if key == "command":
            op = old[key]["properties"]["op"] | {"enum": names}
            definitions[key] = form | {"properties": form["properties"] | {"op": op}, "allOf": rules}
            definitions |= {it.name: form_of(it) for it in commands}
        elif "op" not in form.get("properties", {}) or key.startswith("input"):
            definitions[key] = form
    return schema | {"$defs": definitions}


def texts_made():
    """Each file that has a part made from the list, and its text with that part made."""
    commands = read_commands()
    schema = json.dumps(made(json.loads(SCHEMA.read_text()), commands), indent=2) + "\n"
    return [(SCHEMA, schema)] + client_commands.texts_made(commands, SECOND_VERSION)


def is_all_made():
    """Whether all parts are made from the list; else says how to make them."""
    wrong = [path for path, text in texts_made() if path.read_text() != text]
    for path in wrong:
        print(f"command_fields: {path.relative_to(ROOT)} has other commands than crates/page_layers/src/command.rt; "
              "tools/command_fields.py --write makes them", file=sys.stderr)
    return not wrong


def main():
    if "--write" in sys.argv[1:]:
        for path, text in texts_made():
            path.write_text(text)
        return 0
    return 0 if is_all_made() else 1


if __name__ == "__main__":
    sys.exit(main())

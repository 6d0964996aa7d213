"""The functions that embedders call for each command, in C, Python and Rust, and FORMAT's table of the fields.

`texts_made` gives the files that have them; tools/command_fields.py compares or writes those. A part that is made
stands between two lines with the words MADE and END.
"""
import pathlib
import re
import textwrap

ROOT = pathlib.Path(__file__).resolve().parent.parent
MADE, END = "made by tools/command_fields.py", "The end of what is made"
WIDTH = 118
NO_BREAK = "\N{NO-BREAK SPACE}"
# The numbers for C of the commands that put a bitmap. Their other numbers put a rect of one colour.
BITMAPS = {"insert_item": 20, "replace_item": 21}
# The parameters of C for the forms that are no numbers of a command; a field of such a form is its last.
PAINTS = {"colour": ["uint32_t rgba"], "pixels": ["const uint8_t *rgba", "size_t bytes"]}
# What the header says of a function besides.
REMARKS = {
    "add_effect": "Its layers are drawn as a group, faded to `opacity` of 255.",
    "add_scroller": "It scrolls to (max_x, max_y). What it cannot take of a cc_wheel goes to its parent.",
    "scroll_by": "It is a scroller of the main page; cc_scroll moves both pages at once.",
    "set_colour": "It shows only where a tile is missing, which no draw of this library has.",
    "insert_bitmap": "A bitmap of w by h pixels (1 to 256 each), which are copied: red, green, blue and alpha of each, "
                     "row by row, and premultiplied. `bytes` is how many bytes they are, 4 * w * h. CC_BAD if a side, the "
                     "count or a pixel is none of these.",
}
# What Python takes for the fields of a command that adds something, if they are not given.
DEFAULTS = {"parent": 0, "transform": 0, "clip": 0, "effect": 0, "scroller": 0, "x": 0, "y": 0, "w": 1, "h": 1,
            "colour": 0}
# Two fields that Rust takes as a pair, by the name of the pair.
PAIRS = {("x", "y"): "at", ("dx", "dy"): "by", ("max_x", "max_y"): "most", ("w", "h"): "size"}


def calls_of(commands):
    """The functions by their numbers: name, number, comment, and the fields with their forms, `pixels` among these."""
    calls = []
    for it in commands:
        forms = [(field.name, field.form) for field in it.fields]
        if it.name not in BITMAPS:
            calls.append((it.name, it.number, it.text, forms))
            continue
        plain = [field for field in forms if field[1] != "item"] + [("rect", "rect")]
        verb = it.name.removesuffix("_item")
        calls.append((f"{verb}_rect", it.number, it.text, plain + [("colour", "colour")]))
        calls.append((f"{verb}_bitmap", BITMAPS[it.name], it.text, plain + [("pixels", "pixels")]))
    return sorted(calls, key=lambda call: call[1])


def wrapped(head, parts, tail):
    """A list of parameters of C, broken as clang-format breaks it."""
    whole = [it.replace(" ", NO_BREAK) for it in parts[:-1] + [parts[-1] + tail]]
    lines = textwrap.wrap(", ".join(whole), WIDTH - len(head), break_on_hyphens=False)
    return (head + ("\n" + " " * len(head)).join(lines)).replace(NO_BREAK, " ")


def remark(text, first="/* ", later=" * ", last=" */"):
    lines = textwrap.wrap(text, WIDTH - len(first) - len(last))
    return first + ("\n" + later).join(lines) + last + "\n"


def constant(name):
    """A command's name among the constants of C."""
    return "CC_" + name.upper()


def constants_of_c(calls):
    """The numbers of the commands, as an enumeration."""
    return ("/* The numbers of the commands, for cc_edit. */\nenum {\n"
            + ",\n".join(f"  {constant(name)} = {number}" for name, number, _, _ in calls) + "\n};\n")


def of_c(call):
    name, number, text, fields = call
    numbers = []
    for field, form in fields:
        if form not in PAINTS:
            numbers += ["x", "y", "w", "h"] if form == "rect" else [field]
    paint = fields[-1][1]
    parts = ["cc_compositor *page", *(f"int32_t {it}" for it in numbers), *PAINTS.get(paint, []), "cc_fault *fault"]
    painted = {"colour": "rgba, NULL, 0", "pixels": "0, rgba, bytes"}.get(paint, "0, NULL, 0")
    body = (f"  const int32_t f[] = {{{', '.join(numbers)}}};\n"
            f"  return cc_edit(page, {constant(name)}, f, {len(numbers)}, {painted}, fault);\n")
    head = wrapped(f"static inline uint32_t cc_{name}(", parts, ") {")
    return remark(" ".join(filter(None, [text, REMARKS.get(name)]))) + head + "\n" + body + "}\n"


def of_python(call):
    name, number, _, fields = call
    optional = DEFAULTS if name.startswith("add_") else {}
    given = [field for field, _ in fields if field not in optional]
    given += [f"{field}={optional[field]}" for field, _ in fields if field in optional]
    passed = [f"*{field}" if form == "rect" else field for field, form in fields if form not in PAINTS]
    passed += {"colour": ["colour=colour"], "pixels": ["pixels=bytes(pixels)"]}.get(fields[-1][1], [])
    return f"    def {name}(self, {', '.join(given)}):\n        self._edit({', '.join([str(number)] + passed)})\n"


def of_rust(call):
    name, number, text, fields = call
    kinds = {"whole": "i32", "signed": "i32", "rect": "Rect", "colour": "u32", "pixels": "&[u8]"}
    given, numbers, left = [], [], list(fields)
    colour, pixels = "0", "&[]"
    while left:
        field, form = left.pop(0)
        pair = PAIRS.get((field, left[0][0])) if left else None
        if pair:
            left.pop(0)
            given.append(f"{pair}: (i32, i32)")
            numbers += [f"{pair}.0", f"{pair}.1"]
            continue
        given.append(f"{field}: {kinds[form]}")
        if form == "rect":
            numbers += [f"{field}.{place}" for place in range(4)]
        elif form == "colour":
            colour = field
        elif form == "pixels":
            pixels = field
        else:
            numbers.append(field)
    words = text + (" Red, green, blue and alpha of each pixel, premultiplied, row by row." if pixels == "pixels" else "")
    comment = remark(words, "    /// ", "    /// ", "")
    head = f"    pub fn {name}(&mut self, {', '.join(given)}) -> Result<(), Error> {{"
    if len(head) > WIDTH:
        lines = "".join(f"        {it},\n" for it in ["&mut self"] + given)
        head = f"    pub fn {name}(\n{lines}    ) -> Result<(), Error> {{"
    allowed = "    #[allow(clippy::too_many_arguments)]\n" if len(given) > 6 else ""
    return comment + allowed + head + f"\n        self.edit({number}, &[{', '.join(numbers)}], {colour}, {pixels})\n    }}\n"


def row_of(command, second_version):
    """A command's row in FORMAT's table: fields of one form that follow each other stand together."""
    groups = []
    for field in command.fields:
        form = {"whole": " whole", "signed": " signed"}.get(field.form, "")
        names = ["`rect`; paint"] if field.form == "item" else [f"`{field.name}`"]
        if groups and form and groups[-1][1] == form:
            groups[-1][0].extend(names)
        else:
            groups.append((names, form))
    told = "; ".join(", ".join(names) + form for names, form in groups)
    return f"| `{command.name}` | {told}{'; in version 2 alone' if second_version else ''} |\n"


def between(path, made):
    """A file's text with this part between the two lines."""
    text = path.read_text()
    found = re.search(rf"^.*{MADE}.*\n((?:.*\n)*?).*{END}.*$", text, re.M)
    if not found:
        raise SystemExit(f"client_commands: {path.relative_to(ROOT)} lacks the lines between which its commands stand")
    return text[:found.start(1)] + made + text[found.end(1):]


def texts_made(commands, second_version):
    """Each file that has a part made from the commands, of which these names are of version 2 alone, and its text."""
    calls = calls_of(commands)
    table = "| `op` | Fields |\n|---|---|\n" + "".join(row_of(it, it.name in second_version) for it in commands)
    parts = [("docs/FORMAT.md", table), ("include/cc.h", "\n".join([constants_of_c(calls), *map(of_c, calls)])),
             ("clients/python/cc.py", "\n".join(map(of_python, calls))),
             ("clients/rust/src/lib.rs", "\n".join(map(of_rust, calls)))]
    return [(ROOT / name, between(ROOT / name, made)) for name, made in parts]

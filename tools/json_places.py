"""Reads JSON as the program does, and tells where in the text a value stands.

What counts as JSON is the definition of the kit's crate `serde_json` (its `Read`): UTF-8 without a byte order mark,
containers at most 127 deep, escapes of lone surrogates refused, numbers that a 64 bit float can't hold refused. Of two
members with the same name the last one counts. A whole number that fits 64 bits is an `int`; any other number, `16.0`
and `-0` among them, is a `float`.
"""
import json.decoder
import math
import re

DEEPEST = 127
SPACE = re.compile(r"[ \t\n\r]*")
NUMBER = re.compile(r"-?(?:0|[1-9][0-9]*)(\.[0-9]+)?([eE][+-]?[0-9]+)?", re.ASCII)
WORDS = {"true": True, "false": False, "null": None}
# What the next element of a list, or the next member of an object, begins with.
NEXT = {"]": re.compile(r'["{\[]|-?[0-9]|(?:true|false|null)\b'), "}": re.compile('"')}
SURROGATE = re.compile("[\ud800-\udfff]")


class NotJson(Exception):
    """Where a text stops being JSON, why, and the path of the value in which it does."""

    def __init__(self, at, why, path=()):
        super().__init__(why)
        self.at, self.why, self.path = at, why, tuple(path)


class Reader:
    """One pass over a text. `path` is that of the value being read; where it is the one that is looked for, its
    places are kept: of the value, and of its name where it is a member."""

    def __init__(self, text, wanted=None):
        self.text, self.wanted, self.path = text, wanted, []
        self.span = self.name_at = None

    def fail(self, at, why):
        raise NotJson(at, why, self.path)

    def space(self, at):
        return SPACE.match(self.text, at).end()

    def whole(self):
        """The value of the whole text."""
        value, at = self.value(self.space(0))
        at = self.space(at)
        if at < len(self.text):
            self.fail(at, "more stands after the value")
        return value

    def value(self, at):
        """The value that begins here, and where it ends."""
        first = self.text[at:at + 1]
        if not first:
            self.fail(at, "the text ends here, where a value is due")
        if first in "{[":
            if len(self.path) >= DEEPEST:
                self.fail(at, f"lists and objects are more than {DEEPEST} deep")
            value, end = self.object(at) if first == "{" else self.array(at)
        elif first == '"':
            value, end = self.string(at)
        else:
            value, end = self.plain(at)
        if self.path == self.wanted:
            self.span = at, end
        return value, end

    def object(self, at):
        found, at = {}, self.space(at + 1)
        if self.text[at:at + 1] == "}":
            return found, at + 1
        while True:
            if self.text[at:at + 1] != '"':
                self.fail(at, "a name in double quotes is due")
            name_at = at
            name, at = self.string(at)
            at = self.space(at)
            if self.text[at:at + 1] != ":":
                self.fail(at, "a colon is due after the name")
            self.path.append(name)
            if self.path == self.wanted:
                self.name_at = name_at
            found[name], at = self.value(self.space(at + 1))
            self.path.pop()
            at, is_over = self.after(self.space(at), "}")
            if is_over:
                return found, at

    def array(self, at):
        found, at = [], self.space(at + 1)
        if self.text[at:at + 1] == "]":
            return found, at + 1
        while True:
            self.path.append(len(found))
            value, at = self.value(at)
            self.path.pop()
            found.append(value)
            at, is_over = self.after(self.space(at), "]")
            if is_over:
                return found, at

    def after(self, at, closing):
        """What comes after an element: the place of the next one, or the end of the list and that it is one."""
        sign = self.text[at:at + 1]
        if sign == closing:
            return at + 1, True
        if sign != ",":
            self.fail(self.due_at(at, closing), f"a comma or {closing} is due")
        at = self.space(at + 1)
        if self.text[at:at + 1] == closing:
            self.fail(at, f"a comma stands before {closing}, where no element follows")
        return at, False

    def due_at(self, at, closing):
        """Where a comma is due: right after the element before, if a further one follows; else at what stands there."""
        return len(self.text[:at].rstrip(" \t\n\r")) if NEXT[closing].match(self.text, at) else at

    def string(self, at):
        try:
            value, end = json.decoder.scanstring(self.text, at + 1, True)
        except json.JSONDecodeError as fault:
            self.fail(at if "Unterminated" in fault.msg else fault.pos, WHY_NO_STRING.get(fault.msg.split(" at")[0], "no string"))
        if SURROGATE.search(value):
            self.fail(at, "a string with half of a surrogate pair")
        return value, end

    def plain(self, at):
        """A number, true, false or null."""
        for word, value in WORDS.items():
            if self.text.startswith(word, at):
                return value, at + len(word)
        found = NUMBER.match(self.text, at)
        if not found:
            self.fail(at, "no JSON value begins like this")
        if not found[1] and not found[2] and found[0] != "-0":
            digits = found[0]
            if len(digits) < 21 and -2 ** 63 <= int(digits) < 2 ** 64:
                return int(digits), found.end()
        value = float(found[0])
        if math.isinf(value):
            self.fail(at, "a number that is too large for any reader")
        return value, found.end()


NO_END = "a string begins here that has no end"
WHY_NO_STRING = {
    "Unterminated string starting": NO_END,
    "Invalid control character": "a line break, a tab or another control character stands in a string",
    "Invalid \\escape": "no escape of JSON begins like this",
    "Invalid \\uXXXX escape": "four digits 0-9 a-f are due after \\u",
}


def is_cut(text, fault):
    """Whether a text is no JSON because it ends too early."""
    return fault.at >= len(text.rstrip(" \t\r\n")) or fault.why == NO_END


def text_of(data):
    """The text that bytes are in UTF-8."""
    try:
        return data.decode("utf-8")
    except UnicodeDecodeError as fault:
        before = data[:fault.start].decode("utf-8")
        raise NotJson(len(before), f"byte {fault.start} is no part of a text in UTF-8") from fault


def read(text):
    """The value of a text."""
    return Reader(text).whole()


def find(text, path):
    """Where the value of a path stands in a text that was read: its start and end, and where its name begins, or
    None where it is no member."""
    reader = Reader(text, list(path))
    reader.whole()
    return reader.span, reader.name_at


def line_and_column(text, at):
    """The line and the column of a place, both from 1."""
    return text.count("\n", 0, at) + 1, at - (text.rfind("\n", 0, at) + 1) + 1

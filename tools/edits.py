"""The must-fail edits of crates: what each replaces, and in which functions.

An edit is a text of lines `file: PATH`, `old: TEXT` and `new: TEXT`: in each file it replaces the old text, which
stands there once, by the new one. Both are one line.
"""
import re
import typing

FUNCTION = re.compile(r'\s*(?:pub(?:\([^)]*\))?\s+)?(?:const\s+)?(?:unsafe\s+)?(?:extern\s+"C"\s+)?fn\s+(\w+)')
# The head of an impl block without its parameters: of a trait, perhaps, and for a type.
IMPL = re.compile(r"(?:unsafe\s+)?impl\s+(?:(\S+)\s+for\s+)?&?(\S+)")


class EditFault(Exception):
    """Why an edit can't be applied."""


class Change(typing.NamedTuple):
    """A text of a file, which stands there once, and what replaces it."""

    file: str
    old: str
    new: str

    def applied(self, text):
        """The text of the file with this change."""
        if text.count(self.old) != 1:
            raise EditFault(f"what it replaces stands {text.count(self.old)} times in {self.file}: {self.old.strip()}")
        return text.replace(self.old, self.new)


def changes_of(edit):
    """The changes that an edit's file tells."""
    crate, file, old, found = edit.parent.parent, None, None, []
    for line in edit.read_text().split("\n"):
        word, _, rest = line.partition(":")
        rest = rest.removeprefix(" ")
        if word == "file":
            file = rest.strip()
            if not (crate / file).is_file():
                raise EditFault(f"there is no file {file}")
        elif word == "old":
            old = rest
        elif word == "new":
            if file is None or not old:
                raise EditFault("`new:` stands before `file:` or `old:`")
            found.append(Change(file, old, rest))
            old = None
        elif line.strip():
            raise EditFault(f"each text is one line, and this one is none of them: {line.strip()}")
    if not found:
        raise EditFault("it has no `old:` and `new:`")
    return found


def applied(folder, edits):
    """Each change of some edits in turn, with the text of its file in a crate's folder before it and after it."""
    texts = {}
    for change in (it for edit in edits for it in changes_of(edit)):
        before = texts[change.file] if change.file in texts else (folder / change.file).read_text()
        texts[change.file] = change.applied(before)
        yield change, before, texts[change.file]


def texts_with(folder, edits):
    """The files of a crate's folder that some edits change, with their texts after all of these."""
    return {change.file: after for change, _, after in applied(folder, edits)}


def without_parameters(head):
    """The head of an impl block without what stands in angle brackets."""
    depth, left = 0, ""
    for sign in head:
        depth += (sign == "<") - (sign == ">")
        if not depth and sign != ">":
            left += sign
    return left


def owner(lines):
    """The type and the trait, if there is one, of the impl block that a function after these lines stands in; None where that isn't plain."""
    for number in range(len(lines) - 1, -1, -1):
        if re.match(r"(?:unsafe\s+)?impl\b", lines[number]):
            found = IMPL.match(without_parameters(" ".join(lines[number:]).partition("{")[0]))
            return found and (found[2].split("::")[-1], (found[1] or "").split("::")[-1])
        if lines[number][:1] not in ("", " ", "}", "/", "#"):
            return None
    return None


def module_of(file):
    """The path of the module in a file, of src/."""
    return [it for it in file.removeprefix("src/").removesuffix(".rt").split("/") if it not in ("lib", "main")]


def home_of(crate, kind):
    """The path of the module in which a crate defines a type; None where there isn't one alone."""
    defined = re.compile(rf"^\s*(?:pub(?:\([^)]*\))?\s+)?(?:struct|enum|union)\s+{kind}\b", re.M)
    found = [it for it in sorted((crate / "src").rglob("*.rt")) if defined.search(it.read_text())]
    return module_of(str(found[0].relative_to(crate))) if len(found) == 1 else None


def function_at(crate, file, text, place):
    """The name, with its path, of the function of a crate that a place of a file stands in; None where that isn't plain.

    The prover names a method by the module of its type, and one of a trait by the module of the impl block, where type
    and trait are one word.
    """
    lines = text.split("\n")
    number = text.count("\n", 0, place)
    while number >= 0 and not FUNCTION.match(lines[number]):
        number -= 1
    if number < 0 or not re.fullmatch(r"src/.*\.rt", file):
        return None
    name, module = FUNCTION.match(lines[number])[1], module_of(file)
    if lines[number][:1].isspace():
        kind, of_trait = owner(lines[:number]) or (None, "")
        module = module if of_trait else kind and home_of(crate, kind)
        name = f"{kind}{of_trait}::{name}"
    return None if module is None else "::".join([crate.name, *module, name])


def functions_of(edit):
    """The functions that an edit changes, and nothing else; None where it changes something else, or that isn't plain."""
    crate = edit.parent.parent
    found = {function_at(crate, change.file, before, before.index(change.old)) for change, before, _ in applied(crate, [edit])}
    return None if None in found else found

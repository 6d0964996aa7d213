"""The definitions in specs/, and which of them a clause rests on: those of this repository and those of the kit."""
import collections
import functools
import pathlib
import re
import shutil
import sys

from crate_list import CRATES

# The words of the program, as cases of the type `Use` name them.
WORDS = ("Step", "Play", "Gen", "Demo", "Film", "Shot", "Serve", "Frames", "Check")
# The file of specs/ whose records are lists of clauses: they are cited in place of the clauses, and no more counted
# than these.
CLAUSES = ("player_run", "Ran")

USE = re.compile(r"^(?:(?:ghost|pub|unfoldable) )*use Rattle\.(\w+)\.(\w+)\.([\w.]+?)(?:\.\{([^}]*)\}| as (\w+))?;?$")
HEAD = re.compile(r"^(?:(?:abbrev|unfoldable|irreducible|strict|pub|priv)\s+)*(?:(record|data)\s+)?(?:pub\s+)?([^\s:(){}]+)\s*(?=[:(\s{])")
TOKEN = re.compile(r"[^\s(),{};\[\]λ]+")

Item = collections.namedtuple("Item", "crate module name first last text")


class Count(collections.namedtuple("Count", "comments signatures bodies", defaults=(0, 0, 0))):
    """How many lines of definitions are comments, signatures and bodies."""

    @property
    def lines(self):
        """All of them."""
        return sum(self)

    def __add__(self, other):
        return Count(*map(sum, zip(self, other)))


def count_of(item, text):
    """The lines of a definition with its comment, if this is what counts of its text.

    A signature goes on to the first clause, which begins with the name once more, or to the first field or case.
    """
    head, *rest = text.split("\n")
    above = item.last - item.first - item.text.count("\n") - 1
    code = [line for line in rest if not line.lstrip().startswith("--")]
    is_listed = re.match(r"(?:\w+ )*(?:record|data) ", head)
    signature = 0 if is_listed else next((at for at, line in enumerate(code) if line[:1] != " "), len(code))
    return Count(above + len(rest) - len(code), 1 + signature, len(code) - signature)


class Module:
    """A file of specs/: its definitions by name, what it brings in, and the short names of whole modules."""

    def __init__(self, crate, path, folder):
        self.crate, self.path, self.items, self.names, self.short, self.cases = crate, path, {}, {}, {}, {}
        self.name = ".".join(path.relative_to(folder).with_suffix("").parts)
        lines = path.read_text().split("\n")
        self.read_uses(lines)
        self.read_items(list(outdented(lines)))

    def holds(self, name):
        """The definition of this name, or of the data type that has this case."""
        return self.items.get(self.cases.get(name, name))

    def read_uses(self, lines):
        """The names that the file's `use` lines bring in."""
        for found in uses_in(lines):
            note_use(found, self.names, self.short)

    def read_items(self, lines):
        """The definitions: each runs from its head to the next one's comment."""
        heads = [(at, name_of(line)) for at, line in enumerate(lines) if name_of(line)]
        starts = [at for at, (_, name) in enumerate(heads) if at == 0 or heads[at - 1][1] != name]
        for k, at in enumerate(starts):
            first, name = heads[at]
            last = heads[starts[k + 1]][0] if k + 1 < len(starts) else len(lines)
            while last > first + 1 and (not lines[last - 1].strip() or lines[last - 1].startswith(("--", "infix", "use ", "module "))):
                last -= 1
            own = first
            while own > 0 and lines[own - 1].startswith("--"):
                own -= 1
            self.items[name] = Item(self.crate, self.name, name, own, last, "\n".join(lines[first:last]))
            if lines[first].startswith("pub data "):
                self.cases.update({case: name for line in lines[first + 1:last] if ":" in line for case in line.split(":")[0].split()})


def joined(lines):
    """Lines, where a `use` that goes on over several is one."""
    whole = ""
    for line in lines:
        whole = f"{whole} {line.strip()}" if whole else line
        if whole.startswith(("use ", "ghost use ", "pub use ")) and whole.count("{") > whole.count("}"):
            continue
        yield re.sub(r"\s+", " ", whole).strip()
        whole = ""


def uses_in(lines):
    """The `use` lines of a file that name something of a crate's specs."""
    return filter(None, map(USE.match, joined(lines)))


def outdented(lines):
    """The lines, where those of a module inside a file, or of definitions that need each other, stand as far left as the others."""
    is_inside = False
    for line in lines:
        if line.startswith("module ") or line in ("mutual", "abbrev mutual"):
            is_inside = True
        elif line and line[0] not in " -":
            is_inside = False
        yield line[2:] if is_inside and line.startswith("  ") else line


def note_use(found, names, short):
    """Notes one `use` line: where each name of it stands."""
    crate, part, path, listed, alias = found.groups()
    place = (crate, part, path)
    if alias:
        short[alias] = place
    elif listed is not None:
        for name in filter(None, (it.strip() for it in listed.split(","))):
            names[name.split(" as ")[-1]] = (place, name.split(" as ")[0])


def name_of(line):
    """The name that a line begins to define or goes on to define, if it does: a definition's lines begin with it."""
    if not line or line[0] in " -})" or line.startswith(("use ", "mod ", "pub mod ", "module ", "where", "infix", "syntax", "ruleset", "mutual", "abbrev mutual", "unfolding ")):
        return None
    found = HEAD.match(line)
    return found.group(2) if found else None


def variants_of(name):
    """How a name may stand in a text: an infix one by its middle."""
    middle = name.strip("◌")
    return {name, *(middle.split("◌") if "◌" in name else ())} - {""}


@functools.cache
def all_modules():
    """The files of specs/ by crate and name."""
    paths = (it for it in sorted(CRATES.glob("*/specs/**/*.antt")) if it.name != "Lib.antt")
    crates = ((it.relative_to(CRATES).parts[0], it) for it in paths)
    read = (Module(crate, it, CRATES / crate / "specs") for crate, it in crates)
    return {(module.crate, module.name): module for module in read}


@functools.cache
def kit_crates():
    """The folder of the kit's crates, if there is a kit."""
    rt = shutil.which("rt")
    return rt and pathlib.Path(rt).resolve().parent.parent / "rattle"


@functools.cache
def kit_module(crate, path):
    """The file of specs/ of one of the kit's crates, or the one that its Lib.antt passes on under this name."""
    folder = kit_crates() / crate / "specs"
    file = folder.joinpath(*path.split(".")).with_suffix(".antt")
    if file.is_file():
        return Module(crate, file, folder)
    first, _, rest = path.partition(".")
    lib = (folder / "Lib.antt").read_text() if (folder / "Lib.antt").is_file() else ""
    passed = re.search(rf"^pub use Rattle\.(\w+)\.specs\.((?:\w+\.)*{re.escape(first)})$", lib, re.M)
    return passed and kit_module(passed[1], f"{passed[2]}.{rest}" if rest else passed[2])


def kit_item(place, name):
    """The definition of a name of the kit. None if it is a type, or one of the words of the logic itself."""
    crate, part, path = place
    module = kit_module(crate, path) if part == "specs" and not path.startswith("declared") else None
    if module is None or module.holds(name) or name not in module.names:
        return module and module.holds(name)
    return kit_item(*module.names[name])


class World:
    """All definitions of the repository, and those that were found to be rested on."""

    def __init__(self, word=None):
        self.word, self.modules = word, all_modules()
        self.found, self.kit, self.counts, self.lost, self.types = {}, {}, {}, set(), set()

    def lead(self, place, name):
        """Goes to the definition of a name that was brought in from a place."""
        crate, part, path = place
        if not (CRATES / crate).is_dir():
            self.follow(kit_crates() and kit_item(place, name))
        elif part != "specs" or path.startswith("declared"):
            self.types.add((crate, path.removeprefix("declared.").split(".TheVariants")[0]))
        elif (crate, path) in self.modules and self.modules[crate, path].holds(name):
            self.follow(self.modules[crate, path].holds(name))
        else:
            self.lost.add((crate, path, name))

    def names_in(self, text, names, short, own):
        """Follows each name in a text."""
        tokens = set(TOKEN.findall(text))
        parts = {part for token in tokens for part in token.split(".")} | tokens
        for name, (place, real) in names.items():
            if variants_of(name) & parts:
                self.lead(place, real)
        for alias, place in short.items():
            for token in tokens:
                if token.startswith(alias + "."):
                    self.lead(place, token.split(".")[1])
        for name, item in own.items():
            if variants_of(name) & parts:
                self.follow(item)

    def cases_of(self, item, module):
        """The text of a definition, without the cases of the program's other words. What a session answers is told by those of `step`."""
        kept = (self.word, "Step") if self.word == "Serve" else (self.word,)
        others = [it for it in WORDS if it not in kept and module.names.get(it, ((0, 0, ""), 0))[0][2].endswith("words.Use.TheVariants")]
        if not self.word or not others:
            return item.text
        head = re.compile(rf"{re.escape(item.name)} (\S+ )*?\(?({'|'.join(others)})\b")
        lines, is_other = [], False
        for line in item.text.split("\n"):
            is_other = bool(head.match(line.partition(" = ")[0] + " ")) or (is_other and line.startswith(" "))
            lines += [line] * (not is_other)
        return "\n".join(lines)

    def by_file(self):
        """The definitions that were found, by the file of specs/ that they stand in."""
        found = collections.defaultdict(list)
        for item in self.found.values():
            found[f"crates/{item.crate}/specs/{item.module.replace('.', '/')}.antt"].append(item)
        return found

    def follow(self, item):
        """Takes in a definition, if there is one, and those that it names."""
        place = item and (item.crate, item.module, item.name)
        if item is None or place in self.counts:
            return
        own = self.modules.get(place[:2])
        module = own or kit_module(*place[:2])
        text = self.cases_of(item, module)
        is_clauses = place[:2] == CLAUSES and item.text.startswith("pub record ")
        self.counts[place] = Count() if is_clauses else count_of(item, text)
        (self.found if own else self.kit)[place] = item
        self.names_in(re.sub(r"--.*", "", text), module.names, module.short, module.items)

    def count(self, items):
        """The lines of some of these definitions."""
        return sum((self.counts[it.crate, it.module, it.name] for it in items), Count())

    def by_kit_crate(self):
        """The definitions of the kit that were found, by crate."""
        found = collections.defaultdict(list)
        for item in self.kit.values():
            found[item.crate].append(item)
        return found


def clauses_of(path, function):
    """The `ensures` and `requires` clauses of a function, and the names that its file's `ghost use` lines bring in."""
    lines = path.read_text().split("\n")
    names, short = {}, {}
    for found in uses_in(lines):
        note_use(found, names, short)
    first = next((at for at, line in enumerate(lines) if re.match(rf"\s*pub fn {function}\b", line)), None)
    if first is None:
        sys.exit(f"believed: {path} has no public function {function}")
    last = next((at for at in range(first, len(lines)) if lines[at].strip() == "{" or lines[at].rstrip().endswith(("{}", ") {"))), first)
    text = "\n".join(line for line in lines[first:last + 1] if re.match(r"\s*(ensures|requires)", line))
    return text, names, short


def told_words(text, names):
    """The names of this repository that the clauses themselves have."""
    parts = {part for token in TOKEN.findall(text) for part in token.split(".")}
    return sorted(name for name, (place, _) in names.items() if variants_of(name) & parts and (CRATES / place[0]).is_dir())


def public_clauses(lines):
    """The lines with clauses of a source's public functions, and of the functions of its public traits."""
    is_told = in_trait = False
    for line in lines:
        if line.startswith("}"):
            in_trait = False
        if line.startswith("pub trait "):
            in_trait = True
        if re.match(r"\s*(pub(\([\w ]+\))? )?(const )?fn ", line):
            is_told = in_trait or re.match(r"\s*pub (const )?fn ", line)
        elif is_told and re.match(r"\s*(ensures|requires)\b", line):
            yield line
        elif line.strip() == "{":
            is_told = False


def public_words(world):
    """The definitions that the clauses of public functions name, as (crate, file, name)."""
    found = set()
    for path in sorted(CRATES.glob("*/src/**/*.rt")):
        lines, names, short = path.read_text().split("\n"), {}, {}
        for it in uses_in(lines):
            note_use(it, names, short)
        tokens = set(TOKEN.findall("\n".join(public_clauses(lines))))
        parts = {part for token in tokens for part in token.split(".")} | tokens
        told = [place for name, place in names.items() if variants_of(name) & parts]
        told += [(place, it.split(".")[1]) for alias, place in short.items() for it in tokens if it.startswith(alias + ".")]
        for (crate, part, file), name in told:
            item = (crate, file) in world.modules and part == "specs" and world.modules[crate, file].holds(name)
            found |= {(item.crate, item.module, item.name)} if item else set()
    return found

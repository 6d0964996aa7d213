"""The parts of docs/DEFINITIONS.md that are made from the comments in specs/."""
import re
import textwrap

from crate_list import CRATES, CrateList
from spec_words import outdented

WIDTH = 118
# What stands in backquotes stays in one line: its blanks are these while lines are broken.
CODE, HARD = re.compile(r"`[^`]+`"), "\0"
MARKED = re.compile(r"(<!-- believed: (\w+) -->\n).*?(<!-- end of \2 -->)", re.S)
# A field of a record, or a case of a type, with the name that it has; a file or folder that a Lib.antt lists.
FIELD, LISTED = re.compile(r" +(?:pub )?([^\s:]+) *:"), re.compile(r"(?:pub )?mod (\w+)")


def wrapped(words, first="", later=""):
    """Words with a full stop, over as many lines as they take."""
    whole = words if words.endswith((".", "?", "!", ":")) else words + "."
    whole = CODE.sub(lambda it: it[0].replace(" ", HARD), whole)
    lines = textwrap.wrap(whole, WIDTH, initial_indent=first, subsequent_indent=later, break_long_words=False,
                          break_on_hyphens=False)
    return [it.replace(HARD, " ") for it in lines]


def bullet(indent, names, words):
    """A bullet for some names."""
    told = ", ".join(f"`{it}`" for it in names)
    return wrapped(f"{told}: {words}", indent + "- ", indent + "  ")


def comment_of(lines):
    """The comment that some lines begin with, in one line."""
    own = []
    for line in lines:
        if not line.lstrip().startswith("--"):
            break
        own.append(line.lstrip()[2:].strip())
    return " ".join(filter(None, own))


def parts_of(item):
    """The fields of a record, or the cases of a type, that have a comment."""
    found, own = [], []
    for line in item.text.split("\n")[1:]:
        name = FIELD.match(line)
        if line.lstrip().startswith("--"):
            own.append(line.lstrip()[2:].strip())
        else:
            found += [(name[1], " ".join(own))] if own and name else []
            own = []
    return found


def groups_of(module, wanted):
    """The wanted definitions of a file by their comments: one without a comment is told by the last one above it."""
    groups, lines = [], list(outdented(module.path.read_text().split("\n")))
    for item in sorted(module.items.values(), key=lambda it: it.first):
        own = comment_of(lines[item.first:item.last])
        if own or not groups:
            groups.append((own, []))
        if item.name in wanted:
            groups[-1][1].append(item)
    return [it for it in groups if it[1]]


def told_file(module, wanted, note):
    """The lines for one file of specs/."""
    name = module.name.split(".")[-1]
    told = ["#" * 4 + f" [{name}](../crates/{module.path.relative_to(CRATES)})", ""]
    told += wrapped(comment_of(module.path.read_text().split("\n")) or name)
    told += [note] if note else []
    told.append("")
    for words, items in groups_of(module, wanted):
        told += bullet("", [it.name for it in items], words)
        for name, own in (it for item in items for it in parts_of(item)):
            told += bullet("  ", [name], own)
    return told + [""]


def rank_of(crate, name):
    """The place of a file among those of its crate: the order of each Lib.antt."""
    places, folder = [], CRATES / crate / "specs"
    listing = folder / "Lib.antt"
    for step in name.split("."):
        listed = LISTED.findall(listing.read_text()) if listing.is_file() else []
        places.append(listed.index(step) if step in listed else len(listed))
        folder, listing = folder / step, folder / f"{step}.antt"
    return places, name


def told_crates(world, found, crates, note):
    """The lines for some definitions, given as (crate, file, name)."""
    told = []
    for crate in crates:
        files = sorted({file for of, file, _ in found if of == crate}, key=lambda it: rank_of(crate, it))
        told += [f"### {crate}", ""] if files else []
        for file in files:
            wanted = {name for of, its, name in found if (of, its) == (crate, file)}
            told += told_file(world.modules[crate, file], wanted, note(crate, file))
    return "\n".join(told)


def note_of(words, every):
    """Which words of the program rest on a file."""
    if words == every:
        return "Every word of the program rests on it."
    named = " and ".join(filter(None, [", ".join(f"`{it}`" for it in words[:-1]), f"`{words[-1]}`"]))
    return f"{named} {'rest' if len(words) > 1 else 'rests'} on it."


def files_table(words_of, types, crates):
    """The files that `step` rests on, those that other words need, and the types of the sources."""
    rows = ["| Crate | Files that `step` rests on | Files of other words | Types of `src/` |", "|---|---|---|---|"]
    for crate in crates:
        files = sorted((name, words) for (of, name), words in words_of.items() if of == crate)
        own = ", ".join(f"`{name}`" for name, words in files if "step" in words)
        others = ", ".join(f"`{name}` ({', '.join(words)})" for name, words in files if "step" not in words)
        named = ", ".join(f"`{it}`" for it in sorted({path.split(".")[-1] for of, path in types if of == crate}))
        if own or others or named:
            rows.append(f"| `{crate}` | {own} | {others} | {named} |")
    return "\n".join(rows) + "\n"


def numbers_table(worlds, page):
    """How much each word of the program rests on, in pages of so many lines."""
    rows = ["| Word | Definitions | Files | Lines | of them comments | signatures | bodies | Pages |", "|---" * 8 + "|"]
    for word, world in worlds.items():
        count, name = world.count(world.found.values()), word if word == "all" else f"`{word}`"
        numbers = len(world.found), len(world.by_file()), count.lines, *count, -(-count.lines // page)
        rows.append(f"| {name} | " + " | ".join(f"{it:,}" for it in numbers) + " |")
    return "\n".join(rows) + "\n"


def kit_table(step, whole):
    """The definitions of the kit that the theorem rests on, by file, and how many lines of each `step` rests on."""
    rows = ["| Crate of the kit | File | Lines | for `step` | Definitions |", "|---" * 5 + "|"]
    files = {}
    for item in whole.kit.values():
        files.setdefault((item.crate, item.module), []).append(item)
    for (crate, file), items in sorted(files.items()):
        of_step = step.count(it for it in items if it in step.kit.values())
        rows.append(f"| `{crate}` | {file} | {whole.count(items).lines} | {of_step.lines} | {', '.join(sorted(it.name for it in items))} |")
    of_all, of_step = (it.count(it.kit.values()).lines for it in (whole, step))
    rows.append(f"| all | {len(files)} files | {of_all} | {of_step} | {len(whole.kit)} |")
    return "\n".join(rows) + "\n"


def by_hand(text):
    """How many lines of the page are not made."""
    return len(MARKED.sub("", text).splitlines())


def made(text, worlds, public, page):
    """The page with its marked parts made anew, and the parts that it lacks.

    `worlds` has for each word of the program, and last for all of them, the definitions that it rests on; `public` are
    the definitions that public contracts name; `page` is how many lines are a page.
    """
    *every, whole = worlds.items()
    words_of = {}
    for word, world in every:
        for crate, file in dict.fromkeys(place[:2] for place in world.found):
            words_of.setdefault((crate, file), []).append(word)
    upwards, world = list(CrateList().uses), whole[1]
    names = [word for word, _ in every]
    parts = {
        "numbers": lambda: numbers_table(worlds, page),
        "kit": lambda: kit_table(worlds["step"], world),
        "files": lambda: files_table(words_of, world.types, upwards[::-1]),
        "theorem": lambda: told_crates(world, set(world.found), upwards[::-1], lambda *it: note_of(words_of[it], names)),
        "crates": lambda: told_crates(world, public - set(world.found), upwards, lambda *it: ""),
    }
    lacking = sorted(set(parts) - {it[2] for it in MARKED.finditer(text)})
    if not world.kit:
        del parts["kit"]
    return MARKED.sub(lambda it: it[1] + parts[it[2]]() + it[3] if it[2] in parts else it[0], text), lacking

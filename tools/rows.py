"""The rows of a program's tables, and which of them a choice of crates and a word pick.

A program reads its tables from the file stdin of its crate. Of the lines that say nothing to it, three kinds speak to
this module:

  # crates: NAME ..    below a line `table: NAME`: the crates whose rows the table has. Rows before any table are the program's own
  # title: TEXT        begins a group of rows, which runs alone. A text that begins with `CRATE: ` names the crate whose rows they are
  # for all: TEXT      begins lines that each group of the table stands on

A table without titles is one group, unless its program goes by titles of its own (test_program: `case:`, `history`, and
the changes below them).
"""
import collections
import re

CRATES, TITLE, FOR_ALL, TABLE = "# crates: ", "# title: ", "# for all: ", "table: "
# A line of test_program with the title of a case, of a history, or of a change of one.
OWN_TITLE = re.compile(r"case: (?P<case>.*)|history (?P<history>[^:]*)|    (?P<change>.*)")

# Lines of a table that stand together. With no title they say what the others stand on.
Group = collections.namedtuple("Group", "first lines table crates title")


def groups_of(crate, text):
    """The groups of a program's tables: each line of the text is in one."""
    groups, lines, table, crates, title = [], [], None, [crate], None

    def end(number):
        if lines:
            groups.append(Group(number - len(lines), tuple(lines), table, tuple(crates), title))
            lines.clear()

    for number, line in enumerate(text.split("\n")):
        if line.startswith(TABLE):
            end(number)
            table, crates, title = line.removeprefix(TABLE), [], None
        elif line.startswith((TITLE, FOR_ALL)):
            end(number)
            title = line.removeprefix(TITLE) if line.startswith(TITLE) else None
        elif line.startswith(CRATES):
            crates += line.removeprefix(CRATES).split()
        lines.append(line)
    end(text.count("\n") + 1)
    return groups


def crates_of(group):
    """The crates whose rows a group has."""
    named = (group.title or "").partition(": ")
    return {*group.crates, named[0]} if named[1] and " " not in named[0] else set(group.crates)


def has_titles(groups):
    """Whether a program's tables have groups that run alone."""
    return any(group.title is not None for group in groups)


def is_picked(group, crate, named, word):
    """Whether a group of a program is one that the crates and the word pick; none named means all."""
    return (not named or crate in named or not crates_of(group).isdisjoint(named)) and (not word or word in (group.title or ""))


def picked(groups, crate, named, word):
    """The tables of a program with the picked groups alone, and how many of these there are. A line that is left out
    is empty, so that each line keeps its number; the heads of tables, and what groups stand on, stay."""
    kept, count, is_titled = [], 0, has_titles(groups)
    for group in groups:
        is_in = is_picked(group, crate, named, word)
        count += is_in and (group.title is not None if is_titled else any(says_something(line) for line in group.lines))
        stays = is_in if group.title is not None or not is_titled else True
        kept += [line if stays or line.startswith(TABLE) else "" for line in group.lines]
    return "\n".join(kept), count


def says_something(line):
    """Whether a line says something to the program."""
    return bool(line) and not line.startswith("#")


def own_titles(groups):
    """The titles of test_program's own form. A history runs by its own title, with all lines below it."""
    titles, below_history = [], False
    for found in filter(None, (OWN_TITLE.match(line) for group in groups for line in group.lines)):
        if found["change"] is None:
            below_history = found["history"] is not None
        elif below_history:
            continue
        titles.append(found["case"] or found["history"] or found["change"] or "")
    return titles


def faults(crate, text, known):
    """What is wrong with the lines that speak to this module, given the crates that there are."""
    groups = groups_of(crate, text)
    for group in groups:
        number, rows = group.first + 1, [line for line in group.lines if says_something(line)]
        if group.table and not group.crates:
            yield f"{number}: table {group.table} names no crate"
        unknown = [it for it in group.crates if it not in known]
        if unknown:
            yield f"{number}: crates.txt has no {' '.join(unknown)}"
        if group.title is not None and not rows:
            yield f"{number}: a title without rows"
        is_head = group.lines[0].startswith((TABLE, FOR_ALL))
        if has_titles(groups) and group.title is None and any(not line.startswith(TABLE) for line in rows) and not group.lines[0].startswith(FOR_ALL):
            yield f"{number}: rows of {group.table} {'below no title' if is_head else 'before any table'}"
    titles = [group.title for group in groups if group.title is not None]
    for title in {it for it in titles if titles.count(it) > 1}:
        yield f"the title stands twice: {title}"

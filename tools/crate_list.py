"""The crates of this repository, as crates.txt lists them."""
import pathlib
import re

ROOT = pathlib.Path(__file__).resolve().parent.parent
CRATES, LIST = ROOT / "crates", ROOT / "crates.txt"
HEADING = re.compile(r"# (\w+): (.+)")


class CrateList:
    """The families, each below a heading `# FAMILY: what it is for`, with their crates, and what each crate uses."""

    def __init__(self):
        self.families, self.purpose, self.uses, self.faults = {}, {}, {}, []
        family = None
        for number, line in enumerate(LIST.read_text().splitlines(), 1):
            heading = HEADING.fullmatch(line)
            if heading:
                family = heading[1]
                self.families[family], self.purpose[family] = [], heading[2]
            else:
                self.add(family, number, line.partition("#")[0])
        self.family = {name: family for family, names in self.families.items() for name in names}

    def add(self, family, number, line):
        """A line `NAME: LIBRARY ..` below the heading of a family; words after the name say how it is built."""
        head, _, uses = line.partition(":")
        if not head.strip():
            return
        name = head.split()[0]
        if family is None:
            self.faults.append(f"crates.txt:{number}: {name} stands below no heading")
            return
        if name in self.uses:
            self.faults.append(f"crates.txt:{number}: {name} stands twice")
        self.families[family].append(name)
        self.uses[name] = uses.split()

    def own(self, name):
        """The crates of this repository that a crate uses, in the order of crates.txt."""
        return [it for it in self.uses if it in self.uses[name]]

    def lowest_first(self, names):
        """Some crates and all that they stand on, each after those that it uses."""
        order = []

        def visit(name):
            if name not in order:
                for it in self.own(name):
                    visit(it)
                order.append(name)

        for name in names:
            visit(name)
        return order

    def below(self, names):
        """All crates that some stand on, each after those that it uses."""
        return self.lowest_first([it for name in names for it in self.own(name)])

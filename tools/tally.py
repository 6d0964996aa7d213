"""What a tool that tries things has tried, and what of it was wrong."""
import sys


class Tally:
    """Counts what was tried for a tool of this name, and says on standard error what was wrong."""

    def __init__(self, name, most=800):
        self.name = name
        self.most = most
        self.count = 0
        self.faults = []

    def check(self, what, is_right, told=""):
        """Notes one thing that has to hold; a line that says it doesn't is cut to the most characters."""
        self.count += 1
        if not is_right:
            self.faults.append(what)
            print(f"{self.name}: {what} {told}"[:self.most], file=sys.stderr)

    def status(self):
        """Says how much was tried, and gives the exit status."""
        print(f"{self.name}: {self.count} things tried, {len(self.faults)} wrong")
        return 1 if self.faults else 0

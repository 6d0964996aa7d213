#!/usr/bin/env python3
"""Runs all programs of rows, all tests and the tools' own checks, with no proof.

usage: tools/test.py [--jobs N] [--crate CRATE].. [--heavy] [--list] [WORD]

Each program, and each crate with #[test] functions, is built and run by `rt try`; a program must write what its file
stdout has and end with the status of its file status (none: 0). Cases of test_program below a line `# Heavy.` take
minutes in such a build, so they are left to the gate, and its counts must lack as many; --heavy plays them too, and so
does a WORD that they have. It prints a line for each, and a last line `N passed, N failed`; the status is 1 if one
failed, or if nothing ran.

With a WORD only those rows run that have it in their titles, of all tables (tools/rows.py tells what a title is). With
--crate only what belongs to these crates runs: a program whole, #[test] functions, and of the tables of test_rows and
test_program the rows that name the crate. What a program tells of a part of its rows is held against no file: it ends
with 0 if all of them are right. --list tells what would run, and builds nothing.

As many run side by side as there are processors and memory for; --jobs says another number. Nothing that it builds
is kept, and nothing that it says is proved: `make check` is the gate.
"""
import argparse
import collections
import concurrent.futures
import re
import subprocess
import sys
import threading
import time

sys.dont_write_bytecode = True
import machine
import rows
from crate_list import CRATES, ROOT, CrateList

# The program that takes words, and tries the cases whose titles have one of them.
TAKES_WORDS = "test_program"
# The line above a case that is left out, and what the next line begins with that is none of that case.
HEAVY, KEYS = "# Heavy.", ("case:", "changes of:", "text ", "file ", "    ", "table: ", "#")
TOOLS = ("map.py", "check_examples.py", "check_words.py", "believed.py", "audit.py --look", "try_recordings.py",
         "try_explain.py --alone", "try_test.py")
# What one `rt try` takes, with the check of names that runs beside it.
MEMORY = 4 << 30
# No interpreter, which could not end any of these, and time enough for code that is checked at each step.
TRY = ["rt", "try", "--steps", "1", "--seconds", "900"]

Run = collections.namedtuple("Run", "status out said seconds")
# What is run: its title, what of it is picked (nothing: all of it), and the call that runs it.
Task = collections.namedtuple("Task", "title part call")
RUNNING, LOCK = set(), threading.Lock()


def call(words, folder, given=b""):
    """Runs a command."""
    begin = time.monotonic()
    process = subprocess.Popen(words, cwd=folder, stdin=subprocess.PIPE, stdout=subprocess.PIPE, stderr=subprocess.PIPE)
    with LOCK:
        RUNNING.add(process)
    out, said = process.communicate(given)
    with LOCK:
        RUNNING.discard(process)
    return Run(process.returncode, out, said.decode(errors="replace"), time.monotonic() - begin)


def file_of(crate, name):
    """The bytes of a file beside src/; none where it is not there."""
    path = CRATES / crate / name
    return path.read_bytes() if path.is_file() else b""


def has_tests(crate):
    """Whether a crate has #[test] functions."""
    return any("#[test]" in path.read_text() for path in (CRATES / crate / "src").rglob("*.rt"))


def without_heavy(table):
    """A table without its heavy cases, and how many these are. A line that is left out is empty, so that each line keeps
    its number."""
    kept, count, is_left_out, is_next = [], 0, False, False
    for line in table.decode().split("\n"):
        if line.startswith(KEYS):
            is_left_out, is_next = is_next, line == HEAVY
            count += is_left_out
        kept.append("" if is_left_out else line)
    return "\n".join(kept).encode(), count


def without_counts(wanted, count):
    """What a program tells of a table that lacks the given number of cases of one run each: its first two numbers."""
    return re.sub(rb"\d+", lambda number: b"%d" % (int(number[0]) - count), wanted, count=2) if count else wanted


def complaint(run, wanted, status):
    """What of a run is not as it should be, if anything."""
    if run.status != status:
        lines = [line for line in run.said.splitlines() + run.out.decode(errors="replace").splitlines() if line.strip()]
        return "\n".join([f"status {run.status}, not {status}", *lines[-12:]])
    if wanted is not None and run.out != wanted:
        told, meant = run.out.decode(errors="replace").splitlines(), wanted.decode(errors="replace").splitlines()
        at = next((at for at, (a, b) in enumerate(zip(told, meant)) if a != b), min(len(told), len(meant)))
        line = lambda lines: lines[at] if at < len(lines) else "no line"
        return f"line {at + 1} of what it wrote is: {line(told)[:200]}\nand not: {line(meant)[:200]}"
    return None


def try_program(crate, given, word, wanted):
    """Runs a program over these bytes. Answers the run, and what is wrong with it, if anything."""
    words = [word] if word and crate == TAKES_WORDS else file_of(crate, "args").decode().splitlines()
    data = CRATES / crate / "data"
    flags = [it for path in sorted(data.rglob("*")) if path.is_file() for it in ("--data", f"{path.relative_to(data)}={path}")]
    run = call([*TRY, *flags, *(["--", *words] if words else [])], CRATES / crate, given)
    return run, complaint(run, wanted, int(file_of(crate, "status") or 0))


def try_tests(crate):
    """Runs a crate's #[test] functions."""
    run = call([*TRY, "--test"], CRATES / crate)
    return run, complaint(run, None, 0)


def try_tool(words):
    """Runs one of the tools' own checks."""
    run = call([sys.executable, *f"tools/{words}".split()], ROOT)
    return run, complaint(run, None, 0)


def program_task(crate, word, named, heavy):
    """A program, over all its rows or those that are picked; nothing if none is."""
    given, wanted, part = file_of(crate, "stdin"), file_of(crate, "stdout"), ""
    if not word and not heavy:
        given, count = without_heavy(given)
        wanted = without_counts(wanted, count)
    if word or named and crate not in named:
        groups = rows.groups_of(crate, given.decode())
        in_titles = None if crate == TAKES_WORDS else word
        text, count = rows.picked(groups, crate, named, in_titles)
        given, wanted = text.encode(), None
        if in_titles or rows.has_titles(groups):
            part = f"{count} of {sum(group.title is not None for group in groups)} titles"
        else:
            titles = rows.own_titles(rows.groups_of(crate, text))
            count = count and sum((word or "") in title for title in titles)
            part = f"{count} of its titles"
        if not count:
            return None
    return Task(crate, part, lambda: try_program(crate, given, word, wanted))


def tasks(word, named, heavy):
    """What is run, the longest first."""
    order = list(reversed(CrateList().uses))
    programs = [it for it in order if (CRATES / it / "src" / "main.rt").is_file()]
    found = [task for task in (program_task(it, word, named, heavy) for it in programs) if task]
    if word:
        return found
    tested = [it for it in order if (not named or it in named) and has_tests(it)]
    found += [Task(f"{crate} (tests)", "", lambda crate=crate: try_tests(crate)) for crate in tested]
    if not named:
        found += [Task(f"tools/{words}", "", lambda words=words: try_tool(words)) for words in TOOLS]
    return found


def complaints(word, named):
    """What is said if nothing would run: for a crate, or for a word."""
    crates = CrateList()
    if word and not named and not tasks(word, named, False):
        yield f"no title has {word}"
    for crate in named:
        if tasks(word, [crate], False):
            continue
        if word:
            yield f"{crate} has no row with {word} in its title"
        else:
            users = ", ".join(it for it in crates.families["test"] if crate in crates.uses[it]) or "no test crate"
            yield f"{crate} has no program, no rows and no tests of its own; {users} calls it"


def told(task, run, wrong):
    """Prints a line of what was run, with what is wrong, and answers whether nothing is."""
    about = f": {task.part}: {', '.join(run.out.decode(errors='replace').splitlines())}" if task.part and not wrong else ""
    print(f"{'FAILED' if wrong else 'ok    '} {task.title}{about} ({run.seconds:.0f} s)", flush=True)
    if wrong:
        print("\n".join(f"       {line[:300]}" for line in wrong.splitlines()), flush=True)
    return not wrong


def run_all(found, jobs):
    """Runs everything: how many are right, and how many are not."""
    right = 0
    with concurrent.futures.ThreadPoolExecutor(jobs) as pool:
        running = {pool.submit(task.call): task for task in found}
        for it in concurrent.futures.as_completed(running):
            run, wrong = it.result()
            right += told(running[it], run, wrong)
    return right, len(found) - right


def main():
    words = argparse.ArgumentParser(description=__doc__, formatter_class=argparse.RawDescriptionHelpFormatter)
    words.add_argument("--jobs", type=int, help="how many run side by side")
    words.add_argument("--crate", action="append", default=[], help="runs only this crate; may be given again")
    words.add_argument("--heavy", action="store_true", help="plays the heavy cases too")
    words.add_argument("--list", action="store_true", help="tells what would run, and builds nothing")
    words.add_argument("word", nargs="?", metavar="WORD", help="runs only the rows that have it in their titles")
    words = words.parse_args()
    unknown = [it for it in words.crate if it not in CrateList().uses]
    if unknown:
        sys.exit(f"test: crates.txt has no {' '.join(unknown)}")
    nothing = list(complaints(words.word, words.crate))
    if nothing:
        print("\n".join([*(f"FAILED {it}" for it in nothing), f"0 passed, {len(nothing)} failed"]))
        return 1
    found = tasks(words.word, words.crate, words.heavy)
    if words.list:
        print("\n".join(f"{task.title}: {task.part or 'all of it'}" for task in found))
        return 0
    try:
        passed, failed = run_all(found, words.jobs or machine.jobs(MEMORY))
    finally:
        for process in list(RUNNING):
            process.terminate()
    print(f"{passed} passed, {failed} failed")
    return 1 if failed else 0


if __name__ == "__main__":
    sys.exit(main())

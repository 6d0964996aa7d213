#!/usr/bin/env python3
"""Tries the must-fail edits of crates, those of the gate and those in crates/NAME/audit/.

usage: tools/audit.py [--look] [--jobs N] [CRATE..]

The gate tries the edits in crates/NAME/must-fail/. Others lie in crates/NAME/audit/: this tries both in a copy of the
tree, outside the repository, on the crates that are named, or on all that have edits; with --jobs on that many crates
side by side. What the repository has kept of proved libraries, of the gate too, is used.

Edits in different functions are tried together: one check looks at these functions alone, and each has to be refused
for what stands in itself. Those of which that tells nothing, since they call a function that was refused, are tried
together once more, without those that it told of, as long as it tells of some. What is left, since it changes what
isn't a function or the function is still proved, is tried alone by `rt must-fail`, which proves the whole crate first.

It prints a line an edit and counts them; the status is 1 where one was not refused. --look tries no edit and says only
whether each in audit/ can be applied.
"""
import argparse
import concurrent.futures
import contextlib
import os
import pathlib
import queue
import re
import shutil
import signal
import subprocess
import sys
import tempfile
import threading

sys.dont_write_bytecode = True
import gate_libraries
from crate_list import CRATES, ROOT, CrateList
from edits import EditFault, functions_of, texts_with

FOLDERS = ("must-fail", "audit")
# What rt keeps of a proved library, and looks at by a sum of the text that it was made from.
KEPT = "out/rlib"
# What a check tells of a function that is not proved, and those parts of it that tell of another function: `not proved; it
# calls ..` may be for the other alone.
NOT_PROVED = re.compile(r"fn (\S+): (not proved(?!;)|no proof: .+)")
OF_OTHERS = re.compile(r"(?:no proof: |; )(?:it calls|it passes|a call of)[^;]*")
# What tells of the place of a goal.
GOAL = re.compile(r"(?:note: )?\S+:\d+:\d+: ")


def edits_of(crate):
    """The crate's edits, of the gate and of the audit."""
    return sorted(it for folder in FOLDERS for it in (CRATES / crate / folder).glob("*.edit"))


def fault_of(edit):
    """Why an edit can't be applied, if it can't."""
    try:
        texts_with(edit.parent.parent, [edit])
    except EditFault as fault:
        return str(fault)
    return None


def look():
    """Says which edits of the audit can't be applied, and which have the name of one of the gate."""
    edits = sorted(CRATES.glob("*/audit/*"))
    wrong = [(it, fault_of(it) if it.suffix == ".edit" else "it is no .edit file") for it in edits]
    wrong += [(it, "must-fail/ has one of this name") for it in edits if (it.parent.parent / "must-fail" / it.name).exists()]
    wrong = [(it, why) for it, why in wrong if why]
    for edit, why in wrong:
        print(f"audit: {edit.relative_to(ROOT)}: {why}", file=sys.stderr)
    print(f"audit: {len(edits)} edits beside those of the gate, {len(wrong)} can't be applied")
    return 1 if wrong else 0


def copy_tree(to, names):
    """Copies what git lists, or what stands there of it, into a folder; the edits of the audit go beside the gate's."""
    listed = subprocess.run(["git", "ls-files", "-z", "--cached", "--others", "--exclude-standard"], cwd=ROOT, check=True, capture_output=True)
    for name in filter(None, listed.stdout.decode().split("\0")):
        if name.startswith(("crates/", "crates.txt", "HANDLES")) and (ROOT / name).is_file():
            target = to / re.sub(r"^(crates/[^/]+)/audit/", r"\1/must-fail/", name)
            target.parent.mkdir(parents=True, exist_ok=True)
            shutil.copyfile(ROOT / name, target)
    of_gate = gate_libraries.stamps(names)
    for name in names:
        if name in of_gate or (CRATES / name / KEPT / "stamp").is_file():
            shutil.copytree(CRATES / name / KEPT, to / "crates" / name / KEPT)
        if name in of_gate:
            (to / "crates" / name / KEPT / "stamp").write_text(of_gate[name])


class Lanes:
    """Copies of the tree, in each of which one rt works at a time: a second in the same copy would wait."""

    def __init__(self, top, count, names):
        self.folders = [top / str(number) for number in range(count)]
        self.idle, self.running, self.lock = queue.Queue(), set(), threading.Lock()
        self.is_over = False
        copy_tree(self.folders[0], names)
        for folder in self.folders[1:]:
            shutil.copytree(self.folders[0], folder, copy_function=os.link)
        for folder in self.folders:
            self.idle.put(folder)

    @contextlib.contextmanager
    def lane(self):
        """A copy in which nothing runs."""
        folder = self.idle.get()
        try:
            yield folder
        finally:
            self.idle.put(folder)

    def call(self, words, folder):
        """Runs a command and answers its status and its output."""
        with self.lock:
            if self.is_over:
                raise RuntimeError("stopped")
            process = subprocess.Popen(words, cwd=folder, stdin=subprocess.DEVNULL, stdout=subprocess.PIPE, stderr=subprocess.STDOUT, text=True,
                                       errors="replace", start_new_session=True)
            self.running.add(process)
        said, _ = process.communicate()
        with self.lock:
            self.running.discard(process)
        return process.returncode, said

    def share(self, folder, name):
        """Puts a library that was built in one copy into the others."""
        for other in self.folders:
            if other != folder:
                shutil.rmtree(other / "crates" / name / KEPT, ignore_errors=True)
                shutil.copytree(folder / "crates" / name / KEPT, other / "crates" / name / KEPT, copy_function=os.link)

    def stop(self):
        """Ends those that run: each leads a session of its own, and what it started ends with it. None begins after that."""
        with self.lock:
            self.is_over = True
            for process in self.running:
                with contextlib.suppress(ProcessLookupError):
                    os.killpg(process.pid, signal.SIGTERM)


def build(lanes, crates, names):
    """Builds the libraries below some crates, each after those below it."""
    left, running, built = crates.below(names), {}, set()
    with concurrent.futures.ThreadPoolExecutor(len(lanes.folders)) as pool:
        while left or running:
            for name in [it for it in left if built.issuperset(crates.own(it))]:
                left.remove(name)
                running[pool.submit(library, lanes, name)] = name
            for it in concurrent.futures.wait(running, return_when=concurrent.futures.FIRST_COMPLETED).done:
                it.result()
                built.add(running.pop(it))


def library(lanes, name):
    """Builds the library of a crate over those below it, where what is kept of it is not of this text."""
    with lanes.lane() as folder:
        stamp = folder / "crates" / name / KEPT / "stamp"
        before = stamp.stat().st_ino if stamp.exists() else None
        status, said = lanes.call(["rt", "lib", "--jobs", "1"], folder / "crates" / name)
        if status:
            raise RuntimeError(f"the library {name} is not proved:\n{said[-3000:]}")
        if stamp.stat().st_ino != before:
            lanes.share(folder, name)


def rounds(edits):
    """The edits that change functions alone, each with these, in groups in which no function is changed twice."""
    found = []
    for edit in edits:
        functions = functions_of(edit)
        if not functions:
            continue
        for group in found:
            if functions.isdisjoint(set().union(*group.values())):
                break
        else:
            group = {}
            found.append(group)
        group[edit] = functions
    return found


def put(text, file):
    """Writes a file anew: the old one may be that of another copy, too."""
    file.unlink()
    file.write_text(text)


def refusals(said):
    """The functions that a check refused for what stands in themselves, each with the first goal that it told of it."""
    found, goal = {}, ""
    for line in said.splitlines():
        if GOAL.match(line):
            goal = goal or line
        elif line.startswith("fn "):
            refused = NOT_PROVED.match(line)
            if refused and OF_OTHERS.sub("", refused[2]):
                found[refused[1]] = goal or line
            goal = ""
    return found


def together(lanes, folder, crate, group):
    """The edits of a group that one check in this copy refuses, each with what it told."""
    here, texts = folder / "crates" / crate, texts_with(CRATES / crate, group)
    for file, text in texts.items():
        put(text, here / file)
    words = [word for function in sorted(set().union(*group.values())) for word in ("--only", function)]
    _, said = lanes.call(["rt", "check", "--jobs", "1", *words], here)
    for file in texts:
        put((CRATES / crate / file).read_text(), here / file)
    shutil.rmtree(here / "out" / "incremental", ignore_errors=True)
    found = refusals(said)
    told = {edit: next((found[it] for it in functions if it in found), None) for edit, functions in group.items()}
    return {edit: f"refused, as it must be: {goal[:160]}" for edit, goal in told.items() if goal}


def alone(lanes, folder, crate, left):
    """What `rt must-fail` says of these edits of a crate in this copy, and its end where that isn't one verdict an edit."""
    if not left:
        return {}, ""
    for edit in edits_of(crate):
        if edit not in left:
            (folder / "crates" / crate / "must-fail" / edit.name).unlink()
    status, said = lanes.call(["rt", "must-fail", crate], folder)
    told = dict(re.findall(r"^rt: must-fail \S+?/(\S+)\.edit: (.*)$", said, re.M))
    refused = sum(verdict.startswith("refused") for verdict in told.values())
    wrong = len(told) != len(left) or (status != 0) != (refused != len(left))
    return {it: told[it.stem] for it in left if it.stem in told}, f"rt ended with status {status}:\n{said[-1500:]}" if wrong else ""


def try_crate(lanes, name):
    """Tries the edits of a crate: the lines to print, how many were refused, and how many were not."""
    edits, told = edits_of(name), {}
    left = edits
    with lanes.lane() as folder:
        while True:
            now = {}
            for group in rounds(left):
                now.update(together(lanes, folder, name, group))
            if not now:
                break
            told.update(now)
            left = [it for it in left if it not in told]
        by_rt, end = alone(lanes, folder, name, left)
    told.update(by_rt)
    refused = sum(verdict.startswith("refused") for verdict in told.values())
    lines = [f"{name}/{it.stem}: {told[it]}" for it in edits if it in told]
    return lines + [f"{name}: {end}"] * bool(end), refused, len(edits) - refused


def try_all(lanes, crates, names):
    """Tries the edits of some crates: how many were refused, and how many were not."""
    passed = failed = 0
    build(lanes, crates, names)
    pool = concurrent.futures.ThreadPoolExecutor(len(lanes.folders))
    try:
        for done in concurrent.futures.as_completed([pool.submit(try_crate, lanes, it) for it in names]):
            told, refused, others = done.result()
            print("\n".join(told), flush=True)
            passed, failed = passed + refused, failed + others
    finally:
        # (after a signal nothing more begins)
        pool.shutdown(wait=False, cancel_futures=True)
    return passed, failed


def main():
    words = argparse.ArgumentParser(description=__doc__, formatter_class=argparse.RawDescriptionHelpFormatter)
    words.add_argument("--look", action="store_true", help="only whether the edits of the audit can be applied")
    words.add_argument("--jobs", type=int, default=1, help="how many crates side by side")
    words.add_argument("crates", nargs="*", metavar="CRATE")
    words = words.parse_args()
    if words.look:
        return look()
    crates = CrateList()
    unknown = [it for it in words.crates if it not in crates.uses]
    if unknown:
        sys.exit(f"audit: crates.txt has no {' '.join(unknown)}")
    # The highest take longest: they begin.
    names = [it for it in reversed(crates.lowest_first(crates.uses)) if edits_of(it) and (not words.crates or it in words.crates)]
    # Ends by a signal are ends like others: the copy goes.
    for number in (signal.SIGTERM, signal.SIGHUP):
        signal.signal(number, lambda *_: sys.exit(1))
    passed, failed = 0, 1
    with tempfile.TemporaryDirectory(prefix="audit-") as top:
        lanes = Lanes(pathlib.Path(top), max(words.jobs, 1), crates.below(names))
        try:
            passed, failed = try_all(lanes, crates, names)
        except RuntimeError as error:
            print(f"audit: {error}", file=sys.stderr)
        finally:
            lanes.stop()
    print(f"{passed} passed, {failed} failed")
    return 1 if failed else 0


if __name__ == "__main__":
    sys.exit(main())

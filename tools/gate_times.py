#!/usr/bin/env python3
"""Tells what the gate's time goes to.

usage: .ci/run 2>&1 | tools/gate_times.py --stamp LOG
       tools/gate_times.py LOG [--write PAGE]

--stamp hands its input on unchanged. It writes each line to LOG after the seconds since the start, and at the end the
processor seconds of the proofs, tests and edits of each crate: it looks each half second at what the provers of this
session have used. Where LOG can't be written it says so and goes on.

With a LOG it prints the table of the budget as Markdown, or puts it into PAGE between the lines of MARKS: only that of
a run from nothing, in which no proof and no edit was kept from an earlier run on the machine.
"""
import argparse
import collections
import os
import pathlib
import re
import signal
import sys
import threading
import time

MARKS = ("<!-- gate_times begins -->", "<!-- gate_times ends -->")
KINDS = ("proof", "tests", "edits")
TICKS = os.sysconf("SC_CLK_TCK")
# Crates below the given number of processor seconds stand in one line of the table.
LEAST = 60


def prover(pid):
    """Whose prover a process of this session is, for what, and its processor seconds so far; None for another process."""
    try:
        words = pathlib.Path(f"/proc/{pid}/cmdline").read_bytes().decode(errors="replace").split("\0")
        if os.path.basename(words[0]) != "rattle" or "--crate-name" not in words or os.getsid(pid) != os.getsid(0):
            return None
        crate = words[words.index("--crate-name") + 1]
        is_edit = "/rt-edit-" in os.readlink(f"/proc/{pid}/cwd")
        fields = pathlib.Path(f"/proc/{pid}/stat").read_text().rpartition(")")[2].split()
        return crate, "edits" if is_edit else "tests" if "--test" in words else "proof", (int(fields[11]) + int(fields[12])) / TICKS
    except (OSError, ValueError, IndexError):
        return None


class Sampler(threading.Thread):
    """Looks at the provers until it is told to end."""

    def __init__(self):
        super().__init__(daemon=True)
        self.used, self.over = {}, threading.Event()

    def run(self):
        while not self.over.wait(0.5):
            for pid in filter(str.isdigit, os.listdir("/proc")):
                found = prover(int(pid))
                if found:
                    self.used[pid, found[0], found[1]] = found[2]

    def totals(self):
        """The processor seconds of each crate and kind."""
        totals = collections.Counter()
        for (_, crate, kind), seconds in self.used.items():
            totals[crate, kind] += seconds
        return totals


def stamp(path):
    """Hands the input on, and writes it with its times to a file."""
    begin, sampler, log = time.monotonic(), Sampler(), None
    try:
        path.parent.mkdir(parents=True, exist_ok=True)
        log = path.open("w")
    except OSError as error:
        print(f"gate_times: {path}: {error.strerror}: no times are kept", file=sys.stderr)
    # An interrupt ends the gate, and what it says last still comes through.
    signal.signal(signal.SIGINT, signal.SIG_IGN)
    sampler.start()
    seconds = lambda: f"{time.monotonic() - begin:9.1f}"
    for line in sys.stdin.buffer:
        sys.stdout.buffer.write(line)
        sys.stdout.buffer.flush()
        log and print(seconds(), line.decode(errors="replace").rstrip("\n"), file=log, flush=True)
    sampler.over.set()
    sampler.join()
    if log:
        print(seconds(), f"cpus {len(os.sched_getaffinity(0))}", file=log)
        for (crate, kind), used in sorted(sampler.totals().items()):
            print(seconds(), f"cpu {crate} {kind} {used:.1f}", file=log)
    return 0


def read(path):
    """What a log tells: the seconds of each crate by kind, how many edits each has, and the processors, the times and the crates that were kept."""
    used, edits, marks = collections.defaultdict(dict), {}, {"kept": set()}
    for line in path.read_text().splitlines():
        at, _, text = line.strip().partition(" ")
        text = text.strip()
        if not re.fullmatch(r"\d+\.\d", at):
            sys.exit(f"gate_times: {path} has lines without their times: it is no log of --stamp")
        marks["all"] = float(at)
        if found := re.fullmatch(r"cpu (\S+) (\w+) ([\d.]+)", text):
            used[found[1]][found[2]] = float(found[3])
        elif found := re.fullmatch(r"cpus (\d+)", text):
            marks["cpus"] = int(found[1])
        elif found := re.fullmatch(r"rt: (\S+): trying its must-fail edits \((\d+)\)", text):
            edits[found[1]] = int(found[2])
        elif found := re.match(r"rt: (\S+)(?: is kept:|: \d+ of its \d+ must-fail edits were tried by an earlier run)", text):
            marks["kept"].add(found[1])
        elif text.startswith("rt: ") and text.endswith(" proved"):
            marks["proved"] = float(at)
        elif found := re.fullmatch(r"(\d+ passed, \d+ failed)", text):
            marks["verdict"] = found[1]
    return used, edits, marks


def row(name, seconds, edits):
    """A line of the table."""
    shown = [f"{seconds.get(kind, 0):,.0f}" if seconds.get(kind) else "" for kind in KINDS]
    return f"| {name} | {shown[0]} | {shown[1]} | {shown[2]} | {edits or ''} | {sum(seconds.values()):,.0f} |"


def table(path):
    """The table of a log, and whether the run began from nothing."""
    used, edits, marks = read(path)
    if not used:
        sys.exit(f"gate_times: {path} has no processor seconds: it is no log of --stamp, or the run was cut")
    order = sorted(used, key=lambda it: -sum(used[it].values()))
    large = [it for it in order if sum(used[it].values()) >= LEAST]
    small = [it for it in order if it not in large]
    summed = lambda names: {kind: sum(used[it].get(kind, 0) for it in names) for kind in KINDS}
    lines = ["| Crate | Proof | Tests | Edits with their seed | Number of edits | In all |", "|---|---:|---:|---:|---:|---:|"]
    lines += [row(it, used[it], edits.get(it)) for it in large]
    if small:
        lines.append(row(f"{len(small)} others", summed(small), sum(edits.get(it, 0) for it in small)))
    lines.append(row("**all**", summed(order), sum(edits.values())))
    whole, cpus = sum(summed(order).values()) / 60, marks.get("cpus", 1)
    verdict = f" ({marks['verdict']})" if "verdict" in marks else ""
    proved = f"; the last proof ended after {marks['proved'] / 60:.0f}" if "proved" in marks else ""
    begun = "over what earlier runs kept" if marks["kept"] else "from nothing"
    told = (f"Processor seconds of a run {begun} on {cpus} processors, with nothing else at work. It took {marks['all'] / 60:.0f} minutes{verdict}"
            f"{proved}. In all {whole:.0f} processor minutes: at least {whole / 2:.0f} minutes on two processors.")
    return "\n".join([told, "", *lines]), not marks["kept"]


def write(page, text):
    """Puts the table into a page between its marks."""
    whole = page.read_text()
    if any(whole.count(mark) != 1 for mark in MARKS):
        sys.exit(f"gate_times: {page} has not the two lines {' and '.join(MARKS)}")
    head, rest = whole.split(MARKS[0])
    page.write_text(f"{head}{MARKS[0]}\n{text}\n{MARKS[1]}{rest.split(MARKS[1])[1]}")


def main():
    words = argparse.ArgumentParser(description=__doc__, formatter_class=argparse.RawDescriptionHelpFormatter)
    words.add_argument("--stamp", action="store_true", help="write a log of what is read")
    words.add_argument("--write", metavar="PAGE", type=pathlib.Path, help="put the table into this page")
    words.add_argument("log", metavar="LOG", type=pathlib.Path)
    words = words.parse_args()
    if words.stamp:
        return stamp(words.log)
    text, is_whole = table(words.log)
    if words.write and not is_whole:
        sys.exit(f"gate_times: {words.log} is of a run that took proofs from earlier ones: the budget is that of a run from nothing")
    if words.write:
        write(words.write, text)
    else:
        print(text)
    return 0


if __name__ == "__main__":
    sys.exit(main())

"""Runs a program within bounds, and tells what it took."""
import dataclasses
import os
import pathlib
import resource
import subprocess
import tempfile
import time

MIB, PATIENCE = 1 << 20, 900
# MiB of address space that are no memory: what a program maps and never touches, and for each thread a stack of 8 and
# the 64 that the C library reserves for what it allocates. `play 4` has at most eleven threads.
MAPPED, MAPPED_BY_THREAD = 64, 72
# Seconds that a loop takes where bounds were measured.
PACE = 0.05


@dataclasses.dataclass(frozen=True)
class Run:
    """How a run ended: its status, what it wrote, the first of it, and its line on standard error; the most memory that
    it had, in MiB, and the processor seconds of all its threads."""
    status: int
    size: int
    begin: bytes
    notes: str
    memory: int
    seconds: float

    def told(self):
        """What it took, in words."""
        return f"{self.memory} MiB, {self.seconds:.2f} s"


def slowness():
    """How many times slower than where bounds were measured this machine is now, at least 1."""
    def turn():
        began = time.process_time()
        sum(number * number for number in range(300000))
        return time.process_time() - began
    return max(1.0, min(turn() for _ in range(5)) / PACE)


def states_of(process):
    """The states of the threads of a process: R runs or wants to, S sleeps, Z has ended."""
    states = set()
    for task in pathlib.Path(f"/proc/{process}/task").glob("*/stat"):
        try:
            states.add(task.read_text().rpartition(")")[2].split()[0])
        except OSError:
            states.add("Z")
    return states


def wait_until_asleep(process, looks=20, pause=0.01):
    """Returns once all threads of a process were found asleep several times in a row, or it has ended. The answer is
    whether it sleeps."""
    asleep, until = 0, time.monotonic() + PATIENCE
    while asleep < looks and time.monotonic() < until:
        time.sleep(pause)
        states = states_of(process)
        if "Z" in states or not states:
            return False
        asleep = asleep + 1 if states == {"S"} else 0
    return asleep == looks


def threads_of(words):
    """How many threads a program has at most, by its words: `step 1` has one, `play 4` and `step 4` some for each of 4."""
    count = int(words[1]) if words[1:] and words[0] != "gen" else 1
    return 1 if count == 1 and words[0] != "play" else 2 * count + 3


def started(command, memory, **more):
    """Starts a program that is granted so many MiB of memory."""
    most = (memory + MAPPED + MAPPED_BY_THREAD * threads_of(command[1:])) * MIB

    def limit():
        resource.setrlimit(resource.RLIMIT_AS, (most, most))
    return subprocess.Popen(command, stdout=subprocess.PIPE, preexec_fn=limit, **more)


def run(command, given, memory, is_read_late=False):
    """A run whose input is a file, within so many MiB of memory: the system grants no more address space than that, so
    that a program which asks for more is refused. If it is read late, nothing is taken of what it writes until it sleeps
    or has ended.

    A child begins with the peak of the process that made it, so the caller is to hold little itself.
    """
    with open(given, "rb") as file, tempfile.TemporaryFile() as notes:
        child = started(command, memory, stdin=file, stderr=notes)
        if is_read_late:
            wait_until_asleep(child.pid)
        size, begin = 0, b""
        while piece := os.read(child.stdout.fileno(), MIB):
            size += len(piece)
            begin = begin or piece[:4096]
        child.stdout.close()
        _, status, usage = os.wait4(child.pid, 0)
        child.returncode = os.waitstatus_to_exitcode(status)
        notes.seek(0)
        told = notes.read(200).decode(errors="replace").strip()
    return Run(child.returncode, size, begin, told, usage.ru_maxrss // 1024, usage.ru_utime + usage.ru_stime)

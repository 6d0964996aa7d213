"""The processor time of runs of the program."""
import os
import subprocess
import sys
import tempfile


def processor_seconds(program, script, words=("step", "1")):
    """The seconds of processor time that a word, `step 1` if none is given, takes for a script."""
    with tempfile.TemporaryFile() as file:
        file.write(script)
        file.seek(0)
        child = subprocess.Popen([program, *words], stdin=file, stdout=subprocess.DEVNULL)
        _, status, usage = os.wait4(child.pid, 0)
    if status != 0:
        sys.exit(f"{program} ended with {status}")
    return usage.ru_utime


def least_seconds(program, script, rounds=5, words=("step", "1")):
    """The least of several runs."""
    return min(processor_seconds(program, script, words) for _ in range(rounds))

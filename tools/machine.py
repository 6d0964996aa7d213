"""What this machine has room for."""
import os
import pathlib
import re


def jobs(memory):
    """How many jobs of the given number of bytes each may run side by side: one a processor, as many as memory is free for."""
    free = int(re.search(r"MemAvailable:\s+(\d+)", pathlib.Path("/proc/meminfo").read_text())[1]) * 1024
    return max(1, min(len(os.sched_getaffinity(0)), free // memory))

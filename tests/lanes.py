#!/usr/bin/env python3
"""Prints how many checks the gate runs side by side: one a processor, and no more than have 4 GB of
free memory each.
"""
import os
from pathlib import Path

EACH = 4_000_000_000


def number_in(file):
    """The number that a file of the system has, or None."""
    try:
        text = Path(file).read_text()
    except OSError:
        return None
    return int(text) if text.strip().isdigit() else None


def free_memory():
    """The free memory in bytes, within the limit of the control group."""
    lines = Path("/proc/meminfo").read_text().splitlines()
    available = next(int(line.split()[1]) * 1024 for line in lines if line.startswith("MemAvailable:"))
    limit, used = number_in("/sys/fs/cgroup/memory.max"), number_in("/sys/fs/cgroup/memory.current")
    return available if limit is None or used is None else min(available, limit - used)


if __name__ == "__main__":
    print(max(1, min(len(os.sched_getaffinity(0)), free_memory() // EACH)))

"""How many checks rt ci should run at once."""

import os
import re

# What rt ci plans with for a check of the larger crates, and what one was seen to hold at most, in bytes.
PLANNED, HELD = 4_000_000_000, 3_000_000_000


def number_in(path, pattern):
    """A number that stands in a file of the system's, if it is there."""
    try:
        with open(path, encoding="utf-8") as it:
            found = re.search(pattern, it.read(), re.M)
    except OSError:
        return None
    return int(found[1]) if found else None


def fitting():
    """How many checks rt ci is to run at once: None where memory is ample, and rt's own plan keeps all processors at work."""
    processors, free = len(os.sched_getaffinity(0)), 1024 * (number_in("/proc/meminfo", r"^MemAvailable:\s+(\d+)") or 0)
    # (in a container)
    quota, period = number_in("/sys/fs/cgroup/cpu.max", r"^(\d+)"), number_in("/sys/fs/cgroup/cpu.max", r" (\d+)")
    if quota and period:
        processors = min(processors, max(quota // period, 1))
    limit, held = number_in("/sys/fs/cgroup/memory.max", r"^(\d+)"), number_in("/sys/fs/cgroup/memory.stat", r"^anon (\d+)")
    if limit and held is not None:
        free = min(free, limit - held)
    lanes = min(processors, free // HELD)
    return lanes if lanes > 1 and 0.85 * free < processors * PLANNED else None


def choose():
    """Has rt ci run so many checks, unless the environment says how many."""
    if fitting():
        os.environ.setdefault("RT_JOBS", str(fitting()))

#!/usr/bin/env python3
"""Prints how many proofs `rt ci` is to work on at a time, for RT_JOBS: as many as there are processors, but at most one
for each 4 GB of memory that is free, and at least one. By itself `rt ci` reckons with 10 to 15 GB for each upper crate,
which takes 0.5 to 3, and so leaves processors idle."""

import os
import re

# What a proof is given, in bytes.
MEMORY = 4_000_000_000
# Of a control group: its limit of memory and what its processes hold, its quota of processor time and the period.
LIMITS = (
    ("/sys/fs/cgroup/memory.max", "/sys/fs/cgroup/memory.stat", r"anon (\d+)"),
    ("/sys/fs/cgroup/memory/memory.limit_in_bytes", "/sys/fs/cgroup/memory/memory.stat", r"total_rss (\d+)"),
)
QUOTAS = (
    ("/sys/fs/cgroup/cpu.max", "/sys/fs/cgroup/cpu.max", r" (\d+)"),
    ("/sys/fs/cgroup/cpu/cpu.cfs_quota_us", "/sys/fs/cgroup/cpu/cpu.cfs_period_us", r"(\d+)"),
)


def number_in(file, pattern=r"^(\d+)"):
    """The number behind this pattern, or none where the file has none (`max` and -1 are no limits)."""
    try:
        with open(file, encoding="ascii") as it:
            found = re.search(pattern, it.read())
    except OSError:
        return None
    return int(found[1]) if found else None


def processors():
    found = len(os.sched_getaffinity(0))
    for file, of, pattern in QUOTAS:
        quota, period = number_in(file), number_in(of, pattern)
        if quota and period:
            found = min(found, quota // period)
    return found


def free_memory():
    found = [1024 * (number_in("/proc/meminfo", r"MemAvailable:\s+(\d+)") or 0)]
    for file, of, pattern in LIMITS:
        limit, held = number_in(file), number_in(of, pattern)
        if limit is not None and held is not None:
            found.append(limit - held)
    return min(found)


def jobs():
    return max(1, min(processors(), free_memory() // MEMORY))


if __name__ == "__main__":
    print(jobs())

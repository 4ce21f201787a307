"""How many processors there are to use, and how much memory is free: by what the process and its group may."""

import os
import re

GROUP = "/sys/fs/cgroup"
QUOTAS = [(f"{GROUP}/cpu.max", f"{GROUP}/cpu.max", r" (\d+)"),
          (f"{GROUP}/cpu/cpu.cfs_quota_us", f"{GROUP}/cpu/cpu.cfs_period_us", r"(\d+)")]
LIMITS = [(f"{GROUP}/memory.max", f"{GROUP}/memory.stat", r"anon (\d+)"),
          (f"{GROUP}/memory/memory.limit_in_bytes", f"{GROUP}/memory/memory.stat", r"total_rss (\d+)")]


def number_in(path, pattern):
    """The first number in a file that stands so, or None."""
    try:
        with open(path, encoding="utf-8") as file:
            found = re.search(pattern, file.read())
    except OSError:
        return None
    return int(found[1]) if found else None


def asked(word):
    """What the environment allows, a number above 0, or None."""
    number = os.environ.get(word, "")
    return int(number) if number.isdigit() and int(number) else None


def processors():
    """The processors to use: those that this process may run on, fewer by its group's quota, or as ADSD_JOBS says."""
    found = len(os.sched_getaffinity(0))
    for quota, of, pattern in QUOTAS:
        quota, period = number_in(quota, r"^(\d+)"), number_in(of, pattern)
        if quota and period:
            found = min(found, max(1, quota // period))
    return asked("ADSD_JOBS") or found


def free():
    """The bytes of memory that are free now, or that the group still leaves."""
    found = [1024 * (number_in("/proc/meminfo", r"MemAvailable:\s+(\d+)") or 0)]
    for limit, of, pattern in LIMITS:
        limit, held = number_in(limit, r"^(\d+)"), number_in(of, pattern)
        if limit and held is not None:
            found.append(max(0, limit - held))
    return min(found)


def memory():
    """The bytes to plan with: most of what is free, since some proofs take a fifth more than is planned, or ADSD_MEMORY
    thousand millions."""
    given = asked("ADSD_MEMORY")
    return given * 10**9 if given else int(0.85 * free())


def has_room(needed):
    """Whether so much memory is free now, where it isn't ADSD_MEMORY that says how much there is."""
    return bool(asked("ADSD_MEMORY")) or free() >= needed

"""Finds how many processors and how much memory a run may use, also in a control group."""

from __future__ import annotations

import os
import re
from typing import List, Optional

GROUPS = "/sys/fs/cgroup"
UNKNOWN_MEMORY = 1 << 62


def processors() -> int:
    """Returns how many processors this process may use, by its affinity and control groups."""
    quotas = [read_quota(folder) for folder in group_folders("cpu")]
    known = [quota for quota in quotas if quota is not None]
    return max(1, min([len(os.sched_getaffinity(0)), *known]))


def free_memory() -> int:
    """Returns how many bytes this process can allocate without swapping, by its control groups."""
    available = re.search(r"(?m)^MemAvailable: +([0-9]+) kB$", read_file("/proc/meminfo"))
    free = [free_in_group(folder) for folder in group_folders("memory")]
    known = [amount for amount in free if amount is not None]
    return min([int(available[1]) << 10 if available else UNKNOWN_MEMORY, *known])


def group_folders(controller: str) -> List[str]:
    """Returns the folders of this process's control groups, and of those above them."""
    found = []
    for line in read_file("/proc/self/cgroup").splitlines():
        hierarchy, controllers, path = line.split(":", 2)
        if hierarchy == "0":  # version 2
            found += [GROUPS + each for each in with_parents(path)]
        elif controller in controllers.split(","):
            found += [f"{GROUPS}/{controller}{each}" for each in with_parents(path)]
    return found


def with_parents(path: str) -> List[str]:
    """Returns a path and those above it. A container may see only the lowest group, as the root."""
    parts = [part for part in path.split("/") if part]
    return ["".join(f"/{part}" for part in parts[:length]) for length in range(len(parts), -1, -1)]


def read_quota(folder: str) -> Optional[int]:
    """Returns how many processors a group may use, rounded up, or None if it has no quota."""
    words = read_file(f"{folder}/cpu.max").split()
    if len(words) == 2:
        quota, period = words
    else:  # version 1
        quota = read_file(f"{folder}/cpu.cfs_quota_us").strip()
        period = read_file(f"{folder}/cpu.cfs_period_us").strip()
    if not quota.isdecimal() or not period.isdecimal() or int(period) == 0:  # "max", or -1
        return None
    return max(1, -(-int(quota) // int(period)))


def free_in_group(folder: str) -> Optional[int]:
    """Returns how many bytes a group may still use, or None. Cached files count as free."""
    numbers = [read_number(f"{folder}/memory.{name}") for name in ("max", "high", "limit_in_bytes")]
    limits = [limit for limit in numbers if limit is not None]
    if not limits:
        return None
    used = read_number(f"{folder}/memory.current")
    if used is None:  # version 1
        used = read_number(f"{folder}/memory.usage_in_bytes") or 0
    statistics = read_file(f"{folder}/memory.stat")
    # In version 1, total_inactive_file also counts the groups below this one.
    files = re.findall(r"(?m)^(?:total_)?inactive_file ([0-9]+)$", statistics)
    return max(0, min(limits) - used + max(map(int, files), default=0))


def read_number(path: str) -> Optional[int]:
    """Returns the number in a file of the kernel, or None."""
    text = read_file(path).strip()
    return int(text) if text.isdecimal() else None


def read_file(path: str) -> str:
    """Returns the content of a file of the kernel, or nothing if it can't be read."""
    try:
        with open(path, encoding="latin-1") as file:
            return file.read()
    except OSError:
        return ""

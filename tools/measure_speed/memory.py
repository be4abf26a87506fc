"""Memory: the most that a command uses at once."""
from __future__ import annotations

from collections.abc import Iterator
from pathlib import Path

from .commands import audit_task, largest_scrypt_task
from .processes import measure_peak_memory
from .programs import Programs
from .results import Memory
from .settings import SCRYPT, SHA512CRYPT, Workload, scrypt

LARGEST = "scrypt, N = 2^18, r = 32"
WORKLOADS = {
    "sha512crypt": Workload(SHA512CRYPT),
    "scrypt, N = 2^14, r = 32": Workload(SCRYPT),
    LARGEST: Workload(scrypt(18, 32, 1)),
}


def table_size(workload: Workload) -> int:
    """Returns the size of scrypt's table in KiB, or 0 for another method."""
    cost = workload.scrypt_cost
    if cost is None:
        return 0
    rows = 1 << cost.log_n
    return cost.block_size * rows // 1024


def measure(programs: Programs, folder: Path) -> Iterator[Memory]:
    """Measures hashes and an audit by mkpasswd, and the largest hash by pwhash."""
    for row, workload in WORKLOADS.items():
        kibibytes = measure_peak_memory(programs.mkpasswd.task(workload), folder)
        yield Memory(row, "mkpasswd", kibibytes, table_size(workload))
    kibibytes = measure_peak_memory(largest_scrypt_task(), folder)
    yield Memory(LARGEST, "pwhash", kibibytes, table_size(WORKLOADS[LARGEST]))
    kibibytes = measure_peak_memory(audit_task(1_000_000), folder)
    yield Memory("an audit of a million lines", "mkpasswd", kibibytes)

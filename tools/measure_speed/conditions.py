"""The conditions of a measurement: date, code, machine, and versions of what is measured."""
from __future__ import annotations

import os
import re
import time
from collections.abc import Sequence
from pathlib import Path

from .failure import Stop
from .processes import ROOT, output_of, processors
from .results import Conditions, Part

# The Debian packages that a part needs, and whose versions matter to it.
PACKAGES = {
    Part.INSTRUCTIONS: ("valgrind", "libc6", "libcrypt1", "openssl", "libssl-dev", "libsodium-dev"),
    Part.RATIOS: ("libcrypt1", "openssl", "libssl-dev", "libsodium-dev", "python3-passlib"),
    Part.BUILDS: ("nodejs", "chromium", "chromium-driver", "python3-selenium"),
    Part.STARTS: ("python3", "openssl"),
    Part.CORES: ("python3",),
    Part.LOGINS: ("valgrind", "libc6", "python3", "nodejs"),
    Part.MEMORY: ("python3",),
    Part.SECONDS: ("libc6",),
}
PACKAGE_FOR_PLOTS = "gnuplot-nox"


def versions(packages: Sequence[str]) -> dict[str, str]:
    """Returns the versions of Debian packages, all of which must be installed."""
    try:
        listed = output_of("dpkg-query", "-Wf", "${Package}\t${Version}\n", *packages)
    except Stop as error:
        raise Stop(f"a Debian package is missing: {error}") from None
    found = dict(line.split("\t") for line in listed.splitlines())
    return {package: found[package] for package in packages}


def from_cpuinfo(name: str) -> str:
    """Returns what the kernel says about the first processor."""
    text = Path("/proc/cpuinfo").read_text(encoding="utf-8")
    found = re.search(rf"^{name}\s*: (.*)", text, re.MULTILINE)
    if found is None:
        raise Stop(f"/proc/cpuinfo has no {name}")
    return found[1]


def conditions_of(part: Part) -> Conditions:
    """Returns the conditions under which a part is measured now."""
    return Conditions(
        date=time.strftime("%Y-%m-%d"),
        crates=output_of("git", "-C", str(ROOT), "rev-parse", "HEAD:crates").strip(),
        processor=from_cpuinfo("model name"),
        ghz=round(float(from_cpuinfo("cpu MHz")) / 1000, 2),
        cores=processors(),
        kernel=os.uname().release,
        versions=versions(PACKAGES[part]),
    )

"""pwhash computes as many hashes at once as the machine and its control group allow."""
from __future__ import annotations

import pathlib
import shlex

import pytest
from support.pwhash_runs import (
    GROUP_VERSION_1,
    GROUP_VERSION_2,
    available,
    pwhash,
    save,
    some_processors,
    users,
    watched,
)


@pytest.mark.parametrize(
    ("script", "processors"),
    [
        # Without a script, taskset sets the limit.
        pytest.param("", 1, id="one processor by taskset"),
        pytest.param("", 2, id="two processors by taskset"),
        pytest.param(
            f"{GROUP_VERSION_2} echo 100000 100000 > own/cpu.max", 1, id="a quota of one processor"
        ),
        pytest.param(
            f"{GROUP_VERSION_2} echo 150000 100000 > own/cpu.max",
            2,
            id="a quota of one and a half processors",
        ),
        pytest.param(
            f"{GROUP_VERSION_2} echo 200000 100000 > cpu.max", 2, id="a quota of the parent group"
        ),
        pytest.param(f"{GROUP_VERSION_2} echo 1000 100000 > cpu.max", 1, id="a tiny quota"),
        pytest.param(
            f"{GROUP_VERSION_1} echo 200000 > cpu/own/cpu.cfs_quota_us",
            2,
            id="a quota of a version 1 group",
        ),
    ],
)
def test_no_more_threads_work_than_there_are_processors(
    folder: pathlib.Path, script: str, processors: int
) -> None:
    save("passwords", users(16))
    limit = script or some_processors(processors)
    script = f"{limit}\ncd {shlex.quote(str(folder))}"
    done, load = watched(script, "file", "-m", "sha512crypt", "-R", "100k", "passwords")
    assert done.status == 0 and done.out.count(b"\n") == 16, done
    assert 0 < load.working <= processors, (load, done.command)


MEBIBYTE = 1 << 20
BESIDE_HASHES = 30  # mebibytes that a run takes in addition to its hashes
MOST_OF_A_HASH = 100  # of its 128 mebibytes; a load that is lower shows that none was measured

LITTLE_MEMORY = [
    pytest.param(available(600), 300, id="half of what is available"),
    pytest.param(available(300), 150, id="enough for one hash"),
    pytest.param(
        f"{GROUP_VERSION_2} echo {600 * MEBIBYTE} > own/memory.max", 300, id="half of a group's"
    ),
    pytest.param(
        f"{GROUP_VERSION_2} echo {600 * MEBIBYTE} > memory.max\n"
        f"echo {300 * MEBIBYTE} > memory.current",
        150,
        id="half of what a parent group has left",
    ),
    pytest.param(
        f"{GROUP_VERSION_1} echo {600 * MEBIBYTE} > memory/own/memory.limit_in_bytes",
        300,
        id="half of a version 1 group's",
    ),
    pytest.param(available(20), 140, id="one hash, although there isn't enough"),
]


@pytest.mark.parametrize(("script", "most"), LITTLE_MEMORY)
def test_scrypt_takes_at_most_half_of_the_free_memory(
    folder: pathlib.Path, script: str, most: int
) -> None:
    """With -R 8 each hash takes 128 MiB."""
    save("passwords", users(6))
    script = f"{script}\ncd {shlex.quote(str(folder))}"
    done, load = watched(script, "file", "-m", "scrypt", "-R", "8", "passwords")
    assert done.status == 0 and done.out.count(b"\n") == 6, done
    mebibytes = load.memory // MEBIBYTE
    assert MOST_OF_A_HASH < mebibytes <= most + BESIDE_HASHES, (load, done.command)


def test_scrypt_checks_take_at_most_half_of_the_free_memory(folder: pathlib.Path) -> None:
    hashes = pwhash("file", "-m", "scrypt", "-R", "8", stdin=users(6)).out.splitlines()
    lines = [line + b":password%d\n" % number for number, line in enumerate(hashes)]
    save("stored", b"".join(lines))
    script = f"{available(600)}\ncd {shlex.quote(str(folder))}"
    done, load = watched(script, "check", "--budget", "600M", "stored")
    assert done.status == 0 and done.out.count(b":ok\n") == 6, done
    mebibytes = load.memory // MEBIBYTE
    assert MOST_OF_A_HASH < mebibytes <= 300 + BESIDE_HASHES, (load, done.command)

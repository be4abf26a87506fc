"""Threads, too little memory, and an interpreter without the library."""
from __future__ import annotations

import itertools
import shutil
import threading
import time
from concurrent.futures import ThreadPoolExecutor
from pathlib import Path

import pytest
from support.package import SONAME, environment_of, run_python, package_under_test
from support.process import assert_result
from support.stored_strings import MD5

with package_under_test():
    import mkpasswd

COUNT = 40


def test_other_threads_run_during_a_hash() -> None:
    """If a login kept the interpreter's lock, this thread would hardly get processor time."""
    stored = mkpasswd.Policy(rounds=1_000_000).hash("password")
    spent: list[float] = []

    def log_in() -> None:
        began = time.thread_time()
        assert mkpasswd.login("password", field=stored)
        spent.append(time.thread_time() - began)

    thread = threading.Thread(target=log_in)
    began = time.thread_time()
    thread.start()
    while thread.is_alive():
        pass
    spent_here = time.thread_time() - began
    assert spent[0] > 0.1, "the login was too quick for this test"
    assert spent_here > 0.2 * spent[0]


def test_threads_get_their_own_answers() -> None:
    passwords = [f"password {number}" for number in range(COUNT)]
    hashes = list(map(mkpasswd.Policy("md5crypt").hash, passwords))
    pairs = list(itertools.product(range(COUNT), repeat=2))

    def is_match(pair: tuple[int, int]) -> bool:
        typed, stored = pair
        return mkpasswd.login(passwords[typed], field=hashes[stored])

    with ThreadPoolExecutor(8) as pool:
        answers = list(pool.map(is_match, pairs))
    assert answers == [typed == stored for typed, stored in pairs]


# ---- Too little memory for scrypt

# Lets the interpreter allocate 32 MiB more. A hash of scrypt takes 64 MiB.
LIMIT = """
import resource, mkpasswd
from mkpasswd import crypt
pages, *_ = open("/proc/self/statm").read().split()
used = int(pages) * resource.getpagesize()
limit = used + (32 << 20)
resource.setrlimit(resource.RLIMIT_AS, (limit, limit))
policy = mkpasswd.Policy("scrypt")
"""
CALL = """
try:
    print({call})
except MemoryError as error:
    print(error)
"""
SETTING = "$7$CU..../....salt"


@pytest.mark.parametrize(
    "call",
    [
        pytest.param('policy.hash("x")', id="hash"),
        pytest.param(f'crypt.crypt("x", "{SETTING}")', id="crypt"),
    ],
)
def test_too_little_memory_is_an_error(call: str) -> None:
    assert_result(run_python(LIMIT + CALL.format(call=call)), stdout=b"out of memory\n")


@pytest.mark.parametrize(
    ("field", "answer"),
    [
        pytest.param(SETTING, b"False\n", id="a hash of scrypt"),
        pytest.param(None, b"False\n", id="no name"),
        pytest.param(MD5, b"True\n", id="a hash that needs no memory"),
    ],
)
def test_a_login_with_too_little_memory_returns_an_answer(field: str | None, answer: bytes) -> None:
    """A hash that needs no memory still matches."""
    script = f'{LIMIT}print(policy.login("password", field={field!r}))'
    assert_result(run_python(script), stdout=answer)


# ---- Files that aren't the library

ANOTHER_LIBRARY = "import _ctypes; print(_ctypes.__file__)"
MESSAGE = b"ImportError: mkpasswd needs its C library, libmkpasswd.so.3, and could not load it: "


@pytest.mark.parametrize("kind", ["an empty file", "garbage", "another library"])
def test_a_file_that_is_not_the_library_is_named(kind: str, tmp_path: Path) -> None:
    """The loader stops at such a file instead of going on to the system's library."""
    place = tmp_path / SONAME
    place.write_bytes(b"garbage" * 100 if kind == "garbage" else b"")
    if kind == "another library":
        found = run_python(ANOTHER_LIBRARY).required().stdout.decode().strip()
        shutil.copy(found, place)
    result = run_python("import mkpasswd", env=environment_of(place))
    last = result.stderr.splitlines()[-1]
    assert result.status == 1 and last.startswith(MESSAGE), result
    assert result.stderr.count(b"Traceback") == 1, result

"""pam_mkpasswd.so with pamtester: a login leaves no hash in the memory of a service.

A service keeps running after a login, so a hash in its memory could leak later.
"""
from __future__ import annotations

import re

import pytest
from support.pam import Answer, Pam
from support.pam_fields import FILE, HASHES, PASSWORD, SHA512, WRONG
from support.preload import preload_library

pytestmark = [pytest.mark.needs("namespaces", "pamtester"), pytest.mark.xdist_group("pam")]

MEMORY = "/srv/memory"
ARGUMENTS = f"file={FILE} rounds=1001 budget=1000000 renew"
WITH_OLD = "chauthtok(PAM_CHANGE_EXPIRED_AUTHTOK)"
NEW = b"another password"
# So many other accounts that no later allocation overwrites all of the file's memory.
OTHERS = b"".join(b"other%d:%b\n" % (number, HASHES["sha256crypt"]) for number in range(100))
LEAST_FOUND = 16  # the fewest consecutive characters of a digest that count as a leak


@pytest.fixture(scope="module", name="looked_at")
def fixture_looked_at(tmp_path_factory: pytest.TempPathFactory) -> tuple[str, ...]:
    """The command that writes a service's memory to a file before the service ends PAM."""
    library = preload_library("memory_at_end", tmp_path_factory.mktemp("memory"))
    # With lazy binding the dynamic linker saves all registers on the stack, and one of them may
    # hold what strlen has just read.
    return ("env", "LD_BIND_NOW=1", f"LD_PRELOAD={library}", f"MEMORY={MEMORY}")


@pytest.fixture(autouse=True)
def _file(pam: Pam) -> None:
    """Writes a file with two users' lines and the other accounts."""
    pam.machine.write(FILE, OTHERS + b"ann:" + SHA512 + b"\n" + OTHERS, 0o600)
    pam.set_arguments(ARGUMENTS)


def digest_of(field: bytes) -> bytes:
    """Returns the part of a hash after the salt."""
    return field.rpartition(b"$")[2]


def field_of_ann(pam: Pam) -> bytes:
    """Returns Ann's current field."""
    found = re.search(rb"^ann:(.*)$", pam.machine.read(FILE), re.MULTILINE)
    assert found
    return found[1]


def assert_no_hash_left(pam: Pam) -> None:
    """Fails the test if a part of the old or the new hash is in the service's memory."""
    memory = pam.machine.read(MEMORY)
    assert f"MEMORY={MEMORY}".encode() in memory, "the memory lacks the environment"
    for field in (SHA512, HASHES["sha256crypt"], field_of_ann(pam)):
        digest = digest_of(field)
        parts = [digest[start : start + LEAST_FOUND] for start in range(len(digest))]
        left = [part for part in parts if len(part) == LEAST_FOUND and part in memory]
        assert left == [], field


def test_a_login_that_renews_leaves_no_hash(pam: Pam, looked_at: tuple[str, ...]) -> None:
    call = pam.call("ann", "authenticate", PASSWORD, through=looked_at)
    assert call.answer is Answer.ACCEPTED, call.log
    assert field_of_ann(pam) != SHA512
    assert_no_hash_left(pam)


@pytest.mark.parametrize("name", ["ann", "nobody"])
def test_a_refused_login_leaves_no_hash(pam: Pam, looked_at: tuple[str, ...], name: str) -> None:
    call = pam.call(name, "authenticate", WRONG, through=looked_at)
    assert call.answer is Answer.REFUSED, call.log
    assert_no_hash_left(pam)


def test_a_change_of_password_leaves_no_hash(pam: Pam, looked_at: tuple[str, ...]) -> None:
    call = pam.call("ann", WITH_OLD, PASSWORD, NEW, NEW, through=looked_at)
    assert call.answer is Answer.ACCEPTED, call.log
    assert_no_hash_left(pam)

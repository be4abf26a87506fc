"""pam_mkpasswd.so under valgrind, with each kind of field, call and arguments.

`make fuzz` runs it with sanitizers.
"""
from __future__ import annotations

from pathlib import Path

import pytest
from support.pam import Pam
from support.pam_fields import FILE, HASHES, HOSTILE, PASSWORD, SHA512

pytestmark = [
    pytest.mark.needs("namespaces", "pamtester", "valgrind"),
    pytest.mark.slow,
    pytest.mark.xdist_group("pam stacks"),
]

UNKNOWN = "nobodyhere"
FIELDS = {
    "bad": b"$6$\0",
    "costly": HOSTILE,
    "empty": b"",
    "locked": b"!",
    "long": b"a" * 5000,
    "seven": HASHES["scrypt"],
    "six": SHA512,
    "yes": HASHES["yescrypt"],
}
ARGUMENTS = f"file={FILE} rounds=1000 renew debug budget=300000000"
NEW = b"another password"
ERROR = 99  # valgrind's status if it finds an error
VALGRIND = (
    *("valgrind", "-q", "--leak-check=full", "--show-leak-kinds=definite"),
    f"--error-exitcode={ERROR}",
)


@pytest.fixture(autouse=True)
def _file(pam: Pam) -> None:
    """Writes a file with all fields, the last line without a line feed."""
    lines = [b"%b:%b" % (name.encode(), field) for name, field in FIELDS.items()]
    pam.machine.write(FILE, b"\n".join(lines))


def assert_nothing_found(pam: Pam, folder: Path, *words: str, typed: tuple[bytes, ...]) -> None:
    """Runs pamtester under valgrind, and fails the test if that finds an error."""
    found = folder / "found"
    pam.log.entries()
    stdin = b"".join(line + b"\n" for line in typed)
    command = (*VALGRIND, f"--log-file={found}", "pamtester", "example", *words)
    result = pam.machine.run(*command, stdin=stdin)
    assert found.read_text() == "", f"{result}\n{pam.log.entries()}"
    assert result.status != ERROR, result


@pytest.mark.parametrize("name", [UNKNOWN, *FIELDS])
def test_valgrind_finds_no_error_in_a_login(pam: Pam, name: str, tmp_path: Path) -> None:
    pam.set_arguments(ARGUMENTS)
    assert_nothing_found(pam, tmp_path, name, "authenticate", "acct_mgmt", typed=(PASSWORD,))


@pytest.mark.parametrize("name", [UNKNOWN, *FIELDS])
def test_valgrind_finds_no_error_in_a_change_of_password(
    pam: Pam, name: str, tmp_path: Path
) -> None:
    pam.set_arguments(ARGUMENTS)
    assert_nothing_found(pam, tmp_path, name, "chauthtok", typed=(NEW, NEW))


@pytest.mark.parametrize("operation", ["authenticate", "chauthtok"])
@pytest.mark.parametrize("arguments", ["file=/gone rounds=1000", f"file={FILE} rounds=x", "debug"])
def test_valgrind_finds_no_error_in_a_call_that_reads_no_field(
    pam: Pam, arguments: str, operation: str, tmp_path: Path
) -> None:
    pam.set_arguments(arguments)
    assert_nothing_found(pam, tmp_path, "six", operation, typed=(PASSWORD, NEW, NEW))

"""fail2ban's own filter finds pam_mkpasswd's failed logins in the log, by GUIDE's recipe."""
from __future__ import annotations

import re
from pathlib import Path

import pytest
from support.documents import marked
from support.pam import Pam
from support.pam_fields import CURRENT, FILE, PASSWORD, SHA512, WRONG

pytestmark = [
    pytest.mark.needs("namespaces", "pamtester", "fail2ban-regex"),
    pytest.mark.xdist_group("pam"),
]

RECIPE = "/etc/fail2ban/filter.d/common.local"
HOST = "192.0.2.7"
FORGED = "192.0.2.1"


@pytest.fixture(scope="module", autouse=True)
def _recipe(pam: Pam) -> None:
    """Follows the recipe, and writes a file with two users."""
    pam.machine.write(RECIPE, marked("fail2ban", "ini").code)
    pam.machine.write(FILE, b"ann:" + SHA512 + b"\nb c:" + SHA512 + b"\n")
    pam.set_arguments(CURRENT)


def logged(pam: Pam, name: str, password: bytes, *items: str) -> str:
    """Logs in from the host, and returns what syslog writes to its file."""
    pam.log.entries()
    words = [word for item in (f"rhost={HOST}", *items) for word in ("-I", item)]
    pam.machine.run("pamtester", *words, "example", name, "authenticate", stdin=password + b"\n")
    return "".join(map(line_in_file, pam.log.raw_entries()))


def line_in_file(entry: str) -> str:
    """Returns a log entry's line in syslog's file: without its priority, and with the host's name.

    The time has 15 characters, as in `<83>Dec  1 12:00:00 `.
    """
    return re.sub(r"^<\d+>(.{15} )", r"\1host ", entry) + "\n"


def banned(pam: Pam, log: str, folder: Path) -> list[str]:
    """Returns the addresses that the filter finds."""
    file = folder / "log"
    file.write_text(log, "ascii")
    result = pam.machine.run("fail2ban-regex", "-o", "ip", file, "pam-generic").required()
    return result.stdout.decode().split()


@pytest.mark.parametrize("name", ["ann", "b c", "nobody"])
def test_a_wrong_password_is_found_with_its_address(pam: Pam, name: str, tmp_path: Path) -> None:
    log = logged(pam, name, WRONG)
    assert banned(pam, log, tmp_path) == [HOST], log


def test_a_right_password_is_not_found(pam: Pam, tmp_path: Path) -> None:
    assert banned(pam, logged(pam, "ann", PASSWORD), tmp_path) == []


def test_a_remote_user_cannot_forge_another_address(pam: Pam, tmp_path: Path) -> None:
    log = logged(pam, "ann", WRONG, f"ruser=x rhost={FORGED}")
    assert banned(pam, log, tmp_path) == [HOST], log

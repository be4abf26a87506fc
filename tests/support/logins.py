"""Tests for anything that users log in to: it accepts the right passwords and nothing else.

A class of tests inherits one of the classes here, and defines a fixture `door`.
"""
from __future__ import annotations

import base64
import enum
import http.client
from collections.abc import Callable
from dataclasses import dataclass

import pytest

from .namespaces import Namespaces
from .pam import Answer, answer_of
from .process import Result
from .recipes import ANN, CLOSED, SECRET, SIX, USERS, Site, User
from .services import SECONDS, Service


class Verdict(enum.Enum):
    """A service's answer to a login."""

    ACCEPTED = "accepted"
    REFUSED = "refused"


@dataclass(frozen=True)
class Door:
    """A way to log in to a site, with the service behind it, if there is one."""

    site: Site
    log_in: Callable[[str, str], Verdict]
    service: Service | None = None

    def assert_verdict(self, name: str, password: str, expected: Verdict) -> None:
        """Fails the test unless a login has this verdict. The failure shows the service's log."""
        found = self.log_in(name, password)
        message = f"{name!r} with {password!r}: expected {expected.value}, got {found.value}"
        assert found is expected, f"{message}\n{self.service or ''}"


class LoginTests:
    """Tests for every service."""

    @pytest.mark.parametrize("user", USERS, ids=str)
    def test_the_right_password_is_accepted(self, door: Door, user: User) -> None:
        door.assert_verdict(user.name, user.password, Verdict.ACCEPTED)

    @pytest.mark.parametrize("user", USERS, ids=str)
    def test_another_password_is_refused(self, door: Door, user: User) -> None:
        door.assert_verdict(user.name, f"{user.password[:-1]}?", Verdict.REFUSED)

    def test_the_password_of_another_user_is_refused(self, door: Door) -> None:
        door.assert_verdict(SIX.name, ANN.password, Verdict.REFUSED)

    def test_the_hash_itself_is_refused(self, door: Door) -> None:
        door.assert_verdict(SIX.name, door.site.hashes()[SIX.name], Verdict.REFUSED)

    def test_an_unknown_name_is_refused(self, door: Door) -> None:
        door.assert_verdict("nobody", SIX.password, Verdict.REFUSED)


class PamLoginTests(LoginTests):
    """Further tests for services whose passwords the PAM module checks.

    If the module didn't refuse the hash of `hostile`, checking it would outlast any service's wait.
    """

    takes_blank = False  # whether the service accepts names with a space

    @pytest.mark.parametrize("name", CLOSED)
    def test_a_field_that_is_not_a_hash_of_ours_is_refused(self, door: Door, name: str) -> None:
        door.assert_verdict(name, SECRET, Verdict.REFUSED)

    def test_a_name_with_a_space_is_accepted_if_the_service_allows_it(self, door: Door) -> None:
        verdict = Verdict.ACCEPTED if self.takes_blank else Verdict.REFUSED
        door.assert_verdict("a b", SIX.password, verdict)

    def test_a_name_with_a_colon_is_refused(self, door: Door) -> None:
        door.assert_verdict("a:b", SIX.password, Verdict.REFUSED)


def verdict_of(result: Result, *, refused: int) -> Verdict:
    """Returns the verdict that a client's exit status shows: 0 if accepted, or else `refused`."""
    if result.status == 0:
        return Verdict.ACCEPTED
    assert result.status == refused, f"expected status: 0 or {refused}\n{result}"
    return Verdict.REFUSED


PAGE = b"in\n"  # what the web server serves after a login
HTTP_REFUSALS = (401, 403, 500)


def http_verdict(machine: Namespaces, port: int, name: str, password: str) -> Verdict:
    """Logs in to a web server, and returns its verdict."""
    user = base64.b64encode(f"{name}:{password}".encode()).decode()
    connection = http.client.HTTPConnection("127.0.0.1", port, timeout=SECONDS)
    with machine.network():
        connection.connect()
    connection.request("GET", "/", headers={"Authorization": f"Basic {user}"})
    answer = connection.getresponse()
    content = answer.read()
    connection.close()
    if answer.status == 200:
        assert content == PAGE, content
        return Verdict.ACCEPTED
    assert answer.status in HTTP_REFUSALS, f"status {answer.status}: {content!r}"
    return Verdict.REFUSED


def pam_verdict(machine: Namespaces, service: str, name: str, password: str) -> Verdict:
    """Logs in through PAM alone, and returns its verdict."""
    words = ("pamtester", service, name, "authenticate", "acct_mgmt")
    answer = answer_of(machine.run(*words, stdin=f"{password}\n".encode()))
    assert answer in (Answer.ACCEPTED, Answer.REFUSED), answer
    return Verdict.ACCEPTED if answer is Answer.ACCEPTED else Verdict.REFUSED

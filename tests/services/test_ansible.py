"""Ansible gives an account a hash from a file, by GUIDE's recipe."""
from __future__ import annotations

from dataclasses import dataclass, replace

import pytest
from support.documents import marked
from support.logins import Verdict, pam_verdict
from support.process import Result
from support.recipes import ANN, SIX, Site, is_recommended_hash

pytestmark = [
    pytest.mark.needs("namespaces", "ansible-playbook"),
    pytest.mark.xdist_group("services"),
]

INVENTORY = "localhost ansible_connection=local ansible_python_interpreter=/usr/bin/python3\n"
PLAY = ("ansible-playbook", "-i", "inventory", "users.yml")
SETTINGS = {"LC_ALL": "C.UTF-8", "ANSIBLE_GATHERING": "explicit"}
STACK = "auth required pam_unix.so nodelay\naccount required pam_unix.so\n"
NOT_A_HASH = b"appears not to have been hashed"


@dataclass(frozen=True)
class Played:
    """The result of a play, and the accounts before and after it."""

    result: Result
    before: bytes
    after: bytes


def play(site: Site, *options: str) -> Played:
    """Runs the recipe's play."""
    before = site.machine.read("/etc/shadow")
    result = site.run(*PLAY, *options)
    return Played(result, before, site.machine.read("/etc/shadow"))


@pytest.fixture(scope="module", name="prepared")
def fixture_prepared(site: Site) -> Site:
    """A site with accounts, and with everything that the play reads."""
    site = replace(site, environment={**site.environment, **SETTINGS})
    site.add_accounts()
    site.machine.write("/etc/pam.d/pam_unix", STACK)
    (site.folder / "inventory").write_text(INVENTORY, encoding="ascii")
    (site.folder / "users.yml").write_text(marked("Ansible", "yaml").code, encoding="ascii")
    site.answer(marked("Ansible, the hash", "sh").code).required()
    return site


@dataclass(frozen=True)
class Plays:
    """Two runs of the recipe's play. The first, with --check, only says what it would change."""

    checked: Played
    played: Played


@pytest.fixture(scope="module", name="plays")
def fixture_plays(prepared: Site) -> Plays:
    checked = play(prepared, "--check")
    return Plays(checked, play(prepared))


def test_pwhash_makes_the_hash_that_the_play_reads(prepared: Site) -> None:
    content = (prepared.folder / "hash").read_bytes()
    assert content.endswith(b"\n")
    assert is_recommended_hash(content[:-1], ANN.password), content


def test_the_play_says_that_it_would_change_the_password(plays: Plays) -> None:
    result = plays.checked.result
    assert b"changed=1" in result.stdout.split(), result


def test_the_play_changes_nothing_if_it_only_checks(plays: Plays) -> None:
    assert plays.checked.after == plays.checked.before


def test_the_play_changes_the_password(plays: Plays) -> None:
    result = plays.played.result
    assert b"changed=1" in result.stdout.split(), result


def test_ansible_recognizes_the_hash(plays: Plays) -> None:
    for result in (plays.checked.result, plays.played.result):
        printed = b" ".join((result.stdout + result.stderr).split())
        assert NOT_A_HASH not in printed, result


@pytest.mark.needs("pamtester")
@pytest.mark.parametrize(
    ("password", "verdict"),
    [
        pytest.param(ANN.password, Verdict.ACCEPTED, id="the password"),
        pytest.param(SIX.password, Verdict.REFUSED, id="another password"),
    ],
)
@pytest.mark.usefixtures("plays")
def test_the_account_has_the_password_after_the_play(
    prepared: Site, password: str, verdict: Verdict
) -> None:
    assert pam_verdict(prepared.machine, "pam_unix", ANN.name, password) is verdict


@pytest.mark.parametrize("content", [b"", b"\n", b"$6$rounds=656000$cut\n"])
def test_a_play_without_a_whole_hash_changes_no_password(prepared: Site, content: bytes) -> None:
    """An empty hash would let everybody in."""
    file = prepared.folder / "hash"
    whole = file.read_bytes()
    file.write_bytes(content)
    try:
        played = play(prepared)
    finally:
        file.write_bytes(whole)
    assert played.result.status != 0 and played.after == played.before, played.result

"""The limit on attempts of docs/PYTHON.md, by itself. test_flask.py logs in with it."""
from __future__ import annotations

import sqlite3
import stat
from concurrent.futures import ThreadPoolExecutor
from pathlib import Path
from typing import Any

import pytest
from support.package import Cook, recipe, run_python
from support.process import run

HOME = "203.0.113.7"
ELSEWHERE = "198.51.100.1"
SECRET = b"secret"
# How many attempts within an hour the document's code lets go on.
MOST_FOR_NAME = 10
MOST_FROM_NETWORK = 100
# Whether each attempt for a name may go on, if there is one too many.
ALL_BUT_THE_LAST = [True] * MOST_FOR_NAME + [False]


@pytest.fixture(name="names")
def fixture_names(cook: Cook) -> dict[str, Any]:
    """The names that the section's code defines."""
    return cook.follow("limit attempts", SECRET=SECRET)


@pytest.fixture(name="database")
def fixture_database(tmp_path: Path) -> sqlite3.Connection:
    database = sqlite3.connect(tmp_path / "users.db")
    database.executescript(recipe("tables of attempts", "sql"))
    return database


def attempts(
    names: dict[str, Any], database: sqlite3.Connection, name: str, *addresses: str
) -> list[bool]:
    """Begins an attempt from each address, and returns which may go on."""
    begin = names["begin_attempt"]
    return [begin(database, name, address) is not None for address in addresses]


def test_ten_attempts_for_a_name_may_go_on(
    names: dict[str, Any], database: sqlite3.Connection
) -> None:
    addresses = [f"203.0.113.{number}" for number in range(MOST_FOR_NAME + 1)]
    assert attempts(names, database, "ann", *addresses) == ALL_BUT_THE_LAST
    assert attempts(names, database, "bob", HOME) == [True]


def test_a_hundred_attempts_from_a_network_may_go_on(
    names: dict[str, Any], database: sqlite3.Connection
) -> None:
    users = [f"user {number}" for number in range(MOST_FROM_NETWORK + 1)]
    begun = [attempts(names, database, user, HOME) for user in users]
    assert begun == [[True]] * MOST_FROM_NETWORK + [[False]]
    assert attempts(names, database, "ann", ELSEWHERE) == [True]


@pytest.mark.parametrize(
    ("address", "same_client"),
    [
        pytest.param("2001:db8::1", "2001:db8::ffff:ffff:ffff:ffff", id="IPv6"),
        pytest.param("203.0.113.7", "::ffff:203.0.113.7", id="IPv4 by a socket for IPv6"),
    ],
)
def test_the_addresses_of_a_client_are_one_network(
    names: dict[str, Any], address: str, same_client: str
) -> None:
    assert names["network_of"](address) == names["network_of"](same_client)


@pytest.mark.parametrize(
    ("address", "another"),
    [
        pytest.param("2001:db8::1", "2001:db8:0:1::1", id="IPv6"),
        pytest.param("203.0.113.7", "203.0.113.8", id="IPv4"),
        pytest.param("::ffff:203.0.113.7", "::ffff:203.0.113.8", id="IPv4 by a socket for IPv6"),
    ],
)
def test_the_addresses_of_two_clients_are_two_networks(
    names: dict[str, Any], address: str, another: str
) -> None:
    assert names["network_of"](address) != names["network_of"](another)


def test_a_user_has_attempts_of_her_own_where_she_has_logged_in(
    names: dict[str, Any], database: sqlite3.Connection
) -> None:
    names["remember_network"](database, "ann", HOME)
    names["remember_network"](database, "ann", HOME)
    for address in (ELSEWHERE, HOME):
        addresses = [address] * (MOST_FOR_NAME + 1)
        assert attempts(names, database, "ann", *addresses) == ALL_BUT_THE_LAST
    assert attempts(names, database, "bob", HOME) == [True]


def test_an_attempt_that_is_forgotten_does_not_count(
    names: dict[str, Any], database: sqlite3.Connection
) -> None:
    all_but_one = MOST_FOR_NAME - 1
    assert attempts(names, database, "ann", *[HOME] * all_but_one) == [True] * all_but_one
    for _ in range(3):
        attempt = names["begin_attempt"](database, "ann", HOME)
        assert attempt is not None
        names["forget_attempt"](database, attempt)
    assert attempts(names, database, "ann", HOME, HOME) == [True, False]


def test_attempts_count_for_an_hour(names: dict[str, Any], database: sqlite3.Connection) -> None:
    addresses = [HOME] * (MOST_FOR_NAME + 1)
    assert attempts(names, database, "ann", *addresses) == ALL_BUT_THE_LAST
    for_most_of_an_hour, for_the_rest = 3500, 101
    database.execute("UPDATE attempts SET time = time - ?", (for_most_of_an_hour,))
    database.commit()
    assert attempts(names, database, "ann", HOME) == [False]
    database.execute("UPDATE attempts SET time = time - ?", (for_the_rest,))
    database.commit()
    assert attempts(names, database, "ann", HOME) == [True]
    assert database.execute("SELECT count(*) FROM attempts").fetchone() == (1,)


def test_no_name_that_was_typed_is_stored(
    names: dict[str, Any], database: sqlite3.Connection
) -> None:
    assert attempts(names, database, "my password", HOME) == [True]
    assert "my password" not in "\n".join(database.iterdump())


PROCESSES = 4
ATTEMPTS_OF_PROCESS = 5
PROCESS = f"""
import sqlite3
for _ in range({ATTEMPTS_OF_PROCESS}):
    database = sqlite3.connect("users.db", timeout=60)
    print(begin_attempt(database, "ann", "203.0.113.7") is not None)
"""


@pytest.mark.usefixtures("database")
def test_processes_share_the_limit(tmp_path: Path) -> None:
    """They begin twenty attempts at once, of which as many may go on as for one process."""
    code = f"SECRET = {SECRET!r}\n" + recipe("limit attempts") + PROCESS
    with ThreadPoolExecutor(PROCESSES) as threads:
        runs = [threads.submit(run_python, code, cwd=tmp_path) for _ in range(PROCESSES)]
    lines = b"".join(each.result().required().stdout for each in runs).split()
    refused = PROCESSES * ATTEMPTS_OF_PROCESS - MOST_FOR_NAME
    assert sorted(lines) == [b"False"] * refused + [b"True"] * MOST_FOR_NAME


def test_a_secret_is_made_for_its_owner_alone(tmp_path: Path) -> None:
    run("sh", "-euc", recipe("a secret", "sh"), cwd=tmp_path).required()
    secret = tmp_path / "secret_key"
    assert len(secret.read_bytes()) >= 64
    assert stat.S_IMODE(secret.stat().st_mode) == 0o600

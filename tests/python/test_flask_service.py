"""A service with Flask and SQLite that moves its users to mkpasswd, as docs/PYTHON.md says.

Its code is the document's sections in their order, with the changes that they name. These tests
try the sections together; test_recipes.py tries the corner cases of each.
"""
from __future__ import annotations

import contextlib
import functools
import hashlib
import runpy
import sqlite3
import threading
import time
from concurrent.futures import ThreadPoolExecutor
from dataclasses import dataclass
from pathlib import Path
from typing import Any

import pytest
from support.package import (
    replace_lines,
    crypt,
    recipe,
    package_under_test,
    whole_login_of_a_moving_service,
    with_few_rounds,
)
from support.passwords import TOO_LONG

with package_under_test():
    from mkpasswd.fixed_time import FixedTime

pytestmark = [
    pytest.mark.needs("python3-flask", "python3-bcrypt", "python3-werkzeug"),
    # These tests measure times, so they don't run in parallel with others that do.
    pytest.mark.xdist_group("fixed time"),
]

RECOMMENDED = "$6$rounds=656000$"
SECONDS = 2  # until a failure is answered, instead of the document's 9
IN_TIME = 0.1  # seconds after its moment, at which an answer still counts as in time
THREADS, QUEUED = 4, 4  # of the document's FixedTime
ATTEMPTS = 10
LONGEST_WAIT = 60  # seconds to wait for what should come soon
ADDRESS = "203.0.113.7"


def password_of(name: str) -> str:
    """Returns a user's password, which no other user has."""
    return f"pässword of {name}"


def pbkdf2_of(password: str) -> str:
    """Returns Werkzeug's hash of a password."""
    digest = hashlib.pbkdf2_hmac("sha256", password.encode(), b"saltsalt", 1000)
    return f"pbkdf2:sha256:1000$saltsalt${digest.hex()}"


@functools.cache
def fields_before() -> dict[str, str]:
    """Returns the fields in the table before the service moves."""
    outdated = "$6$saltsaltsaltsalt"
    current = f"{RECOMMENDED}saltsaltsaltsalt"
    bcrypt = "$2b$04$abcdefghijklmnopqrstuu"
    return {
        "current": crypt(password_of("current"), current),
        "outdated": crypt(password_of("outdated"), outdated),
        "bcrypt": crypt(password_of("bcrypt"), bcrypt),
        "pbkdf2": pbkdf2_of(password_of("pbkdf2")),
        "locked": "!" + crypt(password_of("locked"), outdated),
        "locked bcrypt": "!" + crypt(password_of("locked bcrypt"), bcrypt),
    }


USERS = ("current", "outdated", "bcrypt", "pbkdf2")
LOCKED = ("locked", "locked bcrypt")


def code_of_service() -> str:
    """Returns the code that a reader who follows the document has in the end."""
    fixed_time = recipe("failures after a fixed time")
    sections = [
        whole_login_of_a_moving_service(),
        recipe("Flask"),
        recipe("limit attempts"),
        replace_lines(fixed_time, {"seconds=9": f"seconds={SECONDS}"}),
    ]
    return "\n\n".join(sections)


@dataclass(frozen=True)
class Service:
    """The service under test, and its folder."""

    names: dict[str, Any]  # what its code defines
    folder: Path

    def post(self, name: str, password: str) -> int:
        """Posts the login form in this thread, and returns the status."""
        form = {"name": name, "password": password}
        return int(self.client().post("/login", data=form).status_code)

    def client(self) -> Any:
        """Returns a new client, which keeps its cookies."""
        app = self.names["app"]
        app.config["PREFERRED_URL_SCHEME"] = "https"  # for cookies that need it
        return app.test_client()

    def fields(self) -> dict[str, str]:
        """Returns the fields in the table, by name."""
        with contextlib.closing(sqlite3.connect(self.folder / "users.db")) as database:
            return dict(database.execute("SELECT name, hash FROM users"))


@pytest.fixture(name="service")
def fixture_service(tmp_path: Path, monkeypatch: pytest.MonkeyPatch) -> Service:
    with contextlib.closing(sqlite3.connect(tmp_path / "users.db")) as database:
        database.execute(recipe("the table", "sql"))
        database.executescript(recipe("tables of attempts", "sql"))
        users = [(name, field, name) for name, field in fields_before().items()]
        database.executemany("INSERT INTO users VALUES (?, ?, ?)", users)
        database.commit()
    (tmp_path / "secret_key").write_text("secret", encoding="ascii")
    path = tmp_path / "service.py"
    path.write_text(code_of_service(), encoding="utf-8")
    monkeypatch.chdir(tmp_path)
    return Service(runpy.run_path(str(path)), tmp_path)


def test_all_users_log_in_and_outdated_hashes_are_renewed(service: Service) -> None:
    with ThreadPoolExecutor(len(USERS)) as threads:
        statuses = list(threads.map(service.post, USERS, map(password_of, USERS)))
    assert statuses == [200] * len(USERS)
    before, fields = fields_before(), service.fields()
    unchanged = {name for name, field in fields.items() if field == before[name]}
    assert unchanged == {"current", *LOCKED}
    for name in set(fields) - unchanged:
        assert fields[name].startswith(RECOMMENDED)
        assert fields[name] == crypt(password_of(name), fields[name])


@with_few_rounds
def test_a_renewed_hash_matches_only_its_password_and_is_kept(service: Service) -> None:
    for name in USERS:
        assert service.post(name, password_of(name)) == 200
    fields = service.fields()
    for name in USERS:
        assert service.post(name, password_of(name)) == 200
    with ThreadPoolExecutor(len(USERS)) as threads:
        statuses = list(threads.map(service.post, USERS, ["wrong"] * len(USERS)))
    assert statuses == [403] * len(USERS)
    assert service.fields() == fields


@with_few_rounds
@pytest.mark.parametrize(
    ("name", "password"),
    [
        *(pytest.param(name, password_of(name) + "x", id=f"wrong, {name}") for name in USERS),
        *(pytest.param(name, password_of(name), id=f"right, {name}") for name in LOCKED),
        pytest.param("nobody", password_of("nobody"), id="an unknown name"),
        pytest.param("", "", id="nothing"),
        pytest.param("current", "", id="no password"),
        pytest.param("outdated", TOO_LONG, id="too long"),
        pytest.param("bcrypt", password_of("bcrypt") + "\0", id="a zero byte"),
        pytest.param("pbkdf2", password_of("current"), id="another user's"),
    ],
)
def test_all_failures_are_answered_at_the_same_moment_and_change_nothing(
    service: Service, name: str, password: str
) -> None:
    lateness = []
    for _ in range(ATTEMPTS):
        began = time.monotonic()
        assert service.post(name, password) == 403
        elapsed = time.monotonic() - began
        assert elapsed >= SECONDS
        # A login that takes longer, as on a busy machine, is answered at a multiple of the time.
        lateness.append(elapsed % SECONDS)
        if lateness[-1] <= IN_TIME:
            break
    assert min(lateness) <= IN_TIME, lateness
    assert service.fields() == fields_before()


def test_an_overloaded_service_asks_to_try_again(service: Service) -> None:
    may_go_on = threading.Event()
    logins: FixedTime = service.names["logins"]
    others = [logins.submit(may_go_on.wait, LONGEST_WAIT) for _ in range(THREADS + QUEUED)]
    assert service.post("current", password_of("current")) == 503
    may_go_on.set()
    assert all(other.result(LONGEST_WAIT) for other in others)
    assert service.post("current", password_of("current")) == 200


@with_few_rounds
def test_the_log_has_the_names_of_users_and_no_password(
    service: Service, caplog: pytest.LogCaptureFixture
) -> None:
    typed = [("pbkdf2", "wrong"), ("locked", password_of("locked")), ("my password", "wrong")]
    for name, password in typed:
        assert service.post(name, password) == 403
    warnings = [record.getMessage() for record in caplog.records if record.levelname == "WARNING"]
    logged = ["'pbkdf2'", "'locked'", "None"]
    assert warnings == [f"login failed: {name} from '127.0.0.1'" for name in logged]
    for _, password in typed:
        assert password not in caplog.text


# ---- A change of the password


@with_few_rounds
@pytest.mark.parametrize("name", ["current", "outdated", "bcrypt"])
def test_a_wrong_old_password_is_answered_after_the_fixed_time(service: Service, name: str) -> None:
    client = service.client()
    login = {"name": name, "password": password_of(name)}
    assert client.post("/login", data=login).status_code == 200
    fields = service.fields()
    began = time.monotonic()
    form = {"old": "wrong", "new": "new password"}
    assert client.post("/password", data=form).status_code == 403
    assert time.monotonic() - began >= SECONDS
    assert service.fields() == fields


def test_a_changed_password_logs_in(service: Service) -> None:
    client = service.client()
    old = {"name": "bcrypt", "password": password_of("bcrypt")}
    assert client.post("/login", data=old).status_code == 200
    form = {"old": password_of("bcrypt"), "new": "new password"}
    assert client.post("/password", data=form).status_code == 200
    assert service.post("bcrypt", "new password") == 200
    assert service.post("bcrypt", password_of("bcrypt")) == 403

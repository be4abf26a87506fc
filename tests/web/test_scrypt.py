"""mkpasswd.mjs and scrypt in node: hashes, and their memory.

scrypt.mjs reports what the calls do. Each of its parts runs in a separate process. The expected
hashes are libxcrypt's and hashlib's.
"""
from __future__ import annotations

import hashlib
import json
from pathlib import Path
from typing import Any, Callable

import pytest
from support import ROOT
from support.libxcrypt import crypt
from support.model.methods import numeral
from support.reports import Report, report_of_node

pytestmark = pytest.mark.xdist_group("node scrypt")

PASSWORD = "K\u00e4se \U0001f40e"
SALT = "SodiumChloride12345678"
MEBIBYTE = 1 << 20
MEMORY_OF_DEFAULT = 64 * MEBIBYTE  # with N = 2^14 and r = 32, the program's default
PAGES_OF_DEFAULT = MEMORY_OF_DEFAULT // (64 << 10)
MOST_OTHER_PAGES = 16  # 1 MiB, more than a hash needs besides its table
LOGINS = 20
# With this option node gives an instance at most 600 pages of 64 KiB, too few for the default cost.
TOO_LITTLE_MEMORY = "--wasm-max-mem-pages=600"

OUT_OF_MEMORY = "Refused: MKPASSWD_ERROR_OUT_OF_MEMORY"


def scrypt_setting(log_n: int, r: int, p: int) -> str:
    """Returns a scrypt setting."""
    return "$7$" + (numeral(log_n, 1) + numeral(r, 5) + numeral(p, 5)).decode() + SALT


def of_libxcrypt(password: str, setting: str) -> str:
    """Returns libxcrypt's hash."""
    return crypt(password.encode(), setting.encode()).decode()


def of_hashlib(log_n: int, r: int, p: int) -> str:
    """Returns hashlib's hash of PASSWORD."""
    digest = hashlib.scrypt(
        PASSWORD.encode(),
        salt=SALT.encode(),
        n=1 << log_n,
        r=r,
        p=p,
        maxmem=(1 << 31) - 2,  # one byte less than the most that hashlib accepts
        dklen=32,
    )
    groups = [digest[begin : begin + 3] for begin in range(0, len(digest), 3)]
    text = b"".join(numeral(int.from_bytes(group, "little"), len(group) + 1) for group in groups)
    return f"{scrypt_setting(log_n, r, p)}${text.decode()}"


DEFAULT = scrypt_setting(14, 32, 1)
SMALL = scrypt_setting(10, 8, 1)
LARGE = scrypt_setting(15, 40, 1)  # takes 160 MiB, more than a worker keeps
# Written out, since each worker of pytest would make it anew when it collects the tests.
PASSWORD_HASH_AT_DEFAULT = f"{DEFAULT}$lHsVe.STySYo6MJMEVavCrBnSbbLcXncuI4avmyB22C"
HASH_OF_SMALL = of_libxcrypt(PASSWORD, SMALL)
HASH_OF_SHA = of_libxcrypt(PASSWORD, "$6$rounds=5000$saltsaltsaltsalt")


@pytest.fixture(scope="module")
def report_of(node: str, web_build: Path) -> Callable[..., Report]:
    """A function that runs a part of scrypt.mjs with given rows and options of node."""

    def run_part(part: str, rows: Any, *options: str) -> Report:
        script, module = ROOT / "tests/web/scrypt.mjs", web_build / "mkpasswd.mjs"
        given = json.dumps(rows).encode()
        return report_of_node(node, *options, script, module, part, stdin=given)

    return run_part


# ---- Hashes

CALLS = ["verify", "login", "loginAsync"]


@pytest.mark.parametrize(
    ("log_n", "r", "p"),
    [
        pytest.param(14, 32, 1, id="64 MiB, the program's default"),
        pytest.param(10, 8, 3, id="three parts"),
        pytest.param(2, 1, 1, id="four rows of 128 bytes"),
    ],
)
def test_right_password_matches_and_wrong_one_does_not(
    report_of: Callable[..., Report], log_n: int, r: int, p: int
) -> None:
    stored = of_libxcrypt(PASSWORD, scrypt_setting(log_n, r, p))
    assert stored == of_hashlib(log_n, r, p)
    report = report_of("checked", [PASSWORD, stored, CALLS, CALLS])
    assert report["hash"] == stored
    assert report["right"] == dict.fromkeys(CALLS, True)
    assert report["wrong"] == dict.fromkeys(CALLS, False)


@pytest.mark.slow
def test_hash_that_takes_1_gib_is_made_in_this_thread_and_checked_in_a_worker(
    report_of: Callable[..., Report],
) -> None:
    """Each hash takes seconds, so that no other call and no wrong password is tried."""
    stored = of_libxcrypt(PASSWORD, scrypt_setting(18, 32, 1))
    report = report_of("checked", [PASSWORD, stored, ["loginAsync"], []])
    assert report["hash"] == stored
    assert report["right"] == {"loginAsync": True}


# ---- Too little memory


@pytest.fixture(scope="module")
def without_memory(report_of: Callable[..., Report]) -> Report:
    """The results of calls if no instance can get the memory for the default cost."""
    rows = [PASSWORD, PASSWORD_HASH_AT_DEFAULT, HASH_OF_SMALL, HASH_OF_SHA]
    return report_of("withoutMemory", rows, TOO_LITTLE_MEMORY)


@pytest.mark.parametrize(
    ("place", "outcome"),
    [
        pytest.param(0, OUT_OF_MEMORY, id="a new hash"),
        pytest.param(1, OUT_OF_MEMORY, id="a new hash in a worker"),
        pytest.param(2, False, id="a login with an unknown name"),
        pytest.param(3, False, id="a login with an unknown name in a worker"),
    ],
)
def test_policy_of_scrypt_reports_too_little_memory(
    without_memory: Report, place: int, outcome: str | bool
) -> None:
    assert without_memory["own"][place] == outcome


def test_check_reports_too_little_memory(without_memory: Report) -> None:
    verified, _, _ = without_memory["others"][0]
    assert verified == OUT_OF_MEMORY


def test_login_without_memory_fails(without_memory: Report) -> None:
    _, result, result_in_worker = without_memory["others"][0]
    assert result is False
    assert result_in_worker is False


def test_hash_is_described_even_without_memory_for_it(without_memory: Report) -> None:
    assert without_memory["state"] == "outdated"


@pytest.mark.parametrize(
    "place",
    [pytest.param(1, id="cheap scrypt"), pytest.param(2, id="sha512crypt")],
)
def test_other_hashes_are_checked_even_without_memory_for_some(
    without_memory: Report, place: int
) -> None:
    right = {"matches": True}
    assert without_memory["others"][place] == [True, right, right]


# ---- Simultaneous logins


def logins_at_once(count: int) -> list[list[str]]:
    """Returns passwords and hashes for logins. Every fourth password is wrong."""
    typed = [PASSWORD if number % 4 else "wrong" for number in range(count)]
    return [[password, PASSWORD_HASH_AT_DEFAULT] for password in typed]


def matches(rows: list[list[str]]) -> list[bool]:
    """Returns for each login whether its password is right."""
    return [password == PASSWORD for password, _ in rows]


@pytest.fixture(scope="module")
def at_once(report_of: Callable[..., Report]) -> Report:
    """What twenty logins at once do."""
    return report_of("atOnce", logins_at_once(LOGINS))


@pytest.mark.slow
def test_twenty_logins_at_once_are_answered(at_once: Report) -> None:
    assert at_once["matches"] == matches(logins_at_once(LOGINS)), at_once
    assert at_once["most"] <= at_once["mostWorkers"], at_once


@pytest.mark.parametrize(
    ("free", "most"),
    [
        pytest.param(0, 1, id="one even if none is free"),
        pytest.param(2 * MEMORY_OF_DEFAULT, 1, id="enough for one"),
        pytest.param(5 * MEMORY_OF_DEFAULT, 2, id="enough for two"),
    ],
)
def test_simultaneous_logins_take_at_most_half_of_the_free_memory(
    report_of: Callable[..., Report], free: int, most: int
) -> None:
    rows = logins_at_once(6)
    report = report_of("inFreeMemory", [free, *rows])
    assert report["matches"] == matches(rows), report
    assert report["most"] == min(most, report["mostWorkers"]), report


def test_login_without_scrypt_overtakes_those_that_wait_for_memory(
    report_of: Callable[..., Report],
) -> None:
    rows = [*logins_at_once(3), [PASSWORD, HASH_OF_SHA]]
    report = report_of("inFreeMemory", [0, *rows])
    assert report["matches"] == matches(rows), report
    assert report["most"] == min(2, report["mostWorkers"]), report


def test_login_that_finds_no_memory_during_others_is_tried_again(
    report_of: Callable[..., Report],
) -> None:
    rows = logins_at_once(6)
    report = report_of("crowded", rows)
    assert report["matches"] == matches(rows), report


# ---- Memory that is reused, wiped and released


def is_of_default(pages: int) -> bool:
    """Returns whether a memory grew by the pages of the default cost, once."""
    return PAGES_OF_DEFAULT <= pages <= PAGES_OF_DEFAULT + MOST_OTHER_PAGES


@pytest.mark.slow
def test_worker_reuses_its_memory_for_each_of_its_logins(at_once: Report) -> None:
    """Twenty logins need a table of 64 MiB each, but only as many are made as there are workers."""
    for worker in at_once["workers"]:
        assert worker["instances"] == 1, at_once
        assert is_of_default(worker["pages"]), at_once


@pytest.mark.slow
def test_worker_wipes_its_memory_before_each_answer(at_once: Report) -> None:
    assert [worker["unwiped"] for worker in at_once["workers"]] == [0] * at_once["started"]


@pytest.mark.slow
def test_workers_end_after_scrypt_if_no_call_waits(at_once: Report) -> None:
    assert at_once["ended"] == at_once["started"] <= at_once["mostWorkers"], at_once


def test_worker_ends_after_each_of_successive_logins(report_of: Callable[..., Report]) -> None:
    rows = logins_at_once(3)
    assert report_of("oneAfterAnother", rows)["started"] == len(rows)


RIGHT = {"matches": True}


def test_memory_of_a_worker_grows_to_the_largest_need(report_of: Callable[..., Report]) -> None:
    """The checks have different costs, and a new hash of 32 MiB follows some of them."""
    stored = (
        HASH_OF_SMALL,
        PASSWORD_HASH_AT_DEFAULT,
        HASH_OF_SMALL,
        HASH_OF_SHA,
        PASSWORD_HASH_AT_DEFAULT,
    )
    report = report_of("inTurn", [[PASSWORD, field] for field in stored])
    assert report["outcomes"] == [RIGHT] * len(stored), report
    (worker,) = report["workers"]
    assert (worker["instances"], worker["unwiped"]) == (1, 0), report
    assert is_of_default(worker["pages"]), report


@pytest.mark.slow
def test_worker_does_not_keep_a_very_large_memory(report_of: Callable[..., Report]) -> None:
    stored = (of_libxcrypt(PASSWORD, LARGE), PASSWORD_HASH_AT_DEFAULT)
    report = report_of("inTurn", [["wrong", field] for field in stored])
    assert report["outcomes"] == [False, False], report
    of_large, of_default = report["workers"]
    assert of_large["pages"] > 2 * PAGES_OF_DEFAULT, report
    assert is_of_default(of_default["pages"]), report
    assert report["ended"] == 2, report


def test_instance_that_traps_is_wiped_and_replaced(report_of: Callable[..., Report]) -> None:
    report = report_of("trapping", [[PASSWORD, PASSWORD_HASH_AT_DEFAULT]] * 3)
    assert report["outcomes"] == ["Error: unreachable", RIGHT, RIGHT], report
    (worker,) = report["workers"]
    assert (worker["instances"], worker["unwiped"]) == (2, 0), report


def test_login_in_the_callers_thread_keeps_no_memory(report_of: Callable[..., Report]) -> None:
    """Each login has an instance of its own, which is then garbage. The first one never grows."""
    rows = logins_at_once(5)
    report = report_of("inThisThread", rows)
    assert report["matches"] == matches(rows), report
    assert (report["instances"], report["hasGrown"]) == (1 + len(rows), False), report

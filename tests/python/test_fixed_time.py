"""Failed logins are answered a fixed time after they began, and block nothing until then.

A busy machine can be late, so a test passes if one of several attempts is in time: a difference
that an attacker could use would show in every attempt.
"""
from __future__ import annotations

import asyncio
import threading
import time
from collections.abc import Callable
from concurrent.futures import Future
from typing import Any, NoReturn

import pytest
from support.package import crypt, error_of, run_python, package_under_test
from support.passwords import TOO_LONG
from support.stored_strings import COSTLY, MD5, SHA512

with package_under_test():
    from mkpasswd import Policy
    from mkpasswd.fixed_time import Busy, FixedTime

# These tests measure times, so they don't run in parallel.
pytestmark = pytest.mark.xdist_group("fixed time")

ATTEMPTS = 100
QUICK = Policy(rounds=1000)
LONGEST_WAIT = 60  # seconds to wait for what should come at once
SECONDS = 0.3  # until a failure is answered
IN_TIME = 0.005  # seconds after its moment, at which an answer still counts as in time
IN_TIME_AFTER_SLEEP = 0.01  # for a login that sleeps, since a sleep can end late too


def raise_an_error() -> NoReturn:
    raise RuntimeError("the database is down")


def by_threads(logins: FixedTime, login: Callable[..., Any], *arguments: Any, **named: Any) -> Any:
    """Waits for the answer in this thread."""
    return logins.submit(login, *arguments, **named).result(LONGEST_WAIT)


def by_asyncio(logins: FixedTime, login: Callable[..., Any], *arguments: Any, **named: Any) -> Any:
    """Waits for the answer in a coroutine."""

    async def wait() -> Any:
        return await asyncio.wrap_future(logins.submit(login, *arguments, **named))

    return asyncio.run(wait())


WAYS = pytest.mark.parametrize("wait", [by_threads, by_asyncio], ids=["threads", "asyncio"])


# ---- The moment of an answer

FAILURES = [
    pytest.param(QUICK.login, "passw0rd", MD5, id="another password"),
    pytest.param(QUICK.login, "passw0rd", SHA512, id="another method"),
    pytest.param(QUICK.login, "password", None, id="an unknown name"),
    pytest.param(QUICK.login, "password", "!" + MD5, id="a lock"),
    pytest.param(QUICK.login, "password", MD5[:-1], id="a hash that was cut"),
    pytest.param(Policy("md5crypt").login, "password", COSTLY, id="a costly hash"),
    pytest.param(QUICK.login, "password", "$y$j9T$salt$x", id="another scheme"),
    pytest.param(QUICK.login, TOO_LONG, MD5, id="a password that is too long"),
]


@WAYS
@pytest.mark.parametrize(("login", "password", "field"), FAILURES)
def test_failures_of_all_kinds_are_answered_at_the_same_moment(
    wait: Any, login: Any, password: str, field: str | None
) -> None:
    logins = FixedTime(seconds=SECONDS, threads=1, queued=1, failed=10)
    lateness = []
    for _ in range(ATTEMPTS):
        began = time.monotonic()
        assert wait(logins, login, password, field=field) is False
        lateness.append(time.monotonic() - began - SECONDS)
        if lateness[-1] <= IN_TIME:
            break
    assert 0 <= min(lateness) <= IN_TIME, lateness


@WAYS
def test_an_error_is_raised_at_that_moment_too(wait: Any) -> None:
    """Otherwise an error, for example of the database, could show that the name exists."""
    logins = FixedTime(seconds=SECONDS, threads=1, queued=1, failed=10)
    began = time.monotonic()
    error = error_of(wait, logins, raise_an_error)
    assert time.monotonic() - began >= SECONDS
    assert isinstance(error, RuntimeError) and str(error) == "the database is down"


@WAYS
def test_a_login_that_succeeds_is_answered_at_once(wait: Any) -> None:
    logins = FixedTime(seconds=LONGEST_WAIT, threads=1, queued=1, failed=10)
    began = time.monotonic()
    assert wait(logins, QUICK.login, "password", field=MD5) is True
    assert time.monotonic() - began < LONGEST_WAIT


@pytest.mark.parametrize("answer", [None, 1, "True", [True], (True, None)], ids=repr)
def test_only_true_is_a_success(answer: Any) -> None:
    logins = FixedTime(seconds=0, threads=1, queued=1, failed=10)

    def login() -> Any:
        return answer

    assert logins.submit(login).result(LONGEST_WAIT) is False


@pytest.mark.parametrize(("takes", "answered"), [(0.1, 0.2), (0.25, 0.4), (0.3, 0.4), (0.5, 0.6)])
def test_a_failure_that_takes_longer_is_answered_at_a_multiple_of_the_time(
    takes: float, answered: float
) -> None:
    """Otherwise, on a busy machine, the time would show what was checked."""
    logins = FixedTime(seconds=0.2, threads=1, queued=1, failed=10)

    def be_slow() -> bool:
        time.sleep(takes)
        return False

    lateness = []
    for _ in range(ATTEMPTS):
        began = time.monotonic()
        assert logins.submit(be_slow).result(LONGEST_WAIT) is False
        lateness.append(time.monotonic() - began - answered)
        if lateness[-1] <= IN_TIME_AFTER_SLEEP:
            break
    assert 0 <= min(lateness) <= IN_TIME_AFTER_SLEEP, lateness


SECONDS_OF_ONE = 0.1


def be_wrong() -> bool:
    """Takes as long as every other login here, and fails."""
    time.sleep(SECONDS_OF_ONE)
    return False


@pytest.mark.parametrize(
    ("threads", "queued", "logins_of_a_thread"),
    [
        pytest.param(2, 0, 1, id="two threads, nothing queued"),
        pytest.param(2, 1, 2, id="two threads, one queued"),
        pytest.param(2, 2, 2, id="two threads, two queued"),
        pytest.param(2, 3, 3, id="two threads, three queued"),
        pytest.param(1, 3, 4, id="one thread, three queued"),
    ],
)
def test_a_full_queue_is_in_time_if_its_seconds_follow_the_rule(
    threads: int, queued: int, logins_of_a_thread: int
) -> None:
    """Starts as many logins at once as the queue allows.

    A thread runs its logins one after another, and the answers must come after the last of them.
    """
    seconds = logins_of_a_thread * SECONDS_OF_ONE + 0.05
    logins = FixedTime(seconds=seconds, threads=threads, queued=queued, failed=10)
    lateness = []
    for _ in range(ATTEMPTS):
        began = time.monotonic()
        answers = [logins.submit(be_wrong) for _ in range(threads + queued)]
        assert [answer.result(LONGEST_WAIT) for answer in answers] == [False] * len(answers)
        lateness.append(time.monotonic() - began - seconds)
        if lateness[-1] <= IN_TIME_AFTER_SLEEP:
            break
    assert 0 <= min(lateness) <= IN_TIME_AFTER_SLEEP, lateness


@pytest.mark.parametrize("seconds", [-1, float("nan"), float("inf")], ids=repr)
def test_impossible_seconds_are_refused(seconds: float) -> None:
    with pytest.raises(ValueError, match="seconds must be a finite number from 0 on"):
        FixedTime(seconds=seconds, threads=1, queued=1, failed=1)


# ---- Waiting failures block nothing

FAILED = 100
SLOW = Policy(rounds=50_000)
MOST_AS_LONG = 1.2  # a ratio of times that counts as equal


@pytest.fixture(scope="module", name="stored")
def fixture_stored() -> str:
    return crypt("password", SLOW.setting("saltsaltsaltsalt"))


def wrong_logins(logins: FixedTime) -> list[Future[bool]]:
    """Returns wrong logins that have all been hashed and wait for their time."""
    answers = [logins.submit(QUICK.login, "passw0rd", field=MD5) for _ in range(FAILED)]
    # There is only one thread, so this login runs after all of them.
    assert logins.submit(QUICK.login, "password", field=MD5).result(LONGEST_WAIT) is True
    return answers


def least_seconds(wait: Any, logins: FixedTime, stored: str) -> float:
    """Returns the least time that a right login takes."""
    seconds = []
    for _ in range(3):
        began = time.monotonic()
        assert wait(logins, SLOW.login, "password", field=stored) is True
        seconds.append(time.monotonic() - began)
    return min(seconds)


@WAYS
def test_a_right_login_takes_no_longer_while_a_hundred_failures_wait(
    wait: Any, stored: str
) -> None:
    alone = FixedTime(seconds=300, threads=1, queued=FAILED, failed=FAILED + 1)
    beside_failures = FixedTime(seconds=300, threads=1, queued=FAILED, failed=FAILED + 1)
    answers = wrong_logins(beside_failures)
    ratios = []
    for _ in range(ATTEMPTS):
        of_one = least_seconds(wait, alone, stored)
        ratios.append(least_seconds(wait, beside_failures, stored) / of_one)
        if ratios[-1] <= MOST_AS_LONG:
            break
    assert not any(answer.done() for answer in answers)
    assert min(ratios) <= MOST_AS_LONG, ratios


def test_failures_that_wait_take_no_thread() -> None:
    logins = FixedTime(seconds=300, threads=1, queued=FAILED, failed=FAILED + 1)
    # The first login starts the threads.
    assert by_threads(logins, QUICK.login, "password", field=MD5) is True
    before = threading.active_count()
    wrong_logins(logins)
    assert threading.active_count() <= before


# ---- Limits


def test_a_full_queue_refuses_the_next_login_until_one_has_run() -> None:
    logins = FixedTime(seconds=0, threads=1, queued=2, failed=10)
    may_go_on = threading.Event()
    answers = [logins.submit(may_go_on.wait, LONGEST_WAIT) for _ in range(3)]
    error = error_of(logins.submit, QUICK.login, "password", field=MD5)
    assert error.__class__ is Busy
    may_go_on.set()
    assert [answer.result(LONGEST_WAIT) for answer in answers] == [True] * 3
    assert logins.submit(QUICK.login, "password", field=MD5).result(LONGEST_WAIT) is True


def is_refused_after_two_failures() -> bool:
    """Returns whether a login is refused while two failures wait. Later ones must be answered."""
    logins = FixedTime(seconds=1, threads=1, queued=5, failed=2)
    answers = [logins.submit(QUICK.login, "passw0rd", field=MD5) for _ in range(2)]
    refused = False
    while not answers[0].done():
        try:
            logins.submit(QUICK.login, "password", field=MD5).result(LONGEST_WAIT)
        except Busy:
            refused = True
    assert [answer.result(LONGEST_WAIT) for answer in answers] == [False] * 2
    assert logins.submit(QUICK.login, "password", field=MD5).result(LONGEST_WAIT) is True
    return refused


def test_too_many_failures_refuse_the_next_login_until_one_is_answered() -> None:
    assert any(is_refused_after_two_failures() for _ in range(ATTEMPTS))


def test_a_cancelled_login_disturbs_no_other() -> None:
    """A client that closes the connection cancels its login."""
    logins = FixedTime(seconds=0.1, threads=1, queued=5, failed=5)

    async def go_away() -> None:
        answer = asyncio.wrap_future(logins.submit(QUICK.login, "passw0rd", field=MD5))
        answer.cancel()
        await asyncio.sleep(0)

    asyncio.run(go_away())
    assert by_threads(logins, QUICK.login, "passw0rd", field=MD5) is False
    assert by_threads(logins, QUICK.login, "password", field=MD5) is True


# ---- Missing threads

# A server that makes a worker process by fork(), and prints the worker's status once it ends.
WORKER = f"""
import os
from mkpasswd import Policy
from mkpasswd.fixed_time import FixedTime

login = Policy("md5crypt").login
logins = FixedTime(seconds=0.1, threads=1, queued=1, failed=1)
{{before}}
worker = os.fork()
if worker == 0:
    for password in "password", "passw0rd":
        print(logins.submit(login, password, field={MD5!r}).result({LONGEST_WAIT}), flush=True)
    os._exit(0)
print(os.waitpid(worker, 0)[1])
"""


def test_a_worker_answers_when_its_parent_had_no_login() -> None:
    result = run_python(WORKER.format(before="")).required()
    assert result.stdout.split() == [b"True", b"False", b"0"], result


def test_a_worker_raises_an_error_when_its_parent_had_a_login() -> None:
    """Without threads the worker could answer nothing, and users would wait forever."""
    before = f'assert logins.submit(login, "password", field={MD5!r}).result({LONGEST_WAIT})'
    result = run_python(WORKER.format(before=before)).required()
    message = b"RuntimeError: fork() copied no threads of FixedTime: make one in each process\n"
    assert result.stderr.endswith(message), result
    assert b"True" not in result.stdout and b"False" not in result.stdout, result


def test_a_login_takes_no_place_in_the_queue_if_no_thread_can_start(
    monkeypatch: pytest.MonkeyPatch,
) -> None:
    logins = FixedTime(seconds=0, threads=2, queued=0, failed=10)
    may_go_on = threading.Event()

    def start_none(_thread: threading.Thread) -> NoReturn:
        raise RuntimeError("can't start new thread")

    def refuse_two() -> None:
        with monkeypatch.context() as patch:
            patch.setattr(threading.Thread, "start", start_none)
            for _ in range(2):
                error = error_of(logins.submit, QUICK.login, "password", field=MD5)
                assert str(error) == "can't start new thread"

    refuse_two()  # the thread that answers failures doesn't start
    first = logins.submit(may_go_on.wait, LONGEST_WAIT)  # it occupies one thread
    refuse_two()  # the second thread for logins doesn't start
    second = logins.submit(QUICK.login, "password", field=MD5)
    may_go_on.set()
    assert first.result(LONGEST_WAIT) is True and second.result(LONGEST_WAIT) is True

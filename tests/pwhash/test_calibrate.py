"""pwhash calibrate: the rounds and the budget that fit a time, on a machine of known speed.

The expected numbers follow from the formulas of docs/FORMATS.md. A real machine is measured only
where its speed doesn't change the expected numbers.
"""
from __future__ import annotations

import ast
import re
import signal
from collections.abc import Iterator
from pathlib import Path

import pytest
from support import ROOT
from support.library import COMPILER
from support.needs import built, needed
from support.package import package_under_test
from support.policy_limits import SCRYPT, SHA256CRYPT, SHA512CRYPT, Policy, new_cost
from support.process import Result, run
from support.pwhash_copies import Copy, copied
from support.pwhash_runs import (
    least_seconds,
    pwhash,
    seconds_to_end,
    started,
    wait_for,
    working_threads,
)

with package_under_test():
    import mkpasswd
with needed("python3-pexpect"):
    import pexpect

NUMBERS = {"sha512crypt": SHA512CRYPT, "sha256crypt": SHA256CRYPT, "scrypt": SCRYPT}
# Matches a policy on standard output.
LINE = re.compile(r"-m (?P<method>\S+) -R (?P<rounds>\d+) --budget (?P<budget>\d+)")
# Matches the same policy on standard error, as code to paste.
CODE = re.compile(r"pwhash: \w+ in C (?P<c>\{.*\}), in Python Policy(?P<python>\(.*\))")
SPEED = '''\
"""A machine on which a cost of a billion takes ten seconds."""


def seconds_of_cost(*_):
    return 10 / 1_000_000_000
'''
COST_OF_SECOND = 100_000_000
FLOOR = 150_000_000  # the library's lowest default limit
LENGTH = 64  # of the passwords that a budget must admit
LONGEST_TIME = "999999s"


@pytest.fixture(scope="module", name="copy_with_speed")
def fixture_copy_with_speed(program: Path) -> Iterator[Copy]:
    """A copy of pwhash that takes the machine's speed from SPEED."""
    with copied(program) as copy:
        (copy.modules / "pwhash/speed.py").write_text(SPEED, encoding="ascii")
        yield copy


@pytest.fixture(scope="module", name="hasty")
def fixture_hasty(program: Path) -> Iterator[Copy]:
    """A copy of pwhash that measures each hash as few times as it may."""
    with copied(program) as copy:
        with open(copy.modules / "pwhash/speed.py", "a", encoding="ascii") as module:
            module.write("\nSECONDS = 1e-9\n")
        yield copy


def answer(copy_with_speed: Copy, *words: str) -> Result:
    """Runs pwhash calibrate, which must succeed."""
    done = copy_with_speed.run("calibrate", *words)
    assert done.status == 0, done
    return done


def policies_in(out: bytes) -> list[Policy]:
    """Reads the printed policies. Nothing else may be printed."""
    return [policy_in(line) for line in out.decode().splitlines()]


def policy_in(line: str) -> Policy:
    """Reads the policy in a printed line."""
    found = LINE.fullmatch(line)
    assert found, line
    return Policy(NUMBERS[found["method"]], int(found["rounds"]), int(found["budget"]))


# ---- Rounds and budgets


@pytest.mark.parametrize(
    ("given", "expected"),
    [
        # The time allows a cost of 30,000,000. A new hash of a 64-byte password may cost half of
        # that; with 1000 more rounds it would cost 15,104,016 (sha512crypt) or 15,030,832
        # (sha256crypt). Scrypt's lowest cost is 67,136,932.
        pytest.param(
            "300ms",
            [Policy(SHA512CRYPT, 77_000, 29_820_992), Policy(SHA256CRYPT, 92_000, 29_738_624)],
            id="far below the floor of the library's limit",
        ),
        # The time allows a cost of 140,000,000, more than twice scrypt's lowest cost.
        pytest.param(
            "1.4s",
            [
                Policy(SHA512CRYPT, 360_000, 139_355_424),
                Policy(SHA256CRYPT, 430_000, 138_928_672),
                Policy(SCRYPT, 6, 134_273_864),
            ],
            id="a little below that floor",
        ),
        # The time allows a cost of 200,000,000. The budgets are the library's default limits for
        # these rounds; scrypt's is the floor.
        pytest.param(
            "2s",
            [
                Policy(SHA512CRYPT, 510_000, 197_412_512),
                Policy(SHA256CRYPT, 610_000, 197_077_280),
                Policy(SCRYPT, 6, FLOOR),
            ],
            id="above that floor",
        ),
        pytest.param(
            LONGEST_TIME,
            [
                Policy(SHA512CRYPT, 990_000_000, 383_177_161_120),
                Policy(SHA256CRYPT, 990_000_000, 319_817_161_056),
                Policy(SCRYPT, 11, 4_295_023_432),
            ],
            id="the longest time",
        ),
    ],
)
def test_the_rounds_are_the_most_that_a_login_has_time_for(
    copy_with_speed: Copy, given: str, expected: list[Policy]
) -> None:
    assert policies_in(answer(copy_with_speed, given).stdout) == expected


@pytest.mark.parametrize("method", NUMBERS)
def test_more_time_never_gives_fewer_rounds_or_a_lower_budget(
    copy_with_speed: Copy, method: str
) -> None:
    rounds = budget = 0
    for seconds in (1.35, 1.4, 1.49, 1.5, 1.51, 1.6, 2, 2.6, 2.7, 5, 5.5, 60, 999999):
        done = answer(copy_with_speed, f"{seconds}s", "-m", method)
        policy = policy_in(done.stdout.decode().rstrip("\n"))
        assert policy.rounds >= rounds and policy.budget >= budget, done
        assert policy.budget <= seconds * COST_OF_SECOND, done
        rounds, budget = policy.rounds, policy.budget


@pytest.mark.parametrize("given", ["50ms", "300ms", "1.4s", "1.5s", "3s", LONGEST_TIME])
def test_a_budget_is_the_librarys_limit_for_the_policy(copy_with_speed: Copy, given: str) -> None:
    """The budget admits a new hash of a 64-byte password. From FLOOR on, it needn't be given."""
    for policy in policies_in(answer(copy_with_speed, given).stdout):
        name = next(name for name, number in NUMBERS.items() if number == policy.method)
        limit = mkpasswd.Policy(name, policy.rounds, policy.budget).limit()
        assert limit.cost == policy.budget and limit.longest_password >= LENGTH, policy
        assert new_cost(policy.method, policy.rounds, LENGTH) <= policy.budget / 2, policy
        if policy.budget >= FLOOR:
            assert mkpasswd.Policy(name, policy.rounds).limit().cost == policy.budget, policy


@pytest.mark.parametrize(
    ("given", "method"),
    [
        pytest.param("3ms", "sha256crypt", id="sha256crypt"),
        pytest.param("4ms", "sha512crypt", id="sha512crypt"),
        pytest.param("1.3s", "scrypt", id="scrypt"),
        pytest.param("0ms", "scrypt", id="no time"),
    ],
)
def test_too_little_time_for_the_fewest_rounds_is_reported(
    copy_with_speed: Copy, given: str, method: str
) -> None:
    """The fewest rounds need budgets of 341,280, 405,344 and 134,273,864, at 10 ns per unit."""
    done = copy_with_speed.run("calibrate", given, "-m", method)
    assert (done.status, done.stdout) == (1, b"") and done.stderr.count(b"\n") == 1, done
    assert method.encode() in done.stderr and b"even with -R" in done.stderr, done


def test_methods_that_take_longer_are_named_beside_the_others(copy_with_speed: Copy) -> None:
    done = answer(copy_with_speed, "300ms")
    assert b"scrypt takes longer: even with -R 6" in done.stderr, done
    assert b"134,273,864" in done.stderr and b"1.4 s" in done.stderr, done


# Each hash takes 5 ns for a unit of its cost. One takes 10 ns, except for a measurement of 90 ns.
NOISY = """
SECONDS = 1e-9
MEASURED = {costly: iter([5e-9, 5e-9, 5e-9]) for costly in COSTLIEST}
MEASURED[COSTLIEST[1]] = iter([1e-8, 9e-8, 1e-8])


def measure(costly):
    return next(MEASURED[costly])
"""


def test_the_slowest_hash_counts_but_a_single_slow_measurement_does_not(copy: Copy) -> None:
    with open(copy.modules / "pwhash/speed.py", "a", encoding="ascii") as module:
        module.write(NOISY)
    done = answer(copy, "300ms", "-m", "sha512crypt")
    assert done.stdout == b"-m sha512crypt -R 77000 --budget 29820992\n", done


# ---- Lines to paste


def test_a_printed_line_works_as_options(copy_with_speed: Copy) -> None:
    for line in answer(copy_with_speed, "1.4s").stdout.decode().splitlines():
        done = pwhash(*line.split(), stdin=b"x" * LENGTH + b"\n")
        assert done.status == 0, done
        done = pwhash("verify", *line.split(), stdin=b"x" * LENGTH + b"\n" + done.out)
        assert done.status == 0, done


# Prints the limits of policies.
LIMIT_OF = """
#include "mkpasswd.h"
#include <stdio.h>

int main(void)
{
    static const struct mkpasswd_policy policies[] = {%s};
    struct mkpasswd_report report;

    for (size_t place = 0; place < sizeof policies / sizeof *policies; place++)
        if (mkpasswd_limit(&policies[place], &report))
            printf("%%u %%u %%llu\\n", policies[place].method, (unsigned)report.rounds,
                (unsigned long long)report.cost);
    return 0;
}
"""


@pytest.mark.parametrize("given", ["300ms", "2s"])
def test_the_forms_for_c_and_python_have_the_same_limit(
    copy_with_speed: Copy, folder: Path, given: str
) -> None:
    done = answer(copy_with_speed, given)
    expected = policies_in(done.stdout)
    codes = list(CODE.finditer(done.stderr.decode()))
    (folder / "limits.c").write_text(LIMIT_OF % ", ".join(code["c"] for code in codes), "ascii")
    library = built("libmkpasswd.a", "lib")
    run(COMPILER, f"-I{ROOT}/c", "limits.c", library, "-o", "limits", cwd=folder).required()
    limits = run(folder / "limits").required().stdout.decode()
    lines = [f"{each.method} {each.rounds} {each.budget}\n" for each in expected]
    assert limits == "".join(lines), done
    for code, policy in zip(codes, expected):
        limit = mkpasswd.Policy(*ast.literal_eval(code["python"])).limit()
        assert (limit.rounds, limit.cost) == (policy.rounds, policy.budget), done


def test_a_budget_below_the_floor_must_be_given(copy_with_speed: Copy) -> None:
    done = answer(copy_with_speed, "300ms")
    assert b"give the budget, too" in done.stderr and b"150,000,000" in done.stderr, done
    done = answer(copy_with_speed, "2s")
    assert b"give the budget" not in done.stderr, done


def test_the_advice_says_that_renewing_a_hash_takes_longer(copy_with_speed: Copy) -> None:
    assert b"twice as long" in answer(copy_with_speed, "300ms").stderr


@pytest.mark.parametrize("given", ["300ms", "2s"])
def test_the_advice_says_where_to_read_how_to_find_users_whom_a_budget_keeps_out(
    copy_with_speed: Copy, given: str
) -> None:
    section = "A time for a login"
    assert f"### {section}\n" in (ROOT / "docs/GUIDE.md").read_text(encoding="utf-8")
    done = answer(copy_with_speed, given)
    assert f'GUIDE.md says under "{section}"'.encode() in done.stderr, done


def test_a_quiet_run_gives_no_advice(copy_with_speed: Copy) -> None:
    done = answer(copy_with_speed, "300ms", "--quiet", "-m", "sha256crypt")
    assert (done.stdout, done.stderr) == (b"-m sha256crypt -R 92000 --budget 29738624\n", b""), done


# ---- Options


@pytest.mark.parametrize("given", ["300ms", "0.3s", "000300ms", "0.300000s", "300.0ms"])
def test_a_time_has_several_forms(copy_with_speed: Copy, given: str) -> None:
    done = answer(copy_with_speed, "-m", "sha512crypt", given)
    assert done.stdout == b"-m sha512crypt -R 77000 --budget 29820992\n", done


@pytest.mark.parametrize(
    "given",
    [
        pytest.param("300", id="no unit"),
        pytest.param("0.3", id="a fraction without a unit"),
        pytest.param("ms", id="a unit alone"),
        pytest.param("", id="nothing"),
        pytest.param("300 ms", id="a blank within"),
        pytest.param("0,3s", id="a comma"),
        pytest.param(".3s", id="no digit before the point"),
        pytest.param("3.s", id="no digit after the point"),
        pytest.param("1e3ms", id="an exponent"),
        pytest.param("+3s", id="a sign"),
        pytest.param("300MS", id="capitals"),
        pytest.param("300µs", id="another unit"),
        pytest.param("2min", id="minutes"),
        pytest.param("٣s", id="other digits"),
        pytest.param("3s\n", id="a line feed"),
        pytest.param("infs", id="infinity"),
        pytest.param("9" * 5000 + "s", id="5000 digits"),
        pytest.param("hunter2", id="a password"),
    ],
)
def test_an_invalid_time_is_refused_with_an_example(given: str) -> None:
    done = pwhash("calibrate", given)
    assert (done.status, done.out) == (2, b"") and b"300ms, 0.3s or 2s" in done.err, done
    assert b"hunter2" not in done.err and len(done.err) < 200, done


@pytest.mark.parametrize(
    ("words", "reason"),
    [
        pytest.param([], b"pwhash calibrate 300ms", id="no time"),
        pytest.param(["300ms", "2s"], b"a word too many", id="two times"),
        pytest.param(
            ["300ms", "-m", "md5crypt"], b"scrypt", id="a method that has no rounds to choose"
        ),
        pytest.param(["300ms", "-m", "bcrypt"], b"scrypt", id="a method that isn't supported"),
        pytest.param(["300ms", "--budget", "1M"], b"--budget", id="a budget"),
        pytest.param(["-300ms"], b"calibrate --help", id="a minus"),
    ],
)
def test_invalid_arguments_are_refused(words: list[str], reason: bytes) -> None:
    done = pwhash("calibrate", *words)
    assert (done.status, done.out) == (2, b"") and reason in done.err, done


def test_the_help_shows_how_a_time_is_written() -> None:
    done = pwhash("calibrate", "--help")
    assert done.status == 0 and b"300ms" in done.out and b"--method" in done.out, done


# ---- A real machine


def test_a_machine_is_measured() -> None:
    """No machine is too slow for the longest time, or fast enough for the shortest."""
    done = pwhash("calibrate", LONGEST_TIME)
    rounds = [policy.rounds for policy in policies_in(done.out)]
    assert (done.status, rounds) == (0, [990_000_000, 990_000_000, 11]), done
    done = pwhash("calibrate", "0.000001ms")
    assert (done.status, done.out) == (1, b"") and done.err.count(b"takes longer") == 3, done


MOST_SECONDS = 1.0  # from a signal to the end


def test_a_signal_ends_a_calibration_at_once() -> None:
    """A calibration measures for two seconds."""

    def attempt() -> float:
        with started("calibrate", "300ms") as process:
            wait_for(lambda: working_threads(process.pid, process.pid) > 0)
            seconds, done = seconds_to_end(process, signal.SIGINT)
        assert done.status == -signal.SIGINT and done.out == b"", done
        return seconds

    assert least_seconds(attempt, MOST_SECONDS) <= MOST_SECONDS


def test_a_result_that_cannot_be_written_is_a_failure(hasty: Copy) -> None:
    to_full_device = ("/bin/sh", "-c", 'exec "$@" > /dev/full', "sh")
    assert hasty.run("calibrate", LONGEST_TIME, before=to_full_device).status == 3


@pytest.mark.parametrize("kibibytes", range(4000, 60000, 8000))
def test_with_little_memory_there_is_a_result_or_a_message(hasty: Copy, kibibytes: int) -> None:
    limited = ("/bin/sh", "-c", f'ulimit -v {kibibytes}; exec "$@"', "sh")
    done = hasty.run("calibrate", "300ms", before=limited)
    has_message = done.status == 3 and done.stdout == b"" and b"pwhash: " in done.stderr
    assert has_message or done.status in (0, 1) and b"Error" not in done.stderr, done


@pytest.mark.parametrize("words", [["300ms"], ["300ms", "--quiet"]])
def test_the_terminal_shows_progress_unless_quiet_is_given(hasty: Copy, words: list[str]) -> None:
    child = pexpect.spawn(str(hasty.pwhash), ["calibrate", *words], timeout=60)
    child.expect(pexpect.EOF)
    child.close()
    shows_progress = re.search(rb"measuring: \d+ %", child.before) is not None
    assert shows_progress is ("--quiet" not in words), child.before

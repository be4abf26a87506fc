"""The programs of the npm package's README: each is run, or compiled as TypeScript.

The README's programs answer a failed login after 5 seconds, the tests' copies sooner.
"""
from __future__ import annotations

import base64
import hashlib
import json
import re
from dataclasses import dataclass
from pathlib import Path
from typing import Any, Sequence

import pytest
from support.costly_hashes import SHA512CRYPT_WITH_LONGEST_SALT
from support.libxcrypt import crypt
from support.npm_site import Site
from support.process import assert_result, run
from support.reports import Report

# One worker of pytest-xdist packs and installs the package.
pytestmark = [pytest.mark.needs("npm"), pytest.mark.xdist_group("npm"), pytest.mark.slow]


def read_readme(web_build: Path) -> str:
    """Returns the package's README."""
    return (web_build / "npm/README.md").read_text(encoding="utf-8")


def program_of_readme(web_build: Path, heading: str, language: str = "js") -> str:
    """Returns the first program below a heading, of any level, in the package's README."""
    sections = re.split(r"^##+ ", read_readme(web_build), flags=re.MULTILINE)
    (section,) = [part for part in sections if part.startswith(f"{heading}\n")]
    return section.split(f"```{language}\n")[1].split("```\n")[0]


# The code before the README's first program, which uses a name and a password.
OF_A_SERVICE = """
const [name, password] = process.argv.slice(2);
const [users, entered] = [new Map([['old', '$1$xxxxxxxx$UYCIxa628.9qXjpQCjM4a.']]), []];
const letIn = (user) => entered.push(user);
"""
REPORT_OF_A_SERVICE = """
console.log(JSON.stringify({ entered, stored: users.get(name) }));
"""


def login_of_readme(user: Site, program: str, name: str, password: str) -> Report:
    """Returns whom the first program lets in, and what is stored then."""
    text = OF_A_SERVICE + program + REPORT_OF_A_SERVICE
    (user.folder / "program.mjs").write_text(text, encoding="utf-8")
    return user.report_of("program.mjs", name, password)


def faster(program: str) -> str:
    """Returns a program in which a failure takes less than the usual five seconds."""
    changed = program.replace("new LoginQueue()", "new LoginQueue({ failureTime: 1000 })")
    assert changed != program, "the program makes no queue with the usual time"
    return changed


# The policy of cheaper(), in JavaScript and TypeScript.
CHEAP_POLICY = """
import { Policy as CheapPolicy } from 'mkpasswd';
const cheapPolicy = new CheapPolicy({ rounds: 1000 });
"""


def cheaper(program: str) -> str:
    """Returns a faster program whose new hashes have the fewest rounds."""
    time = "failureTime: 1000"
    changed = faster(program).replace(time, f"{time}, policy: cheapPolicy")
    return CHEAP_POLICY + changed


@pytest.fixture(scope="module")
def login_program(web_build: Path) -> str:
    """The program with a login."""
    return faster(program_of_readme(web_build, "A first login"))


@pytest.fixture(scope="module")
def cheap_login_program(web_build: Path) -> str:
    """The program with a login, whose new hashes have the fewest rounds."""
    return cheaper(program_of_readme(web_build, "A first login"))


@pytest.mark.parametrize(
    ("name", "password", "entered"),
    [
        pytest.param("ann", "correct horse", ["ann"], id="lets in who knows the password"),
        pytest.param("ann", "wrong horse", [], id="refuses a wrong password"),
        pytest.param("nobody", "x", [], id="refuses an unknown name"),
    ],
)
def test_program_of_readme(
    user: Site, login_program: str, name: str, password: str, entered: list[str]
) -> None:
    report = login_of_readme(user, login_program, name, password)
    assert report["entered"] == entered, report


def test_program_of_readme_renews_an_outdated_hash(user: Site, login_program: str) -> None:
    report = login_of_readme(user, login_program, "old", "password")
    stored = report["stored"]
    assert report["entered"] == ["old"], report
    assert stored.startswith("$6$rounds=656000$"), report
    assert stored == crypt(b"password", stored.encode()).decode(), report


@pytest.mark.parametrize(
    "change",
    [
        pytest.param("users.set(name, '!')", id="locked"),
        pytest.param("users.delete(name)", id="deleted"),
        pytest.param("users.set(name, '$1$xxxxxxxx$UYCIxa628.9qXjpQCjM4a.')", id="reset"),
    ],
)
def test_program_of_readme_refuses_a_user_whose_field_changed_meanwhile(
    user: Site, cheap_login_program: str, change: str
) -> None:
    after = "const result = await queue.login(password, field);\n"
    changed = cheap_login_program.replace(after, f"{after}{change};\n")
    assert changed != cheap_login_program, "the program has no such login"
    report = login_of_readme(user, changed, "ann", "correct horse")
    assert report["entered"] == [], report


def test_program_of_readme_keeps_the_first_of_two_registrations(
    user: Site, cheap_login_program: str
) -> None:
    while_hashing = "users.set('ann', 'of the first');\n"
    before = "if (!users.has('ann'))"
    changed = cheap_login_program.replace(before, while_hashing + before)
    assert changed != cheap_login_program, "the program doesn't look for the name"
    report = login_of_readme(user, changed, "ann", "correct horse")
    assert (report["entered"], report["stored"]) == ([], "of the first"), report


def test_program_of_readme_lets_nobody_in_without_its_await(
    user: Site, cheap_login_program: str
) -> None:
    careless = cheap_login_program.replace("await queue.login", "queue.login")
    assert careless != cheap_login_program, "the program awaits no login"
    report = login_of_readme(user, careless, "ann", "wrong horse")
    assert report["entered"] == [], report


# Reports why logins with these fields and passwords failed. A policy of one's own is made before.
REASONS_OF_FAILURES = """
import { readFileSync } from 'node:fs';
const failures = JSON.parse(readFileSync(0, 'utf8'));
console.log(JSON.stringify(failures.map(([field, password]) => reasonOfFailure(password, field))));
"""
OWN_POLICY = """
const policy = new Policy({ rounds: 77000, budget: 29820992 });
const { limit, passwordProblem } = policy;
"""
OF_OWN_POLICY = crypt(b"password", b"$6$rounds=77000$saltsaltsaltsalt").decode()
RECOMMENDED = SHA512CRYPT_WITH_LONGEST_SALT.decode()
CHECKED = crypt(b"password", b"$6$rounds=1000$saltsaltsaltsalt").decode()
TOO_COSTLY = "$6$rounds=2000000$saltsaltsaltsalt$" + "." * 86  # for passwords of 64 bytes
TOO_COSTLY_FOR_ALL = "$6$rounds=999999999$saltsaltsaltsalt$" + "." * 86
OF_BCRYPT = "$2b$05$abcdefghijklmnopqrstuuqDsKnOFqPaNCEhHd5ZzD0Y1nJ1xN0cG"


@dataclass(frozen=True)
class Failure:
    """A login that fails, and why."""

    title: str
    field: str
    password: str
    reason: str


FAILURES = [
    # The recommended policy admits 168 bytes.
    Failure("a password that is too long", CHECKED, "x" * 169, "too long"),
    Failure("an outdated hash", CHECKED, "wrong", "wrong password"),
    Failure("a current hash", RECOMMENDED, "wrong", "wrong password"),
    Failure("a costly hash", TOO_COSTLY_FOR_ALL, "wrong", "over budget"),
    Failure("a long password", TOO_COSTLY, "x" * 64, "over budget"),
    Failure("a locked account", f"!{CHECKED}", "password", "locked"),
    Failure("a cut hash", CHECKED[:40], "password", "dead"),
    Failure("another scheme", OF_BCRYPT, "wrong", "unknown"),
]
FAILURES_WITH_ANOTHER_BUDGET = [
    Failure("a hash of the policy", OF_OWN_POLICY, "wrong", "wrong password"),
    Failure("a cheaper hash", CHECKED, "wrong", "wrong password"),
    Failure("a costlier hash", RECOMMENDED, "wrong", "over budget"),
    Failure("a password that is too long", OF_OWN_POLICY, "x" * 1024, "too long"),
]


def reasons_of_failures(user: Site, program: str, failures: list[Failure]) -> Report:
    """Returns the reasons that a program finds."""
    (user.folder / "reasons.mjs").write_text(program + REASONS_OF_FAILURES, encoding="utf-8")
    given = [[failure.field, failure.password] for failure in failures]
    return user.report_of("reasons.mjs", given=given)


@pytest.fixture(scope="module")
def reasons(user: Site, web_build: Path) -> Report:
    """The reasons of FAILURES."""
    return reasons_of_failures(user, program_of_readme(web_build, "Why a login failed"), FAILURES)


@pytest.fixture(scope="module")
def reasons_with_another_budget(user: Site, web_build: Path) -> Report:
    """The reasons of FAILURES_WITH_ANOTHER_BUDGET."""
    program = program_of_readme(web_build, "Why a login failed")
    changed = program.replace(", limit, passwordProblem }", " }")
    assert changed != program, "the program imports no limit"
    return reasons_of_failures(user, OWN_POLICY + changed, FAILURES_WITH_ANOTHER_BUDGET)


@pytest.mark.parametrize("row", FAILURES, ids=[row.title for row in FAILURES])
def test_program_of_readme_tells_why_a_login_failed(reasons: Report, row: Failure) -> None:
    assert reasons.value[FAILURES.index(row)] == row.reason, reasons


@pytest.mark.parametrize(
    "row",
    FAILURES_WITH_ANOTHER_BUDGET,
    ids=[row.title for row in FAILURES_WITH_ANOTHER_BUDGET],
)
def test_program_of_readme_tells_why_a_login_failed_with_another_budget(
    reasons_with_another_budget: Report, row: Failure
) -> None:
    reason = reasons_with_another_budget.value[FAILURES_WITH_ANOTHER_BUDGET.index(row)]
    assert reason == row.reason, reasons_with_another_budget


# A queue that takes one login at a time, and a user whose password is "password".
OF_A_BUSY_SERVICE = """
import { LoginQueue, Policy } from 'mkpasswd';
const policy = new Policy({ rounds: 1000 });
const queue = new LoginQueue({ policy, failureTime: 0, size: 1 });
const users = new Map([['ann', '$1$xxxxxxxx$UYCIxa628.9qXjpQCjM4a.']]);
"""
STATUSES = """
const right = await statusOfLogin('ann', 'password');
const wrong = await statusOfLogin('ann', 'passwort');
const both = await Promise.all([statusOfLogin('ann', 'password'), statusOfLogin('ann', 'x')]);
console.log(JSON.stringify({ right, wrong, both }));
"""


def test_program_of_readme_answers_with_http_statuses(user: Site, web_build: Path) -> None:
    program = program_of_readme(web_build, "Too many logins")
    text = OF_A_BUSY_SERVICE + program + STATUSES
    (user.folder / "statuses.mjs").write_text(text, encoding="utf-8")
    report = user.report_of("statuses.mjs")
    assert (report["right"], report["wrong"], report["both"]) == (200, 403, [200, 503]), report


# A service in which somebody changes ann's field after each login, before the program reads the
# field again. It reports for each row the statuses of logins at once, how many hashes they checked,
# what they stored, and what is stored at the end.
OF_A_CHANGING_SERVICE = """
import { readFileSync } from 'node:fs';
import { LoginQueue, Policy } from 'mkpasswd';

const rows = JSON.parse(readFileSync(0, 'utf8'));
const realQueue = new LoginQueue({ policy: new Policy({ rounds: 1000 }), failureTime: 0 });
let written, logins, changes;
class Users extends Map {
    set(name, field) {
        written.push(field);
        return super.set(name, field);
    }

    change(field) {
        if (field === null) this.delete('ann');
        else super.set('ann', field);
    }
}
const users = new Users();
const queue = {
    async login(password, field) {
        const result = await realQueue.login(password, field);
        if (logins < changes.length) users.change(changes[logins]);
        logins += 1;
        return result;
    },
};
"""
STATUSES_OF_CHANGES = """
const reports = [];
for (const row of rows) {
    [written, logins, changes] = [[], 0, row.changes];
    users.change(row.stored);
    const calls = Array.from({ length: row.count }, () => statusOfLogin('ann', 'password'));
    const statuses = await Promise.all(calls);
    reports.push({ statuses, logins, written, stored: users.get('ann') ?? null });
}
console.log(JSON.stringify(reports));
"""
OUTDATED = crypt(b"password", b"$1$saltsalt").decode()
OF_THE_SAME_PASSWORD = crypt(b"password", b"$6$rounds=1000$another.salt").decode()
OF_ANOTHER_PASSWORD = crypt(b"another", b"$6$rounds=1000$saltsaltsaltsalt").decode()


@dataclass(frozen=True)
class Meanwhile:
    """What is stored, what it becomes after each login (None: it's deleted), and the answer."""

    title: str
    stored: str
    changes: tuple[str | None, ...] = ()
    status: int = 403
    logins: int = 2

    @property
    def stored_at_the_end(self) -> str | None:
        """What is stored if the program stores nothing."""
        return self.changes[-1] if self.changes else self.stored


CHANGES_MEANWHILE = [
    Meanwhile("nothing", CHECKED, status=200, logins=1),
    Meanwhile("a reset", CHECKED, (OF_ANOTHER_PASSWORD,)),
    Meanwhile("a reset of an outdated hash", OUTDATED, (OF_ANOTHER_PASSWORD,)),
    Meanwhile("a lock", CHECKED, (f"!{CHECKED}",)),
    Meanwhile("a lock of an outdated hash", OUTDATED, (f"!{OUTDATED}",)),
    Meanwhile("a deletion", CHECKED, (None,)),
    Meanwhile("a deletion of an outdated hash", OUTDATED, (None,)),
    Meanwhile("another hash of the password", CHECKED, (OF_THE_SAME_PASSWORD,), status=200),
    Meanwhile("a renewal elsewhere", OUTDATED, (OF_THE_SAME_PASSWORD,), status=200),
    Meanwhile("two changes", CHECKED, (OF_THE_SAME_PASSWORD, CHECKED), status=200, logins=3),
    Meanwhile("a lock after a change", CHECKED, (OF_THE_SAME_PASSWORD, "!"), logins=3),
    Meanwhile(
        "a change at each login",
        CHECKED,
        (OF_THE_SAME_PASSWORD, CHECKED, OF_THE_SAME_PASSWORD),
        status=503,
        logins=3,
    ),
]


RENEWAL = Meanwhile("a renewal", OUTDATED, status=200, logins=1)


def given_to_changing_service(row: Meanwhile, count: int = 1) -> dict[str, Any]:
    """Returns a row for OF_A_CHANGING_SERVICE, with this number of logins at once."""
    return {"stored": row.stored, "changes": row.changes, "count": count}


@pytest.fixture(scope="module")
def meanwhile(user: Site, web_build: Path) -> Report:
    """The reports of CHANGES_MEANWHILE, and then of one renewal and of two at once."""
    program = program_of_readme(web_build, "Too many logins")
    text = OF_A_CHANGING_SERVICE + program + STATUSES_OF_CHANGES
    (user.folder / "meanwhile.mjs").write_text(text, encoding="utf-8")
    rows = [given_to_changing_service(row) for row in CHANGES_MEANWHILE]
    renewals = [given_to_changing_service(RENEWAL, count) for count in (1, 2)]
    return user.report_of("meanwhile.mjs", given=[*rows, *renewals])


@pytest.mark.parametrize("row", CHANGES_MEANWHILE, ids=[row.title for row in CHANGES_MEANWHILE])
def test_program_with_statuses_answers_by_what_is_stored_after_the_login(
    meanwhile: Report, row: Meanwhile
) -> None:
    report = meanwhile.value[CHANGES_MEANWHILE.index(row)]
    assert (report["statuses"], report["logins"]) == ([row.status], row.logins), meanwhile
    assert (report["written"], report["stored"]) == ([], row.stored_at_the_end), meanwhile


def test_program_with_statuses_stores_a_renewed_hash(meanwhile: Report) -> None:
    report = meanwhile.value[-2]
    assert (report["statuses"], report["logins"]) == ([RENEWAL.status], RENEWAL.logins), meanwhile
    assert report["written"] == [report["stored"]], meanwhile
    assert report["stored"].startswith("$6$rounds=1000$"), meanwhile


def test_program_with_statuses_stores_one_of_two_renewed_hashes(meanwhile: Report) -> None:
    report = meanwhile.value[-1]
    assert (report["statuses"], report["logins"]) == ([200, 200], 3), meanwhile
    assert report["written"] == [report["stored"]], meanwhile


OF_AN_OLD_SERVICE = """
import { pbkdf2Sync } from 'node:crypto';
import { passwordProblem } from 'mkpasswd';
const OLD = '$2b$05$abcdefghijklmnopqrstuuqDsKnOFqPaNCEhHd5ZzD0Y1nJ1xN0cG';
async function oldMatches(password, field) {
    if (field.startsWith('pbkdf2_')) return djangoMatches(password, field);
    if (field !== OLD) throw new Error('damaged');
    return password === 'password';
}
function djangoMatches(password, field) {
    const [, rounds, salt, digest] = field.split('$');
    return pbkdf2Sync(password, salt, Number(rounds), 32, 'sha256').toString('base64') === digest;
}
users.set('bob', OLD);
"""
OLD_STATUSES = """
const status = (password) => statusOfAnyLogin('bob', password);
const wrong = [await status('x'), await status('x'.repeat(1025))];
const kept = users.get('bob') === OLD;
const right = [await status('password'), await statusOfLogin('bob', 'password')];
const others = [await statusOfAnyLogin('ann', 'password'), await statusOfAnyLogin('eve', 'x')];
users.set('bob', OLD);
const both = [statusOfLogin('ann', 'x'), statusOfLogin('ann', 'x')];
const busy = await Promise.all([...both, status('password')]);
console.log(JSON.stringify({ wrong, kept, right, others, busy, stored: users.get('bob') }));
"""
# The statuses of a user with a hash of Django's, and what is stored before and after a match.
OLD_DJANGO = """
import { readFileSync } from 'node:fs';
const field = JSON.parse(readFileSync(0, 'utf8'));
users.set('bob', field);
const wrong = await statusOfAnyLogin('bob', 'x');
const isKept = users.get('bob') === field;
const right = await statusOfAnyLogin('bob', 'password');
console.log(JSON.stringify({ wrong, isKept, right, stored: users.get('bob') }));
"""
# The times in milliseconds of a wrong password, one whose check throws, and one for a user without
# a field.
OLD_TIMES = """
async function timed(password, field) {
    users.set('bob', field);
    const begin = performance.now();
    const status = await statusOfAnyLogin('bob', password);
    return { status, time: performance.now() - begin };
}
const late = [await timed('x', OLD), await timed('password', '$2b$'), await timed('x', undefined)];
console.log(JSON.stringify({ late }));
"""
OLD_FAILURE = 2000  # milliseconds
# The answer to a right password. The failure of the dummy login still waits.
OLD_MATCH = """
console.log(JSON.stringify({ status: await statusOfAnyLogin('bob', 'password') }));
process.exit();
"""
LONGEST_FAILURE = 2**31 - 1  # milliseconds, about 25 days


# What a change of the password answers for bob, who has an old hash, for ann, who has a new one,
# and for a name that doesn't exist. At the end bob changes his password.
OLD_CHANGES = """
async function statusesOfChanges(password, chosen) {
    const statuses = [];
    for (const name of ['bob', 'ann', 'eve']) {
        statuses.push(await statusOfAnyChange(name, password, chosen));
    }
    return statuses;
}
const refused = {
    empty: await statusesOfChanges('password', ''),
    long: await statusesOfChanges('password', 'x'.repeat(1025)),
    wrong: await statusesOfChanges('x', 'new'),
};
const isKept = users.get('bob') === OLD;
const changed = await statusOfAnyChange('bob', 'password', 'new');
console.log(JSON.stringify({ ...refused, isKept, changed, stored: users.get('bob') }));
"""
# The times in milliseconds of changes with a wrong password, for the same users.
OLD_CHANGE_TIMES = """
const late = [];
for (const name of ['bob', 'ann', 'eve']) {
    const begin = performance.now();
    const status = await statusOfAnyChange(name, 'x', 'new');
    late.push({ name, status, time: performance.now() - begin });
}
console.log(JSON.stringify({ late }));
"""


@pytest.fixture(scope="module")
def old_service(web_build: Path) -> str:
    """The programs for logins that answer with statuses, and for users with hashes of bcrypt."""
    statuses = program_of_readme(web_build, "Too many logins")
    changing = program_of_readme(web_build, "When a user changes the password")
    moving = program_of_readme(web_build, "Users with hashes of bcrypt")
    service = OF_A_BUSY_SERVICE.replace("size: 1", "size: 2")  # a right password takes two places
    return service + OF_AN_OLD_SERVICE + statuses + without_imports(changing) + moving


def test_program_of_readme_moves_users_of_bcrypt(user: Site, old_service: str) -> None:
    (user.folder / "old.mjs").write_text(old_service + OLD_STATUSES, encoding="utf-8")
    report = user.report_of("old.mjs")
    assert (report["wrong"], report["kept"], report["right"]) == ([403, 403], True, [200, 200])
    assert report["others"] == [200, 403], report
    assert report["busy"] == [403, 403, 503] and report["stored"].startswith("$2b$"), report


def test_program_of_readme_moves_users_of_pbkdf2(user: Site, old_service: str) -> None:
    digest = hashlib.pbkdf2_hmac("sha256", b"password", b"salt", 1000)
    field = f"pbkdf2_sha256$1000$salt${base64.b64encode(digest).decode()}"
    (user.folder / "django.mjs").write_text(old_service + OLD_DJANGO, encoding="utf-8")
    report = user.report_of("django.mjs", given=field)
    assert (report["wrong"], report["isKept"], report["right"]) == (403, True, 200), report
    stored = report["stored"]
    assert stored.startswith("$6$") and stored == crypt(b"password", stored.encode()).decode()


def test_program_of_readme_hides_an_old_check_that_throws(user: Site, old_service: str) -> None:
    text = old_service.replace("failureTime: 0", f"failureTime: {OLD_FAILURE}")
    (user.folder / "throwing.mjs").write_text(text + OLD_TIMES, encoding="utf-8")
    report = user.report_of("throwing.mjs")
    for failure in report["late"]:
        assert failure["status"] == 403 and failure["time"] >= OLD_FAILURE, report


def test_program_of_readme_answers_an_old_match_at_once(user: Site, old_service: str) -> None:
    text = old_service.replace("failureTime: 0", f"failureTime: {LONGEST_FAILURE}")
    (user.folder / "match.mjs").write_text(text + OLD_MATCH, encoding="utf-8")
    assert user.report_of("match.mjs")["status"] == 200


@pytest.fixture(scope="module")
def old_changes(user: Site, old_service: str) -> Report:
    """What the program does with changes of a password."""
    (user.folder / "old_change.mjs").write_text(old_service + OLD_CHANGES, encoding="utf-8")
    return user.report_of("old_change.mjs")


def test_program_of_readme_changes_a_password_with_an_old_hash(old_changes: Report) -> None:
    assert old_changes["changed"] == 200, old_changes
    stored = old_changes["stored"]
    assert stored.startswith("$6$"), old_changes
    assert stored == crypt(b"new", stored.encode()).decode(), old_changes


@pytest.mark.parametrize(("refused", "status"), [("empty", 400), ("long", 400), ("wrong", 403)])
def test_program_of_readme_refuses_a_change_alike_for_old_and_new_hashes(
    old_changes: Report, refused: str, status: int
) -> None:
    assert (old_changes[refused], old_changes["isKept"]) == ([status] * 3, True), old_changes


def test_program_of_readme_refuses_a_change_late_for_old_and_new_hashes(
    user: Site, old_service: str
) -> None:
    text = old_service.replace("failureTime: 0", f"failureTime: {OLD_FAILURE}")
    (user.folder / "late_change.mjs").write_text(text + OLD_CHANGE_TIMES, encoding="utf-8")
    report = user.report_of("late_change.mjs")
    for failure in report["late"]:
        assert failure["status"] == 403 and failure["time"] >= OLD_FAILURE, report


# Registrations: of a new name, of a taken one, with passwords that can't be used, of one name
# twice at once, and while the queue is full.
REGISTRATIONS = """
const FIRST = users.get('ann');
const of = {
    fresh: await statusOfRegistration('bob', 'new'),
    taken: await statusOfRegistration('ann', 'new'),
    empty: await statusOfRegistration('eve', ''),
    long: await statusOfRegistration('eve', 'x'.repeat(1025)),
};
const isKept = users.get('ann') === FIRST && !users.has('eve');
const twice = await Promise.all([
    statusOfRegistration('fay', 'one'), statusOfRegistration('fay', 'two'),
]);
const full = [statusOfLogin('ann', 'x'), statusOfLogin('ann', 'x')];
const busy = await Promise.all([...full, statusOfRegistration('gus', 'new')]);
console.log(JSON.stringify({ ...of, isKept, twice, busy, stored: users.get('bob') }));
"""


@pytest.fixture(scope="module")
def registrations(user: Site, web_build: Path) -> Report:
    """What the program does with registrations."""
    statuses = program_of_readme(web_build, "Too many logins")
    registering = program_of_readme(web_build, "When a user registers")
    service = OF_A_BUSY_SERVICE.replace("size: 1", "size: 2")
    text = service + statuses + registering + REGISTRATIONS
    (user.folder / "register.mjs").write_text(text, encoding="utf-8")
    return user.report_of("register.mjs")


def test_program_of_readme_registers_a_user(registrations: Report) -> None:
    stored = registrations["stored"]
    assert registrations["fresh"] == 201, registrations
    assert stored == crypt(b"new", stored.encode()).decode(), registrations


@pytest.mark.parametrize(
    ("registration", "status"), [("taken", 409), ("empty", 400), ("long", 400)]
)
def test_program_of_readme_refuses_a_registration(
    registrations: Report, registration: str, status: int
) -> None:
    assert registrations[registration] == status, registrations
    assert registrations["isKept"] is True, registrations


def test_program_of_readme_registers_a_name_once(registrations: Report) -> None:
    assert sorted(registrations["twice"]) == [201, 409], registrations


def test_program_of_readme_registers_nobody_while_busy(registrations: Report) -> None:
    assert registrations["busy"] == [403, 403, 503], registrations


# Changes of the password. The last two meet another change of the field while they hash.
CHANGES = """
const FIRST = users.get('ann');
async function changed(name, password, chosen, meanwhile) {
    users.set('ann', FIRST);
    const change = statusOfChange(name, password, chosen);
    if (meanwhile) users.set('ann', meanwhile);
    const status = await change;
    const { matches = false } = await policy.loginAsync(chosen, users.get('ann'));
    return { status, matches, stored: users.get('ann') };
}
const of = {
    right: await changed('ann', 'password', 'new'),
    wrong: await changed('ann', 'x', 'new'),
    unknown: await changed('eve', 'password', 'new'),
    empty: await changed('ann', 'password', ''),
    long: await changed('ann', 'password', 'x'.repeat(1025)),
    locked: await changed('ann', 'password', 'new', '!'),
    reset: await changed('ann', 'password', 'new', '$1$another'),
};
users.set('ann', FIRST);
const busy = await Promise.all([statusOfLogin('ann', 'x'), statusOfChange('ann', 'x', 'new')]);
console.log(JSON.stringify({ ...of, busy, first: FIRST }));
"""


@pytest.fixture(scope="module")
def changes(user: Site, web_build: Path) -> Report:
    """What the program does with changes of a password."""
    statuses = program_of_readme(web_build, "Too many logins")
    changing = program_of_readme(web_build, "When a user changes the password")
    text = OF_A_BUSY_SERVICE + statuses + changing + CHANGES
    (user.folder / "change.mjs").write_text(text, encoding="utf-8")
    return user.report_of("change.mjs")


def test_program_of_readme_changes_a_password(changes: Report) -> None:
    assert (changes["right"]["status"], changes["right"]["matches"]) == (200, True), changes


@pytest.mark.parametrize(
    ("change", "status"), [("wrong", 403), ("unknown", 403), ("empty", 400), ("long", 400)]
)
def test_program_of_readme_refuses_a_change(changes: Report, change: str, status: int) -> None:
    assert changes[change]["status"] == status, changes
    assert changes[change]["stored"] == changes["first"], changes


@pytest.mark.parametrize(("change", "stored"), [("locked", "!"), ("reset", "$1$another")])
def test_program_of_readme_keeps_another_change_made_meanwhile(
    changes: Report, change: str, stored: str
) -> None:
    assert (changes[change]["status"], changes[change]["stored"]) == (409, stored), changes


def test_program_of_readme_changes_no_password_while_busy(changes: Report) -> None:
    assert changes["busy"] == [403, 503], changes


# Requests to the whole service, in this order. Their statuses are printed by title.
REQUESTS = """
import { once } from 'node:events';
if (!server.listening) await once(server, 'listening');
const whole = { name: 'ann', password: 'correct horse' };
const addressOf = (path) => `http://127.0.0.1:${server.address().port}${path}`;
async function statusOfRequest(path, body) {
    return (await fetch(addressOf(path), { method: 'POST', body })).status;
}
async function statusOfChunks() {
    const body = new Blob([JSON.stringify(whole)]).stream();
    return (await fetch(addressOf('/login'), { method: 'POST', body, duplex: 'half' })).status;
}
const post = (path, value) => statusOfRequest(path, JSON.stringify(value));
const statuses = {
    'the right password': await post('/login', whole),
    'a wrong password': await post('/login', { ...whole, password: 'x' }),
    'a number as password': await post('/login', { ...whole, password: 5 }),
    'null': await post('/login', null),
    'no JSON': await statusOfRequest('/login', '{'),
    'a long body': await statusOfRequest('/login', 'x'.repeat(10_001)),
    'another path': await post('/other', whole),
    'no new password': await post('/password', whole),
    'a new password': await post('/password', { ...whole, chosen: 'new' }),
    'the old password': await post('/login', whole),
    'the changed password': await post('/login', { ...whole, password: 'new' }),
    'a taken name': await post('/register', whole),
    'an empty password': await post('/register', { name: 'bob', password: '' }),
    'a registration': await post('/register', { name: 'bob', password: 'of bob' }),
    'the registered user': await post('/login', { name: 'bob', password: 'of bob' }),
    'a body without a length': await statusOfChunks(),
    'no body': (await fetch(addressOf('/login'))).status,
};
console.log(JSON.stringify({ statuses }));
process.exit();
"""


def without_imports(program: str) -> str:
    """Returns a program without its imports, for a file that has imported these names already."""
    return re.sub(r"^import .*\n", "", program, flags=re.MULTILINE)


@pytest.fixture(scope="module")
def whole_service(web_build: Path) -> str:
    """The program of a whole service, with the functions that it needs."""
    headings = (
        "Too many logins",
        "When a user registers",
        "When a user changes the password",
    )
    functions = [without_imports(program_of_readme(web_build, heading)) for heading in headings]
    return program_of_readme(web_build, "A whole service") + "".join(functions)


def test_program_of_readme_is_a_whole_service(user: Site, whole_service: str) -> None:
    changed = cheaper(whole_service).replace("\ncreateServer(", "\nconst server = createServer(")
    assert "const server" in changed and ".listen(8000," in changed
    text = changed.replace(".listen(8000,", ".listen(0,") + REQUESTS
    (user.folder / "whole.mjs").write_text(text, encoding="utf-8")
    statuses = user.report_of("whole.mjs")["statuses"]
    assert statuses == {
        "the right password": 200,
        "a wrong password": 403,
        "a number as password": 400,
        "null": 400,
        "no JSON": 400,
        "a long body": 413,
        "another path": 404,
        "no new password": 400,
        "a new password": 200,
        "the old password": 403,
        "the changed password": 200,
        "a taken name": 409,
        "an empty password": 400,
        "a registration": 201,
        "the registered user": 200,
        "a body without a length": 411,
        "no body": 405,
    }


def test_program_of_readme_measures_the_costliest_login(user: Site, web_build: Path) -> None:
    program = program_of_readme(web_build, "When a failure is answered")
    (user.folder / "measure.mjs").write_text(program, encoding="utf-8")
    printed = user.run(user.node, "measure.mjs").stdout.decode()
    time = r"[\d.:]+(ms|s| \(m:ss.mmm\))"  # as console.timeEnd prints it
    assert re.fullmatch(rf"the costliest login: {time}\n", printed), printed


# Hashes that cost less and more than a new one, and fields that have none of our hashes.
STORED = """
const stored = ['!', '', '$2b$x', '$1$xxxxxxxx$UYCIxa628.9qXjpQCjM4a.', '$7$CU..../....x$x'];
const users = new Map(stored.map((field, place) => [place, field]));
"""


def test_program_of_readme_finds_the_lowest_budget(user: Site, web_build: Path) -> None:
    program = program_of_readme(web_build, "More logins at once")
    printed = """
import { Policy } from 'mkpasswd';
const { passwordLength } = new Policy({ budget }).limit;
const isOfScrypt = budget === cost('$7$CU..../....x$x', 64);
console.log(JSON.stringify({ isOfScrypt, passwordLength }));
"""
    (user.folder / "budget.mjs").write_text(STORED + program + printed, encoding="utf-8")
    report = user.report_of("budget.mjs")
    assert report["isOfScrypt"] is True and report["passwordLength"] >= 64, report


# Fields whose users get in or not, in the order of the README's table, and a name for each.
FIELDS_OF_USERS = {
    "ann": RECOMMENDED,
    "bob": OUTDATED,
    "eve": OF_BCRYPT,
    "fay": "pbkdf2_sha256$1000$salt$AAAA",
    "gus": "correct horse",
    "hal": CHECKED[:40],
    "ida": "$5$rounds=$x",
    "jon": TOO_COSTLY,
    "kim": f"!{CHECKED}",
    "leo": "",
}
FOUND_USERS = """\
eve: unknown
fay: no scheme
gus: no scheme
hal: dead
ida: malformed
jon: over budget
kim: locked
leo: none
"""


def test_program_of_readme_finds_users_whom_no_login_lets_in(user: Site, web_build: Path) -> None:
    program = program_of_readme(web_build, "Users whom no login lets in")
    given = f"const users = new Map(Object.entries({json.dumps(FIELDS_OF_USERS)}));\n"
    (user.folder / "find.mjs").write_text(given + program, encoding="utf-8")
    assert user.run(user.node, "find.mjs").stdout.decode() == FOUND_USERS


def test_program_of_readme_makes_hashes_by_another_policy(user: Site, web_build: Path) -> None:
    program = program_of_readme(web_build, "Another policy")
    printed = "console.log(JSON.stringify({ made: await queue.hash('password') }));\n"
    (user.folder / "policy.mjs").write_text(program + printed, encoding="utf-8")
    made = user.report_of("policy.mjs")["made"]
    assert made.startswith("$7$") and made == crypt(b"password", made.encode()).decode(), made


def test_program_of_readme_takes_the_numbers_of_pwhash_calibrate(
    user: Site, web_build: Path
) -> None:
    program = program_of_readme(web_build, "Numbers of pwhash calibrate")
    assert "`-m sha512crypt -R 77000 --budget 29820992`" in read_readme(web_build)
    printed = """
const { bytes } = policy.limit;
console.log(JSON.stringify({ made: await queue.hash('x'.repeat(64)), bytes }));
"""
    (user.folder / "calibrated.mjs").write_text(program + printed, encoding="utf-8")
    report = user.report_of("calibrated.mjs")
    made = report["made"]
    assert report["bytes"] == 29820992 and made.startswith("$6$rounds=77000$"), report
    assert made == crypt(b"x" * 64, made.encode()).decode(), report


# The code before the README's programs, in TypeScript.
LET_IN = "declare function letIn(name: string): void;\n"
USERS = "declare const users: Map<string, string>;\n"
TYPED = "declare const name: string, password: string;\n"
NODENEXT = ("--module", "nodenext")


def assert_accepted(user: Site, text: str, modules: Sequence[str] = NODENEXT) -> None:
    """Fails the test unless tsc accepts a module, with these settings of modules."""
    (user.folder / "readme.ts").write_text(f"{text}export {{}};\n", encoding="utf-8")
    options = ("--noEmit", "--strict", "--target", "es2022", *modules)
    assert_result(run("tsc", *options, "readme.ts", cwd=user.folder))


@pytest.mark.needs("tsc")
@pytest.mark.parametrize(
    ("heading", "language", "declared"),
    [
        pytest.param("A first login", "js", USERS + TYPED + LET_IN, id="a login"),
        pytest.param("When a failure is answered", "js", "", id="a measurement"),
        pytest.param("More logins at once", "js", USERS, id="a budget"),
        pytest.param("Numbers of pwhash calibrate", "js", "", id="numbers of calibrate"),
        pytest.param("Users whom no login lets in", "js", USERS, id="a search for users"),
        pytest.param("Another policy", "js", "", id="a policy"),
        pytest.param("TypeScript", "ts", "", id="TypeScript"),
    ],
)
def test_typescript_accepts_programs_of_readme(
    user: Site, web_build: Path, heading: str, language: str, declared: str
) -> None:
    program = program_of_readme(web_build, heading, language)
    assert_accepted(user, declared + program)


@pytest.mark.needs("tsc")
@pytest.mark.parametrize(
    "modules",
    [
        pytest.param(("--module", "node16"), id="node16"),
        pytest.param(("--module", "es2022", "--moduleResolution", "node"), id="es2022"),
        pytest.param(("--module", "esnext", "--moduleResolution", "node"), id="esnext"),
    ],
)
def test_typescript_finds_the_package_with_other_modules(
    user: Site, web_build: Path, modules: Sequence[str]
) -> None:
    assert_accepted(user, program_of_readme(web_build, "TypeScript", "ts"), modules)


# The code before the README's functions.
FUNCTIONS_USE = """
import { Busy, LoginQueue, Policy, cost, limit, passwordProblem } from 'mkpasswd';
declare const queue: LoginQueue;
declare const users: Map<string, string>;
declare function oldMatches(password: string, field: string): Promise<boolean>;
declare function setImmediate(call: (value: unknown) => void): void;
"""


CONFIRM_FIELD = "confirmField(name, field, renewed)"
TYPED_CONFIRM_FIELD = "confirmField(name: string, field?: string, renewed?: string | null)"


def with_types(program: str) -> str:
    """Returns the program with types for TypeScript.

    Its functions' parameters are strings, but two of confirmField's are optional.
    """
    declaration = f"function {CONFIRM_FIELD}"
    assert declaration in program

    def typed(found: re.Match[str]) -> str:
        name, parameters = found.groups()
        return f"function {name}({parameters.replace(',', ': string,')}: string)"

    with_optional_ones = program.replace(declaration, f"function {TYPED_CONFIRM_FIELD}")
    return re.sub(r"function (\w+)\(([\w, ]+)\)", typed, with_optional_ones)


@pytest.mark.needs("tsc")
def test_typescript_accepts_functions_of_readme(user: Site, web_build: Path) -> None:
    headings = (
        "Too many logins",
        "Why a login failed",
        "When a user registers",
        "When a user changes the password",
        "Users with hashes of bcrypt",
    )
    functions = [without_imports(program_of_readme(web_build, heading)) for heading in headings]
    assert_accepted(user, FUNCTIONS_USE + with_types("".join(functions)))


# Calls of the decision in TypeScript, and its results: for right and wrong passwords, an unknown
# name, and a password that isn't a string.
DECISIONS = """
const field = '$1$xxxxxxxx$UYCIxa628.9qXjpQCjM4a.';
const tries = [['password', field], ['passwort', field], ['password', undefined], [5, field]];
console.log(JSON.stringify({
    decisions: await Promise.all(tries.map(([typed, stored]) => mayEnter(typed, stored))),
}));
"""


@pytest.mark.needs("tsc")
def test_program_of_readme_in_typescript_decides(user: Site, web_build: Path) -> None:
    program = cheaper(program_of_readme(web_build, "TypeScript", "ts"))
    (user.folder / "decide.mts").write_text(program, encoding="utf-8")
    options = ("--strict", "--target", "es2022", "--module", "nodenext")
    assert_result(run("tsc", *options, "decide.mts", cwd=user.folder))
    compiled = (user.folder / "decide.mjs").read_text(encoding="utf-8")
    (user.folder / "decide.mjs").write_text(compiled + DECISIONS, encoding="utf-8")
    assert user.report_of("decide.mjs")["decisions"] == [True, False, False, False]

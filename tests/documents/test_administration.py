"""The recipes for administrators, followed with password files in a scratch folder.

The commands are the document's, except for the paths of files and cron's schedule. The system's
chpasswd, useradd and id work on the files in the scratch folder.
"""
from __future__ import annotations

import re
import shlex
import shutil
import time
from collections.abc import Mapping
from dataclasses import dataclass
from pathlib import Path

import pytest
from support.documents import Block, marked
from support.examples import is_hash_of
from support.process import Changes, Result, run

pytestmark = pytest.mark.needs("root", "chpasswd")

AGED = ":19000:0:99999:7:::"  # the fields after the hash in a shadow file, first a date in days
# The settings that make useradd write the same fields for new accounts.
AGES = "PASS_MIN_DAYS 0\nPASS_MAX_DAYS 99999\nPASS_WARN_AGE 7\n"
SECONDS_OF_DAY = 86_400
SCHEDULE = re.compile(r"^(?:\S+ ){5}root ", re.MULTILINE)  # at the start of a line for cron
RECOMMENDED = "$6$rounds=656000$"

LOCKED = "!"
# libxcrypt's hashes of "password".
OUTDATED = "$5$rounds=1000$ab$1w1vy5uCLDQWfIMwmaMatnSGmBa34fZnvo3JO2w3CP1"
CURRENT = (
    "$6$rounds=656000$ab$hc10aHkXN.GF5BQag9FBjeGeBnJXHj4GHeiS9SEq5r1wLkbQRKB4zP9d0pztZ6D3nYaEdp3"
    "LiHXS5HEc4ufoq0"
)
OVER_BUDGET = "$6$rounds=999999999$ab$x"
MALFORMED = "$7$C6....../..ab$x"
YESCRYPT = "$y$j9T$ab$x"
# libxcrypt's hashes of "password" by other methods.
YESCRYPT_OF_PASSWORD = "$y$j75$abcdefgh$hycRI05iyPwUdPZDaw/SJaABdj2h8B1Bgxi1Z/4Xke0"
BCRYPT_OF_PASSWORD = "$2b$05$abcdefghijklmnopqrstuuWG29KuyeAicPCJODk1zjyGvyQUU2awu"


def today() -> int:
    """Returns the date as in a shadow file, in days since 1970."""
    return int(time.time()) // SECONDS_OF_DAY


@dataclass(frozen=True)
class Entry:
    """An account's line in a shadow file."""

    field: str
    rest: str  # the date of the last change, and the later fields

    def has_new_password(self, password: str, not_before: int) -> bool:
        """Returns whether the field is a hash of the password, with the recommended cost.

        The date of the change must be `not_before` or later, and the other fields unchanged.
        """
        dates = [AGED.replace("19000", str(day)) for day in range(not_before, today() + 1)]
        is_recommended = self.field.startswith(RECOMMENDED)
        return is_recommended and self.rest in dates and is_hash_of(self.field, password)


@dataclass(frozen=True)
class Machine:
    """A folder in which recipes are followed, and the system whose passwords they change."""

    system: Path
    folder: Path
    environment: Changes
    began: int  # the date at the start of the test

    @property
    def shadow(self) -> Path:
        return self.system / "etc/shadow"

    def set_accounts(self, fields: Mapping[str, str]) -> None:
        """Replaces all accounts by these names and fields."""
        names = sorted(fields)
        users = [f"{name}:x:1000:1000::/:/bin/sh\n" for name in names]
        (self.system / "etc/passwd").write_text("".join(users), encoding="ascii")
        entries = [f"{name}:{fields[name]}{AGED}\n" for name in names]
        self.shadow.write_text("".join(entries), encoding="ascii")

    def entries(self) -> dict[str, Entry]:
        """Returns the accounts by name."""
        parts = [line.split(":", 2) for line in self.shadow.read_text().splitlines()]
        return {name: Entry(field, f":{rest}") for name, field, rest in parts}

    def write(self, name: str, content: bytes) -> None:
        """Writes a file for the recipes to read; they run in this folder."""
        (self.folder / name).write_bytes(content)

    def follow(self, mark: str, language: str = "sh", stdin: bytes = b"") -> "Followed":
        """Follows a recipe, with this system's file in place of /etc/shadow and /mnt/etc/shadow."""
        block = marked(mark, language)
        commands = SCHEDULE.sub("", block.code)
        shadow = shlex.quote(str(self.shadow))
        commands = re.sub(r" (?:/mnt)?/etc/shadow\b", f" {shadow}", commands)
        commands = commands.replace(" -R /mnt", "")  # the machine's chpasswd has such an option
        result = run("sh", "-c", commands, stdin=stdin, env=self.environment, cwd=self.folder)
        return Followed(block, result)

    def has_new_password(self, name: str, password: str) -> bool:
        """Returns whether an account has got a hash of the password since the test began."""
        return self.entries()[name].has_new_password(password, self.began)


@dataclass(frozen=True)
class Followed:
    """A recipe that was followed, and its result."""

    block: Block
    result: Result

    @property
    def lines(self) -> list[str]:
        """The lines that the recipe printed, with single blanks between words."""
        text = self.result.stdout.decode()
        return [" ".join(line.split()) for line in text.splitlines()]

    @property
    def errors(self) -> str:
        """What the recipe printed on standard error."""
        return self.result.stderr.decode()

    def lacks(self, expected: str) -> str:
        """Returns the message of an assertion: what was expected instead of this result."""
        return f"{self.block.place}\nexpected: {expected}\n{self.result}"


def save_command(path: Path, text: str) -> None:
    """Writes a script that every user can run."""
    path.write_text(text, encoding="ascii")
    path.chmod(0o755)


@pytest.fixture(name="machine")
def fixture_machine(environment: Changes, tmp_path: Path) -> Machine:
    (tmp_path / "system/etc").mkdir(parents=True)
    (tmp_path / "system/home").mkdir()
    (tmp_path / "system/etc/group").touch()
    (tmp_path / "system/etc/login.defs").write_text(AGES, encoding="ascii")
    (tmp_path / "bin").mkdir()
    (tmp_path / "folder").mkdir()
    for command in "chpasswd", "useradd":
        of_system = shutil.which(command)
        wrapper = f"#!/bin/sh\nexec {of_system} -R '{tmp_path}/system' \"$@\"\n"
        save_command(tmp_path / "bin" / command, wrapper)
    accounts = f"{tmp_path}/system/etc/passwd"
    save_command(tmp_path / "bin/id", f"#!/bin/sh\ngrep \"^$2:\" '{accounts}'\n")
    path = f"{tmp_path}/bin:{environment['PATH']}"
    return Machine(tmp_path / "system", tmp_path / "folder", {**environment, "PATH": path}, today())


THREE_LOCKED = {"ann": LOCKED, "bob": LOCKED, "eve": LOCKED}


# ---- Passwords from a file


def test_accounts_get_the_passwords_of_the_file(machine: Machine) -> None:
    machine.set_accounts(THREE_LOCKED)
    machine.write("passwords", b"ann:password\nbob:pass:word\n")
    followed = machine.follow("new passwords")
    assert followed.result.status == 0, followed.lacks("status 0")
    assert followed.result.stdout + followed.result.stderr == b"", followed.lacks("nothing printed")
    assert machine.has_new_password("ann", "password"), followed.lacks("a new hash for ann")
    assert machine.has_new_password("bob", "pass:word"), followed.lacks("a new hash for bob")


@pytest.mark.parametrize("mark", ["new passwords", "good lines"])
def test_a_new_password_unlocks_no_account(machine: Machine, mark: str) -> None:
    machine.set_accounts({"ann": OUTDATED, "bob": LOCKED + OUTDATED, "eve": "*"})
    before = machine.entries()
    machine.write("passwords", b"ann:password\nbob:password\neve:password\n")
    followed = machine.follow(mark)
    assert followed.result.status == 0, followed.lacks("status 0")
    assert machine.has_new_password("ann", "password"), followed.lacks("a new hash for ann")
    for name in "bob", "eve":
        assert machine.entries()[name] == before[name], followed.lacks(f"{name} stays locked")
        assert f"({name}): locked in " in followed.errors, followed.lacks(f"a message about {name}")


# A table as Excel in German saves it in UTF-8. The last row's class has a trailing blank.
SCHOOL = (
    "\ufefflast;first;login;class\r\n"
    "Müller;Ann;ann;5a\r\n"
    "Xu;Bob;bob;5b\r\n"
    "Schön;Eve;eve;5a \r\n"
).encode()


def passwords_in(path: Path) -> dict[str, str]:
    """Returns the passwords in a list by name. Checks the list's heading."""
    heading, *rows = path.read_text(encoding="utf-8-sig").splitlines()
    assert heading == "last;first;name;password", heading
    fields = [row.split(";") for row in rows]
    return {name: password for _last, _first, name, password in fields}


def follow_generated_passwords(machine: Machine) -> Followed:
    """Follows both commands of the recipe. Returns the second one, or the first if it fails."""
    machine.write("users.csv", SCHOOL)
    followed = machine.follow("made passwords")
    if followed.result.status != 0:
        return followed
    return machine.follow("made passwords loaded")


@pytest.mark.parametrize("accounts", [THREE_LOCKED, {"bob": LOCKED}], ids=["all", "one of them"])
def test_generated_passwords_are_loaded_and_listed_by_class(
    machine: Machine, accounts: Mapping[str, str]
) -> None:
    machine.set_accounts(accounts)
    followed = follow_generated_passwords(machine)
    assert followed.result.status == 0, followed.lacks("status 0")
    lists = sorted(path.name for path in (machine.folder / "lists").iterdir())
    assert lists == ["5a.csv", "5b.csv"], followed.lacks("a list for each class")
    first = passwords_in(machine.folder / "lists/5a.csv")
    second = passwords_in(machine.folder / "lists/5b.csv")
    assert (set(first), set(second)) == ({"ann", "eve"}, {"bob"}), followed.lacks("all names")
    for name, password in {**first, **second}.items():
        assert machine.has_new_password(name, password), followed.lacks(f"a new hash for {name}")


def test_generated_passwords_of_all_lists_are_installed_for_nginx(machine: Machine) -> None:
    machine.set_accounts(THREE_LOCKED)
    follow_generated_passwords(machine)
    followed = follow_for_nginx(machine, "passwords of lists for nginx")
    assert followed.result.status == 0, followed.lacks("status 0")
    assert set(fields_of_nginx(machine)) == {"ann", "bob", "eve"}, followed.lacks("all names")
    assert_nginx_has_listed_passwords(machine, followed)


def follow_for_nginx(machine: Machine, mark: str) -> Followed:
    """Follows a recipe for nginx, with the file at.passwords in place of nginx's."""
    block = marked(mark, "sh")
    commands = block.code.replace("/etc/nginx/", "at.").replace("--group www-data", "")
    result = run("sh", "-c", commands, env=machine.environment, cwd=machine.folder)
    return Followed(block, result)


def fields_of_nginx(machine: Machine) -> dict[str, str]:
    """Returns the fields in at.passwords by name."""
    lines = (machine.folder / "at.passwords").read_text(encoding="ascii").splitlines()
    return dict(line.split(":") for line in lines)


def assert_nginx_has_listed_passwords(machine: Machine, followed: Followed) -> None:
    """Fails unless at.passwords has a hash of each password in the lists of the three pupils."""
    lists = [passwords_in(path) for path in (machine.folder / "lists").iterdir()]
    passwords = {name: password for of_class in lists for name, password in of_class.items()}
    assert set(passwords) == {"ann", "bob", "eve"}, followed.lacks("all names")
    fields = fields_of_nginx(machine)
    for name, password in passwords.items():
        assert is_hash_of(fields[name], password), followed.lacks(f"a hash for {name}")


def test_new_pupils_are_added_for_nginx(machine: Machine) -> None:
    machine.set_accounts(THREE_LOCKED)
    follow_generated_passwords(machine)
    machine.write("at.passwords", f"dan:{CURRENT}\n".encode())
    followed = follow_for_nginx(machine, "new pupils for nginx")
    assert followed.result.status == 0, followed.lacks("status 0")
    assert fields_of_nginx(machine)["dan"] == CURRENT, followed.lacks("the line of dan")
    assert_nginx_has_listed_passwords(machine, followed)


def test_a_new_pupil_does_not_take_the_login_of_another_one_at_nginx(machine: Machine) -> None:
    machine.set_accounts(THREE_LOCKED)
    follow_generated_passwords(machine)
    machine.write("at.passwords", f"bob:{CURRENT}\ndan:{CURRENT}\n".encode())
    followed = follow_for_nginx(machine, "new pupils for nginx")
    assert followed.result.status == 1, followed.lacks("status 1")
    assert "(bob): the name again" in followed.errors, followed.lacks("a message about bob")
    before = {"bob": CURRENT, "dan": CURRENT}
    assert fields_of_nginx(machine) == before, followed.lacks("the same file")


def test_logins_that_are_taken_are_shown(machine: Machine) -> None:
    """getent asks the system on which the test runs. It always has root."""
    machine.write("hashes", f"no-such-pupil:{CURRENT}\nroot:{CURRENT}\n".encode())
    followed = machine.follow("logins that are taken")
    names = [line.partition(":")[0] for line in followed.lines]
    assert names == ["root"], followed.lacks("the line of root")


def test_forgotten_passwords_are_replaced_for_nginx(machine: Machine) -> None:
    machine.set_accounts(THREE_LOCKED)
    follow_generated_passwords(machine)
    machine.write("at.passwords", f"dan:{CURRENT}\nann:{CURRENT}\n".encode())
    followed = follow_for_nginx(machine, "forgotten passwords for nginx")
    assert followed.result.status == 0, followed.lacks("status 0")
    assert fields_of_nginx(machine)["dan"] == CURRENT, followed.lacks("the line of dan")
    assert_nginx_has_listed_passwords(machine, followed)


def test_a_table_with_some_passwords_gives_hashes_of_all_names(machine: Machine) -> None:
    machine.set_accounts(THREE_LOCKED)
    machine.write("given.csv", b"last;login;password\nXu;dan;password\n")
    machine.write("missing.csv", SCHOOL)
    followed = machine.follow("some passwords given")
    assert followed.result.status == 0, followed.lacks("status 0")
    lines = (machine.folder / "hashes").read_text(encoding="ascii").splitlines()
    fields = dict(line.split(":") for line in lines)
    assert set(fields) == {"ann", "bob", "dan", "eve"}, followed.lacks("all names")
    assert is_hash_of(fields["dan"], "password"), followed.lacks("the hash of a given password")
    listed = passwords_in(machine.folder / "lists/5b.csv")
    assert is_hash_of(fields["bob"], listed["bob"]), followed.lacks("the hash of a new password")


def test_nothing_is_installed_for_nginx_if_a_list_is_damaged(machine: Machine) -> None:
    machine.set_accounts(THREE_LOCKED)
    follow_generated_passwords(machine)
    (machine.folder / "lists/5a.csv").write_bytes(b"last;first;name;password\n;;ann\n")
    code = marked("passwords of lists for nginx", "sh").code.replace("/etc/nginx/", "at.")
    result = run("sh", "-c", code, env=machine.environment, cwd=machine.folder)
    assert result.status != 0, str(result)
    assert not (machine.folder / "at.passwords").exists(), str(result)


def test_generated_passwords_unlock_no_account_a_year_later(machine: Machine) -> None:
    machine.set_accounts({"ann": OUTDATED, "bob": LOCKED + OUTDATED, "eve": LOCKED + CURRENT})
    before = machine.entries()
    followed = follow_generated_passwords(machine)
    assert followed.result.status == 0, followed.lacks("status 0")
    lists = [path.name for path in (machine.folder / "lists").iterdir()]
    assert lists == ["5a.csv"], followed.lacks("no list for the class of bob, who is locked")
    passwords = passwords_in(machine.folder / "lists/5a.csv")
    assert list(passwords) == ["ann"], followed.lacks("ann alone has a password")
    assert machine.has_new_password("ann", passwords["ann"]), followed.lacks("a new hash for ann")
    for name in "bob", "eve":
        assert machine.entries()[name] == before[name], followed.lacks(f"{name} stays locked")


def test_an_empty_new_password_changes_no_account(machine: Machine) -> None:
    machine.set_accounts(THREE_LOCKED)
    before = machine.entries()
    machine.write("passwords", b"ann:password\nbob:\n")
    followed = machine.follow("new passwords")
    assert followed.result.status == 1, followed.lacks("status 1")
    assert machine.entries() == before, followed.lacks("no account has changed")


SOME_GOOD_LINES = b"\n".join(
    [
        b"ann:password",
        b"bob:" + b"x" * 169,  # one byte too long for the default budget
        b"secret",
        b"eve:password",
        b":secret",
        b"secret" * 11,
        b"ann:secret",  # a repeated name
        b"",
    ]
)


@pytest.fixture(name="good_lines")
def fixture_good_lines(machine: Machine) -> Followed:
    machine.set_accounts(THREE_LOCKED)
    machine.write("passwords", SOME_GOOD_LINES)
    return machine.follow("good lines")


def test_good_lines_are_loaded_and_the_others_are_not(
    machine: Machine, good_lines: Followed
) -> None:
    assert good_lines.result.status == 0, good_lines.lacks("status 0 of chpasswd")
    assert machine.has_new_password("ann", "password"), good_lines.lacks("a new hash for ann")
    assert machine.has_new_password("eve", "password"), good_lines.lacks("a new hash for eve")
    is_kept = machine.entries()["bob"] == Entry(LOCKED, AGED)
    assert is_kept, good_lines.lacks("bob keeps the field and the date")


def test_other_lines_are_shown_by_number_and_without_passwords(good_lines: Followed) -> None:
    # Only the first number of a message: some also name an earlier line.
    numbers = re.findall(r"^[^0-9\n]*line (\d+)", good_lines.errors, re.MULTILINE)
    is_complete = sorted(numbers) == ["2", "3", "5", "6", "7"]
    assert is_complete, good_lines.lacks("messages about the lines 2, 3, 5, 6 and 7")
    output = good_lines.result.stdout + good_lines.result.stderr
    assert b"secret" not in output, good_lines.lacks("no password")
    assert good_lines.result.stdout == b"", good_lines.lacks("nothing on standard output")


# ---- A password on another disk


def test_an_account_of_another_disk_gets_the_password_that_is_typed(machine: Machine) -> None:
    machine.set_accounts({"root": LOCKED, "ann": OUTDATED})
    followed = machine.follow("another disk", stdin=b"password\n")
    assert followed.result.status == 0, followed.lacks("status 0")
    assert machine.has_new_password("root", "password"), followed.lacks("a new hash for root")
    assert machine.entries()["ann"] == Entry(OUTDATED, AGED), followed.lacks("ann keeps the hash")


@pytest.mark.parametrize(
    ("typed", "status"),
    [
        pytest.param(b"password\n", 0, id="the password"),
        pytest.param(b"passwort\n", 1, id="another password"),
    ],
)
def test_a_password_on_another_disk_is_checked(machine: Machine, typed: bytes, status: int) -> None:
    machine.set_accounts({"root": CURRENT})
    followed = machine.follow("another disk, checked", stdin=typed)
    assert followed.result.status == status, followed.lacks(f"status {status}")


@pytest.mark.needs("perl")
@pytest.mark.parametrize(
    "field",
    [
        pytest.param(YESCRYPT_OF_PASSWORD, id="yescrypt"),
        pytest.param(BCRYPT_OF_PASSWORD, id="bcrypt"),
        pytest.param(CURRENT, id="sha512crypt"),
    ],
)
@pytest.mark.parametrize(
    ("typed", "answer"),
    [
        pytest.param("password", b"yes\n", id="the password"),
        pytest.param("passwort", b"no\n", id="another password"),
    ],
)
def test_a_hash_is_checked_by_the_systems_crypt(
    machine: Machine, field: str, typed: str, answer: bytes
) -> None:
    followed = machine.follow("check by crypt", stdin=f"{field}\n{typed}\n".encode())
    assert followed.result.stdout == answer, followed.lacks(f"{answer!r} is printed")


@pytest.mark.needs("perl")
@pytest.mark.parametrize(
    "pasted",
    [
        pytest.param("", id="nothing"),
        pytest.param("*0", id="a failure of crypt"),
        pytest.param("*1", id="another failure of crypt"),
        pytest.param("!", id="a mark of locking"),
        pytest.param("$apr1$xxxxxxxx$dxHfLAsjHkDRmG83UXe8K0", id="a hash of Apache's own method"),
        pytest.param(f"root:{CURRENT}{AGED}", id="a whole line"),
        pytest.param(f"{CURRENT}{AGED}", id="the rest of a line"),
        pytest.param(f"root:{CURRENT}", id="a name before the hash"),
        pytest.param(f" {CURRENT}", id="a blank before the hash"),
        pytest.param(f"{CURRENT} ", id="a blank after the hash"),
        pytest.param(f"'{CURRENT}'", id="quotes"),
        pytest.param(f"{CURRENT}'", id="a quote after the hash"),
        pytest.param(CURRENT[:-1], id="a hash that was cut short"),
        pytest.param(f"!{CURRENT}", id="a locked hash"),
    ],
)
def test_what_is_no_hash_of_the_system_is_named(machine: Machine, pasted: str) -> None:
    followed = machine.follow("check by crypt", stdin=f"{pasted}\npassword\n".encode())
    printed = b"this system knows no such hash\n"
    assert followed.result.stdout == printed, followed.lacks(f"{printed!r} is printed")


@pytest.mark.needs("perl")
def test_the_methods_of_this_debian_are_those_of_the_document(machine: Machine) -> None:
    followed = machine.follow("methods of a system")
    expected = marked("methods of Debian", "text").code.split("\n")
    assert followed.lines == [line for line in expected if line], followed.lacks("these lines")


# ---- A job every night


@dataclass(frozen=True)
class Job:
    """The recipe's job, installed as a command that reads the machine's folder."""

    machine: Machine

    @property
    def folder(self) -> Path:
        return self.machine.folder

    def run(self) -> Followed:
        """Runs the command of the recipe's file for cron."""
        line = marked("nightly job by cron", "text").code.splitlines()[-1]
        command = SCHEDULE.sub("", line)
        result = run("sh", "-c", command, env=self.machine.environment)
        return Followed(marked("nightly job", "sh"), result)

    def has_succeeded(self) -> bool:
        """Returns whether the recipe's command that watches the job finds that it succeeded."""
        command = marked("nightly job watched", "sh").code.replace(
            "/root/accounts", shlex.quote(str(self.folder))
        )
        return run("sh", "-c", command).status == 0


@pytest.fixture(name="job")
def fixture_job(machine: Machine) -> Job:
    machine.set_accounts({"ann": LOCKED, "bob": OUTDATED})
    script = marked("nightly job", "sh").code
    script = script.replace("/root/accounts", shlex.quote(str(machine.folder)))
    script = script.replace("/etc/shadow", shlex.quote(str(machine.shadow)))
    save_command(machine.folder.parent / "bin/load-passwords", script)
    return Job(machine)


def test_the_nightly_job_loads_the_passwords_and_prints_nothing(job: Job) -> None:
    job.machine.write("passwords", b"ann:password\nbob:pass:word\n")
    ended = job.run()
    assert ended.result.status == 0, ended.lacks("status 0")
    assert ended.result.stdout + ended.result.stderr == b"", ended.lacks("nothing printed")
    assert job.machine.has_new_password("ann", "password"), ended.lacks("a new hash for ann")
    assert job.machine.has_new_password("bob", "pass:word"), ended.lacks("a new hash for bob")
    left = sorted(path.name for path in job.folder.iterdir())
    assert left == ["last-success"], ended.lacks("no file with passwords or hashes is left")
    assert job.has_succeeded(), ended.lacks("a success, for whoever watches")


def test_the_nightly_job_succeeds_without_passwords(job: Job) -> None:
    ended = job.run()
    is_quiet = ended.result.stdout + ended.result.stderr == b""
    assert ended.result.status == 0 and is_quiet, ended.lacks("status 0, and nothing printed")
    assert job.has_succeeded(), ended.lacks("a success, for whoever watches")


def test_the_nightly_job_keeps_a_list_that_comes_meanwhile(job: Job) -> None:
    chpasswd = job.folder.parent / "bin/chpasswd"
    new_list = f"echo bob:another > '{job.folder}/passwords'\n"
    save_command(chpasswd, chpasswd.read_text().replace("exec", f"{new_list}exec"))
    job.machine.write("passwords", b"ann:password\n")
    ended = job.run()
    assert ended.result.status == 0, ended.lacks("status 0")
    assert job.machine.has_new_password("ann", "password"), ended.lacks("a new hash for ann")
    ended = job.run()
    assert job.machine.has_new_password("bob", "another"), ended.lacks("a new hash for bob")


def test_the_nightly_job_goes_on_after_a_night_that_was_interrupted(job: Job) -> None:
    job.machine.write("loading", b"ann:password\n")
    job.machine.write("hashes.part", b"ann:$6$")
    job.machine.write("hashes", b"bob:*\n")
    ended = job.run()
    assert ended.result.status == 0, ended.lacks("status 0")
    assert job.machine.has_new_password("ann", "password"), ended.lacks("a new hash for ann")


@pytest.mark.parametrize(
    ("lines", "status"),
    [
        pytest.param(b"ann:password\nbob:\n", 1, id="an empty password"),
        pytest.param(b"ann:password\nnobody:secret\n", 1, id="a name without an account"),
        pytest.param(b"", 2, id="no lines"),
    ],
)
def test_the_nightly_job_reports_what_fails_and_keeps_everything(
    job: Job, lines: bytes, status: int
) -> None:
    before = job.machine.entries()
    job.machine.write("passwords", lines)
    ended = job.run()
    assert ended.result.status == status, ended.lacks(f"status {status}")
    assert f"status {status}:" in ended.errors, ended.lacks("a message that names the status")
    assert "secret" not in ended.errors, ended.lacks("no password in the mail")
    assert job.machine.entries() == before, ended.lacks("no account has changed")
    assert (job.folder / "loading").read_bytes() == lines, ended.lacks("the passwords are kept")
    assert not job.has_succeeded(), ended.lacks("no success, for whoever watches")


# ---- Known passwords

ACCOUNTS = {
    "ann": OUTDATED,
    "bob": LOCKED + OUTDATED,
    "eve": OUTDATED,
    "kim": CURRENT,
    "zoe": OVER_BUDGET,
}


@pytest.fixture(name="known_passwords")
def fixture_known_passwords(machine: Machine) -> Followed:
    machine.set_accounts(ACCOUNTS)
    machine.write("list", b"eve:guess\neve:password\r\nbob:x\nzoe:x\nann:word\nnobody:x\n")
    return machine.follow("known passwords")


def test_accounts_with_a_listed_password_are_printed(known_passwords: Followed) -> None:
    assert known_passwords.lines == ["eve:ok"], known_passwords.lacks("eve alone")


def test_an_account_whose_hash_is_over_the_budget_is_named(known_passwords: Followed) -> None:
    is_named = re.search(r"^pwhash: zoe .*over budget$", known_passwords.errors, re.MULTILINE)
    assert is_named, known_passwords.lacks("a message that zoe is over the budget")


def test_a_line_without_an_account_is_named(known_passwords: Followed) -> None:
    is_named = "pwhash: list, line 6: no such name in " in known_passwords.errors
    assert is_named, known_passwords.lacks("a message about line 6")


def test_one_password_is_tried_for_every_account(machine: Machine) -> None:
    machine.set_accounts(ACCOUNTS)
    machine.write("list", b"password\n")
    followed = machine.follow("known passwords")
    assert followed.lines == ["ann:ok", "eve:ok", "kim:ok"], followed.lacks("ann, eve and kim")


def test_accounts_whose_password_is_listed_move_to_another_method(machine: Machine) -> None:
    machine.set_accounts(ACCOUNTS)
    before = machine.entries()
    names = ["bob", "kim", "zoe", "nobody"]
    right = "".join(f"{name}:password\n" for name in names)
    machine.write("list", f"ann:guess\nann:password\neve:guess\n{right}".encode())
    followed = machine.follow("another method")
    assert followed.result.status == 0, followed.lacks("status 0")
    assert machine.has_new_password("ann", "password"), followed.lacks("a new hash for ann")
    after = machine.entries()
    changed = [name for name in before if after[name] != before[name]]
    assert changed == ["ann"], followed.lacks(f"ann alone has changed, and not {changed}")


@pytest.mark.needs("perl")
@pytest.mark.parametrize(
    ("lines", "printed"),
    [
        pytest.param(b"guess\npassword\r\n", ["ann:ok", "bob:ok"], id="a password for all"),
        pytest.param(b":password", ["ann:ok", "bob:ok"], id="a colon in front"),
        pytest.param(b"bob:x\nann:password\nbob:guess\n", ["ann:ok"], id="a password for one"),
        pytest.param(b"eve:password\nkim:password\nguess\n", [], id="none"),
    ],
)
def test_known_passwords_are_tried_for_hashes_of_other_schemes(
    machine: Machine, lines: bytes, printed: list[str]
) -> None:
    fields = {"ann": YESCRYPT_OF_PASSWORD, "bob": BCRYPT_OF_PASSWORD}
    locked = {"eve": LOCKED + YESCRYPT_OF_PASSWORD, "joe": "*"}
    machine.set_accounts({**fields, **locked, "kim": OUTDATED, "tom": YESCRYPT})
    machine.write("list", lines)
    followed = machine.follow("known passwords by crypt")
    assert followed.lines == printed, followed.lacks(f"{printed}")
    assert followed.errors == "", followed.lacks("no messages")


# ---- Which of several passwords a hash was made of

WITH_BLANKS = " Grüße  ".encode()
MAILED = "> ann:" + OUTDATED[:30] + "\r\n> " + OUTDATED[30:] + "\r\n"  # "password", in a reply
# libxcrypt's hash of WITH_BLANKS.
OF_BLANKS = "$5$rounds=1000$ab$CO8mk19wbVF0HsT3kiAX8JjF4IZstDGTxTocwskVGy."


@pytest.mark.parametrize(
    ("stored", "candidates", "matching"),
    [
        pytest.param(OUTDATED + "\n", b"guess\npassword\n\nother\n", b"password\n", id="one"),
        pytest.param(OUTDATED, b"guess\npassword", b"password\n", id="no line feeds at the ends"),
        pytest.param(MAILED, b"passwor\npassword\nPassword\n", b"password\n", id="from a mail"),
        pytest.param(
            OF_BLANKS, b"Gr\\n\n" + WITH_BLANKS + b"\nx\n", WITH_BLANKS + b"\n", id="blanks"
        ),
        pytest.param(OUTDATED, b"guess\n-n\n%s\n", b"", id="none"),
    ],
)
def test_the_password_of_a_hash_is_found_among_several(
    machine: Machine, stored: str, candidates: bytes, matching: bytes
) -> None:
    machine.write("hash", stored.encode("ascii"))
    machine.write("candidates", candidates)
    followed = machine.follow("one of several")
    assert followed.result.stdout == matching, followed.lacks(f"{matching!r} printed")
    assert followed.errors == "", followed.lacks("no messages")


def test_a_hash_that_cannot_be_checked_is_reported_while_several_passwords_are_tried(
    machine: Machine,
) -> None:
    machine.write("hash", YESCRYPT_OF_PASSWORD.encode("ascii"))
    machine.write("candidates", b"guess\npassword\n")
    followed = machine.follow("one of several")
    assert followed.result.stdout == b"", followed.lacks("no password")
    assert "a hash of yescrypt" in followed.errors, followed.lacks("a message about the hash")


# ---- Audits

AUDITED = {
    **ACCOUNTS,
    "amy": "",
    "joe": LOCKED,
    "max": LOCKED + LOCKED + OVER_BUDGET,
    "sam": MALFORMED,
    "tom": YESCRYPT,
}
# The rows of an audit for some accounts of AUDITED.
ROWS_THAT_NEED_CARE = {
    "ann": "ann sha256crypt 1000 outdated",
    "eve": "eve sha256crypt 1000 outdated",
    "amy": "amy no password",
    "sam": "sam malformed above ceiling",
    "zoe": "zoe sha512crypt 999999999 over budget",
}
ROWS_THAT_NEED_NONE = {
    "kim": "kim sha512crypt 656000 current",
    "tom": "tom yescrypt unknown",
}


def lines_of_accounts(followed: Followed) -> set[str]:
    """Returns an audit's rows for accounts, without its heading and summary."""
    return {line for line in followed.lines if line.partition(" ")[0] in AUDITED}


def test_an_audit_has_a_row_for_each_account(machine: Machine) -> None:
    machine.set_accounts(AUDITED)
    followed = machine.follow("audits")
    expected = {*ROWS_THAT_NEED_CARE.values(), *ROWS_THAT_NEED_NONE.values()}
    absent = expected - lines_of_accounts(followed)
    assert not absent, followed.lacks(f"also these lines: {sorted(absent)}")


def test_cron_mails_the_accounts_that_need_care_and_no_others(machine: Machine) -> None:
    machine.set_accounts(AUDITED)
    followed = machine.follow("audit by cron", "text")
    expected = set(ROWS_THAT_NEED_CARE.values())
    assert lines_of_accounts(followed) == expected, followed.lacks(f"{sorted(expected)}")


def test_cron_mails_nothing_if_no_account_needs_care(machine: Machine) -> None:
    machine.set_accounts({"joe": "*", "kim": CURRENT, "tom": YESCRYPT})
    followed = machine.follow("audit by cron", "text")
    assert followed.result.status == 0, followed.lacks("status 0")
    assert followed.result.stdout + followed.result.stderr == b"", followed.lacks("nothing printed")


@dataclass(frozen=True)
class DailyAudit:
    """The job that audits and checks, and prints only what has changed."""

    machine: Machine

    def run(self) -> Followed:
        """Runs the command of the recipe's file for cron."""
        line = marked("audit of changes by cron", "text").code.splitlines()[-1]
        result = run("sh", "-c", SCHEDULE.sub("", line), env=self.machine.environment)
        return Followed(marked("audit of changes", "sh"), result)


@pytest.fixture(name="daily")
def fixture_daily(machine: Machine) -> DailyAudit:
    machine.set_accounts({"ann": CURRENT, "kim": CURRENT})
    machine.write("leaked", b"ann:guess\n")
    script = marked("audit of changes", "sh").code
    script = script.replace("/var/local/password-audit", shlex.quote(f"{machine.folder}/state"))
    script = script.replace("/root/leaked", shlex.quote(f"{machine.folder}/leaked"))
    script = script.replace("/etc/shadow", shlex.quote(str(machine.shadow)))
    save_command(machine.folder.parent / "bin/password-audit", script)
    return DailyAudit(machine)


def assert_silent(ended: Followed) -> None:
    assert ended.result.status == 0, ended.lacks("status 0")
    assert ended.result.stdout + ended.result.stderr == b"", ended.lacks("nothing printed")


def test_the_daily_audit_prints_nothing_if_all_is_well(daily: DailyAudit) -> None:
    assert_silent(daily.run())
    assert (daily.machine.folder / "state/last-success").exists()


def test_the_daily_audit_prints_a_finding_once(daily: DailyAudit) -> None:
    daily.machine.set_accounts({"ann": CURRENT, "kim": OUTDATED})
    daily.machine.write("leaked", b"ann:password\nkim:guess\n")
    ended = daily.run()
    assert "ann:ok" in ended.lines, ended.lacks("the account with a leaked password")
    is_named = "kim sha256crypt 1000 outdated" in ended.lines
    assert is_named, ended.lacks("the account with an outdated hash")
    assert_silent(daily.run())
    assert (daily.machine.folder / "leaked").exists()


def test_the_daily_audit_prints_that_nothing_is_found_any_more(daily: DailyAudit) -> None:
    daily.machine.set_accounts({"ann": CURRENT, "kim": OUTDATED})
    daily.run()
    daily.machine.set_accounts({"ann": CURRENT, "kim": CURRENT})
    ended = daily.run()
    assert ended.lines == ["password-audit: this is found now:"], ended.lacks("a heading alone")
    assert_silent(daily.run())


@pytest.mark.parametrize("absent", ["leaked", "shadow"])
def test_the_daily_audit_reports_a_part_that_fails_each_time(
    daily: DailyAudit, absent: str
) -> None:
    path = daily.machine.shadow if absent == "shadow" else daily.machine.folder / "leaked"
    path.unlink()
    for _ in range(2):
        ended = daily.run()
        assert ended.result.status == 2, ended.lacks("status 2")
        assert "password-audit: pwhash failed" in ended.errors, ended.lacks("a message")
    assert not (daily.machine.folder / "state/last-success").exists()


# ---- A disk that fills up at each command: no account gets a part of a hash

KIB_OF_PAGE = 4
PAGES_FOR_ALL = 8  # enough for all files that a recipe writes
USERS = [f"user{number}" for number in range(1, 61)]
# $0 is the size of the disk, $1 the recipe. Prints the file that the recipe makes for a service.
ON_SMALL_DISK = """\
set -e
mount -t tmpfs -o size=$0k,mode=755 none full
cd full
ln -s ../passwords ../list .
set +e
sh -c "$1"
cat at.passwords 2> /dev/null
"""


@dataclass(frozen=True)
class Recipe:
    """Blocks that are followed in turn."""

    marks: tuple[str, ...]

    def __str__(self) -> str:
        return " and ".join(self.marks)

    def commands(self, shadow: Path) -> str:
        """Returns the commands, with a shell for each block and cheap hashes.

        A service's file is on the small disk.
        """
        blocks = "".join(f"({marked(mark, 'sh').code})\n" for mark in self.marks)
        blocks = re.sub(r"pwhash (file|check)", r"pwhash \1 -R 1000", blocks)
        blocks = re.sub(r" /etc/nginx/", " at.", blocks)
        return re.sub(r" /etc/shadow\b", f" {shlex.quote(str(shadow))}", blocks)


RECIPES = [
    Recipe(("new passwords",)),
    Recipe(("good lines",)),
    Recipe(("another method",)),
    Recipe(("hashes for services", "nginx")),
]


@dataclass(frozen=True)
class OnSmallDisk:
    """A recipe that was followed on a small disk, and all fields after it.

    The fields include those in a service's file.
    """

    recipe: Recipe
    result: Result
    fields: list[str]

    @property
    def new(self) -> list[str]:
        """The fields that have changed."""
        return [field for field in self.fields if field != OUTDATED]

    def lacks(self, expected: str) -> str:
        """Returns the message of an assertion: what was expected instead of this result."""
        places = ", ".join(str(marked(mark, "sh").place) for mark in self.recipe.marks)
        return f"{places}\nexpected: {expected}\nnew fields: {self.new}\n{self.result}"


def follow_on_small_disk(machine: Machine, recipe: Recipe, pages: int) -> OnSmallDisk:
    """Follows a recipe whose own files are on a disk with this many pages."""
    machine.set_accounts({user: OUTDATED for user in USERS})
    lines = "".join(f"{user}:password\n" for user in USERS).encode()
    machine.write("passwords", lines)
    machine.write("list", lines)
    (machine.folder / "full").mkdir()
    in_namespace = ("unshare", "--mount", "sh", "-c", ON_SMALL_DISK)
    words = (KIB_OF_PAGE * pages, recipe.commands(machine.shadow))
    result = run(*in_namespace, *words, env=machine.environment, cwd=machine.folder)
    files = machine.shadow.read_text(encoding="ascii") + result.stdout.decode()
    fields = re.findall(r"^user\d+:([^:\n]*)", files, re.MULTILINE)
    return OnSmallDisk(recipe, result, fields)


@pytest.mark.needs("namespaces")
@pytest.mark.parametrize("pages", range(1, PAGES_FOR_ALL), ids="{} pages".format)
@pytest.mark.parametrize("recipe", RECIPES, ids=str)
def test_a_full_disk_leaves_complete_hashes(machine: Machine, recipe: Recipe, pages: int) -> None:
    followed = follow_on_small_disk(machine, recipe, pages)
    incomplete = [field for field in followed.new if not is_hash_of(field, "password")]
    assert incomplete == [], followed.lacks("each field is the old hash, or a complete new one")


@pytest.mark.needs("namespaces")
@pytest.mark.parametrize("recipe", RECIPES, ids=str)
def test_a_small_disk_with_enough_space_gets_all_hashes(machine: Machine, recipe: Recipe) -> None:
    followed = follow_on_small_disk(machine, recipe, PAGES_FOR_ALL)
    complete = [field for field in followed.new if is_hash_of(field, "password")]
    assert len(complete) == len(USERS), followed.lacks("a new hash for each user")

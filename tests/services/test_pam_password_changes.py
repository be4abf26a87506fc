"""pam_mkpasswd.so with pamtester: changes of passwords, and their messages and log entries."""
from __future__ import annotations

import re
import time
from pathlib import Path

import pytest
from support.documents import marked
from support.libxcrypt import crypt
from support.pam import MODULES, Answer, Login, Pam, failure_of, stacks_of_manual
from support.pam_fields import FILE, PASSWORD, SHA512, WRONG
from support.process import run

pytestmark = [pytest.mark.needs("namespaces", "pamtester"), pytest.mark.xdist_group("pam")]

ARGUMENTS = f"file={FILE} rounds=1000 budget=1000000"
NEW = b"another password"
WITH_OLD = "chauthtok(PAM_CHANGE_EXPIRED_AUTHTOK)"  # asks even root for the old password
BEFORE = b"one:x\n"
BEHIND = b":19000:\0\nann:!\nno line"
CONTENT = BEFORE + b"ann:" + SHA512 + BEHIND
CHANGED = re.compile(re.escape(BEFORE) + rb"ann:(\$6\$rounds=1000\$[^:]*)" + re.escape(BEHIND))
PWQUALITY = f"{MODULES}/pam_pwquality.so"
OTHER_USER = ("setpriv", "--reuid=4242", "--regid=4242", "--clear-groups")


@pytest.fixture(autouse=True)
def _file(pam: Pam) -> None:
    """Writes a file with Ann's line among others."""
    pam.machine.write(FILE, CONTENT, 0o600)
    pam.set_arguments(ARGUMENTS)


def assert_changed(pam: Pam, password: bytes) -> None:
    """Fails the test unless only Ann's field has changed, to a hash of the password."""
    content = pam.machine.read(FILE)
    found = CHANGED.fullmatch(content)
    assert found and crypt(password, found[1]) == found[1], content


def test_a_user_can_change_the_password(pam: Pam) -> None:
    call = pam.call("ann", WITH_OLD, PASSWORD, NEW, NEW)
    assert call == Login(Answer.ACCEPTED, ("password changed for ann",))
    assert_changed(pam, NEW)


def test_root_can_set_a_password_without_the_old_one(pam: Pam) -> None:
    call = pam.call("ann", "chauthtok", NEW, NEW)
    assert call == Login(Answer.ACCEPTED, ("password changed for ann",))
    assert_changed(pam, NEW)


def test_the_new_password_is_accepted_and_the_old_one_refused(pam: Pam) -> None:
    pam.call("ann", WITH_OLD, PASSWORD, NEW, NEW)
    answers = [pam.login("ann", password).answer for password in (NEW, PASSWORD)]
    assert answers == [Answer.ACCEPTED, Answer.REFUSED]


@pytest.mark.parametrize(
    "lines",
    [
        pytest.param((WRONG, NEW, NEW), id="a wrong old password"),
        pytest.param((PASSWORD, NEW, WRONG), id="two new passwords"),
        pytest.param((PASSWORD, b"", b""), id="an empty new password"),
        pytest.param((PASSWORD, b"a" * 1000, b"a" * 1000), id="a new one over the budget"),
    ],
)
def test_a_refused_change_leaves_the_file(pam: Pam, lines: tuple[bytes, ...]) -> None:
    assert pam.call("ann", WITH_OLD, *lines).answer is not Answer.ACCEPTED
    assert pam.machine.read(FILE) == CONTENT


def test_a_wrong_old_password_is_logged_like_a_failed_login(pam: Pam) -> None:
    call = pam.call("ann", WITH_OLD, WRONG)
    assert call == Login(Answer.REFUSED, (failure_of("ann"),))


def messages_of_change(
    pam: Pam, operation: str, *lines: bytes, through: tuple[str, ...] = ()
) -> str:
    """Changes Ann's password, and returns what the user sees."""
    pam.log.entries()
    stdin = b"".join(line + b"\n" for line in lines)
    result = pam.machine.run(*through, "pamtester", "example", "ann", operation, stdin=stdin)
    return (result.stdout + result.stderr).decode()


def test_the_prompts_are_pams_usual_ones(pam: Pam) -> None:
    messages = messages_of_change(pam, WITH_OLD, PASSWORD, NEW, NEW)
    assert "Current password: New password: Retype new password: " in messages


def test_a_message_asks_the_user_to_supply_a_password(pam: Pam) -> None:
    assert "No password has been supplied." in messages_of_change(pam, "chauthtok", b"", b"")


def test_a_silent_service_shows_no_message(pam: Pam) -> None:
    messages = messages_of_change(pam, "chauthtok(PAM_SILENT)", b"", b"")
    assert "No password has been supplied." not in messages


def test_a_message_asks_the_user_to_try_again_if_the_lock_is_held_for_a_second(pam: Pam) -> None:
    lock = f"{FILE}.mkpasswd.lock"
    words = ["pamtester", "example", "ann", "chauthtok"]
    begin = time.monotonic()
    result = pam.machine.run("flock", lock, *words, stdin=NEW + b"\n" + NEW + b"\n")
    messages = (result.stdout + result.stderr).decode()
    assert "The password file is in use. Please try again." in messages, result
    assert time.monotonic() - begin > 0.9  # 50 tries, with 49 pauses of 20 ms
    assert pam.machine.read(FILE) == CONTENT


def test_a_service_that_cannot_write_says_so_before_it_prompts(pam: Pam) -> None:
    pam.machine.path(FILE).chmod(0o644)
    messages = messages_of_change(pam, "chauthtok", PASSWORD, NEW, NEW, through=OTHER_USER)
    assert "This service can't change passwords." in messages
    assert "Current password" not in messages
    assert pam.log.entries() == (f"{FILE}: passwords can't be changed: Permission denied",)


def test_a_service_of_the_files_owner_can_change_passwords(pam: Pam) -> None:
    folder = "/srv/owned"
    pam.machine.make_folder(folder)
    pam.machine.write(f"{folder}/passwords", b"ann:" + SHA512 + b"\n", 0o600)
    pam.set_arguments(ARGUMENTS.replace(FILE, f"{folder}/passwords"))
    pam.machine.run("chown", "-R", "4242:4242", folder).required()
    # Root changes the password first, which creates the lock.
    assert pam.call("ann", "chauthtok", WRONG, WRONG).answer is Answer.ACCEPTED
    call = pam.call("ann", "chauthtok", WRONG, NEW, NEW, through=OTHER_USER)
    assert call.answer is Answer.ACCEPTED, call.log
    assert pam.login("ann", NEW).answer is Answer.ACCEPTED


@pytest.mark.needs(PWQUALITY)
@pytest.mark.parametrize(
    ("new", "answer"),
    [
        pytest.param(b"short", Answer.NOT_CHANGED, id="a weak password"),
        pytest.param(b"Tr0ub4dor&3-correct-horse", Answer.ACCEPTED, id="a strong one"),
    ],
)
def test_pam_pwquality_may_refuse_a_password(pam: Pam, new: bytes, answer: Answer) -> None:
    stack = stacks_of_manual().with_pwquality.replace("/etc/example.passwords", FILE)
    # Debian has the dictionary in a separate package.
    stack = stack.replace("retry=3", "retry=1 dictcheck=0 enforce_for_root")
    pam.set_stack(stack)
    call = pam.call("ann", WITH_OLD, PASSWORD, new, new)
    assert call.answer is answer, call
    if answer is Answer.NOT_CHANGED:
        assert pam.machine.read(FILE) == CONTENT


@pytest.mark.needs("cc", "/usr/include/security/pam_modules.h")
def test_the_program_of_the_guide_changes_a_password(pam: Pam, tmp_path: Path) -> None:
    source, program = tmp_path / "change-password.c", tmp_path / "change-password"
    source.write_text(marked("change of password", "c").code, "ascii")
    warnings = ["-Wall", "-Wextra", "-Werror"]
    run("cc", *warnings, "-o", program, source, "-lpam", "-lpam_misc").required()
    typed = b"\n".join((PASSWORD, NEW, NEW)) + b"\n"
    pam.machine.run(program, "ann", stdin=typed).required()
    assert_changed(pam, NEW)
    assert pam.machine.run(program, "ann", stdin=typed).status == 1  # PASSWORD is wrong now

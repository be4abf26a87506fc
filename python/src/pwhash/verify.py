"""pwhash verify: says whether a password matches a stored hash.

It says yes or no only for a whole hash that could match. For any other field it ends with an error,
so that no script mistakes that for a wrong password.
"""

from __future__ import annotations

import os
import unicodedata
from typing import NamedTuple, Optional

from mkpasswd import State

from pwhash import library
from pwhash.console import STDIN, STDOUT, Console
from pwhash.errors import UsageError
from pwhash.field import ENCODED, is_encoded, without_prefix
from pwhash.library import OVER_BUDGET, Refusal, Verdict
from pwhash.lines import BYTE_ORDER_MARK
from pwhash.options import VerifyOptions
from pwhash.password_file import CARRIAGE_RETURN
from pwhash.pasted import PASSWORD_PROMPT, ask_for_both, has_hash, piped_both
from pwhash.piped import PipedLines
from pwhash.prompt import ask_each, with_hidden_input
from pwhash.session import Session
from pwhash.shown_names import shown_line
from pwhash.stored import Stored, stored_in
from pwhash.text import DECOMPOSED, display_name, encoding_hint, is_utf8, is_visible
from pwhash.workers import run_in_thread

MATCHES = b"yes, the password matches"
DIFFERS = b"no, the password doesn't match"
GIVE_IT_ALONE = " Give the hash alone, or its line in a password file, as it is there."
STATE_PROBLEMS = {
    State.DEAD: "cut or changed, so no password matches",
    State.LOCKED: "locked, so no password logs in",
    State.NONE: "empty: there is no hash to compare a password with",
    State.NO_SCHEME: "no hash, but a password that was stored as it is, or a damaged hash",
}


class Attempt(NamedTuple):
    """A password, and the stored hash to compare it with."""

    password: bytes
    stored: bytes
    whose: str  # the beginning of a sentence about the hash


def run(options: VerifyOptions, session: Session) -> bool:
    """Compares a password with a hash. Returns whether it doesn't match."""
    console = session.console
    attempt = (
        ask_for_password(options, console) if options.path else ask_for_password_and_hash(console)
    )
    verdict = run_in_thread(
        lambda: library.verify(attempt.password, attempt.stored, options.budget)
    )
    if isinstance(verdict, Refusal):
        raise refusal_error(verdict, attempt.whose)
    if verdict is Verdict.MATCH:
        console.write_lines(STDOUT, [MATCHES])
        return False
    if verdict is not Verdict.WRONG:
        raise UsageError(f"{attempt.whose}: {verdict.name.lower()}, so nothing is compared.")
    console.write_lines(STDOUT, [DIFFERS])
    warn_about_bytes(attempt.password, console)
    return True


def ask_for_password(options: VerifyOptions, console: Console) -> Attempt:
    """Finds the hash of a name in a file, and asks for the password if they can be compared."""
    line = find_only_line(options, console)
    whose = shown_line(display_name(options.path), line.number, line.name)
    stored = whole_hash(line.field, whose)
    if os.isatty(STDIN):
        [password] = ask_each(PASSWORD_PROMPT)
    else:
        lines = PipedLines(console)
        password = lines.password()
        lines.warn_about_extra_lines("the password")
    return Attempt(password, stored, whose)


def ask_for_password_and_hash(console: Console) -> Attempt:
    """Asks for a password and a hash."""
    both = with_hidden_input(ask_for_both) if os.isatty(STDIN) else piped_both(console)
    if has_hash(both.password) and not has_hash(both.field):
        raise UsageError(
            "there is a hash in the place of the password, and none in its own. Give the password "
            "first, then the hash."
        )
    whose = "the hash"
    return Attempt(both.password, whole_hash(both.field, whose, GIVE_IT_ALONE), whose)


def find_only_line(options: VerifyOptions, console: Console) -> Stored:
    """Returns the line of a name. Refuses a name with several lines, or with none."""
    name = os.fsencode(options.name)
    found = [each for each in stored_in(options.path, console) if each.name == name]
    file = display_name(options.path)
    if not found:
        raise UsageError(f"{file} has no line of this name.{encoding_hint(name)}")
    if len(found) > 1:
        numbers = ", ".join(str(each.number) for each in found[:3])
        raise UsageError(
            f"{file} has this name more than once (lines {numbers}), and programs differ in "
            "which they take. Remove the wrong ones."
        )
    if found[0].field.endswith(b"\r"):
        raise UsageError(f"{file}, line {found[0].number}: {CARRIAGE_RETURN}.")
    return found[0]


def whole_hash(field: bytes, whose: str, advice: str = "") -> bytes:
    """Returns the hash in a field, without a prefix. Refuses what can't be compared.

    The advice is for a field that has no hash.
    """
    stored = without_prefix(field)
    about = describe_problem(stored)
    if about == STATE_PROBLEMS[State.NO_SCHEME]:
        raise UsageError(f"{whose}: {about}.{advice}")
    if about is not None:
        raise UsageError(f"{whose}: {about}.")
    return stored


def describe_problem(stored: bytes) -> Optional[str]:
    """Says why no password can be compared with a stored field, or returns None."""
    if is_encoded(stored):
        return ENCODED
    found = library.describe(stored)
    if found.state is State.UNKNOWN or stored.startswith(b"{"):
        return f"a hash of {found.scheme or 'another scheme'}, which pwhash can't check"
    if found.state is State.MALFORMED:
        reason = found.reason.message if found.reason else "unknown"
        return f"malformed ({reason}), so no password matches"
    return STATE_PROBLEMS.get(found.state)


def refusal_error(refusal: Refusal, whose: str) -> UsageError:
    """Returns the error for a password that wasn't compared."""
    if refusal == OVER_BUDGET:
        return UsageError(
            f"{whose}: {refusal.message}, since it costs more than a login may. If you trust it, "
            "give the -m and -R that it was made with, or a greater --budget."
        )
    return UsageError(f"{refusal.message}: no hash can have this password.")


def warn_about_bytes(password: bytes, console: Console) -> None:
    """Says why a password that seems right may differ in its bytes."""
    text = password.decode(errors="replace")
    if b"\r" in password or BYTE_ORDER_MARK in password:
        console.say(
            "the password has a carriage return or a byte order mark in it, as files of Windows do."
        )
    elif text != text.strip():
        console.say("the password begins or ends with a blank.")
    elif not is_visible(text):
        console.say("the password has a control character or an invisible one in it.")
    elif not is_utf8(password):
        console.say("the password isn't UTF-8, as most programs send it.")
    elif not unicodedata.is_normalized("NFC", text):
        console.say(f"the password has {DECOMPOSED}.")
    elif not text.isascii():
        console.say(
            "the password has letters outside ASCII, here in UTF-8. Programs that use another "
            "encoding, such as Windows-1252, make another hash of it."
        )

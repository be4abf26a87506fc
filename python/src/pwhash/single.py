"""pwhash without a command: hashes one password."""

from __future__ import annotations

import os
import string
import time

from pwhash import library
from pwhash.console import STDOUT, Console
from pwhash.errors import Stop, UsageError
from pwhash.library import OVER_BUDGET, Policy, Refusal
from pwhash.new_password import read_new_password
from pwhash.options import GENERATED_LENGTH, SingleOptions
from pwhash.session import Session
from pwhash.workers import run_in_thread

LOOK_ALIKES = "0O1lI"  # on paper
CHARACTERS = [each for each in string.ascii_letters + string.digits if each not in LOOK_ALIKES]
SECONDS_OF_DAY = 86400


def run(options: SingleOptions, session: Session) -> bool:
    """Hashes one password: asks for it, reads it from standard input, or generates it."""
    console = session.console
    if options.generate:
        password = generated(options.policy, console)
    else:
        password = read_new_password(options.policy, options.accepts_doubtful, console)
    new_hash = run_in_thread(lambda: library.new_hash(options.policy, password))
    if isinstance(new_hash, Refusal):
        raise refusal_error(new_hash, options.policy)
    day = int(time.time() // SECONDS_OF_DAY)
    text = options.form.value.format(name=options.name, hash=new_hash.decode("ascii"), day=day)
    console.end_last_line(STDOUT)
    console.write_lines(STDOUT, [text.encode()])
    return False


def refusal_error(refusal: Refusal, policy: Policy) -> UsageError:
    """Returns the error for a password that can't be hashed."""
    if refusal == OVER_BUDGET:
        return UsageError(f"{OVER_BUDGET.message}: {library.describe_length_limit(policy)}.")
    return UsageError(f"{refusal.message}. Give a password of at most 1,024 bytes, none of them 0.")


def generated(policy: Policy, console: Console) -> bytes:
    """Makes a new password, and shows it once on the terminal."""
    if library.is_over_budget(policy, GENERATED_LENGTH):
        raise refusal_error(OVER_BUDGET, policy)
    password = "".join(random_letter_or_digit() for _ in range(GENERATED_LENGTH))
    if not console.write_to_terminal(f"The password, shown only here: {password}\n"):
        raise Stop("--generate shows the password on the terminal, and there is none.")
    return password.encode("ascii")


def random_letter_or_digit() -> str:
    """Returns a letter or digit, each equally likely. The module secrets is slow to import."""
    while True:
        number = os.urandom(1)[0] & 63  # below 64, so that few numbers are drawn in vain
        if number < len(CHARACTERS):
            return CHARACTERS[number]

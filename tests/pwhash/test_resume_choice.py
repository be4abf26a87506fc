"""pwhash resumes a part only with the options that decided which lines its run skipped."""
from __future__ import annotations

import os
from pathlib import Path
import signal

import pytest
from support.pwhash_runs import PWHASH, SLOW, SLOW_COUNT, go_on, halted, pwhash, read, save, users

WORDS = ("file", *SLOW, "list", "-o", "hashes")


@pytest.fixture(autouse=True, name="saved_list")
def fixture_saved_list(folder: Path) -> None:
    """A list in the scratch folder, with two lines to skip."""
    del folder  # it is the current folder
    save("list", users(SLOW_COUNT) + b"no colon\ndan: x\n")


def interrupt(*choice: str) -> None:
    """Runs pwhash until a signal ends it halfway."""
    with halted(PWHASH, *WORDS, *choice) as process:
        process.send_signal(signal.SIGTERM)
        done = go_on(process)
    assert done.status == -signal.SIGTERM, done


SKIPPED = ("--skip-refused", "--skip-doubtful")


@pytest.mark.parametrize(
    ("choice", "difference"),
    [
        pytest.param(
            ("--skip-refused", "--accept-doubtful"),
            b"with --skip-doubtful, without --accept-doubtful",
            id="doubtful lines accepted",
        ),
        pytest.param(
            (*SKIPPED, "--budget", "1300000000"),
            b"with another -m, -R or --budget",
            id="another budget",
        ),
        pytest.param((*SKIPPED, "--for", "dovecot"), b"without --for=dovecot", id="a service"),
        pytest.param(
            (*SKIPPED, "--skip-locked", "shadow"), b"without --skip-locked", id="locked names"
        ),
    ],
)
def test_other_options_do_not_resume_a_part(choice: tuple[str, ...], difference: bytes) -> None:
    """The message names just the options that differ."""
    save("shadow", b"eve:!$1$x$y:1::::::\n")
    interrupt(*SKIPPED)
    part = read("hashes.part")
    done = pwhash(*WORDS, *choice, "--resume")
    assert (done.status, read("hashes.part")) == (2, part), done
    assert b"started " + difference + b", so other lines" in done.err, done
    assert not os.path.exists("hashes"), done


def test_forgotten_rounds_are_named() -> None:
    """The budget differs too, since it follows from -m and -R. Nothing else is named."""
    interrupt(*SKIPPED)
    done = pwhash("file", "-S", "saltsalt", "list", "-o", "hashes", *SKIPPED, "--resume")
    assert done.status == 2 and b"with another -m, -R or --budget, so" in done.err, done


def test_the_same_options_resume_a_part() -> None:
    interrupt(*SKIPPED)
    done = pwhash(*WORDS, *reversed(SKIPPED), "--resume")
    assert done.status == 1 and read("hashes").count(b"\n") == SLOW_COUNT, done
    assert sorted(os.listdir()) == ["hashes", "list"], done

"""pwhash runs with each Python from 3.8 on, and says that older ones are too old."""
from __future__ import annotations

from collections.abc import Iterator
from pathlib import Path

import pytest
from support.interpreters import OLDEST, Interpreter, interpreters
from support.process import Result, Word
from support.pwhash_copies import Copy, copied
from support.pwhash_runs import MD5, MD5CRYPT, PWHASH, save

INTERPRETERS = tuple(interpreters())
ANN = f"ann:{MD5}\n".encode()


@pytest.fixture(scope="module", name="copy")
def fixture_copy(program: Path) -> Iterator[Copy]:
    """A copy of pwhash, whose modules each Python compiles once."""
    with copied(program) as copy:
        yield copy


def run_with(python: Interpreter, copy: Copy, *words: Word, stdin: bytes = b"") -> Result:
    """Runs a copy of pwhash whose script names this Python instead of the system's."""
    text = Path(PWHASH).read_text(encoding="utf-8")
    assert "/usr/bin/python3" in text
    copy.pwhash.write_text(text.replace("/usr/bin/python3", python.path), encoding="utf-8")
    return copy.run(*words, stdin=stdin)


@pytest.mark.parametrize("python", [each for each in INTERPRETERS if each.minor >= OLDEST], ids=str)
@pytest.mark.parametrize(
    ("words", "stdin", "printed"),
    [
        pytest.param(MD5CRYPT, b"password\n", f"{MD5}\n".encode(), id="one"),
        pytest.param(("file", *MD5CRYPT), b"ann:password\n", ANN, id="file"),
        pytest.param(
            ("file", "--csv", *MD5CRYPT), b"name,password\nann,password\n", ANN, id="a table"
        ),
        pytest.param(("check", "--shadow", "shadow"), b"password\n", b"ann:ok\n", id="check"),
        pytest.param(("audit", "--only-problems", "-"), b"ann:!\n", b"", id="audit"),
        pytest.param(("set", "--quiet", *MD5CRYPT, "shadow", "bob"), b"password\n", b"", id="set"),
        pytest.param(("install", "--quiet", "shadow", "new"), b"", b"", id="install"),
    ],
)
def test_each_python_runs_pwhash(
    python: Interpreter, words: tuple[str, ...], stdin: bytes, printed: bytes, copy: Copy
) -> None:
    save("shadow", ANN)
    done = run_with(python, copy, *words, stdin=stdin)
    assert (done.status, done.stdout, done.stderr) == (0, printed, b""), done


@pytest.mark.parametrize("python", [each for each in INTERPRETERS if each.minor < OLDEST], ids=str)
def test_an_older_python_is_named(python: Interpreter, copy: Copy) -> None:
    done = run_with(python, copy, *MD5CRYPT, stdin=b"password\n")
    assert (done.status, done.stdout) == (3, b""), done
    assert python.path.encode() in done.stderr and b"3.8" in done.stderr, done
    assert b"Traceback" not in done.stderr, done

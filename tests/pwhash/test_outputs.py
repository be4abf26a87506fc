"""Outputs that are closed or full, or that nobody reads."""
from __future__ import annotations

import os
import signal

import pytest
from support.pwhash_runs import MD5CRYPT, hashed, in_namespace, read, save, shell, started, users


@pytest.mark.parametrize(
    ("words", "lines"),
    [
        pytest.param(("file", *MD5CRYPT), users(3000), id="file"),
        pytest.param(("check",), b"ann:!:x\n" * 200000, id="check"),
        pytest.param(("audit", "-"), b"ann:!:x\n" * 200000, id="audit"),
        pytest.param(("audit", "--json", "-"), b"ann:!:x\n" * 200000, id="audit in JSON"),
        pytest.param(("--help",), b"", id="help"),
        pytest.param(MD5CRYPT, b"password\n", id="one"),
    ],
)
def test_a_reader_that_stops_ends_the_run_quietly(words: tuple[str, ...], lines: bytes) -> None:
    save("lines", lines)
    with open("lines", "rb") as source, started(*words, stdin=source) as process:
        assert process.stdout and process.stderr
        process.stdout.close()
        errors = process.stderr.read()
    ending = (process.returncode, errors)
    assert ending == (-signal.SIGPIPE, b""), (words, ending)


@pytest.mark.parametrize(
    "redirected",
    [
        pytest.param(
            '{ "$@" 2>&1; echo $? > status; } | :', id="both outputs into a pipe that ends"
        ),
        pytest.param(
            '{ "$@" 2>&1 >&3 3>&-; echo $? > status; } 3>&1 | :', id="errors into a pipe that ends"
        ),
        pytest.param('"$@" 2>&-; echo $? > status', id="errors closed"),
        pytest.param('"$@" 2> /dev/full; echo $? > status', id="errors to a full device"),
    ],
)
def test_no_out_is_lost_because_of_standard_error(redirected: str) -> None:
    """A run whose result is a file continues even if nobody reads its messages."""
    save("passwords", users(50) + b"no colon\n" + users(50).replace(b"user", b"other"))
    # Until pwhash starts, the reader of its messages has ended.
    script = redirected.replace('"$@"', 'sleep 0.2; "$@"')
    done = shell(script, "file", *MD5CRYPT, "passwords", "-o", "hashes", "--skip-refused")
    assert read("status") == b"1\n" and read("hashes").count(b"\n") == 100, done
    assert not os.path.exists("hashes.part"), done


# ---- Unusable inputs and outputs

COMMANDS = pytest.mark.parametrize(
    "words",
    [
        pytest.param(("file", *MD5CRYPT), id="file"),
        pytest.param(("check",), id="check"),
        pytest.param(("audit", "-"), id="audit"),
        pytest.param((), id="one"),
    ],
)


@COMMANDS
@pytest.mark.parametrize(
    ("redirected", "message"),
    [
        pytest.param("> /dev/full", b"standard output", id="a full device as output"),
        pytest.param(">&-", b"", id="a closed output"),
        pytest.param("<&-", b"", id="a closed input"),
        pytest.param("< .", b"standard input is a folder", id="a folder as input"),
    ],
)
def test_an_unusable_input_or_output_is_a_failure(
    words: tuple[str, ...], redirected: str, message: bytes
) -> None:
    done = shell(f'exec "$@" {redirected}', *words, stdin=b"ann:!:x\n" * 3)
    assert done.status == 3 and done.err.startswith(b"pwhash: ") and message in done.err, done


@pytest.mark.parametrize(
    ("words", "status"),
    [
        pytest.param(("file", "--look"), 2, id="wrong use"),
        pytest.param(("file", "gone"), 3, id="a file that is gone"),
        pytest.param(("file",), 1, id="a refused line whose message is lost"),
    ],
)
def test_a_full_standard_error_does_not_change_the_status(
    words: tuple[str, ...], status: int
) -> None:
    done = shell('exec "$@" 2> /dev/full', *words, stdin=b"no colon\n")
    assert done.status == status, done


@pytest.mark.needs("namespaces")
def test_a_run_on_a_full_disk_resumes_once_there_is_space() -> None:
    lines = save("lines", users(1000))
    script = """
        mkdir full
        mount -t tmpfs -o size=16k none full
        "$@" 2> errors || echo status $?
        mount -o remount,size=1m full
        sh -c "$(tail -n 1 errors)"
        cat full/out
    """
    done = in_namespace(script, "file", *MD5CRYPT, lines, "-o", "full/out")
    numbers = range(1000)
    hashes = [b"user%d:%b\n" % (number, hashed(b"password%d" % number)) for number in numbers]
    assert done.out == b"status 3\n" + b"".join(hashes), done

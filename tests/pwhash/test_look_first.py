"""pwhash looks at all lines of a file before it hashes any. The user decides about bad ones."""
from __future__ import annotations

import os
import stat

import pytest
from support.pwhash_runs import MD5CRYPT, Ended, lines_named_in, pwhash, read, save

WORDS = ("file", "-m", "sha512crypt", "-R", "20k", "-S", "saltsalt", "--budget", "3000000")
TO_OUT = (*WORDS, "lines", "-o", "out")
LINES = [
    b"ann:x",
    b"bob:",
    b":secret",
    b"nameless secret",
    b"carl:x\r",
    b"ann:y",
    b" \xff:z",
    b"long:" + b"p" * 300,
]


def looked_at() -> Ended:
    """Saves LINES, and runs pwhash on them with no option that decides about problems."""
    save("lines", b"\n".join(LINES) + b"\n")
    return pwhash(*TO_OUT)


def names_in_out() -> list[bytes]:
    return [line.split(b":")[0] for line in read("out").splitlines()]


def test_a_file_with_refused_or_doubtful_lines_is_not_hashed() -> None:
    done = looked_at()
    assert (done.status, done.out) == (1, b"") and os.listdir() == ["lines"], done


@pytest.mark.parametrize(
    ("number", "reason"),
    [
        pytest.param(2, "empty", id="an empty password"),
        pytest.param(3, "no name", id="no name"),
        pytest.param(4, "no password field", id="no colon"),
        pytest.param(5, "carriage return", id="a carriage return"),
        pytest.param(6, "after line 1", id="a repeated name"),
        pytest.param(7, "UTF-8", id="a name that is not UTF-8"),
        pytest.param(8, "over budget", id="a password that costs too much"),
    ],
)
def test_each_refused_or_doubtful_line_is_named_with_its_reason(number: int, reason: str) -> None:
    messages = looked_at().err.decode().split("\n")
    assert any(f"line {number}:" in line and reason in line for line in messages), messages


def test_20_lines_with_the_same_problem_are_named() -> None:
    save("lines", b"nameless secret\n" * 21)
    done = pwhash(*TO_OUT)
    assert done.status == 1 and lines_named_in(done.err) == [*range(1, 21)], done
    assert b"21 with --skip-refused" in done.err, done


REFUSED, DOUBTFUL = "--skip-refused", "--skip-doubtful"
ACCEPT = "--accept-doubtful"


@pytest.mark.parametrize(
    ("lines", "words", "named"),
    [
        pytest.param(b"nameless\n", (), {f"(1 with {REFUSED})"}, id="refused"),
        pytest.param(b"eve:\n", (), {f"(1 with {DOUBTFUL})", ACCEPT}, id="doubtful"),
        pytest.param(b"nameless\n" * 30, (), {f"--look {REFUSED}."}, id="many refused"),
        pytest.param(b"eve:\n" * 30, (), {f"--look {DOUBTFUL}.", ACCEPT}, id="many doubtful"),
        pytest.param(
            *(b"nameless\neve:\n", (), {f"(1 with {REFUSED}, 1 with {DOUBTFUL})", ACCEPT}),
            id="both",
        ),
        pytest.param(
            *(b"nameless\neve:\n", (ACCEPT,), {f"(1 with {REFUSED})"}), id="doubtful and accepted"
        ),
    ],
)
def test_only_options_that_apply_are_named(
    lines: bytes, words: tuple[str, ...], named: set[str]
) -> None:
    save("lines", b"ann:x\n" + lines)
    done = pwhash(*TO_OUT, *words)
    said = done.err.decode()
    assert done.status == 1 and all(each in said for each in named), done
    for option in (REFUSED, DOUBTFUL, ACCEPT):
        assert (option in said) == any(option in each for each in named), done
    assert "(0 " not in said and " 0 " not in said, done


def test_a_run_does_not_say_what_could_be_done_after_it_was_done() -> None:
    save("lines", b"ann:x\nnameless\n")
    for words in (*WORDS, "lines"), TO_OUT:
        done = pwhash(*words, REFUSED)
        assert done.status == 1 and b"lines left out: 1" in done.err, done
        assert b"can be hashed" not in done.err, done
    done = pwhash(*WORDS, "lines", "--look", REFUSED)
    assert done.status == 1 and b"can be hashed" in done.err, done


def test_no_password_is_shown() -> None:
    done = looked_at()
    assert b"secret" not in done.err, done


@pytest.mark.parametrize("option", ["--skip-refused", "--accept-doubtful"])
def test_one_decision_is_not_enough_for_both_kinds_of_lines(option: str) -> None:
    looked_at()
    done = pwhash(*TO_OUT, option)
    assert done.status == 1 and not os.path.exists("out"), done


def test_accepted_lines_are_hashed_and_refused_ones_skipped() -> None:
    looked_at()
    done = pwhash(*TO_OUT, "--skip-refused", "--accept-doubtful")
    assert done.status == 1, done
    assert names_in_out() == [b"ann", b"bob", b"carl", b"ann", b" \xff"], done
    assert stat.S_IMODE(os.stat("out").st_mode) == 0o600


def test_doubtful_lines_can_be_skipped() -> None:
    looked_at()
    done = pwhash(*TO_OUT, "--skip-refused", "--skip-doubtful")
    assert done.status == 1 and names_in_out() == [b"ann"], done


def test_an_existing_out_stays() -> None:
    looked_at()
    save("out", b"somebody's\n")
    done = pwhash(*TO_OUT)
    assert done.status == 2 and b"already exists" in done.err, done
    assert read("out") == b"somebody's\n"


def test_the_option_look_has_the_status_of_a_run_and_hashes_nothing() -> None:
    looked_at()
    done = pwhash(*TO_OUT, "--look")
    assert done.status == 1 and not os.path.exists("out"), done


def test_the_option_look_prints_nothing_about_good_lines() -> None:
    done = pwhash("file", "--look", save("good", b"ann:x\n"), "-o", "out")
    assert (done.status, done.out, done.err) == (0, b"", b""), done
    assert not os.path.exists("out")


def test_a_pipe_cannot_be_looked_at_first() -> None:
    done = pwhash("file", "--look", stdin=b"ann:x\n")
    assert done.status == 2, done


# ---- Names that a service would take for others

SERVICES = [
    pytest.param("apache", " ann", id="a leading blank for Apache"),
    pytest.param("apache", "\tann", id="a leading tab for Apache"),
    pytest.param("apache", "#ann", id="a comment for Apache"),
    pytest.param("apache", "ann\0b", id="a zero byte for Apache"),
    pytest.param("nginx", "#ann", id="a comment for nginx"),
    pytest.param("dovecot", "Ann", id="a capital for Dovecot"),
    pytest.param("dovecot", "#a", id="a comment for Dovecot"),
    pytest.param("ldap", "Ann", id="a capital for LDAP"),
    pytest.param("ldap", " ann", id="a leading blank for LDAP"),
    pytest.param("ldap", "a,b", id="a comma for LDAP"),
    pytest.param("ldap", "ann ", id="a trailing blank for LDAP"),
]


@pytest.mark.parametrize(("service", "name"), SERVICES)
def test_a_name_that_a_service_would_misread_is_not_hashed(service: str, name: str) -> None:
    save("lines", name.encode() + b":x\n")
    done = pwhash("file", *MD5CRYPT, "--for", service, "lines", "-o", "out")
    assert done.status == 1 and b"service" in done.err and not os.path.exists("out"), done


@pytest.mark.parametrize("service", ["apache", "nginx", "dovecot", "ldap"])
def test_a_name_that_a_service_reads_right_gets_a_hash(service: str) -> None:
    save("lines", b"ann-1:x\n")
    done = pwhash("file", *MD5CRYPT, "--for", service, "lines", "-o", "out")
    assert done.status == 0 and names_in_out() == [b"ann-1"], done

"""A name in a message can't control the terminal, and is left out if it may be a secret."""
from __future__ import annotations

import os

import pytest
from support.pwhash_runs import ESCAPE, MD5, hashed, lines_named_in, pwhash, save


def name_commands() -> list[tuple[str, ...]]:
    """Returns commands whose messages contain a name."""
    name = f"a{ESCAPE}\nroot:ok"  # if it were printed, its second line would look like an answer
    return [
        ("file", name),
        ("check", name),
        ("audit", name),
        ("audit", f"there{ESCAPE}"),
        ("file", f"there{ESCAPE}", "--csv"),
        ("file", f"doubtful{ESCAPE}"),
        ("file", "passwords", "-o", f"there{ESCAPE}"),
        ("file", "passwords", "-o", f"nowhere{ESCAPE}/out"),
        ("file", "passwords", "-o", f"begun{ESCAPE}"),
        ("file", "passwords", "-o", f"begun{ESCAPE}", "--resume"),
        ("check", "--shadow", name, "passwords"),
        ("check", "--shadow", f"there{ESCAPE}", "passwords"),
        ("file", f"folder{ESCAPE}"),
        ("file", ESCAPE, ESCAPE),
        ("-m", ESCAPE),
        ("-R", ESCAPE),
        ("--for", ESCAPE),
        ("--name", ESCAPE, "--for", "htpasswd"),
        (f"--{ESCAPE}",),
    ]


@pytest.mark.parametrize(
    "words", name_commands(), ids=lambda words: ascii(" ".join(words)).replace("\\", "/")
)
def test_no_name_in_a_message_controls_the_terminal(words: tuple[str, ...]) -> None:
    save("passwords", b"ann:password\n")
    save(f"there{ESCAPE}", b"ann\nbob\n")
    save(f"doubtful{ESCAPE}", b"ann:\n")
    save(f"begun{ESCAPE}.part", b"")
    os.mkdir(f"folder{ESCAPE}")
    done = pwhash(*words, stdin=b"x\n")
    assert done.status != 0, done
    for output in done.out, done.err:
        assert b"\x1b" not in output and b"\nroot:ok" not in output, done


SECRETS = [
    pytest.param(b"Top Secret", id="blanks"),
    pytest.param(b"ann,TopSecret", id="a comma"),
    pytest.param(b"ann\tTopSecret", id="a tab"),
    pytest.param(b'"TopSecret"', id="quotes"),
    pytest.param("ann\uff1aTopSecret".encode(), id="a full-width colon"),
    pytest.param(MD5.encode(), id="a hash"),
    pytest.param(b"{SSHA}TopSecretTopSecretTopSecret", id="a hash of LDAP"),
    pytest.param(b"5f4dcc3b5aa765d61d8327deb882cf99", id="a hash in hexadecimal"),
    pytest.param(b"abJnggxhB/yWI", id="a hash of DES"),
]
# These may be names, or passwords from swapped columns.
LIKE_PASSWORDS = [
    pytest.param(b"topsecret!", id="a sign that names lack"),
    pytest.param(b"Winter24", id="a capital and a digit"),
]
# Commands, and the line that they find doubtful, wrong or unknown. NAME stands for its name.
COMMANDS = [
    pytest.param(("file", "lines"), b"NAME:", id="a doubtful line"),
    pytest.param(("file", "--look", "lines"), b"NAME:", id="look"),
    pytest.param(
        ("file", "--skip-unknown", "known", "lines"), b"NAME:password", id="an unknown name"
    ),
    pytest.param(("install", "lines", "target"), b"NAME:$1$x", id="a wrong hash"),
    pytest.param(("install", "lines", "target"), b"NAME:ann", id="no hash"),
]


@pytest.mark.parametrize("name", [*SECRETS, *LIKE_PASSWORDS])
@pytest.mark.parametrize(("words", "line"), COMMANDS)
def test_what_may_be_a_password_is_not_shown_as_a_name(
    words: tuple[str, ...], line: bytes, name: bytes
) -> None:
    save("known", b"ann:x\n")
    save("lines", b"ann:password\n" + line.replace(b"NAME", name) + b"\n")
    done = pwhash(*words)
    assert 2 in lines_named_in(done.err) and name not in done.err, done
    assert b"Secret" not in done.err, done


@pytest.mark.parametrize(
    ("words", "status"),
    [
        pytest.param((), 1, id="refused"),
        pytest.param(("--accept-removals",), 0, id="removed"),
    ],
)
@pytest.mark.parametrize("name", SECRETS)
def test_names_of_an_installed_file_are_not_shown_if_they_may_be_passwords(
    name: bytes, words: tuple[str, ...], status: int
) -> None:
    field = hashed(b"password")
    save("hashes", b"ann:" + field + b"\n")
    save("target", b"ann:" + field + b"\n" + name + b":" + field + b"\n")
    done = pwhash("install", *words, "hashes", "target")
    assert done.status == status and b": 1, not shown" in done.err, done
    assert name not in done.err and b"Secret" not in done.err, done


def test_a_password_in_front_of_a_known_name_is_not_shown() -> None:
    save("known", b"ann:x\n")
    done = pwhash("file", "--skip-unknown", "known", save("lines", b"TopSecret:ann\n"))
    assert b"line 1: not in known" in done.err and b"TopSecret" not in done.err, done


SWAPPED = [
    pytest.param(
        b"first,login,password\nBob,sunshine,\n",
        ("--csv", "--columns", "login,password", "--look"),
        b"line 2: an empty password",
        id="a row that moved by a column",
    ),
    pytest.param(
        b"name,password\nsunshine,ann1\n",
        ("--csv", "--skip-unknown", "/etc/passwd"),
        b"line 2: not in /etc/passwd",
        id="an unknown name of a table",
    ),
    pytest.param(
        b"class,name\nsunshine,\n5a,sunshine\n",
        ("--csv", "--generate", "--look", "--skip-unknown", "/etc/passwd"),
        b"line 3: not in /etc/passwd",
        id="a row of a table of names",
    ),
    pytest.param(
        b"sunshine:ann1\nbob:pw9\n",
        ("--skip-unknown", "/etc/passwd"),
        b"line 1: not in /etc/passwd",
        id="an unknown name of a list",
    ),
    pytest.param(
        b"sunshine:ann\nsunshine:bob\n", (), b"line 2: the name again", id="a repeated name"
    ),
    pytest.param(b"sunshine:ann \n", (), b"line 1: a blank", id="a doubtful line"),
]


@pytest.mark.parametrize(("data", "words", "message"), SWAPPED)
def test_a_word_that_may_be_a_password_is_not_shown_as_a_name(
    data: bytes, words: tuple[str, ...], message: bytes
) -> None:
    done = pwhash("file", save("lines", data), *words)
    assert message in done.err and b"sunshine" not in done.err, done


@pytest.mark.parametrize(
    ("data", "words", "message"),
    [
        pytest.param(b"root:\n", (), b"line 1 (root): an empty password", id="of the machine"),
        pytest.param(b"ann\nann\n", ("--generate",), b"line 2 (ann): the name again", id="alone"),
    ],
)
def test_a_sure_name_is_shown(data: bytes, words: tuple[str, ...], message: bytes) -> None:
    done = pwhash("file", save("lines", data), *words, "--look")
    assert done.status == 1 and message in done.err, done

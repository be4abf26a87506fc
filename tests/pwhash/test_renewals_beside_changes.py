"""pwhash check --rehash makes no new hash that would undo a change which somebody makes meanwhile.

Hashes are compared with libxcrypt's.
"""
from __future__ import annotations

import os

import pytest
from support.pwhash_runs import (
    PWHASH,
    SLOW,
    SLOW_COUNT,
    Ended,
    go_on,
    halted,
    hashed,
    read,
    save,
    users,
)

COUNT = SLOW_COUNT
CHECK = (PWHASH, "check", "--shadow", "shadow", "--rehash", *SLOW, "list")
TO_OUT = (*CHECK, "-o", "hashes")
PRINTED = ("/bin/sh", "-c", 'exec "$@" > answers', "sh", *CHECK)
SETTING = "$6$rounds=20000$saltsalt"
LAST = COUNT - 1
OTHER = hashed(b"other", "$1$other")


def field_of(number: int) -> bytes:
    return hashed(b"password%d" % number)


def shadow(changed: dict[int, bytes], removed: int | None = None) -> bytes:
    """Returns the lines of all users, with some fields changed, and perhaps without a user."""
    fields = {number: changed.get(number, field_of(number)) for number in range(COUNT)}
    return b"".join(
        b"user%d:%b:1\n" % (number, field) for number, field in fields.items() if number != removed
    )


def renewed_while(content: bytes, *command: str, part: str = "hashes.part") -> Ended:
    """Renews all hashes. After the first new hash, another shadow file replaces the old one."""
    save("shadow", shadow({}))
    save("list", users(COUNT))
    save("new", content)
    with halted(*command, part=part) as process:
        os.rename("new", "shadow")
        return go_on(process)


@pytest.mark.parametrize(
    ("content", "numbers"),
    [
        pytest.param(shadow({0: OTHER, LAST: OTHER}), [0, LAST], id="new passwords"),
        pytest.param(shadow({0: b"!" + field_of(0)}), [0], id="a lock"),
        pytest.param(shadow({}, removed=7), [7], id="a removed account"),
    ],
)
def test_a_field_that_changes_meanwhile_gets_no_new_hash(
    content: bytes, numbers: list[int]
) -> None:
    done = renewed_while(content, *TO_OUT)
    assert done.status == 1 and b"shadow was changed during the run" in done.err, done
    names = b", ".join(b"user%d" % number for number in numbers)
    assert names + b"." in done.err, done
    expected = [
        b"user%d:%b\n" % (number, hashed(b"password%d" % number, SETTING))
        for number in range(COUNT)
        if number not in numbers
    ]
    assert read("hashes") == b"".join(expected), done
    assert not os.path.exists("hashes.part"), done


def test_a_printed_hash_of_a_changed_field_is_named() -> None:
    done = renewed_while(shadow({0: OTHER}), *PRINTED, part="answers")
    assert done.status == 1 and b"mustn't be stored: user0." in done.err, done
    assert read("answers").count(b"\n") == COUNT, done


def test_a_file_that_is_only_touched_leaves_nothing_out() -> None:
    done = renewed_while(shadow({}), *TO_OUT)
    assert (done.status, done.err) == (0, b""), done
    assert read("hashes").count(b"\n") == COUNT, done


def test_a_file_that_disappears_meanwhile_makes_no_out() -> None:
    save("shadow", shadow({}))
    save("list", users(COUNT))
    with halted(*TO_OUT) as process:
        os.remove("shadow")
        done = go_on(process)
    assert done.status == 3 and not os.path.exists("hashes"), done

"""The shell's >> appends pwhash's output to a file, even if its last line has no line feed."""
from __future__ import annotations

import pytest
from support.pwhash_runs import MD5CRYPT, hashed, read, save, shell

PRESEED = ("--for", "preseed-root", *MD5CRYPT)
ADDED = b"d-i passwd/root-password-crypted password " + hashed(b"secret") + b"\n"


@pytest.mark.parametrize(
    ("before", "expected"),
    [
        pytest.param(b"d-i x", b"d-i x\n" + ADDED, id="a line without a line feed"),
        pytest.param(b"d-i x\n", b"d-i x\n" + ADDED, id="a whole line"),
        pytest.param(b"", ADDED, id="nothing"),
    ],
)
def test_a_line_appended_to_a_configuration_is_a_line_of_its_own(
    before: bytes, expected: bytes
) -> None:
    save("preseed.cfg", before)
    done = shell('exec "$@" >> preseed.cfg', *PRESEED, stdin=b"secret\n")
    assert done.status == 0 and read("preseed.cfg") == expected, done


def test_appended_hashes_begin_on_a_new_line() -> None:
    save("hashes", b"eve:!")
    done = shell('exec "$@" >> hashes', "file", *MD5CRYPT, stdin=b"ann:secret\n")
    assert done.status == 0, done
    assert read("hashes") == b"eve:!\nann:" + hashed(b"secret") + b"\n", done

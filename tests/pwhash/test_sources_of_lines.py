"""Where lines come from: empty files, empty pipes, here-documents and folders."""
from __future__ import annotations

import os
import subprocess
import tempfile

import pytest
from support.pwhash_runs import MD5, MD5CRYPT, PWHASH, pwhash, save, shell, users


@pytest.mark.parametrize(
    ("words", "data"),
    [
        pytest.param(("file",), b"", id="file"),
        pytest.param(("file", "-o", "hashes"), b"", id="into a file"),
        pytest.param(("file", "--look"), b"", id="--look"),
        pytest.param(("file", "--csv"), b"name,password\n", id="a heading alone"),
        pytest.param(("check",), b"", id="check"),
        pytest.param(("check", "-o", "hashes"), b"", id="check into a file"),
    ],
)
def test_an_empty_file_is_named(words: tuple[str, ...], data: bytes) -> None:
    done = pwhash(*words, *MD5CRYPT, save("list", data))
    assert (done.status, done.out) == (2, b"") and b"list has no lines" in done.err, done
    assert sorted(os.listdir()) == ["list"], done


@pytest.mark.parametrize("words", [("file",), ("check",)], ids=["file", "check"])
def test_an_empty_pipe_is_named(words: tuple[str, ...]) -> None:
    done = pwhash(*words, stdin=b"")
    assert (done.status, done.out) == (2, b"") and b"no lines" in done.err, done


def test_a_list_that_the_shell_truncated_is_named() -> None:
    save("list", users(3))
    done = shell('exec "$@" list > list', "file", *MD5CRYPT)
    assert done.status == 2 and b"list has no lines" in done.err, done


def test_a_here_document_works_like_a_file() -> None:
    with tempfile.TemporaryFile() as document:
        document.write(b"ann:password\n")
        document.seek(0)
        done = subprocess.run(
            [PWHASH, "file", *MD5CRYPT], stdin=document, capture_output=True, check=False
        )
    assert (done.returncode, done.stdout) == (0, b"ann:" + MD5.encode() + b"\n"), done


def test_a_folder_is_refused() -> None:
    os.mkdir("folder")
    done = pwhash("file", *MD5CRYPT, "folder")
    assert (done.status, done.out, done.err) == (3, b"", b"pwhash: folder is a folder.\n"), done

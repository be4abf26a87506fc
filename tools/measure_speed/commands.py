"""Tasks that are whole commands: one hash, a file of lines on several processors, an audit."""
from __future__ import annotations

import os

from support.model.answers import Job, Mode, parsed

from .failure import Stop
from .processes import ROOT, Task
from .programs import MKPASSWD
from .settings import MD5CRYPT, PASSWORD, SALT, SHA512CRYPT, hash_of, scrypt

PWHASH = str(ROOT / "bin/pwhash")
MD5CRYPT_OPTIONS = ("-m", "md5crypt", "-S", "xxxxxxxx")
LINES = 16
ROUNDS = 50_000  # so that each of these lines takes a few hundredths of a second


def md5crypt_task(*command: str) -> Task:
    """Returns the task of reading a password and printing its md5crypt hash."""
    return Task(command, PASSWORD + b"\n", hash_of(MD5CRYPT) + b"\n")


def largest_scrypt_task() -> Task:
    """Returns the task of pwhash that takes the most memory."""
    options = ("-m", "scrypt", "-R", "11", "-S", "x" * 22)
    stored_hash = hash_of(scrypt(18, 32, 1))
    return Task((PWHASH, *options), PASSWORD + b"\n", stored_hash + b"\n")


def file_task(count: int) -> Task:
    """Returns the task of hashing a file's passwords with pwhash, on this many processors."""
    stored_hash = hash_of(b"$6$rounds=%d$%b" % (ROUNDS, SALT))
    names = [b"user%d" % number for number in range(LINES)]
    options = ("-R", str(ROUNDS), "-S", SALT.decode())
    return Task(
        (*on_processors(count), PWHASH, "file", *options),
        b"".join(b"%b:%b\n" % (name, PASSWORD) for name in names),
        b"".join(b"%b:%b\n" % (name, stored_hash) for name in names),
    )


def start_task(count: int) -> Task:
    """Returns file_task() with a file of one line, whose hash takes next to no time."""
    return Task(
        (*on_processors(count), PWHASH, "file", *MD5CRYPT_OPTIONS),
        b"user1:%b\n" % PASSWORD,
        b"user1:%b\n" % hash_of(MD5CRYPT),
    )


def on_processors(count: int) -> tuple[str, ...]:
    """Returns the words in front of a command that run it on this many processors."""
    allowed = sorted(os.sched_getaffinity(0))
    if count > len(allowed):
        raise Stop(f"there are {len(allowed)} processors, and {count} are needed")
    return ("taskset", "-c", ",".join(map(str, allowed[:count])))


def audit_task(lines: int) -> Task:
    """Returns the task of auditing this many lines, in which six fields alternate."""
    old, new = hash_of(MD5CRYPT), hash_of(SHA512CRYPT)
    cut = new[:99]  # shorter than any hash by this method
    too_costly, of_another_scheme = b"$6$rounds=999999999$a$b", b"$y$j9T$x$x"
    fields = (new, old, b"!" + new, too_costly, cut, of_another_scheme)
    findings = [finding_of(field) for field in fields]
    places = [number % len(fields) for number in range(lines)]
    return Task(
        (MKPASSWD, "--audit"),
        b"".join(b"user%d:%b\n" % (n, fields[place]) for n, place in enumerate(places)),
        b"".join(b"user%d:%b\n" % (n, findings[place]) for n, place in enumerate(places)),
        expected_status=1,  # since there are findings
    )


def finding_of(field: bytes) -> bytes:
    """Returns what an audit prints for a field."""
    finding = parsed(Job(Mode.AUDIT), b"user:" + field).finding
    if finding is None:
        raise Stop(f"the model of audits has no finding for the field {field.decode()}")
    return finding.text.encode()

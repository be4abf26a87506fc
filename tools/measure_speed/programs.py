"""The programs that are measured: ours, and those that ours are compared with.

Each turns a workload into a task: a command, its input, and the output that shows that it made or
checked all hashes.
"""
from __future__ import annotations

import os
from dataclasses import dataclass
from pathlib import Path
from typing import Protocol

from support.model.methods import SCRYPT

from .failure import Stop
from .processes import ROOT, Task, output_of
from .settings import Workload, scrypt_digest

CLIENTS = Path(__file__).resolve().parent / "clients"
MKPASSWD = os.environ.get("PROGRAM", str(ROOT / "mkpasswd"))
MODULE = ROOT / "build/mkpasswd.mjs"
STATIC_PROGRAM = ROOT / "build/x86-64/mkpasswd"
LIBRARY = ROOT / "libmkpasswd.a"
LIBRARY_FOR_V3 = ROOT / "build/x86-64-v3/libmkpasswd.so.3"
PYTHON = "/usr/bin/python3"  # Debian's, which finds the modules of Debian's packages
OPENSSL = "/usr/bin/openssl"


class Program(Protocol):
    """Something that makes or checks hashes."""

    @property
    def name(self) -> str:
        """Its name on the page."""

    def task(self, workload: Workload) -> Task:
        """Returns the task of making or checking the workload's hashes."""


@dataclass(frozen=True)
class Checker:
    """A program that checks lines `name:hash:password`."""

    name: str
    command: tuple[str, ...]

    def task(self, workload: Workload) -> Task:
        """Returns the task of checking a line for each hash."""
        hash_and_password = b"%b:%b\n" % (workload.hash, workload.password)
        users = [b"user%d:" % number for number in range(workload.hashes)]
        lines = b"".join(user + hash_and_password for user in users)
        return Task(self.command, lines, b"".join(user + b"ok\n" for user in users))


@dataclass(frozen=True)
class OpenSSL:
    """OpenSSL: its command for md5crypt and SHA-crypt, and its library for scrypt."""

    derive: str  # the path of that client
    name: str = "OpenSSL"

    def task(self, workload: Workload) -> Task:
        """Returns the task of making the hashes."""
        if workload.setting.startswith(SCRYPT.prefix):
            return derivation_task("openssl", self.derive, workload)
        _, method, salt = workload.setting.decode().split("$", 2)
        command = (OPENSSL, "passwd", "-stdin", f"-{method}", "-salt", salt)
        lines = (workload.password + b"\n") * workload.hashes
        return Task(command, lines, (workload.hash + b"\n") * workload.hashes)


@dataclass(frozen=True)
class Libsodium:
    """libsodium, which has only scrypt."""

    derive: str  # the path of that client
    name: str = "libsodium"

    def task(self, workload: Workload) -> Task:
        """Returns the task of making the hashes."""
        return derivation_task("libsodium", self.derive, workload)


def derivation_task(library: str, derive: str, workload: Workload) -> Task:
    """Returns the task of deriving keys with a library's scrypt. The client prints each key."""
    cost = workload.scrypt_cost
    if cost is None:
        raise Stop(f"{library} makes no hashes of {workload.setting.decode()}")
    salt = workload.setting[len(SCRYPT.prefix + cost.text) :]
    numbers = (str(cost.log_n), str(cost.r), str(cost.p))
    words = (salt.decode(), workload.password.decode(), str(workload.hashes))
    line = scrypt_digest(workload.hash).hex().encode() + b"\n"
    return Task((derive, library, *numbers, *words), expected_output=line * workload.hashes)


@dataclass(frozen=True)
class Programs:
    """All programs, with the clients in C that a run compiles into a folder."""

    folder: Path

    @property
    def mkpasswd(self) -> Program:
        """Our program, in its default build."""
        return Checker("mkpasswd", (MKPASSWD, "--check"))

    @property
    def libmkpasswd(self) -> Program:
        """Our library."""
        return Checker("libmkpasswd", (self.client("check"), "libmkpasswd"))

    @property
    def libxcrypt(self) -> Program:
        """libxcrypt, which is crypt(3) in Debian."""
        return Checker("libxcrypt", (self.client("check"), "libxcrypt"))

    @property
    def openssl(self) -> Program:
        """OpenSSL's command and library."""
        return OpenSSL(self.client("derive"))

    @property
    def libsodium(self) -> Program:
        """libsodium."""
        return Libsodium(self.client("derive"))

    @property
    def passlib(self) -> Program:
        """passlib's own code in Python."""
        return Checker("passlib", (PYTHON, str(CLIENTS / "check_by_passlib.py")))

    @property
    def static_program(self) -> Program:
        """Our program for every x86-64."""
        return self.build("x86-64", str(STATIC_PROGRAM))

    @property
    def library_for_v3(self) -> Program:
        """Our shared library for x86-64-v3."""
        return Checker("x86-64-v3", (self.client("check-v3"), "libmkpasswd"))

    def build(self, name: str, path: str) -> Program:
        """Returns the checker of another build of our program."""
        return Checker(name, (path, "--check"))

    def client(self, name: str) -> str:
        """Returns the path of a client in C."""
        return str(self.folder / name)

    def compile(self, name: str, *libraries: str) -> None:
        """Compiles a client in C, and links it with our static library and others."""
        compile_and_link(name, self.client(name), str(LIBRARY), *libraries)

    def compile_for_v3(self) -> None:
        """Compiles the client that checks lines, and links it with our library for x86-64-v3."""
        where_found = f"-Wl,-rpath,{LIBRARY_FOR_V3.parent}"
        output = self.client("check-v3")
        compile_and_link("check", output, str(LIBRARY_FOR_V3), where_found, "-lcrypt")


def compile_and_link(name: str, output: str, *libraries: str) -> None:
    """Compiles a client in C."""
    words = (f"-I{ROOT}/c", str(CLIENTS / f"{name}.c"), *libraries, "-o", output)
    output_of(os.environ.get("CC", "cc"), "-O2", *words)

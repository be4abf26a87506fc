"""Follows the documents' recipes on a machine of the test's own, with a user for each method."""
from __future__ import annotations

import functools
import re
from dataclasses import dataclass
from pathlib import Path

from .documents import marked
from .libxcrypt import crypt
from .namespaces import Namespaces
from .process import Changes, Result, run

RECOMMENDED = b"$6$rounds=656000$"


@dataclass(frozen=True)
class User:
    """A user's name and password, and how the password is hashed."""

    name: str
    password: str
    method: str
    cost: int | None = None  # None if the recipe gives it

    def __str__(self) -> str:
        return self.method


# A low cost is enough here.
ANN = User("ann", "pass word:ann", "the recipe's method")
ONE = User("one", "pass word:one", "md5crypt", 0)
FIVE = User("five", "pass word:five", "sha256crypt", 1000)
SIX = User("six", "pass word:six", "sha512crypt", 1000)
SEVEN = User("seven", "pass word:seven", "scrypt", 6)
USERS = (ANN, ONE, FIVE, SIX, SEVEN)

# Names that must not log in: their fields are locked, broken or too costly, or of another scheme.
SECRET = "secret"
CLOSED = ("cut", "hostile", "locked", "star", "yescrypt")


@functools.cache
def closed_fields() -> dict[str, bytes]:
    """Returns the fields of the names in CLOSED. Any real hashes in them are of SECRET."""
    sha512 = crypt(SECRET.encode(), b"$6$abcdefghijklmnop")
    return {
        "cut": sha512[:-1],
        "hostile": b"$6$rounds=999999999$abcdefgh$" + b"x" * 86,
        "locked": b"!" + sha512,
        "star": b"*",
        "yescrypt": crypt(SECRET.encode(), b"$y$j9T$abcdefghijklmnopqrstu."),
    }


def closed_lines() -> bytes:
    """Returns the lines of the names in CLOSED."""
    return b"".join(b"%b:%b\n" % (name.encode(), field) for name, field in closed_fields().items())


@dataclass(frozen=True)
class Site:
    """A machine, and the folder in which the recipes are followed."""

    machine: Namespaces
    folder: Path
    environment: Changes
    program: Path

    def run(self, *command: str, stdin: str = "") -> Result:
        """Runs a command in the folder."""
        return self.machine.run(
            *command, stdin=stdin.encode(), env=self.environment, folder=self.folder
        )

    def follow(self, mark: str) -> None:
        """Runs a recipe exactly as the document has it."""
        block = marked(mark, "sh")
        result = self.answer(block.code)
        assert result.status == 0, f"{block.place}\nexpected status: 0\n{result}"

    def answer(self, commands: str) -> Result:
        """Runs commands. Their standard input is Ann's password and one more line."""
        return self.run("sh", "-euc", commands, stdin=f"{ANN.password}\nmore\n")

    def hash_passwords(self) -> None:
        """Makes the file `hashes` from `passwords` by the recipe, and adds all other names."""
        self.hash_passwords_of_users()
        with (self.folder / "hashes").open("ab") as file:
            file.write(closed_lines())

    def hash_passwords_of_users(self) -> None:
        """Makes the file `hashes` without the names that must not log in."""
        (self.folder / "passwords").write_text(f"{ANN.name}:{ANN.password}\n", encoding="ascii")
        self.follow("hashes for services")
        with (self.folder / "hashes").open("ab") as file:
            for user in USERS:
                if user.cost is not None:
                    file.write(self.line_of(user))

    def line_of(self, user: User) -> bytes:
        """Returns a user's line, with a hash that the program makes."""
        options = ("--batch", "-m", user.method, "-R", user.cost or 0)
        line = f"{user.name}:{user.password}\n".encode()
        return run(self.program, *options, stdin=line).required().stdout

    def hashes(self) -> dict[str, str]:
        """Returns the fields of the file `hashes` by name."""
        lines = (self.folder / "hashes").read_text(encoding="ascii").splitlines()
        fields = {}
        for line in lines:
            name, _, field = line.partition(":")
            fields[name] = field
        return fields

    def load_hashes(self, mark: str) -> None:
        """Makes the hashes, and loads them into a service by its recipe."""
        self.hash_passwords()
        self.follow(mark)

    def install_hashes(self, mark: str, path: str) -> None:
        """Makes the users' hashes, and installs them as a file by the recipe for a service.

        Then adds the other names, most of which `pwhash install` would refuse.
        """
        self.hash_passwords_of_users()
        self.follow(mark)
        self.machine.append(path, closed_lines())

    def add_accounts(self) -> None:
        """Gives all names a system account with a locked password."""
        names = sorted([*(user.name for user in USERS), *CLOSED])
        # passwd(5) and shadow(5) say what the fields are.
        users = "".join(f"{name}:x:4242:4242::/:/bin/sh\n" for name in names)
        self.machine.append("/etc/passwd", users)
        fields = "".join(f"{name}:!:19000:0:99999:7:::\n" for name in names)
        self.machine.append("/etc/shadow", fields)


def is_recommended_hash(field: bytes, password: str) -> bool:
    """Returns whether a field is a hash of a password, with the recommended cost."""
    if not field.startswith(RECOMMENDED) or re.search(rb"\s", field):
        return False
    return crypt(password.encode(), field) == field

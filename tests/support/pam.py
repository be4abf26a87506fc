"""PAM as an administrator sees it: stacks, pamtester's answers, and the system log."""
from __future__ import annotations

import contextlib
import enum
import re
import socket
import sysconfig
from collections.abc import Iterator
from dataclasses import dataclass

from . import ROOT
from .namespaces import Namespaces
from .process import Result, Word

MODULES = f"/usr/lib/{sysconfig.get_config_var('MULTIARCH')}/security"
MANUAL = ROOT / "man/pam_mkpasswd.8"
LONGEST_ENTRY = 2048  # bytes


class Answer(enum.Enum):
    """PAM's answers to a call, in pam_strerror(3)'s words."""

    ACCEPTED = "Success"
    REFUSED = "Authentication failure"
    DENIED = "Permission denied"
    BROKEN = "Error in service module"
    UNAVAILABLE = "Authentication service cannot retrieve authentication info"
    UNKNOWN_NAME = "User not known to the underlying authentication module"
    NO_OLD_PASSWORD = "Authentication information cannot be recovered"
    NOT_CHANGED = "Authentication token manipulation error"
    IN_USE = "Authentication token lock busy"


@dataclass(frozen=True)
class Login:
    """PAM's answer to a login or another call, and what was logged meanwhile."""

    answer: Answer
    log: tuple[str, ...] = ()


@dataclass(frozen=True)
class Stacks:
    """The PAM stacks in the module's manual."""

    of_file: str
    with_pwquality: str  # only the lines for changing passwords


def displays_of_manual() -> list[str]:
    """Returns the literal blocks of the module's manual."""
    pattern = r"^\.Bd -literal.*\n((?:.*\n)*?)^\.Ed"
    return re.findall(pattern, MANUAL.read_text("ascii"), re.MULTILINE)


def stacks_of_manual() -> Stacks:
    """Returns the stacks of the manual's examples."""
    displays = displays_of_manual()
    begin_with_auth = [display for display in displays if display.startswith("auth  ")]
    with_pwquality = [display for display in displays if "pam_pwquality" in display]
    assert len(begin_with_auth) == 2 and len(with_pwquality) == 1, displays
    _synopsis, of_file = begin_with_auth
    return Stacks(of_file, with_pwquality[0])


def answer_of(result: Result) -> Answer:
    """Returns PAM's answer, which pamtester prints."""
    if result.status == 0:
        return Answer.ACCEPTED
    said = re.search(r"\bpamtester: (.*)", (result.stdout + result.stderr).decode())
    for answer in Answer:
        if said and said[1] == answer.value:
            return answer
    raise AssertionError(f"pamtester printed no answer of PAM\n{result}")


def failure_of(name: str | None, rhost: str = "") -> str:
    """Returns the log entry for a failed login to a service that runs as root.

    The name is None if it isn't in the password file.
    """
    items = f"logname= uid=0 euid=0 tty= ruser= rhost={rhost} "
    user = f" user={name}" if name is not None else ""
    return f"authentication failure; {items}{user}"


class SystemLog:
    """A machine's system log, received in place of its log daemon."""

    def __init__(self, receiver: socket.socket) -> None:
        self.receiver = receiver

    def raw_entries(self) -> tuple[str, ...]:
        """Returns what has been logged since the last call, as programs write it."""
        entries = []
        with contextlib.suppress(BlockingIOError):
            while True:
                entry = self.receiver.recv(LONGEST_ENTRY)
                entries.append(entry.decode(errors="backslashreplace"))
        return tuple(entries)

    def entries(self) -> tuple[str, ...]:
        """Returns the new log entries, without the prefix that PAM adds to pam_mkpasswd's."""
        texts = []
        for entry in self.raw_entries():
            # `.. pam_mkpasswd(sshd:auth): `
            prefix = re.match(r".*?pam_mkpasswd\([\w-]+:\w+\): ", entry, re.DOTALL)
            texts.append(entry[prefix.end() :] if prefix else entry)
        return tuple(texts)


@contextlib.contextmanager
def system_log(machine: Namespaces) -> Iterator[SystemLog]:
    """Receives the system log of a machine that has a /dev of its own."""
    with socket.socket(socket.AF_UNIX, socket.SOCK_DGRAM) as receiver:
        path = machine.path("/dev/log")
        receiver.bind(str(path))
        path.chmod(0o666)
        receiver.setblocking(False)
        yield SystemLog(receiver)


@dataclass(frozen=True)
class Pam:
    """The PAM of a machine, with pamtester as the service."""

    machine: Namespaces
    log: SystemLog

    def set_stack(self, stack: str, service: str = "example") -> None:
        """Writes the stack of a service."""
        self.machine.write(f"/etc/pam.d/{service}", stack)

    def set_arguments(self, arguments: str) -> None:
        """Gives the service `example` a stack of the module alone, with these arguments."""
        line = f"required pam_mkpasswd.so {arguments}"
        self.set_stack(f"auth {line}\naccount {line}\npassword {line}\n")

    def login(
        self,
        name: str | bytes,
        password: bytes,
        *,
        service: str = "example",
        through: tuple[Word, ...] = (),
    ) -> Login:
        """Logs in, and returns the answer and the log. The command `through` runs pamtester."""
        answer = answer_of(self.login_result(name, password, service=service, through=through))
        return Login(answer, self.log.entries())

    def login_result(
        self,
        name: str | bytes,
        password: bytes,
        *,
        service: str = "example",
        through: tuple[Word, ...] = (),
    ) -> Result:
        """Logs in, and returns how pamtester ends.

        Empties the log first: nothing else reads it, and a program that logs blocks while ten
        entries are unread.
        """
        self.log.entries()
        command = (*through, "pamtester", service, name, "authenticate", "acct_mgmt")
        return self.machine.run(*command, stdin=password + b"\n")

    def call(
        self, name: str, operation: str, *lines: bytes, through: tuple[Word, ...] = ()
    ) -> Login:
        """Makes one PAM call, such as pam_chauthtok(3), for a name, and types these lines."""
        self.log.entries()
        stdin = b"".join(line + b"\n" for line in lines)
        result = self.machine.run(*through, "pamtester", "example", name, operation, stdin=stdin)
        return Login(answer_of(result), self.log.entries())

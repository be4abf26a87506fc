"""Logins: whether a failed login costs the same for each kind of stored field.

For C and Python, instructions are counted: the difference between two logins and one. An engine of
JavaScript compiles the module while it runs, and differently in each run. So for node, what counts
is the work that the module itself reports.
"""
from __future__ import annotations

import dataclasses
import statistics
from collections.abc import Iterator
from dataclasses import dataclass

from support.model.methods import MD5CRYPT, SCRYPT, SHA256CRYPT, SHA512CRYPT, Method
from support.model.settings import recommended_setting

from .failure import Stop
from .processes import ROOT, Task, count_instructions, map_on_all_processors, output_of, run_task
from .programs import CLIENTS, MODULE, PYTHON, Programs
from .results import Login
from .settings import PASSWORD, hash_of

RIGHT = "right password"
WRONG = "wrong password"
UNKNOWN = "unknown name"
OTHER_PASSWORD = b"q" * len(PASSWORD)
YESCRYPT = b"$y$j9T$F5Jx5fExrKuPp53xLKQ..1$X3DX6M94c7o.9agCG9G317fhZg9SqC.5i5rd.RhAtQ7"
COSTLY = b"$6$rounds=999999999$saltsaltsaltsalt$" + b"x" * 86
FEW_LOGINS, MORE_LOGINS = 1, 2
BYTES_OF_MIXING = 128 * 32  # by scrypt with r = 32, as a policy's hashes have it


@dataclass(frozen=True)
class Policy:
    """A service's method and rounds. The rounds are few, so that the work around a hash shows."""

    method: Method
    rounds: int

    @property
    def setting(self) -> bytes:
        """A setting of its hashes, with a salt as long as those that the library draws."""
        return recommended_setting(self.method, self.rounds, b"x" * self.method.drawn_salt).text

    @property
    def number(self) -> str:
        """The number of the method, as in its hashes."""
        return self.method.prefix.decode().strip("$")

    @property
    def title(self) -> str:
        """Its name on the page."""
        if self.method is MD5CRYPT:
            return self.method.name
        if self.method is SCRYPT:
            return f"scrypt, N = 2^{self.rounds + 7}, r = 32"
        return f"{self.method.name}, {self.rounds} rounds"


QUICKEST_POLICY = Policy(MD5CRYPT, rounds=0)
POLICIES = (
    Policy(SHA512CRYPT, rounds=5_000),
    Policy(SHA256CRYPT, rounds=5_000),
    Policy(SCRYPT, rounds=6),
    QUICKEST_POLICY,
)
# Python calls the same library as C. What the package adds shows best beside the quickest hash.
POLICY_IN_PYTHON = QUICKEST_POLICY
UNUSUAL = 0.02  # of the median of all kinds: a count that differs by more is taken again


def fields_of(policy: Policy) -> dict[str, bytes | None]:
    """Returns a stored field of each kind; None for a name that isn't stored."""
    right = hash_of(policy.setting)
    return {
        RIGHT: right,
        WRONG: hash_of(policy.setting, OTHER_PASSWORD),
        "dead": right[:-1],
        UNKNOWN: None,
        "empty": b"",
        "locked": b"!" + right,
        "yescrypt": YESCRYPT,
        "above the budget": COSTLY,
    }


def password_and_field(field: bytes | None) -> tuple[str, ...]:
    """Returns a client's last arguments: the password, and the field if there is one."""
    return (PASSWORD.decode(),) if field is None else (PASSWORD.decode(), field.decode())


@dataclass(frozen=True)
class Client:
    """A command that logs in as often as an argument says."""

    name: str
    command: tuple[str, ...]
    environment: dict[str, str | None] = dataclasses.field(default_factory=dict)

    def task(self, policy: Policy, kind: str, field: bytes | None, logins: int) -> Task:
        """Returns the task of this many logins. Only those with the right password succeed."""
        words = (policy.number, str(policy.rounds), str(logins), *password_and_field(field))
        line = b"1\n" if kind == RIGHT else b"0\n"
        return Task(
            (*self.command, *words), expected_output=line * logins, environment=self.environment
        )

    def instructions(self, policy: Policy, kind: str, field: bytes | None) -> float:
        """Returns the instructions of one login."""
        few, more = (
            count_instructions(self.task(policy, kind, field, logins))
            for logins in (FEW_LOGINS, MORE_LOGINS)
        )
        return (more - few) / (MORE_LOGINS - FEW_LOGINS)


def client_in_c(programs: Programs) -> Client:
    """Returns the client that calls our library."""
    return Client("C", (programs.client("log_in"),))


def client_in_python(programs: Programs) -> Client:
    """Returns the client that calls our package, with the library of this tree.

    A first run compiles its modules, so that no count contains that. Without a fixed seed for the
    hashes of strings, counts would differ from run to run.
    """
    environment: dict[str, str | None] = {
        "PYTHONPATH": str(ROOT / "python/src"),
        "LD_LIBRARY_PATH": str(ROOT),
        "PYTHONPYCACHEPREFIX": str(programs.folder / "pycache"),
        "PYTHONDONTWRITEBYTECODE": None,
        "PYTHONHASHSEED": "0",
    }
    client = Client("Python", (PYTHON, str(CLIENTS / "log_in.py")), environment)
    run_task(client.task(QUICKEST_POLICY, UNKNOWN, None, logins=1))
    return client


def bytes_in_node(policy: Policy, kind: str, field: bytes | None) -> int:
    """Returns the bytes that one login digests and mixes in node."""
    words = (policy.number, str(policy.rounds), *password_and_field(field))
    numbers = output_of("node", str(CLIENTS / "log_in.mjs"), str(MODULE), *words).split()
    succeeds, digested, mixings = map(int, numbers)
    if bool(succeeds) != (kind == RIGHT):
        raise Stop(f"node: the login with the field {kind!r} returns {succeeds}")
    return digested + BYTES_OF_MIXING * mixings


def works_of(client: Client, policy: Policy) -> dict[str, float]:
    """Returns the instructions of a login with each kind of field.

    Once in some hundred runs, Python executes a few million instructions more than in all others.
    So a count that is far from the others is taken again.
    """
    fields = fields_of(policy)

    def work_of(kind: str) -> float:
        return client.instructions(policy, kind, fields[kind])

    works = dict(zip(fields, map_on_all_processors(work_of, fields)))
    usual = statistics.median(works.values())
    for kind, work in works.items():
        if abs(work / usual - 1) > UNUSUAL:
            works[kind] = work_of(kind)
    return works


def works_in_node(policy: Policy) -> dict[str, float]:
    """Returns the bytes that a login with each kind of field digests and mixes in node."""
    fields = fields_of(policy)

    def work_of(kind: str) -> float:
        return bytes_in_node(policy, kind, fields[kind])

    return dict(zip(fields, map_on_all_processors(work_of, fields)))


def measure(programs: Programs) -> Iterator[Login]:
    """Measures a login with each kind of field, by each policy and client."""
    in_c, in_python = client_in_c(programs), client_in_python(programs)
    for policy in POLICIES:
        works = {in_c.name: works_of(in_c, policy)}
        if policy is POLICY_IN_PYTHON:
            works[in_python.name] = works_of(in_python, policy)
        works["node"] = works_in_node(policy)
        for client, works_of_client in works.items():
            for kind, work in works_of_client.items():
                yield Login(policy.title, client, kind, work)

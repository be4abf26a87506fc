"""The options of a run, checked: one class for each command."""

from __future__ import annotations

import enum
from typing import NamedTuple, Optional, Tuple, Union

from pwhash.library import Policy

PART_SUFFIX = ".part"
DEFAULT_COLUMNS = "name,password"
GENERATED_LENGTH = 20  # of a new password


class Form(enum.Enum):
    """What --for prints for one hash."""

    BARE = "{hash}"
    PRESEED_ROOT = "d-i passwd/root-password-crypted password {hash}"
    PRESEED_USER = "d-i passwd/user-password-crypted password {hash}"
    KICKSTART = "rootpw --iscrypted {hash}"
    CLOUD_INIT = (
        '#cloud-config\nusers:\n  - name: "{name}"\n'
        "    lock_passwd: false\n    hashed_passwd: {hash}"
    )
    ANSIBLE = 'password: "{hash}"'
    HTPASSWD = "{name}:{hash}"
    SHADOW = "{name}:{hash}:{day}:0:99999:7:::"

    @property
    def word(self) -> str:
        """The name on the command line."""
        return self.name.lower().replace("_", "-")

    @property
    def has_name(self) -> bool:
        """Whether it contains the user's name."""
        return "{name}" in self.value


class Service(enum.Enum):
    """A service that will read the hashes, and may take one name for another."""

    APACHE = "apache"
    NGINX = "nginx"
    DOVECOT = "dovecot"
    LDAP = "ldap"


class Doubtful(enum.Enum):
    """What to do with doubtful lines."""

    STOP = enum.auto()
    SKIP = enum.auto()
    ACCEPT = enum.auto()


class Input(NamedTuple):
    """A file of lines, and how to read it."""

    path: Optional[str]  # None stands for standard input
    windows: bool = False  # lines may end with a carriage return, and begin with a byte order mark
    columns: Optional[str] = None  # those of a table that have the name and the password
    counts_lines: bool = True  # for the progress line
    names_only: bool = False  # lines and rows have no password
    list_columns: Optional[str] = None  # those of a table of names to copy to the password lists


class SingleOptions(NamedTuple):
    """The options of pwhash without a command, which hashes one password."""

    policy: Policy
    form: Form
    name: Optional[str]
    generate: bool
    accepts_doubtful: bool


class Generate(NamedTuple):
    """The passwords that pwhash file --generate makes."""

    passwords: str  # the file for all of them, or the folder with a file for each group
    length: int
    has_groups: bool


class FileOptions(NamedTuple):
    """The options of pwhash file, which hashes the passwords of a list."""

    policy: Policy
    input: Input
    out: Optional[str]
    resume: bool
    only_look: bool
    skip_refused: bool
    skip_locked: Optional[str]  # the file that says which names are locked
    skip_unknown: Optional[str]  # the file that has a line for each known name
    generate: Optional[Generate]
    doubtful: Doubtful
    service: Optional[Service]
    quiet: bool


class CheckOptions(NamedTuple):
    """The options of pwhash check, which checks passwords against stored hashes."""

    policy: Policy
    input: Input
    out: Optional[str]
    shadow: Optional[str]
    rehash: bool
    quiet: bool


class AuditOptions(NamedTuple):
    """The options of pwhash audit, which judges stored hashes."""

    policy: Policy
    input: Input
    only_problems: bool
    json: bool
    judges_locked: bool  # whether a locked hash is judged as if it weren't locked
    quiet: bool


class Action(enum.Enum):
    """What pwhash set does to a line."""

    PASSWORD = enum.auto()
    DELETE = enum.auto()
    LOCK = enum.auto()
    UNLOCK = enum.auto()


class SetOptions(NamedTuple):
    """The options of pwhash set, which changes one user's line in a password file."""

    policy: Policy
    path: str
    name: bytes
    action: Action
    service: Optional[Service]
    generate: bool
    accepts_doubtful: bool
    quiet: bool


class InstallOptions(NamedTuple):
    """The options of pwhash install, which puts a list of hashes into a password file."""

    policy: Policy
    hashes: str
    target: str
    service: Optional[Service]
    owner: Optional[str]
    group: Optional[str]
    mode: Optional[int]
    accepts_other_schemes: bool
    accepts_removals: bool
    quiet: bool


class VerifyOptions(NamedTuple):
    """The options of pwhash verify, which checks one password against one hash."""

    budget: int
    path: str  # empty if pwhash asks for the hash
    name: str


class CalibrateOptions(NamedTuple):
    """The options of pwhash calibrate, which finds the rounds that fit a time."""

    time: str  # that a login may take, as the user typed it
    seconds: float
    methods: Tuple[str, ...]
    quiet: bool


Options = Union[
    SingleOptions,
    FileOptions,
    CheckOptions,
    AuditOptions,
    SetOptions,
    InstallOptions,
    VerifyOptions,
    CalibrateOptions,
]


def part_of(out: str) -> str:
    """Returns the name of OUT until it is whole."""
    return out + PART_SUFFIX

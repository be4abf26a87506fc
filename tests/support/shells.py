"""Shells, and the completions that each offers to a user who presses Tab at the end of a line.

Bash and zsh run in a terminal. Fish lists completions without one.
"""
from __future__ import annotations

import contextlib
import re
import subprocess
from collections.abc import Iterator
from dataclasses import dataclass
from pathlib import Path
from typing import TYPE_CHECKING, Protocol

from .process import Changes, changed_environment, started

if TYPE_CHECKING:
    import pexpect

SECONDS = 60  # the longest that an answer may take
WIDE = (24, 1000)  # rows and columns: so wide that no line wraps
KEY = "\x14"  # Control-T, which makes the shell print the completed line
READY = "ready> "
BASH_COMPLETION = "/usr/share/bash-completion/bash_completion"
ANSWER = "\x01([^\x02]*)\x02"  # between control characters that nothing else prints

BASHRC = r"""
PS1='ready> '
if [ -n "$package" ]; then . "$package"; fi
[ -n "$package" ] || for file in "$completions"/*.bash; do . "$file"; done
answer() { printf '\001%s\002' "$READLINE_LINE"; READLINE_LINE=''; }
bind '"\t": insert-completions'
bind -x '"\C-t": answer'
"""

ZSHRC = r"""
PROMPT='ready> '
fpath=($completions $fpath)
autoload -Uz compinit
compinit -D -u
offer-all() {
    _main_complete
    compstate[insert]=all
    compstate[list]=
}
zle -C offer-all complete-word offer-all
answer() {
    zle offer-all
    print -rn -- $'\1'$BUFFER$'\2' > $TTY
    BUFFER=
}
zle -N answer
bindkey '^T' answer
"""

FISH = r"""
set fish_complete_path $completions $fish_complete_path
while read -l line
    set words (complete -C $line | string replace -r '\t.*' '')
    echo "$words"
end
"""


@dataclass(frozen=True)
class Surroundings:
    """The folder and environment of a shell, and the completions for it."""

    completions: Path  # the folder with the files of completions
    folder: Path  # the shell's current folder
    scratch: Path  # a folder for the shell's own files
    environment: Changes


class Shell(Protocol):
    """A shell that can be asked for its completions."""

    def offered(self, line: str) -> list[str]:
        """Returns the words that the shell offers in place of the line's last word."""


class InTerminal:
    """A shell in a terminal. It answers a line by printing it with all completions inserted."""

    def __init__(self, terminal: pexpect.spawn, keys: str) -> None:
        self.terminal = terminal
        self.keys = keys  # the keys that complete the line and print it

    def offered(self, line: str) -> list[str]:
        """Returns the words that the shell offers in place of the line's last word."""
        self.terminal.send(line + self.keys)
        self.terminal.expect(ANSWER)
        completed: str = self.terminal.match[1]
        if completed == line:
            return []
        start = re.sub(r"\S*\Z", "", line)
        return completed[len(start) :].split()


@contextlib.contextmanager
def in_terminal(
    surroundings: Surroundings, keys: str, command: list[str], changes: Changes
) -> Iterator[Shell]:
    """Runs a shell in a terminal while the block runs."""
    import pexpect

    environment = changed_environment({**surroundings.environment, **changes, "TERM": "dumb"})
    terminal = pexpect.spawn(
        command[0],
        command[1:],
        timeout=SECONDS,
        cwd=str(surroundings.folder),
        env=environment,
        encoding="utf-8",
        dimensions=WIDE,
    )
    try:
        terminal.expect(READY)
        yield InTerminal(terminal, keys)
    finally:
        terminal.close(force=True)


@contextlib.contextmanager
def bash(surroundings: Surroundings, package: str = "") -> Iterator[Shell]:
    """Runs bash, which loads the completions directly or through the package bash-completion."""
    settings = surroundings.scratch / "bashrc"
    settings.write_text(BASHRC, encoding="ascii")
    changes = {"package": package, "completions": str(surroundings.completions)}
    command = ["bash", "--rcfile", str(settings), "-i"]
    with in_terminal(surroundings, f"\t{KEY}", command, changes) as shell:
        yield shell


@contextlib.contextmanager
def bash_with_package(surroundings: Surroundings) -> Iterator[Shell]:
    """Runs bash with the package bash-completion, which loads completions by a command's name."""
    with bash(surroundings, package=BASH_COMPLETION) as shell:
        yield shell


@contextlib.contextmanager
def zsh(surroundings: Surroundings) -> Iterator[Shell]:
    """Runs zsh without the system's settings."""
    (surroundings.scratch / ".zshrc").write_text(ZSHRC, encoding="ascii")
    changes = {"ZDOTDIR": str(surroundings.scratch), "completions": str(surroundings.completions)}
    with in_terminal(surroundings, KEY, ["zsh", "-d", "-i"], changes) as shell:
        yield shell


@dataclass(frozen=True)
class Fish:
    """Fish, running a script that reads lines and prints the completions of each."""

    process: subprocess.Popen[bytes]

    def offered(self, line: str) -> list[str]:
        """Returns the words that the shell offers in place of the line's last word."""
        assert self.process.stdin is not None and self.process.stdout is not None
        self.process.stdin.write(f"{line}\n".encode())
        self.process.stdin.flush()
        words = self.process.stdout.readline().decode().split()
        # Fish 4 also lists words that only contain what was typed. Its menu shows those only if
        # no word begins with it.
        typed = line.rpartition(" ")[2]
        return [word for word in words if word.startswith(typed)] or words


@contextlib.contextmanager
def fish(surroundings: Surroundings) -> Iterator[Shell]:
    """Runs fish without settings."""
    script = surroundings.scratch / "answer.fish"
    script.write_text(FISH, encoding="ascii")
    completions = str(surroundings.completions)
    environment: Changes = {**surroundings.environment, "completions": completions}
    with started(
        *("fish", "--no-config", script),
        stdin=subprocess.PIPE,
        stdout=subprocess.PIPE,
        env=environment,
        cwd=surroundings.folder,
    ) as process:
        yield Fish(process)

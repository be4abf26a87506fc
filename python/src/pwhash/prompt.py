"""Asks for passwords at the terminal. They are bytes, since their encoding is unknown."""

from __future__ import annotations

import errno
import os
import select
import signal
import termios
import time
from collections.abc import Iterable
from typing import Any, Callable, List, NamedTuple, Optional, Set, TypeVar

from pwhash.console import STDERR, STDIN, open_terminal
from pwhash.errors import Stop, UsageError

# All signals that end a process by default, except SIGKILL, which can't be blocked.
FATAL = signal.valid_signals() - {
    signal.SIGKILL,
    signal.SIGSTOP,
    signal.SIGTSTP,
    signal.SIGTTIN,
    signal.SIGTTOU,
    signal.SIGCONT,
    signal.SIGCHLD,
    signal.SIGURG,
    signal.SIGWINCH,
}
# Indexes into the list that termios.tcgetattr returns.
INPUT_FLAGS, LOCAL_FLAGS = 0, 3
ECHO = termios.ECHO | termios.ECHOE | termios.ECHOK | termios.ECHONL
# With XCASE a terminal shows and reads a capital as a backslash and a small letter.
XCASE = getattr(termios, "XCASE", 0o4)
CHANGES_LINES = ECHO | XCASE
# The flags that turn a key's byte into another one, or into two.
IUCLC = getattr(termios, "IUCLC", 0o1000)
CHANGES_KEYS = termios.ISTRIP | IUCLC | termios.PARMRK | termios.IGNCR | termios.INLCR
POLL_SECONDS = 0.05
PIECE = 4096  # bytes of a read; a terminal returns a line of no more

Ask = Callable[[bytes], bytes]  # shows a prompt, and returns what is typed there
Answers = TypeVar("Answers")


class Terminal(NamedTuple):
    """A terminal, its settings before the prompt, and the signals that end the run there."""

    fd: int
    before: List[Any]
    ending: Set[int]  # blocked during the prompt, as SIGTSTP is, so that they wait


def ask_password() -> bytes:
    """Asks twice for a new password, and returns it if both are the same."""
    password, again = ask_each(b"Password: ", b"Again: ")
    if again != password:
        raise UsageError("the two passwords differ. Start again.")
    return password


def ask_each(*prompts: bytes) -> List[bytes]:
    """Returns what is typed at each prompt. The terminal doesn't show it."""
    return with_hidden_input(lambda ask: [ask(prompt) for prompt in prompts])


def with_hidden_input(conversation: Callable[[Ask], Answers]) -> Answers:
    """Returns the result of a conversation, during which the terminal doesn't show what is typed.

    Standard input has to be a terminal. It is used if there is no /dev/tty.
    """
    fd = open_terminal()
    if fd is None:
        return ask_on_terminal(STDIN, conversation)
    try:
        return ask_on_terminal(fd, conversation)
    finally:
        os.close(fd)


def ask_on_terminal(fd: int, conversation: Callable[[Ask], Answers]) -> Answers:
    """Asks at a terminal. Signals are blocked until its settings are restored."""
    wait_for_foreground(fd)
    try:
        before = termios.tcgetattr(fd)
    except termios.error:
        raise cant_hide_error() from None
    blocked = without_ignored({*FATAL, signal.SIGTSTP})
    terminal = Terminal(fd, before, without_ignored(FATAL))
    signal.pthread_sigmask(signal.SIG_BLOCK, blocked)
    try:
        hide(terminal)
        # While the program is stopped, a shell makes the terminal show keys again.
        signal.signal(signal.SIGCONT, lambda *_: hide_again(terminal))
        return conversation(lambda prompt: ask(terminal, prompt))
    finally:
        signal.signal(signal.SIGCONT, signal.SIG_DFL)
        restore(terminal)
        # A pending signal ends the run here, or stops it.
        signal.pthread_sigmask(signal.SIG_UNBLOCK, blocked)


def without_ignored(signals: Iterable[int]) -> Set[int]:
    """Returns those of these signals that the caller doesn't ignore, as nohup does with SIGHUP."""
    return {int(each) for each in signals if signal.getsignal(each) != signal.SIG_IGN}


def is_in_background(fd: int) -> bool:
    """Returns whether the terminal belongs to another process group."""
    try:
        return os.tcgetpgrp(fd) != os.getpgrp()
    except OSError:  # it isn't this session's terminal, so it stops no process
        return False


def wait_for_foreground(fd: int) -> None:
    """Waits until the process is in the foreground: until then the system stops it here.

    Otherwise it would be stopped later, when it changes the terminal and has blocked the signals
    that end it.
    """
    while is_in_background(fd):
        try:
            termios.tcdrain(fd)  # stops a process in the background, and changes nothing
            return  # reached in the background only if SIGTTOU is ignored
        except termios.error as error:
            if error.args[0] != errno.EINTR:
                raise cant_hide_error() from None


def hide_again(terminal: Terminal) -> None:
    """Hides keys again after the process was stopped.

    If it continues in the background, changing the terminal would stop it with signals blocked.
    So it waits until it is in the foreground.
    """
    while is_in_background(terminal.fd):
        if has_ending_signal(terminal):
            return  # read_line ends the run
        time.sleep(0.01)
    hide(terminal)


def hide(terminal: Terminal) -> None:
    """Makes the terminal show no keys, return whole lines, and handle Ctrl-C."""
    changed = [*terminal.before]
    changed[INPUT_FLAGS] = changed[INPUT_FLAGS] & ~CHANGES_KEYS | termios.ICRNL
    changed[LOCAL_FLAGS] = changed[LOCAL_FLAGS] & ~CHANGES_LINES | termios.ICANON | termios.ISIG
    try:
        termios.tcsetattr(terminal.fd, termios.TCSAFLUSH, changed)
        is_hidden = not termios.tcgetattr(terminal.fd)[LOCAL_FLAGS] & ECHO
    except termios.error:
        is_hidden = False
    if not is_hidden:
        raise cant_hide_error()


def cant_hide_error() -> Stop:
    """Returns the error for a terminal that would show a password."""
    return Stop(
        "this terminal can't hide what is typed, so no password is asked for. "
        "Give it on standard input."
    )


def restore(terminal: Terminal) -> None:
    """Restores the terminal, and discards unread input, so that no shell gets it.

    If the process is in the background, the terminal belongs to another program, and stays as it
    is.
    """
    if is_in_background(terminal.fd):
        return
    try:
        termios.tcsetattr(terminal.fd, termios.TCSAFLUSH, terminal.before)
    except termios.error:  # the terminal is gone
        pass


def ask(terminal: Terminal, prompt: bytes) -> bytes:
    """Shows a prompt, and returns what is typed there."""
    write_to_terminal(terminal, prompt)
    try:
        line = read_line(terminal)
        while line is None:  # Ctrl-Z stopped the process, and fg continued it
            write_to_terminal(terminal, prompt)
            line = read_line(terminal)
        return line
    finally:
        write_to_terminal(terminal, b"\n")  # Return isn't shown


def write_to_terminal(terminal: Terminal, text: bytes) -> None:
    """Writes to the terminal, or to standard error if it is open for reading only."""
    try:
        write_once_possible(terminal, terminal.fd, text)
    except OSError:
        write_once_possible(terminal, STDERR, text)


def write_once_possible(terminal: Terminal, fd: int, text: bytes) -> None:
    """Writes as soon as this blocks no longer, as it does after Ctrl-S, until Ctrl-Q.

    Stops the run if a signal that ends it is pending meanwhile.
    """
    while not select.select([], [fd], [], POLL_SECONDS)[1]:
        if has_ending_signal(terminal):
            # Otherwise a serial line would wait for its output when its settings are restored.
            termios.tcflush(terminal.fd, termios.TCOFLUSH)
            raise ended_by_signal()
    os.write(fd, text)


def has_ending_signal(terminal: Terminal) -> bool:
    """Returns whether a signal is pending that ends the run."""
    return bool(signal.sigpending().intersection(terminal.ending))


def ended_by_signal() -> Stop:
    """Returns the error for a pending signal, which ends the process once it is unblocked."""
    return Stop("a signal ended the run.")


def read_line(terminal: Terminal) -> Optional[bytes]:
    """Returns what is typed before Return, or None if Ctrl-Z came first.

    Stops the run if a signal that ends it is pending.
    """
    line = b""
    while not line.endswith(b"\n"):
        while not select.select([terminal.fd], [], [], POLL_SECONDS)[0]:
            if has_ending_signal(terminal):
                raise ended_by_signal()
            if signal.SIGTSTP in signal.sigpending():
                stop(terminal)
                return None
        piece = os.read(terminal.fd, PIECE)
        if not piece:
            raise UsageError("Ctrl-D came before Return, so nothing is done. Start again.")
        line += piece
    return line[:-1]


def stop(terminal: Terminal) -> None:
    """Stops the process, as Ctrl-Z asks. Until it continues, the terminal is as it was before.

    What was typed at the prompt is discarded. If no shell could continue the process, the system
    doesn't stop it.
    """
    restore(terminal)
    signal.pthread_sigmask(signal.SIG_UNBLOCK, [signal.SIGTSTP])  # the process stops here
    signal.pthread_sigmask(signal.SIG_BLOCK, [signal.SIGTSTP])
    hide_again(terminal)

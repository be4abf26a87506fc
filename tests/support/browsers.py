"""Starts browsers without a window, opens addresses in them and evaluates scripts there.

Selenium calls Debian's drivers for Chromium and WebKit. Debian has no driver for Firefox, but
Firefox itself speaks WebDriver BiDi, which is JSON over a WebSocket. A browser and all its
processes end with the `with` block that started it, or after two hours.

The time limits allow for a busy machine, where a script can take fifteen times as long as alone. A
browser that doesn't start within its limit is started again.
"""
from __future__ import annotations

import contextlib
import json
import re
import subprocess
import time
import warnings
from pathlib import Path
from typing import Any, Callable, ContextManager, Iterator, Protocol

from .process import Changes, Word, started

STARTS = 3
SECONDS_TO_START = 120
SECONDS_TO_EVALUATE = 1800
SECONDS_TO_LIVE = 7200
LISTENING = "0A"  # the state of a listening socket in /proc/net/tcp


class Browser(Protocol):
    """A running browser."""

    def evaluate(self, address: str, script: str) -> Any:
        """Opens an address, runs a function's body there, and awaits and returns its result."""


class NotStarted(AssertionError):
    """A browser or its driver ends or hangs while it starts, as happens on a busy machine."""


class DrivenBrowser:
    """A browser that Selenium controls through its driver."""

    def __init__(self, driver: Any) -> None:
        self._driver = driver
        driver.set_page_load_timeout(SECONDS_TO_EVALUATE)
        driver.set_script_timeout(SECONDS_TO_EVALUATE)

    def evaluate(self, address: str, script: str) -> Any:
        """Opens an address, runs a function's body there, and awaits and returns its result."""
        self._driver.get(address)
        return self._driver.execute_script(script)


class Firefox:
    """Firefox, controlled through WebDriver BiDi. Each answer has its command's number."""

    def __init__(self, address: str) -> None:
        import websocket

        self._number = 0
        try:
            self._socket = websocket.create_connection(
                address, timeout=SECONDS_TO_START, suppress_origin=True
            )
            self._call("session.new", capabilities={})
            self._tab = self._call("browsingContext.getTree")["contexts"][0]["context"]
        except (OSError, websocket.WebSocketException) as error:
            raise NotStarted(f"Firefox doesn't answer: {error}") from error
        self._socket.settimeout(SECONDS_TO_EVALUATE)

    def _call(self, method: str, **params: Any) -> Any:
        self._number += 1
        self._socket.send(json.dumps({"id": self._number, "method": method, "params": params}))
        answer = json.loads(self._socket.recv())
        while answer.get("id") != self._number:  # an event
            answer = json.loads(self._socket.recv())
        if answer["type"] != "success":
            raise AssertionError(f"Firefox rejects {method}: {answer['message']}")
        return answer["result"]

    def evaluate(self, address: str, script: str) -> Any:
        """Opens an address, runs a function's body there, and awaits and returns its result.

        The result must be a string, a number or a boolean.
        """
        self._call("browsingContext.navigate", context=self._tab, url=address, wait="complete")
        answer = self._call(
            "script.callFunction",
            functionDeclaration=f"() => {{ {script}\n }}",
            awaitPromise=True,
            target={"context": self._tab},
        )
        if answer["type"] == "exception":
            raise AssertionError(f"{address}: {answer['exceptionDetails']['text']}")
        return answer["result"].get("value")


@contextlib.contextmanager
def chromium(folder: Path) -> Iterator[Browser]:
    """Starts Chromium and its driver, which keep their files in the folder."""
    from selenium import webdriver

    options = webdriver.ChromeOptions()
    for argument in ("--headless=new", "--no-sandbox", f"--user-data-dir={folder}/profile"):
        options.add_argument(argument)
    command = ("chromedriver", "--port=0")
    with started_with_log(*command, folder=folder, env={"TMPDIR": str(folder)}) as process:
        port = wait_for_output(process, folder, r"started successfully on port (\d+)")
        yield connected(int(port), options)


@contextlib.contextmanager
def firefox(folder: Path) -> Iterator[Browser]:
    """Starts Firefox, which keeps its files in the folder."""
    command = ("firefox-esr", "--headless", "--profile", folder, "--remote-debugging-port=0")
    environment = {"HOME": str(folder), "TMPDIR": str(folder)}
    with started_with_log(*command, folder=folder, env=environment) as process:
        address = wait_for_output(process, folder, r"WebDriver BiDi listening on (\S+)")
        yield Firefox(f"{address}/session")


@contextlib.contextmanager
def webkit(folder: Path) -> Iterator[Browser]:
    """Starts WebKit and its driver on a virtual display. They keep their files in the folder."""
    from selenium.webdriver.common.options import ArgOptions

    command = ("WebKitWebDriver", "--port=0")
    with screen() as display:
        environment = {"DISPLAY": display, "HOME": str(folder), "TMPDIR": str(folder)}
        with started_with_log(*command, folder=folder, env=environment) as process:
            port = wait_for(lambda: listening_port(process), process, folder)
            yield connected(port, ArgOptions())


Start = Callable[[Path], ContextManager[Browser]]

BROWSERS: dict[str, Start] = {"Chromium": chromium, "Firefox": firefox, "WebKit": webkit}


@contextlib.contextmanager
def started_browser(start: Start, folder: Path) -> Iterator[Browser]:
    """Starts one of BROWSERS, which keeps its files below the folder."""
    with contextlib.ExitStack() as running:
        yield first_started(start, folder, running)


def first_started(start: Start, folder: Path, running: contextlib.ExitStack) -> Browser:
    """Starts a browser that ends with `running`. If it doesn't start, it is started again."""
    *others, last = [folder / str(number) for number in range(STARTS)]
    for place in others:
        place.mkdir()
        try:
            return running.enter_context(start(place))
        except NotStarted as error:
            warnings.warn(f"started again: {error}")
    last.mkdir()
    return running.enter_context(start(last))


def connected(port: int, options: Any) -> Browser:
    """Opens a session with the driver that listens on this local port."""
    from selenium import webdriver
    from selenium.common.exceptions import WebDriverException
    from selenium.webdriver.remote.remote_connection import RemoteConnection
    from urllib3.exceptions import HTTPError

    # Without a limit, a driver that hangs would hang the test.
    RemoteConnection.set_timeout(SECONDS_TO_EVALUATE + SECONDS_TO_START)
    options.ignore_local_proxy_environment_variables()
    try:
        return DrivenBrowser(webdriver.Remote(f"http://127.0.0.1:{port}", options=options))
    except (OSError, HTTPError, WebDriverException) as error:
        raise NotStarted(f"the browser's driver opens no session: {error}") from error


@contextlib.contextmanager
def screen() -> Iterator[str]:
    """Starts an X server without a screen, and yields the name of its display."""
    command = ("Xvfb", "-displayfd", "1", "-screen", "0", "1280x1024x24", "-nolisten", "tcp")
    with started(*command, stdout=subprocess.PIPE, timeout=SECONDS_TO_LIVE) as process:
        assert process.stdout is not None
        number = process.stdout.readline().decode().strip()
        if not number:
            raise NotStarted("Xvfb doesn't start")
        try:
            yield f":{number}"
        finally:
            process.terminate()  # SIGKILL would leave its files in /tmp
            with contextlib.suppress(subprocess.TimeoutExpired):
                process.wait(timeout=60)


# ---- Programs that print when they are ready


@contextlib.contextmanager
def started_with_log(
    *command: Word, folder: Path, env: Changes
) -> Iterator[subprocess.Popen[bytes]]:
    """Runs a command while the block runs. Its output goes to the file `log` in the folder."""
    with (folder / "log").open("wb") as log:
        with started(*command, stdout=log, stderr=log, env=env, timeout=SECONDS_TO_LIVE) as process:
            yield process


def wait_for(find: Callable[[], Any], process: subprocess.Popen[bytes], folder: Path) -> Any:
    """Calls `find` until it finds something, and returns that. Fails if the process ends first."""
    end = time.monotonic() + SECONDS_TO_START
    while process.poll() is None and time.monotonic() < end:
        found = find()
        if found:
            return found
        time.sleep(0.05)
    log = (folder / "log").read_text(errors="replace")
    raise NotStarted(f"{process.args!r} doesn't start, and prints:\n{log}")


def wait_for_output(process: subprocess.Popen[bytes], folder: Path, pattern: str) -> str:
    """Waits until the command prints a match of the pattern, and returns the match's group 1."""
    log = folder / "log"
    match = wait_for(lambda: re.search(pattern, log.read_text(errors="replace")), process, folder)
    return str(match[1])


def links_of_descriptors(process: subprocess.Popen[bytes]) -> set[str]:
    """Returns what a process has open, such as socket:[1234]."""
    links = set()
    for descriptor in Path(f"/proc/{process.pid}/fd").iterdir():
        with contextlib.suppress(FileNotFoundError):  # the process has closed it meanwhile
            links.add(str(descriptor.readlink()))
    return links


def listening_port(process: subprocess.Popen[bytes]) -> int | None:
    """Returns the local port that a process listens on, if any. WebKitWebDriver prints none."""
    sockets = links_of_descriptors(process)
    for line in Path("/proc/net/tcp").read_text(encoding="ascii").splitlines()[1:]:
        fields = line.split()
        address, state, inode = fields[1], fields[3], fields[9]  # as proc(5) says
        if state == LISTENING and f"socket:[{inode}]" in sockets:
            hexadecimal_port = address.split(":")[1]
            return int(hexadecimal_port, 16)
    return None

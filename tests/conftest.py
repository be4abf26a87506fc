"""Shared fixtures, and hooks that skip tests, run slow ones first and print a summary."""
from __future__ import annotations

import ctypes
import os
import signal
from collections import defaultdict
from collections.abc import Iterator
from pathlib import Path

import pytest
from support import ROOT
from support.needs import need
from support.process import Changes

NO_TESTS_SELECTED = 5  # pytest's exit status if -k selects no test
EXIT_STATUS = pytest.StashKey[int]()
PR_SET_PDEATHSIG = 1  # from prctl(2)
SBIN = "/usr/sbin:/sbin"  # the folders of services, which even root's PATH may lack


@pytest.fixture(scope="session", name="program")
def fixture_program() -> Path:
    """The built program, or the one that the variable PROGRAM names."""
    path = Path(os.environ.get("PROGRAM", ROOT / "mkpasswd"))
    if not os.access(path, os.X_OK):
        pytest.fail(f"{path} is not built: run make", pytrace=False)
    return path


@pytest.fixture(scope="session", name="commands")
def fixture_commands(program: Path, tmp_path_factory: pytest.TempPathFactory) -> Path:
    """A folder with the tree's commands under the names that the documents use."""
    folder = tmp_path_factory.mktemp("commands")
    for name in ("mkpasswd", "mkpasswd.proved"):  # the latter is Debian's
        (folder / name).symlink_to(program)
    (folder / "pwhash").symlink_to(ROOT / "bin/pwhash")
    return folder


@pytest.fixture(scope="session", name="environment")
def fixture_environment(commands: Path) -> Changes:
    """Changes to the environment that let a shell find the tree's commands first."""
    return {"PATH": f"{commands}:{os.environ['PATH']}", "BASH_ENV": None}


@pytest.fixture(autouse=True, name="heeded_signals")
def fixture_heeded_signals() -> Iterator[None]:
    """Lets ^C, ^\\ and a hang-up reach a test's processes, even if the tests run in the background.

    A shell without job control starts background commands with the first two ignored, and nohup
    with the last one. A handler that does nothing keeps nohup's promise for this process, while
    programs that it starts have the default.
    """
    at_interrupt = signal.signal(signal.SIGINT, signal.default_int_handler)
    at_quit = signal.signal(signal.SIGQUIT, signal.SIG_DFL)
    at_hangup = signal.getsignal(signal.SIGHUP)
    if at_hangup is signal.SIG_IGN:
        signal.signal(signal.SIGHUP, lambda *_: None)
    mask = signal.pthread_sigmask(signal.SIG_SETMASK, [])
    yield
    signal.pthread_sigmask(signal.SIG_SETMASK, mask)
    if at_hangup is signal.SIG_IGN:
        signal.signal(signal.SIGHUP, at_hangup)
    signal.signal(signal.SIGQUIT, signal.SIG_DFL if at_quit is None else at_quit)
    signal.signal(signal.SIGINT, signal.SIG_DFL if at_interrupt is None else at_interrupt)


def is_worker(config: pytest.Config) -> bool:
    """Returns whether this process is a pytest-xdist worker."""
    return hasattr(config, "workerinput")


def pytest_configure(config: pytest.Config) -> None:
    """Adds SBIN to PATH, and makes sure that SIGTERM ends workers and the commands of their tests.

    A worker gets SIGTERM when the main process dies. SIGTERM then acts like ^C, so that a test
    can still end the processes that it has started.
    """
    os.environ["PATH"] = f"{os.environ['PATH']}:{SBIN}"
    if is_worker(config):
        ctypes.CDLL(None).prctl(PR_SET_PDEATHSIG, signal.SIGTERM)
    if is_worker(config) or not config.getoption("numprocesses", None):
        signal.signal(signal.SIGTERM, signal.default_int_handler)


def pytest_runtest_setup(item: pytest.Item) -> None:
    """Skips a test before its fixtures are set up if something that it needs is missing."""
    for marker in item.iter_markers("needs"):
        need(*marker.args)


def pytest_collection_modifyitems(items: list[pytest.Item]) -> None:
    """Puts slow tests first, so that no worker begins one when the others are done."""
    items.sort(key=lambda item: item.get_closest_marker("slow") is None)


def pytest_sessionfinish(session: pytest.Session, exitstatus: int) -> None:
    """Keeps pytest's exit status for the summary."""
    session.config.stash[EXIT_STATUS] = int(exitstatus)


def reason_of(report: pytest.TestReport) -> str:
    """Returns why a test was skipped."""
    if isinstance(report.longrepr, tuple):
        _file, _line, message = report.longrepr
        return message.removeprefix("Skipped: ")
    return str(report.longrepr)


def print_skipped(reports: list[pytest.TestReport]) -> None:
    """Prints the skipped tests, grouped by the reason why they were skipped."""
    tests_by_reason = defaultdict(list)
    for report in reports:
        tests_by_reason[reason_of(report)].append(report.nodeid)
    for reason, tests in sorted(tests_by_reason.items()):
        print(f"skipped: {reason}", *sorted(tests), sep="\n    ")


def pytest_unconfigure(config: pytest.Config) -> None:
    """Prints the summary, after everything that pytest prints."""
    reporter = config.pluginmanager.get_plugin("terminalreporter")
    if reporter is None or is_worker(config) or config.option.collectonly:
        return
    reports = defaultdict(list, reporter.stats)
    failed = len(reports["failed"]) + len(reports["error"])
    if failed == 0 and config.stash.get(EXIT_STATUS, 1) not in (0, NO_TESTS_SELECTED):
        failed = 1  # an error within pytest, or an interruption
    print_skipped(reports["skipped"])
    passed, skipped = len(reports["passed"]), len(reports["skipped"])
    print(f"{passed} passed, {failed} failed, {skipped} skipped")

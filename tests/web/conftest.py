"""Fixtures for the tests of the page and of mkpasswd.mjs: build, node, package, browsers."""
from __future__ import annotations

import os
import re
import shutil
from pathlib import Path
from typing import Any, Iterator

import pytest
from support import ROOT
from support.browsers import BROWSERS, Browser, started_browser
from support.needs import missing, need, not_applicable
from support.npm_site import Site
from support.process import run
from support.reports import Report
from support.web_server import WebServer, serving

OLDEST_NODE = 20


@pytest.fixture(scope="session")
def web_build() -> Path:
    """The folder that `make web` and `make npm` build, or the one that WEB_BUILD names."""
    folder = Path(os.environ.get("WEB_BUILD", ROOT / "build"))
    for name in ("mkpasswd.wasm", "mkpasswd.html", "mkpasswd.mjs", "npm/package.json"):
        if not (folder / name).exists():
            missing(str(folder / name), "make web npm")
    return folder


@pytest.fixture(scope="session")
def node() -> str:
    """The command node. Skips the test if it is older than mkpasswd.mjs supports."""
    need("node")
    version = run("node", "--version").required().stdout.decode().strip()
    match = re.match(r"v(\d+)\.", version)
    assert match, f"node --version prints {version!r}"
    if int(match[1]) < OLDEST_NODE:
        not_applicable(f"mkpasswd.mjs is for node {OLDEST_NODE} or later, and this is {version}")
    return "node"


@pytest.fixture(scope="session")
def seed() -> int:
    """The seed of the tests' random values."""
    return int(os.environ.get("SEED", "1"))


def pytest_runtest_call(item: pytest.Function) -> None:
    """Shows how the script of a test was run, if the test fails."""
    for value in item.funcargs.values():
        if isinstance(value, Report):
            item.add_report_section("call", "script", value.origin)


# ---- The package of npm


@pytest.fixture(scope="module")
def site(node: str, tmp_path_factory: pytest.TempPathFactory) -> Site:
    """A user's folder with the scripts."""
    folder = tmp_path_factory.mktemp("site")
    for script in (ROOT / "tests/npm").iterdir():
        shutil.copy(script, folder)
    manifest = '{ "private": true, "type": "module" }'
    (folder / "package.json").write_text(manifest, encoding="ascii")
    return Site(node, folder)


@pytest.fixture(scope="module")
def version() -> str:
    """The version of this tree."""
    return run(ROOT / "tools/version").required().stdout.decode().strip()


@pytest.fixture(scope="module")
def archive(site: Site, web_build: Path, version: str) -> Path:
    """The packed package."""
    site.run("npm", "pack", "--offline", web_build / "npm")
    return site.folder / f"mkpasswd-{version}.tgz"


@pytest.fixture(scope="module")
def user(site: Site, archive: Path) -> Site:
    """The folder with the installed package."""
    site.run("npm", "install", "--offline", "--no-audit", "--no-fund", archive)
    return site


# ---- Browsers


def needing(name: str, *needed: str) -> Any:
    """Returns a browser as a parameter, with what it needs to run.

    One worker runs all of its tests, so that it starts once.
    """
    marks = [pytest.mark.needs(*needed), pytest.mark.xdist_group(name), pytest.mark.slow]
    return pytest.param(name, id=name, marks=marks)


@pytest.fixture(
    scope="module",  # so that a browser ends with its tests, not at the end of the run
    params=[
        needing("Chromium", "chromium", "chromedriver", "python3-selenium"),
        needing("Firefox", "firefox-esr", "python3-websocket"),
        needing("WebKit", "WebKitWebDriver", "Xvfb", "python3-selenium"),
    ],
)
def browser(
    request: pytest.FixtureRequest, tmp_path_factory: pytest.TempPathFactory
) -> Iterator[Browser]:
    """Each browser in turn."""
    folder = tmp_path_factory.mktemp(request.param)
    with started_browser(BROWSERS[request.param], folder) as started:
        yield started


@pytest.fixture(scope="module")
def server(browser: Browser, web_build: Path) -> Iterator[WebServer]:
    """A web server with the page, for one browser."""
    del browser  # naming the fixture gives each browser its own server
    with serving(web_build) as started:
        yield started

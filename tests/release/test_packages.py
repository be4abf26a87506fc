"""The Debian packages: they are reproducible, and have the proved code and their documents.

They are installed in roots of Debian 12 and 13, which have no toolchain.
"""
from __future__ import annotations

import re
from collections.abc import Iterator
from pathlib import Path

import pytest
from support import ROOT
from support.debian import (
    LONGEST_BUILD,
    OLDEST,
    PACKAGES,
    RELEASES,
    Packages,
    Root,
    layer_over,
    release,
)
from support.process import Result, run

pytestmark = [
    pytest.mark.needs("root", "mmdebstrap", "dpkg-checkbuilddeps"),
    pytest.mark.slow,
    pytest.mark.xdist_group(RELEASES[OLDEST]),  # its worker builds the packages
]

NEWER_LIBRARY = "build/x86-64-v3/libmkpasswd.so.3"
LIBRARIES = "usr/lib/x86_64-linux-gnu"
LEAST_CODE = 10_000  # bytes; with fewer, the sections haven't been found
OWN_TESTS = ("program", "library", "python", "pam")
# Scripts for sh. $0 is this tree, and $1 its copy.
COPY = 'umask 077; mkdir "$1"; cd "$0"; tar -c --exclude=./.git --exclude=out . | tar -x -C "$1"'
BUILD = 'umask 077; "$1/tools/deb" "$1/packages"'


def test_each_package_is_built_and_no_other(packages: Packages) -> None:
    assert packages.names() == sorted(PACKAGES)


def test_each_package_has_the_version(packages: Packages, version: str) -> None:
    versions = {packages.field(name, "Version") for name in PACKAGES}
    # Between two releases, the version is the last one with "+next".
    assert {found.removesuffix("+next") for found in versions} == {version}


@pytest.mark.parametrize("name", ["mkpasswd", "libmkpasswd3", "libpam-mkpasswd"])
def test_a_package_with_code_refuses_older_processors(packages: Packages, name: str) -> None:
    assert "sse4.2-support" in packages.field(name, "Depends").split(", ")


# ---- Bytes


@pytest.fixture(scope="module", name="again")
def fixture_again(packages: Packages, tmp_path_factory: pytest.TempPathFactory) -> Packages:
    """The packages of a copy of this tree, built later, elsewhere and with other settings."""
    assert packages.names() != []
    clone = tmp_path_factory.mktemp("elsewhere") / "another clone"
    run("sh", "-euc", COPY, ROOT, clone).required()
    environment = {"LC_ALL": "C.UTF-8", "TZ": "Asia/Kathmandu"}
    run("sh", "-euc", BUILD, "", clone, env=environment, timeout=LONGEST_BUILD).required()
    return Packages(clone / "packages")


@pytest.mark.parametrize("name", PACKAGES)
def test_another_path_umask_time_zone_and_locale_give_the_same_bytes(
    packages: Packages, again: Packages, name: str
) -> None:
    assert packages.file(name).read_bytes() == again.file(name).read_bytes()


# ---- Content


@pytest.fixture(scope="module", name="unpacked")
def fixture_unpacked(packages: Packages, tmp_path_factory: pytest.TempPathFactory) -> Path:
    """A folder with the unpacked packages, each in a folder named after it."""
    folder = tmp_path_factory.mktemp("unpacked")
    for name in PACKAGES:
        run("dpkg-deb", "-x", packages.file(name), folder / name).required()
    return folder


@pytest.mark.parametrize(
    ("package", "documents"),
    [
        pytest.param(
            "mkpasswd",
            {"FORMATS", "GUIDE", "README", "SECURITY", "SPECIFICATION", "SPEED"},
            id="mkpasswd",
        ),
        pytest.param("libmkpasswd-dev", {"C", "SECURITY"}, id="libmkpasswd-dev"),
        pytest.param("python3-mkpasswd", {"PYTHON", "SECURITY"}, id="python3-mkpasswd"),
    ],
)
def test_a_package_has_its_documents(unpacked: Path, package: str, documents: set[str]) -> None:
    folder = unpacked / package / "usr/share/doc" / package
    files = [path for path in folder.iterdir() if path.is_file() and path.stat().st_size > 0]
    found = {path.name.removesuffix(".gz") for path in files}
    assert {f"{name}.md" for name in documents} - found == set()


@pytest.mark.parametrize("name", ["index.html", "site.css", "page.png"])
def test_the_package_of_the_program_has_the_web_pages(unpacked: Path, name: str) -> None:
    file = unpacked / "mkpasswd/usr/share/doc/mkpasswd/html" / name
    assert file.stat().st_size > 0


def test_each_link_of_the_web_pages_leads_to_a_file(unpacked: Path) -> None:
    folder = unpacked / "mkpasswd/usr/share/doc/mkpasswd/html"
    pages = list(folder.glob("*.html"))
    dead = []
    for page in pages:
        text = page.read_text(encoding="utf-8")
        for link in re.findall(r'(?:href|src)="(?![a-z]+:|#)([^"#]+)', text):
            if not (folder / link).exists():
                dead.append(f"{page.name}: {link}")
    assert pages != []
    assert dead == []


def code_of(file: Path, scratch: Path) -> bytes:
    """Returns a file's machine code and constants."""
    run("objcopy", "-O", "binary", "-j", ".text", "-j", ".rodata", file, scratch).required()
    return scratch.read_bytes()


@pytest.mark.needs("objdump")
@pytest.mark.parametrize(
    ("built_file", "packed_file"),
    [
        pytest.param("mkpasswd", "mkpasswd/usr/bin/mkpasswd.proved", id="the program"),
        pytest.param(
            "libmkpasswd.so.3",
            f"libmkpasswd3/{LIBRARIES}/libmkpasswd.so.3",
            id="the library",
        ),
        pytest.param(
            NEWER_LIBRARY,
            f"libmkpasswd3/{LIBRARIES}/glibc-hwcaps/x86-64-v3/libmkpasswd.so.3",
            id="the library for x86-64-v3",
        ),
    ],
)
def test_the_packages_have_the_proved_code(
    unpacked: Path, built_file: str, packed_file: str, tmp_path: Path
) -> None:
    proved = code_of(ROOT / built_file, tmp_path / "code")
    assert len(proved) > LEAST_CODE
    assert code_of(unpacked / packed_file, tmp_path / "code") == proved


# ---- In roots of Debian


@pytest.mark.parametrize("base", [release(OLDEST)], indirect=True)
def test_lintian_has_no_error_and_no_warning(root: Root) -> None:
    root.output_of("lintian --pedantic --info --fail-on error,warning /debs/*.deb")


@pytest.fixture(scope="module", name="own_tests")
def fixture_own_tests(base: Path, tmp_path_factory: pytest.TempPathFactory) -> Iterator[Result]:
    """The result of the packages' own tests, which install the packages."""
    command = "autopkgtest --no-built-binaries /debs/*.deb /source/ -- null 2>&1"
    with layer_over(base, folder=tmp_path_factory.mktemp("own-tests")) as root:
        yield root.run(command)


def assert_in_log(result: Result, pattern: str) -> None:
    """Fails the test unless a line of the log matches."""
    log = result.stdout.decode(errors="replace")
    assert re.search(rf"^{pattern}$", log, re.MULTILINE), f"expected: {pattern}\nits log: {log}"


@pytest.mark.parametrize("name", OWN_TESTS)
def test_an_own_test_of_the_packages_passes(own_tests: Result, name: str) -> None:
    assert_in_log(own_tests, f"{name} +PASS")


def test_no_own_test_of_the_packages_fails_or_is_skipped(own_tests: Result) -> None:
    assert own_tests.status == 0, own_tests.stdout.decode(errors="replace")

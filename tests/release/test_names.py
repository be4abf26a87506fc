"""The name mkpasswd belongs to whois, even if our packages are installed, upgraded or purged.

In 2.0.1, the package mkpasswd-default took the name from whois. An upgrade removes this package,
restores the files of whois, and leaves an administrator's own files alone. Each test begins in a
root that no other test changes.
"""
from __future__ import annotations

from collections.abc import Iterator
from contextlib import ExitStack
from dataclasses import dataclass
from pathlib import Path
from typing import Callable

import pytest
from support.debian import APT, PACKAGES, Root, above, layer_over

pytestmark = [pytest.mark.needs("root", "mmdebstrap", "dpkg-checkbuilddeps"), pytest.mark.slow]

CopyOf = Callable[[Root], Root]

PROGRAM = "/debs/mkpasswd_*.deb"
ALL = " ".join(f"/debs/{name}_*.deb" for name in PACKAGES)
PROGRAM_2_0_1 = "/changed/mkpasswd/changed.deb"
DEFAULT_2_0_1 = "/changed/mkpasswd-default/changed.deb"
# dpkg must fail, or the test does.
FAILS = "if dpkg -i /changed/broken/changed.deb; then exit 1; fi"
IS_REFUSED = f'if dpkg -i {DEFAULT_2_0_1}; then exit 1; fi; test -z "$(dpkg --audit)"'
COMMAND = "/usr/bin/mkpasswd"
SET_ASIDE = "/usr/bin/mkpasswd.whois"  # 2.0.1 moved whois' command there
LOCAL = "/usr/local/bin/mkpasswd"
UPGRADES = f"{APT} install {PROGRAM}"
PURGES = "dpkg --purge mkpasswd mkpasswd-default"  # works even without mkpasswd-default
PURGES_ALL = f"{APT} purge {' '.join(PACKAGES)}"

OURS = "ours"
OF_WHOIS = "whois"
OF_NOBODY = "nobody"
# The holder of a file is the package that lists its checksum. md5sum follows our links.
HOLDERS = """
cd /usr
for file in bin/mkpasswd share/man/man1/mkpasswd.1.gz share/bash-completion/completions/mkpasswd
do
    holder=nobody
    for package in mkpasswd mkpasswd-default whois; do
        sum=$(md5sum < $file | cut -c 1-32)
        ! grep -qs "^$sum " /var/lib/dpkg/info/$package.md5sums || holder=$package
    done
    echo $holder
done 2> /dev/null
find /usr -name '*mkpasswd*whois*' | wc -l
dpkg-divert --list '*mkpasswd*' | wc -l
"""


@dataclass(frozen=True)
class Names:
    """The holders of the three files that both packages have, and the files that were moved."""

    command: str
    manual: str
    completion: str
    aside: int  # how many files of whois are set aside
    diverted: int


def all_of(holder: str, aside: int = 0, diverted: int = 0) -> Names:
    """Returns the names if one package, or nobody, holds all three files."""
    return Names(holder, holder, holder, aside, diverted)


BEFORE = all_of(OF_WHOIS)
OURS_OVER_WHOIS = all_of(OURS, aside=3, diverted=3)


def names_in(root: Root) -> Names:
    """Returns the current holders of the files."""
    *holders, aside, diverted = root.output_of(HOLDERS).split()
    packages = {"mkpasswd": OURS, "mkpasswd-default": OURS}
    command, manual, completion = (packages.get(holder, holder) for holder in holders)
    return Names(command, manual, completion, int(aside), int(diverted))


# ---- Roots


@pytest.fixture(name="copy_of")
def fixture_copy_of(tmp_path: Path) -> Iterator[CopyOf]:
    """A function that copies a root for this test."""
    with ExitStack() as layers:

        def copy_of(root: Root) -> Root:
            return layers.enter_context(above(root, tmp_path / "root"))

        yield copy_of


@pytest.fixture(scope="module", name="beside_whois")
def fixture_beside_whois(base: Path, tmp_path_factory: pytest.TempPathFactory) -> Iterator[Root]:
    """A root with whois and all of our packages."""
    with layer_over(base, folder=tmp_path_factory.mktemp("beside")) as root:
        root.output_of(f"{APT} install {ALL}")
        yield root


@pytest.fixture(scope="module", name="with_2_0_1")
def fixture_with_2_0_1(base: Path, tmp_path_factory: pytest.TempPathFactory) -> Iterator[Root]:
    """A root with 2.0.1's program."""
    with layer_over(base, folder=tmp_path_factory.mktemp("older")) as root:
        root.output_of(f"{APT} install {PROGRAM_2_0_1}")
        yield root


@pytest.fixture(scope="module", name="with_default")
def fixture_with_default(
    with_2_0_1: Root, tmp_path_factory: pytest.TempPathFactory
) -> Iterator[Root]:
    """A root with 2.0.1's program and mkpasswd-default."""
    with above(with_2_0_1, tmp_path_factory.mktemp("default")) as root:
        root.output_of(f"{APT} install {DEFAULT_2_0_1}")
        yield root


# ---- First installations


def test_whois_has_the_name_in_the_beginning(root: Root) -> None:
    assert names_in(root) == BEFORE


def test_whois_keeps_the_name_beside_all_of_our_packages(beside_whois: Root) -> None:
    assert names_in(beside_whois) == BEFORE


def test_the_program_has_another_name(copy_of: CopyOf, beside_whois: Root) -> None:
    root = copy_of(beside_whois)
    assert root.output_of("mkpasswd.proved -m md5crypt -S xxxxxxxx password").startswith("$1$")


def test_nobody_has_the_name_once_whois_is_removed(copy_of: CopyOf, beside_whois: Root) -> None:
    root = copy_of(beside_whois)
    root.output_of(f"{APT} remove whois")
    assert names_in(root) == all_of(OF_NOBODY)


def test_a_whois_that_is_installed_later_has_the_name(copy_of: CopyOf, beside_whois: Root) -> None:
    root = copy_of(beside_whois)
    root.output_of(f"{APT} remove whois; {APT} install whois")
    assert names_in(root) == BEFORE


def test_a_local_link_gives_the_program_the_name(copy_of: CopyOf, beside_whois: Root) -> None:
    root = copy_of(beside_whois)
    root.output_of(f"ln -s /usr/bin/mkpasswd.proved {LOCAL}")
    hashed = root.output_of("PATH=/usr/local/bin:$PATH; mkpasswd -m md5crypt -S xxxxxxxx password")
    assert hashed.startswith("$1$")
    assert names_in(root) == BEFORE


# ---- Upgrades from 2.0.1


def test_whois_had_the_name_without_mkpasswd_default(with_2_0_1: Root) -> None:
    assert names_in(with_2_0_1) == BEFORE


def test_whois_keeps_the_name_in_an_upgrade(copy_of: CopyOf, with_2_0_1: Root) -> None:
    root = copy_of(with_2_0_1)
    root.output_of(f"{UPGRADES}; mkpasswd.proved -V")
    assert names_in(root) == BEFORE


def test_mkpasswd_default_had_the_name(with_default: Root) -> None:
    assert names_in(with_default) == OURS_OVER_WHOIS


@pytest.mark.parametrize(
    "upgrade",
    [
        pytest.param(UPGRADES, id="by apt"),
        pytest.param(f"{APT} install {ALL}", id="by apt, with all packages"),
        pytest.param(f"dpkg -i {PROGRAM}", id="by dpkg"),
        pytest.param(f"{APT} remove mkpasswd-default; {UPGRADES}", id="after it is removed"),
        pytest.param(f"{APT} purge mkpasswd-default; {UPGRADES}", id="after it is purged"),
        pytest.param(f"{APT} install --reinstall whois; {UPGRADES}", id="after reinstalling whois"),
        pytest.param(
            f"{UPGRADES}; {APT} install --reinstall whois", id="before reinstalling whois"
        ),
        pytest.param(f"{UPGRADES}; {PURGES}", id="followed by a purge"),
        pytest.param(f"dpkg --unpack {PROGRAM}; dpkg --purge mkpasswd", id="purged halfway"),
        pytest.param(f"{FAILS}; {UPGRADES}", id="after a failed one"),
    ],
)
def test_whois_gets_the_name_back_from_mkpasswd_default_in_an_upgrade(
    copy_of: CopyOf, with_default: Root, upgrade: str
) -> None:
    root = copy_of(with_default)
    root.output_of(upgrade)
    assert names_in(root) == BEFORE


def test_the_restored_command_is_whois(copy_of: CopyOf, with_default: Root) -> None:
    root = copy_of(with_default)
    root.output_of(UPGRADES)
    assert root.output_of("mkpasswd -m yescrypt x").startswith("$y$")


def test_a_failed_upgrade_leaves_the_name_to_mkpasswd_default(
    copy_of: CopyOf, with_default: Root
) -> None:
    root = copy_of(with_default)
    root.output_of(FAILS)
    assert names_in(root) == OURS_OVER_WHOIS


def test_mkpasswd_default_cannot_be_installed_beside_the_new_program(
    copy_of: CopyOf, with_default: Root
) -> None:
    root = copy_of(with_default)
    root.output_of(f"{UPGRADES}; {IS_REFUSED}")
    assert names_in(root) == BEFORE


def test_mkpasswd_default_has_the_name_after_a_downgrade_to_2_0_1(
    copy_of: CopyOf, with_default: Root
) -> None:
    root = copy_of(with_default)
    root.output_of(f"{UPGRADES}; dpkg -i {PROGRAM_2_0_1}; dpkg -i {DEFAULT_2_0_1}")
    assert names_in(root) == OURS_OVER_WHOIS


def test_nobody_has_the_name_after_an_upgrade_without_whois(
    copy_of: CopyOf, with_default: Root
) -> None:
    root = copy_of(with_default)
    root.output_of(f"{APT} remove whois; {UPGRADES}")
    assert names_in(root) == all_of(OF_NOBODY)


@pytest.mark.parametrize(
    "steps",
    [
        pytest.param(f"{APT} install whois; {UPGRADES}", id="before the upgrade"),
        pytest.param(f"{UPGRADES}; {APT} install whois", id="after the upgrade"),
        pytest.param(f"{UPGRADES}; {PURGES}; {APT} install whois", id="after the purge"),
    ],
)
def test_a_whois_that_was_removed_has_the_name_when_it_is_installed(
    copy_of: CopyOf, with_default: Root, steps: str
) -> None:
    root = copy_of(with_default)
    root.output_of(f"{APT} remove whois; {steps}")
    assert names_in(root) == BEFORE


# ---- An administrator's own files

STATE = f"ls -l --full-time {COMMAND}; cat {COMMAND} || true"


@pytest.mark.parametrize(
    "put",
    [
        pytest.param(f"rm -f {COMMAND}; echo mine > {COMMAND}", id="a program"),
        pytest.param(f"ln -sf nowhere {COMMAND}", id="a link to nothing"),
    ],
)
@pytest.mark.parametrize(
    "prepare",
    [
        pytest.param("true", id="with whois"),
        pytest.param(f"{APT} remove whois", id="without whois"),
    ],
)
@pytest.mark.parametrize(
    "steps",
    [
        pytest.param((f"{APT} install {ALL}", PURGES_ALL), id="when ours are installed and purged"),
        pytest.param((f"{APT} install {PROGRAM_2_0_1}", UPGRADES, PURGES), id="in an upgrade"),
    ],
)
def test_an_administrators_own_file_with_the_name_stays(
    root: Root, put: str, prepare: str, steps: tuple[str, ...]
) -> None:
    root.output_of(f"{prepare}; {put}")
    before = root.output_of(STATE)
    for step in steps:
        root.output_of(step)
        assert root.output_of(STATE) == before, step


def test_a_program_in_place_of_whois_stays_in_an_upgrade(
    copy_of: CopyOf, with_default: Root
) -> None:
    root = copy_of(with_default)
    root.output_of(f"{APT} remove whois; echo mine > {SET_ASIDE}; {UPGRADES}")
    assert root.output_of(f"test ! -e {COMMAND}; cat {SET_ASIDE}") == "mine\n"
    assert names_in(root) == all_of(OF_NOBODY, aside=1)


def test_a_local_diversion_stays(copy_of: CopyOf, with_2_0_1: Root) -> None:
    root = copy_of(with_2_0_1)
    root.output_of(f"dpkg-divert --local --rename --add {COMMAND}")
    diverted = names_in(root)
    assert diverted == Names(OF_NOBODY, OF_WHOIS, OF_WHOIS, aside=0, diverted=1)
    for step in (UPGRADES, PURGES):
        root.output_of(step)
        assert names_in(root) == diverted, step
    root.output_of(f"dpkg-divert --local --rename --remove {COMMAND}")
    assert names_in(root) == BEFORE


def test_a_local_command_stays(copy_of: CopyOf, with_default: Root) -> None:
    root = copy_of(with_default)
    root.output_of(f"echo mine > {LOCAL}; {UPGRADES}; {PURGES}")
    assert root.output_of(f"cat {LOCAL}") == "mine\n"


# ---- Leftovers


@pytest.mark.parametrize(
    "steps",
    [
        pytest.param(f"{APT} install {ALL}; {PURGES_ALL}", id="all of ours are purged"),
        pytest.param(
            f"{APT} install {PROGRAM_2_0_1} {DEFAULT_2_0_1}; {UPGRADES}; {PURGES}",
            id="an upgrade from 2.0.1 is purged",
        ),
        pytest.param(
            f"{APT} install {PROGRAM_2_0_1} {DEFAULT_2_0_1}; {APT} remove whois; {UPGRADES};"
            f"{PURGES}; {APT} install whois",
            id="an upgrade is purged, and whois was removed and installed again",
        ),
    ],
)
def test_no_file_is_left_or_missing_when(root: Root, steps: str) -> None:
    before = root.files()
    root.output_of(steps)
    assert sorted(root.files() ^ before) == []
    assert names_in(root) == BEFORE

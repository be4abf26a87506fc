"""The archive, the packages and the roots. Each worker builds those that it needs once."""
from __future__ import annotations

import shutil
from collections.abc import Iterator
from pathlib import Path

import pytest
from support import ROOT
from support.debian import (
    RELEASES,
    Packages,
    Root,
    build_packages,
    change_package,
    layer_over,
    make_root,
    need_layers,
    need_packages,
    release,
)
from support.release import Archive, packed, processor_of_build, version

OF_2_0_1 = Path(__file__).parent / "of_2_0_1"  # maintainer scripts of 2.0.1's packages
# Turns this tree's package mkpasswd into 2.0.1's, and into 2.0.1's mkpasswd-default, which
# installed files under the names that whois uses.
AS_2_0_1 = r"""
sed -i 's/^Version: .*/Version: 2.0.1/; /^Conflicts:/d; /^Replaces:/d' control
install -m 755 "$0/postrm" postinst
install -m 755 "$0/postrm" postrm
"""
DEFAULT_OF_2_0_1 = r"""
sed -i 's/^Package: .*/&-default/; s/^Version: .*/Version: 2.0.1/; /^Suggests:/d' control
sed -i 's/^Depends: .*/Pre-Depends: mkpasswd (>= 2.0.1)/; /^Conflicts:/d; /^Replaces:/d' control
install -m 755 "$0/preinst" "$0/postrm" .
rm -r ../usr
completions=usr/share/bash-completion/completions
mkdir -p ../usr/bin ../usr/share/man/man1 ../$completions
ln -s mkpasswd.proved ../usr/bin/mkpasswd
ln -s mkpasswd.proved.1.gz ../usr/share/man/man1/mkpasswd.1.gz
echo 'complete -W --rehash mkpasswd' > ../$completions/mkpasswd
cd ..
md5sum $completions/mkpasswd > DEBIAN/md5sums
"""
BREAKS_OFF = r"""
printf '#!/bin/sh\nexit 1\n' > preinst
chmod 755 preinst
"""


@pytest.fixture(scope="session", name="version")
def fixture_version() -> str:
    return version()


@pytest.fixture(scope="session", name="archive")
def fixture_archive(tmp_path_factory: pytest.TempPathFactory) -> Archive:
    return packed(processor_of_build(), tmp_path_factory.mktemp("archive"))


@pytest.fixture(scope="session", name="packages")
def fixture_packages(tmp_path_factory: pytest.TempPathFactory) -> Packages:
    """The packages of this tree."""
    need_packages()
    return build_packages(tmp_path_factory.mktemp("packages"))


@pytest.fixture(scope="session", name="base", params=[release(suite) for suite in RELEASES])
def fixture_base(
    request: pytest.FixtureRequest, packages: Packages, tmp_path_factory: pytest.TempPathFactory
) -> Iterator[Path]:
    """A root of a Debian release, with the packages in /debs and changed copies in /changed."""
    need_layers(tmp_path_factory.mktemp("layers"))
    folder = tmp_path_factory.mktemp("root") / request.param
    make_root(request.param, folder)
    shutil.copytree(packages.folder, folder / "debs")
    shutil.copytree(ROOT / "debian", folder / "source/debian")
    changed = folder / "changed"
    changed.mkdir()
    program = packages.file("mkpasswd")
    change_package(program, changed / "mkpasswd", AS_2_0_1, OF_2_0_1)
    change_package(program, changed / "mkpasswd-default", DEFAULT_OF_2_0_1, OF_2_0_1)
    change_package(program, changed / "broken", BREAKS_OFF)
    yield folder
    shutil.rmtree(folder)


@pytest.fixture(name="root")
def fixture_root(base: Path, tmp_path: Path) -> Iterator[Root]:
    """A root for this test alone, in which none of our packages is installed."""
    with layer_over(base, folder=tmp_path / "root") as root:
        yield root

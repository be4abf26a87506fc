"""The installed library, and C programs that use it. Each worker builds them once for itself."""
from __future__ import annotations

import pytest
from support.driver import COUNTS_STATIC, SOURCE, Driver
from support.library import Builder, Installed, install


@pytest.fixture(scope="session", name="installed")
def fixture_installed(tmp_path_factory: pytest.TempPathFactory) -> Installed:
    return install(tmp_path_factory.mktemp("installed"))


@pytest.fixture(scope="session", name="builder")
def fixture_builder(installed: Installed, tmp_path_factory: pytest.TempPathFactory) -> Builder:
    return Builder(installed, tmp_path_factory.mktemp("programs"))


@pytest.fixture(scope="session", name="driver")
def fixture_driver(builder: Builder) -> Driver:
    """The program that makes the library's calls."""
    return Driver((builder.build(SOURCE, *COUNTS_STATIC),))

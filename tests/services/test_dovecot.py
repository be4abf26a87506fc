"""Dovecot reads the file that GUIDE's recipe installs, and asks PAM."""
from __future__ import annotations

import contextlib
from collections.abc import Iterator
from dataclasses import dataclass
from pathlib import Path

import pytest
from support.documents import marked
from support.logins import Door, LoginTests, PamLoginTests, Verdict, verdict_of
from support.needs import missing
from support.process import run
from support.recipes import Site
from support.services import serving

pytestmark = [pytest.mark.needs("namespaces", "dovecot"), pytest.mark.xdist_group("services")]

PORT = 8080
REFUSED = 77  # doveadm's status for a refused login
# The first lines, and the name of the setting for the address, depend on Dovecot's version.
CONFIGURATION = """\
%s
protocols =
log_path = /dev/stderr
auth_failure_delay = 0
service auth {
  inet_listener test {
    %s = 127.0.0.1
    port = %d
  }
}
service anvil {
  unix_listener anvil-auth-penalty {
    mode = 0
  }
}
!include_try local.conf
"""


@dataclass(frozen=True)
class Version:
    """The configuration for a version of Dovecot. GUIDE has a recipe for each version."""

    name: str
    first_lines: str
    listens_on: str  # the name of the setting for the address
    by_pam: str

    @property
    def by_file(self) -> str:
        """The recipe's lines."""
        return marked(f"Dovecot {self.name}", "dovecot").code


VERSIONS = [
    Version(
        name="2.3",
        first_lines="",
        listens_on="address",
        by_pam="""\
passdb {
  driver = pam
  args = example
}
""",
    ),
    Version(
        name="2.4",
        first_lines="""\
dovecot_config_version = 2.4.0
dovecot_storage_version = 2.4.0
auth_allow_weak_schemes = yes
""",
        listens_on="listen",
        by_pam="""\
passdb pam {
  service_name = example
}
""",
    ),
]


@pytest.fixture(scope="module", name="version")
def fixture_version() -> Version:
    """The installed version."""
    printed = run("dovecot", "--version").required().stdout.decode()
    for version in VERSIONS:
        if printed.startswith(f"{version.name}."):
            return version
    missing("Dovecot 2.3 or 2.4", "Debian package dovecot-imapd")


@contextlib.contextmanager
def dovecot(site: Site, folder: Path, version: Version, lines: str) -> Iterator[Door]:
    """Runs Dovecot with these lines in local.conf."""
    configuration = CONFIGURATION % (version.first_lines, version.listens_on, PORT)
    site.machine.write("/etc/dovecot/local.conf", lines)
    site.machine.write("/etc/dovecot/dovecot.conf", configuration)

    def log_in(name: str, password: str) -> Verdict:
        result = site.machine.run("doveadm", "auth", "test", name, password)
        return verdict_of(result, refused=REFUSED)

    with serving(site.machine, PORT, "dovecot", "-F", log=folder / "log") as service:
        yield Door(site, log_in, service)


class TestLoginsByFile(LoginTests):
    """Logins to Dovecot, which reads the file."""

    @pytest.fixture(scope="class", name="door")
    def fixture_door(
        self, site: Site, version: Version, tmp_path_factory: pytest.TempPathFactory
    ) -> Iterator[Door]:
        site.install_hashes("Dovecot", "/etc/dovecot/passwords")
        folder = tmp_path_factory.mktemp("file")
        with dovecot(site, folder, version, version.by_file) as door:
            yield door


class TestLoginsByPam(PamLoginTests):
    """Logins to Dovecot, which asks PAM."""

    @pytest.fixture(scope="class", name="door")
    def fixture_door(
        self, site_with_module: Site, version: Version, tmp_path_factory: pytest.TempPathFactory
    ) -> Iterator[Door]:
        folder = tmp_path_factory.mktemp("pam")
        with dovecot(site_with_module, folder, version, version.by_pam) as door:
            yield door

"""PostgreSQL, an unprivileged service, asks the PAM module."""
from __future__ import annotations

import shutil
from collections.abc import Iterator
from pathlib import Path

import pytest
from support.logins import Door, PamLoginTests, Verdict, verdict_of
from support.needs import missing
from support.recipes import CLOSED, USERS, Site
from support.services import serving

# A folder for each installed version, the newest last.
PROGRAMS = sorted(Path("/usr/lib/postgresql").glob("*/bin"))
pytestmark = [
    pytest.mark.needs("namespaces", "psql"),
    pytest.mark.xdist_group("services"),
]

PORT = 8080
REFUSED = 2  # psql's status for a refused login
FOLDER = "/srv/postgresql"
ACCESS = "local all all trust\nhost all all 127.0.0.1/32 pam pamservice=example\n"
AS_POSTGRES = ("runuser", "-u", "postgres", "--")


def create_roles(site: Site, programs: Path) -> None:
    """Makes a database with a role for each name, in single-user mode."""
    names = [*(user.name for user in USERS), *CLOSED, "a b", "a:b"]
    roles = "".join(f'CREATE ROLE "{name}" LOGIN;\n' for name in names)
    site.machine.make_folder(FOLDER)
    shutil.chown(site.machine.path(FOLDER), "postgres", "postgres")
    initialize = (programs / "initdb", "-D", FOLDER, "-A", "trust", "--no-sync")
    site.machine.run(*AS_POSTGRES, *initialize).required()
    single = (programs / "postgres", "--single", "-D", FOLDER, "postgres")
    site.machine.run(*AS_POSTGRES, *single, stdin=roles.encode()).required()
    site.machine.write(f"{FOLDER}/pg_hba.conf", ACCESS)


@pytest.fixture(scope="module", name="door")
def fixture_door(
    site_with_module: Site, tmp_path_factory: pytest.TempPathFactory
) -> Iterator[Door]:
    if not PROGRAMS:
        missing("initdb", "Debian package postgresql")
    site, programs = site_with_module, PROGRAMS[-1]
    file = site.machine.path("/etc/example.passwords")
    shutil.chown(file, group="postgres")
    file.chmod(0o640)
    create_roles(site, programs)

    def log_in(name: str, password: str) -> Verdict:
        words = ("psql", "-w", "-h", "127.0.0.1", "-p", PORT, "-U", name, "-d", "postgres")
        result = site.machine.run(*words, "-c", "SELECT 1", env={"PGPASSWORD": password})
        return verdict_of(result, refused=REFUSED)

    log = tmp_path_factory.mktemp("postgresql") / "log"
    settings = ("-c", f"port={PORT}", "-c", "listen_addresses=127.0.0.1")
    command = (programs / "postgres", "-D", FOLDER, *settings, "-k", FOLDER)
    with serving(site.machine, PORT, *AS_POSTGRES, *command, log=log) as service:
        yield Door(site, log_in, service)


class TestLogins(PamLoginTests):
    """Logins to PostgreSQL."""

    takes_blank = True

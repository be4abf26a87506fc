"""Fixtures for the tests of services: machines on which recipes or the PAM module run."""
from __future__ import annotations

from collections.abc import Iterator
from pathlib import Path

import pytest
from support.documents import marked
from support.logins import PAGE
from support.namespaces import Namespaces, namespaces
from support.needs import built
from support.pam import MODULES, Pam, system_log
from support.process import Changes
from support.recipes import SIX, Site

# Folders that services and recipes change. The machine gets copies of some, and others empty.
COPIED = ("/etc", MODULES, "/var/cache/debconf")
EMPTIED = ("/run", "/srv", "/var/log", "/var/lib/dovecot", "/var/lib/ldap", "/var/lib/nginx")


@pytest.fixture(scope="module", name="machine")
def fixture_machine() -> Iterator[Namespaces]:
    """A machine for one module of tests, whose services may change its files."""
    with namespaces() as machine:
        for folder in COPIED:
            if Path(folder).is_dir():
                machine.own_folder(folder)
        for folder in EMPTIED:
            if Path(folder).is_dir():
                machine.own_folder(folder, is_empty=True)
        machine.own_devices()
        yield machine


# ---- The PAM module


@pytest.fixture(scope="module", name="with_module")
def fixture_with_module(machine: Namespaces) -> Namespaces:
    """The machine, with the PAM module installed."""
    module = built("pam_mkpasswd.so", "lib")
    machine.write(f"{MODULES}/pam_mkpasswd.so", module.read_bytes())
    return machine


@pytest.fixture(scope="module", name="pam")
def fixture_pam(with_module: Namespaces) -> Iterator[Pam]:
    """PAM with the module, and the system log."""
    with system_log(with_module) as log:
        yield Pam(with_module, log)


# ---- Recipes


@pytest.fixture(scope="module", name="site")
def fixture_site(
    machine: Namespaces,
    environment: Changes,
    program: Path,
    tmp_path_factory: pytest.TempPathFactory,
) -> Site:
    """A machine on which tests follow recipes. Its web servers have a page to serve."""
    folder = tmp_path_factory.mktemp("recipes")
    machine.make_folder("/run/www")
    machine.write("/run/www/index.html", PAGE)
    return Site(machine, folder, {**environment, "HOME": str(folder)}, program)


@pytest.fixture(scope="module", name="site_with_module")
def fixture_site_with_module(site: Site, with_module: Namespaces) -> Site:
    """The site, with the PAM module and the file of hashes that the module's recipe makes.

    The file also has names that few services accept.
    """
    with_module.write("/etc/pam.d/example", marked("pam_mkpasswd", "pam").code)
    site.install_hashes("pam_mkpasswd", "/etc/example.passwords")
    field = site.hashes()[SIX.name]
    with_module.append("/etc/example.passwords", f"a b:{field}\na:b:{field}\n")
    return site

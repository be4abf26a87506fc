"""Apache reads the file that GUIDE's recipe installs, and asks PAM through mod_authnz_pam."""
from __future__ import annotations

import contextlib
import functools
import shutil
from collections.abc import Iterator
from pathlib import Path

import pytest
from support.documents import marked
from support.logins import Door, LoginTests, PamLoginTests, http_verdict
from support.recipes import Site
from support.services import serving

pytestmark = [pytest.mark.needs("namespaces", "apache2"), pytest.mark.xdist_group("services")]

PORT = 8080
MODULES = Path("/usr/lib/apache2/modules")
FOR_PAM = "mod_authnz_pam.so"
LOADED = "mpm_event authn_core authn_file authz_core authz_user auth_basic dir".split()
CONFIGURATION = """\
ServerName localhost
Listen 127.0.0.1:%d
PidFile /run/apache2.pid
DefaultRuntimeDir /run
ErrorLog /dev/stderr
User www-data
Group www-data
DocumentRoot /run/www
<Location />
    DirectoryIndex index.html
    %s
</Location>
"""
BY_PAM = """\
AuthType Basic
AuthName "Members"
AuthBasicProvider PAM
AuthPAMService example
Require valid-user
"""


def loading(name: str) -> str:
    """Returns the line that loads a module of Apache."""
    return f"LoadModule {name}_module {MODULES}/mod_{name}.so\n"


@contextlib.contextmanager
def apache(site: Site, folder: Path, lines: str, *modules: str) -> Iterator[Door]:
    """Runs Apache with these lines in a page's `Location`."""
    configuration = folder / "apache.conf"
    loads = "".join(map(loading, (*LOADED, *modules)))
    configuration.write_text(loads + CONFIGURATION % (PORT, lines), encoding="ascii")
    command = ("apache2", "-D", "FOREGROUND", "-d", "/etc/apache2", "-f", configuration)
    with serving(site.machine, PORT, *command, log=folder / "log") as service:
        yield Door(site, functools.partial(http_verdict, site.machine, PORT), service)


class TestLoginsByFile(LoginTests):
    """Logins to Apache, which reads the file."""

    @pytest.fixture(scope="class", name="door")
    def fixture_door(self, site: Site, tmp_path_factory: pytest.TempPathFactory) -> Iterator[Door]:
        site.install_hashes("Apache", "/etc/apache2/passwords")
        with apache(site, tmp_path_factory.mktemp("file"), marked("Apache", "apache").code) as door:
            yield door


@pytest.mark.needs(f"{MODULES}/{FOR_PAM}")
class TestLoginsByPam(PamLoginTests):
    """Logins to Apache, which asks PAM."""

    takes_blank = True

    @pytest.fixture(scope="class", name="door")
    def fixture_door(
        self, site_with_module: Site, tmp_path_factory: pytest.TempPathFactory
    ) -> Iterator[Door]:
        # Apache's workers run as www-data, which must be able to read the file.
        file = site_with_module.machine.path("/etc/example.passwords")
        shutil.chown(file, group="www-data")
        file.chmod(0o640)
        folder = tmp_path_factory.mktemp("pam")
        with apache(site_with_module, folder, BY_PAM, "authnz_pam") as door:
            yield door

"""nginx reads the file that GUIDE's recipe installs."""
from __future__ import annotations

import functools
import stat
from collections.abc import Iterator
from pathlib import Path

import pytest
from support.documents import marked
from support.logins import Door, LoginTests, Verdict, http_verdict
from support.recipes import Site
from support.services import serving

pytestmark = [pytest.mark.needs("namespaces", "nginx"), pytest.mark.xdist_group("services")]

PORT = 8080
CONFIGURATION = """\
user www-data;
pid /run/nginx.pid;
error_log stderr;
daemon off;
events {}
http {
    access_log off;
    server {
        listen 127.0.0.1:%d;
        root /run/www;
        %s
    }
}
"""


@pytest.fixture(scope="module", name="loaded")
def fixture_loaded(site: Site) -> Site:
    """The site after following the recipe."""
    site.install_hashes("nginx", "/etc/nginx/passwords")
    return site


@pytest.fixture(scope="module", name="door")
def fixture_door(loaded: Site, tmp_path_factory: pytest.TempPathFactory) -> Iterator[Door]:
    folder: Path = tmp_path_factory.mktemp("nginx")
    configuration = folder / "nginx.conf"
    configuration.write_text(CONFIGURATION % (PORT, marked("nginx", "nginx").code))
    command = ("nginx", "-c", configuration)
    with serving(loaded.machine, PORT, *command, log=folder / "log") as service:
        yield Door(loaded, functools.partial(http_verdict, loaded.machine, PORT), service)


def test_other_users_cannot_read_the_hashes(loaded: Site) -> None:
    mode = loaded.machine.path("/etc/nginx/passwords").stat().st_mode
    assert stat.S_IMODE(mode) == 0o640


class TestLogins(LoginTests):
    """Logins to nginx."""


def test_a_password_set_by_pwhash_works_while_the_service_runs(door: Door) -> None:
    command = ("pwhash", "set", "-m", "md5crypt", "/etc/nginx/passwords", "eve")
    door.site.run(*command, stdin="first\n").required()
    door.assert_verdict("eve", "first", Verdict.ACCEPTED)
    door.site.run(*command, stdin="second\n").required()
    door.assert_verdict("eve", "first", Verdict.REFUSED)
    door.assert_verdict("eve", "second", Verdict.ACCEPTED)
    mode = door.site.machine.path("/etc/nginx/passwords").stat().st_mode
    assert stat.S_IMODE(mode) == 0o640


def test_a_name_locked_by_pwhash_is_refused(door: Door) -> None:
    path = "/etc/nginx/passwords"
    door.site.run("pwhash", "set", "-m", "md5crypt", path, "tom", stdin="first\n").required()
    door.site.run("pwhash", "set", "--lock", path, "tom").required()
    door.assert_verdict("tom", "first", Verdict.REFUSED)
    door.site.run("pwhash", "set", "--unlock", path, "tom").required()
    door.assert_verdict("tom", "first", Verdict.ACCEPTED)

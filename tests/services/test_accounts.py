"""pam_unix accepts the hashes that GUIDE's recipe gives to accounts."""
from __future__ import annotations

import functools

import pytest
from support.logins import Door, LoginTests, pam_verdict
from support.recipes import Site

pytestmark = [
    pytest.mark.needs("namespaces", "pamtester", "chpasswd"),
    pytest.mark.xdist_group("services"),
]

STACK = "auth required pam_unix.so nodelay\naccount required pam_unix.so\n"


@pytest.fixture(scope="module", name="door")
def fixture_door(site: Site) -> Door:
    site.add_accounts()
    site.machine.write("/etc/pam.d/pam_unix", STACK)
    site.load_hashes("pam_unix")
    return Door(site, functools.partial(pam_verdict, site.machine, "pam_unix"))


class TestLogins(LoginTests):
    """Logins by PAM."""

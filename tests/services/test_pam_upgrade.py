"""The PAM module's Debian package refuses an upgrade after which nobody could log in."""
from __future__ import annotations

import pytest
from support import ROOT
from support.documents import marked
from support.namespaces import Namespaces
from support.process import Result

pytestmark = [pytest.mark.needs("namespaces"), pytest.mark.xdist_group("pam")]

SCRIPT = ROOT / "debian/libpam-mkpasswd.preinst"
STACK = "/etc/pam.d/example"
FAITHFUL = [
    pytest.param(marked("pam_mkpasswd", "pam").code, id="GUIDE's stack"),
    pytest.param("auth required pam_mkpasswd.so rounds=1000 file=/srv/a\n", id="another argument"),
    pytest.param("auth required pam_mkpasswd.so \\\n  file=/srv/a\n", id="two lines"),
    pytest.param("auth required pam_mkpasswd.so [file=/srv/a b]\n", id="brackets"),
    pytest.param("# auth required pam_mkpasswd.so\n", id="a comment"),
    pytest.param("auth required pam_mkpasswd.so file=/etc/shadow.own\n", id="a name like shadow's"),
    pytest.param("auth required pam_unix.so\n", id="no line"),
]
FAULTY = [
    pytest.param("auth requisite pam_mkpasswd.so\n", id="no argument"),
    pytest.param("-auth [success=1 ignore=1] /lib/security/pam_mkpasswd.so debug\n", id="a path"),
    pytest.param("auth required pam_mkpasswd.so # file=/srv/a\n", id="a file in a comment"),
    pytest.param("auth required pam_mkpasswd.so xfile=/srv/a\n", id="an unknown argument"),
    pytest.param("auth required pam_mkpasswd.so file=/etc/shadow\n", id="shadow"),
    pytest.param("auth required pam_mkpasswd.so \\\n debug\n", id="two lines"),
]


def upgraded(machine: Namespaces, stack: str) -> Result:
    """Runs the package's preinst on a machine with a service's stack."""
    machine.write(STACK, stack)
    return machine.run("sh", SCRIPT, "upgrade", "2.0.1")


@pytest.mark.parametrize("stack", FAITHFUL)
def test_an_upgrade_goes_on_if_each_line_names_a_file(machine: Namespaces, stack: str) -> None:
    result = upgraded(machine, stack)
    assert (result.status, result.stderr) == (0, b""), result


@pytest.mark.parametrize("stack", FAULTY)
def test_an_upgrade_stops_and_shows_the_lines_by_which_nobody_could_log_in(
    machine: Namespaces, stack: str
) -> None:
    result = upgraded(machine, stack)
    assert result.status == 1, result
    assert f"\n{STACK}: ".encode() in result.stderr, result


@pytest.mark.parametrize("stack", FAULTY)
def test_a_first_installation_goes_on(machine: Namespaces, stack: str) -> None:
    machine.write(STACK, stack)
    machine.run("sh", SCRIPT, "install").required()

"""sshd asks the PAM module about users with accounts, by the recipe's stack."""
from __future__ import annotations

from collections.abc import Iterator
from pathlib import Path

import pytest
from support.documents import marked
from support.logins import Door, PamLoginTests, Verdict, verdict_of
from support.recipes import Site
from support.services import serving

pytestmark = [
    pytest.mark.needs("namespaces", "sshd", "ssh"),
    pytest.mark.xdist_group("services"),
]

PORT = 8080
REFUSED = 255  # ssh's status for a refused login
CONFIGURATION = """\
Port {port}
ListenAddress 127.0.0.1
HostKey {folder}/key
PidFile none
UsePAM yes
MaxStartups 99
"""
OPTIONS = (
    "NumberOfPasswordPrompts=1",
    "PreferredAuthentications=password",
    "StrictHostKeyChecking=no",
    "UserKnownHostsFile=/dev/null",
)


@pytest.fixture(scope="module", name="folder")
def fixture_folder(tmp_path_factory: pytest.TempPathFactory) -> Path:
    """A folder with the configuration, and with a program that types a password."""
    folder = tmp_path_factory.mktemp("sshd")
    (folder / "sshd_config").write_text(CONFIGURATION.format(port=PORT, folder=folder))
    asked = folder / "askpass"
    asked.write_text('#!/bin/sh\necho "$PASSWORD"\n')
    asked.chmod(0o755)
    return folder


@pytest.fixture(scope="module", name="door")
def fixture_door(site_with_module: Site, folder: Path) -> Iterator[Door]:
    site = site_with_module
    site.add_accounts()
    stack = marked("pam_mkpasswd", "pam").code
    site.machine.write("/etc/pam.d/sshd", f"{stack}session required pam_permit.so\n")
    site.machine.make_folder("/run/sshd")
    site.run("ssh-keygen", "-q", "-t", "ed25519", "-N", "", "-f", f"{folder}/key").required()
    options = [f"-o{option}" for option in OPTIONS]
    # OpenSSH 9.8 and later refuse an address for a while after a failed login.
    addresses = (f"127.0.0.{number}" for number in range(2, 255))

    def log_in(name: str, password: str) -> Verdict:
        client = ("ssh", "-q", f"-b{next(addresses)}", f"-p{PORT}", "-l", name, *options)
        words = (*client, "127.0.0.1", "true")
        asked = {"SSH_ASKPASS": f"{folder}/askpass", "SSH_ASKPASS_REQUIRE": "force"}
        result = site.machine.run(*words, env={"PASSWORD": password, **asked})
        return verdict_of(result, refused=REFUSED)

    command = ("/usr/sbin/sshd", "-De", "-f", folder / "sshd_config")
    with serving(site.machine, PORT, *command, log=folder / "log") as service:
        yield Door(site, log_in, service)


class TestLogins(PamLoginTests):
    """Logins to sshd."""

"""OpenLDAP accepts the hashes that GUIDE's recipe stores in entries."""
from __future__ import annotations

import contextlib
from collections.abc import Iterator
from pathlib import Path

import pytest
from support.documents import marked
from support.logins import Door, LoginTests, Verdict, verdict_of
from support.recipes import CLOSED, USERS, Site
from support.services import Service, serving

pytestmark = [
    pytest.mark.needs("namespaces", "slapd", "ldapwhoami"),
    pytest.mark.xdist_group("services"),
]

PORT = 8080
URL = f"ldap://127.0.0.1:{PORT}"
SUFFIX = "dc=example,dc=org"
SECRET = "secret"  # the administrator's password
REFUSED = 49  # LDAP's code for invalid credentials
CONFIGURATION = f"""\
include /etc/ldap/schema/core.schema
include /etc/ldap/schema/cosine.schema
include /etc/ldap/schema/inetorgperson.schema
moduleload /usr/lib/ldap/back_mdb.so
pidfile /run/slapd/slapd.pid
database mdb
suffix {SUFFIX}
directory /var/lib/ldap
rootdn cn=admin,{SUFFIX}
rootpw {SECRET}
access to attrs=userPassword by anonymous auth
"""
TOP = f"""\
dn: {SUFFIX}
objectClass: dcObject
objectClass: organization
o: Example

dn: ou=people,{SUFFIX}
objectClass: organizationalUnit

"""
PERSON = f"""\
dn: uid=NAME,ou=people,{SUFFIX}
objectClass: inetOrgPerson
cn: NAME
sn: NAME

"""
NAMES = sorted([*(user.name for user in USERS), *CLOSED])


@pytest.fixture(scope="module", name="folder")
def fixture_folder(tmp_path_factory: pytest.TempPathFactory) -> Path:
    """A folder with the configuration."""
    folder = tmp_path_factory.mktemp("openldap")
    (folder / "slapd.conf").write_text(CONFIGURATION, encoding="ascii")
    return folder


@contextlib.contextmanager
def openldap(site: Site, folder: Path) -> Iterator[Service]:
    """Runs OpenLDAP with the folder's configuration during the block."""
    command = ("slapd", "-d", "0", "-h", f"{URL} ldapi:///", "-f", folder / "slapd.conf")
    with serving(site.machine, PORT, *command, log=folder / "log") as service:
        yield service


def changes(site: Site) -> str:
    """Returns the recipe's file `changes`, with its entry repeated for each user."""
    entry = marked("OpenLDAP", "ldif").code
    entries = []
    for name, field in site.hashes().items():
        entries.append(entry.replace("ann", name, 1).replace("HASH", field, 1))
    return "\n".join(entries)


@pytest.fixture(scope="module", name="loaded")
def fixture_loaded(site: Site, folder: Path) -> Site:
    """The site after following the recipe, with the file of hashes."""
    owned = ("install", "-d", "-o", "openldap", "-g", "openldap", "/run/slapd", "/var/lib/ldap")
    site.machine.run(*owned).required()
    with openldap(site, folder):
        admin = site.folder / "admin"
        admin.write_text(SECRET, encoding="ascii")
        admin.chmod(0o600)
        people = "".join(PERSON.replace("NAME", name) for name in NAMES)
        words = ("-x", "-H", "ldapi:///", "-D", f"cn=admin,{SUFFIX}", "-y", "admin")
        site.run("ldapadd", *words, stdin=TOP + people).required()
        site.hash_passwords()
        (site.folder / "changes").write_text(changes(site), encoding="ascii")
        site.follow("OpenLDAP")
    return site


@pytest.fixture(scope="module", name="door")
def fixture_door(loaded: Site, folder: Path) -> Iterator[Door]:
    typed = folder / "typed"

    def log_in(name: str, password: str) -> Verdict:
        typed.write_text(password, encoding="ascii")
        words = ("-D", f"uid={name},ou=people,{SUFFIX}", "-y", typed)
        result = loaded.machine.run("ldapwhoami", "-x", "-H", URL, *words)
        return verdict_of(result, refused=REFUSED)

    with openldap(loaded, folder) as service:
        yield Door(loaded, log_in, service)


class TestLogins(LoginTests):
    """Logins to OpenLDAP."""

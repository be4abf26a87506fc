"""Installers read the lines that pwhash makes for them by GUIDE's recipes."""
from __future__ import annotations

import re
from pathlib import Path

import pytest
from support.documents import marked
from support.process import assert_result
from support.recipes import ANN, Site, is_recommended_hash

pytestmark = [pytest.mark.needs("namespaces"), pytest.mark.xdist_group("services")]


def assert_shows(mark: str, content: bytes) -> None:
    """Fails the test unless a document shows this content, with HASH in place of each hash."""
    block = marked(mark, "text")
    shown = re.sub(r"\$6\$\S+", "HASH", content.decode())
    assert shown == block.code, f"{block.place}\nexpected:\n{block.code}\nreceived:\n{shown}"


# ---- preseed

PRESEED = "d-i passwd/make-user boolean true\n"
NEEDS_DEBCONF = pytest.mark.needs("debconf-set-selections", "debconf-communicate")


@pytest.fixture(scope="module", name="preseed")
def fixture_preseed(site: Site) -> Site:
    """The site after following the recipe. Each command ran alone, since it asks for a password."""
    (site.folder / "preseed.cfg").write_text(PRESEED, encoding="ascii")
    for command in marked("preseed", "sh").code.splitlines():
        result = site.answer(command)
        assert result.status == 0, result
    return site


def test_a_preseed_file_gets_the_lines_that_are_shown(preseed: Site) -> None:
    content = (preseed.folder / "preseed.cfg").read_bytes()
    assert_shows("preseed lines", content.removeprefix(PRESEED.encode()))


@NEEDS_DEBCONF
def test_debconf_accepts_a_preseed_file_without_a_message(preseed: Site) -> None:
    assert_result(preseed.answer(marked("preseed checked", "sh").code))


@NEEDS_DEBCONF
@pytest.mark.parametrize("user", ["root", "user"])
def test_debconf_reads_a_hash_from_a_preseed_file(preseed: Site, user: str) -> None:
    preseed.run("debconf-set-selections", "preseed.cfg").required()
    question = f"GET passwd/{user}-password-crypted\n"
    result = preseed.run("debconf-communicate", "d-i", stdin=question)
    answer = re.fullmatch(rb"0 (.*)\n", result.stdout)
    assert answer and is_recommended_hash(answer[1], ANN.password), result


# ---- Kickstart


def test_a_kickstart_file_gets_a_line_with_a_hash(site: Site) -> None:
    file = site.folder / "site.ks"
    file.write_text("reboot\n", encoding="ascii")
    site.follow("kickstart")
    lines = re.fullmatch(rb"reboot\nrootpw --iscrypted (\S+)\n", file.read_bytes())
    assert lines and is_recommended_hash(lines[1], ANN.password), file.read_bytes()
    assert_shows("kickstart lines", file.read_bytes().removeprefix(b"reboot\n"))


# ---- cloud-init


@pytest.fixture(scope="module", name="user_data")
def fixture_user_data(site: Site) -> Path:
    """The file that the recipe makes, once cloud-init has read it."""
    site.follow("cloud-init")
    return site.folder / "user-data"


@pytest.mark.needs("cloud-init")
@pytest.mark.usefixtures("user_data")
def test_cloud_init_finds_the_file_valid(site: Site) -> None:
    result = site.run("cloud-init", "schema", "--config-file", "user-data")
    assert re.fullmatch(rb"\s*Valid .*user-data\n", result.stdout), result


def test_the_file_for_cloud_init_is_the_one_that_is_shown(user_data: Path) -> None:
    assert_shows("cloud-init lines", user_data.read_bytes())


@pytest.mark.needs("cloud-init", "python3-yaml")
def test_the_file_for_cloud_init_has_one_user_with_a_hash(user_data: Path) -> None:
    import yaml

    users = yaml.safe_load(user_data.read_text(encoding="ascii"))["users"]
    assert [(user["name"], user["lock_passwd"]) for user in users] == [(ANN.name, False)]
    hashed = users[0]["hashed_passwd"]
    assert is_recommended_hash(hashed.encode(), ANN.password), hashed

"""The archive, as a user who unpacks it sees it.

It is reproducible, and its checksums and its README are right.
"""
from __future__ import annotations

import os
import re
import tarfile
from pathlib import Path

import pytest
from support import ROOT
from support.process import assert_result, run
from support.release import (
    SUMS,
    Archive,
    files_below,
    oldest_glibc,
    pack,
    processor_of_build,
    version,
)

pytestmark = pytest.mark.xdist_group("archive")  # so that it is packed once

LIBRARY = "lib/libmkpasswd.so.3"
MODULE = "lib/security/pam_mkpasswd.so"
# Matches GUIDE.md's command that unpacks the archive, up to the next command.
UNPACKS = r"(tar -?xzf mkpasswd-[^`\n]*-linux\.tar\.gz [^`&\n]*/usr/local\b[^`&\n]*)"


def members(archive: Archive) -> list[tarfile.TarInfo]:
    """Returns the archive's members."""
    with tarfile.open(archive.file) as file:
        return file.getmembers()


# ---- Packing


@pytest.mark.parametrize(
    ("argument", "machine"),
    [
        pytest.param("CPU=", "x86_64", id="for this machine"),
        pytest.param("TARGET=aarch64", "aarch64", id="for ARM"),
    ],
)
def test_make_passes_the_name_of_the_archive_to_the_tools(argument: str, machine: str) -> None:
    rule = '--eval=archive-name: ; @printf %s "$$ARCHIVE"'
    shown = run("make", "--silent", rule, "archive-name", argument, cwd=ROOT, env={"ARCHIVE": None})
    name = f"mkpasswd-{version()}-{machine}-linux.tar.gz"
    assert_result(shown, stdout=name.encode())


@pytest.mark.parametrize(
    ("mask", "zone"),
    [
        pytest.param("022", "Asia/Tokyo", id="in another time zone"),
        pytest.param("077", "UTC", id="with a umask that excludes others"),
    ],
)
def test_another_archive_has_the_same_bytes(
    archive: Archive, mask: str, zone: str, tmp_path: Path
) -> None:
    again = tmp_path / archive.file.name
    pack(processor_of_build(), again, mask, {"TZ": zone}).required()
    assert again.read_bytes() == archive.file.read_bytes()


def test_every_member_belongs_to_root(archive: Archive) -> None:
    owners = {(member.uid, member.gid, member.uname, member.gname) for member in members(archive)}
    assert owners == {(0, 0, "", "")}


def test_every_member_has_the_same_time(archive: Archive) -> None:
    assert len({member.mtime for member in members(archive)}) == 1


def test_it_has_no_folders_so_that_a_prefixs_folders_keep_their_modes(archive: Archive) -> None:
    assert [member.name for member in members(archive) if member.isdir()] == []


def test_everybody_may_read_each_file_and_run_each_command(archive: Archive) -> None:
    wrong = {}
    for member in members(archive):
        is_run = "/bin/" in member.name or member.issym()
        expected = 0o755 if is_run else 0o644
        if member.mode != expected:
            wrong[member.name] = f"{member.mode:o}"
    assert wrong == {}, "expected mode 755 for commands and links, and 644 for other files"


def test_links_lead_to_the_library_and_the_program(archive: Archive) -> None:
    links = {member.linkname for member in members(archive) if not member.isfile()}
    assert links == {"libmkpasswd.so.3", "mkpasswd"}


def test_it_has_the_program_that_was_built(archive: Archive) -> None:
    program = ROOT / "build" / processor_of_build() / "mkpasswd"
    assert (archive.tree / "bin/mkpasswd").read_bytes() == program.read_bytes()


def test_no_file_contains_the_name_of_the_build_folder(archive: Archive) -> None:
    place = f"{ROOT}/".encode()
    files = [archive.tree / name for name in files_below(archive.tree)]
    assert [str(path) for path in files if place in path.read_bytes()] == []


@pytest.mark.parametrize(
    "name", ["index.html", "site.css", "mkpasswd.1.html", "specification.html"]
)
def test_it_has_the_web_pages(archive: Archive, name: str) -> None:
    assert (archive.documents / "html" / name).stat().st_size > 0


def test_each_manual_has_the_version(archive: Archive, version: str) -> None:
    folder = archive.tree / "share/man"
    without = []
    for path in folder.glob("man*/*"):
        text = path.read_text(encoding="utf-8")
        link = re.fullmatch(r"\.so (\S+)\n", text)
        if link:
            text = (folder / link[1]).read_text(encoding="utf-8")
        if f".Os mkpasswd {version}" not in text.splitlines():
            without.append(path.name)
    assert list(folder.glob("man*/*")) != []
    assert without == []


# ---- Checksums


def test_sha256sum_finds_each_file_as_it_was_packed(archive: Archive) -> None:
    assert_result(run("sha256sum", "--quiet", "-c", SUMS, cwd=archive.tree))


def test_each_file_has_a_checksum(archive: Archive) -> None:
    lines = (archive.tree / SUMS).read_text(encoding="utf-8").splitlines()
    found = [re.fullmatch("[0-9a-f]{64}  (.+)", line) for line in lines]
    summed = [match[1] for match in found if match]
    files = [name for name in files_below(archive.tree) if not (archive.tree / name).is_symlink()]
    assert sorted(summed) == [name for name in files if name != SUMS]


# ---- README


def test_the_readme_begins_with_the_version(archive: Archive, version: str) -> None:
    first_line = archive.readme.partition("\n")[0]
    assert first_line == f"mkpasswd {version} for Linux on x86-64"


def test_the_readme_has_no_placeholder_left(archive: Archive) -> None:
    assert "@" not in archive.readme


def commands_of_readme(archive: Archive, prefix: Path) -> list[str]:
    """Returns the commands in the archive's README, with another prefix than /usr/local."""
    commands = re.findall(r"^  (\S.*)", archive.readme, re.MULTILINE)
    return [command.replace("/usr/local", str(prefix)) for command in commands]


def command_with(archive: Archive, prefix: Path, part: str) -> str:
    """Returns the README's first command that contains `part`."""
    commands = commands_of_readme(archive, prefix)
    found = [command for command in commands if part in command and str(prefix) in command]
    assert found, f"expected a command with `{part}` in\n" + "\n".join(commands)
    return found[0]


def test_the_commands_of_the_readme_install_check_and_remove_the_files(
    archive: Archive, tmp_path: Path
) -> None:
    prefix = tmp_path / "local"
    prefix.mkdir()
    installs = command_with(archive, prefix, "tar xzf")
    assert_result(run("sh", "-c", installs, cwd=archive.file.parent))
    assert files_below(prefix) == files_below(archive.tree)
    assert_result(run("sh", "-c", command_with(archive, prefix, "sha256sum")))
    compiled = prefix / "share/pwhash/pwhash/__pycache__"  # Python makes it if root runs pwhash
    compiled.mkdir()
    (compiled / "run.cpython-311.pyc").touch()
    assert_result(run("sh", "-c", command_with(archive, prefix, "rm -f")))
    assert files_below(prefix) == []


def test_the_command_of_the_guide_installs_the_program(
    archive: Archive, version: str, tmp_path: Path
) -> None:
    found = re.search(UNPACKS, (ROOT / "docs/GUIDE.md").read_text(encoding="utf-8"))
    assert found is not None, "GUIDE.md unpacks no archive into /usr/local"
    command = found[1].replace("/usr/local", str(tmp_path))
    assert_result(run("sh", "-c", command, cwd=archive.file.parent))
    expected = f"mkpasswd {version}\n".encode()
    assert_result(run(tmp_path / "bin/mkpasswd", "--version"), stdout=expected)


@pytest.mark.needs("objdump")
def test_the_program_needs_no_library(archive: Archive) -> None:
    result = run("objdump", "-p", archive.tree / "bin/mkpasswd").required()
    assert not re.search(rb"NEEDED|INTERP", result.stdout), str(result)


@pytest.mark.needs("objdump")
@pytest.mark.parametrize("file", [LIBRARY, MODULE])
def test_the_readme_names_the_oldest_glibc(archive: Archive, file: str) -> None:
    glibc = oldest_glibc(archive.tree / file)
    rows = [line for line in archive.readme.splitlines() if os.path.basename(file) in line]
    assert re.match(rf"  \S+: +glibc {re.escape(glibc)} or later", rows[0]), rows


@pytest.mark.needs("objdump")
@pytest.mark.parametrize(
    "part",
    [
        pytest.param("C libraries", id="for the C libraries"),
        pytest.param(".whl`", id="for the wheel"),
    ],
)
def test_the_guide_names_the_oldest_glibc(archive: Archive, part: str) -> None:
    glibc = oldest_glibc(archive.tree / LIBRARY)
    lines = (ROOT / "docs/GUIDE.md").read_text(encoding="utf-8").splitlines()
    rows = [line for line in lines if line.startswith("|") and part in line]
    assert [row for row in rows if row.endswith(f"glibc {glibc}+ |")] != [], rows


@pytest.mark.needs("objdump")
def test_the_guide_names_the_oldest_glibc_for_the_pam_module(archive: Archive) -> None:
    glibc = oldest_glibc(archive.tree / MODULE)
    assert f"(PAM module: x86-64 and glibc {glibc}+;" in (ROOT / "docs/GUIDE.md").read_text("utf-8")


@pytest.mark.needs("objdump")
def test_the_readme_names_each_function_that_the_static_library_needs(archive: Archive) -> None:
    # Up to a line that no indented line continues.
    row = r"^  libmkpasswd\.a: +a C library with (.*?)$(?!\n {9})"
    found = re.search(row, archive.readme, re.MULTILINE | re.DOTALL)
    assert found is not None, archive.readme
    options = ("--undefined-only", "--format=just-symbols")
    result = run("nm", *options, archive.tree / "lib/libmkpasswd.a").required()
    listed = result.stdout.decode()
    needed = set(re.findall(r"^([a-z]\w*)$", listed, re.MULTILINE))
    assert sorted(re.split(r",\s+|\s+and\s+", found[1])) == sorted(needed)


def test_each_link_in_the_documents_leads_to_a_file(archive: Archive) -> None:
    dead = []
    documents = list(archive.documents.glob("*.md"))
    for document in documents:
        # Links to files, without their places: not `](https://..)`, and not `](#builds)`
        links = re.findall(r"\]\((?![a-z]+:)([\w.][^)#]*)", document.read_text(encoding="utf-8"))
        dead += [
            f"{document.name}: {link}" for link in links if not (document.parent / link).exists()
        ]
    assert documents != []
    assert dead == []

"""tools/sums: checksums of what is released, and an SBOM in SPDX 2.3 for each artifact.

The tests make small artifacts of each form, in a copy of the files that the command reads.
"""
from __future__ import annotations

import io
import json
import re
import shutil
import tarfile
import zipfile
from dataclasses import dataclass
from pathlib import Path
from typing import Any

import pytest
from support import ROOT
from support.process import Changes, Result, assert_result, run
from support.release import version

pytestmark = pytest.mark.needs("cc", "readelf")

READ = (
    "crates.txt",
    "crates/crypt_core/src/version.rt",
    "debian/changelog",
    "debian/control",
    "debian/copyright",
    "man/mkpasswd.1",
    "tools/sums",
    "tools/version",
)
TOOLCHAIN = "#!/bin/sh\necho 'a toolchain'\n"
# The verification code of a package, computed from its files' checksums (SPDX 2.3, section 7.9).
VERIFICATION_CODE = "sha1sum -- $(find . -type f) | cut -c 1-40 | sort | tr -d '\\n' | sha1sum"
PROGRAM = "int main(void) { return 0; }\n"
LIBRARY = "#include <stdlib.h>\nvoid *mkpasswd_new(void) { return malloc(1); }\n"


@dataclass(frozen=True)
class Place:
    """A tree with the command, and a folder of artifacts."""

    tree: Path
    folder: Path

    def sums(self, changes: Changes | None = None) -> Result:
        """Runs the tree's tools/sums for the folder."""
        environment = {"RT": str(self.tree / "rt"), "SOURCE_DATE_EPOCH": None, **(changes or {})}
        return run(self.tree / "tools/sums", self.folder, env=environment)

    def artifact(self, end: str) -> Path:
        """Returns the path of an artifact of this version."""
        return self.folder / f"mkpasswd-{version()}{end}"

    def sbom(self, artifact: Path) -> dict[str, Any]:
        """Returns the SBOM of an artifact, which the command must have written."""
        self.sums().required()
        text = artifact.with_name(f"{artifact.name}.spdx.json").read_text(encoding="utf-8")
        found: dict[str, Any] = json.loads(text)
        return found


@pytest.fixture(name="place")
def fixture_place(tmp_path: Path) -> Place:
    place = Place(tmp_path / "tree", tmp_path / "artifacts")
    place.folder.mkdir()
    for path in READ:
        (place.tree / path).parent.mkdir(parents=True, exist_ok=True)
        shutil.copy(ROOT / path, place.tree / path)
    ignored = shutil.ignore_patterns("__pycache__")
    shutil.copytree(ROOT / "tools/sbom", place.tree / "tools/sbom", ignore=ignored)
    (place.tree / "rt").write_text(TOOLCHAIN, encoding="ascii")
    (place.tree / "rt").chmod(0o755)
    return place


def compiled(scratch: Path, name: str, code: str, *options: str) -> bytes:
    """Compiles a program or a library, and returns its bytes."""
    source, file = scratch / "source.c", scratch / name
    source.write_text(code, encoding="ascii")
    run("cc", *options, source, "-o", file).required()
    return file.read_bytes()


# ---- Artifacts


def tar_of(files: dict[str, bytes]) -> bytes:
    """Returns a tar archive of files."""
    out = io.BytesIO()
    with tarfile.open(fileobj=out, mode="w") as archive:
        for name, content in files.items():
            member = tarfile.TarInfo(name)
            member.size = len(content)
            archive.addfile(member, io.BytesIO(content))
    return out.getvalue()


def write_archive(place: Place, files: dict[str, bytes]) -> Path:
    path = place.artifact("-x86_64-linux.tar.gz")
    with tarfile.open(path, "w:gz") as archive:
        for name, content in files.items():
            member = tarfile.TarInfo(f"./{name}")
            member.size = len(content)
            archive.addfile(member, io.BytesIO(content))
        link = tarfile.TarInfo("link")
        link.type, link.linkname = tarfile.SYMTYPE, "elsewhere"
        archive.addfile(link)
    return path


def write_wheel(place: Place, files: dict[str, bytes]) -> Path:
    path = place.artifact("-py3-none-any.whl")
    with zipfile.ZipFile(path, "w") as archive:
        for name, content in files.items():
            archive.writestr(name, content)
    return path


def write_image(place: Place, files: dict[str, bytes]) -> Path:
    path = place.artifact("-x86_64-image.tar")
    manifest = json.dumps([{"Layers": ["layer"]}]).encode()
    path.write_bytes(tar_of({"layer": tar_of(files), "manifest.json": manifest}))
    return path


def write_debian_package(place: Place, files: dict[str, bytes]) -> Path:
    of_debian = run("dpkg-parsechangelog", "-l", ROOT / "debian/changelog", "-S", "Version")
    number = of_debian.required().stdout.decode().strip()
    tree = place.tree / "package"
    for name, content in files.items():
        (tree / name).parent.mkdir(parents=True, exist_ok=True)
        (tree / name).write_bytes(content)
    (tree / "DEBIAN").mkdir()
    control = f"Package: mkpasswd\nVersion: {number}\nArchitecture: amd64\n"
    described = f"{control}Maintainer: somebody <a@mkpasswd.invalid>\nDescription: of a test\n"
    (tree / "DEBIAN/control").write_text(described, encoding="ascii")
    path = place.folder / f"mkpasswd_{number}_amd64.deb"
    run("dpkg-deb", "--root-owner-group", "--build", tree, path).required()
    return path


def write_package_of_npm(place: Place, files: dict[str, bytes]) -> Path:
    built = place.tree / "build/npm"
    built.mkdir(parents=True)
    for name, content in files.items():
        (built / name).write_bytes(content)
    manifest = {"name": "mkpasswd", "version": version(), "files": list(files)}
    (built / "package.json").write_text(json.dumps(manifest), encoding="ascii")
    return place.artifact(".tgz")


FORMS = [
    pytest.param(write_archive, id="an archive"),
    pytest.param(write_wheel, id="a wheel"),
    pytest.param(write_image, id="an image"),
    pytest.param(
        write_debian_package, id="a Debian package", marks=pytest.mark.needs("dpkg-checkbuilddeps")
    ),
]
FILES = {"share/b": b"second\n", "bin/a": b"first\n"}


def names_in(document: dict[str, Any]) -> list[str]:
    """Returns the names of the files that an SBOM lists."""
    return [file["fileName"] for file in document["files"]]


def sums_in(element: dict[str, Any]) -> dict[str, str]:
    """Returns the checksums of a file or a package."""
    return {row["algorithm"]: row["checksumValue"] for row in element["checksums"]}


def sum_by(command: str, path: Path) -> str:
    """Returns a file's checksum by a command."""
    return run(command, path).required().stdout.decode().split()[0]


# ---- SHA256SUMS


def test_the_checksums_are_right_and_cover_all_files(place: Place) -> None:
    write_archive(place, FILES)
    write_wheel(place, FILES)
    place.sums().required()
    assert_result(run("sha256sum", "--quiet", "-c", "SHA256SUMS", cwd=place.folder))
    listed = (place.folder / "SHA256SUMS").read_text(encoding="ascii").splitlines()
    names = {line.split(maxsplit=1)[1] for line in listed}
    assert names == {path.name for path in place.folder.iterdir()} - {"SHA256SUMS"}


def test_artifacts_of_other_versions_are_ignored(place: Place) -> None:
    write_archive(place, FILES)
    (place.folder / "mkpasswd-0.0.1-x86_64-linux.tar.gz").write_bytes(b"old")
    place.sums().required()
    assert "0.0.1" not in (place.folder / "SHA256SUMS").read_text(encoding="ascii")


def test_a_folder_without_artifacts_is_an_error(place: Place) -> None:
    result = place.sums()
    assert result.status == 1 and b"has no artifact of" in result.stderr, result


@pytest.mark.parametrize("end", ["-x86_64-linux.tar.gz", "-py3-none-any.whl", "-x86_64-image.tar"])
def test_a_damaged_artifact_is_named_and_gets_no_checksum(place: Place, end: str) -> None:
    path = place.artifact(end)
    path.write_bytes(b"damaged")
    result = place.sums()
    assert result.status == 1 and path.name.encode() in result.stderr, result
    assert not (place.folder / "SHA256SUMS").exists()


# ---- SBOMs


@pytest.mark.parametrize("write_artifact", FORMS)
def test_the_files_of_each_form_are_listed_with_their_checksums(
    place: Place, write_artifact: Any, tmp_path: Path
) -> None:
    document = place.sbom(write_artifact(place, FILES))
    assert names_in(document) == ["./bin/a", "./share/b"]
    first = tmp_path / "first"
    first.write_bytes(FILES["bin/a"])
    assert sums_in(document["files"][0]) == {
        "SHA1": sum_by("sha1sum", first),
        "SHA256": sum_by("sha256sum", first),
    }


@pytest.mark.needs("npm")
def test_the_npm_package_is_packed_and_described(place: Place) -> None:
    package = write_package_of_npm(place, {"mkpasswd.mjs": b"export {};\n"})
    names = ["./package/mkpasswd.mjs", "./package/package.json"]
    assert names_in(place.sbom(package)) == names


@pytest.mark.needs("npm")
def test_the_npm_package_has_the_same_bytes_with_every_umask(place: Place) -> None:
    package = write_package_of_npm(place, {"mkpasswd.mjs": b"export {};\n"})
    place.sums().required()
    packed = package.read_bytes()
    (place.tree / "build/npm/mkpasswd.mjs").chmod(0o600)
    place.sums().required()
    assert package.read_bytes() == packed


def test_an_sbom_identifies_its_artifact_by_its_checksum(place: Place) -> None:
    path = write_archive(place, FILES)
    document = place.sbom(path)
    (artifact, *_) = document["packages"]
    assert (artifact["name"], artifact["versionInfo"]) == (path.name, version())
    assert sums_in(artifact) == {"SHA256": sum_by("sha256sum", path)}
    assert document["documentNamespace"].endswith(sum_by("sha256sum", path))


def test_the_verification_code_is_that_of_the_files(place: Place, tmp_path: Path) -> None:
    path = write_archive(place, {f"file-{number}": b"%d" % number for number in range(9)})
    (artifact, *_) = place.sbom(path)["packages"]
    unpacked = tmp_path / "unpacked"
    unpacked.mkdir()
    run("tar", "-xzf", path, "-C", unpacked).required()
    code = run("sh", "-c", VERIFICATION_CODE, cwd=unpacked).required().stdout.decode().split()[0]
    assert artifact["packageVerificationCode"] == {"packageVerificationCodeValue": code}


@pytest.mark.parametrize(
    "changes",
    [
        pytest.param({"TZ": "Asia/Tokyo"}, id="time zone"),
        pytest.param({"LC_ALL": "C.UTF-8"}, id="locale"),
    ],
)
def test_another_run_writes_the_same_bytes(place: Place, changes: dict[str, str]) -> None:
    path = write_archive(place, FILES)
    place.sums().required()
    sbom = path.with_name(f"{path.name}.spdx.json")
    written = sbom.read_bytes()
    sbom.unlink()
    place.sums(changes).required()
    assert sbom.read_bytes() == written


def test_the_time_is_the_releases(place: Place) -> None:
    write_archive(place, FILES)
    place.sums({"SOURCE_DATE_EPOCH": "86400"}).required()
    (sbom,) = place.folder.glob("*.spdx.json")
    document = json.loads(sbom.read_text(encoding="utf-8"))
    assert document["creationInfo"]["created"] == "1970-01-02T00:00:00Z"


# ---- Components


def components_of(document: dict[str, Any], name: str) -> set[str]:
    """Returns the components that are linked into a file, by its SBOM."""
    identifiers = {file["fileName"]: file["SPDXID"] for file in document["files"]}
    names = {package["SPDXID"]: package["name"] for package in document["packages"]}
    return {
        names[row["relatedSpdxElement"]]
        for row in document["relationships"]
        if row["relationshipType"] == "STATIC_LINK"
        if row["spdxElementId"] == identifiers[f"./{name}"]
    }


def test_a_library_has_the_digests_of_the_toolchain(place: Place, tmp_path: Path) -> None:
    library = compiled(tmp_path, "libmkpasswd.so.3", LIBRARY, "-shared", "-fPIC")
    document = place.sbom(write_wheel(place, {"mkpasswd/libmkpasswd.so.3": library}))
    found = components_of(document, "mkpasswd/libmkpasswd.so.3")
    assert {"md5", "sha2", "rattle"} <= found and not {"clap", "glibc"} & found


@pytest.mark.parametrize(
    ("option", "has_libc"),
    [pytest.param("-static-pie", True, id="static"), pytest.param("-pie", False, id="dynamic")],
)
def test_a_program_has_the_c_library_only_if_it_is_static(
    place: Place, tmp_path: Path, option: str, has_libc: bool
) -> None:
    program = compiled(tmp_path, "mkpasswd", PROGRAM, option, "-fPIE")
    document = place.sbom(write_archive(place, {"bin/mkpasswd": program}))
    found = components_of(document, "bin/mkpasswd")
    assert {"clap", "md5", "sha2"} <= found
    assert ("glibc" in found) == has_libc


def test_a_file_without_our_code_has_no_components(place: Place) -> None:
    completion = {"share/bash-completion/completions/mkpasswd": b"complete -W x mkpasswd\n"}
    document = place.sbom(write_archive(place, completion))
    assert len(document["packages"]) == 1


# ---- The standard


def test_an_sbom_has_everything_that_spdx_requires(place: Place, tmp_path: Path) -> None:
    program = compiled(tmp_path, "mkpasswd", PROGRAM, "-static-pie", "-fPIE")
    document = place.sbom(write_archive(place, {"bin/mkpasswd": program, **FILES}))
    assert (document["spdxVersion"], document["dataLicense"]) == ("SPDX-2.3", "CC0-1.0")
    assert document["SPDXID"] == "SPDXRef-DOCUMENT"
    assert re.fullmatch(r"\d{4}-\d\d-\d\dT\d\d:\d\d:\d\dZ", document["creationInfo"]["created"])
    elements = [document, *document["packages"], *document["files"]]
    identifiers = [element["SPDXID"] for element in elements]
    assert len(identifiers) == len(set(identifiers))
    assert [name for name in identifiers if not re.fullmatch(r"SPDXRef-[\w.-]+", name)] == []
    assert [name for name in identifiers if "_" in name] == []
    related = {row["spdxElementId"] for row in document["relationships"]}
    related |= {row["relatedSpdxElement"] for row in document["relationships"]}
    assert related == set(identifiers)

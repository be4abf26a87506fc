"""The wheel: its bytes, its files, and its installation."""
from __future__ import annotations

import re
import shutil
from pathlib import Path

import pytest
from support import ROOT
from support.interpreters import OLDEST, interpreters
from support.needs import built
from support.package import ELSEWHERE, LIBRARY, PACKAGE, recipe, package_under_test
from support.process import Result, run
from support.stored_strings import MD5

with package_under_test():
    import mkpasswd

# One worker runs these tests, so that the wheel is built once.
pytestmark = [
    pytest.mark.needs("python3-build", "python3-wheel", "objdump"),
    pytest.mark.xdist_group("the wheel"),
    pytest.mark.slow,
]

# Prints the path of the library that an interpreter has loaded.
TRY = f"""
import doctest, mkpasswd
from mkpasswd import _loaded, _policy, crypt
assert mkpasswd.login("password", field="{MD5}") and not mkpasswd.login("passw0rd", field="{MD5}")
for module in _policy, crypt:
    assert not doctest.testmod(module, extraglobs={{"mkpasswd": mkpasswd}}).failed
print(_loaded.LIBRARY._name)
"""


def printed(result: Result) -> str:
    """Returns what a command printed. Fails the test unless the command succeeded."""
    return result.required().stdout.decode().strip()


def only_file(folder: Path) -> Path:
    (file,) = folder.iterdir()
    return file


@pytest.fixture(scope="module", name="folder")
def fixture_folder(tmp_path_factory: pytest.TempPathFactory) -> Path:
    return tmp_path_factory.mktemp("wheel")


@pytest.fixture(scope="module", name="wheel")
def fixture_wheel(folder: Path) -> Path:
    """The wheel of this tree."""
    built("python/src/mkpasswd_version.py", "lib")
    run(ROOT / "tools/wheel", LIBRARY, folder / "first").required()
    return only_file(folder / "first")


def test_a_wheel_has_the_same_bytes_elsewhere(wheel: Path, folder: Path) -> None:
    """The second wheel is built later, in another folder, and with another umask."""
    command = ("sh", "-c", 'umask 077 && "$0" "$1" second', ROOT / "tools/wheel", LIBRARY)
    run(*command, cwd=folder, env={"TZ": "Asia/Tokyo"}).required()
    again = only_file(folder / "second")
    assert again.name == wheel.name and again.read_bytes() == wheel.read_bytes()


def test_a_wheel_is_named_after_its_version_and_the_c_library_that_it_needs(wheel: Path) -> None:
    version = printed(run(ROOT / "tools/version"))
    symbols = re.findall(r"GLIBC_([\d.]+)", printed(run("objdump", "-T", LIBRARY)))
    newest = max(symbols, key=lambda symbol: [int(number) for number in symbol.split(".")])
    tag = f"manylinux_{newest.replace('.', '_')}_x86_64"
    assert wheel.name == f"mkpasswd-{version}-py3-none-{tag}.whl"


def test_a_file_that_is_not_a_library_gives_no_wheel(wheel: Path, folder: Path) -> None:
    result = run(ROOT / "tools/wheel", wheel, folder / "none")
    assert result.status == 1 and wheel.name.encode() in result.stderr, str(result)
    assert not (folder / "none").exists()


def modules_of(package: str) -> list[str]:
    """Returns the files in a package's folder, as a wheel names them."""
    folder = PACKAGE / package
    return [f"{package}/{file.name}" for file in folder.iterdir() if file.is_file()]


def test_a_wheel_has_the_packages_and_the_library(wheel: Path) -> None:
    version = printed(run(ROOT / "tools/version"))
    files = [*modules_of("mkpasswd"), f"mkpasswd/{LIBRARY.name}", *modules_of("pwhash")]
    metadata = ("METADATA", "RECORD", "WHEEL", "entry_points.txt", "top_level.txt")
    files += [f"mkpasswd-{version}.dist-info/{name}" for name in metadata]
    assert sorted(printed(run("unzip", "-Z1", wheel)).split()) == sorted(files)


def test_a_wheel_is_for_one_processor(wheel: Path) -> None:
    content = printed(run("unzip", "-p", wheel, "mkpasswd-*/WHEEL"))
    assert re.findall("^Root-Is-Purelib: (.*)$", content, re.MULTILINE) == ["false"]


def test_the_documents_commands_install_the_wheel(wheel: Path, tmp_path: Path) -> None:
    commands = recipe("into a venv", "sh")
    assert "--no-index" in commands
    shutil.copy(wheel, tmp_path)
    environment: dict[str, str | None] = {**ELSEWHERE, "PATH": "/usr/bin:/bin"}
    stored = printed(run("sh", "-ec", commands, cwd=tmp_path, env=environment)).splitlines()[-1]
    assert stored.startswith("$6$") and mkpasswd.login("x", field=stored)
    place_of_library = printed(run("v/bin/python", "-c", TRY, cwd=tmp_path, env=ELSEWHERE))
    assert place_of_library.startswith(str(tmp_path / "v/lib"))
    assert place_of_library.endswith("site-packages/mkpasswd/libmkpasswd.so.3")


@pytest.mark.parametrize(
    "python",
    [pytest.param(each.path, id=str(each)) for each in interpreters() if each.minor >= OLDEST],
)
def test_each_python_can_install_the_wheel(wheel: Path, python: str, tmp_path: Path) -> None:
    place = tmp_path / "there"
    pip = ("-m", "pip", "install", "--quiet", "--no-index", "--no-compile", "--target")
    result = run(python, *pip, place, wheel, env=ELSEWHERE)
    if b"No module named pip" in result.stderr:
        result = run("/usr/bin/python3", "-m", "zipfile", "-e", wheel, place, env=ELSEWHERE)
    result.required()
    environment: dict[str, str | None] = {**ELSEWHERE, "PYTHONPATH": str(place)}
    place_of_library = printed(run(python, "-W", "error", "-c", TRY, cwd=tmp_path, env=environment))
    assert place_of_library == str(place / "mkpasswd/libmkpasswd.so.3")

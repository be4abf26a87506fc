"""The package over a newer library, with error numbers that the package doesn't know."""
from __future__ import annotations

from pathlib import Path

import pytest
from support import ROOT
from support.library import WARNINGS
from support.needs import built
from support.package import SONAME, environment_of, run_python
from support.process import run
from support.stored_strings import MD5

NO_ERROR = "0"
UNKNOWN = "9999"
LOGIN = f"""
import logging, sys, mkpasswd
logging.basicConfig(stream=sys.stdout, level="DEBUG", format="%(levelname)s %(message)s")
print(mkpasswd.login("password", field={MD5!r}))
"""

pytestmark = pytest.mark.needs("objdump", "cc")


@pytest.fixture(scope="module", name="newer_library")
def fixture_newer_library(tmp_path_factory: pytest.TempPathFactory) -> Path:
    """A library whose logins return what the environment says."""
    folder = tmp_path_factory.mktemp("newer")
    older, library = folder / "older.a", folder / SONAME
    of_tree = built("libmkpasswd.a", "lib")
    renamed = "mkpasswd_login_bytes=older_login"
    run("objcopy", "--redefine-sym", renamed, of_tree, older).required()
    flags = ("-std=c99", *WARNINGS, "-fPIC", "-shared", f"-Wl,-soname,{SONAME}", "-I", ROOT / "c")
    sources = (ROOT / "tests/c/newer_library.c", "-Wl,--whole-archive", older)
    run("cc", *flags, *sources, "-Wl,--no-whole-archive", "-o", library).required()
    return library


def login_over(library: Path, answer: str, error: str) -> list[str]:
    """Returns the lines that a login prints and logs."""
    answers = {"NEWER_ANSWER": answer, "NEWER_ERROR": error}
    result = run_python(LOGIN, env={**environment_of(library), **answers}).required()
    return result.stdout.decode().splitlines()


@pytest.mark.parametrize("error", [NO_ERROR, UNKNOWN], ids=["no error", "an unknown error"])
def test_the_result_alone_decides_a_login(newer_library: Path, error: str) -> None:
    assert login_over(newer_library, "1", error) == ["True"]


@pytest.mark.parametrize("answer", ["0", "-1", "2"])
@pytest.mark.parametrize("error", [NO_ERROR, UNKNOWN], ids=["no error", "an unknown error"])
def test_every_result_but_1_is_a_refusal(newer_library: Path, answer: str, error: str) -> None:
    *log, printed = login_over(newer_library, answer, error)
    assert printed == "False" and len(log) == 1 and log[0].startswith("DEBUG login refused: ")

"""Mistakes with the result of a login: harmless ones, and those that docs/SECURITY.md names.

Each mistake is a few lines of a service. They all go into one file, which mypy checks and the tests
run.
"""
from __future__ import annotations

import contextlib
import json
import re
import runpy
from dataclasses import dataclass
from pathlib import Path
from typing import Any

import pytest
from support.package import PACKAGE, package_under_test
from support.process import run
from support.stored_strings import DEAD, LOCKED, MD5, title

with package_under_test():
    from mkpasswd import Policy

QUICK = Policy(rounds=1000)
RIGHT, WRONG = "password", "passw0rd"


# ---- The result is True or False


@pytest.mark.parametrize(
    ("password", "policy", "expected"),
    [
        pytest.param(RIGHT, Policy("md5crypt"), True, id="a match"),
        pytest.param(RIGHT, QUICK, True, id="a match with an outdated hash"),
        pytest.param(WRONG, QUICK, False, id="no match"),
        pytest.param("", Policy("md5crypt"), False, id="an empty password"),
    ],
)
def test_a_login_returns_true_or_false(password: str, policy: Policy, expected: bool) -> None:
    result = policy.login(password, field=MD5)
    assert result is expected and json.dumps(result) == str(expected).lower()


@pytest.mark.parametrize("field", [*LOCKED, *DEAD], ids=title)
def test_a_login_returns_false_for_a_field_that_never_opens(field: str) -> None:
    assert QUICK.login(RIGHT, field=field) is False


# ---- Mistakes in a service

SERVICE = f"""\
import asyncio
import json
from concurrent.futures import ThreadPoolExecutor
from typing import List

import mkpasswd

FIELD = {MD5!r}
POLICY = mkpasswd.Policy("md5crypt")
threads = ThreadPoolExecutor(1)


def login(password: str) -> bool:
    return POLICY.login(password, field=FIELD)


async def login_later(password: str) -> bool:
    return login(password)


async def log_all_in(password: str) -> List[bool]:
    return list(await asyncio.gather(login_later(password)))
"""


@dataclass(frozen=True)
class Lines:
    """The last lines of a function that decides about a login, and whether mypy --strict objects.

    The function has the argument `password`.
    """

    title: str
    code: tuple[str, ...]
    is_found: bool = False

    def __str__(self) -> str:
        return self.title


def lines(name: str, *code: str, is_found: bool = False) -> Lines:
    return Lines(name, code, is_found)


# These accept the right password and nothing else.
SOUND = [
    lines("is False", "return login(password) is not False"),
    lines("is True", "return login(password) is True"),
    lines("== False", "return not login(password) == False"),
    lines(
        "case False",
        "match login(password):",
        "    case False:",
        "        return False",
        "    case _:",
        "        return True",
    ),
    lines("str", 'return str(login(password)) == "True"'),
    lines("a format", 'return f"{login(password)}" != "False"'),
    lines("json.dumps", 'return json.dumps({"in": login(password)}) == \'{"in": true}\''),
    lines("JSON and back", "return bool(json.loads(json.dumps(login(password))))"),
    lines("a set", "return True in {login(password)}"),
    lines("a number", "return int(login(password)) == 1"),
    lines("any", "return any([login(password)])"),
]

# Calls of earlier versions and misplaced arguments: these refuse everybody.
WITHOUT_EFFECT = [
    lines("two results", "matches, _ = login(password)", "return bool(matches)", is_found=True),
    lines("an attribute", "return bool(login(password).matches)", is_found=True),
    lines("verify", "return bool(mkpasswd.verify(password, field=FIELD))", is_found=True),
    lines("a positional field", "return POLICY.login(password, FIELD)", is_found=True),
    lines("swapped positional arguments", "return POLICY.login(FIELD, password)", is_found=True),
    lines("no field", "return POLICY.login(password)", is_found=True),
    lines("a field twice", "return POLICY.login(FIELD, password, field=FIELD)", is_found=True),
    lines("None as the password", "return POLICY.login(None, field=FIELD)", is_found=True),
]

# These accept a wrong password, as docs/SECURITY.md says.
OPEN = [
    lines("== 0", "return login(password) == 0"),
    lines("!= -1", "return login(password) != -1"),
    lines("not", "return not login(password)"),
    lines("is not None", "return login(password) is not None"),
    lines("str as a condition", "return bool(str(login(password)))"),
    lines("a list", "return bool([login(password)])"),
    lines("no condition", "login(password)", "return True"),
    lines("a future", "return bool(threads.submit(login, password))"),
    lines("no await", "return bool(login_later(password))"),
    lines("map", "return bool(map(login, [password]))"),
    lines("gather", "return bool(asyncio.run(log_all_in(password)))"),
    lines("the function itself", "return bool(login)"),
    lines("hash", "return bool(POLICY.hash(password))"),
    lines("describe", "return bool(POLICY.describe(FIELD))"),
    lines("not needs_rehash", "return not POLICY.needs_rehash(FIELD)"),
    lines("the state", "return POLICY.describe(FIELD).state is mkpasswd.State.CURRENT"),
]
ALL = [*SOUND, *WITHOUT_EFFECT, *OPEN]


@pytest.fixture(scope="module", name="service")
def fixture_service(tmp_path_factory: pytest.TempPathFactory) -> Path:
    """A file with a function for each entry above, in order."""
    text = SERVICE
    for number, each in enumerate(ALL):
        text += f"\n\ndef decide_{number}(password: str) -> bool:\n"
        text += "".join(f"    {line}\n" for line in each.code)
    path = tmp_path_factory.mktemp("service") / "service.py"
    path.write_text(text, encoding="ascii")
    return path


@pytest.fixture(scope="module", name="decisions")
def fixture_decisions(service: Path) -> dict[str, Any]:
    """The functions in that file, by name."""
    return runpy.run_path(str(service))


def is_in(decisions: dict[str, Any], each: Lines, password: str) -> bool:
    """Returns whether a function accepts a password. An exception means that it doesn't."""
    answer = False
    with contextlib.suppress(Exception):
        answer = bool(decisions[f"decide_{ALL.index(each)}"](password))
    return answer


@pytest.mark.parametrize("each", SOUND, ids=str)
def test_sound_code_accepts_only_the_right_password(decisions: dict[str, Any], each: Lines) -> None:
    assert is_in(decisions, each, RIGHT) and not is_in(decisions, each, WRONG)


@pytest.mark.parametrize("each", WITHOUT_EFFECT, ids=str)
def test_wrong_calls_refuse_everybody(decisions: dict[str, Any], each: Lines) -> None:
    assert not is_in(decisions, each, WRONG) and not is_in(decisions, each, RIGHT)


@pytest.mark.filterwarnings("ignore:coroutine .* was never awaited")
@pytest.mark.parametrize("each", OPEN, ids=str)
def test_a_mistake_in_the_document_accepts_a_wrong_password(
    decisions: dict[str, Any], each: Lines
) -> None:
    """If one of these mistakes no longer accepts it, the document is out of date."""
    assert is_in(decisions, each, WRONG)


@pytest.mark.needs("mypy")
def test_mypy_finds_exactly_the_mistakes_that_it_should(service: Path, tmp_path: Path) -> None:
    mypy = ("/usr/bin/mypy", "--strict", "--no-site-packages", "--cache-dir", tmp_path / "cache")
    result = run(*mypy, service, env={"MYPYPATH": str(PACKAGE)})
    text = service.read_text(encoding="ascii").splitlines()
    found = set()
    for number in re.findall(rb"service.py:(\d+): error", result.stdout):
        line = int(number)
        while not text[line - 1].startswith("def "):
            line -= 1
        place = re.search(r"decide_(\d+)", text[line - 1])
        assert place, result
        found.add(ALL[int(place[1])].title)
    assert found == {each.title for each in ALL if each.is_found}, result

"""The package's filters in Ansible, set up by the recipe in docs/PYTHON.md."""
from __future__ import annotations

import json
import re
import secrets

import pytest
from support.package import environment_of, recipe, package_under_test
from support.passwords import LONGEST_BY_DEFAULT, TOO_COSTLY
from support.process import run
from support.stored_strings import MD5

with package_under_test():
    import mkpasswd

pytestmark = [
    pytest.mark.needs("ansible-playbook"),
    pytest.mark.xdist_group("ansible"),
    pytest.mark.slow,
]

UNLOCKED = "is not match('[!*]')"
HASH = "mkpasswd_hash"
VERIFY = "mkpasswd_verify"
# Without the "it is", Ansible would turn a message that is True or False into a boolean.
TASKS = {
    "lock": f"it is {{{{ ('!' + stored) {UNLOCKED} }}}}",
    "asterisk": f"it is {{{{ '*' {UNLOCKED} }}}}",
    "hash": f"it is {{{{ stored {UNLOCKED} }}}}",
    "replaced_locked": f"{{{{ 'password' | {HASH}('md5crypt', current='!' + stored) }}}}",
    "weak": f"{{{{ 'password' | {HASH}('sha512crypt', 12) }}}}",
    "new": f"{{{{ 'pässword' | {HASH}('sha512crypt', 6000) }}}}",
    "kept": f"{{{{ vaulted | {HASH}('md5crypt', current=stored) }}}}",
    "renewed": f"{{{{ 'password' | {HASH}(current=stored) }}}}",
    "changed": f"{{{{ 'passw0rd' | {HASH}('md5crypt', current=stored) }}}}",
    "replaced": f"{{{{ 'password' | {HASH}('md5crypt', current='$y$x') }}}}",
    "kept_in_vault": f"{{{{ vaulted | {HASH}('md5crypt', current=vaulted_hash) }}}}",
    "right_in_vault": f"it is {{{{ vaulted | {VERIFY}(vaulted_hash) }}}}",
    "wrong_in_vault": f"it is {{{{ 'passw0rd' | {VERIFY}(vaulted_hash) }}}}",
    "right": f"it is {{{{ vaulted | {VERIFY}(stored) }}}}",
    "wrong": f"it is {{{{ 'passw0rd' | {VERIFY}(stored) }}}}",
    "refused": f"{{{{ 's3cret\0' | {HASH} }}}}",
    "number": f"{{{{ 5 | {HASH} }}}}",
    "longest": f"it is {{{{ fresh | {VERIFY}(fresh_hash) }}}}",
    "longest_kept": f"it is {{{{ (fresh | {HASH}(current=fresh_hash)) == fresh_hash }}}}",
    "too_long": f"{{{{ '{TOO_COSTLY}' | {HASH} }}}}",
    "hash_within": f"{{{{ 'password' | {HASH}(budget=1) }}}}",
    "verify_within": f"it is {{{{ 'password' | {VERIFY}(stored, budget=1) }}}}",
    "verify_locked": f"it is {{{{ 'password' | {VERIFY}('!' + stored) }}}}",
    "verify_another": f"{{{{ 'password' | {VERIFY}('$y$j9T$x$x') }}}}",
    "verify_malformed": f"{{{{ 'password' | {VERIFY}('$6$rounds=0$x$x') }}}}",
    "verify_password": f"{{{{ 'password' | {VERIFY}('password') }}}}",
}


@pytest.fixture(scope="module", name="messages")
def fixture_messages(tmp_path_factory: pytest.TempPathFactory) -> dict[str, str]:
    """The message of each task of a play."""
    folder = tmp_path_factory.mktemp("ansible")
    environment: dict[str, str | None] = {
        **environment_of(),
        "HOME": str(folder),
        "LC_ALL": "C.UTF-8",
    }
    key = ("--vault-password-file", folder / "key")
    (folder / "key").write_text(secrets.token_hex(), encoding="ascii")
    with (folder / "vault.yml").open("w", encoding="ascii") as file:
        for name, value in ("vaulted", "password"), ("vaulted_hash", MD5):
            command = ("/usr/bin/ansible-vault", "encrypt_string", *key, "--name", name, value)
            printed = run(*command, env=environment, cwd=folder).required().stdout.decode()
            # ansible-vault may print messages before and after the variable.
            variable = printed[printed.index(f"{name}:") :].partition("\nEncryption")[0]
            file.write(f"{variable}\n")
    (folder / "filter_plugins").mkdir()
    (folder / "filter_plugins/mkpasswd.py").write_text(recipe("Ansible"), encoding="ascii")
    play = {
        "hosts": "localhost",
        "gather_facts": False,
        "vars": {
            "stored": MD5,
            "fresh": LONGEST_BY_DEFAULT,
            "fresh_hash": mkpasswd.hash(LONGEST_BY_DEFAULT),
        },
        "vars_files": ["vault.yml"],
        "tasks": [
            {"name": name, "debug": {"msg": message}, "ignore_errors": True}
            for name, message in TASKS.items()
        ],
    }
    (folder / "play.yml").write_text(json.dumps([play]), encoding="ascii")
    words = ("-i", "localhost,", "-c", "local", *key, "play.yml")
    result = run("/usr/bin/ansible-playbook", *words, env=environment, cwd=folder).required()
    # A task's heading, and the first JSON string after it: its message, or that of its error.
    pattern = r'^TASK \[(\w+)\] \*+\n.*?"msg": ("(?:[^"\\]|\\.)*")'
    found = re.findall(pattern, result.stdout.decode(), re.MULTILINE | re.DOTALL)
    return {name: json.loads(message) for name, message in found}


@pytest.mark.parametrize("task", ["kept", "kept_in_vault"])
def test_a_current_hash_is_kept(messages: dict[str, str], task: str) -> None:
    assert messages[task] == MD5


@pytest.mark.parametrize(
    ("task", "answer"),
    [
        pytest.param("right", "it is True", id="the right password"),
        pytest.param("wrong", "it is False", id="a wrong password"),
        pytest.param("right_in_vault", "it is True", id="the right one for a hash in a vault"),
        pytest.param("wrong_in_vault", "it is False", id="a wrong one for a hash in a vault"),
        pytest.param("verify_within", "it is False", id="a stored hash above a budget"),
        pytest.param("verify_locked", "it is False", id="a lock"),
    ],
)
def test_a_password_is_checked(messages: dict[str, str], task: str, answer: str) -> None:
    assert messages[task] == answer


@pytest.mark.parametrize(
    ("task", "answer"),
    [("lock", "it is False"), ("asterisk", "it is False"), ("hash", "it is True")],
    ids=["a hash after a lock", "an asterisk", "a hash"],
)
def test_the_condition_of_the_recipe_skips_locked_accounts(
    messages: dict[str, str], task: str, answer: str
) -> None:
    assert messages[task] == answer


@pytest.mark.parametrize(
    ("task", "password", "beginning"),
    [
        pytest.param("new", "pässword", "$6$rounds=6000$", id="a new password"),
        pytest.param("renewed", "password", "$6$rounds=656000$", id="an outdated hash"),
        pytest.param("changed", "passw0rd", "$1$", id="another password"),
        pytest.param("replaced_locked", "password", "$1$", id="a locked hash"),
        pytest.param("replaced", "password", "$1$", id="another scheme"),
    ],
)
def test_a_new_hash_is_made_for(
    messages: dict[str, str], task: str, password: str, beginning: str
) -> None:
    stored = messages[task]
    assert stored.startswith(beginning) and mkpasswd.login(password, field=stored)


@pytest.mark.parametrize("task", ["longest", "longest_kept"])
def test_the_longest_password_of_the_recommended_policy_is_accepted(
    messages: dict[str, str], task: str
) -> None:
    assert messages[task] == "it is True"


@pytest.mark.parametrize(
    ("task", "reason"),
    [
        pytest.param("too_long", "more than 253921472", id="a password that costs too much"),
        pytest.param("hash_within", "can cost more than 1", id="a new hash above a budget"),
        pytest.param("verify_another", "hash is yescrypt:unknown", id="another scheme"),
        pytest.param("verify_malformed", "hash is malformed:bad rounds", id="a bad setting"),
        pytest.param("verify_password", "hash is no scheme", id="a password in place of the hash"),
        pytest.param("weak", "rounds must be 1000 to 999999999, or 0 for 656000", id="few rounds"),
        pytest.param("refused", "password has a zero byte", id="a zero byte"),
        pytest.param("number", "must be str or bytes, not int", id="a number as the password"),
    ],
)
def test_a_refusal_is_named(messages: dict[str, str], task: str, reason: str) -> None:
    assert reason in messages[task]

"""Audits of stored hashes."""
from __future__ import annotations

import json
from dataclasses import dataclass

import pytest
from support.pwhash_runs import MD5, pwhash, save, shell


@pytest.mark.parametrize(
    "words",
    [
        pytest.param((), id="alone"),
        pytest.param(("--only-problems",), id="with --only-problems"),
    ],
)
@pytest.mark.parametrize("source", ["pipe", "file", "nothing"])
def test_an_audit_needs_a_file(words: tuple[str, ...], source: str) -> None:
    """Cron, ssh and Ansible make standard input a pipe even when there is no input."""
    save("fields", b"eve:secret\n")
    redirected = {"pipe": 'cat fields | "$@"', "file": '"$@" < fields', "nothing": '"$@" <&-'}
    done = shell(redirected[source], "audit", *words)
    assert (done.status, done.out) == (2, b""), done
    assert b"pwhash audit /etc/shadow" in done.err and b"pwhash audit -" in done.err, done


def test_a_dash_audits_standard_input() -> None:
    done = pwhash("audit", "-", stdin=b"eve:secret\n")
    assert done.status == 1 and b"1 line of standard input" in done.out, done


@pytest.mark.parametrize("words", [(), ("--only-problems",)], ids=["all rows", "problems"])
def test_a_quiet_audit_prints_rows_without_counts_and_advice(words: tuple[str, ...]) -> None:
    save("fields", b"eve:\nbob:secret\n")
    loud = pwhash("audit", *words, "fields")
    quiet = pwhash("audit", "--quiet", *words, "fields")
    rows, summary = loud.out.split(b"\n\n")
    assert (quiet.status, quiet.out, quiet.err) == (1, rows + b"\n", b""), quiet
    assert summary.startswith(b"2 lines of fields:") and b"set one" in summary, loud


# ---- Findings


@dataclass(frozen=True)
class Account:
    """A line of a shadow file, and its row in the audit."""

    line: bytes
    row: str

    @property
    def name(self) -> str:
        """The name in the row, or "line" for a line without a name."""
        return self.row.split()[0]


SHA512 = b"$6$rounds=656000$abcdefgh$"  # the setting
DIGEST = b"a" * 85 + b"."
ACCOUNTS = [
    Account(b"ann:" + SHA512 + DIGEST + b":1:::", "ann sha512crypt 656000 current"),
    Account(b"bob:" + SHA512 + b"short:1:::", "bob sha512crypt 656000 dead"),
    Account(b"old:" + MD5.encode() + b":1:::", "old md5crypt 1000 outdated"),
    Account(b"eve:$6$rounds=999999999$a$b:1:::", "eve sha512crypt 999999999 over budget"),
    Account(b"open::1:::", "open no password"),
    Account(b"shut:!:1:::", "shut locked"),
    Account(b"shut2:!" + MD5.encode() + b":1:::", "shut2 locked"),
    Account(b"mal:$6$rounds=x$a$b:1:::", "mal malformed bad rounds"),
    Account(b"bare:secret:1:::", "bare no scheme"),
    Account(b"y:$y$j9T$a$b:1:::", "y yescrypt unknown"),
    Account(b"\x1b[2J:!:1:::", "\\x1b[2J locked"),
    Account(b"secret line", "line 12 refused no password field"),
    Account(b"des:abcdefghijklm:1:::", "des descrypt unknown"),
    Account(b"odd:$9$x:1:::", "odd unknown"),
]
ANN = ACCOUNTS[0]


def audited(*words: str) -> list[str]:
    """Audits all accounts. Returns the printed lines, with single blanks between columns."""
    save("shadow", b"".join(account.line + b"\n" for account in ACCOUNTS))
    done = pwhash("audit", *words, "shadow")
    assert (done.status, done.err) == (1, b""), done
    return [" ".join(line.split()) for line in done.out.decode().splitlines()]


def test_each_account_has_a_row() -> None:
    rows = audited()
    assert rows[: len(ACCOUNTS) + 1] == [
        "NAME METHOD ROUNDS FINDING",
        *(account.row for account in ACCOUNTS),
    ]


def test_findings_are_counted() -> None:
    assert any(row.startswith("3 locked") for row in audited())


def test_no_password_is_shown() -> None:
    assert not any("secret" in row for row in audited())


def test_problems_are_sorted_by_kind() -> None:
    rows = audited("--only-problems")
    names = [row.split()[0] for row in rows[: rows.index("")]]
    assert names == ["NAME", "open", "eve", "mal", "bob", "bare", "line", "des", "odd", "old"]


JSON = ("--json", "--only-problems", "--locked")


def test_problems_are_printed_as_json_objects() -> None:
    """With --locked, the hashes of locked accounts are audited too."""
    names = [json.loads(row)["name"] for row in audited(*JSON)]
    assert names == ["bob", "old", "eve", "open", "shut2", "mal", "bare", "line 12", "des", "odd"]


@pytest.mark.parametrize(
    ("name", "member", "value"),
    [
        pytest.param("old", "rounds", 1000, id="rounds"),
        pytest.param("mal", "message", "bad rounds", id="a message"),
        pytest.param("mal", "rounds", None, id="no rounds"),
        pytest.param("odd", "method", None, id="no method"),
    ],
)
def test_a_json_object_has(name: str, member: str, value: object) -> None:
    found = [json.loads(row) for row in audited(*JSON)]
    assert [each[member] for each in found if each["name"] == name] == [value], found


@pytest.mark.parametrize("lock", ["!", "!!", "*", "*!"])
def test_the_option_locked_audits_the_hash_after_a_lock(lock: str) -> None:
    save("locked", f"ann:{lock}{MD5}:1:::\n".encode())
    done = pwhash("audit", "--locked", "--json", "locked")
    assert done.status == 1 and json.loads(done.out)["finding"] == "outdated", done


@pytest.mark.needs("root")
def test_the_systems_own_accounts_are_audited() -> None:
    assert pwhash("audit", "--only-problems", "/etc/shadow").status in (0, 1)


PREFIXED = [
    pytest.param(b"{SHA512-CRYPT}" + SHA512 + DIGEST, "current", id="Dovecot's"),
    pytest.param(b"{CRYPT}" + MD5.encode(), "outdated", id="LDAP's"),
    pytest.param(b"{crypt}" + SHA512 + b"short", "dead", id="in small letters"),
    pytest.param(b"{CRYPT}$6$rounds=999999999$a$b", "over budget", id="before a hostile hash"),
    pytest.param(b"{CRYPT}!" + MD5.encode(), "locked", id="before a lock"),
    pytest.param(b"!{CRYPT}" + MD5.encode(), "locked", id="after a lock"),
    pytest.param(b"{SSHA}!", "locked", id="of another scheme, before a lock"),
    pytest.param(b"{BLF-CRYPT}$2y$05$" + b"a" * 53, "unknown", id="of bcrypt"),
    pytest.param(b"{SSHA}" + b"a" * 28, "unknown", id="of another scheme"),
]


@pytest.mark.parametrize(("field", "finding"), PREFIXED)
def test_the_hash_after_a_prefix_is_judged(field: bytes, finding: str) -> None:
    save("hashes", b"ann:" + field + b":1000:1000::/home/ann\n")
    done = pwhash("audit", "--json", "hashes")
    judged = json.loads(done.out)
    prefix = field[field.index(b"{") : field.index(b"}") + 1].decode()
    assert (judged["finding"], judged["prefix"], judged["name"]) == (finding, prefix, "ann"), done
    done = pwhash("audit", "hashes")
    assert f"after {prefix}".encode() in done.out, done


def test_a_plain_password_after_a_prefix_has_no_scheme() -> None:
    done = pwhash("audit", "--json", save("one", b"ann:{PLAIN}secret\n"))
    assert json.loads(done.out)["finding"] == "no scheme" and b"PLAIN" not in done.out, done


@pytest.mark.parametrize("lock", [b"{CRYPT}!", b"!{CRYPT}", b"*{SHA512-CRYPT}!"])
def test_the_option_locked_audits_the_hash_after_a_lock_and_a_prefix(lock: bytes) -> None:
    save("locked", b"ann:" + lock + MD5.encode() + b"\n")
    done = pwhash("audit", "--locked", "--json", "locked")
    assert done.status == 1 and json.loads(done.out)["finding"] == "outdated", done


def test_comments_and_blank_lines_are_no_accounts() -> None:
    lines = b"# users: all\n\n" + ANN.line + b"\n#bob:" + MD5.encode() + b"\n \t\r\n"
    done = pwhash("audit", save("fields", lines))
    assert done.status == 0 and b"\n1 line of fields" in done.out, done
    assert b"users" not in done.out and b"bob" not in done.out, done
    done = pwhash("audit", "--json", "fields")
    assert [json.loads(row)["line"] for row in done.out.splitlines()] == [3], done


SECRET = "TopSecret1"
# Lines without a name in its place.
NOT_NAMES = [
    pytest.param(MD5, id="a bare hash"),
    pytest.param(f"{MD5}:ann", id="hash:name"),
    pytest.param(f"{MD5}:19000:0:99999:7:::", id="a line of shadow without its name"),
    pytest.param(f"{MD5[:20]}:ann", id="a cut hash"),
    pytest.param(f"!{MD5}:ann", id="a locked hash"),
    pytest.param("{SSHA}" + "a" * 28 + ":ann", id="an LDAP hash"),
    pytest.param("5f4dcc3b5aa765d61d8327deb882cf99:ann", id="MD5 in hexadecimal"),
    pytest.param("abJnggxhB/yWI:ann", id="a hash of DES"),
    pytest.param("W6ph5Mm5Pz8GgiULbPgzG37mj9g=:ann", id="SHA-1 in Base64"),
    pytest.param(f"{SECRET}:ann", id="password:name"),
    pytest.param(SECRET, id="a password"),
    pytest.param(f"ann,{SECRET}", id="a row with commas"),
    pytest.param(f"ann;{SECRET};https://example.org", id="a row with a colon in it"),
    pytest.param(f"ann\t{SECRET}:x", id="a row with tabs"),
    pytest.param(f"ann {SECRET}:{MD5}", id="blanks"),
    pytest.param(f"ann\uff1a{SECRET}:{MD5}", id="a full-width colon"),
    pytest.param(f'"{SECRET}":{MD5}', id="quotes"),
]


@pytest.mark.parametrize("line", NOT_NAMES)
@pytest.mark.parametrize("words", [(), ("--json",), ("--only-problems",)], ids=" ".join)
def test_a_hash_or_password_in_place_of_a_name_is_not_shown(
    line: str, words: tuple[str, ...]
) -> None:
    save("fields", b"bob:*\n" + line.encode() + b"\n")
    done = pwhash("audit", *words, "fields")
    assert b"line 2" in done.out and SECRET.encode() not in done.out, done
    assert line.partition(":")[0].encode() not in done.out, done


def test_a_file_without_lines_is_named() -> None:
    done = pwhash("audit", "--only-problems", save("none", b""))
    message = b"pwhash: none has no lines.\n"
    assert (done.status, done.out, done.err) == (2, b"", message), done


def test_only_problems_prints_nothing_if_there_is_none() -> None:
    done = pwhash("audit", "--only-problems", save("fine", ANN.line + b"\n"))
    assert (done.status, done.out, done.err) == (0, b"", b""), done


@pytest.mark.parametrize(
    ("field", "status"),
    [
        pytest.param(b"abcdefghijklm", 1, id="descrypt"),
        pytest.param(b"$9$x", 1, id="an unknown method"),
        pytest.param(b"$y$j9T$a$b", 0, id="yescrypt"),
        pytest.param(b"$2b$10$x", 0, id="bcrypt"),
        pytest.param(b"$gy$j9T$a$b", 0, id="gost-yescrypt"),
        pytest.param(b"!", 0, id="a lock"),
    ],
)
@pytest.mark.parametrize("words", [(), ("--json",)], ids=["as a table", "in JSON"])
def test_the_status_says_whether_there_is_a_problem(
    field: bytes, status: int, words: tuple[str, ...]
) -> None:
    save("one", b"ann:" + field + b":1\n")
    assert pwhash("audit", *words, "one").status == status
    prints_a_problem = pwhash("audit", "--only-problems", "one").out != b""
    assert prints_a_problem == (status == 1)

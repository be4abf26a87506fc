"""The calls of a careless service, which looks at nothing but their results."""
from __future__ import annotations

from dataclasses import dataclass

from .model.calls import (
    GREATEST,
    Audit,
    Bound,
    Call,
    Form,
    Hash,
    Limit,
    Login,
    MakeSetting,
    Message,
    NeedsRehash,
    New,
    Reason,
    Rounds,
    SchemeName,
    Verify,
    in_each_form,
)
from .model.settings import read_setting
from .model.work import cost
from .stored_fields import (
    LONGEST_PASSWORD,
    MD5CRYPT,
    NEVER_OPEN,
    SCRYPT_OF_NOTHING,
    SCRYPT_OF_PASSWORD,
)

COST = cost(read_setting(MD5CRYPT), len(b"password"))
CHEAP_SCRYPT = b"$7$2/..../....ab"  # N = 16, r = 1, p = 1


@dataclass(frozen=True)
class WrongPassword:
    """A password other than "password", and the error with which it is refused."""

    title: str
    password: bytes
    error: Reason = Reason.WRONG_PASSWORD

    def __str__(self) -> str:
        return self.title


WRONG_PASSWORDS = (
    WrongPassword("the empty password", b""),
    WrongPassword("another first letter", b"Password"),
    WrongPassword("a trailing space", b"password "),
    WrongPassword("1024 bytes", LONGEST_PASSWORD),
    WrongPassword("a trailing zero byte", b"password\0", Reason.PASSWORD_ZERO_BYTE),
    WrongPassword("1025 bytes", LONGEST_PASSWORD + b"a", Reason.PASSWORD_TOO_LONG),
)


def careless_logins() -> list[Verify]:
    """Returns calls of mkpasswd_verify.

    They check the right password against every field, then against one hash with each budget, and
    then each wrong password against that hash.
    """
    fields = [*(field.text for field in NEVER_OPEN), MD5CRYPT, SCRYPT_OF_PASSWORD.text]
    calls = [Verify(b"password", field) for field in fields]
    calls += [Verify(b"password", MD5CRYPT, budget) for budget in (0, COST - 1, COST, GREATEST)]
    calls += [Verify(wrong.password, MD5CRYPT) for wrong in WRONG_PASSWORDS]
    return in_each_form(*calls)


def calls_of_each_kind() -> list[Call]:
    """Returns some of these calls and some of every other kind, to try a build of the library."""
    calls: list[Call] = [
        call for call in careless_logins() if call.form is Form.STRINGS or call.stored == MD5CRYPT
    ]
    calls += in_each_form(
        Bound(MD5CRYPT),
        Audit(MD5CRYPT, method=1),
        NeedsRehash(MD5CRYPT),
        Limit(),
        Rounds(password_length=200),
        MakeSetting(method=6, rounds=0, salt=b"salt"),
        Hash(b"password", b"!"),
        Verify(b"", SCRYPT_OF_NOTHING.text),
        Verify(b"x", SCRYPT_OF_NOTHING.text),
        Hash(b"password", CHEAP_SCRYPT),
        Hash(b"password", CHEAP_SCRYPT, GREATEST),
        New(b"password", method=1),
        New(b"password", method=7, rounds=6),
        Message(Reason.DEAD),
        SchemeName(scheme=7),
    )
    fields = (
        *(None, b"", b"!", b"*", b"!" + b"a" * 399),
        *(b"$y$x", b"$6$rounds=999999999$ab$x", MD5CRYPT),
    )
    logins = (Login(b"password", field, method=6, rounds=1000) for field in fields)
    calls += in_each_form(*logins)
    return calls

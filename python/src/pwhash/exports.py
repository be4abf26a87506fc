"""Recognizes what spreadsheets, databases and password files put in place of a password."""

from __future__ import annotations

import re

# What follows a name in /etc/shadow, /etc/passwd, htpasswd files and databases' tables of users.
STORED = re.compile(
    rb"(?s)\$(?:[A-Za-z0-9]{1,2}|[A-Za-z-]*[0-9][A-Za-z0-9-]*)[$,].{8,}"  # the name of a scheme
    rb"|[!*]+(?:\$.*)?(?::[0-9]*)*"  # a lock
    rb"|[^:]*(?::[0-9]*){7}"  # the fields of shadow
    rb"|[^:]*:[^:/]*:[^:/]*:[^:]*(?::(?:/[^:]*)?){2}"  # those of passwd
    rb"|\{[A-Z0-9.-]+\}.{8,}"  # a scheme of LDAP
    rb"|(?:pbkdf2_sha[0-9]+|bcrypt(?:_sha256)?|argon2|scrypt|sha1|md5)\$.{16,}"  # of Django
    rb"|(?:pbkdf2:sha[0-9]+(?::[0-9]+)?|scrypt(?::[0-9]+){3})\$.{16,}"  # of Werkzeug
    rb"|SCRAM-SHA-256\$[0-9]+:.{16,}|md5[0-9a-f]{32}"  # of PostgreSQL
    rb"|\*[0-9A-F]{40}"  # of MySQL
)
# A digest in hexadecimal, as MD5, NTLM and SHA have it, or a longer one in Base64.
DIGEST = re.compile(rb"(?:0x)?[0-9A-Fa-f]{32,}|[A-Za-z0-9+/]{27,}={1,2}")
# Errors that spreadsheets show in place of a value, in the user's language: #NAME?, #NAAM?.
ERROR = re.compile(r"#[\u00a1\u00bf]?([^\W\d_][\w/]+)[!?]")
ERROR_WITHOUT_MARK = re.compile(
    "#(?:N/A|N/D|N/B|NV|I/T|\u041d/\u0414|YOK|HI\u00c1NYZIK|GETTING_DATA)|(?:Err|Fehler):[0-9]{3}"
)
# How spreadsheets write true and false, in many languages.
TRUTHS = frozenset(
    [
        *("TRUE", "FALSE", "WAHR", "FALSCH", "VRAI", "FAUX", "VERDADERO", "FALSO", "VERDADEIRO"),
        *("VERO", "WAAR", "ONWAAR", "PRAWDA", "FAŁSZ", "ИСТИНА", "ЛОЖЬ", "SANT", "FALSKT", "SAND"),
        *("FALSK", "SANN", "USANN", "TOSI", "EPÄTOSI", "NEPRAVDA", "IGAZ", "HAMIS", "DOĞRU"),
        "YANLIŞ",
    ]
)
# Values that spreadsheets change when they save a table: ### in a narrow column, a long number,
# formulas; and what Python and pandas write for a missing value.
CHANGED = re.compile(
    r"#{3,}|[+-]?[0-9](?:[.,][0-9]+)?E[+-]?[0-9]+|=\"[^\"]*\"|'[=+@-].*|null|None|na[nN]|NaN"
    r"|=[A-Z][A-Z0-9.]+\(.*\)"  # a formula
)
# What databases export for a missing value.
NOTHING = frozenset(["NULL", "\\N", "(null)"])


def is_digest(password: bytes) -> bool:
    """Returns whether this looks like a bare digest, such as MD5's in a database."""
    return DIGEST.fullmatch(password) is not None


def is_stored(password: bytes) -> bool:
    """Returns whether this is a stored hash, or the fields of a password file."""
    return STORED.fullmatch(password) is not None


def is_damaged(field: bytes, is_of_table: bool) -> bool:
    """Returns whether a program has exported this in place of a value, or has changed the value."""
    text = field.decode(errors="replace")
    if text in NOTHING or ERROR_WITHOUT_MARK.fullmatch(text):
        return True
    error = ERROR.fullmatch(text)
    if error and error[1].isupper():
        return True
    return is_of_table and (text in TRUTHS or CHANGED.fullmatch(text) is not None)


def is_misread(text: str) -> bool:
    """Returns whether a program has read UTF-8 as Windows-1252.

    Excel does so without a byte order mark.
    """
    try:
        return text.encode("cp1252").decode() != text
    except UnicodeError:
        return False

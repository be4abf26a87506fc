"""The headings that people give to columns of names and of passwords, in many languages."""

from __future__ import annotations

import re

NAMES = frozenset(
    [
        *("name", "user", "username", "login", "account", "benutzer", "benutzername", "usuario"),
        *("utilisateur", "nom", "vorname", "nachname", "nutzer", "nutzername", "anmeldename"),
        *("kennung", "nombre", "prénom", "identifiant", "nome", "utente", "gebruiker"),
        *("gebruikersnaam", "имя", "логин", "email", "e-mail", "mail", "emailadresse"),
        *("e-mail-adresse", "correo", "courriel", "userid", "user_name", "mitarbeiter"),
        *("mitarbeiterin", "employee", "teilnehmer", "schüler", "mitglied", "email address"),
        *("e-mail address", "user id", "user name", "login name", "first name", "last name"),
        *("nom d'utilisateur", "nombre de usuario", "nome utente"),
    ]
)
PASSWORDS = frozenset(
    [
        *("password", "passwd", "passwort", "kennwort", "contraseña", "clave", "senha"),
        *("motdepasse", "wachtwoord", "hasło", "пароль", "mot de passe", "mot_de_passe"),
        *("passphrase", "new password", "initial password"),
    ]
)
# Headings that are passwords or names too often to be doubtful by themselves.
SHORT_PASSWORDS = frozenset(["pass", "pwd", "pw", "pin", "code", "secret"])
LOGIN_NAME = re.compile(rb"[a-z_\x80-\xff][a-z0-9_.\x80-\xff-]*")


def fold(field: bytes) -> str:
    """Returns a field as headings are compared: in small letters, and without blanks around it."""
    return field.decode("utf-8", "surrogateescape").strip().casefold()


def is_of_passwords(heading: str) -> bool:
    """Returns whether a folded heading is one of passwords, even a short one such as pw."""
    return heading in PASSWORDS or heading in SHORT_PASSWORDS


def is_known(field: bytes) -> bool:
    """Returns whether a field is a heading of names or passwords."""
    return fold(field) in NAMES or is_of_passwords(fold(field))


def is_heading_of_names(field: bytes) -> bool:
    """Returns whether a name is the heading of a column of names or of passwords."""
    return fold(field) in NAMES or fold(field) in PASSWORDS


def is_heading_of_passwords(name: bytes, password: bytes) -> bool:
    """Returns whether a password is a heading.

    After a login name, `password` may be a real password.
    """
    if password == b"password" and LOGIN_NAME.fullmatch(name):
        return False
    return fold(password) in PASSWORDS


def ends_in_heading(password: bytes) -> bool:
    """Returns whether a password ends in the heading of another list, as in pw1name:password.

    This happens when lists are joined without a line feed between them. The other list may have its
    passwords first.
    """
    if b":" not in password:
        return False
    before, _, last = fold(password).rpartition(":")
    if is_of_passwords(last):
        return before.endswith(tuple(NAMES))
    return last in NAMES and before.endswith((*PASSWORDS, *SHORT_PASSWORDS))

"""The page that makes and checks hashes, in Chromium, Firefox and WebKit.

Each browser opens the page from a server on this machine and from a file, and evaluates page.js,
which acts like a visitor and reports what the page shows. Each test checks one part of that
report. Each browser also opens changed copies of the page, and a page with mkpasswd.mjs.
"""
from __future__ import annotations

import json
import re
from dataclasses import dataclass
from pathlib import Path

import pytest
from support import ROOT
from support.browsers import Browser
from support.costly_hashes import SCRYPT_AT_DEFAULT, SHA512CRYPT_AT_DEFAULT
from support.libxcrypt import crypt
from support.model.methods import SCRYPT, SHA512CRYPT
from support.model.settings import read_setting
from support.model.work import cost, login_limit
from support.other_hashes import OTHER_HASHES
from support.reports import Report, read_report
from support.web_server import WebServer

pytestmark = pytest.mark.usefixtures("web_build")  # can skip the tests before a browser starts

PAGE_SCRIPT = ROOT / "tests/web/page.js"
PASSWORD = "K\u00e4se \U0001f40e"  # the password that page.js types
ROUNDS = "1234"  # the rounds that it chooses for SHA-crypt

METHODS = ("sha512crypt", "sha256crypt", "scrypt", "md5crypt")
DIGEST_LENGTHS = {"sha512crypt": 86, "sha256crypt": 43, "scrypt": 43, "md5crypt": 22}
# The form of a hash with the chosen rounds and a salt of full length.
FORMS = {
    "sha512crypt": rf"\$6\$rounds={ROUNDS}\$[./\w]{{16}}\$\S+",
    "sha256crypt": rf"\$5\$rounds={ROUNDS}\$[./\w]{{16}}\$\S+",
    "scrypt": r"\$7\$BU\.{4}/\.{4}[./\w]{22}\$\S+",  # with rounds = 6
    "md5crypt": r"\$1\$[./\w]{8}\$\S+",
}

# How the page says how long a job took, and how long one will take, on any machine.
TIME_TAKEN = r"(less than 0\.1\u00a0s|\d\.\d\u00a0s|\d+ (seconds|minutes|hours))"
TIME_EXPECTED = r"(a moment|about ((a|a quarter of a|half a) second|\d+ (seconds|minutes|hours)))"

OUTDATED = (
    "The password matches, but the hash is outdated "
    "(few rounds, or not sha512crypt): replace it with a new one."
)
NO_MATCH = "The password does not match."
HOPELESS = "No password matches it: copy it again, or set a new password."

each_method = pytest.mark.parametrize("method", METHODS)


# ---- Hashes that the page can't check


@dataclass(frozen=True)
class Unchecked:
    """A stored hash, or a line with one, a password, and the page's answer."""

    title: str
    stored: str
    password: str
    answer: str


SHA512_HASH = "$6$s$" + "." * 86
DEAR_HASH = SHA512_HASH.replace("$6$", "$6$rounds=999999999$")
COST_OF_DEAR_HASH = cost(read_setting(DEAR_HASH.encode()), len("x"))
DEAR_SCRYPT_HASH = "$7$GU..../....s$" + "." * 43  # takes 1 GiB
COST_OF_DEAR_SCRYPT_HASH = cost(read_setting(DEAR_SCRYPT_HASH.encode()), len("x"))
ELSEWHERE = "which can\u2019t be checked here. Log in on the system that stored it."
NOT_A_HASH = "is not a hash of crypt(5). Paste one, or its whole line."
UNCHECKED = [
    Unchecked(
        "a password of 1025 bytes",
        stored=SHA512_HASH,
        password="x" * 1025,
        answer="The password has more than 1024 bytes. Use a shorter one.",
    ),
    Unchecked(
        "a password with a zero byte",
        stored=SHA512_HASH,
        password="x\0y",
        answer="The password has a zero byte, which no login accepts. Type it again.",
    ),
    Unchecked(
        "a hash that is too long",
        stored="$6$" + "x" * 400,
        password="x",
        answer="This is longer than any hash. Copy the hash alone, or its whole line.",
    ),
    Unchecked(
        "a hash with a non-ASCII character",
        stored="$6$s\u00e4lt$x",
        password="x",
        answer="This has a character that is in no hash. Copy the hash again.",
    ),
    Unchecked(
        "a hash without a number of rounds",
        stored="$5$rounds=$x",
        password="x",
        answer="No valid number follows rounds= in this hash. Copy it again.",
    ),
    Unchecked(
        "a locked hash",
        stored="!$6$s$x",
        password="x",
        answer="This account is locked, so no password matches. "
        "To check the hash behind ! or *, remove that character.",
    ),
    Unchecked(
        "an empty field",
        stored="",
        password="x",
        answer="This account has no hash. Set a password, or lock it.",
    ),
    Unchecked(
        "a line of the shadow file with an empty field",
        stored="ann::19000:0:99999:7:::",
        password="",
        answer="This account has no hash. Set a password, or lock it.",
    ),
    Unchecked(
        "a hash above the budget",
        stored=DEAR_HASH,
        password="x",
        answer="Checking this hash can take N, so it was refused. "
        f"If you trust it, raise the budget to {COST_OF_DEAR_HASH}.",
    ),
    Unchecked(
        "a truncated hash that would be above the budget",
        stored="$6$rounds=999999999$s$x",
        password="x",
        answer=f"This hash is cut: 1 of 86 characters. {HOPELESS}",
    ),
    *(
        Unchecked(str(other), other.text, "x", answer=f"This is {other.scheme}, {ELSEWHERE}")
        for other in OTHER_HASHES
    ),
    Unchecked(
        "yescrypt in a line of the shadow file",
        stored="ann:$y$j9T$x$y:19000::::::",
        password="x",
        answer=f"This is yescrypt, {ELSEWHERE}",
    ),
    Unchecked(
        "scrypt without a digest",
        stored="$7$46..../....s",
        password="x",
        answer=f"This hash is cut: 0 of 43 characters. {HOPELESS}",
    ),
    Unchecked(
        "scrypt above the budget",
        stored=DEAR_SCRYPT_HASH,
        password="x",
        answer="Checking this hash can take N, so it was refused. "
        f"If you trust it, raise the budget to {COST_OF_DEAR_SCRYPT_HASH}.",
    ),
    Unchecked(
        "scrypt without a cost",
        stored="$7$x",
        password="x",
        answer="This hash of scrypt has no valid cost. Copy it again.",
    ),
    Unchecked(
        "scrypt above its ceiling",
        stored="$7$M0..../....s",
        password="x",
        answer="This hash of scrypt takes too much memory for any login. Set a new password.",
    ),
    Unchecked(
        "the MD5 of Apache",
        stored="$apr1$s$x",
        password="x",
        answer=f"This is another scheme, {ELSEWHERE}",
    ),
    Unchecked(
        "Argon2",
        stored="$argon2id$v=19$x",
        password="x",
        answer=f"This is another scheme, {ELSEWHERE}",
    ),
    Unchecked(
        "SHA-1 in a line of an htpasswd file",
        stored="ann:{SHA}x=",
        password="x",
        answer=f"\u201c{{SHA}}x=\u201d {NOT_A_HASH}",
    ),
    Unchecked(
        "a word",
        stored="hello",
        password="x",
        answer=f"\u201chello\u201d {NOT_A_HASH}",
    ),
    Unchecked(
        "several words, of which the page repeats only the first",
        stored="correct horse battery staple",
        password="x",
        answer=f"\u201ccorrect horse batter\u2026\u201d {NOT_A_HASH}",
    ),
]


# ---- The pages for the browsers


@dataclass(frozen=True)
class Pages:
    """Changed copies of the page, and pages with mkpasswd.mjs."""

    without_webassembly: Path  # its security policy refuses WebAssembly
    without_script: Path  # its security policy refuses the script
    slow: Path  # its measurement says that a hash takes minutes
    module: Path  # it calls mkpasswd.mjs
    module_without_worker: Path  # the same, but its security policy refuses workers
    module_without_webassembly: Path  # the same, but its security policy refuses WebAssembly


# A page with a script that uses the module and reports through the document's title.
MODULE_PAGE = """<!DOCTYPE html><meta charset="utf-8"><title>running</title>
<meta http-equiv="Content-Security-Policy" content="default-src 'none'; \
script-src 'unsafe-inline' 'wasm-unsafe-eval'; worker-src blob:">
<script type="module">
@MODULE@
async function visit() {
    const policy = new Policy({ rounds: 1234 });
    const stored = await policy.hashAsync('password');
    const old = '$1$xxxxxxxx$UYCIxa628.9qXjpQCjM4a.';
    const logins = {
        right: policy.loginAsync('password', stored),
        wrong: policy.loginAsync('passwort', stored),
        unknown: policy.loginAsync('password', null),
        outdated: policy.loginAsync('password', old),
    };
    const results = {};
    for (const [name, login] of Object.entries(logins)) results[name] = await login;
    const refused = await policy.hashAsync('x\\0').catch(({ reason }) => reason);
    const scrypt = await new Policy({ method: 'scrypt', rounds: 6 }).hashAsync('password');
    return { stored, results, renewed: results.outdated.new, refused, scrypt };
}
document.title = JSON.stringify(await visit().catch(String));
</script>
"""
# The same, for a security policy that refuses WebAssembly. The module is inside a function, since
# WebKit sends no event if a module throws.
REFUSED_MODULE_PAGE = """<!DOCTYPE html><meta charset="utf-8"><title>running</title>
<meta http-equiv="Content-Security-Policy" content="default-src 'none'; \
script-src 'unsafe-inline'; worker-src blob:">
<script>
async function visit() {
@MODULE@
}
visit().then(() => 'allowed', String).then((end) => { document.title = JSON.stringify(end); });
</script>
"""
TITLE_SCRIPT = """
return (async () => {
    while (document.title === 'running') await new Promise((next) => setTimeout(next, 20));
    return document.title;
})();
"""


def replace_first(text: str, pattern: str, replacement: str) -> str:
    """Returns a page in which the first match is replaced."""
    result, count = re.subn(pattern, replacement, text, count=1)
    assert count == 1, f"the page has no {pattern}"
    return result


@pytest.fixture(scope="module")
def pages(web_build: Path, tmp_path_factory: pytest.TempPathFactory) -> Pages:
    """The changed pages, in a folder with a path like the installed page's."""
    folder = tmp_path_factory.mktemp("installed") / "doc/mkpasswd"
    folder.mkdir(parents=True)
    text = (web_build / "mkpasswd.html").read_text(encoding="utf-8")
    module = (web_build / "mkpasswd.mjs").read_text(encoding="utf-8")
    module_page = MODULE_PAGE.replace("@MODULE@", module)
    without_exports = re.sub(r"^export ", "", module, flags=re.MULTILINE)
    slow = replace_first(text, "return time / count;", "return 9000;")

    def write(name: str, content: str) -> Path:
        path = folder / name
        path.write_text(content, encoding="utf-8")
        return path

    return Pages(
        without_webassembly=write("1.html", replace_first(text, " 'wasm-unsafe-eval'", "")),
        without_script=write(
            "2.html", replace_first(text, "script-src [^;]*", "script-src 'none'")
        ),
        slow=write("3.html", replace_first(slow, "<title>.*?</title>", "<title>slow</title>")),
        module=write("4.html", module_page),
        module_without_worker=write("5.html", replace_first(module_page, " worker-src blob:", "")),
        module_without_webassembly=write(
            "6.html", REFUSED_MODULE_PAGE.replace("@MODULE@", without_exports)
        ),
    )


@pytest.fixture(scope="module")
def page_script(server: WebServer) -> str:
    """page.js as the body of a function, preceded by definitions of the values that it needs."""
    values = {
        "SERVER": server.address,
        "ROWS": [[row.stored, row.password] for row in UNCHECKED],
        "CURRENT": SHA512CRYPT_AT_DEFAULT.decode(),
        "SCRYPT": SCRYPT_AT_DEFAULT.decode(),
    }
    defined = [f"const {name} = {json.dumps(value)};\n" for name, value in values.items()]
    script = PAGE_SCRIPT.read_text(encoding="utf-8")
    returned = "return visit().catch(String).then(JSON.stringify);\n"
    return "".join(defined) + script + returned


def visit(browser: Browser, address: str, script: str) -> Report:
    """Opens an address, runs a script there, and returns its report."""
    name = "the page's own" if script == TITLE_SCRIPT else str(PAGE_SCRIPT.relative_to(ROOT))
    origin = f"address: {address}\nscript: {name}"
    report = read_report(origin, browser.evaluate(address, script))
    if isinstance(report.value, str):
        raise AssertionError(f"the script failed\n{origin}\ngot: {report.value}")
    return report


def visit_page(browser: Browser, address: str, script: str) -> Report:
    """Opens a page that must run, and returns the script's report."""
    report = visit(browser, address, script)
    if "unable" in report.value:
        raise AssertionError(f"the page doesn't run\n{report.origin}\ngot: {report['unable']}")
    return report


@pytest.fixture(scope="module")
def served(browser: Browser, server: WebServer, page_script: str) -> Report:
    """The report about the page from the server."""
    return visit_page(browser, f"{server.address}/mkpasswd.html", page_script)


@pytest.fixture(scope="module")
def opened(browser: Browser, web_build: Path, page_script: str) -> Report:
    """The report about the page from a file."""
    return visit_page(browser, (web_build / "mkpasswd.html").as_uri(), page_script)


@pytest.fixture(params=["served", "opened"], ids=["from a server", "from a file"])
def page(request: pytest.FixtureRequest, browser: Browser) -> Report:
    """The report about the page from the server, and then the one from a file."""
    del browser  # naming the fixture runs each test in each browser
    report: Report = request.getfixturevalue(request.param)
    return report


# ---- Making a hash


@dataclass(frozen=True)
class NewHash:
    """A hash that the page made, and its messages about it."""

    stored: str
    answer_to_right_password: str
    answer_to_wrong_password: str
    message_when_made: str


def new_hash(page: Report, method: str) -> NewHash:
    """Returns the hash that the page made with a method, and its messages."""
    return NewHash(*page["hashes"][METHODS.index(method)])


def without_time(answer: str) -> str:
    """Returns the page's answer without the time that it took."""
    return re.sub(rf" Checked in {TIME_TAKEN}\.$", "", answer)


def of_libxcrypt(password: str, stored: str) -> str:
    """Returns libxcrypt's hash of a password with a setting, or with the setting of a hash."""
    return crypt(password.encode(), stored.encode()).decode()


@each_method
def test_hash_is_libxcrypts(page: Report, method: str) -> None:
    stored = new_hash(page, method).stored
    assert stored == of_libxcrypt(PASSWORD, stored)


@each_method
def test_hash_has_the_chosen_method_and_rounds_and_a_full_salt(page: Report, method: str) -> None:
    assert re.fullmatch(FORMS[method], new_hash(page, method).stored)


def test_every_hash_has_another_salt(served: Report, opened: Report) -> None:
    stored = [new_hash(report, method).stored for report in (served, opened) for method in METHODS]
    salts = [text.split("$")[-2] for text in stored]
    assert len(set(salts)) == len(salts), salts


@each_method
def test_page_says_how_long_a_hash_took(page: Report, method: str) -> None:
    message = new_hash(page, method).message_when_made
    assert re.fullmatch(rf"Made in {TIME_TAKEN}\.", message)


def test_page_says_how_long_a_hash_will_take(page: Report) -> None:
    assert re.fullmatch(rf"Takes {TIME_EXPECTED}\.", page["estimate"])


@pytest.mark.parametrize(
    ("place", "rounds", "memory"),
    [
        pytest.param(0, SCRYPT.recommended, 64, id="the recommended rounds"),
        pytest.param(1, 11, 1024, id="the most rounds"),
    ],
)
def test_page_says_how_much_time_and_memory_scrypt_will_take(
    page: Report, place: int, rounds: int, memory: int
) -> None:
    shown_rounds, estimate = page["scrypt"]["estimates"][place]
    assert shown_rounds == str(rounds)
    assert re.fullmatch(rf"Takes {TIME_EXPECTED} and {memory}\u00a0MiB of memory\.", estimate)


def test_fields_have_the_recommended_rounds_and_their_budget(page: Report) -> None:
    limit = login_limit(SHA512CRYPT, None, 0)
    assert page["recommended"] == [str(SHA512CRYPT.recommended), str(limit)]


@pytest.mark.parametrize(
    "place",
    [
        pytest.param(0, id="999"),
        pytest.param(1, id="1000000000"),
        pytest.param(2, id="5000 in the lowest 32 bits"),
    ],
)
def test_rounds_that_no_hash_has_are_refused(page: Report, place: int) -> None:
    assert page["rounds"][place] == "Give 1000 to 999999999 rounds."


@pytest.mark.parametrize(
    "place", [pytest.param(0, id="5"), pytest.param(1, id="12"), pytest.param(2, id="SHA-crypt's")]
)
def test_rounds_that_scrypt_does_not_have_are_refused(page: Report, place: int) -> None:
    message = page["scrypt"]["refused"][place]
    assert message == "Give 6 to 11 rounds: one more doubles time and memory."


def test_rounds_of_md5crypt_are_fixed_and_the_page_warns_about_it(page: Report) -> None:
    is_disabled, rounds, warning = page["fixed"]
    assert is_disabled
    assert rounds == "1000"
    assert warning == "md5crypt is weak. Use it only where nothing else works."


def test_rounds_return_after_md5crypt(page: Report) -> None:
    is_disabled, rounds = page["free"]
    assert not is_disabled
    assert rounds == ROUNDS


def test_password_typed_only_once_makes_no_hash(page: Report) -> None:
    message_without_repeat, _, is_hash_shown = page["mistyped"]
    assert message_without_repeat == "Type the password again, or show it."
    assert not is_hash_shown


def test_password_repeated_wrongly_makes_no_hash(page: Report) -> None:
    _, message_for_another, is_hash_shown = page["mistyped"]
    assert message_for_another == "The two passwords differ. Type them again, or show the first."
    assert not is_hash_shown


def test_results_disappear_when_a_forms_fields_change(page: Report) -> None:
    assert page["left"] is False


def test_hash_that_takes_too_long_can_be_stopped(page: Report) -> None:
    assert page["stopped"] == "Stopped."


# ---- A generated password


def test_generated_password_has_20_letters_and_digits(page: Report) -> None:
    assert re.fullmatch("[A-Za-z0-9]{20}", page["generated"][0])


def test_generated_password_is_shown_and_can_be_copied(page: Report) -> None:
    _, button, input_type, is_repeat_disabled, can_be_copied, _ = page["generated"]
    assert (button, input_type) == ("Hide the password", "text")
    assert is_repeat_disabled
    assert can_be_copied


def test_passwords_are_concealed_until_they_are_shown(browser: Browser, web_build: Path) -> None:
    script = """
    const concealed = document.querySelectorAll('input[type=password]');
    return JSON.stringify([...concealed].map(({ id }) => id));
    """
    report = browser.evaluate((web_build / "mkpasswd.html").as_uri(), script)
    assert json.loads(report) == ["password", "repeat", "guess"], script


def test_shown_password_can_be_concealed(page: Report) -> None:
    button, input_type, is_repeat_disabled = page["concealed"]
    assert (button, input_type) == ("Show the password", "password")
    assert not is_repeat_disabled


def test_generated_password_is_the_one_that_is_hashed(page: Report) -> None:
    assert page["generated"][-1].startswith("The password matches")


def test_characters_of_generated_passwords_are_equally_probable(page: Report) -> None:
    letters_and_digits = 26 + 26 + 10
    times_of_each = 10  # in all passwords that page.js generates
    assert sorted(page["frequencies"].values()) == [times_of_each] * letters_and_digits


# ---- Places for a hash


@dataclass(frozen=True)
class Place:
    """A place for the hash of Ann's password, and the text that the page shows for it."""

    name: str
    text: str  # with HASH for the hash
    has_user: bool = False


PLACES = [
    Place("plain", "HASH"),
    Place("preseed-root", "d-i passwd/root-password-crypted password HASH"),
    Place("preseed-user", "d-i passwd/user-password-crypted password HASH"),
    Place("kickstart", "rootpw --iscrypted HASH"),
    Place("kickstart-user", "user --name=ann --iscrypted --password=HASH", has_user=True),
    Place(
        "cloud-init",
        '#cloud-config\nusers:\n  - name: "ann"\n    lock_passwd: false\n    hashed_passwd: HASH',
        has_user=True,
    ),
    Place("ansible", 'password: "HASH"'),
    Place("chpasswd", "ann:HASH", has_user=True),
    Place("htpasswd", "ann:HASH", has_user=True),
]
PLACES_WITH_A_USER = [place for place in PLACES if place.has_user]
each_place = pytest.mark.parametrize("place", PLACES, ids=[place.name for place in PLACES])


@each_place
def test_hash_is_shown_in_the_form_for_its_place(page: Report, place: Place) -> None:
    text, _, _ = page["places"][place.name]
    assert text == place.text.replace("HASH", page["stored"])


@each_place
def test_the_shown_text_is_copied(page: Report, place: Place) -> None:
    _, copied, _ = page["places"][place.name]
    assert copied == place.text.replace("HASH", page["stored"])


@each_place
def test_page_asks_for_a_name_if_the_place_needs_one(page: Report, place: Place) -> None:
    _, _, refused_names = page["places"][place.name]
    assert bool(refused_names) == place.has_user


@pytest.mark.parametrize(
    "place", PLACES_WITH_A_USER, ids=[place.name for place in PLACES_WITH_A_USER]
)
def test_nothing_is_copied_without_a_valid_name(page: Report, place: Place) -> None:
    rule = (
        "A name begins with a letter (A to Z) or _, "
        "and has only letters, digits and _.@- (at most 64)."
    )
    _, _, (message_for_empty, message_for_blank, message_for_digit) = page["places"][place.name]
    assert message_for_empty == "First type the user\u2019s name."
    assert message_for_blank == rule
    assert message_for_digit == rule


# ---- Checking a hash


@each_method
def test_right_password_matches_an_outdated_hash(page: Report, method: str) -> None:
    assert without_time(new_hash(page, method).answer_to_right_password) == OUTDATED


@each_method
def test_wrong_password_does_not_match(page: Report, method: str) -> None:
    assert without_time(new_hash(page, method).answer_to_wrong_password) == NO_MATCH


@pytest.mark.parametrize(
    ("place", "answer"),
    [
        pytest.param(0, OUTDATED, id="the right password"),
        pytest.param(1, NO_MATCH, id="a wrong password"),
    ],
)
def test_scrypt_hash_with_the_programs_cost_is_checked(
    page: Report, place: int, answer: str
) -> None:
    assert without_time(page["scrypt"]["checked"][place]) == answer


def test_hash_with_the_recommended_rounds_is_not_outdated(page: Report) -> None:
    assert re.match(r"The password matches\. Checked in ", page["current"])


@dataclass(frozen=True)
class Flaw:
    """A way of damaging a hash, in the order of page.js, and the page's name for it."""

    title: str
    name: str  # with placeholders for the lengths of the digest


FLAWS = [
    Flaw("without its digest", "cut: 0 of {length} characters"),
    Flaw("without its end", "cut: {shorter} of {length} characters"),
    Flaw("with more after it", "too long: {longer} characters in place of {length}"),
    Flaw("with other characters", "damaged"),
]


@each_method
@pytest.mark.parametrize("flaw", FLAWS, ids=[flaw.title for flaw in FLAWS])
def test_page_says_why_no_password_matches(page: Report, method: str, flaw: Flaw) -> None:
    length = DIGEST_LENGTHS[method]
    name = flaw.name.format(length=length, shorter=length - 9, longer=length + 2)
    place = METHODS.index(method) * len(FLAWS) + FLAWS.index(flaw)
    assert page["dead"][place] == f"This hash is {name}. {HOPELESS}"


@pytest.mark.parametrize("row", UNCHECKED, ids=[row.title for row in UNCHECKED])
def test_page_says_why_it_cannot_check(page: Report, row: Unchecked) -> None:
    answer = page["refused"][UNCHECKED.index(row)]
    assert re.sub(rf"(?<=can take ){TIME_EXPECTED}", "N", answer) == row.answer


def test_budget_is_hidden_until_a_hash_is_above_it(page: Report) -> None:
    assert page["hidden"] is True


@dataclass(frozen=True)
class Line:
    """A line with a hash, in the order of page.js, and the page's note about it."""

    title: str
    note: str = "From the line."


NOTE_OF_ANN = "From the line of ann."
LINES = [
    Line("the shadow file", NOTE_OF_ANN),
    Line("preseed, root"),
    Line("preseed, user"),
    Line("kickstart, root"),
    Line("kickstart, user"),
    Line("cloud-init"),
    Line("Ansible"),
    Line("chpasswd", NOTE_OF_ANN),
    Line("an htpasswd file", NOTE_OF_ANN),
    Line("LDAP"),
]


@pytest.mark.parametrize("line", LINES, ids=[line.title for line in LINES])
def test_page_finds_the_hash_in_a_line(page: Report, line: Line) -> None:
    answer, is_hash_alone_in_field, note = page["lines"][LINES.index(line)]
    assert without_time(answer) == OUTDATED
    assert is_hash_alone_in_field
    assert note == line.note


# ---- The page itself


LONGEST_PAGE = 2000  # in pixels of CSS
LEAST_TARGET = 44  # in pixels of CSS, from WCAG 2.1 (success criterion 2.5.5)


def test_script_cannot_send_anything(page: Report) -> None:
    sent_by_page, _ = page["sent"]
    assert sent_by_page == "refused"


def test_worker_cannot_send_anything(page: Report) -> None:
    _, sent_by_worker = page["sent"]
    assert sent_by_worker == "refused"


@pytest.mark.usefixtures("served", "opened")
def test_browser_requests_only_the_page(server: WebServer) -> None:
    assert set(server.requests) == {"GET /mkpasswd.html"}


def test_icon_is_in_the_page(page: Report) -> None:
    assert page["icon"] is True


def test_page_has_no_dead_links(page: Report) -> None:
    assert page["links"] == 0


@pytest.mark.parametrize("where", ["on a telephone", "on a desktop"])
def test_nothing_is_wider_than_the_screen(page: Report, where: str) -> None:
    beyond = {"on a telephone": page["phone"]["beyond"], "on a desktop": page["wide"]}
    assert beyond[where] <= 0


def test_page_is_not_too_long_on_a_telephone(page: Report) -> None:
    assert page["phone"]["height"] <= LONGEST_PAGE


def test_controls_are_high_enough_for_a_thumb(page: Report) -> None:
    assert page["phone"]["least"] >= LEAST_TARGET


# ---- Changed pages


@pytest.mark.parametrize("refused", ["WebAssembly", "script"])
def test_page_names_what_a_security_policy_refuses(
    browser: Browser, pages: Pages, page_script: str, refused: str
) -> None:
    path = pages.without_webassembly if refused == "WebAssembly" else pages.without_script
    report = visit(browser, path.as_uri(), page_script)
    named = re.search(r"\b(WebAssembly|script)\b", report["unable"])
    assert named and named[1] == refused, report
    if refused == "WebAssembly":
        assert "allow 'wasm-unsafe-eval' in script-src" in report["unable"], report
    assert report["forms"] == 0, report
    assert report["links"] == 4, report  # to the documents beside an installed page


def test_estimate_is_corrected_by_the_time_of_the_last_hash(
    browser: Browser, pages: Pages, page_script: str
) -> None:
    report = visit_page(browser, pages.slow.as_uri(), page_script)
    before, after = report.value
    assert before == "Takes about 20 minutes.", report
    assert re.fullmatch(rf"Takes {TIME_EXPECTED}\.", after) and after != before, report


# ---- mkpasswd.mjs in a page


@pytest.fixture(scope="module")
def module(browser: Browser, pages: Pages) -> Report:
    """The report about the page with the module."""
    return visit(browser, pages.module.as_uri(), TITLE_SCRIPT)


def test_module_accepts_the_right_password(module: Report) -> None:
    assert module["results"]["right"] == {"matches": True}


def test_module_refuses_a_wrong_password(module: Report) -> None:
    assert module["results"]["wrong"] is False


def test_module_refuses_an_unknown_name(module: Report) -> None:
    assert module["results"]["unknown"] is False


def test_module_renews_an_outdated_hash(module: Report) -> None:
    assert module["results"]["outdated"] == {"matches": True}
    assert module["renewed"].startswith(f"$6$rounds={ROUNDS}$")
    assert module["renewed"] == of_libxcrypt("password", module["renewed"])


def test_module_gives_libxcrypts_hash(module: Report) -> None:
    assert module["stored"] == of_libxcrypt("password", module["stored"])


def test_module_makes_a_scrypt_hash_in_a_worker(module: Report) -> None:
    assert module["scrypt"].startswith("$7$BU..../....")
    assert module["scrypt"] == of_libxcrypt("password", module["scrypt"])


def test_module_names_the_reason_for_a_refusal(module: Report) -> None:
    assert module["refused"] == "MKPASSWD_ERROR_PASSWORD_ZERO_BYTE"


def test_module_names_the_policy_that_refuses_its_worker(browser: Browser, pages: Pages) -> None:
    title = browser.evaluate(pages.module_without_worker.as_uri(), TITLE_SCRIPT)
    assert re.match("Error: .*Content-Security-Policy", json.loads(title))


def test_module_names_the_policy_that_refuses_webassembly(browser: Browser, pages: Pages) -> None:
    title = browser.evaluate(pages.module_without_webassembly.as_uri(), TITLE_SCRIPT)
    assert re.match("Error: .*'wasm-unsafe-eval' in script-src of the Con", json.loads(title))

"""Reads the command line: the arguments of each command, and the options made from them."""

from __future__ import annotations

import argparse
import functools
import os
import re
from collections.abc import Sequence
from typing import Any, Callable, Dict, List, NamedTuple, NoReturn, Optional

from pwhash import library
from pwhash.console import terminal_columns
from pwhash.errors import UsageError
from pwhash.library import Policy
from pwhash.options import (
    DEFAULT_COLUMNS,
    GENERATED_LENGTH,
    Action,
    AuditOptions,
    CalibrateOptions,
    CheckOptions,
    Doubtful,
    FileOptions,
    Form,
    Generate,
    Input,
    InstallOptions,
    Options,
    Service,
    SetOptions,
    SingleOptions,
    VerifyOptions,
    part_of,
)
from pwhash.text import display_name

USAGE = """
  pwhash                             hash a password, which it asks for
  pwhash file passwords -o hashes    hash lines name:password, for chpasswd -e
  pwhash audit /etc/shadow           what is wrong with stored hashes
  pwhash set passwords ann           a new password in a password file
  pwhash install hashes passwords    make hashes a service's password file
  pwhash verify [/etc/shadow ann]    whether a password fits a hash, or ann's
  pwhash calibrate 300ms             rounds with which no login takes longer

Hashes are {method} with {rounds} rounds. Each command has its own --help."""
FILE_TEXT = "Hashes lines name:password. A file is read twice, first to look for problems."
CHECK_TEXT = (
    "Checks lines name:field:password, where the field is what is stored: a hash, ! or nothing."
)
SET_TEXT = (
    "Changes one line name:hash of a service's password file: asks for a new password, and adds "
    "the line if there is none."
)
INSTALL_TEXT = (
    "Checks each line name:hash of HASHES, and replaces TARGET, the password file of a service, "
    "with that file. TARGET keeps its owner and mode."
)
AUDIT_TEXT = "Shows what is wrong with stored hashes; with --only-problems the worst first."
VERIFY_TEXT = (
    "Asks for a password, and says whether it matches NAME's hash in FILE. Without FILE and NAME "
    "it asks for the hash too, which can be pasted with its whole line. If standard input isn't a "
    "terminal, its first line is the password, and the hash follows. Ends with status 0 for yes, 1 "
    "for no, and more if it can't tell."
)
CALIBRATE_TEXT = (
    "Measures how long hashes take on this machine, and prints for each method the rounds and the "
    "budget with which checking a login takes at most TIME of one core, whatever hash is stored."
)

STDIN = "-"
SHORTEST_GENERATED, LONGEST_GENERATED = 8, 64
NUMBER = re.compile("([0-9]{1,20})([kM]?)")
FACTORS = {"": 1, "k": 1000, "M": 1000000}
TIME = re.compile("([0-9]{1,6}(?:[.][0-9]{1,6})?)(ms|s)")
SECONDS = {"ms": 0.001, "s": 1.0}
USER_NAME = re.compile("[A-Za-z_][A-Za-z0-9_.@-]{0,63}")
MODE = re.compile("0?[0-7]{3}")
MAX_MODE = 0o644
CONTROL_CHARACTER = re.compile("[\0-\x1f\x7f-\x9f]")
# A name that a line can begin with: services skip a line that begins with # as a comment.
NAME_OF_LINE = re.compile("[^:#\\0-\\x1f\\x7f][^:\\0-\\x1f\\x7f]*")
OPTION_NAME = re.compile("--[a-z-]+")
END_OF_OPTIONS = "--"
OPERAND_MARK = "\0"  # which no argument of a process contains
FORMS = {form.word: form for form in Form}
# The rounds that a method accepts, in words. md5crypt's can't be chosen.
ROUNDS = {
    "sha512crypt": "1000 to 999999999",
    "sha256crypt": "1000 to 999999999",
    "scrypt": "6 to 11",
}


class PrintAndExit(Exception):
    """Ends the run after --help or --version. The message is the text to print."""


def read_options(arguments: Sequence[str]) -> Options:
    """Returns the options of the command that these arguments name.

    The command has to be the first argument. Each command has a parser of its own, since argparse's
    subcommands would accept options in front of the command, and then forget them.
    """
    name = arguments[0] if arguments and arguments[0] in COMMANDS else ""
    command = COMMANDS[name]
    parser = command.parser()
    marked = mark_operands(arguments[1:] if name else arguments)
    parsed, unknown = parser.parse_known_intermixed_args(marked)
    if unknown:
        raise parser.usage_error(describe_unknown(unknown))
    return command.options(parser, unmark_operands(parsed))


def mark_operands(arguments: Sequence[str]) -> List[str]:
    """Returns the arguments, with a mark in front of each one after --.

    If options may stand between operands, argparse (that of Python 3.11, for one) parses the
    operands twice. By the second time it has forgotten the --, and would take them for options.
    """
    if END_OF_OPTIONS not in arguments:
        return list(arguments)
    end = arguments.index(END_OF_OPTIONS) + 1
    return [*arguments[:end], *(OPERAND_MARK + word for word in arguments[end:])]


def unmark_operands(parsed: argparse.Namespace) -> argparse.Namespace:
    """Returns the parsed arguments without the marks."""
    for key, value in vars(parsed).items():
        if value == []:  # what argparse makes of --out=--
            raise UsageError("an option has -- as its value. Give it another one.")
        if isinstance(value, str) and value.startswith(OPERAND_MARK):
            setattr(parsed, key, value[len(OPERAND_MARK) :])
    return parsed


def describe_unknown(arguments: Sequence[str]) -> str:
    """Describes arguments that pwhash doesn't know. A word isn't shown: it may be a password."""
    options = [word for word in arguments if OPTION_NAME.fullmatch(word)]
    if options:
        return f"no option {' '.join(options)}"
    return "there is a word too many, or an option that doesn't exist"


class Formatter(argparse.HelpFormatter):
    """Formats help. argparse's own formatter would import shutil to find the width."""

    def __init__(self, prog: str) -> None:
        super().__init__(prog, width=help_columns() - 2)  # as argparse leaves two columns free


@functools.lru_cache(maxsize=None)
def help_columns() -> int:
    """Returns the width of help texts, in columns: COLUMNS if sensible, else the terminal's."""
    columns = os.environ.get("COLUMNS", "")
    if columns.isascii() and columns.isdecimal() and 20 <= int(columns) < 1000:
        return int(columns)
    return terminal_columns()


class Parser(argparse.ArgumentParser):
    """Raises exceptions where argparse would print and exit."""

    def __init__(self, command: str, description: Optional[str]) -> None:
        super().__init__(
            prog=f"pwhash {command}" if command else "pwhash",
            usage=None if command else usage(),
            description=description,
            formatter_class=Formatter,
            allow_abbrev=False,
            add_help=False,
        )
        help_text = "show this help message and exit"
        version_text = "show program's version number and exit"
        self.add_argument("-h", "--help", action=ShowHelp, nargs=0, help=help_text)
        self.add_argument("--version", action=ShowVersion, nargs=0, help=version_text)

    def error(self, message: str) -> NoReturn:
        """Refuses the arguments with argparse's message, but hides values: they can be secret."""
        option, ignored, _ = message.partition(": ignored explicit argument ")
        raise self.usage_error(f"{option} takes no value" if ignored else message)

    def usage_error(self, message: str) -> UsageError:
        """Returns the error for wrong arguments, which points to --help."""
        return UsageError(f"{message}. See {self.prog} --help.")

    def flag(self, name: str, text: str) -> None:
        """Adds an option without a value."""
        self.add_argument(name, action="store_true", help=text)

    def value(self, *names: str, **properties: Any) -> None:
        """Adds an option with a value."""
        self.add_argument(*names, action=Once, **properties)


class ShowHelp(argparse.Action):
    """Shows the help of a command."""

    def __call__(self, parser: argparse.ArgumentParser, *_: object) -> NoReturn:
        raise PrintAndExit(parser.format_help().rstrip("\n"))


class ShowVersion(argparse.Action):
    """Shows the version, which is the library's."""

    def __call__(self, *_: object) -> NoReturn:
        raise PrintAndExit(f"pwhash {library.version()}")


class Once(argparse.Action):
    """An option that may be given only once."""

    def __init__(self, *names: Any, **properties: Any) -> None:
        super().__init__(*names, **properties)
        self._is_given = False

    def __call__(
        self,
        parser: argparse.ArgumentParser,
        namespace: argparse.Namespace,
        values: object,
        option_string: Optional[str] = None,
    ) -> None:
        if self._is_given:
            parser.error(f"{option_string} is given twice")
        self._is_given = True
        setattr(namespace, self.dest, values)


def usage() -> str:
    """Returns the beginning of `pwhash --help`, with the library's recommended rounds."""
    method = next(iter(library.METHODS))
    return USAGE.format(method=method, rounds=recommended_rounds(method))


def recommended_rounds(method: str) -> int:
    """Returns the rounds of a method's new hashes, if nobody chooses others."""
    return library.limit(method, None, None).rounds


def parse_number(text: str) -> int:
    """Returns the number in a text such as 656000 or 656k."""
    match = NUMBER.fullmatch(text)
    if not match:
        message = f"{text!r} isn't a number: digits, or digits and one k or M, as 656k"
        raise argparse.ArgumentTypeError(message)
    return int(match[1]) * FACTORS[match[2]]


# For each command its parser, and the function that makes its options.


def single_parser() -> Parser:
    """Returns the parser of `pwhash` without a command."""
    parser = Parser("", None)
    forms = [form.word for form in Form if form is not Form.BARE]
    parser.value("--for", dest="form", choices=forms, default="bare", help="print its line")
    parser.value("--name", help="the user, for --for")
    parser.flag("--generate", "make a password, and show it once on the terminal")
    parser.flag("--accept-doubtful", "accept a doubtful password")
    add_salt(parser)
    add_common(parser)
    return parser


def single_options(parser: Parser, parsed: argparse.Namespace) -> Options:
    """Returns the options of `pwhash` without a command."""
    policy = read_policy(parser, parsed)
    form = FORMS[parsed.form]
    if bool(parsed.name) != form.has_name:
        raise UsageError("cloud-init, htpasswd and shadow need a --name; nothing else has one.")
    if parsed.name and not USER_NAME.fullmatch(parsed.name):
        raise UsageError(
            "a --name begins with a letter or _; then up to 63 letters, digits and _.@- follow."
        )
    return SingleOptions(policy, form, parsed.name, parsed.generate, parsed.accept_doubtful)


def file_parser() -> Parser:
    """Returns the parser of `pwhash file`."""
    parser = Parser("file", FILE_TEXT)
    add_input(parser, "by default -", STDIN)
    add_out(parser)
    parser.flag("--resume", "continue the OUT.part of an earlier run")
    parser.flag("--look", "only look for problems")
    parser.flag("--skip-refused", "leave out lines that mkpasswd refuses")
    parser.flag("--skip-doubtful", "leave out doubtful lines")
    locked_text = "leave out names that are locked there, as in /etc/shadow"
    parser.value("--skip-locked", metavar="SHADOW", help=locked_text)
    unknown_text = "leave out names that have no line there, as in /etc/passwd"
    parser.value("--skip-unknown", metavar="PASSWD", help=unknown_text)
    parser.flag("--accept-doubtful", "accept doubtful lines")
    add_table(parser)
    add_service(parser, "doubt names that it confuses with others")
    add_generate(parser)
    add_salt(parser)
    add_common(parser)
    return parser


def file_options(parser: Parser, parsed: argparse.Namespace) -> Options:
    """Returns the options of `pwhash file`."""
    require_companions(parser, parsed, {"resume": "out", "columns": "csv"})
    refuse_empty(parser, parsed, "out", "columns", "skip_locked", "skip_unknown")
    refuse_out(parser, parsed.out)
    policy = read_policy(parser, parsed)
    generate = read_generate(parser, parsed, policy)
    return FileOptions(
        policy=policy,
        input=read_names(parser, parsed) if generate else read_input(parser, parsed),
        out=parsed.out,
        resume=parsed.resume,
        only_look=parsed.look,
        skip_refused=parsed.skip_refused,
        skip_locked=parsed.skip_locked,
        skip_unknown=parsed.skip_unknown,
        generate=generate,
        doubtful=read_doubtful(parsed),
        service=Service(parsed.service) if parsed.service else None,
        quiet=parsed.quiet,
    )


def check_parser() -> Parser:
    """Returns the parser of `pwhash check`."""
    parser = Parser("check", CHECK_TEXT)
    add_input(parser, "by default -", STDIN)
    shadow_text = "lines are name:password; the hashes are in the file FIELDS"
    parser.value("--shadow", metavar="FIELDS", help=shadow_text)
    parser.flag("--rehash", "renew outdated hashes of right passwords; with -o for chpasswd -e")
    add_out(parser)
    add_table(parser)
    add_salt(parser)
    add_common(parser)
    return parser


def check_options(parser: Parser, parsed: argparse.Namespace) -> Options:
    """Returns the options of `pwhash check`.

    With --rehash a line is checked and hashed, so the default budget is twice as high.
    """
    require_companions(parser, parsed, {"columns": "csv", "csv": "shadow"})
    refuse_empty(parser, parsed, "out", "shadow", "columns")
    refuse_out(parser, parsed.out)
    policy = read_policy(parser, parsed)
    if parsed.rehash and parsed.budget is None:
        policy = policy._replace(budget=2 * policy.budget)
    return CheckOptions(
        policy=policy,
        input=read_input(parser, parsed),
        out=parsed.out,
        shadow=parsed.shadow,
        rehash=parsed.rehash,
        quiet=parsed.quiet,
    )


def audit_parser() -> Parser:
    """Returns the parser of `pwhash audit`."""
    parser = Parser("audit", AUDIT_TEXT)
    add_input(parser, "a file such as /etc/shadow, or - for standard input", None)
    parser.flag("--only-problems", "show only what needs care")
    parser.flag("--json", "print a JSON object for each line")
    parser.flag("--locked", "judge the hashes of locked accounts too")
    add_common(parser)
    return parser


def audit_options(parser: Parser, parsed: argparse.Namespace) -> Options:
    """Returns the options of `pwhash audit`."""
    if parsed.file is None:
        raise parser.usage_error(
            "name a file: pwhash audit /etc/shadow, or for standard input pwhash audit -"
        )
    return AuditOptions(
        policy=read_judging_policy(parser, parsed),
        input=Input(read_path(parser, parsed), counts_lines=not parsed.quiet),
        only_problems=parsed.only_problems,
        json=parsed.json,
        judges_locked=parsed.locked,
        quiet=parsed.quiet,
    )


def set_parser() -> Parser:
    """Returns the parser of `pwhash set`."""
    parser = Parser("set", SET_TEXT)
    parser.add_argument("file", nargs="?", metavar="FILE", help="the password file of a service")
    parser.add_argument("name", nargs="?", metavar="NAME", help="whose line is changed")
    parser.flag("--generate", "make a password, and show it once on the terminal")
    parser.flag("--accept-doubtful", "accept a doubtful password")
    parser.flag("--delete", "remove the line")
    parser.flag("--lock", "let no password in; the hash stays behind a !")
    parser.flag("--unlock", "let the password in again")
    add_service(parser, "whose prefixes and names the line may have")
    add_salt(parser)
    add_common(parser)
    return parser


def set_options(parser: Parser, parsed: argparse.Namespace) -> Options:
    """Returns the options of `pwhash set`."""
    if not parsed.file or not parsed.name:
        raise parser.usage_error(
            "name a password file and whose line to change: pwhash set FILE NAME"
        )
    name = os.fsencode(parsed.name)
    refuse_unfit_name(parser, name)
    return SetOptions(
        policy=read_policy(parser, parsed),
        path=parsed.file,
        name=name,
        action=read_action(parser, parsed),
        service=Service(parsed.service) if parsed.service else None,
        generate=parsed.generate,
        accepts_doubtful=parsed.accept_doubtful,
        quiet=parsed.quiet,
    )


def read_action(parser: Parser, parsed: argparse.Namespace) -> Action:
    """Returns what to do to the line. Refuses two actions at once."""
    options = {
        Action.DELETE: parsed.delete,
        Action.LOCK: parsed.lock,
        Action.UNLOCK: parsed.unlock,
    }
    chosen = [action for action, is_given in options.items() if is_given]
    if len(chosen) > 1 or (chosen and parsed.generate):
        raise parser.usage_error("give one of --generate, --delete, --lock and --unlock")
    return chosen[0] if chosen else Action.PASSWORD


def refuse_unfit_name(parser: Parser, name: bytes) -> None:
    """Refuses a name with which no line can begin, or that services skip as a comment."""
    if b":" in name:
        raise parser.usage_error("NAME has a colon in it, with which names end in password files")
    # Not the argument itself: where the locale isn't of UTF-8, half a letter looks like a control
    # character there.
    if CONTROL_CHARACTER.search(name.decode(errors="replace")):
        raise parser.usage_error("NAME has a control character in it")
    if name.startswith(b"#"):
        raise parser.usage_error("NAME begins with a #, as comments do")


def install_parser() -> Parser:
    """Returns the parser of `pwhash install`."""
    parser = Parser("install", INSTALL_TEXT)
    parser.add_argument("hashes", nargs="?", metavar="HASHES", help="lines name:hash")
    parser.add_argument("target", nargs="?", metavar="TARGET", help="the password file")
    add_service(parser, "refuse names that it confuses with others")
    parser.value(
        "--owner", metavar="USER", help="of a new TARGET, by default the user who runs this"
    )
    parser.value("--group", metavar="GROUP", help="of a new TARGET, by default that user's")
    parser.value("--mode", metavar="MODE", help="of a new TARGET, by default 600")
    parser.flag("--accept-other-schemes", "accept hashes of bcrypt and other schemes")
    parser.flag("--accept-removals", "remove names of TARGET that HASHES lacks")
    add_common(parser)
    return parser


def install_options(parser: Parser, parsed: argparse.Namespace) -> Options:
    """Returns the options of `pwhash install`. Hashes are judged as in an audit."""
    if not parsed.hashes or not parsed.target:
        raise parser.usage_error("name two files: pwhash install HASHES TARGET")
    return InstallOptions(
        policy=read_judging_policy(parser, parsed),
        hashes=parsed.hashes,
        target=parsed.target,
        service=Service(parsed.service) if parsed.service else None,
        owner=parsed.owner,
        group=parsed.group,
        mode=read_mode(parser, parsed),
        accepts_other_schemes=parsed.accept_other_schemes,
        accepts_removals=parsed.accept_removals,
        quiet=parsed.quiet,
    )


def read_mode(parser: Parser, parsed: argparse.Namespace) -> Optional[int]:
    """Returns a new password file's mode. Refuses one that lets others write or anybody run it."""
    if parsed.mode is None:
        return None
    mode = int(parsed.mode, 8) if MODE.fullmatch(parsed.mode) else None
    if mode is None or mode & ~MAX_MODE:
        raise parser.usage_error(
            "--mode is three octal digits, by which others may read the file at most, as 640"
        )
    return mode


def verify_parser() -> Parser:
    """Returns the parser of `pwhash verify`."""
    parser = Parser("verify", VERIFY_TEXT)
    add_input(parser, "a file with lines name:hash, such as /etc/shadow", None)
    parser.add_argument("name", nargs="?", metavar="NAME", help="whose hash it is")
    add_common(parser)
    return parser


def verify_options(parser: Parser, parsed: argparse.Namespace) -> Options:
    """Returns the options of `pwhash verify`.

    No message shows an argument, since that may be the password.
    """
    budget = min(read_limit(parser, parsed).budget, library.MAX_BUDGET)
    if parsed.file is None:
        return VerifyOptions(budget, "", "")
    if parsed.name is None:
        raise parser.usage_error(
            "give FILE and NAME, or neither: the hash is asked for, or is the second line of "
            "standard input. Others can see arguments"
        )
    if not parsed.file or not parsed.name:
        raise parser.usage_error("FILE or NAME is empty")
    if parsed.file == STDIN:
        raise parser.usage_error("standard input has the password, so FILE can't be -")
    if not NAME_OF_LINE.fullmatch(parsed.name):
        raise parser.usage_error(
            "a NAME has no colon and no control character, and begins with no #"
        )
    return VerifyOptions(budget, parsed.file, parsed.name)


def calibrate_parser() -> Parser:
    """Returns the parser of `pwhash calibrate`."""
    parser = Parser("calibrate", CALIBRATE_TEXT)
    time_text = "with its unit: 300ms, 0.3s, 2s"
    parser.add_argument("time", nargs="?", metavar="TIME", help=time_text)
    methods = list(ROUNDS)
    method_text = f"{', '.join(methods)}; by default each"
    parser.value("-m", "--method", metavar="TYPE", choices=methods, help=method_text)
    parser.flag("--quiet", "show no progress, and no advice")
    return parser


def calibrate_options(parser: Parser, parsed: argparse.Namespace) -> Options:
    """Returns the options of `pwhash calibrate`."""
    if parsed.time is None:
        raise parser.usage_error("name the time that a login may take: pwhash calibrate 300ms")
    match = TIME.fullmatch(parsed.time)
    if match is None:
        raise parser.usage_error("TIME is a number with its unit, ms or s, as 300ms, 0.3s or 2s")
    methods = tuple(ROUNDS) if parsed.method is None else (parsed.method,)
    seconds = float(match[1]) * SECONDS[match[2]]
    return CalibrateOptions(parsed.time, seconds, methods, parsed.quiet)


class Command(NamedTuple):
    """How to read the command line of one command."""

    parser: Callable[[], Parser]
    options: Callable[[Parser, argparse.Namespace], Options]


COMMANDS: Dict[str, Command] = {
    "": Command(single_parser, single_options),
    "file": Command(file_parser, file_options),
    "check": Command(check_parser, check_options),
    "audit": Command(audit_parser, audit_options),
    "set": Command(set_parser, set_options),
    "install": Command(install_parser, install_options),
    "verify": Command(verify_parser, verify_options),
    "calibrate": Command(calibrate_parser, calibrate_options),
}


# Options of several commands.


def add_input(parser: Parser, text: str, default: Optional[str]) -> None:
    """Adds FILE."""
    parser.add_argument("file", nargs="?", default=default, metavar="FILE", help=text)


def add_out(parser: Parser) -> None:
    """Adds -o."""
    parser.value(
        "-o", "--out", help="write the file OUT once it is whole; until then it is OUT.part"
    )


def add_table(parser: Parser) -> None:
    """Adds the options for files from Windows or from a spreadsheet."""
    parser.flag("--windows", "leave out carriage returns at ends of lines, and byte order marks")
    parser.flag("--csv", "FILE is a table, as spreadsheets export it")
    text = f"names in its first row, or numbers; by default {DEFAULT_COLUMNS}"
    parser.value("--columns", metavar="A,B", help=text)


def add_service(parser: Parser, text: str) -> None:
    """Adds --for SERVICE."""
    services = [service.value for service in Service]
    parser.value("--for", dest="service", choices=services, help=text)


def add_generate(parser: Parser) -> None:
    """Adds the options for generated passwords."""
    parser.flag("--generate", "FILE has only names: make a password for each")
    passwords_text = "write names and passwords to the new file LIST, as CSV"
    parser.value("--passwords", metavar="LIST", help=passwords_text)
    length_text = "letters and digits of a password, by default 20"
    parser.value("--length", type=parse_number, metavar="NUMBER", help=length_text)
    by_text = "LIST is a new folder, with a file for each value of this column"
    parser.value("--by", metavar="COLUMN", help=by_text)
    others_text = "columns of FILE to copy to LIST, such as people's names"
    parser.value("--list-columns", metavar="A,B", help=others_text)


def add_salt(parser: Parser) -> None:
    """Adds -S."""
    text = "up to 16 (md5crypt 8, scrypt 86) of a-zA-Z0-9./, instead of new ones"
    parser.value("-S", "--salt", help=text)


def add_common(parser: Parser) -> None:
    """Adds the options that all commands have."""
    methods = list(library.METHODS)
    method_text = ", ".join(methods)
    parser.value(
        "-m", "--method", metavar="TYPE", choices=methods, default=methods[0], help=method_text
    )
    rounds_text = (
        f"from 1000, by default {recommended_rounds(methods[0]) // 1000}k; "
        f"with scrypt 6 to 11, by default {recommended_rounds('scrypt')}"
    )
    parser.value("-R", "--rounds", type=parse_number, metavar="NUMBER", help=rounds_text)
    budget_text = (
        "what a line may cost in bytes; by default a login's limit, in audits any new hash"
    )
    parser.value("--budget", type=parse_number, metavar="NUMBER", help=budget_text)
    parser.flag("--quiet", "show no progress, and no advice")


def read_policy(parser: Parser, parsed: argparse.Namespace) -> Policy:
    """Returns the policy of new hashes. By default a hash may cost as much as a login."""
    limit = read_limit(parser, parsed)
    budget = min(limit.budget, library.MAX_BUDGET)
    if parsed.salt is None:
        return Policy(parsed.method, limit.rounds, budget, limit.longest, None)
    try:
        setting = library.setting(parsed.method, limit.rounds, os.fsencode(parsed.salt))
    except library.RefusedSalt as refused:
        raise parser.usage_error(f"-S: {refused}") from None
    longest = library.longest_password(setting, budget)
    return Policy(parsed.method, limit.rounds, budget, longest, setting)


def read_judging_policy(parser: Parser, parsed: argparse.Namespace) -> Policy:
    """Returns the policy by which stored hashes are judged.

    A budget of 0, or none, stands for the library's own.
    """
    read_limit(parser, parsed)  # only to refuse rounds that the method can't have
    budget = min(parsed.budget or 0, library.MAX_BUDGET)
    return Policy(parsed.method, parsed.rounds or 0, budget, None, None)


def read_limit(parser: Parser, parsed: argparse.Namespace) -> library.Limit:
    """Returns what the method, rounds and budget allow."""
    try:
        return library.limit(parsed.method, parsed.rounds, parsed.budget)
    except library.RefusedRounds:
        raise parser.usage_error(describe_bad_rounds(parsed.method, parsed.rounds)) from None


def describe_bad_rounds(method: str, rounds: int) -> str:
    """Describes rounds that new hashes of a method can't have."""
    if method not in ROUNDS:
        return f"-R {rounds}: leave it out, since {method} has no rounds to choose"
    usual = recommended_rounds(method)
    return f"-R {rounds} with -m {method} isn't from {ROUNDS[method]}, by default {usual}"


def require_companions(parser: Parser, parsed: argparse.Namespace, needs: Dict[str, str]) -> None:
    """Refuses an option without another one that it needs."""
    for option, needed in needs.items():
        if getattr(parsed, option) and not getattr(parsed, needed):
            raise parser.usage_error(f"{as_typed(option)} needs {as_typed(needed)}")


def refuse_empty(parser: Parser, parsed: argparse.Namespace, *options: str) -> None:
    """Refuses an empty value, such as that of an unset variable in a script."""
    for option in options:
        if getattr(parsed, option) == "":
            raise parser.usage_error(f"{as_typed(option)} is empty")


def as_typed(option: str) -> str:
    """Returns an option as a user types it."""
    return f"--{option.replace('_', '-')}"


def refuse_out(parser: Parser, out: Optional[str]) -> None:
    """Refuses an OUT that already exists."""
    if out == STDIN:
        raise parser.usage_error(
            "-o - would write a file: leave it out for standard output, or name ./-"
        )
    if out is not None and os.path.lexists(out):
        remedy = ", or remove it" if os.path.isfile(out) else ""  # nobody should remove a device
        raise parser.usage_error(
            f"{display_name(out)} already exists: name another file after -o{remedy}"
        )


def read_input(parser: Parser, parsed: argparse.Namespace) -> Input:
    """Returns the file of lines, and how to read it."""
    columns = (parsed.columns or DEFAULT_COLUMNS) if parsed.csv else None
    path = read_path(parser, parsed)
    return Input(path, parsed.windows, columns, counts_lines=not parsed.quiet)


def read_generate(parser: Parser, parsed: argparse.Namespace, policy: Policy) -> Optional[Generate]:
    """Returns which passwords to generate, or None without --generate."""
    needing = ("passwords", "length", "by", "list_columns")
    require_companions(parser, parsed, {option: "generate" for option in needing})
    refuse_empty(parser, parsed, "passwords", "by", "list_columns")
    if not parsed.generate:
        return None
    length = GENERATED_LENGTH if parsed.length is None else parsed.length
    if not SHORTEST_GENERATED <= length <= LONGEST_GENERATED:
        raise parser.usage_error(f"--length isn't from {SHORTEST_GENERATED} to {LONGEST_GENERATED}")
    if library.is_over_budget(policy, length):
        raise parser.usage_error(
            f"--length {length}: over budget, {library.describe_length_limit(policy)}"
        )
    require_companions(parser, parsed, {"by": "csv", "list_columns": "csv"})
    if not parsed.look:
        refuse_lists(parser, parsed)
    return Generate(parsed.passwords or "", length, parsed.by is not None)


def refuse_lists(parser: Parser, parsed: argparse.Namespace) -> None:
    """Refuses a LIST that isn't given, that is OUT, or that already exists."""
    if not parsed.out or not parsed.passwords:
        raise parser.usage_error(
            "--generate needs -o OUT for the hashes, and --passwords LIST for the passwords"
        )
    if parsed.passwords == STDIN:
        raise parser.usage_error("--passwords - would write a file: name another, or ./-")
    files_of_out = [parsed.out, part_of(parsed.out), part_of(parsed.out) + ".options"]
    if os.path.realpath(parsed.passwords) in [os.path.realpath(each) for each in files_of_out]:
        raise parser.usage_error("-o and --passwords need two different files")
    if os.path.lexists(parsed.passwords) and not parsed.resume:
        raise parser.usage_error(describe_existing_list(parsed))


def describe_existing_list(parsed: argparse.Namespace) -> str:
    """Describes a LIST that already exists. If OUT.part does too, both may be an earlier run's."""
    name, part = display_name(parsed.passwords), part_of(parsed.out)
    if os.path.lexists(part):
        return (
            f"{name} already exists, and so does {display_name(part)}: add --resume, or remove both"
        )
    return f"{name} already exists: name another after --passwords, or remove it"


def read_names(parser: Parser, parsed: argparse.Namespace) -> Input:
    """Returns the file of names. A table has names in one column, and maybe groups in another."""
    names = parsed.columns or "name"
    if "," in names:
        raise parser.usage_error("--columns names one column with --generate, that of the names")
    columns = f"{names},{parsed.by}" if parsed.by else names
    return Input(
        read_path(parser, parsed),
        parsed.windows,
        columns if parsed.csv else None,
        counts_lines=not parsed.quiet,
        names_only=True,
        list_columns=parsed.list_columns,
    )


def read_path(parser: Parser, parsed: argparse.Namespace) -> Optional[str]:
    """Returns FILE, or None for standard input."""
    if parsed.file == "":
        raise parser.usage_error("FILE is empty")
    return None if parsed.file == STDIN else str(parsed.file)


def read_doubtful(parsed: argparse.Namespace) -> Doubtful:
    """Returns what to do with doubtful lines. With both options they are left out."""
    if parsed.skip_doubtful:
        return Doubtful.SKIP
    return Doubtful.ACCEPT if parsed.accept_doubtful else Doubtful.STOP

"""pwhash check: checks passwords against stored hashes."""

from __future__ import annotations

from collections.abc import Sequence
from typing import List, NamedTuple, Optional, Set, Union

from pwhash import library
from pwhash.accounts import Accounts, has_marks
from pwhash.answers import Answer, Writer, refusal_answer, refused_row_answer
from pwhash.field import ENCODED, is_encoded
from pwhash.library import OVER_BUDGET, PASSWORD_TOO_LONG, PASSWORD_ZERO_BYTE, Refusal, Verdict
from pwhash.lines import (
    LINE_TOO_LONG,
    NO_PASSWORD,
    FieldsToCheck,
    Line,
    LineGroups,
    fields_to_check,
    name_of,
    refused_name,
)
from pwhash.names import FirstFields
from pwhash.options import CheckOptions
from pwhash.part import Part, opened
from pwhash.progress import Progress
from pwhash.session import Session
from pwhash.shown_names import (
    MAX_NAMED,
    could_be_name,
    list_names,
    may_be_shown,
    shown_lines,
)
from pwhash.source import Source
from pwhash.table import lines_of
from pwhash.text import display_name, printable
from pwhash.workers import Memory, Workers

MARKS = (
    "a carriage return or a byte order mark. --windows leaves it out at the end or the beginning "
    "of a line"
)
# Refusals that apply to a password whatever the account.
PASSWORD_REFUSALS = (LINE_TOO_LONG, PASSWORD_TOO_LONG, PASSWORD_ZERO_BYTE)


def run(options: CheckOptions, session: Session) -> bool:
    """Checks lines name:field:password, or with --shadow the passwords of a list.

    The field is what is stored: a hash, ! or nothing. Returns whether a password is wrong, or a
    line has a problem.
    """
    source = Source(options.input, session.console)
    checking = Checking(options, source, session)
    if options.out is None:
        checking.check_lines(Writer(session.console))
        checking.leave_out_changed(None)
        checking.report_odd_lines()
        return checking.has_problem()
    with opened(options.out, source, None) as part:
        session.part = part
        checking.check_lines(Writer(session.console, part.fd, part.name), part)
        checking.leave_out_changed(part)
        session.finish(part, checking.has_problem())
    checking.report_odd_lines()
    return checking.has_problem()


class CheckResult(NamedTuple):
    """The result of a check, and with --rehash the new hash, if one was needed."""

    verdict: Verdict
    new_hash: Optional[bytes] = None


class Checking:
    """Checks lines in several threads."""

    def __init__(self, options: CheckOptions, source: Source, session: Session) -> None:
        self._options = options
        self._source = source
        self._console = session.console
        self._accounts = Accounts(options.shadow, session.console) if options.shadow else None
        self._memory = Memory()
        self._bytes_for_new_hash = (
            library.memory_of_new_hash(options.policy) if options.rehash else 0
        )
        self._first_fields = FirstFields()
        self._with_another_field: List[int] = []  # numbers of lines
        self._encoded: List[int] = []  # those with a hash in Base64
        self._marked: List[int] = []  # those with a carriage return or a byte order mark
        self._printed: Set[str] = set()
        self._renewed: Set[bytes] = set()  # the names that have got a new hash
        self._has_bad_line = False

    def has_problem(self) -> bool:
        """Returns whether a password was wrong, or a line had a problem."""
        accounts = self._accounts
        if self._has_bad_line or accounts is None:
            return self._has_bad_line
        return bool(accounts.absent or accounts.marked or accounts.repeated)

    def check_lines(self, writer: Writer, part: Optional[Part] = None) -> None:
        """Checks the lines, and writes the answers. With --rehash, a part gets only new hashes."""
        progress = Progress(self._console, "checking", self._source.total)
        for answers in Workers(self._answer).answers(self._lines()):
            if part is not None:
                part.refuse_changed()
            self._note(answers)
            if self._accounts is not None:
                answers = [self._without_repeated_message(answer) for answer in answers]
            writer.write(only_new(answers) if part and self._options.rehash else answers)
            progress.reached(answers[-1].line.number)
        progress.end()
        self._source.refuse_nothing()

    def leave_out_changed(self, part: Optional[Part]) -> None:
        """Leaves out new hashes of names whose field was changed or locked during the run.

        Such a hash would undo the change. Hashes that are already printed are only named.
        """
        if not self._renewed or self._accounts is None:
            return
        outdated = self._renewed & self._accounts.changed_names()
        if not outdated:
            return
        self._has_bad_line = True
        if part is not None:
            part.remove_lines(outdated)
        what = "were left out" if part is not None else "mustn't be stored"
        self._console.say(
            f"{display_name(self._options.shadow or '')} was changed during the run, so the new "
            f"hashes of these names {what}: {list_names(sorted(outdated))}."
        )

    def report_odd_lines(self) -> None:
        """Reports odd lines in a list of passwords, or of names and stored fields."""
        name = self._source.name
        self._report_lines(
            name,
            self._with_another_field,
            "the name has another field in an earlier line, by which services judge",
        )
        self._report_lines(name, self._encoded, ENCODED)
        self._report_lines(name, self._marked, MARKS)
        accounts = self._accounts
        if accounts is None:
            return
        shadow = display_name(self._options.shadow or "")
        self._report_lines(shadow, accounts.encoded, ENCODED)
        self._report_lines(name, accounts.absent, f"no such name in {shadow}")
        self._report_lines(name, accounts.marked, MARKS)
        if accounts.odd:
            self._console.say(
                f"{name}: lines that aren't UTF-8, or have a zero byte: {accounts.odd:,}."
            )

    def _report_lines(self, file_name: str, numbers: Sequence[int], what: str) -> None:
        """Says what is the matter with some lines of a file, if there are any."""
        if numbers:
            self._console.say(f"{shown_lines(file_name, numbers)}: {what}.")

    def _lines(self) -> LineGroups:
        lines = lines_of(self._source)
        return lines if self._accounts is None else self._accounts.lines_to_check(lines)

    def _note(self, answers: Sequence[Answer]) -> None:
        if any(each.is_wrong_password or each.message is not None for each in answers):
            self._has_bad_line = True
        self._renewed.update(name_of(each.line) for each in answers if each.renewed is not None)
        if self._accounts is None:
            for answer in answers:
                self._note_field(answer.line)

    def _note_field(self, line: Line) -> None:
        """Notes marks, a hash in Base64, and a name with another field in an earlier line."""
        if len(self._marked) < MAX_NAMED and has_marks(line.data):
            self._marked.append(line.number)
        fields = fields_to_check(line.data)
        if fields is None:
            return
        if len(self._encoded) < MAX_NAMED and is_encoded(fields.stored):
            self._encoded.append(line.number)
        if len(self._with_another_field) == MAX_NAMED:
            return
        if self._first_fields.is_another(fields.name, fields.stored, line.number):
            self._with_another_field.append(line.number)

    def _answer(self, line: Line) -> Answer:
        """Checks one line. Called in a worker's thread."""
        if line.refused_row is not None:
            return refused_row_answer(line)
        refusal = refused_name(line.data)
        if refusal is not None:
            return refusal_answer(line, refusal)
        fields = fields_to_check(line.data)
        if fields is None:
            return refusal_answer(line, NO_PASSWORD)
        result = self._check(fields)
        if isinstance(result, Refusal):
            return refusal_answer(line, result)
        text = fields.name + b":" + result.verdict.value
        if result.new_hash is None:
            return Answer(line, text, is_wrong_password=result.verdict is Verdict.WRONG)
        renewed = fields.name + b":" + result.new_hash
        return Answer(line, text + b":" + result.new_hash, renewed=renewed)

    def _check(self, fields: FieldsToCheck) -> Union[CheckResult, Refusal]:
        """Checks a password, and with --rehash makes a new hash if one is needed."""
        policy = self._options.policy
        refusal = library.refused_password(fields.password)
        if refusal is not None:
            return refusal
        is_outdated = self._options.rehash and library.needs_rehash(policy, fields.stored)
        if is_outdated and not self._has_budget_for_both(fields):
            return OVER_BUDGET
        verdict = self._verdict(fields)
        if isinstance(verdict, Refusal):
            return verdict
        if verdict is not Verdict.MATCH or not is_outdated:
            return CheckResult(verdict)
        with self._memory.reserved(self._bytes_for_new_hash):
            new_hash = library.new_hash(policy, fields.password)
        return new_hash if isinstance(new_hash, Refusal) else CheckResult(verdict, new_hash)

    def _verdict(self, fields: FieldsToCheck) -> Union[Verdict, Refusal]:
        """Checks a password, once there is memory for that."""
        budget = self._options.policy.budget
        needed = library.memory(fields.stored)
        if needed > budget:  # the library refuses this, and takes no memory
            needed = 0
        with self._memory.reserved(needed):
            return library.verify(fields.password, fields.stored, budget)

    def _has_budget_for_both(self, fields: FieldsToCheck) -> bool:
        """Returns whether the check and the new hash together cost at most the budget."""
        policy, length = self._options.policy, len(fields.password)
        cost = library.cost(fields.stored, length) + library.new_cost(policy, length)
        return cost <= policy.budget

    def _without_repeated_message(self, answer: Answer) -> Answer:
        """Returns an answer without its message, if an earlier line of a list had the same one."""
        if answer.message is None:
            return answer
        sentence = f"pwhash: {self._describe(answer)}"
        if sentence in self._printed:
            return answer._replace(message=None)
        self._printed.add(sentence)
        return answer._replace(message=sentence)

    def _describe(self, answer: Answer) -> str:
        """Says why a password isn't tried: it can't be hashed, or the account can't be checked."""
        line, refusal = answer.line, answer.refusal
        where = f"{self._source.name}, line {line.number}"
        if refusal is None:
            return f"{where}: {line.refused_row}"
        if refusal in PASSWORD_REFUSALS:
            return f"{where}: not tried: {refusal.message}"
        fields = fields_to_check(line.data)
        # A password longer than this costs too much with a hash as costly as a new one, but may be
        # within the budget for names with cheaper hashes.
        longest = self._options.policy.longest or 0
        if refusal == OVER_BUDGET and fields is not None and len(fields.password) > longest:
            return f"{where}: not tried for every name: {refusal.message}"
        return f"{describe_account(line.data)} isn't checked: {refusal.message}"


def describe_account(data: bytes) -> str:
    """Returns the name in a line name:field:password for a message."""
    name, _, rest = data.partition(b":")
    if not name:
        return "an account without a name"
    if could_be_name(rest) or not may_be_shown(name):
        return "an account whose name may be a password"
    return printable(name)


def only_new(answers: Sequence[Answer]) -> List[Answer]:
    """Returns the answers with only messages and new hashes, as chpasswd -e reads them."""
    return [answer._replace(text=answer.renewed) for answer in answers]

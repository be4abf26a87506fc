"""pwhash file: hashes lines name:password."""

from __future__ import annotations

from typing import List, Optional, Set

from pwhash import library
from pwhash.answers import Answer, Writer, refusal_answer, refused_row_answer
from pwhash.console import STDOUT, Console
from pwhash.doubts import Doubts
from pwhash.generate import store_passwords, with_passwords, with_placeholders
from pwhash.library import OVER_BUDGET, Refusal
from pwhash.lines import Line, LineGroups, name_of, refused_to_hash
from pwhash.lists import refuse_folder
from pwhash.locked import Locked
from pwhash.look import Look
from pwhash.options import Doubtful, FileOptions
from pwhash.part import Part, opened, refuse_changed
from pwhash.progress import Progress
from pwhash.resume import skip_hashed
from pwhash.session import Session
from pwhash.skipping import Skipping
from pwhash.source import Source
from pwhash.table import lines_of
from pwhash.unknown import Unknown
from pwhash.workers import Memory, Workers


def run(options: FileOptions, session: Session) -> bool:
    """Looks for problems in a file and then hashes its lines, or with --look only looks.

    Hashes a pipe's lines as they come. Returns whether a line was refused or left out.
    """
    is_read_twice = options.out is not None or options.only_look
    source = Source(options.input, session.console, is_read_twice)
    selection = Selection(source, options, session.console)
    if source.is_regular:
        look = Look(source, options, session.console)
        selection.left_out = look.left_out(selection.lines())
    if options.only_look:
        return bool(selection.left_out)
    if options.generate is not None:
        refuse_folder(options.generate.passwords)
    hashing = Hashing(options, source, selection.locked, session)
    if options.out is None:
        session.console.end_last_line(STDOUT)
        hashing.hash_lines(selection.lines(), Writer(session.console))
        return hashing.has_refused or bool(selection.left_out)
    with opened(options.out, source, options) as part:
        session.part = part
        groups = selection.lines()
        if options.generate is not None:
            passwords = store_passwords(selection.lines(), part, source, options, session)
            groups = with_passwords(groups, passwords, source)
        hashing.hash_into(part, groups)
        has_problem = hashing.has_refused or bool(selection.left_out)
        session.finish(part, has_problem)
    return has_problem


class Selection:
    """The lines of a source that are to be hashed. They can be read several times."""

    def __init__(self, source: Source, options: FileOptions, console: Console) -> None:
        self.left_out: Set[int] = set()  # numbers of lines with problems
        self.locked: Optional[Locked] = None
        self._source = source
        self._generate = options.generate
        self._skipping: List[Skipping] = []
        shows_all = options.only_look
        if options.skip_unknown is not None:
            self._skipping.append(Unknown(options.skip_unknown, source, console, shows_all))
        if options.skip_locked is not None:
            self.locked = Locked(options.skip_locked, source, console, shows_all)
            self._skipping.append(self.locked)

    def lines(self) -> LineGroups:
        """Reads the lines to hash. Names get a placeholder as their password."""
        groups = lines_of(self._source)
        if self._generate is not None:
            groups = with_placeholders(groups, self._generate)
        for skipping in self._skipping:
            groups = skipping.without(groups)
        return without(self.left_out, groups)


def without(left_out: Set[int], groups: LineGroups) -> LineGroups:
    """Leaves out the lines with these numbers."""
    if not left_out:
        return groups
    return ([line for line in group if line.number not in left_out] for group in groups)


class Hashing:
    """Hashes lines in several threads."""

    def __init__(
        self, options: FileOptions, source: Source, locked: Optional[Locked], session: Session
    ) -> None:
        self.has_refused = False
        self._options = options
        self._source = source
        self._locked = locked
        self._console = session.console
        self._memory = Memory()
        self._bytes_for_hash = library.memory_of_new_hash(options.policy)
        self._part: Optional[Part] = None
        self._doubts = Doubts(options)

    def hash_into(self, part: Part, groups: LineGroups) -> None:
        """Hashes lines into a part."""
        self._part = part
        if self._options.resume:
            groups = skip_hashed(part, groups, self._options.policy, self._source.name)
        part.save_state(self._options)
        self.hash_lines(groups, Writer(self._console, part.fd, part.name))

    def hash_lines(self, groups: LineGroups, writer: Writer) -> None:
        """Hashes lines, and writes the answers."""
        # A pipe can be read only once, so its lines are looked at as they come.
        if not self._source.is_regular and self._options.doubtful is not Doubtful.ACCEPT:
            groups = ([self._refuse_doubtful(line) for line in group] for group in groups)
        progress = Progress(self._console, "hashing", self._source.total)
        for answers in Workers(self._answer).answers(groups):
            refuse_changed(self._source, self._part)  # these lines may be outdated by now
            self.has_refused = self.has_refused or any(each.message for each in answers)
            writer.write(answers)
            progress.reached(answers[-1].line.number)
        progress.end()
        self._source.refuse_nothing()
        refuse_changed(self._source, self._part)
        if self._locked is not None:
            self._locked.refuse_new(self._part.name if self._part else None)

    def _refuse_doubtful(self, line: Line) -> Line:
        """Returns the line, marked as refused if it is doubtful."""
        if self._refusal(line) is not None or line.refused_row is not None:
            self._doubts.note_refused(line)
            return line
        doubts = self._doubts.find(line)
        return line._replace(refused_row=doubts[0]) if doubts else line

    def _refusal(self, line: Line) -> Optional[Refusal]:
        """Returns why mkpasswd refuses a line, or None."""
        refusal = refused_to_hash(line.data)
        if refusal is not None:
            return refusal
        length = len(line.data) - len(name_of(line)) - 1
        return OVER_BUDGET if library.is_over_budget(self._options.policy, length) else None

    def _answer(self, line: Line) -> Answer:
        """Hashes one line. Called in a worker's thread."""
        if line.refused_row is not None:
            return refused_row_answer(line)
        refusal = refused_to_hash(line.data)
        if refusal is not None:
            return refusal_answer(line, refusal)
        name = name_of(line)
        with self._memory.reserved(self._bytes_for_hash):
            new_hash = library.new_hash(self._options.policy, line.data[len(name) + 1 :])
        if isinstance(new_hash, Refusal):
            return refusal_answer(line, new_hash)
        return Answer(line, name + b":" + new_hash)

"""Runs of pwhash file --generate that end early: each hash they leave has its password in a list.

Hashes are compared with libxcrypt's.
"""
from __future__ import annotations

import os
import pathlib
import random
import shutil
import signal
import time

import pytest
from support.package import LIBRARY, PACKAGE
from support.pwhash_runs import (
    PWHASH,
    SLOW_COUNT,
    Ended,
    ended,
    halted,
    hashed,
    in_namespace,
    pwhash,
    read,
    remove,
    save,
    save_part,
    started,
    started_program,
)

COUNT = SLOW_COUNT
CLASSES = 4
ROUNDS = ("-R", "20000")
WITH_ONE_LIST = (
    "file",
    "--generate",
    *ROUNDS,
    "--csv",
    "table",
    "-o",
    "hashes",
    "--passwords",
    "lists",
)
WORDS = (*WITH_ONE_LIST, "--by", "class")
# With cheaper hashes, for tests that disturb no run at a certain moment.
QUICK = tuple("1000" if word == "20000" else word for word in WORDS)
ROWS = [b"user%d;c%d\n" % (number, number % CLASSES) for number in range(COUNT)]
TABLE = b"name;class\n" + b"".join(ROWS)
ROWS_OF_A_LIST = COUNT // CLASSES
OTHER_PASSWORD = b"A" * 20
PART = "hashes.part"
# The command that bin/pwhash runs, so that strace counts only the calls from here on.
START = ("/usr/bin/python3", "-I", "-S", str(PACKAGE / "pwhash/start.py"), str(LIBRARY), "pwhash")


@pytest.fixture(autouse=True, name="table")
def fixture_table(folder: pathlib.Path) -> None:
    """A table in the scratch folder."""
    del folder  # it is the current folder
    save("table", TABLE)
    os.utime("table", (1e9, 1e9))  # the table must be older than the part


def passwords_in(lists: str = "lists") -> dict[bytes, bytes]:
    """Returns the passwords in all lists by name.

    Call it only once there are hashes: until then a list may be truncated.
    """
    path = pathlib.Path(lists)
    files = sorted(path.iterdir()) if path.is_dir() else [path]
    rows = [line.partition(b";") for file in files for line in file.read_bytes().splitlines()]
    return {name: password for name, _, password in rows if name != b"name"}


def hashes_in(path: str) -> dict[bytes, bytes]:
    """Returns the hashes in the complete lines of a file, or none if the file doesn't exist."""
    if not os.path.exists(path):
        return {}
    *complete, _ = read(path).split(b"\n")
    lines = [line.partition(b":") for line in complete]
    return {name: stored for name, _, stored in lines}


def assert_passwords_of(hashes: dict[bytes, bytes], most: int) -> None:
    """Fails unless each hash has a password in a list. Recomputes at most `most` hashes."""
    passwords = passwords_in() if hashes else {}
    assert set(hashes) <= set(passwords), set(hashes) - set(passwords)
    for name in random.sample(sorted(hashes), min(most, len(hashes))):
        assert hashed(passwords[name], hashes[name].decode()) == hashes[name], name


def assert_whole(done: Ended) -> None:
    """Fails unless the run succeeded, with a hash for each name and no stray files.

    Recomputes five of the hashes.
    """
    assert done.status == 0, done
    hashes = hashes_in("hashes")
    assert len(hashes) == COUNT and set(os.listdir()) == {"table", "hashes", "lists"}, done
    assert_passwords_of(hashes, 5)


def remove_all() -> None:
    for name in set(os.listdir()) - {"table"}:
        remove(name)


def seconds_of_run() -> float:
    """Returns how many seconds a run takes here."""
    begun = time.monotonic()
    assert_whole(pwhash(*QUICK))
    remove_all()
    return time.monotonic() - begun


def stopped(number: signal.Signals, seconds: float) -> Ended:
    """Runs pwhash, and sends it a signal after `seconds`, unless it has ended by then."""
    with started(*QUICK) as process:
        time.sleep(seconds)
        process.send_signal(number)
        return ended(process)


@pytest.mark.parametrize("number", [signal.SIGKILL, signal.SIGTERM, signal.SIGINT])
def test_a_kill_at_any_moment_leaves_no_hash_without_its_password(number: signal.Signals) -> None:
    whole = seconds_of_run()
    for _ in range(8):
        done = stopped(number, random.uniform(0, whole))
        before = {**hashes_in(PART), **hashes_in("hashes")}
        assert_passwords_of(before, 3)
        if not os.path.exists("hashes"):
            done = pwhash(*QUICK, "--resume")
        if done.status == 2 and number is signal.SIGKILL:  # the run was writing the lists
            assert b"lists already exists" in done.err and not before, done
        elif done.status != -number:  # the run may have ended before the signal
            assert_whole(done)
            assert before.items() <= hashes_in("hashes").items(), done
        remove_all()


@pytest.fixture(name="interrupted")
def fixture_interrupted(table: None) -> None:
    """Starts a run and kills it halfway."""
    del table
    with halted(PWHASH, *WORDS) as process:
        process.kill()
    assert len(passwords_in()) == COUNT


def assert_does_not_resume(*words: str, reason: bytes) -> None:
    before = read(PART)
    done = pwhash(*words, "--resume")
    assert done.status == 2 and reason in done.err and done.out == b"", done
    assert read(PART) == before and not os.path.exists("hashes"), done


@pytest.mark.usefixtures("interrupted")
class TestResuming:
    """A killed run, which --resume continues unless something has changed."""

    def test_a_run_goes_on_with_the_same_passwords(self) -> None:
        passwords, hashes = passwords_in(), hashes_in(PART)
        assert_whole(pwhash(*WORDS, "--resume"))
        assert passwords_in() == passwords
        assert hashes.items() <= hashes_in("hashes").items()

    def test_a_run_does_not_go_on_without_resume(self) -> None:
        done = pwhash(*WORDS)
        assert done.status == 2 and b"lists already exists" in done.err, done

    def test_a_missing_list_is_named(self) -> None:
        os.rename("lists/c1.csv", "c1.csv")
        assert_does_not_resume(*WORDS, reason=b"has no password in the lists")

    def test_missing_lists_are_named(self) -> None:
        os.rename("lists", "elsewhere")
        assert_does_not_resume(*WORDS, reason=b"lists, which is gone")
        assert not os.path.exists("lists")

    @pytest.mark.parametrize(
        ("old", "new"),
        [
            pytest.param(b"\n", b";\n", id="another column"),
            pytest.param(b"name;password\n", b"", id="no heading"),
            pytest.param(b"user0;", b"user0;x;", id="another field"),
            pytest.param(b"\n", b"\r", id="other line ends"),
        ],
    )
    def test_a_changed_list_is_named(self, old: bytes, new: bytes) -> None:
        save("lists/c0.csv", read("lists/c0.csv").replace(old, new))
        assert_does_not_resume(*WORDS, reason=b"lists/c0.csv isn't as the earlier run left it")

    @pytest.mark.parametrize("size", [0, 4, len(b"name;password"), 30])
    def test_a_truncated_list_is_named(self, size: int) -> None:
        os.truncate("lists/c0.csv", size)
        assert_does_not_resume(*WORDS, reason=b"lists/c0.csv isn't as the earlier run left it")

    @pytest.mark.parametrize(
        "row",
        [
            pytest.param(1, id="in the first row"),
            pytest.param(ROWS_OF_A_LIST // 2, id="in the middle"),
            pytest.param(ROWS_OF_A_LIST, id="in the last row"),
        ],
    )
    def test_a_shorter_password_is_noticed(self, row: int) -> None:
        lines = read("lists/c0.csv").splitlines(keepends=True)
        name = lines[row].partition(b";")[0]
        lines[row] = name + b";" + OTHER_PASSWORD[:13] + b"\n"
        save("lists/c0.csv", b"".join(lines))
        assert_does_not_resume(*WORDS, reason=b"c0.csv isn't as the earlier run left it")

    @pytest.mark.parametrize("changed", [0, 2**32], ids=["an older list", "a newer list"])
    def test_another_password_is_noticed_whatever_the_time_of_the_list(self, changed: int) -> None:
        lines = read("lists/c0.csv").splitlines(keepends=True)
        name = lines[2].partition(b";")[0]
        lines[2] = name + b";" + OTHER_PASSWORD + b"\n"
        save("lists/c0.csv", b"".join(lines))
        os.utime("lists/c0.csv", (changed, changed))
        assert_does_not_resume(*WORDS, reason=b"c0.csv isn't as the earlier run left it")

    def test_a_list_of_another_run_in_its_place_is_noticed(self) -> None:
        """A backup that cp -p puts back has the size and the time of the list."""
        status = os.stat("lists/c0.csv")
        lines = read("lists/c0.csv").splitlines(keepends=True)
        name = lines[2].partition(b";")[0]
        lines[2] = name + b";" + OTHER_PASSWORD + b"\n"
        save_part("backup", b"".join(lines))
        os.utime("backup", ns=(status.st_atime_ns, status.st_mtime_ns))
        os.rename("backup", "lists/c0.csv")
        assert_does_not_resume(*WORDS, reason=b"c0.csv isn't as the earlier run left it")

    def test_a_list_of_another_run_beside_them_is_noticed(self) -> None:
        last = read("lists/c0.csv").splitlines()[-1].partition(b";")[0]
        save_part("lists/old.csv", b"name;password\n" + last + b";" + OTHER_PASSWORD + b"\n")
        os.utime("lists/old.csv", (0, 0))
        assert_does_not_resume(*WORDS, reason=b"a name has two passwords")

    def test_a_copy_of_a_list_beside_them_changes_nothing(self) -> None:
        save_part("lists/copy of c0.csv", read("lists/c0.csv"))
        shutil.copystat("lists/c0.csv", "lists/copy of c0.csv")
        assert_whole(pwhash(*WORDS, "--resume"))

    def test_a_list_that_others_can_read_is_refused(self) -> None:
        os.chmod("lists/c0.csv", 0o644)
        assert_does_not_resume(*WORDS, reason=b"its mode is 0644")

    def test_a_folder_that_others_can_write_is_refused(self) -> None:
        os.chmod("lists", 0o777)
        assert_does_not_resume(*WORDS, reason=b"isn't a folder that a run of yours has made")

    def test_a_link_to_the_lists_is_refused(self) -> None:
        os.rename("lists", "elsewhere")
        os.symlink("elsewhere", "lists")
        assert_does_not_resume(*WORDS, reason=b"isn't a folder that a run of yours has made")

    def test_a_run_does_not_go_on_with_other_options(self) -> None:
        assert_does_not_resume(*WITH_ONE_LIST, reason=b"--by")
        assert_does_not_resume("file", *ROUNDS, "--csv", "table", "-o", "hashes", reason=b"")

    def test_a_run_does_not_go_on_with_a_changed_table(self) -> None:
        save("table", TABLE + b"eve;c0\n")
        assert_does_not_resume(*WORDS, reason=b"changed or touched")


@pytest.mark.needs("strace")
@pytest.mark.parametrize(
    "file",
    [
        pytest.param("c0.csv", id="before the first list"),
        pytest.param("c3.csv", id="before the last list"),
        pytest.param("hashes.part.options", id="after the last list"),
    ],
)
def test_the_run_after_one_killed_while_writing_lists_says_what_to_do(file: str) -> None:
    command = ["strace", "-qq", "-o", "/dev/null", "-P", file, "-e", "inject=openat:signal=KILL"]
    ended(started_program(*command, *START, *WORDS))
    assert set(os.listdir()) == {"table", "lists", PART} and not hashes_in(PART)
    before = {path.name: path.read_bytes() for path in pathlib.Path("lists").iterdir()}
    done = pwhash(*WORDS)
    assert done.status == 2 and b"--resume" in done.err, done
    done = pwhash(*WORDS, "--resume")
    assert done.status == 2 and b"remove it, and type the command again" in done.err, done
    assert {path.name: path.read_bytes() for path in pathlib.Path("lists").iterdir()} == before
    shutil.rmtree("lists")
    assert_whole(pwhash(*WORDS, "--resume"))


def test_without_resume_nobody_is_advised_to_remove_only_the_passwords() -> None:
    with halted(PWHASH, *WORDS) as process:
        process.kill()
    done = pwhash(*WORDS)
    assert done.status == 2 and b"add --resume, or remove both" in done.err, done


def test_a_run_whose_lists_are_in_a_folder_of_a_group_goes_on() -> None:
    """In such a folder, new folders get the set-group-ID bit."""
    os.chmod(".", 0o2755)
    with halted(PWHASH, *WORDS) as process:
        process.kill()
    before = passwords_in()
    assert_whole(pwhash(*WORDS, "--resume"))
    assert passwords_in() == before


def test_a_run_with_one_list_goes_on() -> None:
    with halted(PWHASH, *WITH_ONE_LIST) as process:
        process.kill()
    before = read("lists")
    done = pwhash(*WITH_ONE_LIST, "--resume")
    assert_whole(done)
    assert read("lists") == before, done


def save_shadow(fields: dict[bytes, bytes]) -> None:
    """Saves a shadow file that has these fields by name."""
    save("shadow", b"".join(b"%s:%s:::::::\n" % (name, field) for name, field in fields.items()))


def test_a_name_locked_between_the_runs_is_reported_and_gets_no_hash() -> None:
    last = b"user%d" % (COUNT - 1)
    fields = {b"user%d" % number: b"$1$ab$x" for number in range(COUNT)}
    save_shadow(fields)
    words = (*WORDS, "--skip-locked", "shadow")
    with halted(PWHASH, *words) as process:
        process.kill()
    assert last not in hashes_in(PART)
    fields[last] = b"!" + fields[last]
    save_shadow(fields)
    done = pwhash(*words, "--resume")
    named = b"lists has passwords that get no hash, since their lines are left out now: " + last
    assert done.status == 0 and named + b".\n" in done.err, done
    assert set(passwords_in()) - set(hashes_in("hashes")) == {last}


def test_of_three_simultaneous_runs_one_makes_everything() -> None:
    processes = [started(*WORDS) for _ in range(3)]
    results = [ended(process) for process in processes]
    whole = [done for done in results if done.status == 0]
    others = [done for done in results if done.status != 0]
    assert len(whole) == 1 and {done.status for done in others} == {2}, results
    assert_whole(whole[0])


def test_of_two_simultaneous_runs_with_the_same_lists_one_makes_everything() -> None:
    others = [word if word != "hashes" else "others" for word in WORDS]
    processes = [started(*words) for words in (WORDS, others)]
    results = [ended(process) for process in processes]
    assert sorted(done.status for done in results) == [0, 2], results
    first = results[0]
    assert os.path.exists("hashes") == (first.status == 0), results
    assert os.path.exists("others") == (first.status != 0), results
    assert not os.path.exists(PART) and not os.path.exists("others.part"), results


# The run may fail on the small disk, whose files are copied. A second run then has enough space.
SMALL_THEN_LARGE = """
mkdir full left
mount -t tmpfs -o size=KIBIBYTESk,mode=700 none full
cd full
status=0
"$@" || status=$?
echo "first $status" >&2
cp -r . ../left
mount -o remount,size=9m ../full
if [ $status != 0 ]; then "$@" --resume; fi
cp -r . ../end
"""


@pytest.mark.needs("namespaces")
@pytest.mark.parametrize("pages", [1, 3, 6, 8, 10, 12])
def test_a_full_disk_leaves_no_hash_without_its_password(pages: int) -> None:
    words = ["../table" if word == "table" else word for word in QUICK]
    script = SMALL_THEN_LARGE.replace("KIBIBYTES", str(4 * pages))  # a page has 4 KiB
    done = in_namespace(script, *words)
    os.chdir("left")
    assert_passwords_of({**hashes_in(PART), **hashes_in("hashes")}, 5)
    os.chdir("../end")
    os.link("../table", "table")
    is_whole = b"first 0" in done.err
    assert is_whole or b"first 3" in done.err and b"No space left" in done.err, done
    assert_whole(done)

"""How pwhash ends: its status is right even if nobody reads its messages."""
from __future__ import annotations

import fcntl
import os
import shutil
import signal
import subprocess
import sys
import termios
import time
from pathlib import Path

import pytest
from support.needs import needed
from support.pwhash_copies import Copy
from support.pwhash_runs import (
    MD5CRYPT,
    PWHASH,
    continued,
    ended,
    hashed,
    in_namespace,
    least_seconds,
    pwhash,
    read,
    save,
    shell,
    started,
    started_program,
    state_of,
    stopped_by_strace,
    tree,
    users,
    wait_for,
)

with needed("python3-pexpect"):
    import pexpect

STOPPED_AFTER_LINK = ("-e", "trace=linkat", "-e", "inject=linkat:signal=STOP")
MOST_SECONDS = 1.0  # from a signal to the end
EACH_SIGNAL = pytest.mark.parametrize(
    "number",
    [
        pytest.param(signal.SIGINT, id="SIGINT"),
        pytest.param(signal.SIGTERM, id="SIGTERM"),
        pytest.param(signal.SIGHUP, id="SIGHUP"),
    ],
)


def is_asleep(process: int) -> bool:
    """Returns whether a process is asleep each time in 0.1 s, as one that waits for a reader."""
    for _ in range(5):
        if state_of(process) != "S":
            return False
        time.sleep(0.02)
    return True


def pwhash_below(strace: subprocess.Popen[bytes]) -> int:
    """Returns the id of the pwhash that strace runs."""
    _, pwhash, *_ = tree(strace.pid)
    return pwhash


def waits_for_reader(process: subprocess.Popen[bytes]) -> bool:
    """Returns whether a process has filled its standard error, which nobody reads, and sleeps."""
    assert process.stderr is not None
    size = fcntl.fcntl(process.stderr, fcntl.F_GETPIPE_SZ)
    unread = fcntl.ioctl(process.stderr, termios.FIONREAD, bytes(4))
    return int.from_bytes(unread, sys.byteorder) > size / 2 and is_asleep(process.pid)


@EACH_SIGNAL
def test_a_signal_ends_a_run_whose_messages_nobody_reads(number: signal.Signals) -> None:
    save("lines", b"no colon\n" * 100_000)

    def attempt() -> float:
        with started("check", "lines", "--quiet") as process:
            wait_for(lambda: waits_for_reader(process))
            begun = time.monotonic()
            process.send_signal(number)
            status = process.wait(timeout=60)
            seconds = time.monotonic() - begun
            process.kill()
        assert status == -number, status
        return seconds

    assert least_seconds(attempt, MOST_SECONDS) <= MOST_SECONDS


@pytest.mark.needs("strace")
@EACH_SIGNAL
def test_a_signal_after_out_has_its_name_does_not_change_the_status(number: signal.Signals) -> None:
    """strace stops pwhash after it has linked OUT, and before it removes the file's other names."""
    save("list", users(3) + b"no colon\n")
    words = ("file", *MD5CRYPT, "list", "-o", "hashes", "--skip-refused")
    with stopped_by_strace(STOPPED_AFTER_LINK, *words) as process:
        assert os.path.exists("hashes")
        os.kill(pwhash_below(process), number)
        done = continued(process)
    assert done.status == 1 and sorted(os.listdir()) == ["hashes", "list", "log"], done
    assert read("hashes").count(b"\n") == 3 and b"hashes" in done.err, done


@pytest.mark.needs("strace")
def test_a_signal_does_not_change_the_status_if_standard_error_is_full() -> None:
    save("list", users(3))
    words = ("file", *MD5CRYPT, "list", "-o", "hashes")
    with open("/dev/full", "wb") as full:
        with stopped_by_strace(STOPPED_AFTER_LINK, *words, stderr=full) as process:
            assert os.path.exists("hashes")
            os.kill(pwhash_below(process), signal.SIGTERM)
            done = continued(process)
    assert done.status == 0 and sorted(os.listdir()) == ["hashes", "list", "log"], done


def test_a_generated_password_over_the_budget_is_not_shown() -> None:
    child = pexpect.spawn(PWHASH, ["--generate", "--budget", "100"], timeout=60)
    child.expect(pexpect.EOF)
    screen = bytes(child.before)
    child.close()
    assert child.exitstatus == 2 and b"over budget" in screen, screen
    assert b"shown only here" not in screen, screen


@pytest.mark.parametrize(
    ("limit", "status"),
    [
        pytest.param("ulimit -s 64", 3, id="of 64 KiB"),
        pytest.param("ulimit -s 512", 3, id="of half a mebibyte"),
        pytest.param("ulimit -s 1024", 0, id="of a mebibyte"),
        pytest.param("ulimit -s unlimited", 0, id="without a limit"),
    ],
)
def test_a_small_stack_is_named(limit: str, status: int) -> None:
    done = shell(f'{limit}; exec "$@"', *MD5CRYPT, stdin=b"password\n")
    assert done.status == status and b"Traceback" not in done.err, done
    if status == 0:
        assert done.out == hashed(b"password") + b"\n", done
    else:
        assert b"stack" in done.err and b"ulimit" in done.err, done


# ---- Missing and damaged files


def test_a_library_that_is_missing_is_named(copy: Copy) -> None:
    copy.library.unlink()
    done = copy.run(*MD5CRYPT, stdin=b"x")
    assert done.status == 3 and str(copy.library).encode() in done.stderr, done
    assert b"Traceback" not in done.stderr, done


NOBODY_READS_ERRORS = pytest.mark.parametrize(
    "redirected",
    [
        pytest.param("2> /dev/full", id="errors to a full device"),
        pytest.param("2>&-", id="errors closed"),
    ],
)


@NOBODY_READS_ERRORS
def test_the_status_says_that_the_library_is_missing(copy: Copy, redirected: str) -> None:
    copy.library.unlink()
    by_shell = ("/bin/sh", "-c", f'exec "$@" {redirected}', "sh")
    done = copy.run(*MD5CRYPT, stdin=b"x", before=by_shell)
    assert done.status == 3, done


@NOBODY_READS_ERRORS
def test_the_status_says_that_a_module_failed(copy: Copy, redirected: str) -> None:
    (copy.modules / "pwhash/file.py").write_text("raise ValueError\n", encoding="ascii")
    by_shell = ("/bin/sh", "-c", f'exec "$@" {redirected}', "sh")
    done = copy.run("file", stdin=b"ann:x\n", before=by_shell)
    assert done.status == 3, done


def test_a_library_that_was_cut_short_is_named(copy: Copy) -> None:
    os.truncate(copy.library, copy.library.stat().st_size // 2)
    done = copy.run(*MD5CRYPT, stdin=b"x")
    assert done.status == 3 and str(copy.library).encode() in done.stderr, done


def test_a_library_of_another_version_is_named(copy: Copy, folder: Path) -> None:
    """The library has the right name, but lacks the calls."""
    save("other.c", b"int other;\n")
    library = folder / copy.library.name
    soname = f"-Wl,-soname,{copy.library.name}"
    build = ended(started_program("gcc", "-shared", soname, "-o", str(library), "other.c"))
    assert build.status == 0, build
    copy.library.unlink()
    library.rename(copy.library)
    done = copy.run(*MD5CRYPT, stdin=b"x")
    assert done.status == 3 and copy.library.name.encode() in done.stderr, done
    assert b"Traceback" not in done.stderr, done


def test_a_module_that_is_missing_is_named(copy: Copy) -> None:
    (copy.modules / "pwhash/source.py").unlink()
    done = copy.run(*MD5CRYPT, stdin=b"x")
    assert done.status == 3 and b"pwhash.source" in done.stderr, done
    assert b"Traceback" not in done.stderr, done


def test_the_module_of_a_command_that_is_missing_is_named(copy: Copy) -> None:
    (copy.modules / "pwhash/single.py").unlink()
    done = copy.run(*MD5CRYPT, stdin=b"x")
    assert done.status == 3 and b"pwhash.single" in done.stderr, done
    assert b"Error" not in done.stderr, done


def test_a_command_without_its_modules_says_so(copy: Copy) -> None:
    shutil.rmtree(copy.modules)
    done = copy.run(*MD5CRYPT, stdin=b"x")
    assert done.status == 3 and str(copy.modules).encode() in done.stderr, done
    assert b"Errno" not in done.stderr, done


@pytest.mark.parametrize(
    ("module", "words"),
    [
        pytest.param("ctypes/__init__.py", MD5CRYPT, id="ctypes"),
        pytest.param("json/__init__.py", ("audit", "--json", "-"), id="json"),
        pytest.param("queue.py", ("check",), id="queue"),
    ],
)
def test_a_python_without_all_its_modules_is_named(module: str, words: tuple[str, ...]) -> None:
    """Debian's python3-minimal is such a Python."""
    name = module.removesuffix(".py").removesuffix("/__init__")
    save("none.py", b"raise ModuleNotFoundError(name='%s')\n" % name.encode())
    script = f"""
        folder=$(/usr/bin/python3 -I -c 'import os; print(os.path.dirname(os.__file__))')
        mount --bind none.py "$folder/{module}"
        exec "$@"
    """
    done = in_namespace(script, *words, stdin=b"ann:!:x\n")
    assert done.status == 3 and b"apt install python3" in done.err, done
    assert f"its own module {name}.".encode() in done.err, done


def test_a_module_that_is_damaged_is_named(copy: Copy) -> None:
    (copy.modules / "pwhash/lines.py").write_text("raise ValueError\n", encoding="ascii")
    done = copy.run(*MD5CRYPT, stdin=b"x")
    assert done.status == 3 and b"lines.py" in done.stderr, done
    assert b"Traceback" not in done.stderr, done


@pytest.mark.parametrize(
    "left",
    [
        pytest.param(b"", id="nothing"),
        pytest.param(bytes(3000), id="zeros"),
        pytest.param(b"def watch(", id="its beginning"),
    ],
)
def test_damage_to_the_module_that_reports_damage_is_named(copy: Copy, left: bytes) -> None:
    (copy.modules / "pwhash/unforeseen.py").write_bytes(left)
    done = copy.run(*MD5CRYPT, stdin=b"x")
    assert done.status == 3 and b"pwhash.unforeseen can't be loaded" in done.stderr, done
    assert b"Traceback" not in done.stderr, done


def test_a_module_that_the_user_cant_read_is_named(copy: Copy) -> None:
    (copy.modules / "pwhash/cli.py").chmod(0)
    as_nobody = ("/usr/bin/setpriv", "--reuid", "65534", "--clear-groups", "--")
    done = copy.run(*MD5CRYPT, stdin=b"x", before=as_nobody if os.geteuid() == 0 else ())
    assert done.status == 3 and b"pwhash/cli.py can't be read" in done.stderr, done
    assert b"libmkpasswd" not in done.stderr, done


@pytest.mark.parametrize(
    "left",
    [
        pytest.param(b"", id="nothing"),
        pytest.param(bytes(3000), id="zeros"),
        pytest.param(b'"""Starts pwhash."""\n\nimport sys\n', id="its beginning"),
    ],
)
def test_a_truncated_first_module_never_ends_with_status_0(copy: Copy, left: bytes) -> None:
    """Python alone would end with status 0, as if the password were right."""
    (copy.modules / "pwhash/start.py").write_bytes(left)
    done = copy.run("check", stdin=b"ann:!:wrong\n")
    assert done.status == 3 and b"start.py is damaged" in done.stderr, done


def test_planted_modules_and_libraries_are_not_loaded(folder: Path) -> None:
    """pwhash loads none from the current folder, or from the paths in the environment."""
    save("json.py", b"raise SystemExit(0)\n")
    save("mkpasswd.py", b"raise SystemExit(0)\n")
    save("libmkpasswd.so.3", b"no library")
    save("libffi.so.8", b"no library")  # Python's ctypes needs it
    save("sitecustomize.py", b"raise SystemExit(0)\n")
    script = 'LD_LIBRARY_PATH=. PYTHONPATH=. PYTHONHOME=. exec "$@"'
    done = shell(script, "audit", "--json", "-", stdin=b"ann:!\n")
    assert done.status == 0 and b'"finding": "locked"' in done.out, done
    assert (folder / "json.py").exists()


@pytest.mark.parametrize("variable", ["PYTHONEXECUTABLE", "__PYVENV_LAUNCHER__"])
def test_no_modules_are_loaded_from_beside_a_file_that_a_variable_names(
    variable: str, folder: Path, monkeypatch: pytest.MonkeyPatch
) -> None:
    """With python3._pth beside it, Python 3.11 looks for modules only in the folders named there.

    It loads the package encodings first.
    """
    save("python3._pth", b".\n")
    (folder / "encodings").mkdir()
    save("encodings/__init__.py", b"import posix\nposix.mkdir('loaded')\n")
    monkeypatch.setenv(variable, str(folder / "python3"))
    done = pwhash("audit", "-", stdin=b"ann:!\n")
    assert done.status == 0 and b"locked" in done.out, done
    assert not (folder / "loaded").exists()

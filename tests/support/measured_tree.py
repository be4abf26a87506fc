"""A tiny repository for tests of tools/evidence, with fake commands for rt, make and others.

Each fake command prints and writes what a test has put beside it, in the real command's format.
Calls of make and rt are recorded.
"""
from __future__ import annotations

import json
import re
import shutil
import time
from collections.abc import Callable
from dataclasses import dataclass
from pathlib import Path
from typing import Any

from . import ROOT
from .process import Changes, Result, Word, run

FROM_NOTHING = "every proof and must-fail edit was done in this run"
GATE = """\
logic=proved functions=3 sum=1
logic=proved functions=2 axioms=4 sum=1
logic=proved tests=6 functions=100 sum=1
rt: ok; handles allowed: none; must-fail edits: 7 refused; {share}
9 passed, 0 failed
"""
DIFFERENCES = "soak: 0 differences\n"
FUZZ = "INFO: Seed: 12\nDone 345 runs in 3 second(s)\nstat::number_of_executed_units: 345\n"
PLANT = """\
refused     src/lib.rt:3 one: { None }  (is_one)
plants crate=low planted-in=1 untested=0 no-ensures=0 proves=0 same=0 refused=1 elsewhere=0 \
not-judged=0 not-source=0 not-run=0
"""
CHECK = """\
not applicable: black: this system is not Debian 12
0 findings, 0 tools skipped
9 passed, 0 failed
skipped: no samples present
    python/test_others.py::test_one
    python/test_others.py::test_other
skipped: not applicable: no loop device can be made
    pwhash/test_out.py::test_full
600 passed, 0 failed, 3 skipped
make: Leaving directory '/root/mkpasswd'
"""
SPEED = """\
{"instructions": {"conditions": CONDITIONS, "rows": [
{"unit": "a round", "program": "mkpasswd", "instructions": 829.1}]},
"ratios": {"conditions": CONDITIONS, "rows": [
{"row": "md5crypt", "name": "libxcrypt",
 "ratio": {"median": 1.2, "interval": {"lower": 1.1, "upper": 1.3}, "pairs": 9}}]}}
""".replace(
    "CONDITIONS",
    '{"date": "2026-11-30", "crates": "", "processor": "", "ghz": 2.5, "cores": 4, "kernel": "", '
    '"versions": {}}',
)
# The files beside the fake commands: their outputs.
OUTPUTS = {
    "gate.log": GATE.format(share=FROM_NOTHING),
    "soak": DIFFERENCES,
    "fuzz": FUZZ,
    "plant": PLANT,
    "check": CHECK,
    "speed.json": SPEED,
    "version": "a toolchain\n",
}
MAKE = r"""#!/bin/sh
cd "$(dirname "$0")" && fakes=$PWD && cd "$OLDPWD" || exit
echo "make $*" >> "$fakes/calls"
[ ! -e "$fakes/$1.script" ] || . "$fakes/$1.script"
case $1 in
gate) mkdir -p build/log && cp "$fakes/gate.log" build/log ;;
bench) cp "$fakes/speed.json" docs ;;
soak)
    echo "soak: seed ${4#SEED=}, ${3#LINES=} ${2#KIND=} lines"
    cat "$fakes/soak"
    ;;
fuzz) cat "$fakes/fuzz" ;;
dist)
    echo 'an archive' > mkpasswd-1.tar.gz
    sha256sum mkpasswd-1.tar.gz > SHA256SUMS
    ;;
esac
"""
TOOLCHAIN = r"""#!/bin/sh
fakes=$(dirname "$0")
case $1 in
doc) echo "$fakes/kit/START.md" ;;
version) cat "$fakes/version" ;;
plant) echo "rt $* in ${PWD##*/}" >> "$fakes/calls" && cat "$fakes/plant" ;;
esac
"""
# Makes a folder in place of a root. The arguments after the options: the release, the folder.
MMDEBSTRAP = r"""#!/bin/sh
while [ "${1#-}" != "$1" ]; do shift; done
mkdir -p "$2/root" "$2/usr/local/bin"
"""
# Stands in for the check in a root. The root is the fourth argument after the options.
UNSHARE = r"""#!/bin/sh
while [ "${1#-}" != "$1" ]; do shift; done
[ "$1" != mmdebstrap ] || exec "$@"
fakes=$(dirname "$0")
log=$4/root/mkpasswd/build/log
mkdir -p "$log" && cp "$fakes/gate.log" "$log" && cat "$fakes/check"
"""
# Runs the command as the same user, since another one may not be able to read the test's files.
RUNUSER = r"""#!/bin/sh
while [ "$1" != -- ]; do shift; done
shift
exec "$@"
"""
COMMANDS = {
    "make": MAKE,
    "rt": TOOLCHAIN,
    "mmdebstrap": MMDEBSTRAP,
    "unshare": UNSHARE,
    "runuser": RUNUSER,
    "chown": "#!/bin/sh\n",
    "node": "#!/bin/sh\necho v20.1.0\n",
}
FILES = {
    ".gitignore": "build/\n",
    "CHANGELOG.md": "",
    "HANDLES": "Handles allowed: none.\n",
    "Makefile": "",
    "README.md": "",
    "bin/pwhash": "",
    "c/heap.c": "",
    "crates.txt": "# lowest first\nlow: itoa\n",
    "crates/low/src/lib.rt": "",
    "docs/EVIDENCE.md": "",
    "python/setup.py": "",
    "tests/c/fuzz_hash.c": "",
    "tests/packages.txt": "gcc cc\n",
    "tests/pwhash/test_out.py": '"""Files that pwhash writes. And more."""\n',
    "tests/python/test_others.py": '"""The tests of\nsomebody else."""\n',
    "tests/support/__init__.py": "",
    "tests/support/libxcrypt.py": "",
    "tests/support/model/answers.py": "",
    "tests/support/process.py": "",
    "tests/support/random_lines/chunks.py": "",
    "tools/soak": "",
    "web/page.js": "",
}


BUILT = ("mkpasswd", "build/fuzz/hash")  # the targets that are built before a measurement


@dataclass(frozen=True)
class MeasuredTree:
    """A repository, and the folder of its fake commands."""

    folder: Path
    fakes: Path

    @property
    def environment(self) -> Changes:
        """Changes to the environment: the fake commands are first in PATH, and RT isn't set."""
        return {"PATH": f"{self.fakes}:/usr/sbin:/usr/bin:/sbin:/bin", "RT": None}

    @property
    def command(self) -> Path:
        """The path of the tree's tools/evidence."""
        return self.folder / "tools/evidence"

    def evidence(self, *words: Word) -> Result:
        """Runs tools/evidence."""
        return run(self.command, *words, env=self.environment)

    def states(self) -> dict[str, str]:
        """Returns the state of each part, as --list prints it."""
        lines = self.evidence("--list").required().stdout.decode().splitlines()
        of_parts = [line for line in lines if not line.startswith("evidence: ")]
        return {line.split()[0]: line.split(maxsplit=1)[1] for line in of_parts}

    def not_measured(self) -> set[str]:
        """Returns the parts that have no result in --list, or one that no longer counts."""
        without = ("not measured; ", "outdated: ")
        return {name for name, state in self.states().items() if state.startswith(without)}

    def page(self) -> str:
        """Returns the page that tools/evidence wrote."""
        return (self.folder / "docs/EVIDENCE.md").read_text(encoding="utf-8")

    def calls(self) -> list[str]:
        """Returns the recorded calls of make and rt."""
        path = self.fakes / "calls"
        return path.read_text(encoding="utf-8").splitlines() if path.exists() else []

    def measurements(self) -> list[str]:
        """Returns the recorded calls that measure, not those that build.

        Seeds, and the numbers of checks at once, are replaced by N.
        """
        calls = [re.sub("(SEED=|--jobs )[0-9]+", r"\1N", call) for call in self.calls()]
        return [call for call in calls if call.split()[1] not in BUILT]

    def saved(self, pattern: str) -> list[str]:
        """Returns the names of the files in build/evidence/COMMIT that match a pattern."""
        return sorted(path.name for path in self.folder.glob(f"build/evidence/*/{pattern}"))

    def results(self, pattern: str = "*") -> list[str]:
        """Returns the names of the parts with results that match a pattern."""
        return sorted(path.stem for path in self.folder.glob(f"docs/evidence/{pattern}.json"))

    def result(self, part: str) -> dict[str, Any]:
        """Returns the result of a part."""
        path = self.folder / f"docs/evidence/{part}.json"
        whole: dict[str, Any] = json.loads(path.read_text(encoding="utf-8"))
        return whole

    def write(self, path: str, text: str) -> None:
        """Writes a file of the repository."""
        file = self.folder / path
        file.parent.mkdir(parents=True, exist_ok=True)
        file.write_text(text, encoding="utf-8")

    def commit(self) -> None:
        """Commits all files."""
        self.git("add", "--all")
        who = ("-c", "user.name=somebody", "-c", "user.email=somebody@mkpasswd.invalid")
        self.git(*who, "commit", "--quiet", "--message", "files")

    def git(self, *words: str) -> str:
        """Runs git in the repository, and returns its output without the last line feed."""
        result = run("git", "-C", self.folder, *words).required()
        return result.stdout.decode().removesuffix("\n")

    def elsewhere(self, folder: Path) -> MeasuredTree:
        """Returns a clone of the repository, as on another machine, with the same commands."""
        run("git", "clone", "--quiet", self.folder, folder).required()
        return MeasuredTree(folder, self.fakes)

    def prepare(self, name: str, output: str) -> None:
        """Writes a fake command's output beside it, or a script that it runs first."""
        (self.fakes / name).write_text(output, encoding="utf-8")


def wait_for(condition: Callable[[], bool]) -> None:
    """Waits for a condition, for at most a minute."""
    end = time.monotonic() + 60
    while not condition():
        assert time.monotonic() < end, "the condition didn't hold within a minute"
        time.sleep(0.01)


def measured_tree(folder: Path) -> MeasuredTree:
    """Makes the repository with a copy of this tree's tools/evidence, and the fake commands."""
    tree = MeasuredTree(folder / "tree", folder / "fakes")
    tree.fakes.mkdir()
    for name, script in COMMANDS.items():
        tree.prepare(name, script)
        (tree.fakes / name).chmod(0o755)
    for name, output in OUTPUTS.items():
        tree.prepare(name, output)
    for path, text in FILES.items():
        tree.write(path, text)
    shutil.copy(ROOT / "tools/evidence", tree.folder / "tools")
    ignored = shutil.ignore_patterns("__pycache__")
    for package in ("measure", "measure_speed"):
        path = f"tools/{package}"
        shutil.copytree(ROOT / path, tree.folder / path, ignore=ignored)
    tree.git("init", "--quiet")
    tree.commit()
    return tree

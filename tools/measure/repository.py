"""The measured repository: its commit, the hashes of its files, and clones of it.

Parts are measured in clones, so that the tree can be changed meanwhile.
"""

from __future__ import annotations

import subprocess
from pathlib import Path

from measure.errors import Stop

PAGE = "docs/EVIDENCE.md"
RESULTS = "docs/evidence"  # the folder of the results
# All files but what a measurement itself writes, which has the hashes of the others and so can't
# have its own.
ALL_FILES = f"all files but {PAGE} and {RESULTS}"


def is_written(path: str) -> bool:
    """Returns whether a file is the page or a result, which measurements write."""
    return path == PAGE or path.startswith(f"{RESULTS}/")


class Repository:
    """A git repository."""

    def __init__(self, folder: Path) -> None:
        self.folder = folder
        self.hashes: dict[tuple[str, str], str] = {}

    def git(self, *words: str, stdin: str = "") -> str:
        """Runs git, and returns its output without the last line feed."""
        command = ["git", "-C", str(self.folder), *words]
        try:
            done = subprocess.run(
                command, input=stdin, capture_output=True, encoding="utf-8", check=False
            )
        except OSError as error:
            raise Stop(f"git: {error.strerror}") from None
        if done.returncode != 0:
            raise Stop(f"git {words[0]}: {done.stderr.strip()}")
        return done.stdout.removesuffix("\n")

    def head(self) -> str:
        """Returns the commit that is checked out."""
        return self.git("rev-parse", "HEAD")

    def changes(self) -> list[str]:
        """Returns the files with uncommitted changes, except what tools/evidence writes."""
        excluded = (f":(exclude){PAGE}*", f":(exclude){RESULTS}")
        return self.git("status", "--porcelain", "--", ".", *excluded).splitlines()

    def hash_of(self, commit: str, files: str) -> str:
        """Returns git's hash of a file, a folder or ALL_FILES in a commit.

        It computes each hash only once.
        """
        known = self.hashes.get((commit, files))
        if known is None:
            known = self.hashes[commit, files] = self.computed_hash(commit, files)
        return known

    def computed_hash(self, commit: str, files: str) -> str:
        """Computes the hash of a file, of a folder, or of all files, with git."""
        if files != ALL_FILES:
            return self.git("rev-parse", "--verify", f"{commit}:{files}")
        listed = self.git("ls-tree", "-r", "--full-tree", commit).splitlines()
        others = [line for line in listed if not is_written(line.partition("\t")[2])]
        return self.git("hash-object", "--stdin", stdin="".join(f"{line}\n" for line in others))

    def text_of(self, commit: str, path: str) -> str:
        """Returns the content of a file in a commit."""
        return self.git("show", f"{commit}:{path}")

    def names_in(self, commit: str, folder: str) -> list[str]:
        """Returns the names of the files in a folder."""
        return self.git("ls-tree", "--name-only", f"{commit}:{folder}").splitlines()

    def clone(self, commit: str, folder: Path) -> None:
        """Makes a clone with this commit checked out, and nothing else."""
        self.git("init", "--quiet", str(folder))
        self.give(commit, folder)

    def give(self, commit: str, folder: Path) -> None:
        """Checks a commit out in a clone, and undoes changes to its files."""
        clone = Repository(folder)
        clone.git("fetch", "--quiet", "--no-tags", str(self.folder), commit)
        clone.git("checkout", "--quiet", "--force", "--detach", commit)

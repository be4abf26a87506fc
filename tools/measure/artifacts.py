"""Builds everything that is released in two clones, compares it, and saves it."""

from __future__ import annotations

import shutil
from hashlib import sha256
from pathlib import Path

from measure.errors import Failed
from measure.facts import Artifact, Artifacts
from measure.workplace import Workplace, copy_proofs, read_text, remove

ARTIFACTS = "artifacts"  # the folder of the artifacts, beside the logs
OTHER_USER = "nobody"
OTHER_ENVIRONMENT = {"LC_ALL": "C.UTF-8", "TZ": "Asia/Kathmandu"}
GOALS = ("dist", "wheel", "image", "deb", "npm", "sums")


def measure_artifacts(place: Workplace) -> Artifacts:
    """Builds everything that is released in two clones, which must agree, and saves it.

    The second clone has another folder, user, locale and time zone. Both compile anew, with the
    proofs that the built clone has.
    """
    with place.scratch() as scratch:
        scratch.chmod(0o755)
        one = new_clone_on_proofs(place, scratch / "one")
        other = new_clone_on_proofs(place, scratch / "a second folder")
        place.run("make", *GOALS, cwd=one)
        build_as_other_user(place, other)
        files = compared(one, other)
        keep_artifacts(place, one, files, scratch / ARTIFACTS)
        return Artifacts(files)


def new_clone_on_proofs(place: Workplace, folder: Path) -> Path:
    """Makes a clone in a folder, with the proofs that rt keeps in the built clone."""
    folder.mkdir()
    clone = place.new_clone(folder / "mkpasswd")
    copy_proofs(place.clone, clone)
    return clone


def build_as_other_user(place: Workplace, clone: Path) -> None:
    """Builds, as another user who owns the clone and its folder, everything that is released."""
    home = clone.parent
    need_other_user_in(place, home)
    place.run("chown", "-R", OTHER_USER, home, cwd=home)
    words = [f"{name}={value}" for name, value in OTHER_ENVIRONMENT.items()]
    own = ("env", f"HOME={home}", *words, "make", *GOALS)
    place.run("runuser", "-u", OTHER_USER, "--", *own, cwd=clone)


def need_other_user_in(place: Workplace, folder: Path) -> None:
    """Fails if the other user can't reach a folder."""
    try:
        place.run("runuser", "-u", OTHER_USER, "--", "test", "-x", folder, cwd=folder)
    except Failed:
        raise Failed(f"{OTHER_USER} can't enter {folder}: some folder above is closed") from None


def sums_in(clone: Path) -> dict[str, str]:
    """Returns the checksums that make sums has written, by file name."""
    lines = read_text(clone / "SHA256SUMS").splitlines()
    return {name: sum_of_file for sum_of_file, name in (line.split(maxsplit=1) for line in lines)}


def compared(one: Path, other: Path) -> tuple[Artifact, ...]:
    """Returns the artifacts of two clones, which must be identical."""
    sums = sums_in(one)
    if set(sums) != set(sums_in(other)):
        raise Failed("the two clones built other files")
    files = []
    for name, sum_of_file in sorted(sums.items()):
        content = (one / name).read_bytes()
        if content != (other / name).read_bytes():
            raise Failed(f"the two clones built a different {name}")
        if sha256(content).hexdigest() != sum_of_file:
            raise Failed(f"SHA256SUMS has another sum of {name}")
        files.append(Artifact(name, len(content), sum_of_file))
    return tuple(files)


def keep_artifacts(
    place: Workplace, clone: Path, files: tuple[Artifact, ...], gathered: Path
) -> None:
    """Saves a clone's artifacts and their checksums beside the logs, all at once."""
    gathered.mkdir()
    for file in files:
        shutil.copy(clone / file.name, gathered)
    shutil.copy(clone / "SHA256SUMS", gathered)
    remove(place.outputs / ARTIFACTS)
    gathered.rename(place.outputs / ARTIFACTS)

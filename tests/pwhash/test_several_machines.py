"""GUIDE's recipe for several machines, followed on this machine alone."""
from __future__ import annotations

from pathlib import Path

import pytest
from support.documents import marked
from support.process import run
from support.pwhash_copies import Copy
from support.pwhash_runs import hashed, users

COUNT = 1500
THIS_MACHINE = b"2/:\n"  # with two jobs, as GNU parallel writes it
# Halves the part from GNU parallel, so that pwhash has something to complete.
CUT = "cut=$(wc -c < hashes.part); truncate -s $((cut / 2)) hashes.part; "


def quick_recipe() -> str:
    """Returns the recipe with fewer rounds, and with CUT before pwhash runs."""
    recipe = marked("several machines", "sh").code
    recipe = recipe.replace("-R 656000", "-R 1000").replace(" -o hashes", " -R 1000 -o hashes")
    assert "pwhash file passwords -R" in recipe, recipe
    return recipe.replace("pwhash file passwords -R", f"{CUT}pwhash file passwords -R")


@pytest.mark.needs("parallel")
def test_pwhash_completes_the_hashes_from_gnu_parallel(copy: Copy, folder: Path) -> None:
    (folder / "hosts").write_bytes(THIS_MACHINE)
    (folder / "passwords").write_bytes(users(COUNT))
    (copy.folder / "bin/mkpasswd.proved").symlink_to("mkpasswd")
    path = f"{copy.folder}/bin:/usr/bin:/bin"
    done = run("/bin/sh", "-euc", quick_recipe(), env={"PATH": path, "HOME": str(folder)})
    assert done.status == 0, done
    hashes = (folder / "hashes").read_bytes().splitlines()
    assert len(hashes) == COUNT, done
    for number in 0, COUNT // 2, COUNT - 1:
        name, stored = hashes[number].split(b":")
        assert name == b"user%d" % number
        assert stored == hashed(b"password%d" % number, stored.decode())

"""README's picture of a terminal shows what pwhash prints."""
from __future__ import annotations

from pathlib import Path
from xml.etree import ElementTree

import pytest
from support import ROOT
from support.needs import built
from support.process import run

PICTURE = ROOT / "docs/terminal.svg"
TEXT = "{http://www.w3.org/2000/svg}text"


def rows_of(picture: Path) -> list[str]:
    """Returns the rows of text in a picture."""
    return ["".join(text.itertext()) for text in ElementTree.parse(picture).iter(TEXT)]


@pytest.mark.needs("python3-pexpect")
def test_the_picture_shows_what_pwhash_prints(tmp_path: Path) -> None:
    built("mkpasswd", "mkpasswd")
    built("libmkpasswd.so.3", "lib")
    picture = tmp_path / "terminal.svg"
    run(ROOT / "tools/terminal", picture).required()
    assert rows_of(picture) == rows_of(PICTURE), "docs/terminal.svg is outdated: run tools/terminal"

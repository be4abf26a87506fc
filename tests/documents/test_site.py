"""The web pages: they are reproducible and well-formed, and their links work."""
from __future__ import annotations

import re
import shutil
from collections.abc import Iterator
from dataclasses import dataclass
from pathlib import Path
from xml.etree import ElementTree

import pytest
from support import ROOT
from support.documents import documents, lines_of
from support.needs import built
from support.process import Changes, Result, assert_result, run

pytestmark = [
    pytest.mark.needs("mandoc", "pandoc"),
    pytest.mark.xdist_group("site"),  # so that the pages are written once
]

HASHING_PAGE = "mkpasswd.html"  # it has a script, and isn't XML
FEWEST_LINKS = 100  # if a test finds fewer, its search is broken


@dataclass(frozen=True)
class Site:
    """A folder with the pages, and the result of the command that wrote them."""

    folder: Path
    result: Result

    def pages(self) -> list[Path]:
        """Returns all pages except the one that hashes."""
        self.result.required()
        pages = sorted(self.folder.glob("*.html"))
        return [page for page in pages if page.name != HASHING_PAGE]


def write_site(folder: Path, env: Changes | None = None, cwd: Path | None = None) -> Site:
    """Has tools/site write this tree's pages into a folder."""
    folder.mkdir()
    return Site(folder, run(ROOT / "tools/site", folder, env=env, cwd=cwd))


@pytest.fixture(scope="module", name="site")
def fixture_site(tmp_path_factory: pytest.TempPathFactory) -> Site:
    built("build/SPECIFICATION.md", "specification")
    return write_site(tmp_path_factory.mktemp("site") / "pages")


def test_the_pages_are_written_and_nothing_is_printed(site: Site) -> None:
    assert_result(site.result)


def test_another_locale_time_zone_and_folder_give_the_same_bytes(
    site: Site, tmp_path: Path
) -> None:
    environment = {"LC_ALL": "C.UTF-8", "TZ": "Asia/Kathmandu"}
    again = write_site(tmp_path / "again", environment, cwd=Path("/"))
    again.result.required()
    assert_result(run("diff", "-r", site.folder, again.folder))


def test_the_pages_are_well_formed(site: Site) -> None:
    problems = []
    for page in site.pages():
        try:
            ElementTree.parse(page)
        except ElementTree.ParseError as error:
            problems.append(f"{page.name}: {error}")
    assert not problems, "expected well-formed pages\n" + "\n".join(problems)


def test_no_page_has_checksums_of_archives_that_contain_the_pages(site: Site) -> None:
    evidence = (ROOT / "docs/EVIDENCE.md").read_text(encoding="utf-8")
    sums = re.findall(r"`([0-9a-f]{16,64})`", evidence)
    pages = {page.name: page.read_text(encoding="utf-8") for page in site.pages()}
    found = [(name, value) for value in sums for name, page in pages.items() if value in page]
    assert found == []


def heading_of(page: Path) -> str:
    """Returns the first heading of a page, without tags."""
    headings = (element for element in elements_of(page) if element.tag == "h1")
    return "".join(next(headings).itertext())


@pytest.mark.parametrize("document", documents(), ids=lambda document: str(document.name))
def test_each_document_has_its_page(site: Site, document: Path) -> None:
    site.result.required()
    name = "index" if document.stem == "README" else document.stem.lower()
    title = lines_of(document)[0].removeprefix("# ").replace("`", "")
    assert heading_of(site.folder / f"{name}.html") == title


# ---- Links


@dataclass(frozen=True)
class Link:
    """A link from a page to another page, a place in one (`page#place`), a file, or an address."""

    page: str
    target: str

    @property
    def is_elsewhere(self) -> bool:
        """Whether the link leaves the site."""
        return re.match("https?:", self.target) is not None


def elements_of(page: Path) -> Iterator[ElementTree.Element]:
    """Yields the elements of a page. Fails the test unless it is well-formed."""
    try:
        tree = ElementTree.parse(page)
    except ElementTree.ParseError as error:
        raise AssertionError(f"{page.name} isn't well-formed: {error}") from None
    return tree.iter()


def links_in(page: Path) -> Iterator[Link]:
    """Yields the links of a page, and the files that it shows."""
    for element in elements_of(page):
        for name in ("href", "src"):
            target = element.get(name)
            if target is not None:
                whole = f"{page.name}{target}" if target.startswith("#") else target
                yield Link(page.name, whole)


def links_in_hashing_page(site: Site) -> Iterator[Link]:
    """Yields the links of the page that hashes, if it is built."""
    page = site.folder / HASHING_PAGE
    if page.exists():
        for target in re.findall(r'<a href="([^"]*)"', page.read_text(encoding="utf-8")):
            yield Link(HASHING_PAGE, target)


def places_in(page: Path) -> Iterator[str]:
    """Yields the name of the page, and each place in it that a link can name."""
    yield page.name
    for element in elements_of(page):
        identifier = element.get("id")
        if identifier is not None:
            yield f"{page.name}#{identifier}"


def test_no_link_is_dead(site: Site) -> None:
    links = [link for page in site.pages() for link in links_in(page)]
    places = {place for page in site.pages() for place in places_in(page)}
    assert len(links) > FEWEST_LINKS, f"found only these links: {links}"
    dead = [
        f"{link.page} has a link to {link.target}"
        for link in [*links, *links_in_hashing_page(site)]
        if not link.is_elsewhere and link.target not in places
        if not (site.folder / link.target).is_file()
    ]
    assert not dead, "expected links without a missing target\n" + "\n".join(dead)


# ---- A small tree

MANUAL = """.Dd November 30, 2026
.Dt PWHASH 1
.Os
.Sh NAME
.Nm pwhash
.Nd hash passwords
.Sh SEE ALSO
.Xr crypt 5
"""
FILES = {
    "README.md": "# Read me\n\nSee [the guide](docs/GUIDE.md#first)\nand [pwhash](man/pwhash.1).\n",
    "docs/GUIDE.md": "# Guide\n\n## First\n\n[A script](../tools/guide).\n\n![P](p.png)\n",
    "docs/p.png": "",
    "docs/site.css": "",
    "docs/site.html": "<html><title>TITLE</title>\n<body>BODY</body></html>\n",
    "man/pwhash.1": MANUAL,
    "tools/guide": "#!/bin/sh\necho a < b\n",
    "build/SPECIFICATION.md": "# Specification\n",
}


@dataclass(frozen=True)
class Tree:
    """A folder with some documents."""

    folder: Path

    def change(self, path: str, old: str, new: str) -> None:
        """Replaces a piece of a file, wherever it occurs."""
        file = self.folder / path
        text = file.read_text(encoding="utf-8")
        assert old in text, f"expected {old} in {path}\n{text}"
        file.write_text(text.replace(old, new), encoding="utf-8")

    def write_site(self) -> Site:
        """Has tools/site write the documents' pages into a folder."""
        folder = self.folder / "site"
        folder.mkdir()
        return Site(folder, run(self.folder / "tools/site", folder))


@pytest.fixture(name="tree")
def fixture_tree(tmp_path: Path) -> Tree:
    for path, text in FILES.items():
        file = tmp_path / path
        file.parent.mkdir(exist_ok=True)
        file.write_text(text, encoding="utf-8")
    shutil.copy(ROOT / "tools/site", tmp_path / "tools")
    return Tree(tmp_path)


def test_a_linked_file_replaces_no_document(tree: Tree) -> None:
    """The guide's page is guide.html, and the linked script is called guide."""
    site = tree.write_site()
    site.result.required()
    assert heading_of(site.folder / "guide.html") == "Guide"
    targets = [link.target for link in links_in(site.folder / "guide.html")]
    scripts = [target for target in targets if target.endswith("guide.html")]
    assert len(scripts) == 1, targets
    assert "echo a &lt; b" in (site.folder / scripts[0]).read_text(encoding="utf-8")


def test_a_manual_of_another_program_has_no_link(tree: Tree) -> None:
    site = tree.write_site()
    site.result.required()
    text = (site.folder / "pwhash.1.html").read_text(encoding="utf-8")
    assert "crypt(5)" in text
    assert "crypt.5" not in text


@pytest.mark.parametrize(
    ("path", "old", "new", "place"),
    [
        pytest.param("README.md", "docs/GUIDE", "docs/GIUDE", "README.md:3", id="a file"),
        pytest.param("README.md", "man/pwhash.1", "man/pwhash.8", "README.md:4", id="a manual"),
        pytest.param("docs/GUIDE.md", "(p.png)", "(q.png)", "docs/GUIDE.md:7", id="a picture"),
        pytest.param(
            "man/pwhash.1", "crypt 5", "mkpasswd 1", "man/pwhash.1:8", id="a manual in a manual"
        ),
    ],
)
def test_a_missing_target_of_a_link_is_an_error(
    tree: Tree, path: str, old: str, new: str, place: str
) -> None:
    tree.change(path, old, new)
    result = tree.write_site().result
    assert result.status == 1, result
    assert f" {place}: " in result.stderr.decode(), result

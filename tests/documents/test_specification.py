"""tools/specification over a small tree: the page has everything that a call depends on.

An error names the place that the tool can't handle.
"""
from __future__ import annotations

import shutil
from dataclasses import dataclass
from pathlib import Path

import pytest
from support import ROOT
from support.process import Result, assert_result, run

# The page without what the tool fills in.
FRAME = """# Adding

Some words.

## Calls

{{calls extern}}

## Types

{{types}}

## Definitions

{{modules Sums
Limits}}

## Outside

{{outside}}
"""

CALLS = """//! What C calls.
ghost use Rattle.low.specs.Sums.{Sums, limit as most};

use low::pair::Pair;

/// Adds.
pub extern "C" fn add(pair: &Pair, room: u64) -> u64
    requires { room ≡ most }
    ensures adds { Sums pair.now result }
{
    pair.sum()
}
"""

PAIR = """//! Pairs.
use std::marker::Model;

/// Two numbers, as [`Pair::new`] takes them.
#[derive(Drop)]
pub struct Pair {
    /// The first one.
    left: u64,
    right: u64,
}

impl Model for Pair {
    ghost use Rattle.low.specs.Sums.{PairValue};

    ghost Value = { PairValue };

    ghost view = { λ p. record { left = p.left; right = p.right } };
}

pub trait Adds {
    fn add(&self) -> u64;
}
"""

SUMS = """-- Sums of two numbers.
use Rattle.std.specs.Prelude.{◌≡◌, ℕ, ◌+◌, ◌≤◌}
use Rattle.low.specs.Limits.{limit as most}

pub use Rattle.low.specs.Limits.{limit}

-- A pair of numbers.
pub record PairValue : Type 0 where
  pub left : ℕ
  pub right : ℕ

-- Sums pair sum: the sum is that of the pair.
--   left   comes first
--   right  is added
abbrev pub Sums : PairValue → ℕ → Type 0
Sums pair sum = (sum ≡ pair.left + pair.right) × (sum ≤ most)

-- Nothing needs this.
abbrev pub idle : ℕ
idle = 0
"""

LIMITS = """-- Limits.
use Rattle.std.specs.Prelude.{ℕ}

abbrev pub limit : ℕ
limit = 10
"""

FILES = {
    "crates.txt": "# lowest first\nlow:\nhigh staticlib: low\n",
    "tools/specification.md": FRAME,
    "crates/high/src/lib.rt": CALLS,
    "crates/low/src/pair.rt": PAIR,
    "crates/low/specs/Sums.antt": SUMS,
    "crates/low/specs/Limits.antt": LIMITS,
}

# The page that the tool must print.
PAGE = """# Adding

Some words.

## Calls

### add

```text
pub extern "C" fn add(pair: &Pair, room: u64) -> u64
    requires { room ≡ most }
    ensures adds { Sums pair.now result }
```

Uses [`Pair`](#pair); [`Sums`](#sums); [`limit`](#limit), here `most`.

## Types

### crates/low/src/pair.rt

#### Pair

Two numbers, as `Pair::new` takes them.

```text
pub struct Pair {
    left: u64,
    right: u64,
}
impl Model for Pair {
    ghost Value = { PairValue };
    ghost view = { λ p. record { left = p.left; right = p.right } };
}
```

Uses [`PairValue`](#pairvalue).

## Definitions

### crates/low/specs/Sums.antt

Sums of two numbers.

#### PairValue

A pair of numbers.

```text
pub record PairValue : Type 0 where
  pub left : ℕ
  pub right : ℕ
```

#### Sums

Sums pair sum: the sum is that of the pair.

```text
  left   comes first
  right  is added
```

```text
abbrev pub Sums : PairValue → ℕ → Type 0
Sums pair sum = (sum ≡ pair.left + pair.right) × (sum ≤ most)
```

Uses [`PairValue`](#pairvalue); [`limit`](#limit), here `most`.

### crates/low/specs/Limits.antt

Limits.

#### limit

```text
abbrev pub limit : ℕ
limit = 10
```

## Outside

- `std.specs.Prelude`: `ℕ`
"""


@dataclass(frozen=True)
class Tree:
    """A folder with the sources of a specification."""

    folder: Path

    def change(self, path: str, old: str, new: str) -> None:
        """Replaces a piece of a file, which must occur once."""
        file = self.folder / path
        text = file.read_text(encoding="utf-8")
        assert text.count(old) == 1, f"expected one {old} in {path}\n{text}"
        file.write_text(text.replace(old, new), encoding="utf-8")

    def page(self) -> Result:
        """Runs tools/specification, which prints the page."""
        return run(self.folder / "tools/specification")


@pytest.fixture(name="tree")
def fixture_tree(tmp_path: Path) -> Tree:
    for path, text in FILES.items():
        file = tmp_path / path
        file.parent.mkdir(parents=True, exist_ok=True)
        file.write_text(text, encoding="utf-8")
    shutil.copy(ROOT / "tools/specification", tmp_path / "tools")
    shutil.copytree(ROOT / "tools/spec_page", tmp_path / "tools/spec_page")
    return Tree(tmp_path)


def test_the_page_has_everything_that_a_call_depends_on(tree: Tree) -> None:
    assert_result(tree.page(), stdout=PAGE.encode())


def test_a_name_that_is_imported_twice_leads_to_both(tree: Tree) -> None:
    """Only the checker knows which of the two definitions a clause means."""
    path = "crates/low/specs/Sums.antt"
    tree.change(path, "{limit as most}\n", "{limit as most}\nuse Rattle.low.specs.More.{most}\n")
    more = "abbrev pub most : ℕ\nmost = 20\n"
    (tree.folder / "crates/low/specs/More.antt").write_text(more, encoding="utf-8")
    tree.change("tools/specification.md", "Limits}}", "Limits More}}")
    page = tree.page().required().stdout.decode()
    assert "[`limit`](#limit), here `most`; [`most`](#most)." in page


@pytest.mark.parametrize(
    ("path", "old", "new", "place"),
    [
        pytest.param(
            "crates/low/specs/Sums.antt",
            "use Rattle.low.specs.Limits.{limit as most}",
            "use Rattle.low.specs.Limits",
            "crates/low/specs/Sums.antt:3",
            id="an import of another form",
        ),
        pytest.param(
            "crates/low/specs/Sums.antt",
            "{limit as most}",
            "{lowest as most}",
            "crates/low/specs/Sums.antt:3",
            id="an imported name that nothing defines",
        ),
        pytest.param(
            "crates/low/specs/Sums.antt",
            "abbrev pub Sums",
            "opaque pub Sums",
            "crates/low/specs/Sums.antt:15",
            id="a definition of an unknown kind",
        ),
        pytest.param(
            "crates/low/specs/Sums.antt",
            "abbrev pub idle",
            "abbrev pub Sums",
            "crates/low/specs/Sums.antt:19",
            id="two definitions of one name",
        ),
        pytest.param(
            "crates/low/src/pair.rt",
            "ghost Value = {",
            "ghost rank = {",
            "crates/low/src/pair.rt:15",
            id="a view with something unknown",
        ),
        pytest.param(
            "crates/low/src/pair.rt",
            "λ p. record",
            "λ p.\n        record",
            "crates/low/src/pair.rt:17",
            id="a view on several lines",
        ),
        pytest.param(
            "crates/low/src/pair.rt",
            "impl Model for Pair",
            "impl Model for Couple",
            "crates/low/src/pair.rt:12",
            id="a view of a type that isn't there",
        ),
        pytest.param(
            "crates/high/src/lib.rt",
            "pair: &Pair,",
            "pair: &Adds,",
            "crates/high/src/lib.rt:7",
            id="a trait in a signature",
        ),
        pytest.param(
            "crates/high/src/lib.rt",
            "pub extern",
            "pub unsafe extern",
            "crates/high/src/lib.rt:7",
            id="a call of another form",
        ),
        pytest.param(
            "crates/high/src/lib.rt",
            "\n{\n",
            " {\n",
            "crates/high/src/lib.rt:7",
            id="a call whose clauses don't end",
        ),
        pytest.param(
            "tools/specification.md",
            "Sums\nLimits",
            "Sums",
            "crates/low/specs/Limits.antt:4",
            id="a definition that the frame has no place for",
        ),
        pytest.param(
            "tools/specification.md",
            "Sums\nLimits",
            "Sums Limits Sums",
            "tools/specification.md:15",
            id="a module with two places",
        ),
        pytest.param(
            "tools/specification.md",
            "Sums\nLimits",
            "Sums Limits Limit",
            "tools/specification.md:15",
            id="a module that no crate has",
        ),
        pytest.param(
            "tools/specification.md",
            "{{calls extern}}",
            "{{calls pair::Pair::sum}}",
            "tools/specification.md:7",
            id="a call that no crate has",
        ),
        pytest.param(
            "tools/specification.md",
            "{{outside}}",
            "{{outside",
            "tools/specification.md:20",
            id="a place without an end",
        ),
        pytest.param(
            "tools/specification.md",
            "{{outside}}",
            "{{outsides}}",
            "tools/specification.md:20",
            id="a place of an unknown kind",
        ),
    ],
)
def test_a_source_that_the_page_cannot_show_is_an_error(
    tree: Tree, path: str, old: str, new: str, place: str
) -> None:
    tree.change(path, old, new)
    result = tree.page()
    assert (result.status, result.stdout) == (1, b""), result
    assert f" {place}: " in result.stderr.decode(), result

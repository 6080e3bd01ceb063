"""The public surface of the libraries beside docs/surface.txt and docs/planned_surface.txt, and how
both are read."""
from __future__ import annotations

import re
import sys
import tempfile
import unittest
from pathlib import Path

from tests import public_surface
from tests.rattle_items import Crate

ROOT = Path(__file__).resolve().parent.parent
sys.path.insert(0, str(ROOT / "scripts"))
from crates import named_libraries  # noqa: E402

ROOT_FILE = """\
//! A crate.
#![tactic(auto)]
mod parts; // pub use parts::hidden;
pub use parts::{Part, Sized, Which, join};
pub use bw_text::Line;
"""
PARTS = """\
/// A part { of a text.
#[derive(Clone, Drop)]
pub struct Part<'a> {
    /// Its text.
    pub text: &'a [u8],
    pub ghost short: { length text.now ≤ 9 },
    pub(crate) at: usize,
}

pub struct Hidden;

pub enum Which {
    One(u8, Vec<(u8, u8)>),
    #[error("}")]
    Two { left: u8, },
}

pub trait Sized {
    ghost size: { Self → ℕ };

    fn len(&self) -> usize
        ensures { result ≡ size self.now };
}

impl<'a> Part<'a> {
    pub const BRACKET: u8 = b'{';

    pub fn cut(&mut self, mut at: usize) -> [u8; 2]
        requires fits { at ≤ length
            self.now.text.now }
        ensures front { IsTrue (is_front result) }
        ensures { result ≡ result }
    {
        cut("}", at)
    }

    fn own(&self) {}
}

impl<T: Copy> Sized for Part<T> {
    fn len(&self) -> usize {
        0
    }
}

pub fn join<T: Sized>(
    left: &T,
    right: &[(Part<'_>, Vec<u8>)],
    with_a_name_that_makes_the_declaration_long: usize,
) -> u8 {
    0
}

#[cfg(test)]
mod tests {
    pub fn join() {}
}
"""
ITEMS = """\
fn join<T: Sized>(
      left: &T,
      right: &[(Part<'_>, Vec<u8>)],
      with_a_name_that_makes_the_declaration_long: usize,
    ) -> u8

use bw_text::Line

impl<T: Copy> Sized for Part<T>

struct Part<'a>
  derives Clone, Drop
  text: &'a [u8]
  ghost short: { length text.now ≤ 9 }
  private fields

const Part::BRACKET: u8 = b'{'

fn Part::cut(&mut self, at: usize) -> [u8; 2]
  requires fits { at ≤ length self.now.text.now }
  ensures front, _

trait Sized
  ghost size: { Self → ℕ }

fn Sized::len(&self) -> usize
  ensures _

enum Which
  One(u8, Vec<(u8, u8)>)
  Two { left: u8 }"""


class Tree(unittest.TestCase):
    """The lists beside the tree."""

    def test_items_are_listed(self) -> None:
        self.assertEqual(public_surface.compare_with_sources().wrong, [])

    def test_planned_items_are_listed(self) -> None:
        self.assertEqual(public_surface.compare_with_plan().wrong, [])


class Libraries(unittest.TestCase):
    """The kit's libraries."""

    def test_table_is_that_of_the_crates(self) -> None:
        """DECISIONS names each library of the kit, and the crates that use it."""
        text = (ROOT / "docs" / "DECISIONS.md").read_text(encoding="utf-8")
        section = text[text.index("## Libraries"):text.index("## Departures")]
        rows = {cells[1].strip("`"): cells[2] for line in section.split("\n")
                for cells in [line.split("|")] if len(cells) == 5}
        rows |= {name: users for name, users in re.findall(r"`(\w+)` \(([^)]*)\)", section)}
        told = {name: set(re.findall(r"`(\w+)`", users)) for name, users in rows.items()}
        named = named_libraries()
        used: dict[str, set[str]] = {}
        for crate, below in named.items():
            for name in set(below) - set(named):
                used.setdefault(name, set()).add(crate)
        self.assertEqual({name: users for name, users in told.items() if users}, used)


class Reading(unittest.TestCase):
    """How sources and lists are read."""

    def test_items_of_a_crate(self) -> None:
        with tempfile.TemporaryDirectory() as name:
            folder = Path(name) / "bw_parts" / "src"
            folder.mkdir(parents=True)
            (folder / "lib.rt").write_text(ROOT_FILE, encoding="utf-8")
            (folder / "parts.rt").write_text(PARTS, encoding="utf-8")
            items = Crate(folder.parent).public_items()
        self.assertEqual("\n\n".join("\n".join(item.lines()) for item in items), ITEMS)

    def test_part_that_is_planned(self) -> None:
        item = ("fn cut(\n      at: usize,\n    ) -> u8\n  requires a {\n      b }\n"
                "  ensures c,\n      d")
        self.assertEqual(public_surface.planned_part(item),
                         "fn cut(\n      at: usize,\n    ) -> u8\n  requires a {\n      b }")


if __name__ == "__main__":
    unittest.main()

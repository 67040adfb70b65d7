"""What `over_stubs.py` makes of a crate's text."""
import unittest

import over_stubs

LEMMAS = """-- what is known
use Rattle.std.proofs.Common.{ℕ}

abbrev pub twice : ℕ → ℕ
twice n = n + n

pub record Both : Type 0 where
  pub one : ℕ

pub law : (n : ℕ)
  → twice n ≡ n + n
unfolding twice
law zero = refl
law (suc n) =
  refl

module _ (n : ℕ) where
  inner : n ≡ n
  inner = refl

mutual
  even : ℕ → Bool
  even n = odd n

  odd : ℕ → Bool
  odd n = even n
"""
HOLES = """-- what is known
use Rattle.std.proofs.Common.{ℕ}

abbrev pub twice : ℕ → ℕ
twice n = n + n

pub record Both : Type 0 where
  pub one : ℕ

pub law : (n : ℕ)
  → twice n ≡ n + n
law = ?

module _ (n : ℕ) where
  inner : n ≡ n
  inner = ?

even : ℕ → Bool
even = ?

odd : ℕ → Bool
odd = ?
"""
CODE = """// A crate.
use crate::parts::{Part, parted, deep::{self, Deep}};
pub use crate::parts::Whole;

/// How many.
#[tactic(auto)]
pub fn count(part: &Part, text: [u8; 3]) -> usize
    requires few { part.now.{len} ≤ 3 }
    ensures { result ≡ 1 }
{
    let name = "} // {";
    if parted(part) { 1 } else { '}' as usize }
}

// Not for others.
#[cycle(round)]
fn own(part: &Part) -> bool {
    true
}

impl Shown for Part {
    fn show(&self) -> usize { deep::of(self) }
}

impl Part {
    fn own(&self) -> usize { 1 }

    pub(crate) fn near(&self) -> usize { 2 }

    pub fn far(&self) -> usize { 3 }
}
"""
BARE = """// A crate.
use crate::parts::Part;
pub use crate::parts::Whole;

/// How many.
#[tactic(auto)]
pub fn count(part: &Part, text: [u8; 3]) -> usize
    requires few { part.now.{len} ≤ 3 }
    ensures { result ≡ 1 }
{ unreachable!() }



impl Shown for Part {
    fn show(&self) -> usize { unreachable!() }
}

impl Part {




    pub fn far(&self) -> usize { unreachable!() }
}
"""

BLOCKS = """-- by one another
abbrev mutual
  deep : Form → Bool
  deep (Over x) = wide x

  wide : Form → Bool
  wide x = deep x

mutual
  data Inner : Type 0 where
    held : Outer → Inner

  data Outer : Type 0 where
    holds : Inner → Outer
"""


class Stubs(unittest.TestCase):
    def test_lemmas_keep_their_types_alone(self):
        self.assertEqual([it for it in over_stubs.with_holes(LEMMAS).split("\n") if it], [it for it in HOLES.split("\n") if it])

    def test_blocks_of_definitions_stay(self):
        self.assertEqual([it for it in over_stubs.with_holes(BLOCKS).split("\n") if it], [it for it in BLOCKS.split("\n") if it])

    def test_functions_keep_what_others_see(self):
        self.assertEqual([it for it in over_stubs.without_bodies(CODE).split("\n") if it], [it for it in BARE.split("\n") if it])


if __name__ == "__main__":
    unittest.main()

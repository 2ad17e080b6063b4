"""A small house of two crates that is made for each case, for the tests of what looks at the house."""
import os
import shutil
import subprocess
import sys
import tempfile
import unittest

sys.dont_write_bytecode = True
ROOT = os.path.dirname(os.path.dirname(os.path.realpath(__file__)))

PICTURE = "# Architecture\n\n### Base\n\n`low`\n\n### Tops\n\n`top`\n"
LOW_SPEC = """\
-- What is low.
use Rattle.std.specs.Prelude.{ℕ, List}

-- nothing is left
abbrev pub IsKept : List ℕ → Type 0
IsKept xs = Unit {0}

-- a deep thing
pub record IsDeep (xs : List ℕ) : Type 0 where
  pub kept : IsKept xs
  pub much : ℕ
"""
TOP_SPEC = """\
-- What is at the top.
use Rattle.std.specs.Prelude.{ℕ, List}
use Rattle.low.specs.Low.{IsDeep}

-- the whole is deep
abbrev pub IsWhole : List ℕ → Type 0
IsWhole xs = IsDeep xs
"""
TOP_SOURCE = """\
//! The top of a house of two crates.
ghost use Rattle.top.specs.Top.{IsWhole};

/// The whole.
pub fn whole(xs: &[u8])
    ensures deep { IsWhole xs.now }
{}
"""
# one statement, with its words from elsewhere and its names chosen in two ways
LOW_LEMMA = """\
-- What is kept.
use Rattle.std.proofs.Common.{ℕ, List, ◌≡◌}
use Rattle.low.specs.Low as low

pub kept : (xs : List ℕ) {n m : ℕ} → low.IsKept xs → n ≡ m → low.IsKept xs
kept = kept
"""
TOP_LEMMA = """\
-- What is kept of it.
use Rattle.std.specs.Prelude.{ℕ, List, ◌≡◌}
use Rattle.low.specs.Low.{IsKept}

module _ (unused : ℕ) (ys : List ℕ) where
  left : (a : ℕ) (b : ℕ) → IsKept ys → a ≡ b
      → IsKept ys
  left = left
"""
WORK_SOURCE = """\
//! The work of the house.

/// Does the work.
pub fn do_work<W: Work>(work: &W)
    ensures took { W.due work.now }
    ensures other { W.other work.now }
{}
"""
WORDS_SOURCE = """\
ghost use Rattle.low.specs.Low.{IsKept};
ghost use Rattle.top.specs.Top.{IsWhole};

impl Work for TopWords {
    ghost due = { λ w. IsWhole w.xs };

    ghost other = { λ w. IsKept w.xs };

    fn make(&self) {}
}
"""
# what is public of it: a law, a method and a member of a trait, but neither what is hidden nor what another type has
PASSED_SOURCE = """\
//! What is passed on.
mod part;

pub use part::{Box, a_law};
"""
PART_SOURCE = """\
/// A law of `|`. It has more to say.
pub fn a_law(
    n: u8,
)
    requires small { n ≤ 3 }
    ensures first { IsLow n }
    ensures { let xs = n in
        IsHigh xs }
{
    more();
}

/// Nobody sees it.
pub fn more()
    ensures hidden { IsLow }
{}

impl Box {
    /// Opens it.
    #[inline]
    pub fn open(&self) -> u8
        ensures { IsOpen }
        ensures { IsBox }
    {
        0
    }

    fn close(&self)
        ensures closed { IsClosed }
    {}
}

impl Shown for Box {
    ghost shown = { λ b. b };

    fn show(&self)
        ensures told { IsTold }
    {}
}

impl Other {
    pub fn other()
        ensures other { IsOther }
    {}
}
"""


class Case(unittest.TestCase):
    """A house of two crates, `low` and `top`, with copies of the scripts."""

    def setUp(self) -> None:
        self.room = tempfile.mkdtemp(prefix="house-")
        for script in ("checks/house", "checks/house_lemmas.py", "house/house_crates.py", "house/above", "house/map", "house/promises", "house/reading", "house/words"):
            self.write(script, "")
            shutil.copy(os.path.join(ROOT, script), os.path.join(self.room, script))
        self.write("crates.txt", "# Base\nlow:\n\n# Tops\ntop: low\n")
        self.write("crates/low/src/lib.rt", "//! What is low.\npub mod low;\n")
        self.write("crates/low/specs/Low.antt", LOW_SPEC)
        self.write("crates/low/specs/Lib.antt", "pub mod Low\n")
        self.write("crates/top/src/lib.rt", TOP_SOURCE)
        self.write("crates/top/specs/Top.antt", TOP_SPEC)
        self.write("crates/top/specs/Lib.antt", "pub mod Top\n")
        self.write("docs/ARCHITECTURE.md", PICTURE)
        for page in ("README.md", "CHANGELOG.md", "CONTRIBUTING.md", "docs/PROOF.md"):
            self.write(page, "nothing\n")

    def tearDown(self) -> None:
        shutil.rmtree(self.room)

    def write(self, name: str, text: str) -> None:
        file = os.path.join(self.room, name)
        os.makedirs(os.path.dirname(file), exist_ok=True)
        with open(file, "w", encoding="utf-8") as it:
            it.write(text)

    def read(self, name: str) -> str:
        with open(os.path.join(self.room, name), encoding="utf-8") as it:
            return it.read()

    def call(self, *words: str) -> "subprocess.CompletedProcess[str]":
        return subprocess.run([sys.executable, os.path.join(self.room, words[0]), *words[1:]], stdout=subprocess.PIPE, stderr=subprocess.PIPE,
                              universal_newlines=True, encoding="utf-8", check=False)

    def told(self, line: str) -> None:
        """The house has this new, and nothing else."""
        ran = self.call("checks/house")
        self.assertEqual((ran.stdout.splitlines()[:-1], ran.returncode), ([line], 1), ran.stderr)

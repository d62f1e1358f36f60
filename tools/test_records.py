"""Which records of mutants a change makes stale, and what counts as a refusal: python3 -m tools.test_records

Two small crates stand in for the repository, and each row changes one text in them. What the prover said stands in other rows.
"""

import pathlib
import sys
import tempfile

from tools import mutants, records
from tools.repository import Counts

FILES = {
    "crates.txt": "low:\nhigh: low\n",
    "crates/low/specs/Lib.antt": "pub mod Halves\npub mod Common\n",
    "crates/low/specs/Common.antt": "pub use Rattle.low.specs.Halves.{IsHalf as IsHalved}\n",
    "crates/low/specs/Halves.antt": """-- Halves and doubles.
use Rattle.std.specs.Prelude.{◌≡◌, ℕ}

module _ {K : Type 0}
    (order : K → K) where
  -- twice the number
  abbrev pub doubled : ℕ → ℕ
  doubled n = n + n

  abbrev pub IsHalf : ℕ → ℕ → Type 0
  IsHalf n m = doubled m ≡ n

  abbrev pub IsQuarter : ℕ → ℕ → Type 0
  IsQuarter n m = doubled (doubled m) ≡ n

  pub halves_are_less : (n m : ℕ) → IsHalf n m → m ≤ n
  halves_are_less n m h = grind arith

abbrev pub IsUncited : ℕ → Type 0
IsUncited n = n ≡ 0
""",
    "crates/low/src/lib.rt": """//! Numbers and stores.
ghost use Rattle.low.specs.Common.{IsHalved};
ghost use Rattle.low.specs.Halves.{IsUncited};

/// A store.
pub trait Store: Drop {
    ghost size: { Self → ℕ };

    /// How many there are.
    fn len(&self) -> usize
        ensures { result ≡ size self.now };

    fn is_empty(&self) -> bool
        ensures { IsTrue result ↔ size self.now ≡ 0 }
    {
        self.len() == 0
    }

    fn uncited(&self) -> usize
        ensures { IsUncited result };

    ghost fits: { (s : Self) → size s < 2 ^ 64 };
}

/// A number below a limit.
#[derive(Drop)]
pub struct Small {
    number: usize,
}

impl Model for Small {
    ghost Value = { ℕ };

    ghost view = { λ s. s.number };

    ghost invariant = { λ s. s.number < 10 };
}

impl PartialEq for Small {
    ghost eq = { λ a b. a == b };

    fn eq(&self, other: &Small) -> bool {
        self.number == other.number
    }
}

impl Ord for Small {
    ghost cmp = { λ a b. nat_cmp a b };
}

impl Small {
    pub fn new() -> Self
        ensures { result ≡ 0 }
    {
        Small { number: 0 }
    }

    pub fn len(&self) -> usize
        ensures number { result ≡ self.now }
    {
        self.number
    }
}

/// A store of nothing.
#[derive(Drop)]
pub struct Empty {
    kept: usize,
}

impl Store for Empty {
    ghost size = { λ s. s.kept };

    fn len(&self) -> usize {
        self.kept
    }

    fn uncited(&self) -> usize {
        0
    }

    ghost fits = { λ s. s.kept };
}

/// Half of the number.
pub fn halve(n: usize) -> usize
    ensures { IsHalved n result }
{
    // the whole of it
    n / 2
}

pub fn other(n: usize) -> usize
    ensures { IsUncited result }
{
    0
}
""",
    "crates/low/mutants/numbers.edit": """file: src/lib.rt
old:     n / 2
new:     n / 3
old:         self.len() == 0
new:         self.len() == 1
old:         self.kept
new:         self.kept / 2
""",
    "crates/high/src/lib.rt": """//! What stands on it.
ghost use Rattle.low.specs.Halves.{IsQuarter};

use low::{Small, Store, halve};

pub fn quarter(n: usize) -> usize
    ensures { IsQuarter n result }
{
    halve(halve(n))
}

pub fn count<S: Store>(stored: &S) -> usize
    ensures { result ≡ S.size stored.now }
{
    stored.len()
}

pub fn same(a: &Small, b: &Small) -> bool
    ensures { result ≡ true }
{
    a == b
}

pub fn made() -> Small
    ensures { result ≡ 0 }
{
    Small::new()
}

pub fn ordered(mut list: Vec<Small>) -> Vec<Small>
    ensures { result ≡ list }
{
    list.sort();
    list
}

pub fn alone(given: usize) -> usize
    ensures { result ≡ given }
{
    given
}
""",
    "crates/high/proofs/quarter/Answers.antt": "abbrev pub returns : goal.returns\nreturns g = grind arith\n",
    "crates/high/proofs/Facts.antt": "pub fact : 0 ≤ 1\nfact = grind arith\n",
    "crates/high/mutants/answers.edit": """file: src/lib.rt
old:     halve(halve(n))
new:     halve(n)
old:     stored.len()
new:     stored.len() / 2
old:     a == b
new:     a == a
old:     Small::new()
new:     { let made = Small::new(); made }
old:     list.sort();
new:     list.clear();
old:     given
new:     given / 2
""",
}
EVERY = {"halve", "is_empty", "len", "quarter", "count", "same", "made", "ordered", "alone"}
LOW, HALVES, HIGH = "crates/low/src/lib.rt", "crates/low/specs/Halves.antt", "crates/high/src/lib.rt"
# What is changed, in which file, from what to what, and which records that makes stale.
CHANGES = [
    ("nothing", LOW, "", "", ""),
    ("the body of a function below", LOW, "    n / 2", "    let n = n;\n    n / 2", "halve"),
    ("a comment and a doc comment", LOW, "// the whole of it", "// half of it", ""),
    ("the layout", LOW, "    n / 2", "\n    n / 2", ""),
    ("the clause of a call", LOW, "{ IsHalved n result }", "{ 0 ≤ n → IsHalved n result }", "halve quarter"),
    ("the clause of no call", LOW, "ensures { IsUncited result }\n{", "ensures { result ≡ 0 }\n{", ""),
    ("a definition", HALVES, "doubled m ≡ n", "n ≡ doubled m", "halve quarter"),
    ("a definition cited two steps down", HALVES, "= n + n", "= 2 * n", "halve quarter"),
    ("what a definition's module takes", HALVES, "(order : K → K)", "(order : K → K → K)", "halve quarter"),
    ("a definition that no mutated function cites", HALVES, "n ≡ 0", "0 ≡ n", ""),
    ("a lemma's statement among definitions", HALVES, "→ m ≤ n", "→ n ≥ m", ""),
    ("a trait's law", LOW, "size s < 2 ^ 64", "size s < 2 ^ 63", "is_empty count len"),
    ("a default body", LOW, "        self.len() == 0", "        let _n = 0;\n        self.len() == 0", "is_empty"),
    ("the contract of a trait's method that is called", LOW, "{ result ≡ size self.now };", "{ size self.now ≡ result };", "is_empty count len"),
    ("what a trait's value is for a type", LOW, "size = { λ s. s.kept }", "size = { λ s. s.kept + 0 }", "len"),
    ("the contract of one that is not", LOW, "ensures { IsUncited result };", "ensures { result ≡ 0 };", ""),
    ("a method of this name that a function has no value of", LOW, "number { result ≡ self.now }", "number { self.now ≡ result }", ""),
    ("a type's invariant", LOW, "s.number < 10", "s.number < 9", "same made ordered"),
    ("what an operator means", LOW, "λ a b. a == b }", "λ a b. b == a }", "same"),
    ("what a call of std goes by", LOW, "nat_cmp a b", "nat_cmp b a", "ordered"),
    ("a private field", LOW, "    number: usize,\n}", "    number: usize,\n    more: usize,\n}", ""),
    ("a public field", LOW, "    number: usize,\n}", "    number: usize,\n    pub more: usize,\n}", "same made ordered"),
    ("a private field of a type in its own crate", LOW, "    kept: usize,\n}", "    kept: usize,\n    more: usize,\n}", "len"),
    ("what std derives", LOW, "#[derive(Drop)]\npub struct Small", "#[derive(Drop, Clone)]\npub struct Small", "same made ordered"),
    ("the clause of an associated function", LOW, "    ensures { result ≡ 0 }\n    {", "    ensures { 0 ≡ result }\n    {", "made"),
    ("the body of a mutated function", HIGH, "    given\n}", "    let _n = 0;\n    given\n}", "alone"),
    ("its clause", HIGH, "{ result ≡ given }", "{ given ≡ result }", "alone"),
    ("its proof", "crates/high/proofs/quarter/Answers.antt", "grind arith", "omega arith", "quarter"),
    ("a lemma", "crates/high/proofs/Facts.antt", "grind arith", "omega arith", ""),
    ("a mutant", "crates/high/mutants/answers.edit", "halve(n)\nold:     stored", "n\nold:     stored", "quarter"),
]

PART_PAST = mutants.Function("src/merged.rt", "part_past", "", 100, 120)
# A line of the prover, and where the function is refused by it, or which answer cannot be read.
LINES = [
    ("note: src/merged.rt:111:1: it is not proved that what the function ensures holds when it returns (`returns`); `search` gave up", "returns", ""),
    ("./proofs/merged/part_past/Answers.antt:18:3: error: `returns`: the type of this term is not the goal", "returns", ""),
    ("./proofs/merged/part_past/Answers.antt:12:11: error: `returns`: record `Past-start2` has no field `flip`", "", "returns"),
    ("./proofs/merged/part_past/Answers.antt:12:11: error: `taken`: `flip` is not in scope", "", "taken"),
    ("./proofs/merged/other/Answers.antt:18:3: error: `returns`: the type of this term is not the goal", "", ""),
    ("src/merged.rt:99:1: error: `returns` is false", "", ""),
]


def sums(files):
    """Returns the sum of each mutant of such crates by the name of its function."""
    with tempfile.TemporaryDirectory() as room:
        top = pathlib.Path(room)
        for path, text in files.items():
            (top / path).parent.mkdir(parents=True, exist_ok=True)
            (top / path).write_text(text)
        sources = records.Sources(top)
        found = [it for name in ("low", "high") for it in mutants.mutants_of(top / "crates" / name, sources)]
        return {it.function.name: it.sum for it in found}


def main():
    before, failed = sums(FILES), 0
    if before.keys() != EVERY:
        sys.exit(f"mutants: {sorted(before)}")
    for what, file, old, new, stale in CHANGES:
        edits = {file: FILES[file].replace(old, new, 1)}
        if old and FILES[file].count(old) == 0:
            sys.exit(f"{what}: does not stand in {file}")
        after = sums(FILES | edits)
        found = {name for name in EVERY if after.get(name) != before[name]}
        if found != {*stale.split()}:
            failed += 1
            print(f"{what}: makes stale {sorted(found)}, and not {sorted(stale.split())}")
    for line, goal, answer in LINES:
        goals, unread = mutants.refused(line, [PART_PAST])
        if [*goals[PART_PAST]] != goal.split() or [*unread[PART_PAST].values()] != answer.split():
            failed += 1
            print(f"{line}: refuses at {[*goals[PART_PAST]]}, and cannot read {unread[PART_PAST]}")
    print(Counts(len(CHANGES) + len(LINES) - failed, failed))
    return int(failed > 0)


if __name__ == "__main__":
    sys.exit(main())

"""The texts that the tools make: functions with changed copies beside them, and proofs with holes."""

import os
import sys
from pathlib import Path

sys.path.insert(0, os.path.join(os.path.dirname(os.path.abspath(__file__)), "..", "tools"))
from edits import CRATES, all_mutants  # noqa: E402
from holes import functions_of, modules_of, with_holes  # noqa: E402
from switch import place_of, switched  # noqa: E402

CODE = """const STEP: u32 = 3;

impl<S> Pen<S> {
    #[inline]
    pub fn width(&self, mut least: u32) -> u32
        ensures { least ≤ result }
    {
        self.width.max(least)
    }
}

impl<S: Drop> Draw<u8> for Pen<S> {
    fn draw(
        &mut self,
        (x, _): (u32, u32),
    ) {
        self.go(x);
    }

    fn lift(self) -> S {
        self.rest
    }
}

fn sum<T: Add, 'a, const N: usize>(list: &'a [T; N], from: T) -> T {
    list.iter().sum(from)
}
"""

BESIDE = """const STEP: u32 = 3;

impl<S> Pen<S> {
    #[inline]
    pub fn width(&self, mut least: u32) -> u32
        ensures { least ≤ result }
    {
        match mutant_choice::chosen_mutant() {
            1 => return Self::width_1(self, least),
            4 => return Self::width_4(self, least),
            _ => {}
        }
        self.width.max(least)
    }

    #[inline]
    pub fn width_1(&self, mut least: u32) -> u32
        ensures { least ≤ result }
    {
        self.width.min(least)
    }

    #[inline]
    pub fn width_4(&self, mut least: u32) -> u32
        ensures { least ≤ result }
    {
        self.height.max(least)
    }
}

impl<S: Drop> Draw<u8> for Pen<S> {
    fn draw(
        &mut self,
        (x, _): (u32, u32),
    ) {
        self.go(x);
    }

    fn lift(self) -> S {
        match mutant_choice::chosen_mutant() {
            2 => return Self::lift_2(self),
            _ => {}
        }
        self.rest
    }
}

impl<S: Drop> Pen<S> {
    fn lift_2(self) -> S {
        self.first
    }
}

fn sum<T: Add, 'a, const N: usize>(list: &'a [T; N], from: T) -> T {
    match mutant_choice::chosen_mutant() {
        3 => return sum_3::<T, N>(list, from),
        _ => {}
    }
    list.iter().sum(from)
}

fn sum_3<T: Add, 'a, const N: usize>(list: &'a [T; N], from: T) -> T {
    list.iter().product(from)
}
"""

PROOFS = """-- lemmas
use Rattle.std.proofs.Common.{◌≡◌}

abbrev twice : ℕ → ℕ
twice n = n + n

pub even : (n : ℕ)
    → IsEven (twice n)
even zero = refl

even (suc n) = elim (even n) [
  | inl a ↦ a
]

-- a lemma that another proof unfolds
half : ℕ → ℕ
half n = n

half_small : half 3 ≡ 3
unfolding half
half_small = refl
"""

HOLES = """-- lemmas
use Rattle.std.proofs.Common.{◌≡◌}

abbrev twice : ℕ → ℕ
twice n = n + n

pub even : (n : ℕ)
    → IsEven (twice n)
even = ?

-- a lemma that another proof unfolds
half : ℕ → ℕ
half n = n

half_small : half 3 ≡ 3
half_small = ?
"""


def test_copies_of_functions():
    mutants = {
        1: [("width.max", "width.min")],
        2: [("self.rest", "self.first")],
        3: [(".sum(", ".product(")],
        4: [("self.width", "self.height")],
    }
    assert switched(CODE, mutants) == BESIDE


def test_edits_that_no_copy_can_have():
    assert place_of(CODE, [("STEP: u32 = 3", "STEP: u32 = 4")]) is None
    assert place_of(CODE, [("self.width", "self.height"), ("self.rest", "self.first")]) is None
    # an argument of a call of the copy would have no name
    assert place_of(CODE, [("self.go(x)", "self.go(x + 1)")]) is None


def test_holes():
    assert with_holes(PROOFS, {"half"}) == HOLES


def test_functions_of_mutants():
    paths = {}
    for crate in {name.split("/")[0] for name in all_mutants()}:
        for module, path, function in functions_of(modules_of(os.path.join(CRATES, crate))):
            paths[crate, "/".join(module or ("lib",)), function.head] = "::".join(path)
    for name, mutant in all_mutants().items():
        crate, (file, *more) = name.split("/")[0], {it[0] for it in mutant.edit}
        text = Path(CRATES, crate, file).read_text(encoding="utf-8")
        place = None if more else place_of(text, [it[1:] for it in mutant.edit])
        path = place and paths.get((crate, file[len("src/") : -len(".rt")], place.head))
        assert path in (None, mutant.function), name

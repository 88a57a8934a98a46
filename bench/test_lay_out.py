"""Tests of `bench/lay_out.py`: each layout is found from the same words in one line, and stays as
it is when it is laid out again. Unproved."""
from __future__ import annotations

import sys
import unittest

import breaks
import lay_out

SIGNATURE = """
pub merged : (parents later : List ℕ) (u v : ℕ)
    → u < length parents
    → (k : ℕ) → k < length later
    → ((w : ℕ) → w < length parents → get_or later w 0 ≡ get_or parents w 0)
    → root_of later u ≡ root_of later v
"""

CALL = """
joined u v w h = subst (λ (z : ℕ). IsJoined first_label second_label set (name u) (name z)) w
    (joined_on first_label second_label set (first u) (second v) (name w)
    (joined_edge first_label second_label set k on) (contract_walk set walk (second v) w h.1))
"""

CHAIN = """
  total_same a b (suc n) same =
      ap (λ (z : ℕ). bit_xor z (v g)) (total_in (minus a g) n (same ∙ here))
      ∙ (xor_last (total v (minus a g) n) (v n) (v g) ∙ ap (λ z. bit_xor z (v n)) rest)
      ∙ sym (total_in a n here)
"""

LETS = """
label_of g k on =
    let low : k < suc (edge_count g) = within k on in
    let ends = ends_in_range g k h (omega arith) in
    omega (arith, ends.0, ends.1, label_below (first_end_of g k) (second_end_of g k))
"""

CASES = """
  out b y x d = elim (plus_cases (minus b y) x y (outside_of (graph_matroid g x x).spans b y h)) [
    | inl k ↦ (minus_parts b y y k).1 refl
    | inr e ↦ record {
      apart = d e;
      within = λ z h. plus_old (minus b y) x z (inside_of (graph_matroid g x x).spans b z h);
      others = λ z h k. both_ways _ (outside_of (graph_matroid g x x).spans b y h) (not_from k);
    }
  ]
"""

TUPLE = """
ends_of g k = (
  subst (λ (n : ℕ). n < length (lines_of g)) (first_end_is g k) (within_lines g k (omega arith)),
  subst (λ (n : ℕ). n < length (lines_of g)) (second_end_is g k) (within_lines g k refl),
)
"""

CODE = '''
/// Makes one move of the player where it is to move, and returns it. None comes exactly if the game
/// is over, or:
///
/// - the other side is to move, and then nothing changes, whatever the game is and whoever has the
///   right to move next;
/// - nothing is left.
pub fn answer(&mut self, v: usize) -> Result<Option<usize>, Fault>
    requires within { v < length self.old.cells }
    ensures answered { IfOk result
        (λ move. IsAnswer self.old.game self.old.position self.new.position v move) }
    ensures refused { result ≡ Err Fault.Memory
        → self.new ≡ record self.old { position = self.old.position; judge = judge_of v } }
{
    let text = "a line of code is left as it is";
}
'''


def in_lines(text: str, proofs: bool = True) -> str:
    """Returns the text laid out."""
    return lay_out.new_text(text, proofs, [])[0]


def in_one_line(text: str) -> str:
    """Returns a declaration in one line, without what only blocks over several lines have."""
    line = text.lstrip("\n")
    column = len(line) - len(line.lstrip())
    line = " ".join(line.split()).replace("[ | ", "[ ").replace("; }", " }")
    return " " * column + line.replace("( ", "(").replace(", )", ")") + "\n"


class LayOut(unittest.TestCase):
    """What breaks where."""

    def test_declarations(self) -> None:
        """A declaration in one line breaks as it does above."""
        for text in (SIGNATURE, CALL, CHAIN, LETS, CASES, TUPLE):
            with self.subTest(text=text.split()[0]):
                self.assertEqual("\n" + in_lines(in_one_line(text)), text)

    def test_again(self) -> None:
        """What is laid out stays."""
        for text in (SIGNATURE, CALL, CHAIN, LETS, CASES, TUPLE):
            with self.subTest(text=text.split()[0]):
                self.assertEqual(in_lines(text), text)
        self.assertEqual(in_lines(CODE, proofs=False), CODE)

    def test_code(self) -> None:
        """Clauses and comments are laid out, and nothing else of code."""
        wide = CODE.replace("result\n        (λ", "result (λ")
        wide = wide.replace("Memory\n        →", "Memory →")
        wide = wide.replace("if the game\n/// is", "if the game is")
        wide = wide.replace("has the\n///   right", "has the right")
        self.assertEqual(wide.count("\n"), CODE.count("\n") - 4)
        self.assertEqual(in_lines(wide, proofs=False), CODE)

    def test_held(self) -> None:
        """What an edit looks for stays in one line."""
        held = "IfOk result (λ move. IsAnswer self.old.game"
        wide = CODE.replace("result\n        (λ", "result (λ")
        text, left = lay_out.new_text(wide, False, [held])
        self.assertIn(held, text)
        self.assertEqual(left, [])

    def test_meaning(self) -> None:
        """Other words aren't the same."""
        for other in ("f a (b c)", "f a b c d", "f a bc", "f (a b c)"):
            self.assertNotEqual(breaks.meaning("f a b c"), breaks.meaning(other))


if __name__ == "__main__":
    sys.setrecursionlimit(10_000)
    unittest.main()

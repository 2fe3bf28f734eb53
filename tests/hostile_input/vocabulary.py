"""The signs, names, numbers and texts of which lines are made, and the sheet in which they stand."""

from __future__ import annotations

SCALAR = list("+-×÷*|⌈⌊<≤=≥>≠∧∨⍲⍱")
ONE = list("+-×÷|⌈⌊~⍴,⍉⍳⌽⊖")
TWO = SCALAR + list("⍴,⍪↑↓⌽⊖⍉/⌿⍳∊⊤⊥")
FOLDS = list("/⌿\\⍀")
NAMES = list("ABCDEMTX")
COMMANDS = [")DATA", ")ROW", ")ERASE", ")NAMES", ")COST", ")CSV", ")OPEN", ")STEP", ")COMMIT", ")DROP"]
NUMBERS = "0 1 2 3 4 5 7 9 ¯1 ¯2 12 64 255 9223372036854775807 ¯9223372036854775808 9223372036854775808 4294967296 1048577".split()
TEXTS = ["''", "'a'", "'it''s'", "'⍳ é'", "'abc'"]
SIGNS = [*dict.fromkeys(SCALAR + ONE + TWO + FOLDS), *"∘.←()[];¯⍝'∆⍙_ \t", "⋆", "∣", "∼", "^", "∈"]
KNOWN = set("".join(SIGNS) + "ABCDEFGHIJKLMNOPQRSTUVWXYZabcdefghijklmnopqrstuvwxyz0123456789")

# The lines with which the sheets of random lines and formulas begin.
START = ")DATA A←1 2 3\n)DATA M←2 3⍴⍳6\n)DATA C←'abc'\n)DATA X←5\nB←A×2\nT←+/M\nD←C,'d'\n"

// The symbols in groups, each with its effect. The server sends their keys.

export const GROUPS = [
  ["← bind, or edit a cell", "¯ negative number", "⍝ comment"],
  ["× sign / times", "÷ reciprocal / divide", "⌈ ceiling / maximum", "⌊ floor / minimum", "| magnitude / residue", "* power"],
  ["≤ not greater", "≥ not less", "≠ not equal", "∧ and", "∨ or", "⍲ nand", "⍱ nor", "~ not"],
  ["⍴ shape / reshape", "⍳ first numbers / index of", "∊ is in", "↑ take", "↓ drop", "⍪ join rows"],
  ["⌽ reverse / rotate", "⊖ reverse / rotate rows", "⍉ transpose"],
  ["⌿ along the first axis", "⍀ running, along the first axis", "∘ table: ∘.×", "⊤ encode", "⊥ decode"],
].map((group) => group.map((text) => ({ symbol: text[0], effect: text.slice(2) })));

"""Translates proofs of solvers into Eunoia: terms that share parts, their text, and the steps of rules."""

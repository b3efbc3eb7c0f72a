#!/usr/bin/env python3
"""Writes crates/aspif/proofs/Samples.antt: texts of document 01 and orders 1 and 2 with the answers that they give, proved by computation."""
import os
H = "asp 1 0 0\n"
PLAN = H + "1 1 2 1 2 0 0\n1 0 1 3 0 2 1 2\n1 0 0 0 2 -1 -2\n2 1 2 1 2 2 3\n4 1 a 1 1\n4 1 b 1 2\n0\n"
# both edges of a weight's range, a weight just below zero, and opposite signs on one literal
REWARDS = H + "2 0 5 1 -1000000 -2 1000000 1 -1 1 1 3 0\n0\n"
REWARD_ENTRIES = "".join(f"record {{ priority = pos 0; literal = {z}; weight = {w} }} ∷ " for z, w in [
    ("pos 1", "negsuc 999999"), ("negsuc 1", "pos 1000000"), ("pos 1", "negsuc 0"), ("pos 1", "pos 1"), ("pos 3", "pos 0")]) + "[]"
# order 2: a weighted body, both edges of its ranges, one atom with both signs, none
WEIGHTED = H + "1 1 3 1 2 3 0 0\n1 0 0 1 5 3 1 2 2 3 3 4\n2 0 3 -1 2 -2 3 -3 4\n0\n"
EDGES = H + "1 0 1 1 1 1000000000 3 2 1000000 -2 0 2 1\n1 1 0 1 0 0\n0\n"

def weighed(pairs):
    return "".join(f"record {{ literal = {z}; weight = {w} }} ∷ " for z, w in pairs) + "[]"
CASES = [
    ("no text", "", (1, 1)),
    ("line 1 without its byte 10", "asp 1 0 0", (2, 1)),
    ("line 1 differs", "asp 1 0 1\n0\n", (1, 1)),
    ("no `0` line: at the line after the last", H, (2, 2)),
    ("the `0` line without its byte 10", H + "0", (2, 2)),
    ("after the `0` line: at the next line", H + "0\n\n", (2, 3)),
    ("`01` is 2", H + "1 0 1 01 0 0\n0\n", (2, 2)),
    ("a field is judged whole", H + "3x\n0\n", (2, 2)),
    ("kind 3, the rest isn't read", H + "3 01", (3, 2)),
    ("kind 11", H + "11\n0\n", (4, 2)),
    ("h = 0 with m = 2", H + "1 0 2 1", (3, 2)),
    ("h = 0 with m = 1,025: range before accepted part", H + "1 0 1025", (4, 2)),
    ("b = 1 and no bound", H + "1 0 0 1", (2, 2)),
    ("b = 2", H + "1 0 0 2 5 0\n0\n", (4, 2)),
    ("bound 1,000,000,001", H + "1 0 0 1 1000000001 0\n0\n", (4, 2)),
    ("bound 99,999,999,999", H + "1 0 0 1 99999999999 0\n0\n", (4, 2)),
    ("a bound with a minus", H + "1 0 0 1 -1 0\n0\n", (2, 2)),
    ("a count of pairs of a body with a minus", H + "1 0 0 1 5 -1\n0\n", (2, 2)),
    ("1,025 pairs", H + "1 0 0 1 5 1025", (4, 2)),
    ("a pair's literal 0", H + "1 0 0 1 5 1 0 1\n0\n", (4, 2)),
    ("a pair's weight 1,000,001", H + "1 0 0 1 5 1 1 1000001\n0\n", (4, 2)),
    ("a pair's weight with a minus", H + "1 0 0 1 5 1 1 -1\n0\n", (2, 2)),
    ("a pair's weight -0", H + "1 0 0 1 5 1 1 -0\n0\n", (2, 2)),
    ("a pair without its weight", H + "1 0 0 1 5 1 1\n0\n", (2, 2)),
    ("atom 1,025 is 4", H + "1 0 1 1025 0 0\n0\n", (4, 2)),
    ("literal 0", H + "1 0 0 0 1 0\n0\n", (4, 2)),
    ("literal -0", H + "1 0 0 0 1 -0\n0\n", (2, 2)),
    ("an atom with a minus", H + "1 0 1 -1 0 0\n0\n", (2, 2)),
    ("a space at the end", H + "1 0 0 0 0 \n0\n", (2, 2)),
    ("priority -1,001", H + "2 -1001 0\n0\n", (4, 2)),
    ("weight 1,000,001", H + "2 0 1 1 1000001\n0\n", (4, 2)),
    ("weight -1,000,001", H + "2 0 1 1 -1000001\n0\n", (4, 2)),
    ("weight -0", H + "2 0 1 1 -0\n0\n", (2, 2)),
    ("weight -01", H + "2 0 1 1 -01\n0\n", (2, 2)),
    ("a minus and no weight", H + "2 0 1 1 -\n0\n", (2, 2)),
    ("a count of pairs with a minus", H + "2 0 -1 1 5\n0\n", (2, 2)),
    ("a name byte 127", H + "4 1 \x7f 0\n0\n", (2, 2)),
    ("a 65-byte name is 4", H + "4 65 " + "n" * 65 + " 0\n0\n", (4, 2)),
    ("nine priorities are 5", H + "".join(f"2 {q} 0\n" for q in range(9)) + "0\n", (5, 10)),
]

def lits(text):
    return "".join(f"{ord(c)} ∷ " for c in text) + "[]"

OPEN = "unfolding text_of pieces same_bytes lines stepped_line statement token number digits decimal natural signed_token signed atom literal more opening normal_body weighed_field weighted_body body_field rule_line pair minimise_line symbol_line of_kind fits sum insert"
out = ["-- Texts of document 01 and orders 1 and 2 with the answers that they give, each by computation. Written by tests/aspif_samples.py. Assumes nothing.",
       "use mathlib.Core.Path.{◌≡◌, refl}",
       "use mathlib.Core.List.{List, [], ◌∷◌, map}",
       "use Prim.Native.Nat.{ℕ}",
       "use lib.IntN.{pos, negsuc}",
       "use Rattle.asp.specs.Program.{normal, weighted, constraint, plain, choice, Program}",
       "use Rattle.aspif_fields.specs.Fields.{token, number, digits, decimal, natural, signed_token, signed, atom, literal, opening, weighed_field, pair}",
       "use Rattle.aspif_lines.specs.Text.{text_of, pieces, same_bytes, lines, stepped_line, statement, more, normal_body, weighted_body, body_field, rule_line, minimise_line, symbol_line, of_kind, fits, sum, insert, accepted, refused}",
       "",
       "-- ---- `plan.aspif`", "",
       "abbrev pub plan : List ℕ", "plan = " + lits(PLAN), "",
       "abbrev pub plan_program : Program",
       "plan_program =",
       "    record {",
       "      rules =",
       "          record { head = choice (1 ∷ 2 ∷ []); body = normal [] }",
       "          ∷ record { head = plain 3; body = normal (pos 1 ∷ pos 2 ∷ []) }",
       "          ∷ record { head = constraint; body = normal (negsuc 0 ∷ negsuc 1 ∷ []) }",
       "          ∷ [];",
       "      priorities = pos 1 ∷ [];",
       "      entries = record { priority = pos 1; literal = pos 1; weight = pos 2 } ∷ record { priority = pos 1; literal = pos 2; weight = pos 3 } ∷ [];",
       "      symbols = record { name = 97 ∷ []; condition = pos 1 ∷ [] } ∷ record { name = 98 ∷ []; condition = pos 2 ∷ [] } ∷ [];",
       "    }", "",
       "pub plan_reads : text_of plan ≡ accepted plan_program plan", OPEN, "plan_reads = refl", "",
       "-- with a comment before its first statement it is stored without it", "",
       "pub plan_remarked : text_of (" + lits(PLAN.replace(H, H + "10 x\n")) + ") ≡ accepted plan_program plan", OPEN, "plan_remarked = refl", "",
       "-- ---- priorities, highest first, each once", "",
       "pub levels_sorted : text_of (" + lits(H + "2 -3 0\n2 7 0\n2 0 0\n2 7 0\n0\n") + ") ≡ accepted (record { rules = []; priorities = pos 7 ∷ pos 0 ∷ negsuc 2 ∷ []; entries = []; symbols = [] }) (" + lits(H + "2 -3 0\n2 7 0\n2 0 0\n2 7 0\n0\n") + ")", OPEN, "levels_sorted = refl", "",
       "-- ---- order 1: weights below zero, which write-out gives back", "",
       "pub rewards_read : text_of (" + lits(REWARDS) + ") ≡ accepted (record { rules = []; priorities = pos 0 ∷ []; entries = " + REWARD_ENTRIES + "; symbols = [] }) (" + lits(REWARDS) + ")", OPEN, "rewards_read = refl", "",
       "-- ---- order 2: weighted bodies, which write-out gives back", "",
       "pub weighted_reads : text_of (" + lits(WEIGHTED) + ") ≡ accepted (record { rules = record { head = choice (1 ∷ 2 ∷ 3 ∷ []); body = normal [] } ∷ record { head = constraint; body = weighted 5 (" + weighed([("pos 1", 2), ("pos 2", 3), ("pos 3", 4)]) + ") } ∷ []; priorities = pos 0 ∷ []; entries = " + "".join(f"record {{ priority = pos 0; literal = negsuc {a - 1}; weight = pos {a + 1} }} ∷ " for a in (1, 2, 3)) + "[]; symbols = [] }) (" + lits(WEIGHTED) + ")", OPEN, "weighted_reads = refl", "",
       "pub edges_read : text_of (" + lits(EDGES) + ") ≡ accepted (record { rules = record { head = plain 1; body = weighted 1000000000 (" + weighed([("pos 2", 1000000), ("negsuc 1", 0), ("pos 2", 1)]) + ") } ∷ record { head = choice []; body = weighted 0 [] } ∷ []; priorities = []; entries = []; symbols = [] }) (" + lits(EDGES) + ")", OPEN, "edges_read = refl", "",
       "-- ---- refusals, as one table", "",
       "pub record Case : Type 0 where", "  pub text : List ℕ", "  pub number : ℕ", "  pub line : ℕ", "",
       "abbrev pub cases : List Case", "cases ="]
for name, text, (c, n) in CASES:
    out.append(f"    -- {name}")
    out.append(f"    record {{ text = {lits(text)}; number = {c}; line = {n} }} ∷")
out += ["    []", "",
        "pub refusals : map (λ (c : Case). text_of c.text) cases ≡ map (λ (c : Case). refused c.number c.line) cases", OPEN, "refusals = refl", ""]
here = os.path.dirname(os.path.abspath(__file__))
open(os.path.join(os.path.dirname(here), "crates/aspif/proofs/Samples.antt"), "w").write("\n".join(out))

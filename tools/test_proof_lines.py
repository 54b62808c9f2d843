#!/usr/bin/env python3
"""Tests of proof_lines.py. `python3 tools/test_proof_lines.py`"""
import unittest

import proof_lines


class Lines(unittest.TestCase):
    def test_a_contract_has_a_line_for_each_clause(self):
        clause = "(out.new ≡ written out.old words.now) × (out.new ≡ written out.old words.now)"
        for head in ("ensures {", "ensures writes {", "requires {"):
            self.assertEqual(
                proof_lines.wrap_all([f"    {head} {clause} × {clause} }}"]),
                [f"    {head} (out.new ≡ written out.old words.now)"] + ["        × (out.new ≡ written out.old words.now)"] * 2
                + ["        × (out.new ≡ written out.old words.now) }"],
            )

    def test_nothing_is_lost_and_no_line_is_long(self):
        text = "f " + " ".join(f"(g{n} (h x{n} y{n}) .field)" for n in range(20))
        lines = proof_lines.wrap_all(["lemma =", "    " + text])
        self.assertEqual(" ".join(line.strip() for line in lines[1:]), text)
        self.assertTrue(all(len(line) <= 140 for line in lines))

    def test_a_clause_in_a_longer_one(self):
        text = "f " + " ".join(f"(g{n} (h x{n} y{n}) .field)" for n in range(20))
        lines = proof_lines.wrap_all(["module Outer where", "  lemma =", "    " + text, "  short = x"])
        self.assertEqual((lines[0], lines[1], lines[-1]), ("module Outer where", "  lemma =", "  short = x"))
        self.assertTrue(all(len(line) <= 140 for line in lines))

    def test_imports_and_comments_stay(self):
        names = ", ".join(f"name_{n}" for n in range(30))
        for line in (f"use Crate.Module.{{{names}}}", f"ghost use Crate.Module.{{{names}}};", f"-- {names}", f"// {names}"):
            self.assertEqual(proof_lines.wrap_all([line]), [line])


if __name__ == "__main__":
    unittest.main()

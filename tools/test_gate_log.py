#!/usr/bin/env python3
"""Tests of gate_log.py, on a short log in rt's form. `python3 tools/test_gate_log.py`"""
import io
import pathlib
import tempfile
import unittest

import gate_log

LOG = """== sums
fn sums::low: proved
checked sums::low, 1 of 2
logic=proved functions=1
statements core: modules loaded=215 checked=0
/tmp/x/proofs/low/Proof.antt:42:7: note: large solution: the implicit argument {b} of `sym` was filled in with a large term
note: no function with a body is declared, so nothing was lowered
rt: sums proved
rt: show is kept: an earlier run on this machine proved the same files over the same libraries
rt: more NOT PROVED
/tmp/x/proofs/Laws.antt:3:1: error: `sum-cut`: the two types differ
rt: sums: trying its must-fail edits (2)
rt: must-fail sums/functions.edit: refused, as it must be: note: src/lib.rt:9:5: it is not proved
rt: must-fail sums/definition.edit: NOT REFUSED: the crate is still proved with this edit
rt: show ran, and wrote what its file stdout has
rt: show ran (built by Rattle's own compiler), and wrote what its file stdout has
3 passed, 2 failed
"""


class Repository(unittest.TestCase):
    def setUp(self):
        folder = tempfile.TemporaryDirectory()
        self.addCleanup(folder.cleanup)
        self.root = pathlib.Path(folder.name)
        (self.root / "crates/show/src").mkdir(parents=True)
        (self.root / "crates/show/src/main.rt").write_text("")
        (self.root / "crates/sums/must-fail").mkdir(parents=True)
        for name in ("functions", "definition"):
            (self.root / f"crates/sums/must-fail/{name}.edit").write_text("")
        (self.root / "crates.txt").write_text("# the crates\nsums:\nshow: sums io # a program\nmore staticlib: sums\n")

    def test_what_there_is(self):
        self.assertEqual(gate_log.totals(self.root, []), {"proof": 3, "edits": 2, "program": 1})
        self.assertEqual(gate_log.totals(self.root, ["more"]), {"proof": 2, "edits": 2, "program": 0})

    def test_lines_are_counted_and_routine_is_left_out(self):
        out, now = io.StringIO(), iter([0, 5, 6, 9.6])
        gate_log.follow(LOG.splitlines(keepends=True), gate_log.totals(self.root, []), out, lambda: next(now))
        shown = out.getvalue().splitlines()
        starts = [line.split(" rt:")[0] for line in shown]
        numbers = ["[proof 1 of 3, 5 s]", "[proof 2 of 3, 6 s]", "[proof 3 of 3, 10 s]", "[edits 1 of 2]", "[edits 2 of 2]", "[program 1 of 1]"]
        self.assertEqual([start for start in starts if start.startswith("[")], numbers)
        self.assertEqual(len(shown), 10)
        self.assertIn("error: `sum-cut`", out.getvalue())
        self.assertEqual(shown[-1], "3 passed, 2 failed")


class Profile(unittest.TestCase):
    ONE = "[proof 1 of 2, 6 s] rt: sums proved\n[proof 2 of 2, 10 s] rt: more NOT PROVED\n"

    def test_seconds(self):
        self.assertEqual(gate_log.seconds_in(self.ONE), {"sums": 6, "more": 10})

    def test_two_logs_side_by_side(self):
        rows = list(gate_log.profile([self.ONE, "[proof 1 of 1, 2 s] rt: sums proved\n"]))
        self.assertIn("| `sums` | 6 | 2 |", rows)
        self.assertIn("| `more` | 10 |  |", rows)


if __name__ == "__main__":
    unittest.main()

#!/usr/bin/env python3
"""Tests of pinned.py, on copies of the texts in a temporary folder. `python3 tools/test_pinned.py`

As the sources stand nothing is wrong. Each test then edits a copy, and the fault must be named, or nothing may be wrong.
"""
import pathlib
import re
import shutil
import tempfile
import unittest

import pinned

ROOT = pathlib.Path(__file__).resolve().parent.parent
CONDITIONS = "crates/conditions/"
# The records of the three conditions and of their parts.
RECORDS = ["Condition1", "Condition2", "Condition3", "Batches", "CLayout", "Laws", "Ranges", "Restarts", "Sheets", "Tallies", "Written"]
FIELD = re.compile(r"^  pub (?P<name>\S+) :.*\n(?:    .*\n)*", re.M)


def fields(text, record):
    """The fields of a record of a file of specs: the name and the text of each."""
    start = re.search(rf"^pub record {record}( \(.*\))? : Type 0 where\n", text, re.M).end()
    end = re.compile(r"^\S", re.M).search(text, start)
    return [(found["name"], found[0]) for found in FIELD.finditer(text, start, end.start() if end else len(text))]


class Copies(unittest.TestCase):
    @classmethod
    def setUpClass(cls):
        folder = tempfile.TemporaryDirectory()
        cls.addClassCleanup(folder.cleanup)
        cls.root = pathlib.Path(folder.name)
        sources = [*ROOT.glob("crates/*/specs/**/*.antt"), *ROOT.glob("crates/*/src/**/*.rt")]
        for path in [*sources, ROOT / "docs/CONDITIONS.md", ROOT / pinned.PINNED]:
            to = cls.root / path.relative_to(ROOT)
            to.parent.mkdir(parents=True, exist_ok=True)
            shutil.copyfile(path, to)

    def faults(self):
        return pinned.check(self.root)[1]

    def after(self, *edits):
        """What is wrong after these edits: of a file, the text that stands there once and the one in its place."""
        was = {path: (self.root / path).read_text() for path, _, _ in edits}
        try:
            for path, old, new in edits:
                text = (self.root / path).read_text()
                self.assertEqual(text.count(old), 1, f"{old} in {path}")
                (self.root / path).write_text(text.replace(old, new))
            return self.faults()
        finally:
            for path, text in was.items():
                (self.root / path).write_text(text)

    def with_file(self, path, text, *edits):
        """What is wrong with one more file, after these edits."""
        (self.root / path).write_text(text)
        try:
            return self.after(*edits)
        finally:
            (self.root / path).unlink()

    def says_else(self, name, *edits):
        self.assertIn(f"{name} says something else", self.after(*edits))


class Statements(Copies):
    def test_the_sources_are_as_pinned(self):
        self.assertEqual(self.faults(), [])

    def test_a_conditions_file_is_gone(self):
        for path in pinned.CONDITIONS:
            aside = self.root / "aside"
            (self.root / path).rename(aside)
            try:
                found = self.faults()
            finally:
                aside.rename(self.root / path)
            self.assertIn(f"{path} is gone", found)
            name = pathlib.PurePath(path).stem
            self.assertIn(f"conditions/specs/{name}.antt {name} is gone, or the conditions no longer rest on it", found)

    def test_each_field_deleted(self):
        count = 0
        for record in RECORDS:
            path = f"{CONDITIONS}specs/{record}.antt"
            for name, text in fields((self.root / path).read_text(), record):
                with self.subTest(record=record, field=name):
                    self.says_else(f"conditions/specs/{record}.antt {record}", (path, text, ""))
                count += 1
        self.assertGreaterEqual(count, 75)

    def test_a_definition_below_changed_by_one_character(self):
        edits = [
            ("changes/specs/Lists.antt", "is_list", "leb (length l) 64", "leb (length l) 63"),
            ("layout/specs/Clauses.antt", "are_lengths", "leb table 8000", "leb table 8001"),
            ("orders/specs/Orders.antt", "kind_named", "leb k 31", "leb k 30"),
            ("lent/specs/Codes.antt", "no_price", "no_price = 100", "no_price = 101"),
            ("sheet/specs/Sheet.antt", "seat_bit", "2 ^ (31 - offer % 32)", "2 ^ (30 - offer % 32)"),
            ("sheet/specs/Sheet.antt", "is_row", "eqb (tag_in b % 64) 0", "eqb (tag_in b % 32) 0"),
            ("lent/specs/Asked.antt", "flush", "Step (Flush state)", "Step (RollBack state)"),
            ("conditions/specs/Runs.antt", "Run3", "replicate 8 nothing", "replicate 9 nothing"),
        ]
        for path, name, old, new in edits:
            self.says_else(f"{path} {name}", (f"crates/{path}", old, new))

    def test_no_line_is_left_out(self):
        for path in self.root.glob("crates/*/specs/**/*.antt"):
            text = path.read_text()
            code = re.sub(r"(?m)(^|\s)--( .*)?$|^use .*$", "", text)
            self.assertEqual(sorted("".join(pinned.definitions(text).values()).split()), sorted(code.split()), path)

    def test_a_new_definition(self):
        path = f"{CONDITIONS}specs/Serving.antt"
        new = "abbrev pub anything : Type 0\nanything = Unit\n\n-- all is as it came"
        self.assertEqual(self.after((path, "-- all is as it came", new)), ["conditions/specs/Serving.antt anything is not pinned"])

    def test_a_definition_above_all_others(self):
        path = f"{CONDITIONS}specs/Runs.antt"
        found = self.after((path, "-- a call with the words and bytes that are lent to it", "infixr 2 _↦_\n\n-- a call"))
        self.assertEqual(found, ["conditions/specs/Runs.antt start is not pinned"])

    def test_a_name_defined_twice(self):
        text = "abbrev pub one : ℕ\none = 1\n\nmodule other where\n  abbrev pub one : ℕ\n  one = 2\n"
        changed = text.replace("one = 1", "one = 3")
        self.assertNotEqual(pinned.definitions(text)["one"], pinned.definitions(changed)["one"])

    def test_a_type_of_the_code_changed(self):
        self.says_else("layout/src/head.rt Head", ("crates/layout/src/head.rt", "pub tip: u32,", "pub tip: u64,"))
        self.assertIn("crates/layout/src/head.rt has no Head",
                      self.after(("crates/layout/src/head.rt", "pub struct Head {", "pub struct Other {")))

    def test_the_words_of_the_request_changed(self):
        page, first = ("docs/CONDITIONS.md", "loses\n> no digit", "loses\n> one digit"), f"{CONDITIONS}specs/Condition1.antt"
        fault = f"{first} does not have the words of condition 1 as docs/CONDITIONS.md quotes them"
        self.assertIn(fault, self.after((first, "loses no digit, tests", "loses one digit, tests")))
        self.assertIn(fault, self.after(page))
        self.says_else("docs/CONDITIONS.md 1", page, (first, "loses no digit, tests", "loses one digit, tests"))


class Meanings(Copies):
    """The same words, with names that come from elsewhere."""

    def test_a_name_in_place_of_another(self):
        self.says_else("conditions/specs/Condition2.antt Condition2",
                       (f"{CONDITIONS}specs/Condition2.antt", "{computed, expected}", "{computed, computed as expected}"))
        self.says_else("conditions/specs/Tallies.antt Tallies",
                       (f"{CONDITIONS}specs/Tallies.antt", "committed_by, rolled_back_by, flushed_by",
                        "committed_by, rolled_back_by as flushed_by, flushed_by as rolled_back_by"))

    def test_an_operator_in_place_of_another(self):
        self.says_else("conditions/specs/Ranges.antt Ranges",
                       (f"{CONDITIONS}specs/Ranges.antt", "◌^◌, ◌≤◌, ◌<◌", "◌^◌, ◌<◌ as ◌≤◌, ◌<◌"))

    def test_a_name_of_the_kit_in_place_of_another(self):
        self.says_else("conditions/specs/CLayout.antt CLayout",
                       (f"{CONDITIONS}specs/CLayout.antt", "std.specs.Prelude.{◌≡◌, []", "std.specs.Other.{◌≡◌}\nuse Rattle.std.specs.Prelude.{[]"))

    def test_a_condition_of_another_file(self):
        weak = "pub record Condition1 : Type 0 where\n"
        found = self.with_file(f"{CONDITIONS}specs/Weak.antt", weak,
                               (f"{CONDITIONS}src/lib.rt", "specs.Condition1.{Condition1}", "specs.Weak.{Condition1}"))
        self.assertIn("conditions/src/lib.rt hold says something else", found)
        self.assertIn("conditions/specs/Weak.antt Condition1 is not pinned", found)

    def test_a_promise_of_another_file(self):
        weak = "abbrev pub StoreKeeps : Type 0\nStoreKeeps = Unit\n"
        found = self.with_file(f"{CONDITIONS}specs/Weak.antt", weak, (
            "crates/c_promises/src/lib.rt",
            "CCalls.{StoreKeeps, WordsKeep,",
            "Weak.{StoreKeeps};\nghost use Rattle.conditions.specs.CCalls.{WordsKeep,",
        ))
        self.assertIn("c_promises/src/lib.rt flush says something else", found)
        self.assertNotIn("c_promises/src/lib.rt commit says something else", found)

    def test_an_import_that_cannot_be_read(self):
        path = f"{CONDITIONS}specs/Condition2.antt"
        for line in ["use Rattle.moments.specs.{Moments.computed}", "use Rattle.moments.specs.Moments.{computed} -- as it is"]:
            found = self.after((path, "use Rattle.moments.specs.Table.{twelve}", f"use Rattle.moments.specs.Table.{{twelve}}\n{line}"))
            self.assertEqual(len(found), 1, line)
            self.assertTrue(found[0].startswith(f"{path}: it cannot be told what this imports"), found)


class Functions(Copies):
    STORE = "crates/cechnuol/src/store.rt"

    def test_a_contract_weakened(self):
        text = (self.root / self.STORE).read_text()
        words = re.search(r"\n        × \(words\.new[^}]*\(issue caller slot\)\)", text)[0]
        self.says_else("cechnuol/src/store.rt cechnuol_issue", (self.STORE, words, ""))
        self.says_else("unit/src/serve.rt serve", ("crates/unit/src/serve.rt", "Replies tally.old", "Weaker tally.old"))

    def test_a_requires_added(self):
        ensures = "    ensures { Tells table.now journal.now [] [] "
        found = self.after((self.STORE, ensures, "    requires { offer ≡ 5 }\n" + ensures))
        self.assertIn("cechnuol/src/store.rt cechnuol_look_up says something else", found)
        self.assertIn(f"{self.STORE}: cechnuol_look_up has a `requires`, or no `ensures`", found)

    def test_an_export_that_promises_less(self):
        path = "crates/cechnuol_c/src/store.rt"
        words = re.search(r"\n        × \(words\.new[^}]*\(issue caller slot\)\)", (self.root / path).read_text())[0]
        self.assertIn(f"{path}: cechnuol_issue is not what it is in {self.STORE}", self.after((path, words, "")))

    def test_a_function_is_gone(self):
        self.assertIn("conditions/src/lib.rt hold is gone, or the conditions no longer rest on it",
                      self.after((f"{CONDITIONS}src/lib.rt", "pub fn hold()", "pub fn held()")))
        self.assertIn("c_promises/src/lib.rt flush is gone, or the conditions no longer rest on it",
                      self.after(("crates/c_promises/src/lib.rt", "pub fn flush(", "fn flush(")))

    def test_a_contract_in_a_comment(self):
        path = f"{CONDITIONS}src/lib.rt"
        found = self.after((path, "// The three conditions hold.", "/*"), (path, "{}", "{}\n*/"))
        self.assertEqual(found, [f"{path} has a comment within lines, which is not looked into here"])

    def test_another_function_for_c(self):
        path = "crates/cechnuol/src/memory.rt"
        text = (self.root / path).read_text()
        (self.root / path).write_text(text + '\n#[no_mangle]\npub extern "C" fn cechnuol_forget() -> u64\n{\n    0\n}\n')
        found = self.faults()
        (self.root / path).write_text(text)
        self.assertEqual(found, [f"{path}: cechnuol_forget is exported to C, and no condition speaks of it"])


class NoFault(Copies):
    """What does not count."""

    def test_comments(self):
        self.assertEqual(self.after(
            (f"{CONDITIONS}specs/Runs.antt", "-- and what they leave\n", "-- and where they end, in other words\n"),
            ("crates/lent/specs/Codes.antt", "no_price = 100", "no_price = 100 -- no ground has it"),
            ("crates/answers/src/call.rt", "pub enum Step {", "pub enum Step { // one of three"),
            ("crates/c_promises/src/lib.rt", "// `cechnuol_flush`.", "// The flush."),
        ), [])

    def test_layout(self):
        self.assertEqual(self.after(
            ("crates/lent/specs/Codes.antt", "no_price = 100", "no_price =\n    100"),
            (f"{CONDITIONS}src/lib.rt", "Condition1 × Condition2 × Condition3", "Condition1\n        × Condition2 × Condition3"),
        ), [])

    def test_imports(self):
        self.assertEqual(self.after(
            (f"{CONDITIONS}specs/Condition2.antt", "Moments.{computed, expected}", "Moments.{expected, computed}"),
            (f"{CONDITIONS}specs/Condition2.antt", "use Rattle.moments.specs.Table.{twelve}", "use Rattle.moments.specs.Table.{twelve}\nuse Rattle.std.specs.Prelude.{not}"),
            (f"{CONDITIONS}specs/Tallies.antt", "use Rattle.std.specs.Prelude.{◌≡◌, ", "use Rattle.std.specs.Prelude.{◌≡◌}\nuse Rattle.std.specs.Prelude.{"),
        ), [])


if __name__ == "__main__":
    unittest.main()

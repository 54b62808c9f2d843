#!/usr/bin/env python3
"""Tests of refused_edits.py, on edits and logs written here in the prover's form. `python3 tools/test_refused_edits.py`"""
import pathlib
import tempfile
import unittest

import refused_edits

SOURCE = """// Two functions.
const LIMIT: u64 = 8;

fn low(x: u64) -> u64
    ensures { result ≡ x % 8 }
{
    x % LIMIT
}

pub fn high(x: u64) -> u64
    ensures { result ≡ x / 8 }
{
    let y = low(x);
    (x - y) / LIMIT
}
"""

METHODS = """// Two rules of one name.
trait Rule {
    fn holds(x: u64) -> bool
        ensures { result ≡ passes x };
}

impl Rule for Low {
    fn holds(x: u64) -> bool {
        x < LIMIT
    }
}

impl<'a> Rule for High<'a> {
    fn holds(x: u64) -> bool {
        LIMIT <= x
    }
}

impl From<Low> for u64 {
    fn from(low: Low) -> u64 {
        LIMIT - 1
    }
}
"""

HOLDS = """# edit: equal_is_low
# the limit is not high
# breaks: rules::HighRule::holds
file: src/rules.rt
old:         LIMIT <= x
new:         LIMIT < x
"""

LOW = """# edit: low_of_another
# the low part of the number after it
# breaks: parts::low
file: src/parts.rt
old:     x % LIMIT
new:     (x + 1) % LIMIT
"""

LEMMA = """# edit: seven
# the parts of seven
# breaks: lemma Parts of-seven
file: specs/Parts.antt
old: seven = 7
new: seven = 8
"""

CONSTANT = """# edit: nine
# the parts by nine
# breaks: parts::low
# and: parts::high
# and: lemma Parts of-seven
file: src/parts.rt
old: u64 = 8
new: u64 = 9
"""

REFUSED = "rt: must-fail sums/low.edit: refused, as it must be: note: src/parts.rt:4:1: it is not proved that what the function ensures holds"
OK = "rt: ok; handles allowed: none; must-fail edits: 1 refused; every proof and must-fail edit was done in this run\n1 passed, 0 failed\n"


class Repository(unittest.TestCase):
    """A repository of one crate in a folder of its own."""

    def setUp(self):
        folder = tempfile.TemporaryDirectory()
        self.addCleanup(folder.cleanup)
        self.root = pathlib.Path(folder.name)
        self.write("crates/sums/src/parts.rt", SOURCE)
        self.write("crates/sums/specs/Parts.antt", "abbrev pub seven : ℕ\nseven = 7\n")
        self.write("crates/sums/proofs/Parts.antt", "pub of-seven : seven ≡ 7\nof-seven = refl\n")

    def write(self, path, text):
        file = self.root / path
        file.parent.mkdir(parents=True, exist_ok=True)
        file.write_text(text)

    def faults(self, edit, log=None, label="low"):
        self.write(f"crates/sums/must-fail/{label}.edit", edit)
        return refused_edits.check(self.root, log, [])[1]

    def one(self, words, edit, log=None):
        found = self.faults(edit, log)
        self.assertEqual(len(found), 1, found)
        self.assertIn(words, found[0])


class Form(Repository):
    def test_as_it_has_to_be(self):
        self.assertEqual(self.faults(LOW), [])
        self.assertEqual(self.faults(LEMMA, label="seven"), [])

    def test_lines(self):
        self.one("0 lines '# breaks:'", LOW.replace("# breaks: parts::low\n", ""))
        self.one("2 lines '# edit:'", LOW + "# edit: again\n")
        self.one("no comment says", LOW.replace("# the low part of the number after it\n", ""))
        self.one("a line that is none of an edit's: edit: x", LOW + "edit: x\n")
        self.assertIn("must-fail sums/low: 'the low part' is neither a function nor 'lemma FILE NAME'", self.faults(LOW.replace("parts::low", "the low part")))
        self.assertIn("must-fail sums/low: 'lemma Parts' is neither a function nor 'lemma FILE NAME'", self.faults(CONSTANT.replace("parts::high", "lemma Parts")))
        self.assertIn("must-fail sums/low: it replaces nothing", self.faults("# edit: none\n# nothing\n# breaks: parts::low\n"))

    def test_the_text_stands_once(self):
        self.one("stands 0 times", LOW.replace("x % LIMIT\nnew", "x % LIMITS\nnew"))
        self.one("stands 3 times", LOW.replace("old:     x % LIMIT", "old: LIMIT"))

    def test_a_pair_after_another(self):
        self.assertEqual(self.faults(LOW + "old:     (x + 1) % LIMIT\nnew:     (x + 2) % LIMIT\n"), [])

    def test_the_body_is_that_of_the_function_named(self):
        self.one("is in the body of low, and not of parts::high", LOW.replace("parts::low", "parts::high"))
        self.one("another name stands beside it", LOW.replace("# breaks: parts::low\n", "# breaks: parts::low\n# and: parts::high\n"))
        self.assertEqual(self.faults(CONSTANT), [])

    def test_what_it_names_is_there(self):
        self.one("there is no function parts::lower", CONSTANT.replace("parts::low", "parts::lower"))
        self.one("there is no function parts::higher", CONSTANT.replace("parts::high", "parts::higher"))
        self.one("has no of-eight", LEMMA.replace("of-seven", "of-eight"))

    def test_two_of_a_name(self):
        self.faults(LOW)
        self.assertIn("must-fail sums/low_of_another: two edits have this name", self.faults(LOW, label="again"))


class Methods(Repository):
    """A method is that of the type named."""

    def setUp(self):
        super().setUp()
        self.write("crates/sums/src/rules.rt", METHODS)

    def test_form(self):
        self.assertEqual(self.faults(HOLDS), [])
        self.assertEqual(self.faults(HOLDS.replace("HighRule::holds", "U64FromLow::from").replace("LIMIT <= x", "LIMIT - 1")), [])
        for other in ("LowRule", "Rule"):
            self.one("is in the body of HighRule::holds, and not of rules::", HOLDS.replace("HighRule", other))
        for none in ("High::holds", "NoRule::holds", "holds", "HighRule::from"):
            self.assertIn(f"must-fail sums/low: there is no function rules::{none}", self.faults(HOLDS.replace("HighRule::holds", none)))

    def test_log(self):
        at = lambda line: f"rt: must-fail sums/low.edit: refused, as it must be: note: src/rules.rt:{line}:9: it is not proved\n{OK}"
        self.assertEqual([line for line in range(1, 24) if not self.faults(HOLDS, at(line))], [14, 15, 16])
        at = lambda folder: f"rt: must-fail sums/low.edit: refused, as it must be: ./proofs/rules/{folder}/Answers.antt:8:13: error: `returns`: ..\n{OK}"
        self.assertEqual([folder for folder in ("HighRule/holds", "LowRule/holds", "holds") if not self.faults(HOLDS, at(folder))], ["HighRule/holds"])


class Log(Repository):
    def test_refused(self):
        self.assertEqual(self.faults(LOW, f"{REFUSED}\n{OK}"), [])
        self.assertEqual(self.faults(LOW, f"[edits 1 of 1] {REFUSED}\n{OK}"), [])

    def test_where_a_function_fails(self):
        at = lambda place: f"rt: must-fail sums/low.edit: refused, as it must be: {place}\n{OK}"
        for edit, place in (
            (LOW, "note: src/parts.rt:7:5: it is not proved that what the function ensures holds"),
            (LOW, "./proofs/parts/low/Answers.antt:8:13: error: `returns`: as printed, the two types differ"),
            (LOW, "./proofs/parts/+low/Invariants.antt:8:13: error: `decreases`: as printed, the two types differ"),
            (CONSTANT, "note: src/parts.rt:10:1: it is not proved that what the function ensures holds"),
            (CONSTANT, "./proofs/Parts.antt:2:11: error: `of-seven`: as printed, the two types differ"),
        ):
            self.assertEqual(self.faults(edit, at(place)), [], place)
        for place in (
            "note: src/parts.rt:10:1: it is not proved that what the function ensures holds",
            "note: src/parts.rt:2:1: it is not proved that what the function ensures holds",
            "note: src/parts.rt:9:1: it is not proved that what the function ensures holds",
            "note: src/others.rt:7:5: it is not proved that what the function ensures holds",
            "./proofs/parts/high/Answers.antt:8:13: error: `returns`: as printed, the two types differ",
            "./proofs/others/low/Answers.antt:8:13: error: `returns`: as printed, the two types differ",
            "./proofs/Parts.antt:2:11: error: `of-seven`: as printed, the two types differ",
            "a line of no place",
        ):
            self.one("what fails first is none of what it names", LOW, at(place))

    def test_a_functions_attribute_is_its_first_line(self):
        self.write("crates/sums/src/parts.rt", SOURCE.replace("fn low", "#[inline]\n#[tactic(auto)]\nfn low"))
        at = lambda line: f"rt: must-fail sums/low.edit: refused, as it must be: note: src/parts.rt:{line}:1: it is not proved\n{OK}"
        self.assertEqual([line for line in range(1, 12) if not self.faults(LOW, at(line))], [4, 5, 6, 7, 8, 9, 10])

    def test_where_a_lemma_fails(self):
        at = lambda place: f"rt: must-fail sums/seven.edit: refused, as it must be: {place}\n{OK}"
        self.assertEqual(self.faults(LEMMA, at("./proofs/Parts.antt:2:11: error: `of-seven`: as printed, the two types differ"), "seven"), [])
        for place in ("./proofs/Parts.antt:2:11: error: `of-eight`: as printed, the two types differ", "./proofs/Others.antt:2:11: error: `of-seven`: as printed",
                      "./proofs/of-seven/Answers.antt:2:11: error: `of-seven`: as printed", "note: src/parts.rt:7:5: it is not proved that"):
            found = self.faults(LEMMA, at(place), "seven")
            self.assertEqual(len(found), 1, found)
            self.assertIn("what fails first is none of what it names", found[0])

    def test_nothing_is_said(self):
        self.one("the log says nothing of it", LOW, OK)

    def test_not_refused_and_bad(self):
        for said in ("NOT REFUSED: the crate is still proved with this edit", "BAD EDIT: an 'old:' text is in src/parts.rt 0 times, and not once"):
            self.one(said, LOW, f"rt: must-fail sums/low.edit: {said}\n{OK}")

    def test_refused_for_another_reason(self):
        for said in ("(only because a proof file names what the edit took away, so this says little of the contract: ..)",
                     "(only by a limit of the prover, which gave no verdict, so this says less of the contract: ..)"):
            self.one("for another reason than its contract", LOW, f"rt: must-fail sums/low.edit: refused, as it must be {said}: proofs/low\n{OK}")

    def test_the_line_ok(self):
        self.one("no line 'rt: ok'", LOW, f"{REFUSED}\n0 passed, 1 failed\n")
        self.one("edits are bad", LOW, f"{REFUSED}\n{OK.replace('1 refused;', '1 refused, 1 bad;')}")
        self.one("not all 1 edits", LOW, f"{REFUSED}\n{OK.replace('1 refused', '11 refused')}")


if __name__ == "__main__":
    unittest.main()

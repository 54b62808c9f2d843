#!/usr/bin/env python3
"""Tests of tools/pictures.py: the stored pictures are what is drawn, and each of them changes with what it shows."""
import contextlib
import functools
import io
import pathlib
import re
import tempfile
import unittest
import xml.etree.ElementTree as ElementTree

import picture_facts as facts
import picture_timeline
import pictures
from picture_svg import Picture

SVG = "{http://www.w3.org/2000/svg}"


@functools.cache
def printed():
    """What the second model prints for the script."""
    return pictures.run_model(picture_timeline.script(pictures.read_source))


def once(_):
    """The same for any script, so that an edited source does not need the model."""
    return printed()


def checked(drawn):
    """What a check of the stored pictures says, and its exit status."""
    with contextlib.redirect_stdout(io.StringIO()), contextlib.redirect_stderr(io.StringIO()) as told:
        status = pictures.check(pictures.ROOT / pictures.FOLDER, drawn)
    return re.findall(r"(\w+\.svg) is not what is drawn", told.getvalue()), status


def edited(path, old, new):
    """A reader of the sources, of which one is edited."""
    def read(asked):
        text = pictures.read_source(asked)
        if asked != path:
            return text
        assert old in text, f"{path} has no {old!r}"
        return text.replace(old, new, 1)
    return read


class Stored(unittest.TestCase):
    def test_the_stored_pictures_are_what_is_drawn(self):
        self.assertEqual(checked(pictures.drawn(run=once)), ([], 0))

    def test_a_picture_that_is_gone_edited_or_too_many(self):
        drawn = pictures.drawn(run=once)
        with tempfile.TemporaryDirectory() as name, contextlib.redirect_stdout(io.StringIO()), contextlib.redirect_stderr(io.StringIO()):
            folder = pathlib.Path(name) / "pictures"
            self.assertEqual(pictures.write(folder, drawn), 0)
            self.assertEqual(pictures.check(folder, drawn), 0)
            (folder / "memory.svg").unlink()
            (folder / "layers.svg").write_bytes((folder / "layers.svg").read_bytes() + b" ")
            (folder / "other.svg").write_text("")
            self.assertEqual(pictures.stale(folder, drawn), ["layers.svg", "memory.svg", "other.svg"])
            self.assertEqual(pictures.check(folder, drawn), 1)


class Changed(unittest.TestCase):
    """An edit of what a picture shows makes the check fail."""

    def fails(self, picture, edits):
        for path, old, new in edits:
            with self.subTest(new=new):
                self.assertEqual(checked(pictures.drawn(edited(path, old, new), once)), ([picture], 1))

    def test_constants(self):
        self.fails("memory.svg", [
            (facts.HEAD, "TABLE_WORDS: usize = 8000;", "TABLE_WORDS: usize = 8001;"),
            (facts.HEAD, "JOURNAL_WORDS: usize = 4096;", "JOURNAL_WORDS: usize = 8192;"),
            (facts.HEAD, "STEPS: usize = 64;", "STEPS: usize = 63;"),
            (facts.LISTS, "LIST_WORDS: usize = 64;", "LIST_WORDS: usize = 128;"),
        ])

    def test_fields(self):
        taken, issued = "    pub taken: [bool; SLOTS],\n", "    pub issued: [u32; SLOTS],\n"
        self.fails("memory.svg", [
            (facts.HEAD, taken + issued, issued + taken),
            (facts.TALLY, "rolled_back: words[1]", "taken_back: words[1]"),
            (facts.ENTRY, *[text.format("\n\n    pub const ") for text in (
                "KIND_BITS: u32 = 1;{0}OFFER_BITS: u32 = 31;{0}PRICE_BITS: u32 = 32;",
                "KIND_BITS: u32 = 2;{0}OFFER_BITS: u32 = 31;{0}PRICE_BITS: u32 = 31;")]),
            (facts.ORDERS, *[text.format("\n\n    pub const ") for text in (
                "KIND_BITS: u32 = 8;{0}AMOUNT_BITS: u32 = 25;", "KIND_BITS: u32 = 9;{0}AMOUNT_BITS: u32 = 24;")]),
        ])

    def test_crates(self):
        lists, composing = "lists: entry words changes\n", "composing: entry words changes\n"
        self.fails("layers.svg", [
            (facts.CRATES, "\nwords:\n", "\nwords: entry\nletters:\n"),
            (facts.CRATES, "# calculus: the entry word", "# calculus: an entry word"),
            (facts.CRATES, "# answers: ", "# replies: "),
            (facts.CRATES, lists + composing, composing + lists),
        ])

    def test_the_run(self):
        drawn = pictures.drawn(run=lambda _: printed().replace("issued 20 0 0 22", "issued 20 0 0 21"))
        self.assertEqual(checked(drawn), (["timeline.svg"], 1))


class Refused(unittest.TestCase):
    """Sources of which no picture can be drawn."""

    def test_sources_that_do_not_fit(self):
        for path, old, new in [
            (facts.HEAD, "pub const SLOTS: usize = 8;", "pub const SLOTS: usize = 9;"),
            (facts.HEAD, "pub const TABLE_WORDS: usize = 8000;", "pub const TABLE_WORDS: usize = MANY;"),
            (facts.HEAD_WORDS, "HEAD_WORDS: usize = 85;", "HEAD_WORDS: usize = 86;"),
            (facts.HEAD, "pub struct Head {", "pub struct Heads {"),
            (facts.HEAD, "    pub used: usize,", "    pub spent: usize,"),
            (facts.ENTRY, "PRICE_BITS: u32 = 32;", "PRICE_BITS: u32 = 31;"),
            (facts.ORDERS, "OFFER_BITS: u32 = Entry::OFFER_BITS;", "OFFER_BITS: u32 = 31;"),
            (facts.TALLY, "flushed: words[2],", "flushed: words[3],"),
            (facts.CRATES, "entry:\nwords:", "entry: words\nwords:"),
            (facts.CRATES, "entry:\n", "entry:\nentry:\n"),
            (facts.CRATES, "# calculus", "entry:\n\n# calculus"),
            (facts.CRATES, "entry:", "entry"),
        ]:
            with self.subTest(path=path, new=new), self.assertRaises(facts.Odd):
                pictures.drawn(edited(path, old, new), once)

    def test_runs_that_do_not_fit(self):
        for edit in [
            lambda text: text.replace("ok\n", "refused 2\n", 1),
            lambda text: text.replace("head used", "heads used", 1),
            lambda text: text.replace(" ends 2 ", " ends ", 1),
            lambda text: text + "line 99: ok\n",
            lambda text: "",
        ]:
            with self.subTest(printed=edit(printed())[:200]), self.assertRaises(facts.Odd):
                pictures.drawn(run=lambda _: edit(printed()))

    def test_empty_sources(self):
        with self.assertRaises(facts.Odd):
            pictures.drawn(lambda path: "", once)

    def test_arguments(self):
        for arguments in [[], ["--check", "--write"], ["--draw"], [""]]:
            with self.subTest(arguments=arguments), contextlib.redirect_stderr(io.StringIO()) as told:
                self.assertEqual(pictures.main(arguments), 2)
                self.assertEqual(told.getvalue(), pictures.USAGE + "\n")


class Readable(unittest.TestCase):
    def test_no_text_overlaps_another_or_runs_out(self):
        for name, picture in pictures.drawn(run=once).items():
            with self.subTest(name=name):
                self.assertEqual(picture.crowded(), [])

    def test_crowded_texts_are_seen(self):
        picture = Picture("title", "", "")
        picture.text(100, 200, "one text")
        picture.text(120, 205, "another")
        picture.text(880, 300, "out of the picture")
        self.assertEqual(picture.crowded(), ["'out of the picture' runs out of the picture", "'one text' overlaps 'another'"])

    def test_each_has_a_title_a_description_and_a_background(self):
        for name, picture in pictures.drawn(run=once).items():
            with self.subTest(name=name):
                root = ElementTree.fromstring(picture.svg())
                self.assertEqual([part.tag for part in root[:3]], [SVG + "title", SVG + "desc", SVG + "rect"])
                self.assertTrue(len(root[0].text) > 5 and len(root[1].text) > 100)
                self.assertEqual((root[2].get("width"), root[2].get("height")), (root.get("width"), root.get("height")))


if __name__ == "__main__":
    unittest.main()

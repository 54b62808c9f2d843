#!/usr/bin/env python3
"""The examples of a page are carried out and compared. `python3 tools/test_page_examples.py`"""
import contextlib
import io
import pathlib
import tempfile
import unittest

import page_examples

PAGE = """# A page

File `greet.sh`, which greets:

```sh
echo hello "$1"
```

```sh
there=$PWD
```

```sh
bash "$there/greet.sh" you
```

prints

```text
hello you
```
"""


def said(page):
    """The status of a page's run, and what is said of it."""
    with tempfile.TemporaryDirectory() as folder, contextlib.redirect_stdout(io.StringIO()) as out:
        path = pathlib.Path(folder, "PAGE.md")
        path.write_text(page, encoding="utf-8")
        with contextlib.redirect_stderr(io.StringIO()) as err:
            status = page_examples.main([str(path), folder])
    return status, out.getvalue() + err.getvalue()


class Pages(unittest.TestCase):
    def test_blocks_are_told_apart(self):
        files, runs = page_examples.pieces(PAGE)
        self.assertEqual(list(files), ["greet.sh"])
        self.assertEqual([wanted for _, wanted in runs], [None, "hello you\n"])

    def test_a_page_that_holds(self):
        status, text = said(PAGE)
        self.assertEqual(status, 0, text)
        self.assertIn("1 files and 2 runs", text)

    def test_each_difference_is_noticed(self):
        for old, new in [
            ("hello you\n", "hello me\n"),
            ("hello you\n", "hello you\n\n"),
            ('echo hello "$1"', 'echo hello "$1" "$1"'),
            ("there=$PWD", "false"),
            ("there=$PWD", "exit 0"),
            ('bash "$there/greet.sh" you', 'bash "$there/greet.sh" you; false'),
            ("File `greet.sh`", "File `other.sh`"),
        ]:
            status, text = said(PAGE.replace(old, new))
            self.assertEqual(status, 1, f"{new}: {text}")

    def test_a_page_without_examples_and_wrong_arguments(self):
        self.assertEqual(said("# Nothing\n")[0], 2)
        with contextlib.redirect_stderr(io.StringIO()):
            self.assertEqual(page_examples.main([]), 2)
            self.assertEqual(page_examples.main(["PAGE", "/no/folder"]), 2)


if __name__ == "__main__":
    unittest.main()

#!/usr/bin/env python3
"""Tests of replay_page.py, on small pages and a program that is told what to print. `python3 tools/test_replay_page.py`"""
import unittest

import replay_page

PAGE = """# A page

```script
clear
```

prints

```output
line 1: ok
```

and

```explained
line 1: clear: ok
```

```script
x
```

```output
line 1: no call: unknown word 'x'
```
"""

PRINTED = {
    ("output", "clear\n"): (0, "line 1: ok\n"),
    ("explained", "clear\n"): (0, "line 1: clear: ok\n"),
    ("output", "x\n"): (1, "line 1: no call: unknown word 'x'\n"),
}


def program(printed):
    return lambda kind, script: [("the program", printed[kind, script])]


class Pages(unittest.TestCase):
    def test_a_page_that_holds(self):
        self.assertEqual(replay_page.differences(PAGE, program(PRINTED)), [])
        self.assertEqual([line for line, _, _ in replay_page.examples(PAGE)], [3, 19])

    def test_each_block_is_compared(self):
        for key, (status, text) in PRINTED.items():
            for other in ((status, text + "line 2: ok\n"), (status, text.strip()), (1 - status, text), (2, text)):
                wrong = replay_page.differences(PAGE, program({**PRINTED, key: other}))
                self.assertEqual(len(wrong), 1, (key, other))

    def test_blocks_in_the_wrong_place(self):
        block = "```output\nline 1: ok\n```\n"
        for page in ("", "text\n", block, PAGE + block, PAGE + "```script\nclear\n```\n"):
            with self.assertRaises(ValueError):
                replay_page.examples(page)


if __name__ == "__main__":
    unittest.main()

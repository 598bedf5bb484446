#!/usr/bin/env python3
"""Tests of pages.py: a small repository whose pages are right, each fault planted in it once, and this repository."""
import contextlib
import io
import os
import stat
import sys
import tempfile
import unittest

sys.dont_write_bytecode = True
import pages

FILES = {
    "crates.txt": "nz_low:\nnezha: nz_low\n",
    "crates/nz_low/src/laws.rt": "//! Laws.\npub fn one_law()\n    ensures kept { x }\n{}\n// no_code\n",
    "crates/nz_low/specs/Words.antt": "-- The words, of_no_code\nabbrev pub word_of : x\n",
    "crates/nezha/src/main.rt": 'const LINES: [&str; 2] = ["send", "end"];\n',
    "crates/nezha/args": "trace\n",
    "crates/nezha/stdin": "put a 1\n",
    "crates/nezha/stdout": "1 c0 tick 1000 -> 1\n2 p0 tick 2000 -> 0\n3 p0 tick 3000 -> 0\nsend c0 1\nend\n",
    "scenarios/first": "put a 1\n",
    "scenarios/first.args": "run\n",
    "scenarios/first.stdout": "send c0 1\nend\n",
    "tools/stories/first.story": "1 c0 tick 1000\n  send c0 1\n  sends request p0 lost: num 1\ntext\nend\n",
    "docs/ARCHITECTURE.md": "# The map\n\nnz_low, nezha\n",
    "docs/THEOREMS.md": "# Theorems\n\n> Each answer is right.\n\n| law | file |\n|---|---|\n| `one_law` | nz_low/src/laws.rt; specs/Words.antt |\n",
    "README.md": """# A page

> Each answer is right.

See [the laws](docs/THEOREMS.md#theorems), [the laws](docs/THEOREMS.md), [the map](docs/ARCHITECTURE.md), nz_low/specs/Words.antt, laws.rt of nz_low, and `word_of` in `crates/nz_low`.

```sh
(cd crates/nezha && rt try -- run < ../../scenarios/first)
```

prints

```text
send c0 1
end
```

Two lines of a trace:

<!-- lines: nezha trace < scenarios/first -->
```text
1 c0 tick 1000 -> 1     a remark
3 p0 tick 3000 -> 0
```

Two lines of a story:

<!-- lines: nezha story < scenarios/first -->
```text
1 c0 tick 1000  a remark
  sends request p0 lost: num 1     another
                                   that goes on
```

The scenario:

<!-- file: scenarios/first -->
```text
put a 1
```

<!-- output: echo end -->
```text
end
```
""",
}

# What is planted: a file, what is in it, what it becomes, and a word of the fault that is found.
PLANTED = {
    "a link to no file": ("README.md", "(docs/THEOREMS.md#", "(docs/THEOREM.md#", "no file docs/THEOREM.md"),
    "a link to no heading": ("README.md", "#theorems", "#lemmas", "no heading"),
    "a path that is no file": ("README.md", "nz_low/specs/Words.antt", "nz_low/specs/Verbs.antt", "no file nz_low/specs/Verbs.antt"),
    "a file of no folder": ("README.md", "laws.rt of", "rules.rt of", "no file rules.rt"),
    "a crate that is not there": ("README.md", "of nz_low", "of nz_high", "no crate nz_high"),
    "a folder that is not there": ("README.md", "`crates/nz_low`", "`crates/nz_lower`", "no file crates/nz_lower"),
    "a name that is nowhere": ("README.md", "`word_of`", "`words_of`", "no name words_of"),
    "a name of a comment alone": ("README.md", "`word_of`", "`no_code`", "no name no_code"),
    "a name of a comment of a definition": ("README.md", "`word_of`", "`of_no_code`", "no name of_no_code"),
    "a path in another crate": ("docs/THEOREMS.md", "specs/Words.antt", "specs/Laws.antt", "no file specs/Laws.antt"),
    "a bare name among files": ("docs/THEOREMS.md", "specs/Words.antt", "Words", "no path: Words"),
    "another output": ("README.md", "send c0 1\nend", "send c0 2\nend", "differs from what is printed"),
    "an output of which a line is missing": ("README.md", "send c0 1\nend", "send c0 1", "differs from what is printed"),
    "an output that has changed": ("scenarios/first.stdout", "c0 1", "c1 1", "differs from what is printed"),
    "a line that is not printed": ("README.md", "3 p0 tick 3000", "3 p1 tick 3000", "not printed"),
    "a line in another place": ("README.md", "1 c0 tick 1000 -> 1     a remark", "3 p0 tick 3000 -> 0", "not printed"),
    "a line under a head that is not printed": ("README.md", "sends request p0 lost", "sends request p1 lost", "not printed"),
    "another scenario": ("README.md", "```text\nput a 1", "```text\nput a 2", "differs from scenarios/first"),
    "another output of a tool": ("README.md", "echo end", "echo done", "differs from what is printed by echo done"),
    "an output without a command": ("README.md", "<!-- lines: nezha trace < scenarios/first -->\n", "", "no command that prints it"),
    "another theorem": ("README.md", "> Each answer", "> Every answer", "its theorem is not that of"),
    "a page without a link": ("README.md", "[the map](docs/ARCHITECTURE.md)", "the map", "no link to docs/ARCHITECTURE.md"),
    "a crate that the map leaves out": ("docs/ARCHITECTURE.md", "nz_low, nezha", "nezha", "no word of the crate nz_low"),
    "a mark of a merge": ("README.md", "Two lines of a trace", "<<<<<<< HEAD\nTwo lines of a trace", "a mark that a merge has left"),
    "a page that is too large": ("README.md", "# A page", "# A page" + " and more" * 1400, "and may have 11264"),
}


class Planted(unittest.TestCase):
    def faults(self, files, program=None):
        with tempfile.TemporaryDirectory() as top:
            for path, text in files.items():
                os.makedirs(os.path.dirname(f"{top}/{path}"), exist_ok=True)
                with open(f"{top}/{path}", "w", encoding="utf-8") as it:
                    it.write(text)
            if program:
                os.chmod(f"{top}/{program}", stat.S_IRWXU)
            return pages.check(top, f"{top}/{program}" if program else None)

    def test_right_pages(self):
        self.assertEqual(self.faults(FILES), ([], []))

    def test_each_fault(self):
        for name, (path, old, new, fault) in PLANTED.items():
            with self.subTest(name):
                self.assertIn(old, FILES[path])
                found, _ = self.faults({**FILES, path: FILES[path].replace(old, new)})
                self.assertEqual(len([line for line in found if fault in line]), len(found), found)
                self.assertTrue(found)

    def test_output_that_waits_for_the_program(self):
        files = {path: text for path, text in FILES.items() if path != "crates/nezha/stdout"}
        self.assertEqual(self.faults(files), ([], ["nezha trace < scenarios/first"]))

    def test_program(self):
        program = '#!/bin/sh\n[ "$1" = trace ] && printf "1 c0 tick 1000 -> 1\\n3 p0 tick 3000 -> 0\\n"\n[ "$1" = story ] && printf "1 c0 tick 1000\\n  sends request p0 lost: num 1\\n"\nprintf "send c0 1\\nend\\n"\n'
        self.assertEqual(self.faults({**FILES, "bin/nezha": program}, "bin/nezha"), ([], []))
        found, _ = self.faults({**FILES, "bin/nezha": program.replace("3000", "4000")}, "bin/nezha")
        self.assertEqual(len(found), 1)
        self.assertIn("not printed", found[0])


class Here(unittest.TestCase):
    def test_this_repository(self):
        said = io.StringIO()
        with contextlib.redirect_stdout(said):
            status = pages.main([])
        self.assertEqual((status, said.getvalue()), (0, ""))


if __name__ == "__main__":
    unittest.main()

#!/usr/bin/env python3
"""The matchers of editors/ on one stored text, each in its editor where the machine has that: all find the same."""
import json
import os
import shutil
import tempfile
import unittest

from around import HERE, TOP, called, stored
from verac_report import KINDS

LINES = os.path.join(HERE, "reports", "editors.txt")
FOUND = stored("answers/editors").splitlines()


class Editors(unittest.TestCase):
    @unittest.skipUnless(shutil.which("vim"), "no vim")
    def test_vim(self):
        with tempfile.TemporaryDirectory() as folder:
            path = os.path.join(folder, "found")
            vim = ["vim", "-es", "-N", "-u", "NONE", "-i", "NONE", "-c", f"set runtimepath^={TOP}/editors/vim"]
            called(*vim, "-S", "matched.vim", LINES=LINES, FOUND=path)
            with open(path, encoding="utf-8") as file:
                self.assertEqual(file.read().splitlines(), FOUND)

    @unittest.skipUnless(shutil.which("emacs"), "no emacs")
    def test_emacs(self):
        """Emacs keeps the place; the text stays in its buffer."""
        ran = called("emacs", "-Q", "--batch", "-l", "matched.el", LINES=LINES)
        self.assertEqual(ran.stdout.decode().splitlines(), ["|".join(line.split("|")[:4]) for line in FOUND])

    @unittest.skipUnless(shutil.which("node"), "no node")
    def test_vscode(self):
        ran = called("node", "matched.js", f"{TOP}/editors/vscode/tasks.json", LINES)
        self.assertEqual(ran.stdout.decode().splitlines(), FOUND)


class Kinds(unittest.TestCase):
    def test_each_kind_is_named(self):
        emacs = stored("../../editors/emacs/verac.el")
        vscode = json.loads(stored("../../editors/vscode/tasks.json"))["tasks"][0]["problemMatcher"][0]["pattern"][0]["regexp"]
        for kind in KINDS:
            self.assertIn(f'"{kind}"', emacs)
        self.assertIn(f"(({'|'.join(KINDS)}) in .*)$", vscode)


if __name__ == "__main__":
    unittest.main()

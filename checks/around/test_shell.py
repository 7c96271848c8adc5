#!/usr/bin/env python3
"""The manual page, the completion of bash, what bin/install puts where, and the step of a CI, over stubs of the program."""
import os
import shutil
import tempfile
import unittest

from around import HERE, TOP, called, stored
from verac_report import KINDS

MANUAL = os.path.join(TOP, "man", "verac.1")
COMPLETION = os.path.join(TOP, "share", "bash-completion", "completions", "verac")


class Manual(unittest.TestCase):
    @unittest.skipUnless(shutil.which("man"), "no man")
    def test_no_warning(self):
        ran = called("man", "--warnings", MANUAL, folder=TOP)
        self.assertEqual((ran.returncode, ran.stderr), (0, b""))

    def test_kinds_and_statuses(self):
        page = stored("../../man/verac.1")
        for kind in KINDS:
            self.assertRegex(page, rf"(?m)^\.BR? {kind}\b")
        for status in range(7):
            self.assertIn(f".TP\n.B {status}\n", page)


class Completion(unittest.TestCase):
    def completed(self, function, *words):
        """What the last of the words may become."""
        script = (
            f'source "{COMPLETION}"; COMP_WORDS=("$@"); COMP_CWORD=$(($# - 1)); {function}; '
            'for reply in "${COMPREPLY[@]}"; do echo "$reply"; done'
        )
        ran = called("bash", "-c", script, "bash", *words, folder=self.folder)
        self.assertEqual(ran.stderr, b"")
        return sorted(ran.stdout.decode().splitlines())

    def setUp(self):
        made = tempfile.TemporaryDirectory()
        self.addCleanup(made.cleanup)
        self.folder = made.name
        os.mkdir(os.path.join(self.folder, "a folder"))
        for name in ["a.c", "a b.i", "a.h", "b.c", "a.report"]:
            with open(os.path.join(self.folder, name), "wb"):
                pass

    def test_commands(self):
        self.assertEqual(self.completed("_verac", "verac", ""), ["analyze"])
        self.assertEqual(self.completed("_verac", "verac", "b"), [])

    def test_files(self):
        self.assertEqual(self.completed("_verac", "verac", "analyze", "a"), ["a b.i", "a folder", "a.c"])
        self.assertEqual(self.completed("_verac", "verac", "analyze", "a.c", ""), [])
        self.assertEqual(self.completed("_verac", "verac", "analyze", "--st"), ["--state"])
        self.assertEqual(self.completed("_verac", "verac", "analyze", "a.c", "--"), ["--narrow", "--ramp", "--state", "--unroll"])
        self.assertEqual(self.completed("_verac", "verac", "analyze", "--ramp", ""), ["constants", "powers"])
        self.assertEqual(self.completed("_verac", "verac", "analyze", "--unroll", ""), [])
        self.assertIn("a.c", self.completed("_verac", "verac", "analyze", "--unroll", "3", ""))

    def test_pages(self):
        self.assertEqual(self.completed("_verac_html", "verac-html", "b"), ["b.c"])
        self.assertEqual(self.completed("_verac_html", "verac-html", "b.c", ""), ["a folder", "a.report"])


class Install(unittest.TestCase):
    def test_what_is_put(self):
        """bin/install over a build that is there: all of it runs where it was put."""
        with tempfile.TemporaryDirectory() as folder:
            top, prefix = os.path.join(folder, "top"), os.path.join(folder, "put")
            for part in ["bin", "share", "man"]:
                shutil.copytree(os.path.join(TOP, part), os.path.join(top, part))
            with open(os.path.join(top, "bin", "build"), "w", encoding="utf-8") as build:
                build.write(f'#!/bin/sh\necho "{HERE}/stub_verac"\n')
            ran = called(os.path.join(top, "bin", "install"), prefix)
            self.assertEqual((ran.returncode, ran.stdout.decode()), (0, f"{prefix}/bin/verac\n"))
            shutil.rmtree(top)
            self.check_put(prefix)

    def check_put(self, prefix):
        for name in ["bin/verac", "share/man/man1/verac.1", "share/bash-completion/completions/verac"]:
            self.assertEqual(os.access(os.path.join(prefix, name), os.X_OK), name.startswith("bin/"), name)
            self.assertTrue(os.path.isfile(os.path.join(prefix, name)), name)
        log = called(f"{prefix}/bin/verac-sarif", given=b"no alarm\n")
        self.assertEqual(log.stdout.decode(), stored("answers/seven.sarif"))
        page = called(f"{prefix}/bin/verac-html", "reports/seven.c", "reports/seven.report")
        self.assertEqual((page.returncode, page.stderr), (0, b""))


@unittest.skipUnless(shutil.which("cc"), "no C compiler")
class Recipe(unittest.TestCase):
    def checked(self, *words):
        """examples/ci/check on files that name the status of their analysis."""
        with tempfile.TemporaryDirectory() as folder:
            shutil.copy(os.path.join(HERE, "stub_verac"), os.path.join(folder, "verac"))
            for status in [0, 1, 2, 3, 6]:
                with open(os.path.join(folder, f"{status}.c"), "w", encoding="utf-8") as file:
                    file.write(f"#define STATUS {status}\nint status = STATUS;\n")
            with open(os.path.join(folder, "bad.c"), "w", encoding="utf-8") as file:
                file.write("#error\nint status = 0;\n")
            path = f"{folder}{os.pathsep}{os.environ['PATH']}"
            return called(os.path.join(TOP, "examples", "ci", "check"), *words, folder=folder, PATH=path).returncode

    def test_statuses(self):
        for status, words in [
            (0, ["0.c", "0.c"]),
            (1, ["0.c", "1.c", "0.c"]),
            (1, ["2.c"]),
            (1, ["--refused=fail", "2.c", "0.c"]),
            (0, ["--refused=warn", "2.c", "0.c"]),
            (1, ["--refused=warn", "2.c", "1.c"]),
            (2, ["1.c", "6.c", "0.c"]),
            (2, ["3.c"]),
            (2, ["bad.c", "0.c"]),
            (2, ["absent.c"]),
            (3, []),
            (3, ["--refused=warn"]),
            (3, ["--refused=never", "0.c"]),
        ]:
            with self.subTest(words=words):
                self.assertEqual(self.checked(*words), status)


if __name__ == "__main__":
    unittest.main()

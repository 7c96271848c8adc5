#!/usr/bin/env python3
"""Tests of the reader of reports, and of what it says of kinds against docs/USING.md."""
import re
import unittest

from around import stored
from verac_report import KINDS, Alarm, Call, Place, Refusal, Report, ReportError, read_reports

CALLED = """a.c:1:30: DivideByZero in main > twice@3:25 > half@2:37
  shown: value in [0,0]; allowed not 0
  example: 0
"""
DIVIDED = Alarm(
    "a.c",
    Place(1, 30),
    "DivideByZero",
    "main",
    (Call("twice", Place(3, 25)), Call("half", Place(2, 37))),
    "value in [0,0]; allowed not 0",
    "0",
)


def read(text):
    """The one report of a text."""
    (report,) = read_reports(text)
    return report


class Reading(unittest.TestCase):
    def test_no_alarm(self):
        self.assertEqual(read("no alarm\n"), Report())

    def test_an_alarm_with_its_calls(self):
        self.assertEqual(read(CALLED + "alarms 1\n"), Report((DIVIDED,)))
        self.assertEqual(DIVIDED.function, "half")
        self.assertEqual(DIVIDED.chain, "main > twice@3:25 > half@2:37")

    def test_an_alarm_of_main_itself(self):
        alarm = read("a.c:1:2: NoValue in main\n  shown: end may be none\n  example: none\nalarms 1\n").alarms[0]
        self.assertEqual((alarm.function, alarm.chain, alarm.calls), ("main", "main", ()))

    def test_facts_behind_an_alarm(self):
        facts = "  fact: x@1:5 in [0,3]\n  fact: y@1:7+4:4 = 1 mod 2\n"
        self.assertEqual(read(f"{CALLED}{facts}{CALLED}alarms 2\n").alarms[0].facts, ("x@1:5 in [0,3]", "y@1:7+4:4 = 1 mod 2"))

    def test_refusals(self):
        placed = read("a.c:1:42: refused: no rule for + on struct S and int\n").refusal
        self.assertEqual(placed, Refusal("a.c", Place(1, 42), "no rule for + on struct S and int"))
        self.assertEqual(read("a.c: refused: no main\n").refusal, Refusal("a.c", None, "no main"))

    def test_a_refusal_that_tells_places(self):
        refusal = read("a.c:1:60: refused: recursion f@1:60 > g@1:34\n").refusal
        self.assertEqual(refusal, Refusal("a.c", Place(1, 60), "recursion f@1:60 > g@1:34"))

    def test_names_with_blanks_and_colons(self):
        name = "/a dir/é:3:4: b.c"
        self.assertEqual(read(f"{name}:1:2: refused: syntax\n").refusal, Refusal(name, Place(1, 2), "syntax"))
        self.assertEqual(read(CALLED.replace("a.c", name) + "alarms 1\n").alarms[0].file, name)

    def test_several_reports(self):
        reports = read_reports(f"no alarm\n{CALLED}alarms 1\na.c: refused: no main\nno alarm\n")
        self.assertEqual(reports, [Report(), Report((DIVIDED,)), Report(refusal=Refusal("a.c", None, "no main")), Report()])


class Refusing(unittest.TestCase):
    """Each text that is no report is refused, with the line where it is none."""

    def refuse(self, text, line):
        with self.assertRaisesRegex(ReportError, f"^line {line}: "):
            read_reports(text)

    def test_nothing(self):
        self.refuse("", 1)
        self.refuse("\n", 1)

    def test_each_front_of_a_report(self):
        text = CALLED + CALLED + "alarms 2\n"
        for end in range(len(text)):
            with self.subTest(end=end), self.assertRaises(ReportError):
                read_reports(text[:end])

    def test_other_lines(self):
        self.refuse("no alarm\nverac: usage\n", 2)
        self.refuse("a.c:1:1: Other in main\n  shown: x\n  example: y\nalarms 1\n", 1)
        self.refuse(CALLED.replace("half@2:37", "half@2:37 and more") + "alarms 1\n", 1)
        self.refuse("a.c:0:1: Overflow in main\n  shown: x\n  example: y\nalarms 1\n", 1)
        self.refuse("a.c:1:1: Overflow in main\n  example: y\n  shown: x\nalarms 1\n", 2)

    def test_another_number(self):
        self.refuse(CALLED + "alarms 2\n", 4)
        self.refuse("alarms 1\n", 1)
        self.refuse("alarms 0\n", 1)


class Documented(unittest.TestCase):
    def test_kinds_are_those_of_the_page(self):
        part = stored("../../docs/USING.md").split("\n## Kinds of alarm\n")[1].split("\n### ")[0]
        rows = re.findall(r"^\| `(\w+)` \| (.*?) \| .* \| (.*?) \|$", part, re.MULTILINE)
        told = {name: (meaning.replace("`", ""), sections) for name, meaning, sections in rows}
        self.assertEqual({name: (kind.meaning, kind.sections) for name, kind in KINDS.items()}, told)
        self.assertEqual(list(KINDS), list(told))


if __name__ == "__main__":
    unittest.main()

#!/usr/bin/env python3
"""bin/verac-sarif on the stored reports: what it writes is what is stored, and has what SARIF 2.1.0 asks for.

Each log has the same rules, so one is stored whole, that of `no alarm`; of the others the results."""
import json
import os
import unittest

from around import TOP, called, stored

COMMAND = os.path.join(TOP, "bin", "verac-sarif")
LEVELS = {"none", "note", "warning", "error"}
STORED = ["kinds", "several", "name"]


def written(report, *words):
    """What the command makes of a report."""
    return called(COMMAND, *words, given=report)


def log_of(name):
    """The log of a stored report."""
    return json.loads(written(stored(f"reports/{name}.report").encode()).stdout)


class Answers(unittest.TestCase):
    def test_no_alarm(self):
        ran = written(b"no alarm\n")
        self.assertEqual((ran.returncode, ran.stderr), (0, b""))
        self.assertEqual(ran.stdout.decode(), stored("answers/seven.sarif"))

    def test_results(self):
        whole = log_of("seven")
        for name in STORED:
            with self.subTest(name=name):
                log = log_of(name)
                self.assertEqual(log["runs"][0]["results"], json.loads(stored(f"answers/{name}.results")))
                log["runs"][0]["results"] = []
                self.assertEqual(log, whole)

    def test_what_is_no_report(self):
        cut_off = stored("reports/kinds.report").encode()[:-1]
        for text in [b"", b"verac: usage\n", b"alarms 1\n", b"\xff\n", cut_off]:
            with self.subTest(text=text[:20]):
                ran = written(text)
                self.assertEqual((ran.returncode, ran.stdout, ran.stderr.count(b"\n")), (2, b"", 1))

    def test_words(self):
        self.assertEqual(written(b"", "a.c").returncode, 3)
        self.assertEqual(written(b"", "--help").returncode, 0)


class Rules(unittest.TestCase):
    """What the format's own text asks of the objects that are written."""

    def test_logs(self):
        for name in ["seven", *STORED]:
            with self.subTest(name=name):
                self.check_log(log_of(name))

    def check_log(self, log):
        self.assertEqual(log["version"], "2.1.0")
        self.assertTrue(log["$schema"].endswith("sarif-schema-2.1.0.json"))
        (run,) = log["runs"]
        self.assertIn(run["columnKind"], {"utf16CodeUnits", "unicodeCodePoints"})
        driver = run["tool"]["driver"]
        self.assertTrue(driver["name"])
        self.assertEqual(len({rule["id"] for rule in driver["rules"]}), 17)
        for rule in driver["rules"]:
            self.check_rule(rule)
        for result in run["results"]:
            self.check_result(result, driver["rules"])

    def check_rule(self, rule):
        self.check_message(rule["shortDescription"])
        self.check_message(rule["help"])
        self.assertIn(rule["defaultConfiguration"]["level"], LEVELS)

    def check_result(self, result, rules):
        self.check_message(result["message"])
        self.assertIn(result["level"], LEVELS)
        self.assertEqual(rules[result["ruleIndex"]]["id"], result["ruleId"])
        self.assertEqual(len(result["locations"]), 1)
        self.check_location(result["locations"][0])
        for flow in result.get("codeFlows", []):
            self.assertTrue(flow["threadFlows"])
            for thread in flow["threadFlows"]:
                self.check_steps(thread["locations"])

    def check_steps(self, steps):
        """The calls, each one deeper, and at last the place of the result."""
        self.assertEqual([step["nestingLevel"] for step in steps], list(range(len(steps))))
        for step in steps:
            self.check_location(step["location"])

    def check_location(self, location):
        physical = location["physicalLocation"]
        self.assertRegex(physical["artifactLocation"]["uri"], r"\A(file:///)?[A-Za-z0-9._~/%-]+\Z")
        region = physical.get("region")
        if region:
            self.assertGreaterEqual(min(region["startLine"], region["startColumn"]), 1)
        if "message" in location:
            self.check_message(location["message"])

    def check_message(self, message):
        """A text, without braces, which would stand for arguments, and without links."""
        self.assertRegex(message["text"], r"\A[^{}]+\Z")
        self.assertNotIn("](", message["text"])


if __name__ == "__main__":
    unittest.main()

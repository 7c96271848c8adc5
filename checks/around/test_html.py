#!/usr/bin/env python3
"""bin/verac-html on the stored files and reports: the page is what is stored, shows the text as it is, and is whole by itself.

The pages are stored without their style."""
import html.parser
import os
import re
import tempfile
import unittest

from around import HERE, TOP, called, stored

COMMAND = os.path.join(TOP, "bin", "verac-html")
STORED = ["seven", "calls", "bounds", "two", "empty"]
STYLE = re.compile(r"(?<=<style>\n).*(?=</style>)", re.DOTALL)
# Elements that have no end.
VOID = {"meta", "br", "link", "img", "input", "hr"}


def written(*words, report=b""):
    """What the command makes of files of the stored reports."""
    return called(COMMAND, *words, given=report, folder=os.path.join(HERE, "reports"))


def page_of(name):
    """The page of a stored file and report."""
    return written(f"{name}.c", f"{name}.report").stdout.decode()


class Reader(html.parser.HTMLParser):
    """Reads a page: its elements, which must nest, and the text of each line of the source."""

    def __init__(self, page):
        super().__init__()
        self.open, self.elements, self.lines = [], [], []
        self.feed(page)
        self.close()

    def handle_starttag(self, tag, attrs):
        self.elements.append((tag, dict(attrs)))
        if tag == "code":
            self.lines.append("")
        if tag not in VOID:
            self.open.append(tag)

    def handle_endtag(self, tag):
        if self.open.pop() != tag:
            raise AssertionError(f"</{tag}> at {self.getpos()}")

    def handle_data(self, data):
        if "code" in self.open:
            self.lines[-1] += data


class Answers(unittest.TestCase):
    def test_pages(self):
        for name in STORED:
            with self.subTest(name=name):
                self.assertEqual(STYLE.sub("", page_of(name)), stored(f"answers/{name}.html"))

    def test_report_on_standard_input(self):
        report = stored("reports/calls.report").encode()
        self.assertEqual(written("calls.c", report=report).stdout.decode(), page_of("calls"))

    def test_statuses(self):
        for status, words, report in [
            (0, ["--help"], b""),
            (2, ["calls.c"], b""),
            (2, ["calls.c"], b"no alarm\nno alarm\n"),
            (2, ["seven.c", "bounds.report"], b""),
            (3, [], b""),
            (3, ["calls.c", "calls.report", "more"], b""),
            (4, ["absent.c", "calls.report"], b""),
            (4, ["calls.c", "absent.report"], b""),
        ]:
            with self.subTest(words=words):
                ran = written(*words, report=report)
                self.assertEqual(ran.returncode, status)
                self.assertEqual((ran.stdout == b"", ran.stderr.count(b"\n")), (status != 0, 0 if status == 0 else 1))


class Pages(unittest.TestCase):
    def test_each_page_is_whole_by_itself(self):
        for name in STORED:
            with self.subTest(name=name):
                reader = Reader(page_of(name))
                self.assertEqual(reader.open, [])
                self.check_elements(reader.elements)
                self.assertEqual("".join(f"{line}\n" for line in reader.lines), stored(f"reports/{name}.c"))

    def check_elements(self, elements):
        names = [attributes["id"] for _, attributes in elements if "id" in attributes]
        self.assertEqual(len(names), len(set(names)))
        for tag, attributes in elements:
            self.assertNotIn(tag, {"script", "link", "img", "iframe", "object"})
            self.assertFalse({"src", "style"} & set(attributes) or any(name.startswith("on") for name in attributes))
            if "href" in attributes:
                self.assertEqual(attributes["href"][0], "#")
                self.assertIn(attributes["href"][1:], names)

    def hostile_page(self, source, report):
        """The page of a file whose name, too, tries to leave its place; NAME in the report stands for it."""
        with tempfile.TemporaryDirectory() as folder:
            name = os.path.join(folder, "<b>&'\".c")
            with open(name, "wb") as file:
                file.write(source)
            ran = written(name, report=report.replace("NAME", name).encode())
        reader = Reader(ran.stdout.decode())
        self.assertEqual((ran.returncode, reader.open), (0, []))
        self.check_elements(reader.elements)
        self.assertNotIn("i", {tag for tag, _ in reader.elements})
        self.assertEqual("\n".join([*reader.lines, ""]), source.replace(b"\xff", b"?").decode())
        return ran.stdout.decode()

    def test_hostile_refusal(self):
        source = b'<script>&lt;"\'\n\xff\xc3\xa9</code></div>\n<i>a+\xe2\x82\xac<i>\n'
        page = self.hostile_page(source, "NAME:3:5: refused: no rule for <i>&amp;\n")
        self.assertIn("a<mark>+</mark>\u20ac", page)

    def test_hostile_alarm(self):
        """The report is the program's, but a page shows any as it is."""
        shown, example = "<i> in {<i>@2:1(4)}<i>", "<i>&amp;"
        head = "NAME:1:4: Access in main > f@2:1"
        page = self.hostile_page(b"\xffa+<i>\nf\n", f"{head}\n  shown: {shown}\n  example: {example}\nalarms 1\n")
        self.assertIn('&lt;i&gt; in {&lt;i&gt;@<a href="#line-2">2:1</a>(4)}&lt;i&gt;', page)
        self.assertIn("&lt;i&gt;&amp;amp;", page)


if __name__ == "__main__":
    unittest.main()

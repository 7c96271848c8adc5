"""Reads what `verac analyze` writes on standard output: `no alarm`, alarms with their number, or the refusal of a file.

`read_reports` takes one such report, or several behind each other, and gives a `Report` for each; what is no report, or is
cut off, is a `ReportError` that names the line. docs/USING.md tells what each line means.
"""

from __future__ import annotations

import re
from dataclasses import dataclass


class ReportError(ValueError):
    """The text is no report, or the front of one."""


@dataclass(frozen=True)
class Place:
    """A line and a column, both from 1; columns count bytes."""

    line: int
    column: int


@dataclass(frozen=True)
class Call:
    """The call of a function, and the place where it is called."""

    function: str
    place: Place


@dataclass(frozen=True)
class Alarm:
    """One alarm: an operator that may go wrong, reached from `entry` by `calls`."""

    file: str
    place: Place
    kind: str
    entry: str
    calls: tuple[Call, ...]
    shown: str
    example: str
    facts: tuple[str, ...] = ()

    @property
    def function(self):
        """The function in which the operator stands."""
        return self.calls[-1].function if self.calls else self.entry

    @property
    def chain(self):
        """The functions from `entry` on, as the report's line writes them."""
        called = (f"{call.function}@{call.place.line}:{call.place.column}" for call in self.calls)
        return " > ".join([self.entry, *called])


@dataclass(frozen=True)
class Refusal:
    """Why a file is refused, with the place, or None where the refusal is of the whole file."""

    file: str
    place: Place | None
    reason: str


@dataclass(frozen=True)
class Report:
    """The answer on one file: alarms, of which there may be none, or a refusal."""

    alarms: tuple[Alarm, ...] = ()
    refusal: Refusal | None = None


@dataclass(frozen=True)
class Kind:
    """What goes wrong in alarms of a kind, and the sections of C11 that speak of it, as docs/USING.md has them."""

    meaning: str
    sections: str


KINDS = {
    "Overflow": Kind("the result of + - *, unary -, ++ or -- on a signed type is no number of the type", "6.5p5"),
    "DivideByZero": Kind("the right operand of / or % is 0", "6.5.5p5"),
    "Quotient": Kind("the quotient of / or % on a signed type is no number of the type", "6.5.5p6"),
    "ShiftAmount": Kind("the right operand of << or >> is below 0, or not below the width", "6.5.7p3"),
    "ShiftResult": Kind("<< of a negative number, or a result that is too large, on a signed type", "6.5.7p4"),
    "Indeterminate": Kind("a load of bytes that have no value", "6.2.6.1p5, 6.3.2.1p2"),
    "Fragment": Kind("a load of bytes that are no value of the type, as a part of a pointer", "6.2.6.1p5"),
    "NullUse": Kind("a null pointer is followed, moved, ordered or subtracted", "6.5.3.2p4, 6.5.6p8 and p9, 6.5.8p5"),
    "Dangling": Kind("a pointer to an object that has ended is followed, moved, compared or tested", "6.2.4p2, 6.5.3.2p4"),
    "Bounds": Kind("a pointer is moved to before its object, or beyond one past its end", "6.5.6p8"),
    "Access": Kind("an access of bytes that are not all in the object", "6.5.3.2p4, 6.5.6p8"),
    "Alignment": Kind("an access at an offset that is no multiple of the alignment", "6.3.2.3p7, 6.5.3.2p4"),
    "ReadOnly": Kind("a store to a string literal or to an object that was declared const", "6.4.5p7, 6.7.3p6"),
    "Unrelated": Kind(
        "<, or -, of pointers into two objects; - at a distance that is no whole number of elements; "
        "== of one past the end of an object and a pointer into another",
        "6.5.8p5, 6.5.6p9; the last stricter than 6.5.9p6",
    ),
    "NoValue": Kind("the value of a call is used whose function reached its end without one", "6.9.1p12"),
    "AssertFailed": Kind("the operand of __assert is 0", "none; a check of this tool"),
}

CHAIN = re.compile(r" > (?P<function>\w+)@(?P<line>[1-9]\d*):(?P<column>[1-9]\d*)", re.ASCII)
HEAD = re.compile(
    rf"(?P<file>.+):(?P<line>[1-9]\d*):(?P<column>[1-9]\d*): (?P<kind>{'|'.join(KINDS)})"
    r" in (?P<entry>\w+)(?P<calls>(?: > \w+@[1-9]\d*:[1-9]\d*)*)",
    re.ASCII,
)
REFUSED = re.compile(r"(?P<file>.+?)(?::(?P<line>[1-9]\d*):(?P<column>[1-9]\d*))?: refused: (?P<reason>.+)", re.ASCII)
NO_ALARM = "no alarm"
SHOWN, EXAMPLE, FACT = "  shown: ", "  example: ", "  fact: "


def read_reports(text):
    """The reports of a text, which has one at least."""
    lines = Lines(text)
    reports = [read_report(lines)]
    while lines.is_more():
        reports.append(read_report(lines))
    return reports


def read_report(lines):
    """The report that begins at the next line."""
    if lines.take(NO_ALARM):
        return Report()
    refused = lines.match(REFUSED)
    if refused:
        return Report(refusal=Refusal(refused["file"], place_of(refused), refused["reason"]))
    return Report(alarms=read_alarms(lines))


def read_alarms(lines):
    """The alarms up to the line with their number."""
    alarms = []
    while head := lines.match(HEAD):
        alarms.append(read_alarm(head, lines))
    if not alarms or not lines.take(f"alarms {len(alarms)}"):
        raise lines.error(f"not an alarm, and not the number of the {len(alarms)} before")
    return tuple(alarms)


def read_alarm(head, lines):
    """The alarm with this first line, whose other lines come next."""
    return Alarm(
        file=head["file"],
        place=place_of(head),
        kind=head["kind"],
        entry=head["entry"],
        calls=tuple(Call(call["function"], place_of(call)) for call in CHAIN.finditer(head["calls"])),
        shown=lines.rest_of(SHOWN),
        example=lines.rest_of(EXAMPLE),
        facts=tuple(lines.rests_of(FACT)),
    )


def place_of(match):
    """The place that a line tells, or None where it tells none."""
    return Place(int(match["line"]), int(match["column"])) if match["line"] else None


class Lines:
    """The lines of a text, from the first that is not read yet."""

    def __init__(self, text):
        self.lines = text.split("\n")
        self.next = 0
        # Each line of a report has its end, so behind the last one there is an empty one.
        if self.lines.pop() != "":
            self.next = len(self.lines)
            raise self.error("the text ends inside of a line")

    def is_more(self):
        """Whether a line is left."""
        return self.next < len(self.lines)

    def current(self):
        """The next line, or None behind the last one."""
        return self.lines[self.next] if self.is_more() else None

    def take(self, whole):
        """Whether the next line is this one, which is then read."""
        is_next = self.current() == whole
        self.next += is_next
        return is_next

    def match(self, pattern):
        """The match of the whole next line, which is then read, or None."""
        found = pattern.fullmatch(self.current() or "")
        self.next += found is not None
        return found

    def rest_of(self, front):
        """What stands behind this front of the next line, which is then read."""
        line = self.current()
        if line is None or not line.startswith(front):
            raise self.error(f"no line that begins with '{front}'")
        self.next += 1
        return line[len(front) :]

    def rests_of(self, front):
        """The same of each next line that begins so."""
        while (self.current() or "").startswith(front):
            yield self.rest_of(front)

    def error(self, what):
        """That the next line is not what a report goes on with."""
        return ReportError(f"line {self.next + 1}: {what}")

"""Outcomes of tests as JUnit's XML, which services for continuous integration read."""
from typing import List
from xml.sax.saxutils import escape, quoteattr

from .outcomes import FAILED, NOT_RUN, Outcome, by_file


def _safe(text: str) -> str:
    """A text without what XML cannot hold."""
    return "".join(one if one in "\t\n" or (one >= " " and one not in "\ufffe\uffff") else "\ufffd" for one in text)


def _counts(outcomes: List[Outcome]) -> str:
    """The attributes that count outcomes."""
    found = [outcome.status() for outcome in outcomes]
    seconds = sum(outcome.seconds for outcome in outcomes)
    counts = f'tests="{len(found)}" failures="{found.count(FAILED)}" errors="{found.count(NOT_RUN)}"'
    return f'{counts} time="{seconds:.3f}"'


def document(outcomes: List[Outcome]) -> str:
    """The document of all tests, a suite for each file; a test that was not run is an error."""
    lines = ['<?xml version="1.0" encoding="UTF-8"?>', f"<testsuites {_counts(outcomes)}>"]
    for file, found in by_file(outcomes):
        lines.append(f"  <testsuite name={quoteattr(_safe(file))} {_counts(found)}>")
        lines += [line for outcome in found for line in _case(outcome)]
        lines.append("  </testsuite>")
    return "\n".join(lines + ["</testsuites>"]) + "\n"


def _case(outcome: Outcome) -> List[str]:
    test = outcome.test
    head = f"    <testcase name={quoteattr(_safe(test.name))} classname={quoteattr(_safe(test.file))}"
    head += f' line="{test.line}" time="{outcome.seconds:.3f}"'
    if not outcome.difference:
        return [head + "/>"]
    kind, shown = ("error", 1) if outcome.status() == NOT_RUN else ("failure", 2)
    message = quoteattr(_safe(" ".join(outcome.difference[:shown])))
    text = escape(_safe("\n".join(outcome.difference)))
    return [head + ">", f"      <{kind} message={message}>{text}</{kind}>", "    </testcase>"]

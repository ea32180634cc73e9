"""Outcomes of tests by the Test Anything Protocol, version 13, and as objects of JSON."""
import json
from typing import List

from .coverage import Coverage
from .outcomes import NOT_RUN, PASSED, Outcome, matched_of, told


def tap_lines(outcomes: List[Outcome]) -> List[str]:
    """The lines of the protocol: the plan, then a line for each test, with a block of YAML if it did not pass."""
    lines = ["TAP version 13", f"1..{len(outcomes)}"]
    for number, outcome in enumerate(outcomes, 1):
        sign = "ok" if outcome.status() == PASSED else "not ok"
        lines.append(f"{sign} {number} - {_one_line(outcome.test.name)}")
        if outcome.difference:
            place = f"{outcome.test.file}:{outcome.test.line}"
            lines += ["  ---", f"  at: {json.dumps(place)}", f"  status: {outcome.status()}", "  message: |2"]
            lines += [f"    {line}" for line in outcome.difference] + ["  ..."]
    return lines


def _one_line(text: str) -> str:
    """A name without `#`, which would begin a directive."""
    return " ".join(text.split()).replace("#", "\\#")


def json_lines(outcomes: List[Outcome], found: List[Coverage], seconds: float) -> List[str]:
    """An object for each test on a line, and one that counts them."""
    lines = [json.dumps(_object(outcome), ensure_ascii=False) for outcome in outcomes]
    statuses = [outcome.status() for outcome in outcomes]
    counts = {status.replace(" ", "_"): statuses.count(status) for status in ("passed", "failed", NOT_RUN)}
    gaps = [{"filter": one.subject, "policy": name, "gap": gap} for one in found for name, gap in one.gaps()]
    return lines + [json.dumps({"tests": len(outcomes), **counts, "seconds": round(seconds, 3), "gaps": gaps})]


def _object(outcome: Outcome) -> dict:
    test, was_run = outcome.test, outcome.status() != NOT_RUN
    return {
        "name": test.name,
        "file": test.file,
        "line": test.line,
        "status": outcome.status(),
        "expect": test.expect or None,
        "answer": told(outcome.answer) if was_run else None,
        "matched": matched_of(outcome.answer) if "verdict" in outcome.answer else None,
        "seconds": round(outcome.seconds, 6),
        "difference": outcome.difference,
    }

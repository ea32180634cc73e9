"""Reports of `policy check` in forms that programs read: objects of JSON, SARIF, and GitHub's annotations."""
import json
from typing import List, Optional

from .checking import Report
from .conditions_typing import Bound
from .findings import NAMES, Finding, part_name
from .lint.names import MEANINGS

TEXT, JSON, SARIF, GITHUB = "text", "json", "sarif", "github"
FORMS = (TEXT, JSON, SARIF, GITHUB)
SCHEMA = "https://json.schemastore.org/sarif-2.1.0.json"
MISTAKE, REFUSED, NOTE = "mistake", "refused", "note"
# The levels of SARIF and of GitHub.
LEVELS = {MISTAKE: ("error", "error"), REFUSED: ("error", "error"), NOTE: ("warning", "warning")}


def as_json(report: Report, budget: int) -> dict:
    """A report as one object."""
    findings = [_mistake_json(mistake) for mistake in report.mistakes]
    findings += [_finding_json(finding) for finding in report.findings]
    findings.sort(key=lambda one: (one["line"] or 0, one["column"] or 0))
    refusal = None if report.is_admitted() or report.admission is None else report.admission.number
    if refusal is None and not report.is_admitted():
        refusal = next((finding.number for finding in report.findings if finding.number), None)
    return {
        "file": report.file,
        "filter": report.name or None,
        "admitted": report.is_admitted(),
        "refused": refusal,
        "name": NAMES.get(refusal) if refusal else None,
        "bound": report.admission.bound if report.admission is not None and report.is_admitted() else None,
        "budget": budget,
        "policies": [_bound_json(bound) for bound in report.bounds],
        "findings": findings,
        "engine": report.admission is not None,
    }


def _bound_json(bound: Bound) -> dict:
    return {"name": bound.policy, "bound": bound.steps, "condition": bound.condition is not None}


def _place_json(place: Optional[tuple]) -> dict:
    return {"line": place[0] + 1 if place else None, "column": place[1] + 1 if place else None}


def _mistake_json(mistake) -> dict:
    place = _place_json(mistake.place)
    return {"kind": "mistake", "refused": mistake.number or None, "message": mistake.words, "part": None, **place}


def _finding_json(finding: Finding) -> dict:
    kind = "refused" if finding.number else "note"
    message, part = finding.words.partition("\n")[0], part_name(finding.path) or None
    return {
        "kind": kind,
        "refused": finding.number or None,
        "lint": finding.lint or None,
        "message": message,
        "part": part,
        **_place_json(finding.place),
    }


def json_lines(reports: List[Report], budget: int) -> List[str]:
    """An object for each filter, on a line."""
    return [json.dumps(as_json(report, budget)) for report in reports]


def _findings(reports: List[Report], budget: int) -> List[dict]:
    """What was found, with the file of each."""
    return [{"file": report.file, **one} for report in reports for one in as_json(report, budget)["findings"]]


def _rule(finding: dict) -> str:
    """The name by which a finding is known: of the note, or of the refusal."""
    if finding["kind"] == MISTAKE:
        return MISTAKE
    return finding.get("lint") or NAMES.get(finding["refused"]) or finding["kind"]


def _words(finding: dict) -> str:
    part = finding.get("part")
    return f"{part}: {finding['message']}" if part and not finding["line"] else finding["message"]


def sarif_lines(reports: List[Report], budget: int, version: str) -> List[str]:
    """One document of SARIF 2.1.0."""
    found = _findings(reports, budget)
    rules = [{"id": name, "shortDescription": {"text": MEANINGS.get(name, name)}} for name in sorted(set(map(_rule, found)))]
    driver = {"name": "policy", "version": version, "rules": rules}
    run = {"tool": {"driver": driver}, "columnKind": "unicodeCodePoints", "results": list(map(_result, found))}
    return [json.dumps({"$schema": SCHEMA, "version": "2.1.0", "runs": [run]}, indent=1)]


def _result(finding: dict) -> dict:
    place = {"artifactLocation": {"uri": finding["file"].replace("\\", "/")}}
    if finding["line"]:
        place["region"] = {"startLine": finding["line"], "startColumn": finding["column"]}
    level = LEVELS[finding["kind"]][0]
    message = {"text": _words(finding)}
    return {"ruleId": _rule(finding), "level": level, "message": message, "locations": [{"physicalLocation": place}]}


def github_lines(reports: List[Report], budget: int) -> List[str]:
    """A command of GitHub's workflows for each finding, which shows it beside the line."""
    return list(map(_command, _findings(reports, budget)))


def _command(finding: dict) -> str:
    properties = {"file": finding["file"], "line": finding["line"], "col": finding["column"], "title": _rule(finding)}
    told = ",".join(f"{name}={_property(str(value))}" for name, value in properties.items() if value)
    return f"::{LEVELS[finding['kind']][1]} {told}::{_data(_words(finding))}"


def _data(text: str) -> str:
    return text.replace("%", "%25").replace("\r", "%0D").replace("\n", "%0A")


def _property(text: str) -> str:
    return _data(text).replace(":", "%3A").replace(",", "%2C")

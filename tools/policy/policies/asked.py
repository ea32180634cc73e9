"""What the command line says of requests: their parts, and conditions as texts of CEL."""
import json
import re
from typing import Dict, List

from .encode import encode
from .engine import Request
from .files import name_of, read_file
from .places import Mistake, Source
from .requests import Reader, request_log
from .wrap import text_fault

WHEN = "--when"
# A filter whose one policy has the condition of a question.
AROUND = """rules:
  policies:
    when:
      permissions: [{any: true}]
      principals: [{any: true}]
      checked_condition:
        text: |-
"""
INDENT = " " * 10
HEAD = re.compile(rb"[!-~]+ [!-~\x80-\xff]+ HTTP/1\.[01]\r?\n")
NUMBER = re.compile(r"[0-9]+\Z")


def condition_filter(text: str) -> bytes:
    """The bytes of the filter that lets a request pass where a condition is true; raises Mistake at the place in the text."""
    if not text.strip() or not text.isprintable():
        raise Mistake(f"policy: {WHEN} takes a condition in CEL on one line, such as 'request.method == \"GET\"'")
    shown = Source(WHEN, text.encode())
    lines, start = AROUND.count("\n"), len(INDENT) - len(text) + len(text.lstrip())
    # leading spaces would be those of the layout
    try:
        data, findings = encode(Source(WHEN, (AROUND + INDENT + text.strip() + "\n").encode()), budget=2**63)
    except Mistake as mistake:
        raise _moved(shown, mistake, lines, start) from None
    refused = [finding for finding in findings if finding.number]
    if refused:
        line, column = refused[0].place or (lines, start)
        raise shown.mistake((line - lines, max(0, column - start)), refused[0].words, refused[0].number)
    return data


def _moved(shown: Source, mistake: Mistake, lines: int, start: int) -> Mistake:
    """A mistake at its place in the text of the condition alone."""
    if mistake.place is None:
        return mistake
    line, column = mistake.place
    return shown.mistake((line - lines, max(0, column - start)), mistake.words, mistake.number)


def request_of_words(fields: Dict[str, object], headers: List[str], facts: List[str]) -> Request:
    """The request of a command line's words: method, path, host and version, lines of headers, and facts; raises Mistake."""
    for what, text in [*fields.items(), *(("header", line) for line in headers)]:
        _check_text(what, text)
    pairs: Dict[str, List[str]] = {}
    for line in headers:
        name, colon, value = line.partition(":")
        if not colon or not name.strip():
            raise Mistake(f"policy: --header takes a name and a value, as in 'x-user: alice', not {json.dumps(line)}")
        pairs.setdefault(name.strip(), []).append(value.strip(" \t"))
    given = {name: value for name, value in fields.items() if value is not None}
    written = {**given, **({"headers": pairs} if pairs else {})}
    reader = Reader(Source("the request", json.dumps(written).encode()))
    head = reader.head(reader.source.compose())
    if reader.mistakes:
        raise Mistake(f"policy: {reader.mistakes[0].words}")
    return Request(head, facts_of_words(facts))


def _check_text(what: str, text: object) -> None:
    """Raises Mistake if a word of the command line is not UTF-8."""
    fault = text_fault(what, text) if isinstance(text, str) else None
    if fault is not None:
        raise Mistake(f"policy: {fault}")


def facts_of_words(words: List[str]) -> dict:
    """Facts as `name=value`; raises Mistake."""
    found = {}
    for word in words:
        _check_text("fact", word)
        name, equals, value = word.partition("=")
        if not equals or not name:
            raise Mistake(f"policy: --fact takes a name and a value, as in remote_ip=10.0.0.1, not {json.dumps(word)}")
        found[name] = _fact(name, value)
    return found


def _fact(name: str, value: str) -> object:
    """A fact of its kind: whether there is mTLS, a number, or a text."""
    if name == "connection.mtls" and value in ("true", "false"):
        return value == "true"
    if name in ("source.port", "destination.port", "connection.id") and NUMBER.match(value):
        return int(value)
    return value


def request_of_file(name: str) -> Request:
    """The request of a file: one in YAML or JSON as tests have it, or a whole head; raises Mistake."""
    data = read_file(name)
    if HEAD.match(data):
        lines = data.replace(b"\r\n", b"\n").partition(b"\n\n")[0].rstrip(b"\n").split(b"\n")
        try:
            return Request(b"\r\n".join(lines).decode().encode() + b"\r\n\r\n", {})
        except UnicodeDecodeError:
            raise Mistake(f"{name_of(name)}: this head is not UTF-8") from None
    found = request_log(Source(name_of(name), data))
    if len(found) != 1:
        raise Mistake(f"{name_of(name)}: this file has {len(found)} requests, and one is expected; `policy diff` takes several")
    return found[0][1]


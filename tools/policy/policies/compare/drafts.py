"""Requests by the values of their dimensions, as the engine takes them and as people write them in tests."""
import json
from typing import Dict, List

from ..engine import Request
from ..scalars import text_scalar
from .spaces import AUTHORITY, DEFAULTS, METHOD, MTLS, PEER, TARGET, VERSION, Dimension

Draft = Dict[Dimension, object]


def _facts(draft: Draft) -> dict:
    facts = {}
    for dimension, value in draft.items():
        if dimension[0] == "fact" and value is not None:
            facts[dimension[1]] = value
    peer = draft.get(PEER)
    if peer is not None and peer.mtls is not None:
        facts[MTLS] = peer.mtls
    if peer is not None and peer.name is not None:
        facts["connection.uri_san_peer_certificate"] = peer.name
    return facts


def _headers(draft: Draft) -> Dict[str, str]:
    return {one[1]: value for one, value in draft.items() if one[0] == "header" and value is not None}


def request_of(draft: Draft) -> Request:
    """The request of some values; a request without a host is of HTTP/1.0."""
    values = {**DEFAULTS, **draft}
    host = values[AUTHORITY]
    version = values[VERSION] if host is not None else "1.0"
    lines = [f"{values[METHOD]} {values[TARGET]} HTTP/{version}"]
    lines += [f"host:{host}"] if host is not None else []
    lines += [f"{name}:{value}" for name, value in _headers(draft).items()]
    return Request("\r\n".join([*lines, "", ""]).encode(), _facts(draft))


def shown(draft: Draft) -> str:
    """The request and its facts as a test has them."""
    values = {**DEFAULTS, **draft}
    fields = [f"method: {_text(values[METHOD])}", f"path: {_text(values[TARGET])}"]
    headers = [f"{_text(name)}: {_text(value)}" for name, value in _headers(draft).items()]
    if values[AUTHORITY] is None:
        head = request_of(draft).head.decode().replace("\r\n", "\n").rstrip("\n")
        fields = [f"head: {json.dumps(head, ensure_ascii=False)}"]
    else:
        fields += [f"version: {_text(values[VERSION])}"] if values[VERSION] != DEFAULTS[VERSION] else []
        fields += [f"host: {_text(values[AUTHORITY])}"] if values[AUTHORITY] != DEFAULTS[AUTHORITY] else []
        fields += [f"headers: {{{', '.join(headers)}}}"] if headers else []
    facts = ", ".join(f"{name}: {_value(value)}" for name, value in _facts(draft).items())
    return f"request: {{{', '.join(fields)}}}" + (f", facts: {{{facts}}}" if facts else "")


def _value(value: object) -> str:
    return _text(value) if isinstance(value, str) else json.dumps(value)


def _text(value: object) -> str:
    return text_scalar(str(value))


def weight(draft: Draft) -> tuple:
    """How far a request is from the plainest one."""
    others = [value for dimension, value in draft.items() if value not in (None, DEFAULTS.get(dimension))]
    return len(others), sum(len(str(value)) for value in others)


def plain_first(values: List[object], dimension: Dimension) -> List[object]:
    """Values with the plainest first."""
    default = DEFAULTS.get(dimension)
    return sorted(values, key=lambda value: (value != default, value is not None, len(str(value)), str(value)))

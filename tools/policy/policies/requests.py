"""Requests as people write them, to the bytes of heads and to facts."""
import re
from typing import Dict, List, Optional, Tuple

import yaml

from .engine import Request
from .forms.nodes import Node, items, names, pairs, text_of
from .places import Mistake, Source, start_of, together
from .scalars import is_absent, is_bool

REQUEST_FIELDS = ("method", "path", "host", "headers", "version", "head")
INTEGER = re.compile(r"-?[0-9]+\Z")
BREAKS = re.compile(r"[\r\n\0]")
HOSTS = ("host", ":authority")


class Reader:
    """Reads requests of one file; it keeps the mistakes in them, and goes on."""

    def __init__(self, source: Source):
        self.source = source
        self.mistakes: List[Mistake] = []

    def mistake(self, node: Optional[Node], words: str) -> Mistake:
        """The mistake at a node."""
        return self.source.mistake(start_of(node), words)

    def tell(self, node: Optional[Node], words: str) -> None:
        """Keeps a mistake at a node."""
        self.mistakes.append(self.mistake(node, words))

    def known(self, node: Optional[Node], fields, what: str) -> Dict[str, Node]:
        """The fields of a mapping that are known."""
        if not isinstance(node, yaml.MappingNode):
            self.tell(node, f"{what} is a mapping of {', '.join(fields)}")
        found: Dict[str, Node] = {}
        for name, key, value in pairs(node):
            if name not in fields:
                self.tell(key, f"{what} has no field `{name}`: it has {', '.join(fields)}")
            elif name in found:
                self.tell(key, f"`{name}` is here twice")
            else:
                found[name] = value
        return found

    def line(self, node: Node, what: str) -> str:
        """A text of one line."""
        value = text_of(node)
        if value is None or BREAKS.search(value):
            self.tell(node, f"{what} is a text of one line")
            return ""
        return value

    def head(self, node: Node) -> bytes:
        """The bytes of a request's head."""
        fields = self.known(node, REQUEST_FIELDS, "a request")
        if "head" in fields:
            return self._raw(fields["head"], fields)
        method = self.line(fields["method"], "a method") if "method" in fields else "GET"
        path = self.line(fields["path"], "a path") if "path" in fields else "/"
        version = self.line(fields["version"], "a version") if "version" in fields else "1.1"
        lines, hosts = [], []
        for name, key, value in self._headers(fields.get("headers")):
            if name.lower() not in HOSTS:
                lines.append((name, value))
                continue
            hosts.append(value)
            if "host" in fields:
                self.tell(key, f"the host is here twice: as `host`, and as the header `{name}`")
        if "host" in fields:
            hosts = [self.line(fields["host"], "a host")]
        lines = [("host", host) for host in hosts or ["test"]] + lines
        text = f"{method} {path} HTTP/{version}\r\n" + "".join(f"{name}: {value}\r\n" for name, value in lines) + "\r\n"
        return text.encode()

    def _raw(self, node: Node, fields: dict) -> bytes:
        """A head as it is written, each line ended by CR LF."""
        text = text_of(node)
        if len(fields) > 1 or text is None:
            self.tell(node, "`head` is the text of a whole head, and no other field goes with it")
            return b""
        return "\r\n".join(text.replace("\r\n", "\n").rstrip("\n").split("\n")).encode() + b"\r\n\r\n"

    def _headers(self, node: Optional[Node]) -> List[Tuple[str, Node, str]]:
        """The lines of headers: the name, its key in the file, and the value."""
        if node is None or is_absent(node):
            return []
        if not isinstance(node, yaml.MappingNode):
            self.tell(node, "headers are a mapping from names to texts, or to lists of texts")
        lines = []
        for name, key, value in pairs(node):
            if not name or BREAKS.search(name):
                self.tell(key, "a header has a name of one line")
            for part in items(value) or [value]:
                lines.append((name, key, self.line(part, f"the header {name}")))
        return lines

    def facts(self, node: Optional[Node]) -> dict:
        """Facts as JSON has them."""
        if node is None or is_absent(node):
            return {}
        if not isinstance(node, yaml.MappingNode):
            self.tell(node, "facts are a mapping from names, such as source.port, to values")
        return {name: self._fact(value) for name, _, value in pairs(node)}

    def _fact(self, node: Node):
        value = self.line(node, "a fact")
        if is_bool(node):
            return value == "true"
        if not getattr(node, "style", None) and INTEGER.match(value):
            return int(value)
        return value


def request_log(source: Source) -> List[Tuple[int, Request, str]]:
    """The requests of a log, a list in YAML or JSON, or a JSON object a line: line, request, and what to call it; raises
    Mistake."""
    reader = Reader(source)
    found = []
    for node in _entries(reader):
        fields = {name: value for name, _, value in pairs(node)} if isinstance(node, yaml.MappingNode) else {}
        request = _request_node(node, fields)
        facts = reader.facts(fields.get("facts"))
        head = reader.head(request)
        found.append((start_of(node)[0] + 1, Request(head, facts), head.split(b"\r\n")[0].decode()))
    if reader.mistakes:
        raise together(reader.mistakes)
    return found


def _entries(reader: Reader) -> List[Node]:
    source = reader.source
    lines = source.text.splitlines()
    if sum(line.lstrip().startswith("{") for line in lines) > 1 and not source.text.lstrip().startswith("["):
        return [node for number, line in enumerate(lines) if line.strip() for node in _moved(reader, line, number)]
    nodes = [part for document in source.documents() for part in items(document) or [document]]
    if len(nodes) == 1 and names(nodes[0])[:1] == ["requests"]:
        return items(nodes[0].value[0][1])
    return nodes


def _moved(reader: Reader, line: str, number: int) -> List[Node]:
    """A line of JSON as a node whose place is in the whole file; none if it has a mistake, which is kept."""
    try:
        node = Source(reader.source.name, line.encode()).compose()
    except Mistake as mistake:
        line_of_it, column = mistake.place or (0, 0)
        place = (number, len(line) if line_of_it else column)
        reader.mistakes.append(reader.source.mistake(place, mistake.words))
        return []
    if node is None:
        reader.mistakes.append(reader.source.mistake((number, 0), "a JSON object is expected on each line"))
        return []
    _shift(node, number)
    return [node]


def _shift(node: Node, lines: int) -> None:
    """Moves the places of a node and of all in it down by so many lines."""
    mark = node.start_mark
    node.start_mark = yaml.Mark(mark.name, mark.index, mark.line + lines, mark.column, None, 0)
    parts = node.value if isinstance(node, yaml.CollectionNode) else []
    for part in parts:
        for one in part if isinstance(part, tuple) else (part,):
            _shift(one, lines)


def _request_node(node: Node, fields: Dict[str, Node]) -> Node:
    if "request" in fields:
        return fields["request"]
    if not isinstance(node, yaml.MappingNode):
        return node
    kept = [(key, value) for key, value in node.value if getattr(key, "value", "") != "facts"]
    return yaml.MappingNode(node.tag, kept, node.start_mark, node.end_mark)

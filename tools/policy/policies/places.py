"""Files of YAML with the place of every part, and mistakes that show the line.

A place is a line and a column, both counted from 0; people see them counted from 1.
"""
import json
import re
from functools import cached_property
from typing import Dict, List, Optional, Tuple

import yaml

from .refusals import NAMES

Place = Tuple[int, int]
LINE_END = re.compile("\r\n|[\n\r\x85\u2028\u2029]")
# A character beyond U+FFFF as JSON escapes it, which YAML does not take; an even number of backslashes is before.
SURROGATES = re.compile(r"(?<!\\)((?:\\\\)*)\\u([dD][89abAB][0-9a-fA-F]{2})\\u([dD][c-fC-F][0-9a-fA-F]{2})")
DEEPEST = 2000
GREATEST_EXPANSION = 100_000
# A filter of 1 MiB has fewer.
MOST_PARTS = 1_000_000
# So much of a line is shown; what is left out is marked.
WIDEST, CUT = 400, ".."
CHARACTERS_OF_A_PART = 64
OPEN = 0
JSON_STRINGS = re.compile(r'"(?:[^"\\]|\\.)*"')
NO_BRACKETS = re.compile(r"[^][{}]+")


class TooMany(Exception):
    """A file of more parts than are read."""


class Loader(yaml.CSafeLoader):
    """The safe loader, which asks what a plain scalar is once for each of its texts, and stops above a number of parts."""

    def __init__(self, text: str):
        super().__init__(text)
        self.known: Dict[str, str] = {}
        self.parts = 0

    def resolve(self, kind, value, implicit):
        """The tag of a node without one."""
        self.parts += 1
        if self.parts > MOST_PARTS:
            raise TooMany()
        if kind is not yaml.ScalarNode or not implicit[0]:
            return super().resolve(kind, value, implicit)
        if value not in self.known:
            self.known[value] = super().resolve(kind, value, implicit)
        return self.known[value]

    def descend_resolver(self, node, index):
        """Nothing: no tag here depends on the path."""

    def ascend_resolver(self):
        """Nothing: no tag here depends on the path."""


class Mistake(Exception):
    """A mistake of a file; its text names file, line and column and shows the line with a caret.

    `place` and `words` are its parts, if it has a place; `rest` are further mistakes of the same file. `number` is that of
    the engine's refusal, if the engine would refuse the filter for it.
    """

    def __init__(self, text: str, place: Optional[Place] = None, words: str = "", number: int = 0):
        super().__init__(text)
        self.place = place
        self.words = words or text
        self.number = number
        self.rest: List[Mistake] = []


class Source:
    """A file's text, to tell mistakes in it."""

    def __init__(self, name: str, data: bytes):
        self.name = name
        try:
            self.text = data.decode()
        except UnicodeDecodeError as fault:
            self.text = data.decode(errors="replace")
            before = data[: fault.start].decode()
            raise self.mistake(self.place_of(len(before)), "this is not UTF-8") from None

        self.written = self.text
        if self.text.lstrip()[:1] in ("{", "["):
            self.text = SURROGATES.sub(_joined, self.text)

    def __getstate__(self) -> dict:
        """What another process needs of it."""
        return {name: getattr(self, name) for name in ("name", "text", "written")}

    @cached_property
    def starts(self) -> List[int]:
        """The index of each line's first character."""
        return [0] + [match.end() for match in LINE_END.finditer(self.text)]

    @cached_property
    def lines(self) -> List[str]:
        """The lines without their ends."""
        return LINE_END.split(self.text)

    def place_of(self, index: int) -> Place:
        """The place of the character with that index."""
        line = 0
        low, high = 0, len(self.starts) - 1
        while low <= high:
            middle = (low + high) // 2
            if self.starts[middle] <= index:
                line, low = middle, middle + 1
            else:
                high = middle - 1
        return line, index - self.starts[line]

    def index_of(self, place: Place) -> int:
        """The index of the character at a place."""
        return self.starts[place[0]] + place[1] if place[0] < len(self.starts) else len(self.text)

    def tell(self, place: Place, message: str) -> str:
        """A message with the place, the line and a caret under the column."""
        line, column = place
        whole = self.lines[line] if line < len(self.lines) else ""
        shown, column = _around(whole, column)
        shown = "".join(character if character.isprintable() or character == "\t" else "\ufffd" for character in shown)
        before = "".join("\t" if character == "\t" else " " for character in shown[:column].ljust(column))
        return f"{self.name}:{line + 1}:{place[1] + 1}: {message}\n    {shown}\n    {before}^"

    def mistake(self, place: Place, message: str, number: int = 0) -> Mistake:
        """The mistake at a place; for a number of a refusal with that and its name."""
        told = f"{message} ({number} {NAMES[number]})" if number else message
        return Mistake(self.tell(place, told), place, message, number)

    def compose(self) -> Optional[yaml.Node]:
        """The file's one document, or None where it has none."""
        documents = self.documents()
        if len(documents) > 1:
            raise self.mistake(start_of(documents[1]), "a file holds one document")
        return documents[0] if documents else None

    def documents(self) -> List[yaml.Node]:
        """The file's documents."""
        documents, mistake = self.readable()
        if mistake is not None:
            raise mistake
        return documents

    def readable(self) -> Tuple[List[yaml.Node], Optional[Mistake]]:
        """The documents before a mistake, if there is one."""
        documents: List[yaml.Node] = []
        try:
            self._compose(documents)
        except Mistake as mistake:
            return documents, mistake
        return documents, None

    def _compose(self, documents: List[yaml.Node]) -> None:
        """Adds the file's documents to a list; raises Mistake."""
        try:
            if may_be_deep(self.text):
                self._measure_depth()
            if self.name.endswith(".json"):
                self._check_json()
            for document in yaml.compose_all(self.text, Loader=Loader):
                if "*" in self.text:
                    self._bound_expansion(document)
                documents.append(document)
        except yaml.MarkedYAMLError as fault:
            raise self._syntax_mistake(fault) from None
        except TooMany:
            raise Mistake(f"{self.name}: a file has at most {MOST_PARTS} keys and values") from None
        except yaml.reader.ReaderError as fault:
            place = self.place_of(min(fault.position or 0, len(self.text)))
            raise self.mistake(place, f"this is no YAML: {fault.reason}") from None

    def _check_json(self) -> None:
        """Tells where a file that is called JSON is YAML alone, by which other readers would refuse it."""
        try:
            json.loads(self.written.removeprefix("\ufeff"), parse_constant=_no_number)
        except json.JSONDecodeError as fault:
            bracket = _unclosed(self.text)
            if bracket is not None:
                raise self._unclosed_mistake(bracket) from None
            told = f"this is no JSON: {fault.msg[:1].lower()}{fault.msg[1:]} (a file of YAML ends in .yaml)"
            raise self.mistake((fault.lineno - 1, fault.colno - 1), told) from None
        except _NoNumber as fault:
            place = self.place_of(max(self.text.find(str(fault)), 0))
            raise self.mistake(place, f"this is no JSON: {fault} is no number there") from None

    def _syntax_mistake(self, fault: yaml.MarkedYAMLError) -> Mistake:
        """What to tell of a text that is no YAML: of a tab and of a bracket that is not closed in words of their own."""
        mark = fault.problem_mark or fault.context_mark
        place = (mark.line, mark.column) if mark else (0, 0)
        line = self.lines[place[0]] if place[0] < len(self.lines) else ""
        if line[place[1] : place[1] + 1] == "\t" and not line[: place[1]].strip():
            return self.mistake(place, "a tab is at the beginning of this line: indent it with spaces")
        if fault.context_mark and "quoted scalar" in (fault.context or "") and "end of stream" in fault.problem:
            return self.mistake((fault.context_mark.line, fault.context_mark.column), "these quotes are not closed")
        bracket = _unclosed(self.text)
        if bracket is not None:
            return self._unclosed_mistake(bracket)
        words = " ".join(part for part in (fault.context, fault.problem) if part)
        return self.mistake(place, f"this is no YAML: {words}")

    def _unclosed_mistake(self, bracket: yaml.Token) -> Mistake:
        closing = "]" if isinstance(bracket, yaml.FlowSequenceStartToken) else "}"
        return self.mistake(start_of(bracket), f"this bracket is not closed: `{closing}` is missing")

    def _bound_expansion(self, document: yaml.Node) -> None:
        """Tells a document whose aliases make much more of it than is written, before anything walks it."""
        expansion = _Expansion()
        try:
            added = expansion.of(document) - expansion.written
        except _Endless as fault:
            told = "an alias inside of this names the whole of it, which has no end: write out what is meant"
            raise self.mistake(start_of(fault.node), told) from None
        if added > GREATEST_EXPANSION:
            told = f"the aliases here expand to more than {GREATEST_EXPANSION} parts: write them out, or leave some out"
            raise self.mistake(start_of(document), told)

    def _measure_depth(self) -> None:
        """Tells a file nested too deep, before anything goes down into it."""
        depth = 0
        for event in yaml.parse(self.text, Loader=yaml.CSafeLoader):
            if isinstance(event, yaml.CollectionStartEvent):
                depth += 1
            elif isinstance(event, yaml.CollectionEndEvent):
                depth -= 1
            if depth > DEEPEST:
                raise self.mistake(start_of(event), f"this is nested more than {DEEPEST} levels deep")


def _around(line: str, column: int) -> Tuple[str, int]:
    """A line as it is shown, and the column in that: of a long one the part around the column."""
    if len(line) <= WIDEST:
        return line, column
    start = max(0, min(column - WIDEST // 2, len(line) - WIDEST))
    before = f"{CUT} " if start else ""
    after = f" {CUT}" if start + WIDEST < len(line) else ""
    return before + line[start : start + WIDEST] + after, len(before) + column - start


class _NoNumber(Exception):
    """A word that Python reads as a number of JSON, and JSON does not have."""


def _no_number(word: str) -> None:
    raise _NoNumber(word)


def _unclosed(text: str) -> Optional[yaml.Token]:
    """The bracket that is not closed where the next bracket of its level or the end comes, if the words tell."""
    starts: List[yaml.Token] = []
    closes = {yaml.FlowSequenceEndToken: yaml.FlowSequenceStartToken, yaml.FlowMappingEndToken: yaml.FlowMappingStartToken}
    try:
        for token in yaml.scan(text, Loader=yaml.CSafeLoader):
            if isinstance(token, tuple(closes.values())):
                starts.append(token)
            elif isinstance(token, tuple(closes)):
                opening = closes[type(token)]
                if not any(isinstance(start, opening) for start in starts):
                    return None
                if not isinstance(starts[-1], opening):
                    return starts[-1]
                starts.pop()
    except yaml.MarkedYAMLError:
        return None
    return starts[-1] if starts else None


def _joined(pair: re.Match) -> str:
    """Two escapes of JSON as the one of YAML for the same character."""
    high, low = int(pair[2], 16), int(pair[3], 16)
    return f"{pair[1]}\\U{0x10000 + (high - 0xD800) * 0x400 + low - 0xDC00:08x}"


def may_be_deep(text: str) -> bool:
    """Whether a text could be nested deeper than 2,000 levels: brackets nest, and so do columns, at most twice each."""
    if text.count("[") + text.count("{") > DEEPEST // 2:
        return not _is_shallow_json(text)
    longest = max(map(len, text.splitlines()), default=0)
    return longest > DEEPEST // 4 and any(_levels(line) > DEEPEST // 4 for line in text.splitlines())


def _is_shallow_json(text: str) -> bool:
    """Whether a text is JSON of few levels: outside of its strings each bracket opens a level or closes one."""
    if text.lstrip()[:1] not in ("{", "["):
        return False
    depth = most = 0
    for bracket in NO_BRACKETS.sub("", JSON_STRINGS.sub("", text)):
        depth += 1 if bracket in "[{" else -1
        most = max(most, depth)
    try:
        return most <= DEEPEST // 2 and bool(json.loads(text))
    except ValueError:
        return False


def _levels(line: str) -> int:
    """At most how many block collections are open on a line."""
    return len(line) - len(line.lstrip()) + line.count("- ") + line.count("? ") + line.count(": ") + 1


class _Endless(Exception):
    """A node that is inside of itself."""

    def __init__(self, node: yaml.Node):
        super().__init__()
        self.node = node


class _Expansion:
    """How large nodes are with their aliases written out: a part for each node, and one for each 64 characters."""

    def __init__(self):
        self.written = 0
        self.known: Dict[int, int] = {}

    def of(self, node: yaml.Node) -> int:
        """The parts of a node; raises _Endless."""
        if id(node) not in self.known:
            self.known[id(node)] = OPEN
            self.known[id(node)] = self._parts(node)
        if self.known[id(node)] == OPEN:
            raise _Endless(node)
        return self.known[id(node)]

    def _parts(self, node: yaml.Node) -> int:
        own = 1 + (len(node.value) // CHARACTERS_OF_A_PART if isinstance(node, yaml.ScalarNode) else 0)
        self.written += own
        if isinstance(node, yaml.SequenceNode):
            return own + sum(map(self.of, node.value))
        if isinstance(node, yaml.MappingNode):
            return own + sum(self.of(part) for pair in node.value for part in pair)
        return own


def together(mistakes: List[Mistake]) -> Mistake:
    """The first of some mistakes in the order of their file, with the others, each once."""
    ordered = sorted(mistakes, key=lambda mistake: mistake.place or (0, 0))
    first, *rest = {(one.place, str(one)): one for one in ordered}.values()
    first.rest = rest
    return first


def start_of(node) -> Place:
    """The place where a node or an event begins; the first one where there is none."""
    if node is None:
        return 0, 0
    return node.start_mark.line, node.start_mark.column

"""Files of YAML in one layout: that of `policy decode`, with comments and the order of all parts kept."""
import bisect
import json
from typing import Dict, Iterator, List, NamedTuple, Tuple, Union

import yaml

from .forms.nodes import Node
from .places import Mistake, Source, start_of
from .scalars import is_text, plain_line, text_scalar
from .yamltext import Block, Pair, Part, comment_lines, lines_of

BETWEEN = "---\n"
NULL = "tag:yaml.org,2002:null"


class Comment(NamedTuple):
    """A comment: where its sign is, its text without the sign, and whether nothing but spaces is before it."""

    index: int
    line: int
    text: str
    is_alone: bool


def formatted(source: Source) -> str:
    """The file in the one layout; raises Mistake where it is no YAML, or where a part would change its meaning."""
    documents = source.documents()
    if source.name.endswith(".json"):
        return json.dumps(json.loads(source.written.removeprefix("\ufeff")), indent=2, ensure_ascii=False) + "\n"
    _check_events(source)
    layout = _Layout(source, documents)
    made = BETWEEN.join("".join(line + "\n" for line in layout.lines(document)) for document in documents)
    made += "".join(line + "\n" for line in comment_lines(layout.at_end))
    _check_same(source, documents, made)
    return made


def _check_events(source: Source) -> None:
    """Refuses what a layout cannot keep: anchors, aliases, tags and directives."""
    for event in yaml.parse(source.text, Loader=yaml.CSafeLoader):
        if isinstance(event, yaml.AliasEvent) or getattr(event, "anchor", None):
            raise source.mistake(start_of(event), "anchors and aliases are not laid out: write the part where it is used")
        if isinstance(event, yaml.ScalarEvent) and event.tag and not any(event.implicit):
            raise source.mistake(start_of(event), f"the tag {event.tag} is not laid out: leave it out")
        if isinstance(event, yaml.DocumentStartEvent) and (event.version or event.tags):
            raise source.mistake(start_of(event), "directives are not laid out: leave them out")


def _check_same(source: Source, documents: List[Node], made: str) -> None:
    """Refuses a layout that has other parts or other comments than the file."""
    after = Source(source.name, made.encode())
    known = sorted(comment.text for comment in comments_of(source.text))
    if list(map(_plain, documents)) != list(map(_plain, after.documents())) or known != sorted(
        comment.text for comment in comments_of(after.text)
    ):
        raise Mistake(f"{source.name}: this file has a part that is not laid out; it is left as it is")


def _plain(node: Node) -> Union[tuple, list]:
    """A node without its places and styles."""
    if isinstance(node, yaml.ScalarNode):
        return node.tag, "" if node.tag == NULL else node.value
    if isinstance(node, yaml.SequenceNode):
        return [_plain(part) for part in node.value]
    return "mapping", [(_plain(key), _plain(value)) for key, value in node.value]


def comments_of(text: str) -> List[Comment]:
    """The comments of a text of YAML, in order."""
    inside = list(_spans(text))
    starts = [start for start, _ in inside]
    found, index = [], 0
    for line, whole in enumerate(text.splitlines(keepends=True)):
        for column, character in enumerate(whole):
            at = bisect.bisect_right(starts, index + column) - 1
            is_inside = at >= 0 and index + column < inside[at][1]
            if character == "#" and not is_inside and (column == 0 or whole[column - 1] in " \t"):
                found.append(Comment(index + column, line, whole[column + 1 :].strip(), not whole[:column].strip()))
                break
        index += len(whole)
    return found


def _spans(text: str) -> Iterator[Tuple[int, int]]:
    """Where the scalars of a text begin and end; of one in lines of its own, the lines below its first."""
    for token in yaml.scan(text, Loader=yaml.CSafeLoader):
        if isinstance(token, yaml.ScalarToken):
            start = token.start_mark.index
            if token.style in ("|", ">"):
                start = text.find("\n", start)
            yield start, token.end_mark.index


class _Layout:
    """The lines of one file's documents, with each comment at the part it was before or beside."""

    def __init__(self, source: Source, documents: List[Node]):
        self.before: Dict[int, List[str]] = {}
        self.beside: Dict[int, str] = {}
        self.at_end: List[str] = []
        parts = [part for document in documents for part in _parts_of(document)]
        starts = [start for start, _, _ in parts]
        for comment in comments_of(source.text):
            first = bisect.bisect_left([line for _, line, _ in parts], comment.line)
            is_beside = not comment.is_alone and first < len(parts) and parts[first][1] == comment.line
            following = first if is_beside else bisect.bisect_right(starts, comment.index)
            while is_beside and starts[following + 1 : following + 2] == [starts[following]]:
                following += 1  # the first field of a part of a list
            if following == len(parts):
                self.at_end.append(comment.text)
            elif is_beside and _is_on_one_line(parts[following][2]):
                self.beside[parts[following][0]] = comment.text
            else:
                self.before.setdefault(parts[following][0], []).append(comment.text)

    def lines(self, document: Node) -> List[str]:
        """The lines of a document."""
        value = self._value(document)
        if isinstance(value, Block):
            return [text_scalar(document.value)]
        return lines_of(value)

    def _value(self, node: Node) -> Union[str, Block, list]:
        if isinstance(node, yaml.SequenceNode):
            return [self._part(part) for part in node.value] or "[]"
        if isinstance(node, yaml.MappingNode):
            return [self._pair(key, value) for key, value in node.value] or "{}"
        return _block(node) or _scalar(node)

    def _part(self, node: Node) -> Part:
        value, start = self._value(node), node.start_mark.index
        if isinstance(value, Block):
            value = text_scalar(node.value)
        before = self.before.pop(start, [])
        return Part(self._with_comment(value, start), before)

    def _pair(self, key: Node, value: Node) -> Pair:
        start = key.start_mark.index
        made = self._with_comment(self._value(value), start)
        return Pair(_scalar(key), made, self.before.pop(start, []))

    def _with_comment(self, value: Union[str, Block, list], start: int) -> Union[str, Block, list]:
        return f"{value}  # {self.beside[start]}" if isinstance(value, str) and start in self.beside else value


def _parts_of(node: Node) -> Iterator[Tuple[int, int, Node]]:
    """The parts of a node in the order of the text: where each begins, its line, and its value."""
    if isinstance(node, yaml.SequenceNode):
        for part in node.value:
            yield part.start_mark.index, part.start_mark.line, part
            yield from _parts_of(part)
    elif isinstance(node, yaml.MappingNode):
        for key, value in node.value:
            yield key.start_mark.index, key.start_mark.line, value
            yield from _parts_of(value)


def _is_on_one_line(node: Node) -> bool:
    return not node.value or isinstance(node, yaml.ScalarNode) and _block(node) is None


def _block(node: Node) -> Union[Block, None]:
    """A text of several lines as lines of its own, or None where YAML would not read it back so."""
    if not isinstance(node, yaml.ScalarNode) or not is_text(node) or "\n" not in node.value.rstrip("\n"):
        return None
    lines, ends = node.value.split("\n"), node.value.endswith("\n")
    lines = lines[:-1] if ends else lines
    is_fit = all(line.isprintable() and line == line.rstrip() for line in lines) and lines[0][:1] not in ("", " ") and lines[-1]
    return Block(lines, "|" if ends else "|-") if is_fit else None


def _scalar(node: Node) -> str:
    if not is_text(node):
        return "null" if node.tag == NULL else node.value
    text = node.value
    plain = text_scalar(text)
    if plain == text or "\n" in text or not text.isprintable():
        return plain
    if plain_line(text) is not None:
        return text
    return f"'{text}'" if "'" not in text and ('"' in text or "\\" in text) else plain

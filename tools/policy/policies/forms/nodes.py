"""Nodes of YAML, read and made; `at` is the node whose place a made one takes."""
from typing import Iterator, List, Optional, Tuple

import yaml

from ..scalars import TAG

Node = yaml.Node


def camel(name: str) -> str:
    """A field's name as JSON writes it."""
    head, *rest = name.split("_")
    return head + "".join(word.capitalize() for word in rest)


def pairs(node: Optional[Node]) -> Iterator[Tuple[str, Node, Node]]:
    """The entries of a mapping whose keys are scalars: name, key, value."""
    if isinstance(node, yaml.MappingNode):
        for key, value in node.value:
            if isinstance(key, yaml.ScalarNode):
                yield key.value, key, value


def get(node: Optional[Node], name: str) -> Optional[Node]:
    """The value of a field by its name in snake_case or camelCase, or None."""
    for key, _, value in pairs(node):
        if key in (name, camel(name)):
            return value
    return None


def key_of(node: Optional[Node], name: str) -> Optional[Node]:
    """The key of a field by its name in snake_case or camelCase, or None."""
    for key, where, _ in pairs(node):
        if key in (name, camel(name)):
            return where
    return None


def names(node: Optional[Node]) -> List[str]:
    """The names of a mapping's fields."""
    return [name for name, _, _ in pairs(node)]


def text_of(node: Optional[Node]) -> Optional[str]:
    """The text of a scalar, or None."""
    return node.value if isinstance(node, yaml.ScalarNode) else None


def items(node: Optional[Node]) -> List[Node]:
    """The elements of a list; none where there is no list."""
    return node.value if isinstance(node, yaml.SequenceNode) else []


def text(value: str, at: Node) -> yaml.ScalarNode:
    """A text."""
    return yaml.ScalarNode(TAG + "str", value, at.start_mark, at.end_mark, style='"')


def plain(value: str, at: Node) -> yaml.ScalarNode:
    """A number, or true or false."""
    kind = "bool" if value in ("true", "false") else "int"
    return yaml.ScalarNode(TAG + kind, value, at.start_mark, at.end_mark)


def mapping(fields: dict, at: Node) -> yaml.MappingNode:
    """A mapping with these fields."""
    made = [(text(name, at), value) for name, value in fields.items()]
    return yaml.MappingNode(TAG + "map", made, at.start_mark, at.end_mark)


def sequence(parts: List[Node], at: Node) -> yaml.SequenceNode:
    """A list."""
    return yaml.SequenceNode(TAG + "seq", parts, at.start_mark, at.end_mark)


def without(node: yaml.MappingNode, *left_out: str) -> yaml.MappingNode:
    """A mapping without some fields."""
    kept = [(key, value) for key, value in node.value if getattr(key, "value", None) not in left_out]
    return yaml.MappingNode(node.tag, kept, node.start_mark, node.end_mark)

"""What the profile leaves out and can be said otherwise with the same meaning, rule by rule, each with a note."""
from typing import Callable, List, NamedTuple, Optional

import yaml

from ..faults import UNSUPPORTED
from ..findings import NOTE, Finding
from ..places import Source, start_of
from ..spelling import index_of
from .nodes import Node, camel, get, key_of, mapping, pairs, plain, sequence, text, text_of, without
from .regexes import Shape, Untranslatable, shapes

WITHOUT_MEANING = ("rules_stat_prefix", "track_per_rule_stats")
MATCHERS_INSTEAD = (
    "write `exact`, `prefix`, `suffix` or `contains`, several under `or_rules` or `or_ids`, or a condition in CEL"
)


class Kind(NamedTuple):
    """The names of a permission's or a principal's members that hold others."""

    all_of: str
    any_of: str
    negation: str
    set_field: str


PERMISSION = Kind("and_rules", "or_rules", "not_rule", "rules")
PRINCIPAL = Kind("and_ids", "or_ids", "not_id", "ids")


class Rewriting:
    """One file's filters on their way into the profile; `findings` are the notes."""

    def __init__(self, source: Source):
        self.source = source
        self.findings: List[Finding] = []

    def filter(self, node: Node) -> Node:
        """A filter with each rule that can be said in the profile said so."""
        for name in WITHOUT_MEANING:
            key = key_of(node, name)
            if key is not None:
                self._note(key, f"{name} is left out: it counts requests and decides nothing")
                node = without(node, name, camel(name))
        return _changed(node, {"rules": self._rules})

    def _rules(self, node: Node) -> Node:
        return _changed(node, {"policies": self._policies})

    def _policies(self, node: Node) -> Node:
        if not isinstance(node, yaml.MappingNode):
            return node
        fields = {
            "permissions": lambda rules: self._list(rules, PERMISSION),
            "principals": lambda rules: self._list(rules, PRINCIPAL),
        }
        made = [(key, _changed(value, fields)) for key, value in node.value]
        return yaml.MappingNode(node.tag, made, node.start_mark, node.end_mark)

    def _list(self, node: Node, kind: Kind) -> Node:
        if not isinstance(node, yaml.SequenceNode):
            return node
        return sequence([self.rule(part, kind) for part in node.value], node)

    def rule(self, node: Node, kind: Kind) -> Node:
        """A permission or a principal."""
        if not isinstance(node, yaml.MappingNode) or len(node.value) != 1:
            return node
        fields = {
            kind.all_of: lambda part: _changed(part, {kind.set_field: lambda rules: self._list(rules, kind)}),
            kind.any_of: lambda part: _changed(part, {kind.set_field: lambda rules: self._list(rules, kind)}),
            kind.negation: lambda part: self.rule(part, kind),
        }
        if get(node, "source_ip") is not None and kind is PRINCIPAL:
            return self._source_ip(node)
        changed = _changed(node, fields)
        return self._leaf(changed, kind) if changed is node else changed

    def _source_ip(self, node: yaml.MappingNode) -> Node:
        words = "source_ip is read as direct_remote_ip; with the PROXY protocol write remote_ip, the client's address"
        self._note(key_of(node, "source_ip"), words)
        return mapping({"direct_remote_ip": get(node, "source_ip")}, node)

    def _note(self, node: Node, words: str) -> None:
        self.findings.append(Finding(NOTE, words, start_of(node)))

    def _leaf(self, node: yaml.MappingNode, kind: Kind) -> Node:
        """A rule whose text is matched by a regular expression, as alternatives of texts."""
        for name, _, part in pairs(node):
            leaf = LEAVES.get(name)
            expression = leaf.expression(part) if leaf is not None else None
            regex = get(expression, "regex")
            if regex is not None and text_of(regex) is not None:
                found = self._shapes(regex)
                return node if found is None else leaf.rule(part, found, kind, regex)
        return node

    def _shapes(self, regex: yaml.ScalarNode) -> Optional[List[Shape]]:
        """The alternatives of an expression, which are noted, or None where it is more, which is a finding."""
        try:
            found = shapes(regex.value)
        except Untranslatable as fault:
            index = index_of(self.source, regex, fault.place)
            words = f"this regular expression is more than alternatives of texts: {fault.words}; {MATCHERS_INSTEAD}"
            self.findings.append(Finding(UNSUPPORTED, words, self.source.place_of(index)))
            return None
        self._note(regex, f"this regular expression is read as {told(found)}")
        return found


def told(found: List[Shape]) -> str:
    """Shapes as words."""
    parts = []
    for shape in found[:4]:
        words = " and ".join(f'{kind} "{part}"' for kind, part in shape.tests) or "any text"
        excepted = ", ".join(f'"{part}"' for part in shape.excepted)
        parts.append(words + (f" but not {excepted}" if excepted else ""))
    more = f", or {len(found) - 4} more" if len(found) > 4 else ""
    return ", or ".join(parts) + more


def _changed(node: Node, fields: dict) -> Node:
    """A mapping with some of its fields changed, itself where none of them is there."""
    if not isinstance(node, yaml.MappingNode):
        return node
    made, is_other = [], False
    for key, value in node.value:
        name = getattr(key, "value", None)
        change: Optional[Callable[[Node], Node]] = next(
            (fields[field] for field in fields if name in (field, camel(field))), None
        )
        made.append((key, value if change is None else change(value)))
        is_other = is_other or change is not None
    return yaml.MappingNode(node.tag, made, node.start_mark, node.end_mark) if is_other else node


def any_of(rules: List[Node], kind: Kind, at: Node) -> Node:
    """A rule that matches where one of these does."""
    return (
        rules[0] if len(rules) == 1 else mapping({kind.any_of: mapping({kind.set_field: sequence(rules, at)}, at)}, at)
    )


def all_of(rules: List[Node], kind: Kind, at: Node) -> Node:
    """A rule that matches where all of these do."""
    return (
        rules[0] if len(rules) == 1 else mapping({kind.all_of: mapping({kind.set_field: sequence(rules, at)}, at)}, at)
    )


def negation(rule: Node, kind: Kind, at: Node) -> Node:
    """A rule that matches where this one does not."""
    return mapping({kind.negation: rule}, at)


def everything(at: Node) -> Node:
    """The rule that always matches."""
    return mapping({"any": plain("true", at)}, at)


class Leaf(NamedTuple):
    """A member that compares a text: where its regular expression is, and the rule with a matcher instead."""

    expression: Callable[[Node], Optional[Node]]
    with_matcher: Callable[[Node, Node], Node]
    with_any: Callable[[Node, Node], Node]
    is_inverted: Callable[[Node], bool] = lambda part: False

    def rule(self, part: Node, found: List[Shape], kind: Kind, at: Node) -> Node:
        """The rule that says the shapes."""
        plain_part = without(part, "invert_match", "invertMatch") if self.is_inverted(part) else part
        made = any_of([self._one(plain_part, shape, kind, at) for shape in found], kind, at)
        if not self.is_inverted(part):
            return made
        return all_of([self.with_any(plain_part, at), negation(made, kind, at)], kind, at)

    def _one(self, part: Node, shape: Shape, kind: Kind, at: Node) -> Node:
        rules = [self.with_matcher(part, mapping({name: text(value, at)}, at)) for name, value in shape.tests]
        rules = rules or [self.with_any(part, at)]
        excepted = [self.with_matcher(part, mapping({"exact": text(value, at)}, at)) for value in shape.excepted]
        return all_of(rules + [negation(rule, kind, at) for rule in excepted], kind, at)


def _header_expression(part: Node) -> Optional[Node]:
    return get(part, "safe_regex_match") or get(get(part, "string_match"), "safe_regex")


def _header_with(part: Node, matcher: Node) -> Node:
    kept = without(part, "safe_regex_match", "safeRegexMatch", "string_match", "stringMatch")
    return mapping({"header": _with(kept, "string_match", matcher)}, part)


def _header_any(part: Node, at: Node) -> Node:
    if text_of(get(part, "treat_missing_header_as_empty")) == "true":
        return everything(at)
    return mapping(
        {"header": mapping({"name": get(part, "name") or text("", at), "present_match": plain("true", at)}, at)}, at
    )


def _with(node: yaml.MappingNode, name: str, value: Node) -> Node:
    made = node.value + [(text(name, value), value)]
    return yaml.MappingNode(node.tag, made, node.start_mark, node.end_mark)


def _path_with(part: Node, matcher: Node) -> Node:
    return mapping({"url_path": mapping({"path": matcher}, part)}, part)


def _peer_with(part: Node, matcher: Node) -> Node:
    return mapping({"authenticated": mapping({"principal_name": matcher}, part)}, part)


def _server_with(part: Node, matcher: Node) -> Node:
    return mapping({"requested_server_name": matcher}, part)


LEAVES = {
    "header": Leaf(
        _header_expression, _header_with, _header_any, lambda part: text_of(get(part, "invert_match")) == "true"
    ),
    "url_path": Leaf(lambda part: get(get(part, "path"), "safe_regex"), _path_with, lambda part, at: everything(at)),
    "authenticated": Leaf(
        lambda part: get(get(part, "principal_name"), "safe_regex"),
        _peer_with,
        lambda part, at: mapping({"authenticated": mapping({}, at)}, at),
    ),
    "requested_server_name": Leaf(lambda part: get(part, "safe_regex"), _server_with, lambda part, at: everything(at)),
}
LEAVES.update({camel(name): leaf for name, leaf in list(LEAVES.items())})

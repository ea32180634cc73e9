"""Istio's AuthorizationPolicy as filters, as Istio's own translation makes them.

A rule is a policy: each `to` is a permission, each `from` a principal, and each `when` is in both or in one of them
as its key says. All policies of one action for the same workload are one filter, since Istio joins them so.
"""
from typing import Callable, Dict, List, Optional, Tuple

import yaml

from ..findings import NOTE, Finding
from ..places import Mistake, Source, start_of
from . import istio_values as values
from .nodes import Node, get, items, key_of, mapping, pairs, sequence, text, text_of
from .rewrite import PERMISSION, PRINCIPAL, Kind, all_of, any_of, everything, negation

KIND = "AuthorizationPolicy"
GROUP = "security.istio.io"
ACTIONS = {"ALLOW": "ALLOW", "DENY": "DENY", "AUDIT": "LOG"}
SPEC_FIELDS = frozenset(["selector", "targetRef", "targetRefs", "action", "rules", "provider"])
RULE_FIELDS = frozenset(["from", "to", "when"])
DRY_RUN = "istio.io/dry-run"
HEADER_KEY = "request.headers["
# Istio asks the policies of one action after those of another.
ORDER = ["DENY", "ALLOW", "LOG"]


def is_policy(node: Optional[Node]) -> bool:
    """Whether a document is such a policy; other projects have objects of the same name."""
    group = (text_of(get(node, "apiVersion")) or GROUP).partition("/")[0]
    return text_of(get(node, "kind")) == KIND and group == GROUP


class Translation:
    """The policies of one file on their way to filters."""

    def __init__(self, source: Source):
        self.source = source
        self.findings: List[Finding] = []
        self.mistakes: List[Mistake] = []

    def mistake(self, node: Node, words: str) -> Mistake:
        """The mistake at a node."""
        return self.source.mistake(start_of(node), words)

    def _note(self, node: Optional[Node], words: str) -> None:
        if node is not None:
            self.findings.append(Finding(NOTE, words, start_of(node)))

    def filters(self, documents: List[Node]) -> List[Tuple[str, Node]]:
        """The filters of a file's policies that have no mistakes, DENY before ALLOW as Istio asks them, by name."""
        groups: Dict[tuple, list] = {}
        for document in documents:
            if not is_policy(document):
                self._note(document, "this is no AuthorizationPolicy, and left out")
                continue
            head = self._kept(self._head, document)
            if head is not None:
                groups.setdefault(head, []).append(document)
        wheres = {where for _, where in groups}
        found = []
        for action, where in sorted(groups, key=lambda group: (ORDER.index(group[0]), group[1])):
            name = f"istio-{action.lower()}" + (f"-{where}" if len(wheres) > 1 else "")
            before = len(self.mistakes)
            made = self._filter(action, groups[action, where])
            if len(self.mistakes) == before:
                found.append((name, made))
        return found

    def tell(self, node: Node, words: str) -> None:
        """Keeps a mistake at a node."""
        self.mistakes.append(self.mistake(node, words))

    def _kept(self, make: Callable, node: Node):
        """What is made of a node, or None if it has a mistake, which is kept."""
        try:
            return make(node)
        except Mistake as mistake:
            self.mistakes.append(mistake)
            return None

    def _head(self, document: Node) -> Tuple[str, str]:
        """The action of a policy, and a text for the workloads it is for."""
        spec = get(document, "spec")
        for name, key, _ in pairs(spec):
            if name not in SPEC_FIELDS:
                known = ", ".join(sorted(SPEC_FIELDS))
                self.tell(key, f"an AuthorizationPolicy has no field `{name}`: it has {known}")
        dry_run = get(get(get(document, "metadata"), "annotations"), DRY_RUN)
        if text_of(dry_run) == "true":
            told = "Istio does not enforce a policy with this annotation: leave out the annotation, or the policy"
            raise self.mistake(dry_run, told)
        action = get(spec, "action")
        named = text_of(action) or "ALLOW"
        if named == "CUSTOM" or get(spec, "provider") is not None:
            told = "CUSTOM asks a provider outside the proxy, which a filter cannot: leave this policy to Istio"
            raise self.mistake(action or key_of(spec, "provider"), told)
        if named not in ACTIONS:
            raise self.mistake(action, f"there is no action {named}: it is ALLOW, DENY or AUDIT")
        if named == "AUDIT":
            self._note(action, "AUDIT is read as LOG, which lets every request pass; the engine writes no log")
        metadata = get(document, "metadata")
        place = text_of(get(metadata, "namespace")) or "default"
        chosen = []
        for field in ("selector", "targetRef", "targetRefs"):
            if get(spec, field) is not None:
                self._note(key_of(spec, field), f"{field} is left out: this filter is for the workloads that it names")
                chosen.append(_flat(get(spec, field)))
        return ACTIONS[named], place + ("-" + "-".join(chosen) if chosen else "")

    def _filter(self, action: str, documents: List[Node]) -> Node:
        policies = {}
        for document in documents:
            metadata = get(document, "metadata")
            place, name = text_of(get(metadata, "namespace")) or "default", text_of(get(metadata, "name")) or "policy"
            rules = get(get(document, "spec"), "rules")
            if rules is not None and not isinstance(rules, yaml.SequenceNode):
                self.tell(rules, "a list of rules is expected here")
            for index, rule in enumerate(items(rules)):
                key = f"ns[{place}]-policy[{name}]-rule[{index}]"
                if key in policies:
                    self.tell(document, f"the policy {name} is here twice")
                    break
                policies[key] = self._policy(rule)
            if not items(rules):
                what = "no request passes by it" if action == "ALLOW" else "it never matches"
                self._note(document, f"a policy of action {action} without rules: {what}")
        first = documents[0]
        rules_node = mapping({"action": text(action, first), "policies": mapping(policies, first)}, first)
        return mapping({"rules": rules_node}, first)

    def _policy(self, rule: Node) -> Node:
        self._known(rule, RULE_FIELDS, "a rule")
        whens = [made for made in (self._kept(self._when, when) for when in items(get(rule, "when"))) if made is not None]
        permissions = [self._operation(get(part, "operation"), part) for part in items(get(rule, "to"))]
        principals = [self._source(get(part, "source"), part) for part in items(get(rule, "from"))]
        for name, found in (("to", permissions), ("from", principals)):
            if get(rule, name) is not None and not found:
                self.tell(get(rule, name), f"`{name}` is an empty list, which Istio refuses: leave it out")
        both = (
            self._with_whens(permissions, [made for kind, made in whens if kind is PERMISSION], PERMISSION, rule),
            self._with_whens(principals, [made for kind, made in whens if kind is PRINCIPAL], PRINCIPAL, rule),
        )
        return mapping({"permissions": both[0], "principals": both[1]}, rule)

    def _with_whens(self, rules: List[List[Node]], whens: List[Node], kind: Kind, at: Node) -> Node:
        """The alternatives of a list, each with all conditions."""
        made = [all_of(parts + whens or [everything(at)], kind, at) for parts in rules or [[]]]
        return sequence(made, at)

    def _known(self, node: Optional[Node], fields, what: str) -> List[Tuple[str, Node, Node]]:
        """The entries of a mapping that are known; mistakes are kept."""
        if node is not None and not isinstance(node, yaml.MappingNode):
            self.tell(node, f"the fields of {what} are expected here, as `name: value`")
        known = []
        for name, key, value in pairs(node):
            if name in values.INSTEAD:
                self.tell(key, f"{name}: {values.INSTEAD[name]}")
            elif name not in fields:
                self.tell(key, f"{what} has no field `{name}`: it has {', '.join(sorted(fields))}")
            else:
                known.append((name, key, value))
        return known

    def _operation(self, node: Optional[Node], at: Node) -> List[Node]:
        return self._fields(node, at, values.OPERATION, PERMISSION, "`operation`")

    def _source(self, node: Optional[Node], at: Node) -> List[Node]:
        return self._fields(node, at, values.SOURCE, PRINCIPAL, "`source`")

    def _fields(self, node: Optional[Node], at: Node, known: dict, kind: Kind, what: str) -> List[Node]:
        """What the fields of a source or an operation ask for, all of which has to hold; mistakes are kept."""
        if node is None:
            self.tell(at, f"{what} is expected here")
        negated = {"not" + name[0].upper() + name[1:]: name for name in known}
        made = []
        for name, key, value in self._known(node, set(known) | set(negated), what):
            rules = self._each(value, known[negated.get(name, name)], key)
            if rules:
                rule = any_of(rules, kind, key)
                made.append(negation(rule, kind, key) if name in negated else rule)
        return made

    def _each(self, node: Node, make, key: Node) -> List[Node]:
        """A rule for each text of a list; mistakes are kept."""
        if not items(node):
            self.tell(key, f"`{text_of(key)}` takes a list of texts, and not an empty one")
        rules = []
        for part in items(node):
            value = text_of(part)
            if value is None or value == "":
                self.tell(part, "a text is expected here, and not an empty one")
                continue
            try:
                rules.append(make(value, part))
            except values.Left as why:
                self.tell(part, str(why))
        return rules

    def _when(self, node: Node) -> Optional[Tuple[Kind, Node]]:
        """A condition: the side it is on, and its rule; None if it has a mistake, which is kept."""
        before = len(self.mistakes)
        self._known(node, {"key", "values", "notValues"}, "a condition")
        key = get(node, "key")
        kind, make = self._condition(text_of(key) or "", key if key is not None else node)
        made = []
        for field in ("values", "notValues"):
            if get(node, field) is not None:
                rules = self._each(get(node, field), make, key_of(node, field))
                rule = any_of(rules, kind, node) if rules else None
                made.append(rule if field == "values" or rule is None else negation(rule, kind, node))
        if not made:
            self.tell(node, "a condition has `values` or `notValues`")
        return (kind, all_of(made, kind, node)) if len(self.mistakes) == before else None

    def _condition(self, name: str, at: Node):
        if name.startswith(HEADER_KEY) and name.endswith("]"):
            header = name[len(HEADER_KEY) : -1]
            return PRINCIPAL, lambda value, part: values.header(header, value, part)
        if name in values.CONDITIONS:
            return values.CONDITIONS[name]
        instead = next((words for key, words in values.CONDITIONS_INSTEAD.items() if name.startswith(key)), None)
        known = ", ".join(["request.headers[name]", *sorted(values.CONDITIONS)])
        raise self.mistake(
            at, f"the condition {name}: {instead}" if instead else f"there is no condition {name}: it is {known}"
        )


def _flat(node: Node) -> str:
    """A selector as one short text."""
    parts = [f"{name}.{_flat(value)}" for name, _, value in pairs(node) if name != "matchLabels"]
    parts += [_flat(value) for name, _, value in pairs(node) if name == "matchLabels"]
    parts += [_flat(part) for part in items(node)]
    own = text_of(node)
    return own if own is not None else "-".join(parts)

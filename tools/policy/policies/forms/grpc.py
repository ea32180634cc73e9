"""gRPC's authorization policy (proposal A43) as filters, as gRPC's own translation makes them: deny rules, then allow rules.

A rule is a policy of the name `<policy>_<rule>`: its `request` is the permission, its `source` the principal.
"""
from typing import Callable, Dict, List, Optional, Tuple

import yaml

from ..findings import NOTE, Finding
from ..places import Mistake, Source, start_of
from .nodes import Node, get, items, key_of, mapping, names, pairs, sequence, text, text_of
from .regexes import shapes
from .rewrite import LEAVES, PERMISSION, PRINCIPAL, Kind, all_of, any_of, everything

DENY_RULES, ALLOW_RULES, LOGGING = "deny_rules", "allow_rules", "audit_logging_options"
POLICY_FIELDS = ("name", DENY_RULES, ALLOW_RULES, LOGGING)
# The rules that come first are asked first.
ACTIONS = {DENY_RULES: "DENY", ALLOW_RULES: "ALLOW"}
ANY_NAME = "*"
# A peer that has any name: what it lacks is an error, which `||` absorbs if another name is there.
NAMES_OF_A_PEER = ("uri_san_peer_certificate", "dns_san_peer_certificate", "subject_peer_certificate")
HAS_NAME = " || ".join(f'connection.{name} != ""' for name in NAMES_OF_A_PEER)
HOP_BY_HOP = frozenset(
    "connection keep-alive proxy-authenticate proxy-authorization te trailer transfer-encoding upgrade".split()
)


def is_policy(node: Optional[Node]) -> bool:
    """Whether a document is such a policy."""
    fields = set(names(node))
    return bool(fields & {DENY_RULES, ALLOW_RULES}) and "rules" not in fields


class Translation:
    """One policy on its way to filters."""

    def __init__(self, source: Source):
        self.source = source
        self.findings: List[Finding] = []
        self.mistakes: List[Mistake] = []

    def tell(self, node: Node, words: str) -> None:
        """Keeps a mistake at a node."""
        self.mistakes.append(self.source.mistake(start_of(node), words))

    def filters(self, document: Node) -> List[Tuple[str, Node]]:
        """The filters of a policy, by name; none where it has mistakes."""
        self._known(document, POLICY_FIELDS, "gRPC's authorization policy")
        if get(document, LOGGING) is not None:
            words = f"{LOGGING} is left out: the engine writes no log, and the rules decide the same without it"
            self.findings.append(Finding(NOTE, words, start_of(key_of(document, LOGGING))))
        name = self._name(document, "the policy")
        if not items(get(document, ALLOW_RULES)):
            self.tell(key_of(document, ALLOW_RULES) or document, "`allow_rules` is missing: gRPC wants one rule at least")
        made = []
        for field, action in ACTIONS.items():
            rules = get(document, field)
            if rules is not None and not isinstance(rules, yaml.SequenceNode):
                self.tell(rules, "a list of rules is expected here")
            if items(rules):
                policies = mapping(self._policies(items(rules), name), rules)
                inner = mapping({"action": text(action, rules), "policies": policies}, rules)
                made.append((f"{name}-{action.lower()}", mapping({"rules": inner}, rules)))
        return [] if self.mistakes else made

    def _name(self, node: Node, what: str) -> str:
        name = get(node, "name")
        if not text_of(name):
            self.tell(name or node, f"{what} has no `name`")
        return text_of(name) or ""

    def _policies(self, rules: List[Node], prefix: str) -> Dict[str, Node]:
        policies: Dict[str, Node] = {}
        for rule in rules:
            self._known(rule, ("name", "source", "request"), "a rule")
            name = f"{prefix}_{self._name(rule, 'a rule')}"
            if name in policies:
                self.tell(get(rule, "name") or rule, f"the rule {name} is here twice: gRPC keeps the last of these alone")
            names_of_peers = self._principals(rule)
            fields = {
                "permissions": sequence([self._request(rule)], rule),
                "principals": sequence([_source(names_of_peers, rule)], rule),
            }
            if any(value == ANY_NAME for value, _ in names_of_peers):
                fields["checked_condition"] = mapping({"text": text(HAS_NAME, rule)}, rule)
            policies[name] = mapping(fields, rule)
        return policies

    def _principals(self, rule: Node) -> List[Tuple[str, Node]]:
        """The names of peers that a rule asks for, each with its node; mistakes are kept."""
        self._known(get(rule, "source"), ("principals",), "a source")
        found = self._texts(get(get(rule, "source"), "principals"))
        for value, at in found:
            if value == "":
                self.tell(at, "the empty name is a peer without a name, which no matcher finds: name the peers that are meant")
        return found

    def _request(self, rule: Node) -> Node:
        self._known(get(rule, "request"), ("paths", "headers"), "a request")
        paths, headers = get(get(rule, "request"), "paths"), get(get(rule, "request"), "headers")
        found = [_path(value, at) for value, at in self._texts(paths)]
        rules = [any_of(found, PERMISSION, paths)] if found else []
        if headers is not None and not isinstance(headers, yaml.SequenceNode):
            self.tell(headers, "a list of headers is expected here")
        rules += [made for made in map(self._header, items(headers)) if made is not None]
        return all_of(rules, PERMISSION, rule) if rules else everything(rule)

    def _header(self, node: Node) -> Optional[Node]:
        self._known(node, ("key", "values"), "a header")
        key = get(node, "key")
        name = (text_of(key) or "").lower()
        if not name:
            self.tell(key or node, "a header has no `key`")
        elif name.startswith((":", "grpc-")) or name == "host" or name in HOP_BY_HOP:
            self.tell(key, f"gRPC takes no rule for the header {name}")
        values = self._texts(get(node, "values"))
        if not values:
            self.tell(get(node, "values") or node, "a header has no `values`")
        return any_of([_named(name, value, at) for value, at in values], PERMISSION, node) if name and values else None

    def _texts(self, node: Optional[Node]) -> List[Tuple[str, Node]]:
        """The texts of a list, each with its node; mistakes are kept."""
        if node is not None and not isinstance(node, yaml.SequenceNode):
            self.tell(node, "a list of texts is expected here")
        for part in items(node):
            if text_of(part) is None:
                self.tell(part, "a text is expected here")
        return [(part.value, part) for part in items(node) if text_of(part) is not None]

    def _known(self, node: Optional[Node], fields, what: str) -> None:
        """Keeps a mistake for each field that is not known."""
        if node is not None and not isinstance(node, yaml.MappingNode):
            self.tell(node, f"the fields of {what} are expected here, as `name: value`")
        for name, key, _ in pairs(node):
            if name not in fields:
                self.tell(key, f"{what} has no field `{name}`: it has {', '.join(fields)}")


def _matched(value: str, at: Node, leaf: str, part: Node, kind: Kind, make: Callable[[Node], Node]) -> Node:
    """The rule for a text: `*` is any that is not empty, `a*` is a prefix and `*a` a suffix."""
    if value == "*":
        return LEAVES[leaf].rule(part, shapes(".+"), kind, at)
    if value.endswith("*"):
        return make(mapping({"prefix": text(value[:-1], at)}, at))
    if value.startswith("*"):
        return make(mapping({"suffix": text(value[1:], at)}, at))
    return make(mapping({"exact": text(value, at)}, at))


def _source(names_of_peers: List[Tuple[str, Node]], rule: Node) -> Node:
    """The principal of a rule; one for any name needs the rule's condition too, since a matcher has a text."""
    if not names_of_peers:
        return everything(rule)
    if any(value == ANY_NAME for value, _ in names_of_peers):
        return mapping({"authenticated": mapping({}, rule)}, rule)
    return any_of([_principal(value, at) for value, at in names_of_peers], PRINCIPAL, rule)


def _principal(value: str, at: Node) -> Node:
    part = mapping({"principal_name": mapping({}, at)}, at)
    make = lambda matcher: mapping({"authenticated": mapping({"principal_name": matcher}, at)}, at)
    return _matched(value, at, "authenticated", part, PRINCIPAL, make)


def _path(value: str, at: Node) -> Node:
    # no request has an empty path
    if value == "*":
        return everything(at)
    make = lambda matcher: mapping({"url_path": mapping({"path": matcher}, at)}, at)
    return _matched(value, at, "url_path", mapping({}, at), PERMISSION, make)


def _named(name: str, value: str, at: Node) -> Node:
    part = mapping({"name": text(name, at)}, at)
    make = lambda matcher: mapping({"header": mapping({"name": text(name, at), "string_match": matcher}, at)}, at)
    return _matched(value, at, "header", part, PERMISSION, make)

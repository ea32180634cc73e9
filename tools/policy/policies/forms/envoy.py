"""The filters in a file: the filter itself, its rules alone, Envoy's wrappings around it, or policies of Istio or gRPC."""
import re
from typing import Iterator, List, NamedTuple, Optional, Sequence, Tuple

import yaml

from ..findings import NOTE, Finding
from ..messages import FILTER, PREFIX, RULES
from ..places import Mistake, Source, start_of
from . import grpc, istio
from .nodes import Node, camel, get, items, key_of, mapping, names, pairs, text_of, without
from .rewrite import Rewriting

TYPE = "@type"
FILTER_FIELDS = frozenset(["rules", "shadow_rules", "shadow_rules_stat_prefix", "@oneofs", "@wire", TYPE])
RULES_FIELDS = frozenset(["action", "policies", "audit_logging_options"])
PER_ROUTE = "envoy.extensions.filters.http.rbac.v3.RBACPerRoute"
NETWORK = "envoy.extensions.filters.network.rbac.v3.RBAC"
OLD = frozenset(["envoy.config.filter.http.rbac.v2.RBAC", "envoy.config.rbac.v2.RBAC"])
STRUCTS = frozenset(["udpa.type.v1.TypedStruct", "xds.type.v3.TypedStruct"])
WITH_MATCHER = "envoy.extensions.common.matching.v3.ExtensionWithMatcher"
TURNED_OFF = "RBACPerRoute without `rbac` turns the filter off for a route"
NOT_HERE = "this filter comes by config_discovery: check the DiscoveryResponse or the config dump that has its rules"
OLD_CONFIG = "`config` is of the API's version 2: write `typed_config` with the filter's `@type`"
PER_FILTER = "typed_per_filter_config"
WRAPPINGS = frozenset(
    "name typed_config typedConfig http_filters httpFilters typed_per_filter_config typedPerFilterConfig rbac "
    "resources configs static_resources staticResources dynamic_resources listeners filter_chains filterChains "
    "filters virtual_hosts virtualHosts routes route_config routeConfig version_info versionInfo".split()
)


class Form(NamedTuple):
    """A filter of a file: its name there (or nothing), the node of its message, and what was found in rewriting it."""

    name: str
    node: Optional[Node]
    findings: Sequence[Finding] = ()


class Reading:
    """The filters of one file, the notes on how they were read, and the mistakes of what could not be read."""

    def __init__(self, source: Source):
        self.source = source
        self.findings: List[Finding] = []
        self.mistakes: List[Mistake] = []
        self.forms: List[Form] = []
        # Filters that the file names and does not hold, each with the reason.
        self.absent: List[Tuple[Node, str]] = []
        # Whether the file is known to hold a policy, whatever mistakes it has.
        self.is_policy = False

    def read(self) -> None:
        """Reads the file."""
        documents, mistake = self.source.readable()
        if mistake is not None:
            self.mistakes.append(mistake)
        policies = [node for document in documents for node in _listed(document)]
        if any(istio.is_policy(node) for node in policies):
            self._istio(policies)
        elif len(documents) == 1 and grpc.is_policy(documents[0]):
            self._grpc(documents[0])
        elif documents or mistake is None:
            self._documents(documents)
        self.forms = [rewritten(self.source, form) for form in self.forms]

    def _istio(self, policies: List[Node]) -> None:
        self.is_policy = True
        translation = istio.Translation(self.source)
        self.forms = [Form(name, node) for name, node in translation.filters(policies)]
        self.findings += translation.findings
        self.mistakes += translation.mistakes

    def _grpc(self, document: Node) -> None:
        self.is_policy = True
        translation = grpc.Translation(self.source)
        self.forms = [Form(name, node) for name, node in translation.filters(document)]
        self.findings += translation.findings
        self.mistakes += translation.mistakes

    def _documents(self, documents: List[Node]) -> None:
        for document in documents or [None]:
            try:
                self.forms += self._document(document, len(documents) > 1)
            except Mistake as mistake:
                self.mistakes.append(mistake)
        if not self.forms and not self.mistakes:
            self.mistakes.append(self.source.mistake(start_of(documents[0]), _other_object(documents[0])))

    def _note(self, node: Node, words: str) -> None:
        self.findings.append(Finding(NOTE, words, start_of(node)))

    def _document(self, node: Optional[Node], is_one_of_several: bool) -> List[Form]:
        if not isinstance(node, (yaml.MappingNode, yaml.SequenceNode)):
            return [Form("", node)]
        direct = self._direct(node)
        if direct is not None:
            self.is_policy = True
            return [Form("", direct)]
        before = len(self.mistakes)
        found = self._inside(node, "")
        if not found and len(self.mistakes) > before:
            return []
        if not found:
            return self._without(node, is_one_of_several)
        self.is_policy = True
        for where, words in self.absent:
            self._note(where, f"{words}: it is left out")
        self.absent = []
        return _with_own_names(found)

    def _without(self, node: Node, is_one_of_several: bool) -> List[Form]:
        """What a document without any filter is: left out, a mistake, or a filter with mistakes of its own."""
        fields = set(names(node))
        if {"apiVersion", "kind"} <= fields and is_one_of_several:
            self._note(node, _other_object(node) + ": it is left out")
            return []
        if {"apiVersion", "kind"} <= fields:
            raise self.source.mistake(start_of(node), _other_object(node))
        if self.absent:
            raise self.source.mistake(start_of(self.absent[0][0]), f"{self.absent[0][1]}, and no other filter is here")
        if isinstance(node, yaml.MappingNode) and TYPE not in fields and not WRAPPINGS & fields:
            return [Form("", node)]
        raise self.source.mistake(start_of(node), f"no HTTP RBAC filter ({PREFIX}{FILTER}) is in this file")

    def _direct(self, node: Optional[Node]) -> Optional[Node]:
        """The filter that a node is, by its type or its fields, or None."""
        if not isinstance(node, yaml.MappingNode):
            return None
        kind, fields = _type_of(node), set(names(node))
        if kind == FILTER or not kind and "rules" in fields:
            return node
        if kind == RULES or not kind and fields and fields <= RULES_FIELDS:
            self._note(node, "these are the rules of a filter, read as its `rules`")
            return mapping({"rules": node}, node)
        if kind == PER_ROUTE or not kind and fields == {"rbac"}:
            return self._per_route(node)
        if kind in OLD:
            raise self.source.mistake(
                start_of(node), f"this is of the API's version 2, which Envoy no longer reads: write {PREFIX}{FILTER}"
            )
        return None

    def _per_route(self, node: yaml.MappingNode) -> Node:
        inner = get(node, "rbac")
        if inner is None or not isinstance(inner, yaml.MappingNode):
            raise self.source.mistake(start_of(node), f"{TURNED_OFF}: nothing is enforced")
        self._note(node, "the filter of RBACPerRoute, read as a filter of its own; the engine knows no routes")
        return inner

    def _inside(self, node: Optional[Node], name: str) -> List[Form]:
        """The filters inside a node, each with the name of what it is in; mistakes are kept."""
        found = [form for part in items(node) for form in self._inside(part, name)]
        if isinstance(node, yaml.MappingNode):
            try:
                found += self._in_mapping(node, name)
            except Mistake as mistake:
                self.mistakes.append(mistake)
        return found

    def _in_mapping(self, node: yaml.MappingNode, name: str) -> Iterator[Form]:
        own, kind = text_of(get(node, "name")) or name, _type_of(node)
        if kind == NETWORK:
            self._note(node, "the network filter is left out: rules that judge requests are in the HTTP filter")
        elif kind in STRUCTS and (text_of(get(node, "type_url")) or "").endswith((FILTER, PER_ROUTE)):
            yield from self._struct(node, own)
        elif kind == PER_ROUTE and get(node, "rbac") is None:
            self.absent.append((node, TURNED_OFF))
        elif kind or "rules" in names(node) and own == RBAC_NAME:
            direct = self._direct(node)
            yield from [Form(own, direct)] if direct is not None else self._around(node, own)
        else:
            yield from self._around(node, own)

    def _around(self, node: yaml.MappingNode, own: str) -> Iterator[Form]:
        """The filters in the fields of a node that is none itself."""
        if own == RBAC_NAME and isinstance(get(node, "config"), yaml.MappingNode) and not _type_of(node):
            raise self.source.mistake(start_of(key_of(node, "config")), OLD_CONFIG)
        if own == RBAC_NAME and get(node, "config_discovery") is not None:
            self.absent.append((node, NOT_HERE))
        found: List[Form] = []
        for key, _, value in pairs(node):
            for name, part in _named(key, value, own):
                found += self._inside(part, name)
        if found and text_of(get(node, "disabled")) == "true":
            words = "a disabled filter is read as if it ran: Envoy runs it only where a route has settings for it"
            self._note(key_of(node, "disabled"), words)
        if found and _type_of(node) == WITH_MATCHER:
            self._note(node, "the matcher around this filter is left out: here the filter judges every request")
        yield from found

    def _struct(self, node: yaml.MappingNode, name: str) -> Iterator[Form]:
        value = get(node, "value")
        if (text_of(get(node, "type_url")) or "").endswith(PER_ROUTE):
            value = self._per_route(value) if isinstance(value, yaml.MappingNode) else None
        if value is not None:
            yield Form(name, without(value, TYPE))


def _named(key: str, value: Node, own: str) -> List[Tuple[str, Node]]:
    """The parts of a field, each with the name of the filter that it is of: settings of routes have names as keys."""
    if key not in (PER_FILTER, camel(PER_FILTER)):
        return [(own, value)]
    return [(name, part) for name, _, part in pairs(value)]


def _other_object(node: Node) -> str:
    """What to tell of an object of Kubernetes that holds no filter."""
    what = f"{text_of(get(node, 'kind'))} of {text_of(get(node, 'apiVersion'))}"
    if text_of(get(node, "kind")) == istio.KIND:
        return f"this is an {what}, which is another object than Istio's, of {istio.GROUP}: its rules are no filter"
    return f"this is a {what}, which holds no filter: an AuthorizationPolicy or an EnvoyFilter is expected"


RBAC_NAME = "envoy.filters.http.rbac"
# Where a file has none of these words, nothing in it is said otherwise.
CAN_CHANGE = re.compile("regex|Regex|source_ip|sourceIp|stat")


def rewritten(source: Source, form: Form) -> Form:
    """A filter with what can be said in the profile said so."""
    if not CAN_CHANGE.search(source.text):
        return form
    rewriting = Rewriting(source)
    node = form.node and rewriting.filter(form.node)
    return Form(form.name, node, rewriting.findings)


def _listed(document: Optional[Node]) -> List[Node]:
    """A document, or the parts of a list of Kubernetes."""
    if text_of(get(document, "kind")) == "List":
        return items(get(document, "items"))
    return items(document) if isinstance(document, yaml.SequenceNode) else [document] if document is not None else []


def _type_of(node: yaml.MappingNode) -> str:
    """The message's name that `@type` says, or nothing."""
    url = text_of(get(node, TYPE)) or ""
    return url[url.rindex("/") + 1 :] if "/" in url else url


def _with_own_names(forms: List[Form]) -> List[Form]:
    """The forms, names that occur again with a number after them."""
    seen: dict = {}
    named = []
    for form in forms:
        name = form.name or "filter"
        seen[name] = seen.get(name, 0) + 1
        named.append(Form(name if seen[name] == 1 else f"{name}#{seen[name]}", form.node))
    return named

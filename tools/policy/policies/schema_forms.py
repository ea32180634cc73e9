"""The schema of the other forms of a file: Envoy's wrappings, and the policies of Istio and gRPC."""
from typing import List, Tuple

from .forms.envoy import WRAPPINGS
from .forms.grpc import ALLOW_RULES, DENY_RULES
from .forms.istio import ACTIONS
from .forms.istio_values import CONDITIONS, OPERATION, SOURCE
from .forms.nodes import camel
from .schema_parts import ANYTHING, NOT_EMPTY, TEXT, message, ref, some

FILTER_TYPE = "envoy.extensions.filters.http.rbac.v3.RBAC"
LISTS = ("http_filters", "resources", "configs", "listeners", "filter_chains", "filters", "virtual_hosts", "routes")


def definitions() -> dict:
    """The parts that `chosen` names."""
    entry = {
        "type": "object",
        "description": "An HTTP filter by name, with its settings.",
        "properties": {"name": TEXT, "disabled": {"type": "boolean"}, **_both("typed_config", ref("Settings"))},
    }
    wrapping = {
        "type": "object",
        "description": "A part of Envoy's configuration, or a dump of it, with filters inside.",
        "properties": {name: value for field in LISTS for name, value in _both(field, _list(field)).items()},
    }
    return {"Entry": entry, "Wrapping": wrapping, "Settings": _settings(), "PerRoute": _per_route(), **_istio(), **_grpc()}


def _both(name: str, value: dict) -> dict:
    return {name: value, camel(name): value}


def _list(field: str) -> dict:
    return {"type": "array", "items": ref("Entry")} if field == "http_filters" else {}


def _settings() -> dict:
    """Settings of any filter: those of this one where their type says so."""
    typed = {"properties": {"@type": {"pattern": FILTER_TYPE.replace(".", "\\.") + "$"}}, "required": ["@type"]}
    return {"type": "object", "if": typed, "then": ref("Filter")}


def _per_route() -> dict:
    return message("The filter's settings for a route.", {"rbac": ref("Filter"), "@type": TEXT}, ["rbac"])


def _istio() -> dict:
    negated = lambda names: {made: some(TEXT) for name in names for made in (name, "not" + name[0].upper() + name[1:])}
    keys = {"anyOf": [{"enum": sorted(CONDITIONS)}, {"type": "string", "pattern": r"^request\.headers\[.+\]$"}]}
    rule = {
        "from": some(_exactly({"source": _exactly(negated(SOURCE))}, ["source"])),
        "to": some(_exactly({"operation": _exactly(negated(OPERATION))}, ["operation"])),
        "when": some(_exactly({"key": keys, "values": some(TEXT), "notValues": some(TEXT)}, ["key"])),
    }
    chosen = {name: ANYTHING for name in ("selector", "targetRef")}
    spec = {"action": {"enum": sorted(ACTIONS)}, "rules": _items(_exactly(rule)), "targetRefs": _items(ANYTHING), **chosen}
    kind = {"kind": {"const": "AuthorizationPolicy"}, "apiVersion": TEXT, "metadata": ANYTHING, "spec": _exactly(spec)}
    return {"AuthorizationPolicy": {"type": "object", "description": "Istio's policy.", "properties": kind}}


def _grpc() -> dict:
    header = _exactly({"key": NOT_EMPTY, "values": some(TEXT)}, ["key", "values"])
    request = _exactly({"paths": _items(TEXT), "headers": _items(header)})
    rule = _exactly({"name": NOT_EMPTY, "source": _exactly({"principals": _items(TEXT)}), "request": request}, ["name"])
    fields = {"name": NOT_EMPTY, DENY_RULES: _items(rule), ALLOW_RULES: some(rule), "audit_logging_options": ANYTHING}
    return {"GrpcPolicy": _exactly(fields, ["name", ALLOW_RULES])}


def _exactly(fields: dict, wanted: List[str] = ()) -> dict:
    """An object of these fields and no other."""
    made = {"type": "object", "properties": fields, "additionalProperties": False}
    return {**made, "required": list(wanted)} if wanted else made


def _items(of: dict) -> dict:
    return {"type": "array", "items": of}


def chosen() -> dict:
    """The form that a file has, by the fields at its top: one of these, else the filter itself."""
    has = lambda *names: {"type": "object", "anyOf": [{"required": [name]} for name in names]}
    no_filter = lambda test: {"allOf": [test, {"not": has("rules")}]}
    is_istio = {"type": "object", "properties": {"kind": {"const": "AuthorizationPolicy"}}, "required": ["kind"]}
    forms: List[Tuple[dict, dict]] = [
        ({"type": "array"}, _items(ref("Entry"))),
        (is_istio, ref("AuthorizationPolicy")),
        (no_filter(has(DENY_RULES, ALLOW_RULES)), ref("GrpcPolicy")),
        (no_filter(has("rbac")), ref("PerRoute")),
        (no_filter(has("typed_config", "typedConfig")), ref("Entry")),
        (no_filter(has(*sorted(WRAPPINGS - {"name", "rbac"}))), ref("Wrapping")),
        (no_filter(has("policies", "action")), ref("Rules")),
    ]
    made = ref("Filter")
    for test, form in reversed(forms):
        made = {"if": test, "then": form, "else": made}
    return made

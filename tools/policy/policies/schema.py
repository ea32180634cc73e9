"""The JSON Schema of a file of YAML or JSON, for editors: what `policy encode` reads."""
from .schema_forms import chosen, definitions
from .schema_parts import ANYTHING, FLAG, INT64, NOT_EMPTY, TEXT, has, message, one_of, ref, some

DRAFT = "http://json-schema.org/draft-07/schema#"


def _rule(about: str, kind: str, names: tuple, members: dict) -> dict:
    all_of, any_of, negation, field = names
    inner = message("A set of rules, which is not empty.", {field: some(ref(kind))}, [field])
    return one_of(about, {all_of: inner, any_of: inner, negation: ref(kind), "any": {"const": True}, **members})


def _texts() -> dict:
    regex = message(
        "RE2; alternatives of texts are read as such, more is refused.",
        {"regex": TEXT, "google_re2": ANYTHING},
        ["regex"],
    )
    patterns = {
        "exact": TEXT,
        "prefix": NOT_EMPTY,
        "suffix": NOT_EMPTY,
        "contains": NOT_EMPTY,
        "safe_regex": ref("Regex"),
    }
    header = {
        "exact_match": TEXT,
        "prefix_match": NOT_EMPTY,
        "suffix_match": NOT_EMPTY,
        "contains_match": NOT_EMPTY,
        "safe_regex_match": ref("Regex"),
        "string_match": ref("StringMatcher"),
        "range_match": message("Start is in, end is not.", {"start": INT64, "end": INT64}),
        "present_match": FLAG,
    }
    flags = {"name": NOT_EMPTY, "invert_match": FLAG, "treat_missing_header_as_empty": FLAG}
    return {
        "Regex": regex,
        "StringMatcher": one_of("One test of a text.", patterns, {"ignore_case": FLAG}),
        "PathMatcher": message("The target up to the first ? or #.", {"path": ref("StringMatcher")}, ["path"]),
        "HeaderMatcher": message("A header; without a test, that it is there.", {**header, **flags}, ["name"]),
    }


def _rules() -> dict:
    length = {"anyOf": [{"type": "integer", "minimum": 0, "maximum": 128}, message("", {"value": INT64})]}
    cidr = message("A range of addresses.", {"address_prefix": NOT_EMPTY, "prefix_len": length}, ["address_prefix"])
    port = {"type": "integer", "minimum": 0, "maximum": 65535}
    bound = {"type": "integer", "minimum": 0, "maximum": 65536}
    permission = {
        "header": ref("HeaderMatcher"),
        "destination_ip": ref("CidrRange"),
        "destination_port": port,
        "destination_port_range": message("Start is in, end is not.", {"start": bound, "end": bound}, ["end"]),
        "requested_server_name": ref("StringMatcher"),
        "url_path": ref("PathMatcher"),
    }
    principal = {
        "authenticated": message("A peer with a certificate.", {"principal_name": ref("StringMatcher")}),
        "header": ref("HeaderMatcher"),
        "url_path": ref("PathMatcher"),
        "direct_remote_ip": ref("CidrRange"),
        "remote_ip": ref("CidrRange"),
        "source_ip": {**ref("CidrRange"), "description": "Read as direct_remote_ip."},
    }
    return {
        "CidrRange": cidr,
        "Permission": _rule(
            "What is asked for.", "Permission", ("and_rules", "or_rules", "not_rule", "rules"), permission
        ),
        "Principal": _rule("Who asks.", "Principal", ("and_ids", "or_ids", "not_id", "ids"), principal),
    }


def _policies() -> dict:
    kinds = {"type": "object", "additionalProperties": {"anyOf": [TEXT, ANYTHING]}}
    checked = {
        "text": {"type": "string", "description": "A condition in CEL."},
        "dotted": FLAG,
        "accumulator": {"enum": ["__result__", "@result"]},
        "ids": {"type": "array", "items": INT64},
        "type_map": {**kinds, "description": "Types of empty literals by their ids: {2: list(int)}."},
        "expr": ANYTHING,
        "reference_map": ANYTHING,
        "source_info": ANYTHING,
        "expr_version": TEXT,
    }
    condition = message("A condition: `text` in CEL, or the tree `expr`.", checked)
    condition["oneOf"] = [has("text"), has("expr")]
    policy = {
        "permissions": some(ref("Permission")),
        "principals": some(ref("Principal")),
        "checked_condition": ref("CheckedCondition"),
        "condition": {
            "type": "object",
            "description": "A condition without types of empty literals: `text` in CEL, or the tree itself.",
            "properties": {name: checked[name] for name in ("text", "dotted", "accumulator", "ids")},
        },
    }
    rules = {
        "action": {"enum": ["ALLOW", "DENY", "LOG", 0, 1, 2]},
        "policies": {"type": "object", "additionalProperties": ref("Policy"), "maxProperties": 256},
    }
    return {
        "CheckedCondition": condition,
        "Policy": message(
            "Matches where a permission, a principal and the condition do.", policy, ["permissions", "principals"]
        ),
        "Rules": message("The rules; without an action, ALLOW.", rules),
    }


def schema() -> dict:
    """The schema of a file."""
    skipped = {"shadow_rules": ANYTHING, "shadow_rules_stat_prefix": TEXT}
    whole = message(
        "Envoy's HTTP RBAC filter in the profile of the engine.",
        {"rules": ref("Rules"), **skipped, "@type": TEXT},
        ["rules"],
    )
    return {
        "$schema": DRAFT,
        "title": "HTTP RBAC filter, or a file with such filters",
        **chosen(),
        "definitions": {"Filter": whole, **_texts(), **_rules(), **_policies(), **definitions()},
    }

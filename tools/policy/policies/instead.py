"""What to write instead of what the profile leaves out, and what messages look like, by Envoy's names."""
OWN_HEADER = "let the proxy put it into a header, which it removes from what clients send, and match the header"
INSTEAD = {
    "metadata": f"the engine has no metadata of other filters: {OWN_HEADER}",
    "sourced_metadata": f"the engine has no metadata of other filters: {OWN_HEADER}",
    "filter_state": f"the engine has no filter state: {OWN_HEADER}",
    "matcher": "matchers as extensions are left out: write `rules` with policies, or a condition in CEL",
    "shadow_matcher": "shadow rules are never enforced: leave it out",
    "source_ip": "write direct_remote_ip (the peer's address) or remote_ip (the client's address, if a proxy is between)",
    "safe_regex": "write `exact`, `prefix`, `suffix` or `contains`, or several of them under or_rules or or_ids",
    "safe_regex_match": "write `string_match` with `exact`, `prefix`, `suffix` or `contains`",
    "regex": "write `exact`, `prefix`, `suffix` or `contains`",
    "regex_match": "write `string_match` with `exact`, `prefix`, `suffix` or `contains`",
    "custom": "custom matchers are left out: write a member of the profile, or a condition in CEL",
    "uri_template": 'write `url_path` with a `prefix`, or a condition in CEL such as request.url_path.endsWith("/x")',
    "audit_logging_options": "the engine writes no log: leave it out",
    "cel_config": "CEL has no options here: leave it out, and write no string function that it would allow",
    "rules_stat_prefix": "the engine keeps no statistics: leave it out",
    "track_per_rule_stats": "the engine keeps no statistics: leave it out",
    "null_value": "ask for a key with `in` or `has`",
    "double_value": "write a whole number",
    "optional_indices": "write the elements themselves",
    "field_key": "the engine makes no messages: write a map",
    "match_excluded": "write `not_rule` or `not_id`",
}


# How a message is written, by its name without its package.
SHAPES = {
    "PathMatcher": "path: {prefix: /api/}",
    "StringMatcher": "exact: text",
    "CidrRange": "{address_prefix: 10.0.0.0, prefix_len: 8}",
    "Int32Range": "{start: 8000, end: 9000}",
    "Int64Range": "{start: 1, end: 10}",
    "HeaderMatcher": "{name: x-user, string_match: {exact: alice}}",
    "CheckedExpr": "text: request.method == 'GET'",
    "Expr": "text: request.method == 'GET'",
    "Permission.Set": "rules: [{any: true}]",
    "Principal.Set": "ids: [{any: true}]",
    "Permission": "any: true",
    "Principal": "any: true",
    "Principal.Authenticated": "principal_name: {exact: text}",
    "Policy": "{permissions: [{any: true}], principals: [{any: true}]}",
    "RBAC": "{action: ALLOW, policies: {}}",
    "the HTTP RBAC filter": "rules: {policies: {}}",
}


def shape(label: str) -> str:
    """How a message is written."""
    return f"such as `{SHAPES[label]}`" if label in SHAPES else "as `name: value`"


def instead(name: str) -> str:
    """The words for a field, after a colon, or nothing."""
    return f": {INSTEAD[name]}" if name in INSTEAD else ""

"""Filters with names, as YAML: worked cases and tables of rows, each with what else is known of it."""
from support import POLICY, condition, tree_condition

# Bytes worked out by hand from the encoding's rules.
BYTES = {
    "any_any": (POLICY, "0a 0f 12 0d 0a 01 70 12 08 0a 02 18 01 12 02 18 01"),
    "rules_without_policies": ("rules: {}\n", "0a 00"),
    "empty": ("", ""),
    "true_and_true": (
        condition("true && true"),
        "0a 2d 12 2b 0a 01 70 12 26 0a 02 18 01 12 02 18 01 22 1c 22 1a 10 02 32 16 12 04 5f 26 26 5f 1a 06 10 01 1a 02 "
        "10 01 1a 06 10 03 1a 02 10 01",
    ),
    "method_is_get": (
        condition('request.method == "GET"'),
        "0a 45 12 43 0a 01 70 12 3e 0a 02 18 01 12 02 18 01 22 34 22 32 10 03 32 2e 12 04 5f 3d 3d 5f 1a 1b 10 02 2a 17 "
        "0a 0d 10 01 22 09 0a 07 72 65 71 75 65 73 74 12 06 6d 65 74 68 6f 64 1a 09 10 04 1a 05 32 03 47 45 54",
    ),
    "unchecked_condition": (
        POLICY + '      condition: {text: "true && true"}\n',
        "0a 2b 12 29 0a 01 70 12 24 0a 02 18 01 12 02 18 01 1a 1a 10 02 32 16 12 04 5f 26 26 5f 1a 06 10 01 1a 02 10 01 "
        "1a 06 10 03 1a 02 10 01",
    ),
    "any_false": (
        POLICY.replace("permissions:\n      - any: true", "permissions:\n      - any: false"),
        "0a 0f 12 0d 0a 01 70 12 08 0a 02 18 00 12 02 18 01",
    ),
    "not_any": (
        POLICY.replace("permissions:\n      - any: true", "permissions:\n      - not_rule:\n          any: true"),
        "0a 11 12 0f 0a 01 70 12 0a 0a 04 42 02 18 01 12 02 18 01",
    ),
    "deny_not_any": (
        "rules: {action: DENY, policies: {p: {permissions: [{not_rule: {any: true}}], principals: [{any: true}]}}}",
        "0a 13 08 01 12 0f 0a 01 70 12 0a 0a 04 42 02 18 01 12 02 18 01",
    ),
    "action_3": (
        "rules: {action: 3, policies: {p: {permissions: [{not_rule: {any: true}}], principals: [{any: true}]}}}",
        "0a 13 08 03 12 0f 0a 01 70 12 0a 0a 04 42 02 18 01 12 02 18 01",
    ),
    "two_policies": (
        "rules: {policies: {b: {permissions: [{any: true}], principals: [{any: true}]}, "
        "a: {permissions: [{not_rule: {any: true}}], principals: [{any: true}]}}}",
        "0a 20 12 0d 0a 01 62 12 08 0a 02 18 01 12 02 18 01 12 0f 0a 01 61 12 0a 0a 04 42 02 18 01 12 02 18 01",
    ),
}

# Bytes that no plain spelling gives: the YAML has to keep them.
ODD_BYTES = {
    "oneof_not_merged": "0a 20 12 1e 0a 01 70 12 19 0a 13 22 05 0a 01 61 70 01 18 01 22 08 0a 01 62 22 01 78 40 01 12 "
    "02 18 01",
    "long_varint": "0a 10 12 0e 0a 01 70 12 09 0a 03 18 81 00 12 02 18 01",
    "rules_twice": "0a 02 08 01 0a 0f 12 0d 0a 01 70 12 08 0a 02 18 01 12 02 18 01",
    "unknown_field": "22 00",
    "prefix_len_twice": "0a 1f 12 1d 0a 01 70 12 18 0a 02 18 01 12 12 5a 10 0a 08 31 30 2e 30 2e 30 2e 30 12 04 08 08 08 08",
    "cut_inside": "0a 0f 12 0e 0a 01 70 12 08 0a 02 18 01 12 02 18 01",
}

TREES = """true && true
request.method == "GET"
9223372036854775807 + 1 == 0
1 / 0 == 0 || true
[0, 1].all(x, 1 / x > 1)
[0, 1].all(x, 1 / x == 1)
request.headers["x-user"] == "a"
has(request.headers.xuser)
size([]) == 0
request.color == "x"
request.method == 1
request.method
(true ? 1 / 0 : 2) == 2
(false ? 1 / 0 : 2) == 2
connection.mtls ? true : false
-9223372036854775808 % -1 == 0
[0, 1].exists(x, 1 / x == 1)
[true, false, true].all(x, x)
[].all(x, x == 0)
1 + 1u
[1, 2u]
{[1]: 2}
size("a")
"a".size()
1 in [1]
_in_(1, [1])
[7, 8].all(i, x, x - i == 7)
{"a": 1, "b": 2}.exists(k, v, k == "b" && v == 2)
int(18446744073709551615u) == 0
string(-5) == "-5"
bytes("é") == b"\\xc3\\xa9"
string(b"\\xff") == ""
int(1)
uint("1")""".splitlines()

IN = "{id: 1, call_expr: {function: in, args: [{id: 2, const_expr: {int64_value: 1}}, {id: 3, list_expr: {}}]}}"
LOOP = (
    "{id: 1, comprehension_expr: {iter_var: %s, iter_range: %s, accu_var: %s, accu_init: %s, loop_condition: %s, "
    "loop_step: %s, result: %s}}"
)
TRUE = "{id: 2, const_expr: {bool_value: true}}"
ACC = "{id: 3, ident_expr: {name: acc}}"
ONE = "{id: 4, const_expr: {int64_value: 1}}"
A = "{id: 5, const_expr: {string_value: a}}"
HEADERS = "{id: 6, select_expr: {operand: {id: 7, ident_expr: {name: request}}, field: headers}}"
FAULT = (
    "{id: 8, call_expr: {function: _==_, args: [{id: 9, call_expr: {function: _/_, args: [%s, "
    "{id: 10, const_expr: {int64_value: 0}}]}}, {id: 11, const_expr: {int64_value: 0}}]}}" % ONE
)
# Loops that are no macro's expansion.
LOOPS = {
    "doubling_accumulator": LOOP
    % (
        "k",
        HEADERS,
        "acc",
        A,
        TRUE,
        "{id: 12, call_expr: {function: _+_, args: [%s, %s]}}" % (ACC, ACC),
        "{id: 13, call_expr: {function: _==_, args: [%s, %s]}}" % (ACC, A),
    ),
    "faulty_loop_condition": LOOP % ("x", "{id: 14, list_expr: {elements: [%s]}}" % ONE, "acc", TRUE, FAULT, ACC, TRUE),
    "same_names": LOOP % ("acc", "{id: 14, list_expr: {elements: [%s]}}" % ONE, "acc", TRUE, TRUE, ACC, ACC),
    "no_accumulator": LOOP % ("x", "{id: 14, list_expr: {elements: [%s]}}" % ONE, '""', TRUE, TRUE, TRUE, TRUE),
    "second_variable": LOOP.replace("iter_range", "iter_var2: y, iter_range")
    % ("x", "{id: 14, list_expr: {elements: [%s]}}" % ONE, "acc", TRUE, TRUE, ACC, ACC),
    "second_is_accumulator": LOOP.replace("iter_range", "iter_var2: acc, iter_range")
    % ("x", "{id: 14, list_expr: {elements: [%s]}}" % ONE, "acc", TRUE, TRUE, ACC, ACC),
    "second_is_first": LOOP.replace("iter_range", "iter_var2: x, iter_range")
    % ("x", "{id: 14, list_expr: {elements: [%s]}}" % ONE, "acc", TRUE, TRUE, ACC, ACC),
}


def nested(count: int) -> str:
    """The text of `true` behind so many `!`, none of which takes another away."""
    return "!(" * (count - 1) + "!true" + ")" * (count - 1)


def rule(text: str) -> str:
    """The YAML of the filter whose one permission is given in flow style."""
    return f"rules: {{policies: {{p: {{permissions: [{text}], principals: [{{any: true}}]}}}}}}\n"


def principal(text: str) -> str:
    """The YAML of the filter whose one principal is given in flow style."""
    return f"rules: {{policies: {{p: {{permissions: [{{any: true}}], principals: [{text}]}}}}}}\n"


def chain(count: int) -> str:
    """So many not_rule around any."""
    return rule("{not_rule: " * count + "{any: true}" + "}" * count)


# The rows on rules and matchers.
RULES = {
    "depth_32": chain(31),
    "depth_33": chain(32),
    "cidr_9": rule("{destination_ip: {address_prefix: 10.0.0.0, prefix_len: 9}}"),
    "cidr_0": rule("{destination_ip: {address_prefix: 0.0.0.0, prefix_len: 0}}"),
    "ports": rule("{destination_port_range: {start: 80, end: 81}}"),
    "no_ports": rule("{destination_port_range: {start: 5, end: 5}}"),
    "negative_ports": rule("{destination_port_range: {start: -1, end: 5}}"),
    "too_many_ports": rule("{destination_port_range: {start: 0, end: 65537}}"),
    "all_ports": rule("{destination_port_range: {start: 0, end: 65536}}"),
    "range": rule("{header: {name: a, range_match: {start: -1, end: 10}}}"),
    "inverted_range": rule("{header: {name: a, range_match: {start: -1, end: 10}, invert_match: true}}"),
    "no_case": rule("{requested_server_name: {exact: AbC, ignore_case: true}}"),
    "path": rule("{url_path: {path: {exact: /a}}}"),
    "peer": principal("{authenticated: {principal_name: {exact: a}}}"),
}


def all_cases():
    """All cases as YAML, by name."""
    cases = {name: text for name, (text, _) in BYTES.items()}
    cases.update({f"tree {text}": condition(text) for text in TREES})
    cases.update({name: tree_condition(tree) for name, tree in LOOPS.items()})
    cases.update(RULES)
    cases["unchecked_empty_literal"] = POLICY + "      condition: {text: '[].all(x, x == 0)'}\n"
    cases["both_conditions"] = condition("true && true") + "      condition: {text: 'true && true'}\n"
    cases["in_by_name"] = tree_condition(IN)
    cases["empty_literal_told"] = condition("size([]) == 0", "type_map: {2: list(int)}")
    cases["empty_literal_dyn"] = condition("size([]) == 0", "type_map: {2: list(dyn)}")
    cases["empty_literal_untold"] = condition("[].all(x, x == 0)", "type_map: {}")
    cases["entry_on_select"] = condition('request.method == "GET"', "type_map: {2: int}")
    cases["entry_on_root"] = condition('request.method == "GET"', "type_map: {1: dyn}")
    beside = "dotted: true\nreference_map: {1: {name: request.path}}"
    cases["other_reference"] = condition('request.method == "GET"', beside)
    cases["depth_64"] = condition(nested(63))
    cases["depth_65"] = condition(nested(64))
    return cases

"""The comments on what is outside the profile or cannot be read."""
import re
import unittest

import cases
from cases import principal, rule
from policies.decode import decode
from support import POLICY, condition, encoded, numbers, told, tree_condition

ONE = cases.ONE
ANY = "0a 02 18 01 12 02 18 01"
CONDITION = POLICY + "      checked_condition: "


def many_policies(count):
    """A filter of so many policies."""
    return "rules: {policies: {%s}}" % ", ".join(f"p{number}: {{'@wire': '{ANY}'}}" for number in range(count))


# A filter, and the refusals' numbers in its comments.
REFUSED = [
    ("", [4]),
    ("rules: {}", []),
    (POLICY, []),
    ("rules: {action: 3}", [5]),
    ("rules: {action: -1}", [5]),
    ("rules: {audit_logging_options: {}}", [6]),
    ("rules: {policies: {p: {}}}", [4, 4]),
    ("rules: {policies: {p: {permissions: [{any: true}]}}}", [4]),
    ("rules: {policies: {p: {permissions: [{}], principals: [{any: true}]}}}", [4]),
    (rule("{any: false}"), [5]),
    (rule("{and_rules: {}}"), [4]),
    (rule("{or_rules: {rules: [{any: true}, {}]}}"), [4]),
    (rule("{not_rule: {}}"), [4]),
    (rule("{metadata: {}}"), [6]),
    (rule("{matcher: {}}"), [6]),
    (rule("{destination_port: 65535}"), []),
    (rule("{destination_port: 65536}"), [5]),
    (cases.RULES["ports"], []),
    (cases.RULES["all_ports"], []),
    (cases.RULES["no_ports"], [5]),
    (cases.RULES["negative_ports"], [5]),
    (cases.RULES["too_many_ports"], [5]),
    (cases.RULES["depth_32"], []),
    (cases.RULES["depth_33"], [8]),
    (rule("{destination_ip: {address_prefix: '::'}}"), []),
    (rule("{destination_ip: {address_prefix: '1:2:3:4:5:6:7::', prefix_len: 128}}"), []),
    (rule("{destination_ip: {address_prefix: 255.0.0.1, prefix_len: 32}}"), []),
    (rule("{destination_ip: {}}"), [5]),
    (rule("{destination_ip: {address_prefix: 1.2.3.04}}"), [5]),
    (rule("{destination_ip: {address_prefix: 256.0.0.1}}"), [5]),
    (rule("{destination_ip: {address_prefix: '1::2::3'}}"), [5]),
    (rule("{destination_ip: {address_prefix: '1:2:3:4:5:6:7:8::'}}"), [5]),
    (rule("{destination_ip: {address_prefix: '::ffff:1.2.3.4'}}"), [5]),
    (rule("{destination_ip: {address_prefix: 1.2.3.4, prefix_len: 33}}"), [5]),
    (rule("{destination_ip: {address_prefix: '::1', prefix_len: 129}}"), [5]),
    (rule("{requested_server_name: {}}"), [4]),
    (rule("{requested_server_name: {exact: ''}}"), []),
    (rule("{requested_server_name: {prefix: ''}}"), [5]),
    (rule("{requested_server_name: {suffix: ''}}"), [5]),
    (rule("{requested_server_name: {contains: ''}}"), [5]),
    (rule("{requested_server_name: {safe_regex: {}}}"), [6]),
    (rule("{url_path: {}}"), [4]),
    (rule("{header: {}}"), [4]),
    (rule("{header: {name: a}}"), []),
    (rule("{header: {name: a, prefix_match: ''}}"), [5]),
    (rule("{header: {name: a, suffix_match: ''}}"), [5]),
    (rule("{header: {name: a, contains_match: ''}}"), [5]),
    (rule("{header: {name: a, exact_match: ''}}"), []),
    (rule("{header: {name: a, safe_regex_match: {}}}"), [6]),
    (principal("{source_ip: {}}"), [6]),
    (principal("{metadata: {}}"), [6]),
    (principal("{filter_state: {}}"), [6]),
    (principal("{authenticated: {}}"), []),
    (principal("{authenticated: {principal_name: {}}}"), [4]),
    (principal("{and_ids: {}}"), [4]),
    (principal("{not_id: {any: false}}"), [5]),
    (condition("true"), []),
    (POLICY + "      condition: {text: 'true'}\n", []),
    (POLICY + "      condition: {text: '1'}\n", [13]),
    (POLICY + "      condition: {text: 'x'}\n", [9]),
    (POLICY + "      condition: {text: '[].all(x, x == 0)'}\n", [14]),
    (POLICY + "      condition: {text: '1.5 == null'}\n", [6, 6]),
    (POLICY + "      condition: {}\n", [4]),
    (POLICY + "      condition: {call_expr: {function: '!_', args: [{const_expr: {int64_value: 1}}]}}\n", [10]),
    (POLICY + "      condition: {text: '[1].map(x, x) == [1]'}\n", [14]),
    (POLICY + "      condition: {text: 'true'}\n      checked_condition: {text: 'true'}\n", [7]),
    (CONDITION + "{}", [4]),
    (CONDITION + "{expr: {}}", [4]),
    (CONDITION + "{expr: {const_expr: {}}}", [4]),
    (condition("null == 1.5"), [6, 6]),
    (condition("A{b: 1} == {}", "type_map: {5: 'map(int, int)'}"), [6, 6]),
    (tree_condition("{list_expr: {optional_indices: [0]}}"), [6]),
    (tree_condition("{select_expr: {field: a}}"), [4]),
    (tree_condition("{struct_expr: {entries: [{}]}}"), [4]),
    (tree_condition("{struct_expr: {entries: [{map_key: %s, value: %s, optional_entry: true}]}}" % (ONE, ONE)), [6]),
    (tree_condition("{comprehension_expr: {}}"), [4] * 7),
    (tree_condition(cases.LOOPS["same_names"]), [5]),
    (tree_condition(cases.LOOPS["no_accumulator"]), [4]),
    (tree_condition(cases.LOOPS["second_variable"]), []),
    (tree_condition(cases.LOOPS["second_is_accumulator"]), [5]),
    (tree_condition(cases.LOOPS["second_is_first"]), [5]),
    (condition('request.color == "x"'), [9]),
    (condition("request"), [9]),
    (condition("x"), [9]),
    (condition("f(request.path)"), [9]),
    (condition("request.path.matches('a')"), [9]),
    (condition("has(request.method)"), [9]),
    (condition("[1].all(request, request == 1)"), []),
    (condition("request.method == 'a'", "dotted: true"), []),
    (condition("request.color == 'a'", "dotted: true"), [9]),
    (condition("[1].all(x, [2].exists(y, x < y)) && y"), [9]),
    (condition("size([]) == 0", "type_map: {2: list(dyn)}"), [6]),
    (condition("size([]) == 0", "type_map: {2: dyn}"), [14]),
    (condition("size([]) == 0", "type_map: {9: list(dyn)}"), [14]),
    (condition("request.path == ''", "type_map: {1: list(dyn)}"), []),
    (condition("request.path == ''", "type_map: {2: list(dyn)}"), [6]),
    (condition("true", "type_map: {5: {primitive: 7}}"), [5]),
    (condition("true", "type_map: {5: {list_type: {}}}"), [5]),
    (condition("true", "type_map: {5: {map_type: {key_type: {primitive: BOOL}}}}"), [5]),
    (condition("true", "reference_map: {5: {value: {}}}"), [4]),
    (condition("true", "reference_map: {5: {value: {double_value: 1}}}"), [6]),
    (condition("true", "type_map: {5: %sint%s}" % ("list(" * 64, ")" * 64)), [8]),
    (condition("true", "type_map: {5: %sint%s}" % ("list(" * 63, ")" * 63)), []),
    (condition("true", "source_info: {macro_calls: {1: {}}}"), []),
    (condition(cases.nested(63)), []),
    (condition(cases.nested(64)), [8]),
    (condition("[" + ", ".join(["1"] * 2046) + "] == x"), [8]),
    (condition("size([" + ", ".join(["1"] * 2046) + "])"), [13]),
    ("rules: {}\nshadow_rules: {policies: {p: {}}}\nshadow_rules_stat_prefix: x", []),
    (many_policies(256), []),
    (many_policies(257), [8]),
]

# Filters in bytes, and the comments they get.
TOLD = {
    "22 00": ["byte 0: the HTTP RBAC filter has no field 4 (3 UnknownField)"],
    "08 01": ["byte 0: field 1 (rules) is not of wire type 0 (3 UnknownField)"],
    "0a 02 18 01": ["byte 2: field 3 (audit_logging_options) is not of wire type 0 (3 UnknownField)"],
    "0a": ["byte 1: a number is cut short here (1 BadWire)"],
    "0a 00 00": ["byte 2: 0 is no number of a field (1 BadWire)"],
    "0a 00 0b": ["byte 3: 3 is no type of a field (1 BadWire)"],
    "0a 02 08": ["byte 2: 2 bytes are expected here, and there are 1 (1 BadWire)"],
    "0a 0b 08 80 80 80 80 80 80 80 80 80 02": ["byte 3: a number here is longer than 64 bits (1 BadWire)"],
    "0a 0f 12 0d 0a 01 ff 12 08 0a 02 18 01 12 02 18 01": ["byte 4: key is a text that is not UTF-8 (2 BadText)"],
}


class Comments(unittest.TestCase):
    """The numbers, the words and the places of comments."""

    def test_numbers(self):
        for text, wanted in REFUSED:
            with self.subTest(text[-100:]):
                found = re.findall(r"# byte \d+: .* \((\d+) [A-Za-z]+\)$", decode(encoded(text)), re.MULTILINE)
                self.assertEqual(sorted(map(int, found)), wanted)

    def test_words(self):
        for digits, wanted in TOLD.items():
            with self.subTest(digits):
                found = re.findall(r"# (byte \d+: .*\)$)", decode(bytes.fromhex(digits)), re.MULTILINE)
                self.assertEqual([text for text in found if "(4 Missing)" not in text], wanted)

    def test_place(self):
        """The comment stands before the part, with the offset of its tag."""
        text = decode(bytes.fromhex("0a 0f 12 0d 0a 01 70 12 08 0a 02 18 00 12 02 18 01"))
        words = "`any` is true or is not there: for none write `not_rule` or `not_id` around it (5 OutOfRange)"
        self.assertIn(f"      # byte 11: {words}\n      - any: false\n", text)

    def test_replaced_member(self):
        """What a later member of a oneof replaces is dropped, supported or not."""
        for member in ("3a 00", "62 00"):
            policy = bytes.fromhex(f"0a 04 {member} 18 01 12 02 18 01")
            text = decode(bytes.fromhex("0a 11 12 0f 0a 01 70 12 0a") + policy)
            self.assertNotIn("Unsupported", text)
            self.assertIn("any: true", text)

    def test_skipped(self):
        text = decode(encoded("rules: {}\nshadow_rules: {policies: {p: {}}}\n"))
        self.assertIn("# byte 2: the engine skips shadow_rules\nshadow_rules:\n", text)


class Notes(unittest.TestCase):
    """The same remarks at the parts of a file that is encoded."""

    def test_places(self):
        text = POLICY.replace("- any: true", "- metadata: {}", 1) + (
            "      checked_condition:\n        text: |\n          request.path.matches('a') &&\n          x\nshadow_rules: {}\n"
        )
        self.assertTrue(encoded(text))
        self.assertEqual(
            told(text),
            [
                "filter.yaml:10:24: the engine has no function matches: there are no regular expressions: write `==`, "
                "`startsWith`, `endsWith`, `contains` or `in` (9 UnknownName)",
                "filter.yaml:11:11: the engine has no variable x; it has request, source, destination, connection; a text is "
                "in quotes (9 UnknownName)",
                "filter.yaml:12:15: note: the engine skips shadow_rules",
                "filter.yaml:5:19: the engine does not support metadata: the engine has no metadata of other filters: let the "
                "proxy put it into a header, which it removes from what clients send, and match the header (6 Unsupported)",
            ],
        )

    def test_same_numbers(self):
        for text, wanted in REFUSED:
            with self.subTest(text[-100:]):
                self.assertEqual(numbers(text), set(wanted))

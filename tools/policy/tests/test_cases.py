"""The worked cases: their bytes, and the way there and back."""
import unittest

import cases
from policies.decode import decode
from policies.wrap import frame, response
from support import condition, encoded, field
from yaml_data import as_data


class Bytes(unittest.TestCase):
    """Bytes that are known from elsewhere."""

    def test_encoded(self):
        for name, (text, digits) in cases.BYTES.items():
            with self.subTest(name):
                self.assertEqual(encoded(text).hex(" "), digits)

    def test_all_come_back(self):
        for name, text in cases.all_cases().items():
            with self.subTest(name):
                data = encoded(text)
                self.assertEqual(encoded(decode(data)), data)

    def test_yaml_comes_back(self):
        for name, text in cases.all_cases().items():
            with self.subTest(name):
                self.assertEqual(as_data(decode(encoded(text))), as_data(text))

    def test_odd_bytes_come_back(self):
        for name, digits in cases.ODD_BYTES.items():
            with self.subTest(name):
                text = decode(bytes.fromhex(digits))
                self.assertIn('"@wire"', text)
                self.assertEqual(encoded(text).hex(" "), digits)

    def test_split(self):
        """A condition's tree in two occurrences, cut at a border of its fields: read as one, and kept as it came."""
        tree = bytes.fromhex("10 02 32 16 12 04 5f 26 26 5f 1a 06 10 01 1a 02 10 01 1a 06 10 03 1a 02 10 01")
        for cut in (0, 2, len(tree)):
            with self.subTest(cut):
                checked = b"".join(field(4, field(4, part)) for part in (tree[:cut], tree[cut:]))
                policy = bytes.fromhex("0a 02 18 01 12 02 18 01") + checked
                data = field(1, field(2, field(1, b"p") + field(2, policy)))
                text = decode(data)
                self.assertIn("true && true", text)
                self.assertIn('"@wire"', text)
                self.assertEqual(encoded(text), data)

    def test_cut(self):
        whole = bytes.fromhex(cases.BYTES["any_any"][1])
        for length in range(1, len(whole)):
            with self.subTest(length):
                text = decode(whole[:length])
                self.assertIn("(1 BadWire)", text)
                self.assertEqual(encoded(text), whole[:length])

    def test_readable_form_of_odd_bytes(self):
        text = decode(bytes.fromhex(cases.ODD_BYTES["oneof_not_merged"]))
        self.assertIn("header:\n          name: b\n          exact_match: x\n          invert_match: true\n", text)
        self.assertNotIn("name: a", text)

    def test_trees_stay_texts(self):
        for text in cases.TREES:
            with self.subTest(text):
                self.assertIn("text: ", decode(encoded(condition(text))))

    def test_other_loops_stay_trees(self):
        for name, tree in cases.LOOPS.items():
            with self.subTest(name):
                text = decode(encoded(cases.tree_condition(tree)))
                self.assertIn("comprehension_expr:", text)
                if name == "doubling_accumulator":
                    told = '<for k in request.headers, from acc = "a", while true: acc = acc + acc; then acc == "a">'
                    self.assertIn("it reads: " + told, text)


class Responses(unittest.TestCase):
    """Responses of the update stream."""

    def test_first_response(self):
        held = b"type.googleapis.com/envoy.config.core.v3.TypedExtensionConfig"
        rbac = b"type.googleapis.com/envoy.extensions.filters.http.rbac.v3.RBAC"
        data = bytes.fromhex(cases.BYTES["true_and_true"][1])
        wanted = (
            bytes.fromhex("00 00 00 01 00 0a 01 31 12 b7 01 0a 3d")
            + held
            + bytes.fromhex("12 76 0a 01 66 12 71 0a 3e")
            + rbac
            + bytes.fromhex("12 2f")
            + data
            + bytes.fromhex("22 3d")
            + held
            + bytes.fromhex("2a 02 6e 31")
        )
        self.assertEqual(len(wanted), 261)
        self.assertEqual(frame(response([("f", data)], "1", "n1")), wanted)
        control = frame(response([("f", data)], "1", "1"))
        self.assertEqual(len(control), 260)
        self.assertEqual((control[:5].hex(" "), control[-3:].hex(" ")), ("00 00 00 00 ff", "2a 01 31"))

    def test_without_resources(self):
        message = response([], "2", "")
        self.assertTrue(message.startswith(bytes.fromhex("0a 01 32 22 3d")))
        self.assertEqual(len(message), 3 + 2 + 61)

"""Filters of Envoy's own messages: the same JSON or YAML makes the same bytes as Go's encoder, and comes back."""
import json
import unittest

import yaml

from policies import messages
from policies.decode import decode
from random_filters import new
from support import HERE, encoded


def stored():
    """Filters in the JSON mapping with the bytes of go-control-plane's messages; go/envoy_bytes makes them."""
    with open(HERE / "envoy.jsonl", encoding="utf-8") as lines:
        for line in lines:
            read = json.loads(line)
            yield read["filter"], bytes.fromhex(read.get("bytes", ""))


class Envoy(unittest.TestCase):
    """Go puts the members of oneofs behind the other fields, which `"@oneofs": last` says."""

    def test_json(self):
        for data, wanted in stored():
            with self.subTest(str(data)[:100]):
                self.assertEqual(encoded(json.dumps({"@oneofs": "last", **data}, ensure_ascii=False)), wanted)

    def test_yaml(self):
        for data, wanted in stored():
            with self.subTest(str(data)[:100]):
                text = yaml.safe_dump({"@oneofs": "last", **data}, allow_unicode=True, sort_keys=False)
                self.assertEqual(encoded(text), wanted)

    def test_ascending_order(self):
        """Without that key the fields ascend, as libprotobuf writes them."""
        for data, wanted in stored():
            with self.subTest(str(data)[:100]):
                message = new(messages.FILTER)
                message.ParseFromString(wanted)
                ascending = message.SerializeToString(deterministic=True)
                self.assertEqual(encoded(json.dumps(data, ensure_ascii=False)), ascending)

    def test_decoded(self):
        count = 0
        for data, wanted in stored():
            with self.subTest(str(data)[:100]):
                text = decode(wanted)
                self.assertNotIn("@wire", text)
                self.assertEqual(encoded(text), wanted)
                count += 1
        self.assertGreater(count, 100)

    def test_type_is_allowed(self):
        text = 'rules: {}\n"@type": type.googleapis.com/envoy.extensions.filters.http.rbac.v3.RBAC\n'
        self.assertEqual(encoded(text), bytes.fromhex("0a 00"))

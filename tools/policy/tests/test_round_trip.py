"""Random filters go to YAML and come back as the same bytes."""
import random
import unittest

from policies.bounds import GREATEST_BUDGET
from policies.decode import decode
from policies.places import Source
from policies.reading import contents
from random_filters import Maker
from support import HERE, encoded, field

PROFILE_SEED, ANY_SEED, ODD_SEED = 20_240, 20_241, 20_242


class RoundTrip(unittest.TestCase):
    """Encode after decode is the identity on bytes."""

    def check(self, data):
        """One filter; answers its YAML."""
        text = decode(data)
        self.assertEqual(encoded(text), data, text)
        return text

    def test_profile(self):
        """1,200 filters of the profile by libprotobuf: none needs its own bytes, most conditions are texts."""
        maker = Maker(PROFILE_SEED, profile=True)
        texts = trees = 0
        for _ in range(1200):
            text = self.check(maker.filter_bytes())
            self.assertNotIn("@wire", text)
            self.assertNotIn("@oneofs", text)
            texts += text.count("      text: ")
            trees += text.count("the tree below is that of no text")
        self.assertGreater(texts, 1000)
        self.assertLess(trees * 4, texts)

    def test_newer_cel_go(self):
        """A checked condition by cel-go 0.30, whose accumulators have another name."""
        text = self.check(bytes.fromhex((HERE / "cel_go_30.hex").read_text()))
        wanted = 'request.headers.exists(k, v, v == "a") && request.headers.transformList(k, v, k).size() < 3'
        self.assertIn(f"        text: {wanted}\n", text)
        self.assertIn('        accumulator: "@result"\n', text)

    def test_by_file(self):
        """A filter of the profile that a file holds is what the file says, whatever is read otherwise elsewhere."""
        maker = Maker(31, profile=True)
        for _ in range(300):
            data = maker.filter_bytes()
            held = contents(Source("filter.yaml", decode(data).encode()), GREATEST_BUDGET)
            self.assertEqual([one.data for one in held.filters], [data])

    def test_any_members(self):
        """600 filters with any members and values."""
        maker = Maker(ANY_SEED, profile=False)
        for _ in range(600):
            self.check(maker.filter_bytes())

    def test_odd_bytes(self):
        """2,000 filters with bytes changed, cut, doubled and put in."""
        maker, change = Maker(ODD_SEED, profile=True), random.Random(ODD_SEED)
        for _ in range(2000):
            data = bytearray(maker.filter_bytes())
            for _ in range(change.randrange(1, 4)):
                alter(data, change)
            self.check(bytes(data))

    def test_deep(self):
        """Messages nested deeper than anything goes down into them."""
        data = bytes.fromhex("18 01")
        for _ in range(2000):
            data = field(8, data)
        text = self.check(field(1, field(2, field(1, b"p") + field(2, field(1, data) + bytes.fromhex("12 02 18 01")))))
        self.assertIn("rules are nested more than 32 deep (8 TooLarge)", text)


def alter(data, change):
    """One change of some bytes."""
    kind, place = change.randrange(5), change.randrange(len(data) + 1)
    if kind == 0:
        data[place:place] = bytes([change.randrange(256)])
    elif kind == 1:
        del data[place:]
    elif kind == 2:
        data[place:place] = data[place : place + change.randrange(20)]
    elif kind == 3:
        data[place : place + 1] = bytes([change.randrange(256)])
    else:
        del data[place : place + 1]

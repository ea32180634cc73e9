"""What is said of names and signs of other languages and engines: what to write instead."""
import unittest

from policies.encode import encode
from policies.places import Mistake, Source
from policies.reading import contents
from support import condition

# A condition, and words of what is said of it.
HINTS = [
    ('request.headers.has("x")', '`"x" in request.headers`, or `has(request.headers.x)`'),
    ("len(request.path) > 1", "write size(x) or x.size()"),
    ("request.path.length() > 1", "write size(x) or x.size()"),
    ('request.headers.get("x") == "a"', '`"x" in request.headers && request.headers["x"] == "a"`'),
    ("request.path.size > 3", "request.path is a string and has no field size: write size(request.path)"),
    ("path.size() > 3", "do you mean `request.path`?"),
    ('request.ip == "10.0.0.1"', "direct_remote_ip"),
    ('client.ip == "10.0.0.1"', "direct_remote_ip"),
    ('remote_ip == "10.0.0.1"', "direct_remote_ip"),
    ('principal == "a"', "connection.uri_san_peer_certificate"),
    ('jwt.sub == "a"', "the engine reads no tokens"),
    ("request.path == \u201c/a\u201d", '`\u201c` is no quote of the language: write "'),
    ("request.path == \u2018/a\u2019", "`\u2018` is no quote of the language: write '"),
    ("source.port <> 80", "`<>` is no operator: write `!=`"),
    ('source.port in ["80", "81"]', ": write [80, 81] without quotes"),
    ('connection.id in ["80"]', ": write [80u] without quotes"),
    ('source.port in ["a"]', ": the elements are of type string, so what is sought is too"),
    ('request.headers.contains("x")', 'to ask for a key write `"x" in request.headers`'),
    ('["a"].contains("x")', 'to ask for an element write `"x" in ["a"]`'),
    ("", "a condition is expected here, such as `request.method == \"GET\"`"),
    (" ", "a condition is expected here"),
]
LINKERD = """apiVersion: policy.linkerd.io/v1alpha1
kind: AuthorizationPolicy
metadata: {name: a}
spec:
  targetRef: {group: policy.linkerd.io, kind: Server, name: web}
"""
ISTIO = "apiVersion: security.istio.io/v1\nkind: AuthorizationPolicy\nspec: {rules: [{}]}\n"


class Hints(unittest.TestCase):
    """What is said of single texts."""

    def told(self, text):
        """What is said of a condition."""
        try:
            return [one.told() for one in encode(Source("f.yaml", condition(text).encode()))[1]]
        except Mistake as mistake:
            return [mistake.words]

    def test_hints(self):
        for text, words in HINTS:
            with self.subTest(text):
                told = self.told(text)
                self.assertTrue(any(words in one for one in told), told)


class Others(unittest.TestCase):
    """Objects of the same name."""

    def test_linkerd(self):
        """Linkerd's policy is no Istio's; beside one of Istio's it is left out."""
        read = contents(Source("f.yaml", LINKERD.encode()))
        told = "this is an AuthorizationPolicy of policy.linkerd.io/v1alpha1, which is another object than Istio's"
        self.assertEqual((read.filters, len(read.mistakes)), ([], 1))
        self.assertTrue(read.mistakes[0].words.startswith(told), read.mistakes[0].words)
        both = contents(Source("f.yaml", (ISTIO + "---\n" + LINKERD).encode()))
        self.assertEqual((len(both.filters), both.mistakes), (1, []))
        self.assertTrue(any("left out" in one.words for one in both.findings))

    def test_istio(self):
        for text in (ISTIO, ISTIO.partition("\n")[2], ISTIO.replace("/v1", "/v1beta1")):
            self.assertEqual(len(contents(Source("f.yaml", text.encode())).filters), 1, text)

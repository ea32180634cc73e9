"""Notes on filters that are admitted: their places and words."""
import re
import unittest

from policies import lint
from policies.bounds import Budget
from policies.engine import Engine, Request
from policies.lint.names import MEANINGS
from policies.lint.of_paths import Paths, spellings
from policies.places import Source
from policies.reading import contents
from solved_notes import SOLVED_NOTES
from support import ENGINE, NO_ENGINE, POLICY, condition, encoded, told

# A condition's text, and for each note its column in the text, counted from 1, and words.
NOTES = [
    ('request.headers.exists(k, k == "X-A")', [(29, 'and "X-A" is not: write "x-a"')]),
    ('request.headers.exists(k, v, v == "X-A" && "X-A" != k)', [(50, 'and "X-A" is not: write "x-a"')]),
    ('request.headers.all(k, v, k.startsWith("X-") || v == "")', [(29, 'and "X-" is not: write "x-"')]),
    ('request.headers.all(k, v, ["A"].exists(k, k == "A"))', []),
    ('["A"].all(x, x == "A") && {"A": 1}.all(k, v, k == "A")', []),
    ('request.headers.all(k, v, ["A"].exists(x, x == k || k == "B"))', [(55, 'and "B" is not: write "b"')]),
    ('request.headers["Host"] == "a"', [(16, "no request has one named host: write request.host")]),
    ('"host" in request.headers && request.host == "a"', [(8, "no request has one named host: write request.host")]),
    ('request.headers["X-A"] == "" || "X-B" in request.headers', [(16, 'write "x-a"'), (39, 'write "x-b"')]),
]


def notes_of(text):
    """The notes on a filter's YAML, each with its place and words."""
    [held] = contents(Source("f.yaml", text.encode())).filters
    return [(one.place, one.words) for one in lint.notes(held.message, held.encoding)]


class Notes(unittest.TestCase):
    """Notes on conditions, checked and not."""

    def test_places(self):
        for text, wanted in NOTES:
            unchecked = POLICY + "      condition:\n        text: |-\n          " + text + "\n"
            for whole in (unchecked, unchecked.replace("condition:", "checked_condition:")):
                with self.subTest(whole[-100:]):
                    found = sorted(notes_of(whole))
                    self.assertEqual([place for place, _ in found], [(9, 9 + column) for column, _ in wanted])
                    for (_, words), (_, ending) in zip(found, wanted):
                        self.assertTrue(words.endswith(ending), words)

    def test_dotted(self):
        """A condition whose attributes are dotted variables by a key of its own has its notes at the same place."""
        text = 'source.port == 1 && request.headers["X-A"] == ""'
        [(plain, _)], [(dotted, _)] = notes_of(condition(text)), notes_of(condition(text, "dotted: true"))
        self.assertEqual(plain, dotted)

    def test_deny(self):
        text = POLICY.replace("rules:", "rules:\n  action: DENY") + '      condition: {text: request.headers.a == ""}\n'
        [(place, words)] = notes_of(text)
        self.assertEqual(place, (8, 40))
        self.assertIn("a request without the header a makes this an error", words)


    def test_attributes_of_headers(self):
        """Attributes that are headers are absent where these are."""
        text = POLICY.replace("rules:", "rules:\n  action: DENY") + "      condition: {text: %s}\n"
        for condition_text, wanted in [
            ('request.useragent.contains("bot")', ["a request without the header user-agent makes this an error"]),
            ('"user-agent" in request.headers && request.useragent.contains("bot")', []),
            ('request.id == "" || request.referer == ""', ["the header x-request-id makes", "the header referer makes"]),
            ('request.query == "/"', []),
        ]:
            with self.subTest(condition_text):
                found = sorted(notes_of(text % f"'{condition_text}'"))
                self.assertEqual(len(found), len(wanted))
                for (_, words), part in zip(found, wanted):
                    self.assertIn(part, words)

    def test_host(self):
        """No header is named host, whatever its letters."""
        for name, count in (("Host", 1), ("host", 1), (":authority", 0), ("x-host", 0)):
            with self.subTest(name):
                text = POLICY.replace("any: true", f'header: {{name: "{name}", present_match: false}}', 1)
                found = notes_of(text)
                self.assertEqual(len(found), count)
                for place, words in found:
                    self.assertEqual(place, (4, 23))
                    self.assertTrue(words.endswith("no request has one named host: write `name: :authority`"), words)


    def test_lengths(self):
        """An address with its length in the text has one message, which says how it is written."""
        text = POLICY.replace("any: true", "destination_ip: {address_prefix: 10.0.0.0/8}", 1)
        self.assertEqual(notes_of(text), [])
        words = "this text is no address: write `address_prefix: 10.0.0.0` and `prefix_len: 8` (5 OutOfRange)"
        self.assertEqual(told(text), [f"filter.yaml:5:42: {words}"])


RULE = "rules: {action: %s, policies: {p: {permissions: [%s], principals: [{any: true}]}}}"
# The action, a permission, and the names of its notes.
RULES = [
    ("ALLOW", "{url_path: {path: {exact: '/a?b'}}}", ["never-matches"]),
    ("ALLOW", "{url_path: {path: {suffix: '#b'}}}", ["never-matches"]),
    ("ALLOW", "{url_path: {path: {prefix: admin}}}", ["never-matches"]),
    ("ALLOW", "{url_path: {path: {exact: ''}}}", ["never-matches"]),
    ("ALLOW", "{url_path: {path: {contains: 'a b'}}}", ["never-matches"]),
    ("ALLOW", "{url_path: {path: {contains: admin}}}", []),
    ("ALLOW", "{header: {name: ':path', exact_match: '/a?b'}}", []),
    ("ALLOW", "{header: {name: ':path', prefix_match: a}}", ["never-matches"]),
    ("ALLOW", "{header: {name: ':method', exact_match: get}}", ["lower-case-method"]),
    ("ALLOW", "{header: {name: ':method', string_match: {exact: get, ignore_case: true}}}", []),
    ("ALLOW", "{header: {name: ':method', exact_match: GET}}", []),
    ("ALLOW", "{header: {name: ':method', exact_match: list}}", []),
    ("ALLOW", "{header: {name: ':method', exact_match: 'GET '}}", ["never-matches"]),
    ("ALLOW", "{header: {name: ':method', prefix_match: AAAAAAAAAAAAAAAAAAAAAAAAAAAAAAAAA}}", ["never-matches"]),
    ("ALLOW", "{header: {name: x-a, exact_match: ' a'}}", ["never-matches"]),
    ("ALLOW", "{header: {name: x-a, suffix_match: 'a '}}", ["never-matches"]),
    ("ALLOW", "{header: {name: x-a, contains_match: ' a '}}", []),
    ("ALLOW", "{header: {name: 'x a', exact_match: a}}", ["never-matches"]),
    ("ALLOW", "{header: {name: Transfer-Encoding}}", ["never-matches"]),
    ("ALLOW", "{header: {name: content-length, exact_match: a}}", ["never-matches"]),
    ("ALLOW", "{header: {name: Host}}", ["host-header"]),
    ("ALLOW", "{header: {name: x-a, range_match: {start: 1, end: 1}}}", ["never-matches"]),
    ("ALLOW", "{header: {name: x-a, range_match: {start: 1, end: 2}}}", []),
    ("ALLOW", "{destination_ip: {address_prefix: 10.0.0.1}}", ["no-prefix-len"]),
    ("ALLOW", "{destination_ip: {address_prefix: 10.0.0.1, prefix_len: 8}}", ["host-bits"]),
    ("ALLOW", "{destination_ip: {address_prefix: 10.0.0.0, prefix_len: 8}}", []),
    ("ALLOW", "{destination_ip: {address_prefix: '2001:DB8::', prefix_len: 32}}", []),
    ("ALLOW", "{destination_ip: {address_prefix: '2001:db8::1', prefix_len: 32}}", ["host-bits"]),
    ("ALLOW", "{and_rules: {rules: [{any: true}, {destination_port: 1}]}}", ["needless-rule"]),
    ("ALLOW", "{or_rules: {rules: [{any: true}, {destination_port: 1}]}}", ["needless-rule"]),
    ("ALLOW", "{any: true}, {destination_port: 1}", ["any-any", "needless-rule"]),
    ("ALLOW", "{requested_server_name: {exact: a}}", []),
    ("ALLOW", "{url_path: {path: {prefix: /admin}}}", ["open-prefix"]),
    ("ALLOW", "{url_path: {path: {prefix: /admin/}}}", []),
    ("ALLOW", "{header: {name: ':path', prefix_match: /admin?x=}}", []),
    ("ALLOW", "{requested_server_name: {suffix: example.com}}", ["open-suffix"]),
    ("ALLOW", "{requested_server_name: {suffix: .example.com}}", []),
    ("ALLOW", "{header: {name: ':authority', suffix_match: example.com}}", ["open-suffix"]),
    ("ALLOW", "{header: {name: x-a, suffix_match: example.com}}", []),
    ("DENY", "{requested_server_name: {suffix: example.com}}", []),
    ("ALLOW", "{header: {name: X-Forwarded-For, exact_match: 10.0.0.1}}", ["client-header"]),
    ("ALLOW", "{header: {name: x-forwarded-for, exact_match: 10.0.0.1, invert_match: true}}", []),
    ("DENY", "{header: {name: x-forwarded-for, exact_match: 10.0.0.1}}", []),
    ("DENY", "{not_rule: {header: {name: x-real-ip, exact_match: 10.0.0.1}}}", ["client-header"]),
    ("ALLOW", "{not_rule: {url_path: {path: {prefix: /admin}}}}", ["other-paths"]),
    ("ALLOW", "{not_rule: {url_path: {path: {prefix: /}}}}", []),
    ("ALLOW", "{header: {name: ':path', prefix_match: /admin, invert_match: true}}", ["other-paths"]),
    ("DENY", "{url_path: {path: {prefix: /admin}}}", ["other-paths"]),
    ("DENY", "{url_path: {path: {prefix: /admin}}}, {url_path: {path: {exact: /b}}}", ["other-paths", "other-paths"]),
    ("DENY", "{not_rule: {url_path: {path: {prefix: /admin}}}}", ["open-prefix"]),
    ("DENY", "{url_path: {path: {suffix: /admin}}}", []),
    ("DENY", "{url_path: {path: {contains: /admin}}}", []),
    ("DENY", "{url_path: {path: {contains: /a/b}}}", ["other-paths"]),
    ("DENY", "{url_path: {path: {exact: /}}}", ["other-paths"]),
    ("DENY", "{url_path: {path: {prefix: /}}}", []),
    # what denies the other spellings too, or everything
    ("DENY", "{any: true}, {url_path: {path: {exact: /b}}}", ["any-any", "needless-rule"]),
    ("DENY", "{url_path: {path: {exact: /b}}}, {not_rule: {url_path: {path: {exact: /c}}}}", []),
    ("DENY", "{url_path: {path: {exact: /b}}}, {url_path: {path: {contains: //}}}", ["other-paths"]),
    ("DENY", "{url_path: {path: {exact: /b}}}, {url_path: {path: {contains: //}}}, {url_path: {path: {contains: /.}}}", []),
    ("DENY", "{and_rules: {rules: [{url_path: {path: {exact: /b}}}, {destination_port: 1}]}}", ["other-paths"]),
    ("DENY", "{and_rules: {rules: [{url_path: {path: {exact: /b}}}, {not_rule: {any: true}}]}}", []),
    ("DENY", "{or_rules: {rules: [{url_path: {path: {exact: /b}}}, {header: {name: ':path', prefix_match: /}}]}}", []),
    # a path that is allowed anyway, or never
    ("ALLOW", "{not_rule: {url_path: {path: {exact: /b}}}}, {header: {name: ':path', prefix_match: /b}}", ["open-prefix"]),
    ("ALLOW", "{and_rules: {rules: [{not_rule: {url_path: {path: {exact: /b}}}}, {url_path: {path: {prefix: /b}}}]}}", ["open-prefix"]),
    ("ALLOW", "{and_rules: {rules: [{not_rule: {url_path: {path: {exact: /a/b}}}}, {url_path: {path: {prefix: /a/}}}]}}", ["other-paths"]),
    ("ALLOW", "{url_path: {path: {exact: /admin}}}", []),
]
# The action, a condition, and the names of its notes.
CONDITIONS = [
    ("ALLOW", "!request.path.startsWith('/admin')", ["other-paths"]),
    ("ALLOW", "request.path.startsWith('/admin')", ["open-prefix"]),
    ("ALLOW", "request.path.startsWith('/admin/')", []),
    ("ALLOW", "connection.uri_san_peer_certificate.startsWith('spiffe://a/ns/b')", ["open-prefix"]),
    ("ALLOW", "request.method == 'GET' && request.host.endsWith('example.com')", ["open-suffix"]),
    ("ALLOW", "request.host.endsWith('.example.com')", []),
    ("ALLOW", "source.address == '10.0.0.1'", ["address-port"]),
    ("ALLOW", "destination.address in ['10.0.0.1:80', '::1']", ["address-port"]),
    ("ALLOW", "source.address == '10.0.0.1:80'", []),
    ("ALLOW", "request.headers['x-real-ip'] == '10.0.0.1'", ["client-header"]),
    ("ALLOW", "!('x-real-ip' in request.headers)", []),
    ("DENY", "'x-real-ip' in request.headers && request.headers['x-real-ip'] == '10.0.0.1'", []),
    ("ALLOW", "request.url_path != '/admin' && true", ["other-paths"]),
    ("ALLOW", "!(request.url_path != '/admin')", []),
    ("DENY", "true && (false || request.url_path == '/admin')", ["other-paths"]),
    ("DENY", "request.url_path in ['/admin', '/b']", ["other-paths"]),
    ("ALLOW", "!(request.url_path in ['/admin', '/b'])", ["other-paths"]),
    ("ALLOW", "request.url_path in ['/admin', '/b']", []),
    ("DENY", "request.path.endsWith('/admin')", []),
    ("DENY", "request.path.startsWith('/')", []),
    ("DENY", "request.path == '/admin' || request.path.contains('//') || request.path.contains('/.')", []),
    ("DENY", "request.path == '/admin' || true", []),
    ("DENY", "request.path == '/admin' && false", []),
    ("ALLOW", "request.path != '/admin' && request.path in ['/a', '/b']", []),
    ("ALLOW", "request.method == 'get'", ["lower-case-method"]),
    ("ALLOW", "request.method in ['GET', 'post']", ["lower-case-method"]),
    ("ALLOW", "request.method == 'list' || 'get' == request.path", []),
    ("ALLOW", "source.port == 80", []),
    ("DENY", "source.port == 80 || source.port == 81", ["missing-in-deny"]),
    ("DENY", "request.host == 'a'", ["missing-in-deny"]),
    ("DENY", "request.headers['x-a'] == 'a'", ["missing-in-deny"]),
    ("DENY", "request.method == 'PUT' && request.query == ''", []),
]


def names_of(text):
    """The names of the notes on a filter's YAML, in the order of places."""
    [held] = contents(Source("f.yaml", text.encode())).filters
    found = lint.notes(held.message, held.encoding)
    return [one.lint for one in sorted(found, key=lambda one: one.place)]


class Names(unittest.TestCase):
    """Each note by its name."""

    def test_rules(self):
        for action, rule, wanted in RULES:
            with self.subTest(rule, action=action):
                self.assertEqual(names_of(RULE % (action, rule)), wanted)

    def test_conditions(self):
        for action, text, wanted in CONDITIONS:
            with self.subTest(text, action=action):
                self.assertEqual(names_of(condition(text).replace("rules:", f"rules:\n  action: {action}")), wanted)

    def test_shadowed(self):
        one = "{permissions: [%s], principals: [%s]%s}"
        for policies, wanted in [
            ([("{any: true}", "{any: true}", ""), ("{destination_port: 1}", "{any: true}", "")], ["any-any", "never-first"]),
            ([("{any: true}", "{any: true}", ", condition: {text: 'true'}"), ("{destination_port: 1}", "{any: true}", "")], []),
            ([("{destination_port: 1}, {destination_port: 2}", "{any: true}", ""), ("{destination_port: 2}", "{any: true}", "")], ["never-first"]),
            ([("{destination_port: 1}", "{any: true}", ""), ("{destination_port: 1}, {destination_port: 2}", "{any: true}", "")], []),
            ([("{destination_port: 1}", "{any: true}", ""), ("{destination_port: 1}", "{authenticated: {}}", "")], ["never-first"]),
            ([("{destination_port: 1}", "{authenticated: {}}", ""), ("{destination_port: 1}", "{any: true}", "")], []),
        ]:
            rows = "".join(f"    p{number}: {one % each}\n" for number, each in enumerate(policies))
            self.assertEqual(names_of("rules:\n  policies:\n" + rows), wanted)

    def test_each_name_is_tested(self):
        tested = {name for _, _, found in RULES + CONDITIONS for name in found} | {"never-first", "unused-ignore", "upper-case-header"}
        tested |= {name for _, found in SOLVED_NOTES for name in found}
        self.assertEqual(tested, set(MEANINGS))


class OtherPaths(unittest.TestCase):
    """The spellings that notes on paths name."""

    def words(self, *permissions, action="DENY"):
        """The words of the notes on a filter with a policy for each permission."""
        one = "p%d: {permissions: [%s], principals: [{any: true}]}"
        policies = ", ".join(one % pair for pair in enumerate(permissions))
        return [words for _, words in sorted(notes_of(f"rules: {{action: {action}, policies: {{{policies}}}}}"))]

    def test_spellings(self):
        for test, other, encoded in [
            ("exact: /admin", "`//admin` passes, and an application may read it as `/admin`", "`/%61dmin` passes also then"),
            ("prefix: /admin/", "`//admin/` passes, and an application may read it as `/admin/`", "`/%61dmin/` passes also then"),
            ("contains: /a/b", "`/a//b` passes, and an application may read it as `/a/b`", "`/%61/b` passes also then"),
            ("exact: /", "`//` passes, and an application may read it as `/`", None),
        ]:
            with self.subTest(test):
                [words] = self.words("{url_path: {path: {%s}}}" % test)
                self.assertIn(other, words)
                self.assertIn('set `"paths": "strict"` in the server\'s settings', words)
                self.assertEqual("also then" in words, encoded is not None)
                self.assertIn(encoded or "", words)

    def test_what_is_denied_is_not_named(self):
        """The first spelling that no policy of the filter denies."""
        admin, double, encoded = (
            "{url_path: {path: {%s}}}" % test for test in ("exact: /admin", "contains: //", "contains: '%61'")
        )
        [words] = self.words(admin, double)
        self.assertIn("`/x/../admin` passes", words)
        [words] = self.words(admin, encoded)
        self.assertNotIn("also then", words)
        self.assertEqual(self.words(admin, double, "{url_path: {path: {contains: /.}}}"), [])

    def test_in_a_large_filter(self):
        """A policy that denies odd spellings counts also among many policies."""
        many = ["{url_path: {path: {exact: /a%d}}}" % number for number in range(100)]
        self.assertEqual(len(self.words(*many)), 100)
        self.assertEqual(self.words(*many, "{url_path: {path: {contains: //}}}", "{url_path: {path: {contains: /.}}}"), [])

    def test_several_policies(self):
        """A policy that needs more than a path denies no spelling for certain, and one that allows all paths denies none."""
        more = "{and_rules: {rules: [{url_path: {path: {prefix: /}}}, {destination_port: 1}]}}"
        self.assertEqual(len(self.words("{url_path: {path: {exact: /admin}}}", more)), 1)
        negated = "{not_rule: {url_path: {path: {exact: /admin}}}}"
        self.assertEqual(len(self.words(negated, action="ALLOW")), 1)
        self.assertEqual(self.words(negated, "{url_path: {path: {prefix: /}}}", action="ALLOW"), [])


@unittest.skipUnless(ENGINE.exists(), NO_ENGINE)
class PathsByTheEngine(unittest.TestCase):
    """What the notes say of paths is what the engine decides."""

    FACTS = {"destination.port": 1}
    PROBES = ["/", "/b", "/admin", "/a/b", "/c", "/%61dmin", "/public"]

    def rows(self):
        """Each filter of the tables above that has a test of a path, as YAML."""
        for action, rule, _ in RULES:
            yield RULE % (action, rule)
        for action, text, _ in CONDITIONS:
            yield condition(text).replace("rules:", f"rules:\n  action: {action}")

    def verdicts(self, asked, text, paths):
        """Whether the engine denies each of some paths."""
        requests = [Request(f"GET {path} HTTP/1.1\r\nHost: h\r\n\r\n".encode(), self.FACTS) for path in paths]
        answers = asked.decisions(encoded(text), requests, Budget())
        return [answer["verdict"] == "deny" for answer in answers]

    def test_notes(self):
        """The path that a note names is denied, and its other spelling passes."""
        named = re.compile("^`(?P<other>[^`]+)` passes, and an application may read it as `(?P<path>[^`]+)`")
        with Engine(ENGINE) as asked:
            found = [(text, match) for text in self.rows() for _, words in notes_of(text) if (match := named.match(words))]
            for text, match in found:
                with self.subTest(text):
                    self.assertEqual(self.verdicts(asked, text, [match["path"], match["other"]]), [True, False])
        self.assertGreater(len(found), 10)

    def test_paths(self):
        """Where a path alone decides, the engine decides the same."""
        paths = [other for path in self.PROBES for other in (path, *spellings(path))]
        with Engine(ENGINE) as asked:
            known = 0
            for text in filter(lambda each: "path" in each, self.rows()):
                [held] = contents(Source("f.yaml", text.encode())).filters
                rules = held.message.get("rules")
                said = [Paths([policy for _, policy in rules.get("policies")], rules.scalar("action") == 1).denies(path) for path in paths]
                for path, one, verdict in zip(paths, said, self.verdicts(asked, text, paths)):
                    with self.subTest(path=path, text=text):
                        self.assertIn(one, (None, verdict))
                known += sum(one is not None for one in said)
        self.assertGreater(known, 500)

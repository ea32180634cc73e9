"""`policy join`: fewer policies that decide the same."""
import itertools
import random
import unittest

from policies.bounds import Budget
from policies.engine import Engine, Request
from policies.encode import encode
from policies.joining import join
from policies.places import Source
from policies.reading import contents
from policies.writer import PLAIN
from support import ENGINE, NO_ENGINE, numbers
from test_outputs import Room

PERMISSIONS = [
    "{url_path: {path: {prefix: /a}}}",
    "{url_path: {path: {prefix: /b}}}",
    "{header: {name: ':method', exact_match: GET}}",
    "{any: true}",
    "{not_rule: {url_path: {path: {exact: /a}}}}",
]
PRINCIPALS = [
    "{header: {name: x-user, exact_match: alice}}",
    "{header: {name: x-user, exact_match: bob}}",
    "{remote_ip: {address_prefix: 10.0.0.0, prefix_len: 8}}",
]
CONDITIONS = ["", "", ", checked_condition: {text: request.headers.a == '1'}", ", condition: {text: request.headers.a == '1'}"]
PATHS, METHODS, USERS, HEADERS = ("/a", "/b", "/c"), ("GET", "PUT"), ("alice", "bob", None), ("1", "2", None)


def policy(permissions, principals, condition=""):
    """The YAML of a policy."""
    return f"{{permissions: [{', '.join(permissions)}], principals: [{', '.join(principals)}]{condition}}}"


def filter_of(policies, action="ALLOW"):
    """The YAML of a filter."""
    return f"rules:\n  action: {action}\n  policies:\n" + "".join(f"    p{n:03d}: {one}\n" for n, one in enumerate(policies))


def joined(text):
    """The message of a filter's YAML with its policies joined, and the names of those."""
    [one] = contents(Source("f.yaml", text.encode())).filters
    message, _ = join(one.message)
    return message, [name for name, _ in message.get("rules").get("policies")]


def requests():
    """Requests on which the rules above differ."""
    for path, method, user, value in itertools.product(PATHS, METHODS, USERS, HEADERS):
        lines = [f"{method} {path} HTTP/1.1", "host: h"]
        lines += [f"x-user: {user}"] if user else []
        lines += [f"a: {value}"] if value else []
        for facts in ({}, {"remote_ip": "10.1.1.1"}):
            yield Request("\r\n".join([*lines, "", ""]).encode(), facts)


class Joined(Room):
    """What is joined."""

    def test_names(self):
        one, other = PERMISSIONS[:2]
        alice, bob, inside = PRINCIPALS
        condition = CONDITIONS[2]
        for policies, wanted in [
            ([([one], [alice]), ([other], [alice])], ["p000"]),
            ([([one], [alice]), ([one], [bob])], ["p000"]),
            ([([one], [alice]), ([other], [bob])], ["p000", "p001"]),
            ([([one], [alice, bob]), ([other], [bob, alice])], ["p000"]),
            ([([one], [alice]), ([other], [alice], condition)], ["p000", "p001"]),
            ([([one], [alice], condition), ([other], [alice], condition)], ["p000"]),
            ([([one], [alice], condition), ([other], [alice], CONDITIONS[3])], ["p000", "p001"]),
            # those of equal principals first, then the two that are left have equal permissions
            ([([one], [alice]), ([one, other], [bob]), ([other], [alice]), ([one], [inside])], ["p000", "p003"]),
        ]:
            with self.subTest(policies):
                self.assertEqual(joined(filter_of(policy(*each) for each in policies))[1], wanted)

    def test_comments(self):
        one, other = PERMISSIONS[:2]
        alice, bob, _ = PRINCIPALS
        policies = [policy([one], [alice]), policy([other], [alice]), policy([one, other], [bob])]
        status, out, errors = self.run_here("join", self.file("f.yaml", filter_of(policies, "DENY")))
        self.assertEqual((status, errors), (0, "policy: 3 policies, and 1 after they are joined\n"))
        comments = [line.strip() for line in out.decode().splitlines() if line.strip().startswith("#")]
        wanted = ["joins p000, p001, p002", "from p000, p002", "from p001, p002", "from p000, p001", "from p002"]
        self.assertEqual(comments, [f"# {words}" for words in wanted])
        self.assertEqual(encode(Source("out.yaml", out))[0], PLAIN.write(joined(filter_of(policies, "DENY"))[0]))

    def test_too_many(self):
        """More policies than the engine takes are joined, and the advice for that is right for each action."""
        permissions = ["{url_path: {path: {prefix: /%d}}}" % number for number in range(300)]
        text = filter_of([policy([permission], [PRINCIPALS[0]]) for permission in permissions])
        status, out, _ = self.run_here("check", "--without-engine", self.file("f.yaml", text))
        words = "more than 256 policies: `policy join` joins those of equal principals or permissions"
        self.assertEqual(status, 1)
        self.assertIn(f"{words}; several filters are not the same (8 TooLarge)", out.decode())
        self.file("g.yaml", text.replace("ALLOW", "DENY"))
        self.assertIn(f"{words}; or write several filters, which deny", self.run_here("check", "--without-engine", "g.yaml")[1].decode())
        status, out, errors = self.run_here("join", "f.yaml")
        self.assertEqual((status, errors), (0, "policy: 300 policies, and 1 after they are joined\n"))
        self.assertEqual(numbers(out.decode()), set())
        principals = ["{header: {name: x-user, exact_match: u%d}}" % number for number in range(300)]
        self.file("h.yaml", filter_of(policy([one], [two]) for one, two in zip(permissions, principals)))
        status, out, errors = self.run_here("join", "h.yaml")
        told = "policy: 300 policies, and 300 after they are joined; the engine takes at most 256\n"
        self.assertEqual((status, errors), (1, told))

    def test_refused(self):
        status, out, errors = self.run_here("join", self.file("f.yaml", filter_of([policy(["{any: false}"], PRINCIPALS[:1])])))
        self.assertEqual((status, out), (1, b""))
        self.assertIn("f.yaml:4:32: `any` is true", errors)
        self.assertIn("policy: nothing is joined, since the engine would refuse this filter\n", errors)
        status, out, errors = self.run_here("join", self.file("g.yaml", "rules: {action: MAYBE}"))
        self.assertEqual((status, out), (1, b""))

    @unittest.skipUnless(ENGINE.exists(), NO_ENGINE)
    def test_same_verdicts(self):
        """Random filters decide each request as they do once they are joined."""
        chance = random.Random(5)
        asked_of = list(requests())
        with Engine(ENGINE) as asked:
            for action in ("ALLOW", "DENY") * 6:
                policies = []
                for _ in range(8):
                    sides = [chance.sample(of, chance.choice((1, 1, 2))) for of in (PERMISSIONS, PRINCIPALS)]
                    policies.append(policy(*sides, chance.choice(CONDITIONS)))
                text = filter_of(policies, action)
                [one] = contents(Source("f.yaml", text.encode())).filters
                message, names = joined(text)
                both = [asked.decisions(data, asked_of, Budget()) for data in (one.data, PLAIN.write(message))]
                verdicts = [[answer["verdict"] for answer in answers] for answers in both]
                self.assertEqual(*verdicts, text)
                self.assertLess(len(names), 8)

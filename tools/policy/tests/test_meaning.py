"""The model of requests, rules and conditions beside the engine, and on cases whose answer the standards say."""
import time
import unittest
from functools import partial
from typing import NamedTuple
from unittest import mock

from cases import principal, rule
from policies.bounds import Budget
from policies.compare.drafts import request_of
from policies.compare.spaces import AUTHORITY, METHOD, TARGET, VERSION
from policies.engine import Engine
from policies.places import Mistake
from policies.workers import in_processes
from random_conditions import CHOICES
from random_questions import Maker
from support import ENGINE, NO_ENGINE, NO_SOLVER, condition, encoded, has_solver, times

if has_solver():
    from known_requests import verdicts
    from policies.meaning import children
    from policies.meaning.terms import NotModelled

PLAIN = {METHOD: "GET", TARGET: "/", AUTHORITY: "h", VERSION: "1.1"}
# So many filters and requests of each are made; so many requests at least are compared.
FILTERS, REQUESTS, WANTED = 500, 50, 20_000
BUDGET = Budget()
SEED = 1
# What occurs in the filters that are compared: each action, matcher, operator, function and macro, and each attribute.
EACH = ["ALLOW", "DENY", "LOG", "and_rules", "or_rules", "not_rule", "and_ids", "or_ids", "not_id", "any: true", "header: {", "url_path"]
EACH += ["destination_ip", "destination_port:", "destination_port_range", "requested_server_name: {", "authenticated: {}", "principal_name"]
EACH += ["{remote_ip", "{direct_remote_ip", "exact: ", "prefix: ", "suffix: ", "contains: ", "ignore_case", "exact_match", "string_match"]
EACH += ["range_match", "present_match: true", "present_match: false", "invert_match", "treat_missing_header_as_empty"]
EACH += [f" {sign} " for kind in ("comparison", "operator", "connective") for sign in CHOICES[kind]]
EACH += [f"{name}(" for kind in ("quantifier", "test") for name in CHOICES[kind]] + CHOICES["attribute"]
EACH += ["!(", "-(", " ? ", " in ", "has(", "size(", ".size()", "int(", "uint(", "string(", ".map(e, e", ".filter(", ".transformList("]
EACH += ["(k, v, ", "(i, e, ", "[source.port]", "{1: ", "connection.id", "connection.mtls"]


def fact(name, value):
    """A fact of a request."""
    return {("fact", name): value}


def header(name, value):
    """A header of a request."""
    return {("header", name): value}


# Filters and requests that match and that do not, by Envoy's and CEL's definitions and by docs/PROFILE.md.
NAME, ID = "connection.requested_server_name", "connection.id"
SUBJECT, DNS = "connection.subject_peer_certificate", "connection.dns_san_peer_certificate"
MTLS = "connection.mtls"
LEAST = "-9223372036854775808"
CASES = [
    # an absent server name is the empty text in a rule, and an error in a condition
    (rule("{requested_server_name: {exact: ''}}"), [{}, fact(NAME, "")], [fact(NAME, "a")]),
    (condition(f'{NAME} == ""'), [fact(NAME, "")], [{}, fact(NAME, "a")]),
    # an absent header matches nothing, inverted or not, unless it counts as the empty text
    (rule("{header: {name: a, exact_match: b, invert_match: true}}"), [header("a", "c")], [{}, header("a", "b")]),
    (rule("{header: {name: a, exact_match: '', treat_missing_header_as_empty: true}}"), [{}, header("a", "")], [header("a", "b")]),
    (rule("{header: {name: a, present_match: false}}"), [{}], [header("a", "")]),
    (
        rule("{header: {name: a, range_match: {start: -5, end: 10}}}"),
        [header("a", "-5"), header("a", "+09")],
        [header("a", "10"), header("a", "9x")],
    ),
    # a peer's first name counts; without a certificate none does
    (principal("{authenticated: {}}"), [fact(MTLS, True)], [fact(MTLS, False), {}]),
    (
        principal("{authenticated: {principal_name: {exact: s}}}"),
        [{**fact(MTLS, True), **fact(SUBJECT, "s")}],
        [fact(SUBJECT, "s"), {**fact(MTLS, True), **fact(DNS, "d"), **fact(SUBJECT, "s")}],
    ),
    (
        principal("{remote_ip: {address_prefix: '::', prefix_len: 0}}"),
        [fact("remote_ip", "::fffe:a00:1")],
        [{}, fact("remote_ip", "10.0.0.1")],
    ),
    # the path ends at the first `?` or `#`, and the query at `#`
    (rule("{url_path: {path: {suffix: a}}}"), [{TARGET: "/a?b"}], [{TARGET: "/#?a"}]),
    (condition('request.query == "b" && request.url_path == "/a"'), [{TARGET: "/a?b#c"}], [{TARGET: "/a?bc"}]),
    (condition('request.query == "" && request.url_path == "/a"'), [{TARGET: "/a#b?c"}, {TARGET: "/a?"}], [{TARGET: "/a?c"}]),
    # conversions: an int from 2^63 on and a uint below 0 are errors
    (condition(f"int({ID}) >= 0"), [fact(ID, 2**63 - 1)], [fact(ID, 2**63), {}]),
    (condition(f"int({ID}) < 0 || true"), [{}, fact(ID, 2**63)], []),
    (condition("uint(source.port - 2) < 5u"), [fact("source.port", 2)], [fact("source.port", 1)]),
    # the ends of 64 bits
    (condition("source.port + 9223372036854775807 > 0"), [fact("source.port", 0)], [fact("source.port", 1)]),
    (condition(f"{LEAST} / (source.port - 2) > 0 || true"), [fact("source.port", 1)], []),
    (condition(f"{LEAST} / (source.port - 2) > 0"), [], [fact("source.port", 1), fact("source.port", 2)]),
    (condition(f"{LEAST} % (source.port - 2) == 0"), [fact("source.port", 3)], [fact("source.port", 1)]),
    # a quotient is rounded towards zero, and a remainder has the sign of the first
    (condition("(source.port - 8) / 3 == -2 && (source.port - 8) % 3 == -1"), [fact("source.port", 1)], [fact("source.port", 0)]),
    (condition("-(source.port) == -5"), [fact("source.port", 5)], [fact("source.port", 6)]),
    # errors: one side of `&&` and `||` can decide, `?:` takes that of its side
    (
        condition(f'request.headers["a"] == "b" && {MTLS}'),
        [{**header("a", "b"), **fact(MTLS, True)}],
        [fact(MTLS, True), fact(MTLS, False)],
    ),
    (condition(f'request.headers["a"] == "b" || {MTLS}'), [fact(MTLS, True)], [fact(MTLS, False)]),
    (condition(f'!(request.headers["a"] == "b" && {MTLS})'), [fact(MTLS, False)], [fact(MTLS, True)]),
    (condition(f'{MTLS} ? request.headers["a"] == "b" : true'), [fact(MTLS, False)], [fact(MTLS, True), {}]),
    # sizes are in characters
    (condition('size(request.headers["a"]) == 1'), [header("a", "é")], [header("a", "ab"), {}]),
    (condition("request.headers.size() == 4"), [{}], [header("a", "b")]),
    # loops: errors count unless another element decides
    (condition('request.headers.exists(k, v, k.startsWith("x-") && v == "1")'), [header("x-q", "1")], [header("q", "1"), {}]),
    (
        condition('request.headers.exists_one(k, k.startsWith("x-"))'),
        [header("x-q", "1")],
        [{}, {**header("x-q", "1"), **header("x-r", "1")}],
    ),
    # a header that is absent has no turn
    (condition('request.headers.exists(k, k == "a") || "a" in request.headers'), [header("a", "")], [{}]),
    (condition("[0, 1].exists(x, 1 / x == 1)"), [{}], []),
    (condition("[0, 1].all(x, 1 / x > 0)"), [], [{}]),
    (condition("[0, 1].exists_one(x, 1 / x == 1)"), [], [{}]),
    (condition('["a", "b"].transformList(i, x, i > 0, x) == ["b"]'), [{}], []),
    (condition('string(source.port) == "80" && string(source.port) != "080"'), [fact("source.port", 80)], [fact("source.port", 8)]),
    (condition('{"a": 1, "b": source.port}["b"] == 2 && !("c" in {"a": 1})'), [fact("source.port", 2)], [fact("source.port", 1), {}]),
    # a map that repeats a key is an error
    (condition('{"a": 1, "a": 2}["a"] == 1'), [], [{}]),
    (condition('{"a": 1, request.method: 2}["a"] == 1'), [{}], [{METHOD: "a"}]),
    (condition('"b" in {"a": 1, request.method: 2}'), [{METHOD: "b"}], [{}, {METHOD: "a"}]),
    # texts by their characters
    (
        condition('request.path < "/b" && request.path >= "/a"'),
        [{TARGET: "/a"}, {TARGET: "/azz"}],
        [{TARGET: "/b"}, {TARGET: "/A"}],
    ),
    (condition('request.path < "/ab"'), [{TARGET: "/a"}], [{TARGET: "/abc"}, {TARGET: "/ab"}]),
    (condition('request.protocol == "HTTP/1.0"'), [{VERSION: "1.0"}], [{}]),
]


@unittest.skipUnless(has_solver(), NO_SOLVER)
class Cases(unittest.TestCase):
    """The model on cases that are known."""

    def test_cases(self):
        for text, matched, others in CASES:
            for changes, wanted in [(one, ("allow", "p")) for one in matched] + [(one, ("deny", None)) for one in others]:
                with self.subTest(text, changes=changes):
                    self.assertEqual(verdicts(encoded(text), [{**PLAIN, **changes}]), [wanted])


@unittest.skipUnless(has_solver(), NO_SOLVER)
class Processes(unittest.TestCase):
    """Work in a process of its own."""

    def test_late(self):
        """What was found is read, also if the time is over then."""
        with mock.patch.object(children, "GRACE", 0.0):
            done = children.worked(lambda: iter(["one", "two"]), 0.0, lambda: time.sleep(1))
        self.assertEqual(done, (["one", "two"], ""))

    def test_faults(self):
        def work():
            yield "one"
            raise NotModelled("a part")

        self.assertEqual(children.worked(work, 60), (["one"], "a part"))
        self.assertEqual(children.worked(lambda: time.sleep(60), 0.0), ([], "no answer in time"))


@unittest.skipUnless(has_solver() and ENGINE.exists(), NO_SOLVER if ENGINE.exists() else NO_ENGINE)
class Random(unittest.TestCase):
    """The model beside the engine."""

    def setUp(self):
        self.asked = Engine(ENGINE)
        self.addCleanup(self.asked.__exit__)

    def test_cases(self):
        """The engine says of the cases what the standards say."""
        for text, matched, others in CASES:
            drafts = [{**PLAIN, **changes} for changes in matched + others]
            answers = self.asked.decisions(encoded(text), list(map(request_of, drafts)), BUDGET)
            wanted = ["allow"] * len(matched) + ["deny"] * len(others)
            self.assertEqual([answer.get("verdict") for answer in answers], wanted, text)

    def test_random(self):
        """Random filters and requests: the verdicts and the policies that decide are the same, for enough of them, and for each
        matcher and operation."""
        seeds = [SEED * 1_000_003 + number for number in range(FILTERS * times())]
        found = list(in_processes(partial(compared, self.asked), seeds))
        different = [one.difference for one in found if one.difference]
        self.assertFalse(different, different[:3])
        self.assertGreaterEqual(sum(one.requests for one in found), WANTED * times())
        texts = [one.text for one in found if one.requests]
        self.assertEqual([word for word in EACH if not any(word in text for text in texts)], [])


class Compared(NamedTuple):
    """A random filter, how many requests of it were compared, and a request on which the model and the engine differ, if any."""

    text: str
    requests: int
    difference: tuple = ()


def compared(asked, seed):
    """A random filter compared; none of its requests if the engine refuses it, or the model says that it cannot say it."""
    maker = Maker(seed)
    text = maker.filter()
    drafts = [maker.request() for _ in range(REQUESTS)]
    try:
        data = encoded(text)
        answers = asked.decisions(data, list(map(request_of, drafts)), BUDGET)
        said = [] if "refused" in answers[0] else verdicts(data, drafts)
    except (Mistake, NotModelled):
        said = []
    for draft, answer, one in zip(drafts, answers if said else [], said):
        if (answer.get("verdict"), answer.get("name")) != one:
            return Compared(text, len(said), (seed, text, draft, answer, one))
    return Compared(text, len(said))

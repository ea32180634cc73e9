"""Tests of the package, with the filters of the folder examples."""

import concurrent.futures
import contextlib
import os
import pathlib
import pickle
import threading
import unittest
import warnings
from typing import Callable, List, Tuple, Union

from vupresal import Bounds, Connection, Decision, EachThread, Error, Facts, Filter, FilterSet, Refused, SetDecision, is_proved

EXAMPLES = pathlib.Path(os.environ.get("VUPRESAL_EXAMPLES") or pathlib.Path(__file__).resolve().parent.parent.parent)
Text = Union[str, bytes]
HOST: List[Tuple[Text, Text]] = [("Host", "h")]
# a filter that denies each request with a field cookie, which its message names Cookie
DENY_COOKIE = bytes.fromhex("0a1b0801 1217 0a0170 1212 0a0c 220a 0a06") + b"Cookie" + bytes.fromhex("3801 12021801")


def example(name: str) -> bytes:
    return (EXAMPLES / name).read_bytes()


def answered(ask: Callable[[], Decision]) -> int:
    """The status that a server would answer with."""
    try:
        return 200 if ask().allowed else 403
    except Error as error:
        return error.status


class Filters(unittest.TestCase):
    def test_decisions(self) -> None:
        rows = [("condition.bin", "/", Decision(True, "readers")), ("condition.bin", "/about", Decision(True, "readers")),
                ("condition.bin", "/admin", Decision(False, None)), ("any_any.bin", "/admin", Decision(True, "p")),
                ("deny_any.bin", "/", Decision(False, "p"))]
        for name, target, wanted in rows:
            with self.subTest(name=name, target=target), Filter(example(name)) as one:
                self.assertEqual(one.decide("GET", target, HOST), wanted)
                self.assertEqual(one.decide_head(f"GET {target} HTTP/1.1\r\nHost: h\r\n\r\n".encode()), wanted)

    def test_requests_without_decision(self) -> None:
        rows = [("", "/", HOST, 400), ("GET", "x", HOST, 400), ("GET", "/", [], 400), ("GET", "/", HOST + [("host", "i")], 400),
                ("GET", "/", HOST + [("", "v")], 400), ("GET", "/", HOST + [("x", "a\nb")], 400), ("GET", "/", HOST + [("x", b"\xff")], 400),
                ("GET", "/" + "a" * 4096, HOST, 431), ("GET", "/", HOST + [("x", "v")] * 70, 431), ("GET", "/", HOST + [("Transfer-Encoding", "chunked")], 501)]
        with Filter(example("any_any.bin")) as one:
            for method, target, lines, status in rows:
                with self.subTest(status=status, method=method), self.assertRaises(Error) as raised:
                    one.decide(method, target, lines)
                self.assertEqual(raised.exception.status, status)
            with self.assertRaises(Error):
                one.decide_head(b"GET / HTTP/1.1\r\n")
            self.assertTrue(one.decide("GET", "/", [], is_http11=False).allowed)

    def test_facts(self) -> None:
        facts = Facts("https", "127.0.0.1:1", "[::1]:2", "h", "TLSv1.3", "CN=a", "a", "spiffe://a", "127.0.0.1", "10.0.0.1", "::1", 1, 2, True, 2**64 - 1)
        with Filter(example("any_any.bin")) as one:
            self.assertTrue(one.decide("GET", "/", HOST, facts).allowed)
            with self.assertRaises(Error) as raised:
                one.decide("GET", "/", HOST, Facts(tls_version="\udcff"))
            self.assertEqual(raised.exception.status, 400)

    def test_facts_that_are_none(self) -> None:
        """A number that C would cut is refused, and no bytes of an address are absent."""
        rows = [dict(source_port=2**32 + 22), dict(destination_port=65536), dict(source_port=-1), dict(connection_id=2**64), dict(connection_id=-1),
                dict(remote_ip="10.0.0"), dict(destination_ip="")]
        with Filter(example("any_any.bin")) as one:
            for row in rows:
                with self.subTest(row=row), self.assertRaises(ValueError):
                    one.decide("GET", "/", HOST, Facts(**row))

    def test_numbers_that_c_cannot_hold(self) -> None:
        """ctypes would cut each to one that is accepted."""
        message = example("any_any.bin")
        for number in (2**64 + 1_000_000, -1, 2**64):
            with self.subTest(number=number):
                with self.assertRaises(ValueError):
                    Filter(message, budget=number)
                for name in ("fields", "name", "value", "method", "target", "text", "visits"):
                    with self.assertRaises(ValueError):
                        Filter(message, bounds=Bounds(**{name: number}))
        for wrong in (1.5, True, "1", None):
            with self.subTest(wrong=wrong), self.assertRaises(TypeError):
                Filter(message, budget=wrong)  # type: ignore[arg-type]
        with self.assertRaises(TypeError), Filter(message) as one:
            one.decide("GET", "/", HOST, Facts(source_port=80.0))  # type: ignore[arg-type]

    def test_bounds(self) -> None:
        smaller = Bounds(fields=10, name=64, value=100, method=32, target=20, text=100)
        with Filter(example("any_any.bin"), bounds=smaller) as one:
            self.assertTrue(one.decide("GET", "/" + "a" * 19, HOST + [("x", "v" * 100)]).allowed)
            for target, lines in (("/" + "a" * 20, HOST), ("/", HOST + [("x", "v" * 101)]), ("/", HOST + [("x" * 65, "v")]), ("/", HOST + [("x", "v")] * 10)):
                with self.subTest(target=target, lines=lines), self.assertRaises(Error) as raised:
                    one.decide("GET", target, lines)
                self.assertEqual(raised.exception.status, 431)
        with Filter(example("condition.bin")) as whole, Filter(example("condition.bin"), bounds=smaller) as less:
            self.assertLess(less.bound, whole.bound)
        for outside in (Bounds(fields=65, name=1, value=1, method=1, target=1, text=1), Bounds(fields=1), Bounds(visits=2**63)):
            with self.subTest(outside=outside), self.assertRaises(Refused) as raised:
                Filter(example("any_any.bin"), bounds=outside)
            self.assertEqual(raised.exception.status, -2)

    def test_ignored_fields(self) -> None:
        long, every = "c" * 5000, example("any_any.bin")
        sixty = [(f"x-{at}", "v") for at in range(60)]
        rows: List[Tuple[bytes, List[str], List[Tuple[Text, Text]], int]] = [
            (every, [], [("Cookie", long)], 431), (every, ["cookie"], [("Cookie", long)], 200), (every, ["COOkie"], [("cooKIE", long), (b"COOKIE", long)], 200),
            (every, ["cookie"], [("Cookie", long), ("Cookie2", long)], 431), (every, ["cookie2"], [("Cookie", long)], 431),
            (every, ["cookie"], [*sixty, ("cookie", ""), ("cookie", "")], 200), (every, ["cookie"], [*sixty, ("cookie2", "")], 431),
            (every, ["transfer-encoding"], [("Transfer-Encoding", "chunked")], 200), (every, ["x"], [("X", "v"), ("Transfer-Encoding", "chunked")], 501),
            (every, ["a.c"], [("abc", long)], 431), (DENY_COOKIE, [], [("cookie", "a")], 403), (DENY_COOKIE, [], [], 200),
            (DENY_COOKIE, ["x", "cookie"], [("cookie", "a")], 200), (DENY_COOKIE, ["x"], [("cookie", "a")], 403)]
        with warnings.catch_warnings():
            warnings.simplefilter("ignore")
            for message, ignore, lines, wanted in rows:
                for one in (Filter(message, ignore=ignore), Filter(message, ignore=iter(ignore)).share(), EachThread(message, ignore=ignore).filter):
                    with self.subTest(ignore=ignore, lines=lines):
                        self.assertEqual(answered(lambda: one.decide("GET", "/", HOST + lines)), wanted)
                        head = "".join(f"{name if isinstance(name, str) else name.decode()}: {value}\r\n" for name, value in HOST + lines)
                        for end in ("\r\n", "\n"):
                            text = f"\r\n\nGET / HTTP/1.1\r\n{head}\r\n".replace("\r\n", end)
                            self.assertEqual(answered(lambda: one.decide_head(text.encode())), wanted)
            with Filter(every, ignore=["cookie"]) as one:
                # a letter that Unicode lowers to k is no name of a field
                self.assertEqual(answered(lambda: one.decide("GET", "/", HOST + [("coo\u212aie", "v")])), 400)
                for wrong in ([("cookie", "a", "b")], [("cookie",)], [(None, "a")], [(1, "a")]):
                    with self.assertRaises((TypeError, ValueError)):
                        one.decide("GET", "/", HOST + wrong)  # type: ignore[operator]

    def test_ignored_lines_of_a_head(self) -> None:
        """What is no whole line of an ignored name stays, so the head has the same fault."""
        rows = [("GET / HTTP/1.1\r\nCookie: a\r\nHost: h\r\nCOOKIE:b\r\ncookie:\r\n\r\n", 200), ("GET / HTTP/1.1\r\nHost: h\r\nCookie : a\r\n\r\n", 400),
                ("GET / HTTP/1.1\r\nHost: h\r\nCookie: a\r\n b\r\n\r\n", 400), ("GET / HTTP/1.1\r\nHost: h\r\n Cookie: a\r\n\r\n", 400),
                ("GET / HTTP/1.1\r\nHost: h\r\nCookie: a\0\r\n\r\n", 400), ("GET / HTTP/1.1\r\nHost: h\r\nCookie: a\rb\r\n\r\n", 400),
                ("GET / HTTP/1.1\r\nHost: h\r\nCookie: a\r\r\n\r\n", 400), ("GET / HTTP/1.1\r\nHost: h\r\nCookie: a", 400),
                ("Cookie: a\r\nGET / HTTP/1.1\r\nHost: h\r\n\r\n", 400), ("\r\nCookie: a\r\nGET / HTTP/1.1\r\nHost: h\r\n\r\n", 400),
                ("GET / HTTP/1.1\rCookie: a\r\nHost: h\r\n\r\n", 400), ("", 400), ("\r\n", 400), ("Cookie: a\r\n\r\n", 400), ("GET / HTTP/1.1\r\nHost: h\r\nCookie\r\n\r\n", 400),
                ("GET / HTTP/1.1\r\nHost: h\r\nCookie: \xff\r\n\r\n", 200), ("GET / HTTP/1.1\r\nHost: h\r\nx: a\rcookie: b\r\n\r\n", 400)]
        with Filter(example("any_any.bin"), ignore=["cookie"]) as one:
            for head, wanted in rows:
                with self.subTest(head=head):
                    self.assertEqual(answered(lambda: one.decide_head(head.encode("latin-1"))), wanted)
            with self.assertRaises(TypeError):
                one.decide_head("GET / HTTP/1.1\r\nHost: h\r\n\r\n")  # type: ignore[arg-type]

    def test_ignored_names(self) -> None:
        for name, told in (("", "not the name"), ("a b", "not the name"), ("a:", "not the name"), ("\u00e9", "not the name"), ("coo\u212aie", "not the name"),
                           ("x\n", "not the name"), (":path", "no field"), (":authority", "no field"), ("host", "cannot be ignored"), ("HOST", "cannot be ignored")):
            with self.subTest(name=name), self.assertRaisesRegex(ValueError, told):
                Filter(example("any_any.bin"), ignore=["cookie", name])
        for wrong in ("cookie", b"cookie", [b"cookie"], [None], None):
            with self.subTest(wrong=wrong), self.assertRaises(TypeError):
                Filter(example("any_any.bin"), ignore=wrong)  # type: ignore[arg-type]
        attributes = b"\x09useragent\x02id"
        for message, ignore, names in ((DENY_COOKIE, [], ()), (DENY_COOKIE, ["x", "COOKIE", "cookie"], ("cookie",)), (DENY_COOKIE, ["ookie", "cooki", "!#$%&'*+-.^_`|~09azAZ"], ()),
                                       (DENY_COOKIE + b"\x1a" + bytes([len(attributes)]) + attributes, ["user-agent", "x-request-id"], ("user-agent", "x-request-id"))):
            with self.subTest(ignore=ignore), warnings.catch_warnings(record=True) as told:
                warnings.simplefilter("always")
                with contextlib.suppress(Refused), Filter(message, ignore=ignore) as one, one.share() as other:
                    self.assertEqual((one.may_read_ignored, other.may_read_ignored), (names, names))
                self.assertEqual([str(it.message) for it in told], [f"the filter may read the field {name}, which is ignored: it finds none" for name in names])

    def test_parts_of_each_kind(self) -> None:
        """The filter allows `/about` with any fields: texts, bytes, more than fit the first room, and none at all."""
        with Filter(example("condition.bin")) as one:
            for lines in (HOST, [(b"host", b"h")], [("host", b"h"), (b"x", "\u00e9")], HOST + [("x", "\u00e9" * 2000)], HOST + [("x%d" % n, "v" * 90) for n in range(59)],
                          (pair for pair in HOST), [["host", "h"]]):
                self.assertEqual(one.decide("GET", "/about", lines), Decision(True, "readers"))
            for lines in ([("host", "h", "more")], [("host", "h"), ("x", "y", "z")], [("host", "h", "x"), ("y",)], [("host",)], ["host"], [("host", 1)], [(None, "h")], [("host", [1])]):
                with self.subTest(lines=lines), self.assertRaises((TypeError, ValueError)):
                    one.decide("GET", "/about", lines)  # type: ignore[arg-type]
            self.assertEqual(one.decide(b"GET", b"/about", HOST), Decision(True, "readers"))
            self.assertFalse(one.decide("GET", "/admin", HOST).allowed)

    def test_facts_are_kept_and_copied(self) -> None:
        facts = Facts(remote_ip="10.0.0.1", source_port=1)
        with Filter(example("any_any.bin")) as one:
            self.assertTrue(one.decide("GET", "/", HOST, facts).allowed)
            copy = pickle.loads(pickle.dumps(facts))
            self.assertEqual(copy, facts)
            self.assertTrue(one.decide("GET", "/", HOST, copy).allowed)

    def test_facts_in_one_form(self) -> None:
        """Denied are the server name `a`, and destinations in 10.0.0.0/8."""
        name = bytes.fromhex("0a1408011210 0a0170 120b 0a05 4a03 0a0161 12021801")
        addresses = bytes.fromhex("0a1f0801121b 0a0170 1216 0a10 2a0e 0a08") + b"10.0.0.0" + bytes.fromhex("12020808 12021801")
        rows = [(name, Facts(requested_server_name="a"), False), (name, Facts(requested_server_name="A"), False),
                (name, Facts(requested_server_name="b"), True), (addresses, Facts(destination_ip="10.1.2.3"), False),
                (addresses, Facts(destination_ip="::ffff:10.1.2.3"), False), (addresses, Facts(destination_ip="::ffff:b01:203"), True)]
        for message, facts, allowed in rows:
            with self.subTest(facts=facts), Filter(message) as one:
                self.assertEqual(one.decide("GET", "/", HOST, facts).allowed, allowed)

    def test_protocols(self) -> None:
        """Allowed is what the condition `request.protocol == "HTTP/2"` allows."""
        message = bytes.fromhex("0a4a12480a017012430a02180112021801223922371003323312045f3d3d5f1a1d10022a190a0d100122090a0772657175657374"
                                "120870726f746f636f6c1a0c10041a083206") + b"HTTP/2"
        with Filter(message) as one:
            for protocol, allowed in (("HTTP/1.0", False), ("HTTP/1.1", False), ("HTTP/2", True), ("HTTP/3", False), (None, False)):
                self.assertEqual(one.decide("GET", "/", HOST, protocol=protocol).allowed, allowed)
            with self.assertRaises(Error) as raised:
                one.decide("GET", "/", [], protocol="HTTP/2")
            self.assertEqual(raised.exception.status, 400)
            with self.assertRaises(ValueError):
                one.decide("GET", "/", HOST, protocol="HTTP/4")

    def test_refusals(self) -> None:
        with self.assertRaises(Refused) as raised:
            Filter(example("condition.bin"), budget=1)
        self.assertEqual((raised.exception.status, raised.exception.place), (15, 'policy "readers": checked_condition'))
        for message, status in ((b"", 4), (b"\x0a\xff", 1), (b"\xff", 1)):
            with self.assertRaises(Refused) as raised:
                Filter(message)
            self.assertEqual(raised.exception.status, status)
        with self.assertRaises(Refused):
            Filter(example("any_any.bin"), budget=0)

    def test_what_it_says_of_itself(self) -> None:
        with Filter(example("condition.bin")) as one:
            self.assertEqual((one.policies, one.bound), (1, 8258))
        self.assertEqual((one.policies, one.bound), (0, 0))
        with self.assertRaises(Error):
            one.decide("GET", "/", HOST)
        one.close()
        self.assertIsInstance(is_proved(), bool)

    def test_shares(self) -> None:
        one = Filter(example("condition.bin"))
        other = one.share()
        one.close()
        one.close()
        with self.assertRaises(Error) as raised:
            one.share()
        self.assertEqual(raised.exception.status, -1)
        self.assertEqual((other.policies, other.decide("GET", "/", HOST)), (1, Decision(True, "readers")))
        with other.share() as third:
            other.close()
            self.assertFalse(third.decide("GET", "/admin", HOST).allowed)

    def test_requests_that_are_made_once(self) -> None:
        connection = Connection(Facts(remote_ip="10.0.0.1"))
        filters = [Filter(example(name)) for name in ("any_any.bin", "condition.bin", "deny_any.bin")]
        for target, wanted in (("/", [True, True, False]), ("/admin", [True, False, False])):
            for made in (connection.request("GET", target, HOST), connection.head(f"GET {target} HTTP/1.1\r\nHost: h\r\n\r\n".encode())):
                self.assertEqual([one.decide_request(made).allowed for one in filters], wanted)
        connection.close()
        self.assertTrue(filters[0].decide_request(made).allowed)
        made.close()
        for wrong, status in ((lambda: filters[0].decide_request(made), -1), (lambda: connection.request("GET", "/", HOST), -1),
                              (lambda: Connection().request("GET", "x", HOST), 400), (lambda: Connection().head(b"GET"), 400),
                              (lambda: Connection().request("GET", "/" + "a" * 4096, HOST), 431), (lambda: Connection(Facts(tls_version="\udcff")), 400)):
            with self.assertRaises(Error) as raised:
                wrong()
            self.assertEqual(raised.exception.status, status)

    def test_made_requests_keep_ignored_fields(self) -> None:
        lines = [*HOST, ("cookie", "c" * 5000)]
        with Filter(example("any_any.bin"), ignore=["cookie"]) as one:
            self.assertTrue(one.decide("GET", "/", lines).allowed)
        with self.assertRaises(Error) as raised:
            Connection().request("GET", "/", lines)
        self.assertEqual(raised.exception.status, 431)

    def test_sets(self) -> None:
        filters = [Filter(example(name)) for name in ("any_any.bin", "condition.bin")]
        one, connection = FilterSet(filters), Connection()
        for each in filters:
            each.close()
        self.assertEqual(one.decide(connection.request("GET", "/", HOST)), SetDecision(True, 1, "readers"))
        self.assertEqual(one.decide(connection.request("GET", "/admin", HOST)), SetDecision(False, 1, None))
        with self.assertRaises(Error) as raised:
            FilterSet([]).decide(connection.request("GET", "/", HOST))
        self.assertEqual(raised.exception.status, -1)
        with self.assertRaises(Error):
            FilterSet(filters)

    def test_threads(self) -> None:
        one = Filter(example("condition.bin"))
        with concurrent.futures.ThreadPoolExecutor(4) as pool:
            self.assertEqual([it.allowed for it in pool.map(lambda _: one.decide("GET", "/", HOST), range(100))], [True] * 100)
        each = EachThread(example("condition.bin"))
        begun = threading.Barrier(4)

        def ask(_: int) -> bool:
            begun.wait(10)
            return all(each.filter.decide("GET", "/", HOST).allowed and not each.filter.decide("GET", "/admin", HOST).allowed for _ in range(100))

        with concurrent.futures.ThreadPoolExecutor(4) as pool:
            self.assertEqual(list(pool.map(ask, range(4))), [True] * 4)


if __name__ == "__main__":
    unittest.main()

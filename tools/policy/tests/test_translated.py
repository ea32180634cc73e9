"""What translated filters decide: Istio's policies and Envoy's regular expressions on requests, by the engine."""
import unittest

from policies.bounds import Budget
from policies.engine import Engine, Request
from policies.places import Source
from policies.reading import contents
from support import ENGINE, HERE, NO_ENGINE

SLEEP = "spiffe://cluster.local/ns/default/sa/curl"
DEV = "spiffe://cluster.local/ns/dev/sa/x"
MTLS = {"connection.mtls": True}


def head(method="GET", path="/", host="h", **headers):
    """The bytes of a head."""
    lines = [f"{name.replace('_', '-')}: {value}" for name, value in headers.items()]
    return "\r\n".join([f"{method} {path} HTTP/1.1", f"host: {host}", *lines, "", ""]).encode()


def peer(name, **facts):
    """The facts of a peer with a certificate."""
    return {**MTLS, "connection.uri_san_peer_certificate": name, **facts}


# A file of `kinds`, and for its first filter requests with facts and whether they pass.
DECIDED = {
    "istio_allow.yaml": [
        (head(), peer(SLEEP, direct_remote_ip="10.1.1.1"), True),
        (head(), peer(DEV, direct_remote_ip="10.1.1.1"), True),
        (head(), peer(DEV, direct_remote_ip="11.1.1.1"), False),
        (head("POST"), peer(SLEEP, direct_remote_ip="10.1.1.1"), False),
        (head(), peer("spiffe://cluster.local/ns/other/sa/x", direct_remote_ip="10.1.1.1"), False),
        (head(), {"direct_remote_ip": "10.1.1.1"}, False),
    ],
    "istio_deny.yaml": [
        (head(path="/x", host="a.internal"), peer(DEV), False),
        (head(path="/x", host="A.INTERNAL"), peer(DEV), False),
        (head(path="/x", host="a.internal"), peer("spiffe://c/ns/prod/sa/x"), True),
        (head(path="/healthz", host="a.internal"), peer(DEV), True),
        (head(path="/public/x", host="a.internal"), peer(DEV), True),
        (head(path="/x", host="a.external"), peer(DEV), True),
        (head("POST"), {"destination.port": 8080}, False),
        (head("POST"), {"destination.port": 80}, True),
        (head("HEAD"), {"destination.port": 8080}, True),
    ],
    "istio_nothing.yaml": [(head(), {}, False), (head(), peer(SLEEP), False)],
    "istio_everything.yaml": [(head(), {}, True)],
    "istio_blocks.yaml": [
        (head(), {"direct_remote_ip": "1.2.3.4"}, True),
        (head(), {"direct_remote_ip": "1.2.3.5"}, False),
        (head(), {"direct_remote_ip": "5.6.7.9", "remote_ip": "2001:db9::1"}, True),
        (head(), {"direct_remote_ip": "5.6.7.9", "remote_ip": "2001:db8::1"}, False),
    ],
    "istio_whens.yaml": [
        (head(user_agent="Mozilla/5"), peer("x", **{"connection.requested_server_name": "www.example.com"}), True),
        (head(user_agent="Mozilla/5"), peer("x", **{"connection.requested_server_name": "a.example.org"}), True),
        (head(user_agent="Mozilla/5"), peer("x", **{"connection.requested_server_name": "a.example.com"}), False),
        (head(user_agent="curl"), peer("x", **{"connection.requested_server_name": "www.example.com"}), False),
        (head(user_agent="Mozilla/5"), {"connection.requested_server_name": "www.example.com"}, False),
        (
            head(user_agent="Mozilla/5"),
            peer("x", **{"connection.requested_server_name": "www.example.com", "destination.port": 22}),
            False,
        ),
    ],
    "regex.yaml": [
        (head(path="/api/x"), peer("spiffe://d/sa/admin"), True),
        (head(path="/v1/x?y"), peer("spiffe://d/sa/admin"), True),
        (head(path="/v3/x"), peer("spiffe://d/sa/admin"), False),
        (head(path="/v3/x", x_id="a"), peer("spiffe://d/sa/admin"), True),
        (head(path="/v3/x", x_id="ab"), peer("spiffe://d/sa/admin"), False),
        (head(path="/v3/x", x_id="bcd"), peer("spiffe://d/sa/admin"), True),
        (head(path="/v3/x", x_no="good"), peer("spiffe://d/sa/admin"), True),
        (head(path="/v3/x", x_no="bad1"), peer("spiffe://d/sa/admin"), False),
        (head(path="/api/x"), peer("spiffe://sa/admin"), False),
        (head(path="/api/x"), peer("spiffe:///sa/admin"), True),
    ],
    "condition_tree.yaml": [(head(), {}, True), (head("PUT"), {}, False)],
    "source_ip.yaml": [
        (head(), {"direct_remote_ip": "10.0.0.1"}, True),
        (head(), {"direct_remote_ip": "12.0.0.1"}, False),
    ],
}


@unittest.skipUnless(ENGINE.exists(), NO_ENGINE)
class Translated(unittest.TestCase):
    """Requests, and whether they pass."""

    def test_decided(self):
        with Engine(ENGINE) as asked:
            for name, wanted in DECIDED.items():
                held = contents(Source(name, (HERE / "kinds" / name).read_bytes()))
                requests = [Request(given, facts) for given, facts, _ in wanted]
                answers = asked.decisions(held.filters[0].data, requests, Budget())
                for (given, facts, passes), answer in zip(wanted, answers):
                    with self.subTest(name, head=given, facts=facts):
                        self.assertEqual(answer.get("verdict"), "allow" if passes else "deny", answer)

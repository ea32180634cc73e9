"""Files as people have them, after Envoy's, Istio's and gRPC's documentation: admitted, or one message that tells what to change."""
import re
import unittest

from policies.bounds import Budget
from policies.checking import NEVER, Wanted, check_files
from policies.commands.check import as_text
from policies.engine import Engine
from policies.forms.binary import filters_in
from policies.wrap import frame, response
from support import ENGINE, HERE, POLICY, encoded

KINDS = HERE / "kinds"
# What each admitted file's filters are called, and words that are told of it.
ADMITTED = {
    "envoy_rules.yaml": ([""], ["1:1: note: these are the rules of a filter"]),
    "filter_entry.yaml": (["envoy.filters.http.rbac"], []),
    "filter_list.yaml": (["envoy.filters.http.rbac"], []),
    "bootstrap.yaml": (
        ["envoy.filters.http.rbac", "envoy.filters.http.rbac#2"],
        ["10:11: note: the network filter is left out", "26:21: note: the filter of RBACPerRoute"],
    ),
    "per_route.yaml": ([""], ["the engine knows no routes"]),
    "extension.yaml": (["edge"], []),
    "config_dump.json": (
        ["envoy.filters.http.rbac"],
        ['26:147: note: this regular expression is read as contains "/ns/foo/"', "note: rules_stat_prefix is left out"],
    ),
    "response.yaml": (["one", "two"], []),
    "regex.yaml": (
        [""],
        [
            '5:63: note: this regular expression is read as prefix "/api/", or prefix "/v1/", or prefix "/v2/"',
            '6:56: note: this regular expression is read as exact "a", or prefix "b"',
            'prefix "spiffe://" and suffix "/sa/admin" but not "spiffe://sa/admin"',
        ],
    ),
    "source_ip.yaml": ([""], ["5:21: note: source_ip is read as direct_remote_ip"]),
    "condition_tree.yaml": ([""], []),
    "condition_text.yaml": ([""], []),
    "shadow.yaml": ([""], ["2:15: note: the engine skips shadow_rules"]),
    "typed_struct.yaml": (["envoy.filters.http.rbac"], []),
    "envoy_filter.yaml": (["envoy.filters.http.rbac"], []),
    "istio_allow.yaml": (["istio-allow"], ["5:3: note: selector is left out"]),
    "istio_deny.yaml": (["istio-deny"], []),
    "istio_nothing.yaml": (["istio-allow"], ["without rules: no request passes by it"]),
    "istio_everything.yaml": (["istio-allow"], []),
    "istio_blocks.yaml": (["istio-allow"], []),
    "istio_whens.yaml": (["istio-allow"], []),
    "istio_several.yaml": (["istio-deny-foo", "istio-allow-foo", "istio-allow-foo-app.other"], []),
    "istio_audit.yaml": (["istio-log"], ["AUDIT is read as LOG"]),
    "istio_list.yaml": (["istio-allow"], []),
    "ecds_dump.json": (["edge"], []),
    "disabled.yaml": (["envoy.filters.http.rbac"], ["3:3: note: a disabled filter is read as if it ran"]),
    "with_matcher.yaml": (["inner"], ["3:3: note: the matcher around this filter is left out"]),
    "virtual_hosts.yaml": (
        ["envoy.filters.http.rbac"],
        ["14:9: note: RBACPerRoute without `rbac` turns the filter off for a route: it is left out"],
    ),
    "grpc.json": (["authz-deny", "authz-allow"], ["14:3: note: audit_logging_options is left out", '"authz_header": condition 3091 steps']),
    "kubernetes.yaml": (["envoy.filters.http.rbac"], ["1:1: note: this is a Service of v1, which holds no filter"]),
}
# The messages of each file that is not admitted, one for each mistake in it, in the order of lines.
TOLD = {
    "per_route_off.yaml": "3:5: RBACPerRoute without `rbac` turns the filter off for a route",
    "regex_beyond.yaml": "5:55: this regular expression is more than alternatives of texts: only `.` may be repeated",
    "metadata.yaml": "7:11: the engine does not support metadata: the engine has no metadata of other filters: let the proxy put it",
    "sourced_metadata.yaml": "6:9: the engine does not know `sourced_metadata` of Principal and would refuse the filter: ",
    "filter_state.yaml": "6:23: the engine does not support filter_state: the engine has no filter state: let the proxy",
    "matcher_tree.yaml": "2:1: the engine does not know `matcher` of the HTTP RBAC filter and would refuse the filter: matchers",
    "uri_template.yaml": "5:9: the engine does not know `uri_template` of Permission and would refuse the filter: write `url_path`",
    "audit.yaml": "5:5: the engine does not support audit_logging_options: the engine writes no log: leave it out",
    "network.yaml": "1:1: no HTTP RBAC filter",
    "version_2.yaml": "3:3: this is of the API's version 2",
    "istio_tokens.yaml": "7:16: requestPrincipals: the engine reads no tokens: let the proxy check the token and put",
    "istio_claims.yaml": "7:12: the condition request.auth.claims[groups]: the engine reads no tokens",
    "istio_custom.yaml": "5:11: CUSTOM asks a provider outside the proxy",
    "istio_namespace_star.yaml": "7:29: a namespace with `*` asks for two texts in a row",
    "istio_dry_run.yaml": "5:35: Istio does not enforce a policy with this annotation: leave out the annotation, or",
    "istio_accounts.yaml": "7:13: the condition source.serviceAccount: write `source.principal` with",
    "istio_mistakes.yaml": [
        "6:22: requestPrincipals: the engine reads no tokens",
        "6:59: 10.0.0 is no block of addresses",
        "6:67: ::/129 is no block of addresses",
        "7:23: `operation` has no field `port`: it has hosts, methods,",
        "7:45: a port is a number from 1 to 65535, not 0",
        "7:50: a port is a number from 1 to 65535, not http",
        "8:18: the condition request.auth.claims[a]: the engine reads no tokens",
        "9:5: a rule has no field `then`: it has from, to, when",
        "10:38: x is no block of addresses",
        "15:8: an AuthorizationPolicy has no field `mtls`",
        "15:28: there is no action PERMIT: it is ALLOW, DENY or AUDIT",
    ],
    "several_mistakes.yaml": [
        "6:3: `config` is of the API's version 2",
        "9:3: `config` is of the API's version 2",
        "18:31: a port is at most 65535",
    ],
    "mistakes.yaml": [
        "2:11: one of these is expected: ALLOW, DENY, LOG",
        "5:20: a list is expected here, since `permissions` may hold several",
        "5:26: true or false is expected",
        "7:37: this text is no address: write `address_prefix: 10.0.0.0` and `prefix_len: 8` (5 OutOfRange)",
        "8:45: source.port is an int; == has no overload for int and string: write 80 without quotes (10 NoOverload)",
        "8:59: a list of 4 numbers is expected here, one for each node of the tree",
        "8:60: a whole number from",
        "8:66: a whole number from",
        "8:78: true or false is expected",
        "8:85: CheckedExpr has no field `typemap`; do you mean `type_map`?",
        "11:7: Policy has no field `principles`; do you mean `principals`?",
        "13:7: a policy without permissions: `permissions: [{any: true}]` takes all (4 Missing)",
        "13:26: true or false is expected",
        "14:26: CheckedExpr has no field `txt`; do you mean `text`?",
        "16:40: a port is at most 65535 (5 OutOfRange)",
    ],
    "other_object.yaml": "1:1: this is a PeerAuthentication of security.istio.io/v1, which holds no filter: an Auth",
    "discovered.yaml": "2:3: this filter comes by config_discovery: check the DiscoveryResponse or the config dump",
    "old_config.yaml": "3:3: `config` is of the API's version 2: write `typed_config` with the filter's `@type`",
    "without_rules.yaml": "3:3: a filter without rules, by which Envoy lets every request pass: write `rules`",
    "grpc_mistakes.yaml": [
        "1:1: `allow_rules` is missing: gRPC wants one rule at least",
        "4:3: a rule has no field `sourse`: it has name, source, request",
        "5:29: gRPC takes no rule for the header :path",
        "5:58: gRPC takes no rule for the header grpc-x",
        "5:97: a header has no `values`",
        "5:102: a header has no `key`",
        "6:3: a rule has no `name`",
        "6:20: a list of texts is expected here",
        "6:33: a list of headers is expected here",
        "7:10: the rule authz_one is here twice",
        "7:37: a text is expected here",
        "8:37: the empty name is a peer without a name, which no matcher finds",
        "9:1: gRPC's authorization policy has no field `allow_rulez`",
    ],
    "not_json.json": "3:1: this is no JSON: expecting property name enclosed in double quotes (a file of YAML ends in .yaml)",
    "istio_template.yaml": "7:27: path templates are not in the profile: write a prefix",
}


def engine_or_none():
    """The engine where it is built."""
    return Engine(ENGINE) if ENGINE.exists() else None


class Kinds(unittest.TestCase):
    """One file of each kind."""

    maxDiff = None

    def reports(self, name):
        """The reports on a file, and their lines."""
        asked = engine_or_none()
        reports = check_files([str(KINDS / name)], Wanted(Budget(), NEVER), asked)
        if asked is not None:
            asked.room.cleanup()
        return reports, [line for report in reports for line in as_text(report, 1_000_000)]

    def test_admitted(self):
        for name, (filters, words) in ADMITTED.items():
            with self.subTest(name):
                reports, lines = self.reports(name)
                self.assertTrue(all(report.is_admitted() for report in reports), "\n".join(lines))
                self.assertEqual([report.name for report in reports], filters)
                for one in words:
                    self.assertTrue(any(one in line for line in lines), (one, lines))

    def test_told(self):
        for name, wanted in TOLD.items():
            wanted = [wanted] if isinstance(wanted, str) else wanted
            with self.subTest(name):
                reports, lines = self.reports(name)
                self.assertFalse(all(report.is_admitted() for report in reports), lines)
                told = [line for line in lines if re.search(rf"{re.escape(name)}:\d+:\d+: (?!note)", line)]
                self.assertEqual(len(told), len(wanted), told)
                for line, beginning in zip(told, wanted):
                    self.assertTrue(line.startswith(f"{KINDS / name}:{beginning}"), told)

    def test_each_file_is_here(self):
        self.assertEqual({path.name for path in KINDS.iterdir()}, set(ADMITTED) | set(TOLD))

    def test_bytes(self):
        data = encoded(POLICY)
        self.assertEqual(filters_in(data), [("", data)])
        whole = response([("a", data), ("b", encoded("rules: {}"))], "1", "n")
        for around in (whole, frame(whole)):
            self.assertEqual(filters_in(around), [("a", data), ("b", b"\x0a\x00")])
        for noise in (b"\x00\x01", b"\x0a", b"\xff" * 9):
            self.assertEqual(filters_in(noise), [("", noise)])

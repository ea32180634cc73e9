"""Random filters as YAML, with rules of every kind and conditions, and random requests that can tell them apart."""
import json
import re

from policies.compare.spaces import ADDRESSES, AUTHORITY, METHOD, TARGET, VERSION
from policies.meaning.domains import domain, header_text
from random_conditions import FACTS, NAMES, WORDS, Conditions

OTHERS = ["x-c", "y", "x-zz"]
IPS = ["10.0.0.1", "10.128.0.0", "11.0.0.0", "::1", "2001:db8::1", "0.0.0.0", "::fffe:a00:1"]
TARGETS = ["/", "/a", "/a/b", "/?q=1", "/a?", "/a#", "/ab#?q=1", "/a?x#b", "/é", "/A", "/aba/b?#", "/x??"]
PORTS = {"source.port": [0, 1, 7, 80, 443, 65535], "destination.port": [0, 1, 80, 443, 444]}
NUMBERS = {**PORTS, "connection.id": [0, 1, 5, 2**63 - 1, 2**63, 2**64 - 1]}
HEADERS = [*NAMES, ":method", ":path", ":authority", ":scheme", "X-A", "host"]
SETS = {False: ("and_rules", "or_rules", "rules", "not_rule"), True: ("and_ids", "or_ids", "ids", "not_id")}
# Small changes of filters.
CHANGES = {
    **{"==": "!=", "<=": "<", ">=": ">", "<": "<=", ">": ">=", "&&": "||", "||": "&&"},
    **{"startsWith": "contains", "endsWith": "contains", "exact": "prefix", "prefix:": "contains:", "suffix": "contains"},
    **{"exists_one": "exists", ".exists(": ".exists_one(", "80": "81", "443": "444", "1": "2", "true": "false"},
    **{"request.path": "request.url_path", "x-a": "x-b", '"a"': '"ab"', '"/a"': '"/"', '"b"': '"a"', "prefix_len: 8": "prefix_len: 9"},
}


class Maker(Conditions):
    """Makes random filters and requests; the same seed makes the same ones."""

    def matcher(self):
        """A matcher of a text."""
        kind = self.pick("exact", "prefix", "suffix", "contains")
        word = json.dumps(self.pick(*(WORDS if kind == "exact" else WORDS[1:])), ensure_ascii=False)
        return f"{{{kind}: {word}{self.pick('', '', ', ignore_case: true')}}}"

    def header(self):
        """A rule for a header."""
        start, size = self.chance.randint(-12, 12), self.chance.randint(1, 20)
        texts = [f"string_match: {self.matcher()}", f"string_match: {self.matcher()}", f"exact_match: {self.literal()}"]
        tests = ["", "present_match: true", "present_match: false", f"range_match: {{start: {start}, end: {start + size}}}"]
        parts = [f"name: {json.dumps(self.pick(*HEADERS))}", self.pick(*tests, *texts)]
        parts += [self.pick("", "", "invert_match: true"), self.pick("", "", "treat_missing_header_as_empty: true")]
        return f"{{header: {{{', '.join(filter(None, parts))}}}}}"

    def range(self):
        """A range of addresses."""
        first = self.pick(*IPS)
        most = 128 if ":" in first else 32
        return f'{{address_prefix: "{first}", prefix_len: {self.pick(0, 1, 8, 9, most - 1, most)}}}'

    def rule(self, depth, is_principal):
        """A permission or a principal."""
        every, one, field, negation = SETS[is_principal]
        if depth and self.chance.random() < 0.4:
            rules = [self.rule(depth - 1, is_principal) for _ in range(self.chance.randint(1, 3))]
            return f"{{{self.pick(every, one)}: {{{field}: [{', '.join(rules)}]}}}}"
        if depth and self.chance.random() < 0.2:
            return f"{{{negation}: {self.rule(depth - 1, is_principal)}}}"
        common = ["{any: true}", self.header(), self.header(), f"{{url_path: {{path: {self.matcher()}}}}}"]
        addresses = [f"{{{self.pick('remote_ip', 'direct_remote_ip')}: {self.range()}}}", f"{{destination_ip: {self.range()}}}"]
        principals = [addresses[0], "{authenticated: {}}", f"{{authenticated: {{principal_name: {self.matcher()}}}}}"]
        ports = [f"{{destination_port: {self.pick(80, 443, 1)}}}", "{destination_port_range: {start: 80, end: 444}}"]
        permissions = [addresses[1], *ports, f"{{requested_server_name: {self.matcher()}}}"]
        return self.pick(*common, *(principals if is_principal else permissions))

    def filter(self):
        """A filter."""
        lines = ["rules:", f"  action: {self.pick('ALLOW', 'DENY', 'LOG', 'ALLOW', 'DENY')}", "  policies:"]
        for number in range(self.pick(1, 1, 2, 3)):
            sides = [", ".join(self.rule(2, side) for _ in range(self.pick(1, 1, 2))) for side in (False, True)]
            if self.chance.random() < 0.6:
                sides = ["{any: true}", "{any: true}"]
            lines += [f"    p{number}:", f"      permissions: [{sides[0]}]", f"      principals: [{sides[1]}]"]
            if sides[0] == "{any: true}" or self.chance.random() < 0.4:
                text = self.bool(4).replace("'", "''")
                lines.append(f"      checked_condition: {{text: '{text}'}}")
        return "\n".join(lines) + "\n"

    def changed(self, text):
        """A filter with one place changed, if there is a place to change."""
        head, around, body = text.partition("  policies:\n")
        found = [match for word in CHANGES for match in re.finditer(re.escape(word), body)]
        if not found:
            return text
        at = self.chance.choice(found)
        return head + around + body[: at.start()] + CHANGES[at[0]] + body[at.end() :]

    def request(self):
        """A request, as the values of its dimensions."""
        chance = self.chance.random
        found = {METHOD: self.pick("GET", "A", "a", "HEAD", "ab"), TARGET: self.pick(*TARGETS)}
        found[AUTHORITY] = self.pick("", "h", "a", "A", "ab", "a,b") if chance() < 0.8 else None
        found[VERSION] = "1.1" if found[AUTHORITY] is not None and chance() < 0.8 else "1.0"
        for name in NAMES + OTHERS:
            word = self.pick(*WORDS)
            if chance() < 0.45 and domain(header_text(name)).has(word):
                found["header", name] = word
        found["fact", "request.scheme"] = self.pick("http", "https", "", "a", "A")
        for name in FACTS:
            word = self.pick(*WORDS)
            if chance() < 0.6 and domain(name).has(word):
                found["fact", name] = word
        if chance() < 0.7:
            found["fact", "connection.mtls"] = chance() < 0.7
        for name, values in [*NUMBERS.items(), *((address, IPS) for address in ADDRESSES)]:
            if chance() < 0.8:
                found["fact", name] = self.pick(*values)
        return found

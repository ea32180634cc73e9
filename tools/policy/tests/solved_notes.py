"""Filters with the names of the notes that a solver finds on them; the answers are worked out by hand."""


def filter_of(action, *policies):
    """The YAML of a filter: the permissions, the principals and the condition of each policy."""
    lines = [f"rules:\n  action: {action}\n  policies:\n"]
    for number, (permissions, principals, *text) in enumerate(policies):
        lines.append(f"    p{number}:\n      permissions: [{permissions}]\n      principals: [{principals}]\n")
        lines += [f"      checked_condition: {{text: '{one}'}}\n" for one in text]
    return "".join(lines)


GET, POST = ('{header: {name: ":method", exact_match: %s}}' % method for method in ("GET", "POST"))
ANY = "{any: true}"
BOTH = "{and_rules: {rules: [%s, %s]}}"


def path(test):
    """A rule for a path."""
    return f"{{url_path: {{path: {{{test}}}}}}}"


def when(text, action="ALLOW"):
    """A filter with one condition."""
    return filter_of(action, (ANY, ANY, text))


def below(prefix):
    """The principal for addresses of a range of 8 or 16 bits."""
    bits = 8 if prefix.count(".") == 0 else 16
    return f"{{remote_ip: {{address_prefix: {prefix}{'.0' * (4 - bits // 8)}, prefix_len: {bits}}}}}"


SOLVED_NOTES = [
    # policies that decide nothing: shadowed by one or by two together, or covered by others
    (filter_of("ALLOW", (path("prefix: /a/"), ANY), (path("prefix: /a/b/"), ANY)), ["never-first"]),
    (filter_of("ALLOW", (path("prefix: /a/b/"), ANY), (path("prefix: /a/"), ANY)), ["needless-policy"]),
    (filter_of("ALLOW", (path("prefix: /a/"), ANY), (path("prefix: /b/"), ANY)), []),
    (filter_of("ALLOW", (GET, below("10")), (POST, below("10")), (f"{GET}, {POST}", below("10.1"))), ["never-first"]),
    (filter_of("DENY", (f"{GET}, {POST}", ANY), (BOTH % (GET, path("suffix: .js")), ANY)), ["never-first"]),
    (filter_of("ALLOW", (ANY, ANY, "source.port < 10"), (ANY, ANY, "source.port < 5")), ["never-first"]),
    (filter_of("ALLOW", (ANY, ANY, "source.port < 5"), (ANY, ANY, "source.port < 10")), ["needless-policy"]),
    # policies that no request meets
    (filter_of("ALLOW", (BOTH % (GET, POST), ANY)), ["never-matches"]),
    (filter_of("ALLOW", (GET, ANY, 'request.method == "PUT"')), ["never-matches"]),
    (filter_of("ALLOW", (path("prefix: /a/"), "{not_id: {url_path: {path: {prefix: /a/}}}}")), ["never-matches"]),
    # rules beside others of their list
    (filter_of("ALLOW", (f"{path('prefix: /a/')}, {path('exact: /a/b')}", ANY)), ["needless-rule"]),
    (filter_of("ALLOW", (f"{path('prefix: /a/')}, {path('exact: /b')}", ANY)), []),
    (filter_of("ALLOW", (BOTH % (path("prefix: /a/"), path("prefix: /a/b/")), ANY)), ["needless-rule"]),
    (filter_of("ALLOW", (f"{GET}, {GET}", ANY)), ["needless-rule"]),
    (filter_of("ALLOW", (ANY, f"{below('10')}, {below('10.1')}")), ["needless-rule"]),
    # conditions that are the same for each request, and parts of them
    (when("true || source.port == 80"), ["constant-condition"]),
    (when("source.port == 80 || size(request.path) < 0"), ["never-matches"]),
    (when("source.port == 80 && size(request.path) >= 1"), ["constant-condition"]),
    (when("source.port == 80 && source.port == 81"), ["never-matches"]),
    (when("source.port < 70000"), ["constant-condition"]),
    (when("source.port < 70000 && connection.mtls"), ["constant-condition"]),
    (when('request.method == "GET" || request.method != "GET"'), ["constant-condition"]),
    (when('"a" in request.headers && request.headers["a"] == "b"'), []),
    (when("source.port == 80"), []),
    # under DENY, a test of a value that is absent lets the request through
    (filter_of("DENY", ("{header: {name: x-env, exact_match: prod}}", ANY)), ["missing-in-deny"]),
    (filter_of("DENY", ("{header: {name: x-token, exact_match: s, invert_match: true}}", ANY)), ["missing-in-deny"]),
    (filter_of("DENY", ("{not_rule: {header: {name: x-token, exact_match: s}}}", ANY)), []),
    (filter_of("DENY", ("{header: {name: x-bad}}", ANY)), []),
    (filter_of("DENY", ("{header: {name: x-a, exact_match: b}}, {not_rule: {header: {name: x-a}}}", ANY)), []),
    (filter_of("DENY", ("{header: {name: x-a, exact_match: '', treat_missing_header_as_empty: true}}", ANY)), []),
    (filter_of("DENY", (ANY, below("10"))), ["missing-in-deny"]),
    (filter_of("DENY", (ANY, f"{{not_id: {below('10')}}}")), []),
    (filter_of("ALLOW", ("{header: {name: x-env, exact_match: prod}}", below("10"))), []),
    # what is not decided has no note
    (filter_of("ALLOW", (ANY, ANY, 'bytes(request.path) == b"/"'), (path("prefix: /a/"), ANY), (path("prefix: /a/b/"), ANY)), ["never-first"]),
]

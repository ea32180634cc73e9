"""Pairs of conditions, each with whether both mean the same for every request; the answers are worked out by hand."""

# Both sides are true for the same requests.
EQUAL_PAIRS = [
    ('"x-u" in request.headers && request.path == "/u/" + request.headers["x-u"]', 'request.path == "/u/" + request.headers["x-u"]'),
    (
        'request.headers.all(k, !k.startsWith("x-admin")) && source.port < 1024',
        '!request.headers.exists(k, k.startsWith("x-admin")) && source.port <= 1023',
    ),
    ("connection.id * 2u < 100u", "connection.id < 50u"),
    ("source.port * 3 + 7 == 10 * destination.port", "source.port * 3 == 10 * destination.port - 7"),
    (
        'request.path in ["/a", "/b"] && request.method != "GET"',
        '(request.path == "/a" || request.path == "/b") && !(request.method in ["GET"])',
    ),
    ('request.headers["a"] < request.headers["b"]', '!(request.headers["a"] >= request.headers["b"])'),
    (
        'request.headers.size() < 10 && request.headers.all(k, v, v != "")',
        'request.headers.size() < 10 && !request.headers.exists(k, v, size(v) == 0)',
    ),
    (
        '{"alice": "/a", "bob": "/b"}[request.headers["u"]] == request.path',
        'request.headers["u"] == "alice" && request.path == "/a" || request.headers["u"] == "bob" && request.path == "/b"',
    ),
    (
        'request.headers[request.headers["pick"]] == "yes"',
        'request.headers["pick"] in request.headers && request.headers[request.headers["pick"]] == "yes"',
    ),
    (
        '["GET", "HEAD"].exists(m, m == request.method) && [1, 2].map(x, x * 1000).exists(p, p == source.port)',
        'request.method in ["GET", "HEAD"] && source.port in [1000, 2000]',
    ),
    (
        '[request.host, request.referer].filter(x, x.startsWith("a")).size() == 1',
        'request.host.startsWith("a") != request.referer.startsWith("a")',
    ),
    ('request.path > "/m" && request.path < "/n"', 'request.path.startsWith("/m") && request.path != "/m"'),
    ('request.protocol == "HTTP/1.0" && request.host == "a"', 'request.protocol != "HTTP/1.1" && request.host == "a"'),
    (
        'request.headers["a"] == request.headers["b"] && request.headers["b"].startsWith("x") && request.headers["a"].endsWith("y")',
        'request.headers["b"] == request.headers["a"] && request.headers["a"].startsWith("x") && request.headers["b"].endsWith("y")',
    ),
    ("source.port % 7 == 3 && source.port > 1000", "source.port % 7 == 3 && source.port > 1003"),
    # a method has at most 32 characters, and digits of a length 18
    ("size(request.method) <= 32", 'request.method != ""'),
    ('size(request.headers["content-length"]) < 19', '"content-length" in request.headers'),
    ("connection.mtls && !connection.mtls", "1 / 0 == 1"),
    ('string(source.port) == "80"', "source.port == 80"),
    # lists of many possible lengths
    (
        '(["a", "b", "c", "d"].filter(e, e in request.headers) + ["e", "f", "g"].filter(e, e in request.headers)).size() == 7',
        '["a", "b", "c", "d", "e", "f", "g"].all(e, e in request.headers)',
    ),
    # conversions: an int from 2^63 on, and a uint below 0, are errors
    ("int(connection.id) >= 0", "connection.id < 9223372036854775808u"),
    ("uint(source.port - 80) >= 0u", "source.port >= 80"),
    # numbers as texts: by their digits, by their order, and by their size
    ('string(source.port).startsWith("80")', "source.port == 80 || source.port / 10 == 80 || source.port / 100 == 80"),
    ('string(source.port).endsWith("00")', "source.port % 100 == 0 && source.port > 0"),
    ('string(source.port - 9).contains("-")', "source.port < 9"),
    ('string(source.port) < "10"', "source.port <= 1"),
    ('size(string(source.port)) == 3', "source.port > 99 && source.port < 1000"),
    ('string(source.port) == string(destination.port)', "source.port == destination.port"),
    # a server name has no letters from A to Z
    ('connection.requested_server_name == "A"', "false"),
    # names of headers are in lower case, and none is named host
    ('"X-A" in request.headers || "host" in request.headers', "false"),
    ('{request.method: 1, "a": 2}["a"] == 2', 'request.method != "a"'),
    ('{"a": 1, "a": 1}["a"] == 1', "false"),
    # an error of one side, decided by the other
    ('request.headers["a"] == "b" || true', "true"),
    # a query is after a path and its sign
    ("size(request.query) < 4095", "true"),
    # no part of the query is in the path
    ('request.url_path.contains("?")', "false"),
    ('request.path.startsWith("/a?b")', 'request.url_path == "/a" && request.query.startsWith("b") && request.path.startsWith("/a?")'),
    # more than 64 entries are no request
    ("request.headers.size() > 64", "false"),
    ("request.headers.size() >= 4", '"a" in request.headers || request.headers.size() > 3'),
]
# A request is known for which one side is true and the other is not.
DIFFERENT_PAIRS = [
    ('request.headers.exists_one(k, k.startsWith("x-"))', 'request.headers.exists(k, k.startsWith("x-"))'),
    (
        'request.url_path.startsWith("/a/") && size(request.url_path) > 3 && request.query == ""',
        'request.url_path.startsWith("/a/") && request.url_path != "/a/" && !request.path.contains("?")',
    ),
    (
        'request.host.endsWith(".example.com") && !request.host.contains(":")',
        'request.host.endsWith(".example.com") && !request.host.endsWith(":443")',
    ),
    ('request.path.endsWith(request.headers["x-u"])', 'request.path.contains(request.headers["x-u"])'),
    ("int(connection.id) % 3 == 0", "connection.id % 3u == 0u"),
    ("int(connection.id) >= 0", "connection.id >= 0u"),
    ("int(connection.id) == 9223372036854775807", "connection.id >= 9223372036854775807u"),
    ("connection.id == uint(9223372036854775807) + 1u", "connection.id == 9223372036854775807u"),
    ('string(source.port) == request.query', 'string(source.port) == request.query && source.port > 5'),
    ('size(request.url_path) == size(request.query)', 'request.url_path == "/" && size(request.query) == 1'),
    ('request.path.contains(request.headers["x-u"] + "/")', 'request.path.startsWith(request.headers["x-u"] + "/")'),
    ('request.headers["a"] < request.headers["b"]', 'request.headers["a"] <= request.headers["b"]'),
    (
        'size(request.path) > 4000 && request.path.contains("/x/") && request.path.endsWith(".js")',
        'size(request.path) > 4000 && request.path.contains("/x/") && request.path.endsWith(".js") && size(request.path) < 4096',
    ),
    ('request.path.startsWith("/abc") && size(request.path) < 100', 'request.path.startsWith("/abc") && size(request.path) < 101'),
    ("source.port % 7 == 3 && source.port > 1000", "source.port % 7 == 3 && source.port > 1010"),
    ("request.headers.size() < 20", "request.headers.size() < 21"),
    ("size(request.query) < 4094", "true"),
    ("request.headers.all(k, v, size(v) < 40)", "request.headers.all(k, v, size(v) < 41)"),
    ('request.headers["x-a"] + request.headers["x-b"] == "abcd"', 'request.headers["x-a"] == "ab" && request.headers["x-b"] == "cd"'),
    (
        'connection.mtls && connection.uri_san_peer_certificate.startsWith("spiffe://a")',
        'connection.uri_san_peer_certificate.startsWith("spiffe://a")',
    ),
    ('request.headers["a"] == "b"', 'request.headers["a"] == "b" || !("a" in request.headers)'),
    ('request.headers["content-length"] != "0"', 'request.headers["content-length"] in ["1", "10", "01"]'),
    # other digits are left
    ('!request.headers["content-length"].contains("0") && !request.headers["content-length"].contains("1")', "false"),
    ('request.path == request.url_path', 'request.query == ""'),
    (
        'request.headers["x-a"] == request.headers["x-b"]',
        'request.headers["x-a"] == request.headers["x-b"] && request.headers["x-a"] != "q"',
    ),
    ('["a", "b"].exists(x, request.headers.exists(k, v, k == x && v == "1"))', 'request.headers["a"] == "1"'),
    ("source.port > 65534", "source.port > 65535"),
    ('!(connection.requested_server_name == "a")', 'connection.requested_server_name != "a" || source.port == 1'),
]
# What is not decided, and the part that is named.
GAPS = [
    ("bytes(request.path) == b'a'", "false", "bytes"),
    ('request.headers.map(k, size(k)) == [1]', "false", "map over headers"),
    (
        'request.headers.exists(k, k == "a" && request.headers.exists(o, o == "b"))',
        '"a" in request.headers && "b" in request.headers',
        "a loop over headers in another",
    ),
]

// Policies to begin with, each with a request.

const SERVICE = `# Readers may look at products from the inner network;
# the admin's certificate opens everything.
rules:
  action: ALLOW
  policies:
    admin:
      permissions: [{any: true}]
      principals:
      - authenticated:
          principal_name: {exact: spiffe://cluster.local/ns/default/sa/admin}
    readers:
      permissions:
      - and_rules:
          rules:
          - header: {name: ":method", string_match: {exact: GET}}
          - url_path: {path: {prefix: /products/}}
          - not_rule: {header: {name: x-debug, present_match: true}}
      principals:
      - remote_ip: {address_prefix: 10.0.0.0, prefix_len: 8}
      - remote_ip: {address_prefix: "fd00::", prefix_len: 8}
`;

const PAGES = `# Whoever reads one of two pages. No other path passes.
rules:
  policies:
    readers:
      permissions: [{any: true}]
      principals: [{any: true}]
      checked_condition:
        text: request.method == "GET" && request.path in ["/", "/about"]
`;

const DENIED = `# A request is denied if a policy matches it.
rules:
  action: DENY
  policies:
    admin pages:
      permissions:
      - url_path: {path: {prefix: /admin}}
      principals:
      - not_id: {direct_remote_ip: {address_prefix: 10.0.0.0, prefix_len: 8}}
    odd headers:
      permissions: [{any: true}]
      principals: [{any: true}]
      checked_condition:
        text: |
          request.headers.exists(name, value,
            name.startsWith("x-") && value.contains("debug"))
`;

const FAULTY = `# The engine refuses this filter. Mend it.
rules:
  policies:
    readers:
      permissions:
      - url_path: {path: {prefix: ""}}
      principals: [{any: true}]
      checked_condition:
        text: request.method == "GET" && request.path.matches("/a.*")
`;

/** The examples of each form of a policy. */
export const SAMPLES = {
  yaml: [
    { name: "Two pages", text: PAGES, request: { target: "/about" } },
    {
      name: "A service: rules on headers and addresses",
      text: SERVICE,
      request: { target: "/products/1", headers: "Host: shop.example\nx-debug: 1", facts: { remoteIp: "10.1.2.3" } },
    },
    { name: "What is denied", text: DENIED, request: { target: "/admin/users", facts: { directRemoteIp: "192.0.2.7" } } },
    { name: "A filter with faults", text: FAULTY, request: { target: "/a" } },
  ],
  cel: [
    { name: "Two pages", text: 'request.method == "GET" && request.path in ["/", "/about"]', request: { target: "/about" } },
    {
      name: "A header with a value",
      text: '"x-user" in request.headers\n  && request.headers["x-user"] == "alice"',
      request: { headers: "Host: shop.example\nx-user: bob" },
    },
    {
      name: "A header that may be missing",
      text: 'request.headers["x-user"] == "alice"\n  || request.url_path.startsWith("/public/")',
      request: { target: "/private" },
    },
    {
      name: "A loop over all headers",
      text: 'request.headers.all(name, value,\n  !name.startsWith("x-") || size(value) < 20)',
      request: { headers: "Host: shop.example\nx-trace: 0123456789" },
    },
    { name: "Types that do not fit", text: 'source.port == "443"', request: { facts: { sourcePort: "443" } } },
  ],
};

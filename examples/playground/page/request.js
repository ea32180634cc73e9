// The form of the request, and what the engine is asked by it.

/** The facts of a connection: the name that the package for JavaScript has, the name of the profile, what it looks like, and its kind. */
const FACTS = [
  ["remoteIp", "remote_ip", "10.1.2.3", "address"],
  ["directRemoteIp", "direct_remote_ip", "10.1.2.3", "address"],
  ["destinationIp", "destination_ip", "192.0.2.1", "address"],
  ["sourceAddress", "source.address", "10.1.2.3:57684", "text"],
  ["sourcePort", "source.port", "57684", "port"],
  ["destinationAddress", "destination.address", "192.0.2.1:443", "text"],
  ["destinationPort", "destination.port", "443", "port"],
  ["scheme", "request.scheme", "http", "text"],
  ["mtls", "connection.mtls", "true or false", "flag"],
  ["uriSanPeerCertificate", "connection.uri_san_peer_certificate", "spiffe://cluster.local/ns/default/sa/admin", "text"],
  ["dnsSanPeerCertificate", "connection.dns_san_peer_certificate", "client.example", "text"],
  ["subjectPeerCertificate", "connection.subject_peer_certificate", "CN=client", "text"],
  ["requestedServerName", "connection.requested_server_name", "shop.example", "text"],
  ["tlsVersion", "connection.tls_version", "TLSv1.3", "text"],
  ["connectionId", "connection.id", "7", "id"],
];

/** Adds the fields of the facts to the form. */
export function addFacts(to) {
  for (const [name, label, example] of FACTS) {
    const field = document.createElement("label"), input = document.createElement("input"), wrong = document.createElement("span");
    Object.assign(input, { name, placeholder: `such as ${example}`, spellcheck: false });
    input.setAttribute("autocapitalize", "off");
    input.setAttribute("aria-describedby", `${name}-wrong`);
    Object.assign(wrong, { className: "wrong", id: `${name}-wrong` });
    field.append(label, input, wrong);
    to.append(field);
  }
}

/** Fills the form: facts that are not given are empty. */
export function fill(form, { method = "GET", target = "/", protocol = "HTTP/1.1", headers = "Host: shop.example", facts = {} }) {
  const fields = form.elements;
  Object.entries({ method, target, protocol, headers }).forEach(([name, value]) => {
    fields[name].value = value;
  });
  FACTS.forEach(([name]) => {
    fields[name].value = facts[name] ?? "";
  });
}

/** The request and the facts of the form, or the fields that are wrong, each with words. */
export function readForm(form) {
  const fields = form.elements, facts = {}, wrong = {};
  for (const [name, , example, kind] of FACTS) {
    const text = fields[name].value.trim();
    if (!text) continue;
    const value = READERS[kind](text);
    if (value === undefined) wrong[name] = WORDS[kind](example);
    else facts[name] = value;
  }
  const { lines, fault } = linesOf(fields.headers.value);
  if (fault) wrong.headers = fault;
  const request = { method: fields.method.value, target: fields.target.value, protocol: fields.protocol.value, lines };
  return { request, facts, wrong, names: ["headers", ...FACTS.map(([name]) => name)] };
}

function linesOf(text) {
  const lines = [];
  for (const [number, line] of text.split("\n").entries()) {
    if (!line.trim()) continue;
    const [, name, value] = /^\s*(:?[^:]+?)\s*:(.*)$/.exec(line) ?? [];
    if (!name) return { lines, fault: `Line ${number + 1} of the headers has no \`:\`. Write a name, a colon and a value.` };
    lines.push([name, value.trim()]);
  }
  return { lines };
}

const READERS = {
  text: (text) => text,
  port: (text) => (/^\d{1,5}$/.test(text) && Number(text) <= 65535 ? Number(text) : undefined),
  id: (text) => (/^\d{1,20}$/.test(text) && BigInt(text) < 1n << 64n ? BigInt(text) : undefined),
  flag: (text) => ({ true: true, false: false })[text],
  address: addressOf,
};
const WORDS = {
  port: () => "A port is a number from 0 to 65535.",
  id: () => "This is a number from 0 to 18446744073709551615.",
  flag: () => "Write true or false, or leave it empty.",
  address: (example) => `Write an address such as ${example} or 2001:db8::1.`,
};

/** The 4 or 16 bytes of an address, or undefined. */
export function addressOf(text) {
  if (!text.includes(":")) {
    const parts = text.split(".");
    const isAddress = parts.length === 4 && parts.every((part) => /^(?:0|[1-9]\d{0,2})$/.test(part) && Number(part) < 256);
    return isAddress ? parts.map(Number) : undefined;
  }
  const halves = text.split("::");
  if (halves.length > 2) return undefined;
  const [before, after] = halves.map(groupsOf);
  if (!before || (halves.length === 2 && !after)) return undefined;
  if (halves.length === 1) return before.length === 16 ? before : undefined;
  const missing = 16 - before.length - after.length;
  return missing >= 2 ? [...before, ...Array(missing).fill(0), ...after] : undefined;
}

/** The bytes of groups with colons; the last one may be an address of IPv4. */
function groupsOf(text) {
  if (!text) return [];
  const groups = text.split(":"), last = groups.at(-1).includes(".") ? addressOf(groups.pop()) : [];
  if (!last || !groups.every((group) => /^[0-9a-fA-F]{1,4}$/.test(group))) return undefined;
  return [...groups.flatMap((group) => [Number.parseInt(group, 16) >> 8, Number.parseInt(group, 16) & 255]), ...last];
}

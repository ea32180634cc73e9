// Judges jobs from standard input as judge.c does, by the module of WebAssembly whose file is the argument: see jobs.h.
import { readFileSync } from "node:fs";
import { Refused, Vupresal } from "../../../examples/embed/wasm/vupresal.mjs";

const TEXTS = { "source.address": "sourceAddress", "destination.address": "destinationAddress", "connection.requested_server_name": "requestedServerName",
  "connection.tls_version": "tlsVersion", "connection.subject_peer_certificate": "subjectPeerCertificate",
  "connection.dns_san_peer_certificate": "dnsSanPeerCertificate", "connection.uri_san_peer_certificate": "uriSanPeerCertificate", "request.scheme": "scheme",
  direct_remote_ip: "directRemoteIp", remote_ip: "remoteIp", destination_ip: "destinationIp" };
const NUMBERS = { "source.port": "sourcePort", "destination.port": "destinationPort", "connection.mtls": "mtls", "connection.id": "connectionId" };
const engine = await Vupresal.load(readFileSync(process.argv[2]));
const bytesOf = (hex) => (hex === "-" ? Buffer.alloc(0) : Buffer.from(hex, "hex"));
const lines = [];
let filter = null, facts = {};

function admitted(budget, message) {
  try {
    const other = engine.admit(message, { budget: BigInt(budget) });
    filter?.close();
    filter = other;
    return `admitted ${filter.policies} ${filter.bound}`;
  } catch (fault) {
    if (!(fault instanceof Refused)) throw fault;
    return `refused ${fault.status} ${fault.place}`;
  }
}

// the parts of a head that has a decision, as jobs.h cuts them
function partsOf(head) {
  const text = head.toString("latin1").replace(/^[\r\n]+/, ""), [first, ...rest] = text.split(/\r?\n/);
  const [method, target, version] = first.split(" "), bytes = (it) => Buffer.from(it, "latin1");
  const fields = rest.slice(0, rest.indexOf("")).map((line) => [bytes(line.slice(0, line.indexOf(":"))), bytes(line.slice(line.indexOf(":") + 1))]);
  return { method: bytes(method), target: bytes(target), lines: fields, protocol: version };
}

function told({ isAllowed, number, policy }) {
  const verdict = isAllowed ? "allow" : "deny";
  return number === undefined ? `${verdict} - -` : `${verdict} ${number} ${Buffer.from(policy).toString("hex") || "-"}`;
}

function judged(head) {
  try {
    const one = told(filter.decideHead(head, facts));
    return one === told(filter.decide(partsOf(head), facts)) ? one : "DIFFERS";
  } catch (fault) {
    if (!(fault instanceof Refused)) throw fault;
    return `status ${fault.status}`;
  }
}

for (const line of readFileSync(0, "latin1").split("\n").filter(Boolean)) {
  const [kind, first, second] = line.split(" ");
  if (kind === "filter") {
    lines.push(admitted(first, bytesOf(second)));
  } else if (kind === "fact") {
    facts[TEXTS[first] ?? NUMBERS[first]] = first in TEXTS ? bytesOf(second) : BigInt(second);
  } else {
    lines.push(filter ? judged(bytesOf(first)) : "status -1");
    facts = {};
  }
}
process.stdout.write(`${lines.join("\n")}\n`);

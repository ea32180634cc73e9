// Decides on requests by Envoy's RBAC filters, with the library as a module of WebAssembly (lib/vupresal.wasm, of 64 bits).
//
//     const engine = await Vupresal.load(bytes);
//     const filter = engine.admit(message);
//     const decision = filter.decide({ method: "GET", target: "/about", lines: [["host", "shop.example"]] }, { remoteIp: [10, 0, 0, 1] });
//     filter.close();
//
// Node 20 needs --experimental-wasm-memory64. The structs are those of include/vupresal.h, whose places tools/library/programs/abi.c has.

const SIZES = { bounds: 56, facts: 264, line: 32, request: 64, decision: 16, filter: 16, build: 104 };
const PROTOCOLS = { "HTTP/1.0": [false, 0n], "HTTP/1.1": [true, 0n], "HTTP/2": [true, 2n], "HTTP/3": [true, 3n] };
const TEXTS = ["sourceAddress", "destinationAddress", "requestedServerName", "tlsVersion", "subjectPeerCertificate", "dnsSanPeerCertificate",
  "uriSanPeerCertificate"];
const ADDRESSES = ["directRemoteIp", "remoteIp", "destinationIp"];
const BOUNDS = ["fields", "name", "value", "method", "target", "text", "visits"];
const PLACE = 1 << 16, VERSION = 1000n, ABI = 0n;
const encoder = new TextEncoder(), decoder = new TextDecoder();

/** There is no decision, or no filter: the status is that of the header, and the place is in the filter's message. */
export class Refused extends Error {
  constructor(status, place = "") {
    super(`status ${status}${place && `: ${place}`}`);
    this.status = status;
    this.place = place;
  }
}

/** A number that fits so many bits without a sign; it would be cut otherwise. */
function fitting(number, bits, what) {
  const big = BigInt(number);
  if (big < 0n || big >= 1n << BigInt(bits)) throw new RangeError(`${what} does not fit ${bits} bits: ${number}`);
  return big;
}

const bytesOf = (text) => (typeof text === "string" ? encoder.encode(text) : Uint8Array.from(text));

/** The memory of one call, which is given back after it. */
class Room {
  constructor(calls) {
    this.calls = calls;
    this.blocks = [];
  }

  view() {
    return new DataView(this.calls.memory.buffer);
  }

  /** A block of zeros. */
  take(size) {
    const at = this.calls.malloc(BigInt(Math.max(size, 1)));
    if (at === 0n) throw new Refused(19);
    this.blocks.push(at);
    new Uint8Array(this.calls.memory.buffer, Number(at), size).fill(0);
    return Number(at);
  }

  /** Where these bytes are. */
  put(bytes) {
    const at = this.take(bytes.length);
    new Uint8Array(this.calls.memory.buffer, at, bytes.length).set(bytes);
    return at;
  }

  /** Writes a vupresal_bytes. */
  bytes(at, given) {
    const bytes = bytesOf(given), place = this.put(bytes);
    this.view().setBigUint64(at, BigInt(place), true);
    this.view().setBigUint64(at + 8, BigInt(bytes.length), true);
  }

  facts(facts) {
    const at = this.take(SIZES.facts);
    this.bytes(at, facts.scheme ?? "http");
    TEXTS.forEach((name, number) => {
      if (facts[name] === undefined) return;
      this.bytes(at + 16 + 24 * number, facts[name]);
      this.view().setUint8(at + 32 + 24 * number, 1);
    });
    ADDRESSES.forEach((name, number) => this.bytes(at + 184 + 16 * number, facts[name] ?? []));
    const view = this.view();
    view.setInt32(at + 232, facts.sourcePort === undefined ? -1 : Number(fitting(facts.sourcePort, 16, "a port")), true);
    view.setInt32(at + 236, facts.destinationPort === undefined ? -1 : Number(fitting(facts.destinationPort, 16, "a port")), true);
    view.setInt32(at + 240, facts.mtls === undefined ? -1 : Number(Boolean(facts.mtls)), true);
    if (facts.connectionId !== undefined) {
      view.setBigUint64(at + 248, fitting(facts.connectionId, 64, "a connection's number"), true);
      view.setUint8(at + 256, 1);
    }
    return at;
  }

  request({ method, target, lines = [], protocol = "HTTP/1.1" }) {
    if (!Object.hasOwn(PROTOCOLS, protocol)) throw new RangeError(`a protocol is one of ${Object.keys(PROTOCOLS).join(", ")}`);
    const at = this.take(SIZES.request), table = this.take(SIZES.line * lines.length), [isHttp11, number] = PROTOCOLS[protocol];
    this.bytes(at, method);
    this.bytes(at + 16, target);
    lines.forEach(([name, value], row) => {
      this.bytes(table + SIZES.line * row, name);
      this.bytes(table + SIZES.line * row + 16, value);
    });
    const view = this.view();
    view.setBigUint64(at + 32, BigInt(table), true);
    view.setBigUint64(at + 40, BigInt(lines.length), true);
    view.setUint8(at + 48, Number(isHttp11));
    view.setBigUint64(at + 56, number, true);
    return at;
  }

  leave() {
    this.blocks.forEach((at) => this.calls.free(at));
    this.blocks = [];
  }
}

/** An admitted filter. */
class Filter {
  constructor(calls, handle) {
    this.calls = calls;
    this.handle = handle;
  }

  /** What the filter says of a request by its parts: whether it is allowed, and the policy that matches. Throws Refused without a decision. */
  decide(request, facts = {}) {
    return this.#decided(facts, (room) => [this.calls.vupresal_filter_decide, BigInt(room.request(request))]);
  }

  /** The same by the whole head of HTTP/1. */
  decideHead(head, facts = {}) {
    const bytes = bytesOf(head);
    return this.#decided(facts, (room) => [this.calls.vupresal_filter_decide_head, BigInt(room.put(bytes)), BigInt(bytes.length)]);
  }

  #decided(facts, asked) {
    const room = new Room(this.calls);
    try {
      const [call, ...request] = asked(room), about = room.facts(facts), at = room.take(SIZES.decision);
      const status = call(this.handle, ...request, BigInt(about), BigInt(at));
      if (status !== 0) throw new Refused(status);
      const view = room.view(), number = view.getBigUint64(at, true), isMatched = view.getUint8(at + 8) === 1;
      return { isAllowed: view.getUint8(at + 9) === 1, number: isMatched ? number : undefined, policy: isMatched ? this.policyName(number) : undefined };
    } finally {
      room.leave();
    }
  }

  get policies() {
    return Number(this.calls.vupresal_filter_policies(this.handle));
  }

  /** The most steps that the conditions take together for one request. */
  get bound() {
    return this.calls.vupresal_filter_bound(this.handle);
  }

  policyName(number) {
    const room = new Room(this.calls);
    try {
      const size = Number(this.calls.vupresal_filter_policy_name(this.handle, BigInt(number), 0n, 0n)), at = room.take(size);
      this.calls.vupresal_filter_policy_name(this.handle, BigInt(number), BigInt(at), BigInt(size));
      return decoder.decode(new Uint8Array(this.calls.memory.buffer, at, size));
    } finally {
      room.leave();
    }
  }

  close() {
    this.calls.vupresal_filter_free(this.handle);
    this.calls.free(this.handle);
    this.handle = 0n;
  }
}

export class Vupresal {
  constructor(calls) {
    this.calls = calls;
    const room = new Room(calls), at = room.take(SIZES.build);
    calls.vupresal_version(BigInt(at));
    const number = room.view().getBigUint64(at, true);
    this.isProved = room.view().getUint8(at + 96) === 1;
    room.leave();
    if (number / 1_000_000n !== ABI || number < VERSION) throw new Error(`vupresal: the module has version ${number}`);
  }

  /** The engine of the module's bytes. It imports nothing. */
  static async load(bytes) {
    const { instance } = await WebAssembly.instantiate(bytes, {});
    return new Vupresal(instance.exports);
  }

  /** Admits the message of an HTTP RBAC filter; throws Refused with the place of a fault. */
  admit(message, { budget = 1_000_000n, bounds = {} } = {}) {
    const room = new Room(this.calls), handle = this.calls.malloc(BigInt(SIZES.filter));
    if (handle === 0n) throw new Refused(19);
    new Uint8Array(this.calls.memory.buffer, Number(handle), SIZES.filter).fill(0);
    let status = 19, place = "";
    try {
      const limits = room.take(SIZES.bounds), bytes = room.put(message), at = room.take(PLACE);
      BOUNDS.forEach((name, number) => room.view().setBigUint64(limits + 8 * number, fitting(bounds[name] ?? 0, 64, name), true));
      status = this.calls.vupresal_filter_admit(handle, BigInt(bytes), BigInt(message.length), BigInt(limits), fitting(budget, 64, "a budget"), BigInt(at), BigInt(PLACE));
      const told = new Uint8Array(this.calls.memory.buffer, at, PLACE);
      place = decoder.decode(told.subarray(0, told.indexOf(0)));
    } finally {
      room.leave();
      if (status !== 0) this.calls.free(handle);
    }
    if (status !== 0) throw new Refused(status, place);
    return new Filter(this.calls, handle);
  }
}

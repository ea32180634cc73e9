// Tests of the package, with the filters of the folder examples; VUPRESAL_WASM names the module.
import assert from "node:assert/strict";
import { readFileSync } from "node:fs";
import test from "node:test";
import { Refused, Vupresal } from "./vupresal.mjs";

const engine = await Vupresal.load(readFileSync(process.env.VUPRESAL_WASM));
const example = (name) => readFileSync(new URL(`../../${name}`, import.meta.url));
const HOST = [["Host", "h"]];
const get = (target, lines = HOST, more = {}) => ({ method: "GET", target, lines, ...more });
const statusOf = (call) => {
  try {
    call();
  } catch (fault) {
    if (fault instanceof Refused) return fault.status;
    throw fault;
  }
  return 0;
};

test("decisions", () => {
  for (const [name, target, isAllowed, policy] of [["condition.bin", "/", true, "readers"], ["condition.bin", "/admin", false, undefined],
    ["any_any.bin", "/admin", true, "p"], ["deny_any.bin", "/", false, "p"]]) {
    const filter = engine.admit(example(name)), number = policy && 0n;
    assert.deepEqual(filter.decide(get(target)), { isAllowed, number, policy });
    assert.deepEqual(filter.decideHead(`GET ${target} HTTP/1.1\r\nHost: h\r\n\r\n`), { isAllowed, number, policy });
    filter.close();
  }
});

test("requests without a decision", () => {
  const filter = engine.admit(example("any_any.bin"));
  for (const [request, status] of [[get("x"), 400], [get("/", []), 400], [get("/", [["host", "h"], ["x", "a\nb"]]), 400], [get("/" + "a".repeat(4096)), 431],
    [get("/", Array(70).fill(["x", "v"])), 431], [get("/", [["host", "h"], ["Transfer-Encoding", "chunked"]]), 501],
    [get("/", [], { protocol: "HTTP/1.0" }), 0], [get("/", [], { protocol: "HTTP/2" }), 400]]) {
    assert.equal(statusOf(() => filter.decide(request)), status);
  }
  assert.throws(() => filter.decide(get("/", HOST, { protocol: "HTTP/4" })), RangeError);
  filter.close();
});

test("numbers that do not fit", () => {
  for (const budget of [-1n, 1n << 64n, (1n << 64n) + 1000n]) assert.throws(() => engine.admit(example("any_any.bin"), { budget }), RangeError);
  const filter = engine.admit(example("any_any.bin"));
  for (const facts of [{ sourcePort: 65536 }, { destinationPort: -1 }, { connectionId: 1n << 64n }]) assert.throws(() => filter.decide(get("/"), facts), RangeError);
  assert.equal(statusOf(() => filter.decide(get("/"), { remoteIp: [10, 0, 0] })), -2);
  assert.equal(filter.decide(get("/"), { remoteIp: [10, 0, 0, 1], sourceAddress: "10.0.0.1:80", mtls: true, connectionId: (1n << 64n) - 1n }).isAllowed, true);
  filter.close();
});

test("refusals, limits and what a filter says of itself", () => {
  assert.throws(() => engine.admit(example("condition.bin"), { budget: 1n }), { status: 15, place: 'policy "readers": checked_condition' });
  assert.equal(statusOf(() => engine.admit(new Uint8Array())), 4);
  const filter = engine.admit(example("condition.bin"));
  const less = engine.admit(example("condition.bin"), { bounds: { fields: 10, name: 64, value: 100, method: 32, target: 20, text: 100 } });
  assert.deepEqual([filter.policies, filter.bound, filter.policyName(0), filter.policyName(1)], [1, 8258n, "readers", ""]);
  assert.ok(less.bound < filter.bound);
  assert.equal(statusOf(() => less.decide(get("/" + "a".repeat(20)))), 431);
  filter.close();
  less.close();
});

test("memory is given back", () => {
  const before = () => engine.calls.memory.buffer.byteLength;
  const filter = engine.admit(example("condition.bin"));
  filter.decide(get("/"));
  const size = before();
  for (let i = 0; i < 300; i++) {
    filter.decide(get("/about"));
    engine.admit(example("condition.bin")).close();
  }
  assert.equal(before(), size);
  filter.close();
});

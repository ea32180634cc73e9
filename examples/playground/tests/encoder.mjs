// Compares what the page makes of policies with what tools/policy makes of them: lines of tests/expected.py on standard input.
// The same bytes, or a fault at the same place; what the page refuses by itself is counted by the words of the refusal.
import { readFileSync } from "node:fs";
import { encodeYaml } from "../encoder/encode.js";
import { placeOf } from "../encoder/fault.js";

// What the tool reads, or refuses at another place, and the page refuses in words of its own.
const OWN = [
  ["files around a filter, and policies of other programs", /which this page does not read/],
  ["several documents", /a text holds one document/],
  ["anchors, aliases, tags", /^(?:an anchor|an alias|a tag) is not read here/],
  ["messages of other types in extensions", /messages of other types are left out/],
  ["the order of another encoder's fields, by @oneofs", /is for tools\/policy alone/],
  ["bytes with fields beside them", /fields beside the bytes are not read/],
  ["more than 300 levels", /nested more than \d+ levels deep/],
  ["an empty condition", /^a condition is expected here/],
];
const own = new Map(OWN.map(([name]) => [name, 0]));
const counts = { bytes: 0, faults: 0 };
const wrong = [];

function compared({ name, text, bytes, line, column, words }) {
  const made = encodeYaml(text), [fault] = made.faults;
  const place = fault && placeOf(text, fault.at), isOwn = fault && OWN.find(([, form]) => form.test(fault.message));
  if (bytes !== undefined && !fault) {
    if (Buffer.from(made.bytes).toString("hex") === bytes) counts.bytes++;
    else wrong.push(`${name}: other bytes`);
  } else if (bytes === undefined && fault && place.line === line && place.column === column) {
    counts.faults++;
  } else if (isOwn) {
    own.set(isOwn[0], own.get(isOwn[0]) + 1);
  } else if (fault) {
    wrong.push(`${name}: ${place.line}:${place.column}: ${fault.message}; the tool: ${bytes === undefined ? `${line}:${column}: ${words}` : "bytes"}`);
  } else {
    wrong.push(`${name}: no fault; the tool: ${line}:${column}: ${words}`);
  }
}

const rows = readFileSync(0, "utf8").split("\n").filter(Boolean).map((line) => JSON.parse(line));
rows.forEach((row) => {
  try {
    compared(row);
  } catch (fault) {
    wrong.push(`${row.name}: ${fault.stack}`);
  }
});
wrong.forEach((words) => console.log(`not so: ${words}`));
for (const [name, count] of own) console.log(`refused by the page alone: ${name}: ${count}`);
console.log(`encoder: ${counts.bytes} filters have the bytes of the tool, ${counts.faults} faults its places`);
if (rows.length < 1000 || counts.bytes < 1000) {
  console.log(`encoder: only ${rows.length} texts`);
  process.exitCode = 1;
}
if (wrong.length) process.exitCode = 1;

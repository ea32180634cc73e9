// Asks the module of a built playground for each filter of docs/PROFILE.md, and compares its answer with that of the page: the same refusal,
// with a place in the text and words on what to change. Argument: the folder; lines of tests/expected.py are on standard input.
import { readFileSync } from "node:fs";
import { join, resolve } from "node:path";
import { pathToFileURL } from "node:url";

const taken = (name) => import(pathToFileURL(join(resolve(process.argv[2]), name)));
const [{ Refused, Vupresal }, { module }, { encodeYaml }, { placeInText }, { refusalWords }] = await Promise.all(
  ["vupresal.js", "engine.js", "encoder/encode.js", "encoder/places.js", "page/words.js"].map(taken),
);
const engine = await Vupresal.load(module());

/** The engine's answer on a filter, as docs/PROFILE.md writes it; and what is wrong with what the page says of it. */
function answer(text) {
  const encoded = encodeYaml(text);
  if (encoded.faults.length) return [`not read: ${encoded.faults[0].message}`];
  try {
    engine.admit(encoded.bytes).close();
    return ["admitted"];
  } catch (fault) {
    if (!(fault instanceof Refused)) throw fault;
    const { at, end, node } = placeInText(fault.place, text, encoded), { title, change } = refusalWords(fault.status, fault.place, node);
    const isPlaced = at >= 0 && at < end && end <= text.length;
    return [`refused ${title}`, isPlaced ? "" : `the place ${at} to ${end}`, change ? "" : "no words on what to change"];
  }
}

const rows = readFileSync(0, "utf8").split("\n").filter(Boolean).map((line) => JSON.parse(line)).filter((row) => row.answer);
const wrong = rows.flatMap((row) => {
  const [told, ...faults] = answer(row.text);
  return [told === row.answer ? "" : `${told}, and not ${row.answer}`, ...faults].filter(Boolean).map((words) => `${row.name}: ${words}`);
});
wrong.forEach((words) => console.log(`not so: ${words}`));
console.log(`refusals: ${rows.length} filters of docs/PROFILE.md, ${wrong.length} wrong`);
process.exitCode = wrong.length || rows.length < 90 ? 1 : 0;

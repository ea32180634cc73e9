// The place that the engine names below a refusal, in the text of the policy.
import { inOrder } from "../cel/tree.js";
import { pathKey } from "./encode.js";

// as `policy "p": permissions[0].and_rules.rules[2]`, with perhaps the id of a node or the number of an unknown field after it
const PLACE = /^(?:policy "((?:[^"\\]|\\.)*)")?(?:(?:: )?([a-z_@][\w.[\]"@-]*))?(?:, node (-?\d+)|, field \d+)?$/;
const LETTERS = { n: "\n", r: "\r", t: "\t", 0: "\0" };

/** The path that the engine names, and the id of a condition's node, if there is one. */
export function enginePlace(place) {
  const found = PLACE.exec(place);
  if (!found || (found[1] === undefined && !found[2])) return { path: [], id: undefined };
  const steps = (found[2] ?? "").match(/[A-Za-z_@]\w*|-?\d+/g) ?? [], path = steps.map((step) => (/^-?\d/.test(step) ? Number(step) : step));
  const isOfMap = ["type_map", "reference_map"].includes(path.at(-2)), id = found[3] ? Number(found[3]) : isOfMap ? path.at(-1) : undefined;
  return { path: found[1] === undefined ? path : ["rules", "policies", unescaped(found[1]), ...path], id };
}

const ESCAPE = /\\(?:u\{([0-9a-f]{1,6})\}|(.))/g;
const unescaped = (name) => name.replace(ESCAPE, (_, code, letter) => (code ? String.fromCodePoint(Number.parseInt(code, 16)) : LETTERS[letter] ?? letter));

/** Where the part is in the text, and the node of the condition, if the engine names one. */
export function placeInText(place, text, encoded) {
  const { path, id } = enginePlace(place);
  if (id !== undefined) {
    const node = nodeOf(path, id, encoded.conditions);
    if (node) return node;
  }
  for (let length = path.length; length >= 0; length--) {
    const mark = encoded.marks.get(pathKey(path.slice(0, length)));
    if (mark) return { at: mark.at, end: endOf(mark, text) };
  }
  return { at: 0, end: endOf({ at: 0, end: 0 }, text) };
}

function nodeOf(path, id, conditions) {
  for (let length = path.length; length > 0; length--) {
    const known = conditions.get(pathKey(path.slice(0, length))), node = known && [...inOrder(known.tree)].find((it) => it.id === id);
    if (node) {
      const { value, places } = known.node, from = node.from ?? node.place, to = node.to ?? from + /^(?:\w+|.)?/s.exec(value.slice(from))[0].length;
      return { at: places[from], end: to > from ? places[to - 1] + 1 : places[from] + 1, node, text: value.slice(from, to) };
    }
  }
  return undefined;
}

/** The end of a part; of one that has several lines the end of the first. */
function endOf({ at, end }, text) {
  const line = /^[^\n\r]*/.exec(text.slice(at))[0].length;
  return Math.max(end > at ? Math.min(end, at + line) : at + line, at + 1);
}

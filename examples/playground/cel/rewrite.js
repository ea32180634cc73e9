// What the keys beside a text change in its tree: `dotted`, `accumulator` and `ids`, by which tools/policy keeps the bytes of other encoders.
import { ACCUMULATOR, attributeOf, inOrder, variablesOf } from "./tree.js";

/** The tree with each attribute as a variable of a dotted name. */
export function withDots(node, scope = new Set()) {
  const name = attributeOf(node, scope);
  if (name) return { kind: "ident", name, place: node.place, from: node.from, to: node.to, depth: 1, id: 0 };
  const change = (part, inside = scope) => (typeof part === "object" ? withDots(part, inside) : part);
  switch (node.kind) {
    case "select": node.operand = change(node.operand); break;
    case "call":
      node.target = node.target && change(node.target);
      node.args = node.args.map((part) => change(part));
      break;
    case "list": node.elements = node.elements.map((part) => change(part)); break;
    case "struct": node.entries.forEach((it) => Object.assign(it, { key: change(it.key), value: change(it.value) })); break;
    case "loop": {
      const inside = new Set([...scope, ...variablesOf(node), node.accumulator]);
      Object.assign(node, { range: change(node.range), init: change(node.init), condition: change(node.condition, inside), step: change(node.step, inside) });
      node.result = change(node.result, new Set([...scope, node.accumulator]));
      break;
    }
    default:
  }
  return node;
}

/** Gives the accumulators of macros another name. */
export function renameAccumulators(tree, name) {
  for (const node of inOrder(tree)) {
    if (node.kind === "loop" && node.accumulator === ACCUMULATOR) node.accumulator = name;
    else if (node.kind === "ident" && node.name === ACCUMULATOR) node.name = name;
  }
}

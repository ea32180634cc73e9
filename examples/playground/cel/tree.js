// Trees of CEL as the messages of google.api.expr.v1alpha1 hold them. A node has the place of its sign and, if it was read from a text, the
// bounds of its own text; ids come last.
import { Fault } from "../encoder/fault.js";

export const ROOTS = ["request", "source", "destination", "connection"];
export const ACCUMULATOR = "__result__";
const DEEPEST = 250, MOST_NODES = 2048, MOST_LEVELS = 64;

function made(node, place) {
  const depth = 1 + Math.max(0, ...partsOf(node).map((part) => part.depth));
  if (depth > DEEPEST) throw new Fault(place, `this is nested more than ${DEEPEST} levels deep`);
  return { ...node, place, depth, id: 0 };
}

export const constant = (type, value, place) => made({ kind: "const", type, value }, place);
export const ident = (name, place) => made({ kind: "ident", name }, place);
export const select = (operand, field, isTest, place) => made({ kind: "select", operand, field, isTest }, place);
export const call = (name, args, place, target) => made({ kind: "call", name, args, target }, place);
export const list = (elements, place) => made({ kind: "list", elements }, place);
export const entry = (key, value, place) => ({ kind: "entry", key, value, place, depth: 1 + Math.max(value.depth, key.depth ?? 0), id: 0 });
export const struct = (entries, message, place) => made({ kind: "struct", entries, message }, place);
export const loop = (parts, place) => made({ kind: "loop", ...parts }, place);

/** The names of a loop's one or two variables. */
export const variablesOf = (node) => (node.second ? [node.first, node.second] : [node.first]);

/** The nodes in a node; an entry is one too. */
export function partsOf(node) {
  switch (node.kind) {
    case "select": return [node.operand];
    case "call": return node.target ? [node.target, ...node.args] : node.args;
    case "list": return node.elements;
    case "struct": return node.entries;
    case "entry": return typeof node.key === "string" ? [node.value] : [node.key, node.value];
    case "loop": return [node.range, node.init, node.condition, node.step, node.result];
    default: return [];
  }
}

const INFIX = new Set(["_||_", "_&&_", "_<_", "_<=_", "_>=_", "_>_", "_==_", "_!=_", "@in", "_+_", "_-_", "_*_", "_/_", "_%_", "_[_]"]);

/** Whether the sign of a node is after its first part. */
function isAfterFirst({ kind, name, target }, count) {
  if (kind === "call") return Boolean(target) || (INFIX.has(name) && count === 2) || (name === "_?_:_" && count === 3);
  return kind === "select" || kind === "loop" || (kind === "entry" && count === 2);
}

/** The nodes and entries in the order of the text: an operator is where its sign is, a loop after its range. */
export function* inOrder(node) {
  const parts = partsOf(node);
  const before = isAfterFirst(node, parts.length) ? 1 : 0;
  for (const part of parts.slice(0, before)) yield* inOrder(part);
  yield node;
  for (const part of parts.slice(before)) yield* inOrder(part);
}

/** Gives the ids 1, 2, .. in the order of the text. */
export function numbered(tree) {
  let count = 0;
  for (const node of inOrder(tree)) node.id = ++count;
  return tree;
}

/** Where the text of a node begins, as far as its own places tell. */
export const startOf = (node) => Math.min(...[...inOrder(node)].map((part) => part.place));

/** Whether a tree has no more nodes and levels than the engine takes; the entries of maps do not count. */
export function isWithinLimits(tree) {
  let level = [tree], count = 0;
  for (let depth = 0; depth < MOST_LEVELS; depth++) {
    count += level.length;
    level = level.flatMap(partsOf).flatMap((part) => (part.kind === "entry" ? partsOf(part) : [part]));
    if (level.length === 0 || count > MOST_NODES) return count <= MOST_NODES;
  }
  return false;
}

/** The name of the attribute that a node is where loops bind these names, such as `request.path`; undefined if it is none. */
export function attributeOf(node, scope) {
  const isDotted = node.kind === "ident" && ROOTS.some((root) => node.name.startsWith(`${root}.`) && node.name.length > root.length + 1);
  if (isDotted) return scope.has(node.name) ? undefined : node.name;
  if (node.kind !== "select" || node.operand.kind !== "ident" || node.isTest) return undefined;
  const root = node.operand.name;
  return ROOTS.includes(root) && !scope.has(root) ? `${root}.${node.field}` : undefined;
}

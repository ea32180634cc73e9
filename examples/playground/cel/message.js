// Trees of CEL and types to their messages.
import { message } from "../encoder/wire.js";
import { typesOfEmpty } from "./types.js";
import { isWithinLimits } from "./tree.js";

const PRIMITIVES = { bool: 1, int: 2, uint: 3, double: 4, string: 5, bytes: 6 };

/** The `Expr` of a tree. */
export function treeMessage(node) {
  const [name, part] = memberOf(node);
  return message("Expr", { id: BigInt(node.id), [name]: part });
}

function memberOf(node) {
  switch (node.kind) {
    case "const": return ["const_expr", message("Constant", { [`${node.type}_value`]: node.value })];
    case "ident": return ["ident_expr", message("Ident", { name: node.name })];
    case "select": return ["select_expr", message("Select", { operand: treeMessage(node.operand), field: node.field, test_only: node.isTest })];
    case "call": return ["call_expr", message("Call", { target: node.target && treeMessage(node.target), function: node.name, args: node.args.map(treeMessage) })];
    case "list": return ["list_expr", message("CreateList", { elements: node.elements.map(treeMessage) })];
    case "struct": return ["struct_expr", message("CreateStruct", { message_name: node.message, entries: node.entries.map(entryMessage) })];
    default: return ["comprehension_expr", message("Comprehension", { iter_var: node.first, accu_var: node.accumulator, iter_var2: node.second,
      iter_range: treeMessage(node.range), accu_init: treeMessage(node.init), loop_condition: treeMessage(node.condition), loop_step: treeMessage(node.step),
      result: treeMessage(node.result) })];
  }
}

function entryMessage({ id, key, value }) {
  const name = typeof key === "string" ? { field_key: key } : { map_key: treeMessage(key) };
  return message("Entry", { id: BigInt(id), ...name, value: treeMessage(value) });
}

/** The `CheckedExpr` of a tree, with the types of its empty lists and maps. */
export function checkedMessage(tree) {
  return message("CheckedExpr", { expr: treeMessage(tree), type_map: typeEntries(tree) });
}

/** The entries of a type map that a tree gets by itself. */
export function typeEntries(tree) {
  return isWithinLimits(tree) ? typesOfEmpty(tree).map(([id, type]) => [BigInt(id), typeMessage(type)]) : undefined;
}

/** The `Type` of a type. */
export function typeMessage([name, ...parts]) {
  if (Object.hasOwn(PRIMITIVES, name)) return message("Type", { primitive: PRIMITIVES[name] });
  if (name === "dyn") return message("Type", { dyn: message("Empty") });
  const [first, second] = parts.map(typeMessage);
  if (name === "list") return message("Type", { list_type: message("ListType", { elem_type: first }) });
  return message("Type", { map_type: message("MapType", { key_type: first, value_type: second }) });
}

/** The type that a text such as `map(string, list(int))` spells, or undefined. */
export function readType(text) {
  const words = text.match(/[a-z]+|[(),]/g) ?? [];
  if (words.join("") !== text.replace(/\s+/g, "") || words.length > 1000) return undefined;
  const type = takeType(words);
  return words.length === 0 ? type : undefined;
}

function takeType(words) {
  const name = words.shift(), count = { list: 1, map: 2 }[name];
  if (name === "dyn" || Object.hasOwn(PRIMITIVES, name ?? "")) return [name];
  const parts = [];
  for (let index = 0; index < (count ?? 0); index++) {
    if (words.shift() !== (index ? "," : "(")) return undefined;
    parts.push(takeType(words));
  }
  return count && words.shift() === ")" && !parts.includes(undefined) ? [name, ...parts] : undefined;
}

// A policy as YAML to the message of a filter. Parts that have faults are left out, and each fault is kept with its place.
import { typeEntries, treeMessage, readType, typeMessage } from "../cel/message.js";
import { parse } from "../cel/parse.js";
import { renameAccumulators, withDots } from "../cel/rewrite.js";
import { inOrder, numbered } from "../cel/tree.js";
import { Fault, nearest } from "./fault.js";
import { insteadOf, otherForm } from "./instead.js";
import { isBool, readHex, readKey, readScalar } from "./scalars.js";
import { camel, isMessage, label, RESERVED, SCHEMA, SHAPES, TYPE_URLS } from "./schema.js";
import { bytesOf, message } from "./wire.js";
import { isAbsent, isText, readYaml } from "./yaml.js";

// keys beside the text of a condition, by which tools/policy keeps the bytes of other encoders
const OF_TREES = ["ids", "dotted", "accumulator"], ACCUMULATORS = ["__result__", "@result"];
const DEEPEST = 300, GREATEST = 1 << 20;
const RULES = ["action", "policies", "audit_logging_options", "auditLoggingOptions"];

/** What a text of YAML says: the filter, its bytes, the nodes of its parts by their paths, the conditions, and the faults in the order of the text. */
export function encodeYaml(text) {
  const encoding = new Encoding();
  let filter = message("Filter"), bytes;
  try {
    if (text.length > GREATEST) throw new Fault(GREATEST, `a policy has at most ${GREATEST} characters here`);
    filter = encoding.filter(readYaml(text));
    bytes = bytesOf(filter);
    if (bytes.length > GREATEST) throw new Fault(0, `the filter has more than ${GREATEST} bytes, the most that a message of the update stream has`);
  } catch (fault) {
    if (!(fault instanceof Fault)) throw fault;
    encoding.faults.push(fault);
  }
  encoding.faults.sort((one, other) => one.at - other.at);
  return { filter, bytes, marks: encoding.marks, conditions: encoding.conditions, faults: encoding.faults, isRulesAlone: encoding.isRulesAlone };
}

/** A path of names and numbers as a key. */
export const pathKey = (path) => JSON.stringify(path);

class Encoding {
  constructor() {
    this.marks = new Map();
    this.conditions = new Map();
    this.faults = [];
    this.isRulesAlone = false;
  }

  keep(fault) {
    if (!(fault instanceof Fault)) throw fault;
    this.faults.push(fault);
  }

  filter(node) {
    if (!node || isAbsent(node)) return message("Filter");
    const names = node.kind === "mapping" ? node.pairs.map(([key]) => key.value) : [];
    this.isRulesAlone = names.length > 0 && names.every((name) => RULES.includes(name));
    if (this.isRulesAlone) {
      this.marks.set(pathKey([]), node);
      return message("Filter", { rules: this.message("Rules", node, ["rules"], 2) });
    }
    const other = names.includes("rules") || names.includes("@wire") ? undefined : otherForm(names);
    if (other) throw new Fault(node.at, other);
    return this.message("Filter", node, [], 1);
  }

  message(type, node, path, depth) {
    this.marks.set(pathKey(path), node);
    if (node.kind === "scalar") return this.shortForm(type, node);
    const pairs = this.pairs(type, node);
    if (pairs.has("@wire")) return this.wire(type, pairs);
    if (depth > DEEPEST) throw new Fault(node.at, `this is nested more than ${DEEPEST} messages deep`);
    if (type === "Any") throw new Fault(node.at, "messages of other types are left out: tools/policy reads them");
    if (type === "UInt32Value") throw new Fault(node.at, "a number is expected here");
    this.checkType(type, pairs);
    if (pairs.has("@oneofs")) throw new Fault(pairs.get("@oneofs")[0].at, "`@oneofs` is for tools/policy alone: leave it out here");
    if ((type === "Expr" || type === "CheckedExpr") && pairs.has("text")) return this.condition(type, pairs, path, depth);
    return this.fields(type, pairs, path, depth);
  }

  pairs(type, node, entries = "") {
    if (node.kind !== "mapping") {
      throw new Fault(node.at, entries ? `the entries of ${entries} are expected here, as \`name: value\`` : this.expected(type));
    }
    const found = new Map();
    for (const [key, value] of node.pairs) {
      if (key.kind !== "scalar") throw new Fault(key.at, "a name is expected here");
      if (found.has(key.value)) throw new Fault(key.at, `\`${key.value}\` is here twice`, key.end);
      found.set(key.value, [key, value]);
    }
    return found;
  }

  expected(type) {
    return `the fields of ${label(type)} are expected here, ${Object.hasOwn(SHAPES, type) ? `such as \`${SHAPES[type]}\`` : "as `name: value`"}`;
  }

  fields(type, pairs, path, depth) {
    const made = message(type), members = [];
    for (const [name, [key, node]] of pairs) {
      try {
        const field = this.field(type, name, key);
        if (made.values.has(field.name)) throw new Fault(key.at, `\`${field.name}\` is here twice`, key.end);
        if (isAbsent(node) && field.type !== "Null") continue;
        if (field.isMember && members.length) {
          throw new Fault(key.at, `\`${name}\` cannot be used together with \`${members[0]}\`: ${label(type)} has one of them`, key.end);
        }
        made.values.set(field.name, this.value(field, node, [...path, field.name], depth));
        if (field.isMember) members.push(field.name);
      } catch (fault) {
        this.keep(fault);
      }
    }
    return made;
  }

  field(type, name, key) {
    const fields = SCHEMA[type], found = fields.find((field) => field.name === name || camel(field.name) === name);
    if (found) return found;
    const reserved = (RESERVED[type] ?? []).find((it) => it === name || camel(it) === name), fault = (words) => new Fault(key.at, words, key.end);
    if (reserved) {
      const instead = insteadOf(reserved);
      throw fault(`the engine does not know \`${name}\` of ${label(type)} and would refuse the filter${instead ? `: ${instead}` : ""}`);
    }
    if (name === "<<") throw fault("merge keys are not read: write out what `<<` means");
    if (type === "Filter" && SCHEMA.Policy.some((it) => it.name === name)) {
      throw fault(`\`${name}\` is a field of a policy, which is in a filter as \`rules: {policies: {NAME: {..}}}\``);
    }
    const names = [...(type === "Expr" || type === "CheckedExpr" ? ["text"] : []), ...fields.map((it) => it.name)], near = nearest(name, names);
    throw fault(`${label(type)} has no field \`${name}\`${near ? `; do you mean \`${near}\`?` : names.length ? `; it has ${names.join(", ")}` : ""}`);
  }

  value(field, node, path, depth) {
    this.marks.set(pathKey(path), node);
    if (field.key) return this.map(field, node, path, depth);
    if (!field.isList) return this.one(field, node, path, depth);
    let items = node.items;
    if (node.kind !== "list") {
      this.faults.push(new Fault(node.at, `a list is expected here, since \`${field.name}\` may hold several`, Math.max(node.end, node.at + 1)));
      items = node.kind === "mapping" && isMessage(field.type) ? [node] : [];
    }
    return this.each(items, (item, index) => this.one(field, item, [...path, index], depth));
  }

  /** What is made of each part; the faults are kept. */
  each(items, make) {
    const made = [];
    items.forEach((item, index) => {
      try {
        made.push(make(item, index));
      } catch (fault) {
        this.keep(fault);
      }
    });
    return made;
  }

  map(field, node, path, depth) {
    const taken = new Set();
    return this.each([...this.pairs("", node, field.name).values()], ([key, value]) => {
      const { value: name, wrong } = readKey(field.key, key);
      if (wrong) throw new Fault(key.at, wrong, key.end);
      if (taken.has(name)) throw new Fault(key.at, `\`${key.value}\` is here twice`, key.end);
      taken.add(name);
      this.checkIndent(field, key, value);
      return [name, this.one(field, value, [...path, typeof name === "bigint" ? Number(name) : name], depth + 1)];
    });
  }

  /** Tells an entry whose name is a field of the entries themselves: it is indented too little. */
  checkIndent({ type }, key, value) {
    if (!isMessage(type) || value.kind === "mapping") return;
    if (SCHEMA[type].some((it) => it.name === key.value || camel(it.name) === key.value)) {
      throw new Fault(key.at, `\`${key.value}\` is a field of ${label(type)}: indent it below the entry it is of`, key.end);
    }
    const shape = SHAPES[type] ?? "name: value";
    if (isAbsent(value)) throw new Fault(key.at, `\`${key.value}\` is empty: indent below it what belongs to it, such as \`${shape}\``, key.end);
  }

  one(field, node, path, depth) {
    if (isAbsent(node) && field.type !== "Null") throw new Fault(node.at, "a value is expected here");
    if (isMessage(field.type)) return this.message(field.type, node, path, depth + 1);
    this.marks.set(pathKey(path), node);
    if (node.kind !== "scalar") throw new Fault(node.at, `one value of \`${field.name}\` is expected here`);
    return this.scalar(field.type, node);
  }

  scalar(type, node) {
    const { value, wrong } = readScalar(type, node);
    if (wrong) throw new Fault(node.at, wrong, Math.max(node.end, node.at + 1));
    return value;
  }

  /** A message that is written as a scalar: a wrapped number, or the text of a type. */
  shortForm(type, node) {
    if (type === "UInt32Value") return message(type, { value: this.scalar("uint32", node) });
    if (type === "Type" && isText(node)) {
      const spelt = readType(node.value);
      if (!spelt) throw new Fault(node.at, "a type is expected, such as `int`, `list(string)` or `map(string, bool)`", node.end);
      return typeMessage(spelt);
    }
    throw new Fault(node.at, this.expected(type), Math.max(node.end, node.at + 1));
  }

  checkType(type, pairs) {
    if (!pairs.has("@type")) return;
    const [, node] = pairs.get("@type");
    pairs.delete("@type");
    const url = TYPE_URLS[type];
    if (!isText(node) || node.value !== url) throw new Fault(node.at, url ? `this message is ${url}` : "leave `@type` out here", node.end);
  }

  /** A message that is given by its bytes. */
  wire(type, pairs) {
    const [key, node] = pairs.get("@wire"), bytes = node.kind === "scalar" ? readHex(node.value) : undefined;
    if (!bytes) throw new Fault(node.at, 'bytes are expected here, as pairs of hexadecimal digits: "0a 02"');
    if (pairs.size > 1) throw new Fault(key.at, "fields beside the bytes are not read on this page: leave out one or the other", key.end);
    return { ...message(type), wire: bytes };
  }

  /** A condition that is given as a text of CEL. */
  condition(type, pairs, path, depth) {
    const [, node] = pairs.get("text"), isChecked = type === "CheckedExpr";
    if (!isText(node)) throw new Fault(node.at, "a text of CEL is expected here; put it in quotes", Math.max(node.end, node.at + 1));
    pairs.delete("text");
    const beside = this.beside(pairs, isChecked), tree = this.tree(node, beside);
    const made = isChecked ? this.fields(type, pairs, path, depth) : message(type);
    if (!tree) return made;
    this.conditions.set(pathKey(path), { node, tree });
    if (!isChecked) return treeMessage(tree);
    made.values.set("expr", treeMessage(tree));
    const types = typeEntries(tree);
    if (!made.values.has("type_map") && types) made.values.set("type_map", types);
    return made;
  }

  /** The keys beside a text that are about its tree; the faults of others are kept. */
  beside(pairs, isChecked) {
    const found = {}, fault = (node, words) => this.faults.push(new Fault(node.at, words, Math.max(node.end, node.at + 1)));
    for (const [name, [key, node]] of pairs) {
      const isOurs = OF_TREES.includes(name);
      if (isOurs) found[name] = node;
      else if (!isChecked || name === "expr") fault(key, `\`${name}\` cannot be used together with \`text\``);
      if (isOurs || !isChecked || name === "expr") pairs.delete(name);
    }
    if (found.dotted && !isBool(found.dotted)) fault(found.dotted, "true or false is expected");
    const { accumulator } = found, isName = !accumulator || (isText(accumulator) && ACCUMULATORS.includes(accumulator.value));
    if (!isName) fault(accumulator, 'the name of cel-go\'s accumulators is expected here: "@result" or __result__');
    return { isDotted: found.dotted?.value === "true", accumulator: isName ? accumulator?.value : undefined, ids: found.ids };
  }

  /** Gives the nodes of a tree the ids of a list, in the order of the text. */
  giveIds(tree, node) {
    const nodes = [...inOrder(tree)], listed = node.items ?? [];
    if (listed.length !== nodes.length) throw new Fault(node.at, `a list of ${nodes.length} numbers is expected here, one for each node of the tree`);
    listed.forEach((item, index) => {
      if (item.kind !== "scalar") throw new Fault(item.at, "a number is expected here");
      const number = Number(this.scalar("int64", item));
      if (!Number.isSafeInteger(number)) throw new Fault(item.at, "an id beyond 2^53 is not read on this page", item.end);
      nodes[index].id = number;
    });
  }

  /** The tree of a condition's text; its faults are moved to their places in the text of YAML. */
  tree(node, { isDotted, accumulator, ids }) {
    let tree;
    try {
      tree = parse(node.value);
    } catch (fault) {
      if (!(fault instanceof Fault)) throw fault;
      const at = node.places[fault.at] ?? node.end;
      this.faults.push(new Fault(at, fault.message, Math.max(node.places[fault.end] ?? node.end, at + 1)));
      return undefined;
    }
    if (isDotted) tree = numbered(withDots(tree));
    if (accumulator) renameAccumulators(tree, accumulator);
    try {
      if (ids) this.giveIds(tree, ids);
    } catch (fault) {
      this.keep(fault);
    }
    return tree;
  }
}

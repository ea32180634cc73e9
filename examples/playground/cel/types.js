// The types of empty lists and maps, worked out from what is around them: the other side of an operator, the branch or the elements beside
// it, a loop over it. What contradicts itself is left alone, since the engine tells it. A type is a list: its name, then its parts.
import { attributeOf, inOrder, variablesOf } from "./tree.js";

const [BOOL, INT, UINT, DOUBLE, STRING, BYTES] = ["bool", "int", "uint", "double", "string", "bytes"].map((name) => [name]);
const CONSTANTS = { bool: BOOL, int64: INT, uint64: UINT, double: DOUBLE, string: STRING, bytes: BYTES };
const STRINGS = "request.path request.url_path request.host request.scheme request.method request.referer request.useragent request.id request.protocol " +
  "request.query source.address destination.address connection.requested_server_name connection.tls_version connection.subject_peer_certificate " +
  "connection.dns_san_peer_certificate connection.uri_san_peer_certificate";
/** The attributes of the profile with their types. */
export const ATTRIBUTES = { ...Object.fromEntries(STRINGS.split(" ").map((name) => [name, STRING])), "source.port": INT, "destination.port": INT,
  "connection.mtls": BOOL, "connection.id": UINT, "request.headers": ["map", STRING, STRING] };
const SAME_TO_BOOL = ["_==_", "_!=_", "_<_", "_<=_", "_>=_", "_>_"], SAME_TO_SAME = ["_+_", "_-_", "_*_", "_/_", "_%_", "-_"];
const OF_BOOLS = ["_&&_", "_||_", "!_", "@not_strictly_false", "__not_strictly_false__"], MEMBERSHIP = ["@in", "_in_", "in"];
const RESULTS = { size: INT, contains: BOOL, startsWith: BOOL, endsWith: BOOL, int: INT, uint: UINT, string: STRING, bytes: BYTES };
const OPERANDS = { contains: STRING, startsWith: STRING, endsWith: STRING, bytes: STRING, int: UINT, uint: INT };

/** A type that is not known yet; it may become another one. */
const unknown = () => ({ standsFor: undefined });

function resolved(type) {
  let it = type;
  while (!Array.isArray(it) && it.standsFor) it = it.standsFor;
  return it;
}

/** The type with nothing unknown in it, or undefined. */
function known(type) {
  const it = resolved(type);
  if (!Array.isArray(it)) return undefined;
  const parts = it.slice(1).map(known);
  return parts.includes(undefined) ? undefined : [it[0], ...parts];
}

function occurs(open, type) {
  const it = resolved(type);
  return Array.isArray(it) ? it.slice(1).some((part) => occurs(open, part)) : it === open;
}

/** Makes two types one, as far as they do not contradict each other. */
function tie(one, other) {
  const left = resolved(one), right = resolved(other);
  if (left === right) return;
  if (!Array.isArray(left)) {
    if (!occurs(left, right)) left.standsFor = right;
  } else if (!Array.isArray(right)) {
    tie(right, left);
  } else if (left[0] === right[0]) {
    left.slice(1).forEach((part, index) => tie(part, right[index + 1]));
  }
}

/** The empty lists and maps of a tree that have a type by what is around them, by ascending ids. */
export function typesOfEmpty(tree) {
  const inference = new Inference();
  inference.typeOf(tree, new Map());
  inference.settle();
  const found = [...inOrder(tree)].filter((node) => inference.empty.has(node)).map((node) => [node.id, known(inference.empty.get(node))]);
  return found.filter(([, type]) => type).sort(([one], [other]) => one - other);
}

/** The type of a node by itself as a text, such as `list(int)`; undefined where it takes a loop's variables or what is around it. */
export function typeText(node) {
  const text = ([name, ...parts]) => (parts.length ? `${name}(${parts.map(text).join(", ")})` : name), type = known(new Inference().typeOf(node, new Map()));
  return type && text(type);
}

class Inference {
  constructor() {
    this.empty = new Map();
    this.waiting = [];
  }

  /** Asks what waits for a container's kind again until nothing new is learnt. */
  settle() {
    for (let before = Infinity; this.waiting.length < before;) {
      const asked = this.waiting;
      before = asked.length;
      this.waiting = [];
      asked.forEach((ask) => this.whenKnown(ask));
    }
  }

  whenKnown(ask) {
    if (!ask()) this.waiting.push(ask);
  }

  /** The type of a node where the loops bind these names to these types. */
  typeOf(node, scope) {
    const attribute = attributeOf(node, scope);
    if (attribute) return ATTRIBUTES[attribute] ?? unknown();
    switch (node.kind) {
      case "const": return CONSTANTS[node.type] ?? unknown();
      case "ident": return scope.get(node.name) ?? unknown();
      case "select": return this.select(node, scope);
      case "call": return this.call(node, scope);
      case "list": return this.list(node, scope);
      case "struct": return this.struct(node, scope);
      default: return this.loop(node, scope);
    }
  }

  select(node, scope) {
    const value = unknown();
    tie(this.typeOf(node.operand, scope), ["map", STRING, value]);
    return node.isTest ? BOOL : value;
  }

  list(node, scope) {
    const element = unknown(), type = ["list", element];
    node.elements.forEach((part) => tie(element, this.typeOf(part, scope)));
    if (node.elements.length === 0) this.empty.set(node, type);
    return type;
  }

  struct(node, scope) {
    const key = unknown(), value = unknown(), type = ["map", key, value];
    for (const it of node.entries) {
      if (typeof it.key === "string") this.typeOf(it.value, scope);
      else {
        tie(key, this.typeOf(it.key, scope));
        tie(value, this.typeOf(it.value, scope));
      }
    }
    if (node.message) return unknown();
    if (node.entries.length === 0) this.empty.set(node, type);
    return type;
  }

  call({ name, args, target }, scope) {
    const types = (target ? [target, ...args] : args).map((part) => this.typeOf(part, scope));
    if (SAME_TO_BOOL.includes(name) || SAME_TO_SAME.includes(name)) {
      types.slice(1).forEach((type) => tie(types[0], type));
      return SAME_TO_BOOL.includes(name) ? BOOL : types[0] ?? unknown();
    }
    if (OF_BOOLS.includes(name)) {
      types.forEach((type) => tie(type, BOOL));
      return BOOL;
    }
    if (name === "_?_:_" && types.length === 3) {
      tie(types[0], BOOL);
      tie(types[1], types[2]);
      return types[1];
    }
    if (name === "_[_]" && types.length === 2) return this.indexed(...types);
    if (MEMBERSHIP.includes(name) && types.length === 2) {
      this.member(...types);
      return BOOL;
    }
    if (Object.hasOwn(OPERANDS, name)) types.forEach((type) => tie(type, OPERANDS[name]));
    return Object.hasOwn(RESULTS, name) ? RESULTS[name] : unknown();
  }

  /** What a list or a map holds at an index or a key. */
  indexed(container, index, result = unknown()) {
    this.whenKnown(() => {
      const type = resolved(container);
      if (!Array.isArray(type)) return false;
      if (type[0] === "list") {
        tie(index, INT);
        tie(type[1], result);
      } else if (type[0] === "map") {
        tie(index, type[1]);
        tie(type[2], result);
      }
      return true;
    });
    return result;
  }

  member(item, container) {
    this.whenKnown(() => {
      const type = resolved(container);
      if (!Array.isArray(type)) return false;
      if (type[0] === "list" || type[0] === "map") tie(item, type[1]);
      return true;
    });
  }

  loop(node, scope) {
    const walked = this.typeOf(node.range, scope), variables = new Map(variablesOf(node).map((name) => [name, unknown()]));
    if (node.second) this.indexed(walked, variables.get(node.first), variables.get(node.second));
    else this.member(variables.get(node.first), walked);
    const accumulator = this.typeOf(node.init, scope), inside = new Map([...scope, [node.accumulator, accumulator], ...variables]);
    tie(this.typeOf(node.condition, inside), BOOL);
    tie(accumulator, this.typeOf(node.step, inside));
    return this.typeOf(node.result, new Map([...scope, [node.accumulator, accumulator]]));
  }
}

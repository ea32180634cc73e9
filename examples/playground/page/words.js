// What refusals mean, and what to change.
import { ROOTS } from "../cel/tree.js";
import { ATTRIBUTES, typeText } from "../cel/types.js";
import { nearest } from "../encoder/fault.js";
import { insteadOf } from "../encoder/instead.js";
import { enginePlace } from "../encoder/places.js";

/** The name of each refusal, what it means, and what to change. */
const REFUSALS = {
  1: ["BadWire", "the bytes are not whole fields", "Write the fields instead of `@wire`."],
  2: ["BadText", "a text is not UTF-8", "Write the text itself instead of `@wire`."],
  3: ["UnknownField", "a field is unknown, or has the wrong wire type", "Leave the field out: the engine refuses what it does not know."],
  4: ["Missing", "a required part is missing",
    "Write the part that is missing: a filter has `rules`, a policy has `permissions` and `principals`, and a list of rules is not empty."],
  5: ["OutOfRange", "a value is outside its range", "Write a value within its range."],
  6: ["Unsupported", "this part is not supported", "Leave it out, or write it in another way."],
  7: ["BothConditions", "a policy has both `condition` and `checked_condition`", "Keep one of the two."],
  8: ["TooLarge", "a limit of size, number, depth or visits is exceeded",
    "Write less: fewer policies or levels, or a smaller condition. If loops cause it, raise the visits."],
  9: ["UnknownName", "the engine has no such name", "Write an attribute or a function that the engine has."],
  10: ["NoOverload", "this function or operator does not take these types", "Change one side, so that the types fit."],
  11: ["BadTypeEntry", "the type map says another type than the one found", "Correct or leave out this entry of `type_map`."],
  12: ["BadReference", "the reference map names something else", "Leave out this entry of `reference_map`."],
  13: ["NotBool", "a condition has to be true or false, and this is another type", 'Compare it with something, such as `request.method == "GET"`.'],
  14: ["NeedsType", "nothing tells the type of this empty list or map",
    "In YAML write `checked_condition` with `type_map: {2: list(int)}` beside `text`, or compare the list with one that has elements."],
  15: ["TooCostly", "the conditions may take more steps than the budget has",
    "Raise the budget below, or test less: loops over headers, and long texts, take most steps."],
  19: ["Memory", "memory ran out", "Reload the page."],
  "-2": ["OutOfRange", "a limit or a fact is outside of its range", "Correct the number."],
};

// What operators and functions take, for those that were given something else.
const TAKES = {
  "_==_": "`==` takes two of one type",
  "_!=_": "`!=` takes two of one type",
  "_<_": "`<` takes two ints, uints, strings, bytes or bools",
  "_&&_": "`&&` takes two bools",
  "_||_": "`||` takes two bools",
  "!_": "`!` takes a bool",
  "-_": "`-` takes an int",
  "_+_": "`+` takes two ints, uints, strings, bytes or lists of one type",
  "_[_]": "an index is a key of the map, or an int for a list",
  "@in": "`in` takes an element and a list of its type, or a key and a map",
  "_?_:_": "`?` takes a bool, and two values of one type",
  size: "`size` takes a string, bytes, a list or a map",
  startsWith: "`startsWith` takes two strings",
  endsWith: "`endsWith` takes two strings",
  contains: "`contains` takes two strings",
  int: "`int` takes a uint: no text is read as a number",
  uint: "`uint` takes an int: no text is read as a number",
  string: "`string` takes an int, a uint or bytes",
  bytes: "`bytes` takes a string",
};
const COMPARED = ["_<=_", "_>_", "_>=_"], NUMBERS = ["_-_", "_*_", "_/_", "_%_"];
const NO_TIME = "there is no time";
const FUNCTIONS = ["size", "contains", "startsWith", "endsWith", "int", "uint", "string", "bytes", "has", "all", "exists", "exists_one", "map", "filter"];
const BLOCKS = "conditions have no addresses: in YAML write the principal `remote_ip` or `direct_remote_ip`";
const CLAIM = 'the engine reads no tokens: let the front put the claim into a header, such as `request.headers["x-claim"]`';

// What to write instead of names of other engines.
const INSTEAD = {
  matches: "there are no regular expressions: write `startsWith`, `endsWith`, `contains`, `==` or `in`",
  len: "write `size(x)`",
  length: "write `size(x)`",
  count: "write `size(x)`",
  timestamp: NO_TIME,
  duration: NO_TIME,
  "request.time": NO_TIME,
  double: "there are no doubles: write a whole number",
  split: "no text is split: write `startsWith`, `endsWith` or `contains`",
  get: 'ask for the key first: `"x" in request.headers && request.headers["x"] == "a"`',
  transformMap: "write `transformList`: loops make no maps",
  client: BLOCKS,
  ip: BLOCKS,
  jwt: CLAIM,
  claims: CLAIM,
  token: CLAIM,
  user: CLAIM,
  "request.auth": CLAIM,
  lowerAscii: "texts are not folded: in YAML use a matcher with `ignore_case`",
  response: "a filter sees only the request",
};

/** What the engine refuses: words for people, with the name and number, and what to change. */
export function refusalWords(status, place, node) {
  const [name, means, change] = REFUSALS[status] ?? ["", "the engine refuses this", ""];
  return { title: `${status} ${name}`.trim(), means, change: hint(status, place, node) ?? change };
}

const NOT_EMPTY = "It may not be empty: write a text, or `any: true` for each request.";

// What values are taken of fields, by the last name of the place.
const VALUES = {
  ...Object.fromEntries(["prefix", "suffix", "contains", "prefix_match", "suffix_match", "contains_match"].map((name) => [name, NOT_EMPTY])),
  any: "It may only be true: leave the rule out, or write `not_rule` or `not_id` around it.",
  address_prefix: "Write an address such as 10.0.0.0 or 2001:db8::, without leading zeros, and without a dotted part in IPv6.",
  prefix_len: "It is at most 32 for IPv4, and 128 for IPv6.",
  destination_port: "A port is at most 65535.",
  destination_port_range: "Both are from 0 to 65536, and `start` is below `end`.",
  range_match: "`start` is below `end`.",
  action: "Write ALLOW, DENY or LOG.",
};

function hint(status, place, node) {
  const last = enginePlace(place).path.findLast((step) => Object.hasOwn(VALUES, step));
  if (status === 5 && last) return VALUES[last];
  if (status === 6) {
    const instead = [...enginePlace(place).path].reverse().map((step) => insteadOf(String(step))).find(Boolean);
    if (instead) return sentence(instead);
    const isNull = node?.kind === "const" && node.type === "null";
    if (node?.kind === "const") return isNull ? "Ask for a key with `in` or `has`: there is no null." : "Write a whole number: there are no doubles.";
  }
  if (status === 9 && ["ident", "select", "call"].includes(node?.kind)) return sentence(unknownName(node));
  if (status === 10 && node?.kind === "call") return [typesOf(node), sentence(takes(node.name)), withoutQuotes(node), asked(node)].filter(Boolean).join(" ");
  if (status === 10 && (node?.kind === "list" || node?.kind === "struct")) return "All elements of a list, and all keys or values of a map, have one type.";
  if (status === 10 && node?.kind === "select") return "Only a map with keys of type string has fields.";
  return undefined;
}

/** The types of two operands, if they tell them by themselves. */
function typesOf({ name, args, target }) {
  const types = (target ? [target, ...args] : args).map(typeText);
  if (types.includes(undefined) || types.length > 2 || name === "!_") return "";
  return types.length === 2 ? `On the left is ${article(types[0])}, on the right ${article(types[1])}.` : `This is ${article(types[0])}.`;
}

const article = (type) => (type === "bytes" ? "bytes" : `${type === "int" ? "an" : "a"} ${type}`);

/** What to write for a number in quotes that is compared with a number. */
function withoutQuotes({ args }) {
  const text = args.find((part) => part.kind === "const" && part.type === "string" && /^-?\d+$/.test(part.value));
  const number = text && args.map(typeText).find((type) => type === "int" || type === "uint");
  return number ? `Write ${text.value}${number === "uint" ? "u" : ""} without quotes.` : "";
}

/** What to write for a key or an element that is asked for by `contains`. */
function asked({ name, target }) {
  const type = name === "contains" && target ? typeText(target) ?? "" : "";
  return /^(?:map|list)/.test(type) ? "To ask for a key or an element write `in`, such as `\"x-a\" in request.headers`." : "";
}

function takes(name) {
  if (COMPARED.includes(name)) return TAKES["_<_"].replace("<", name.slice(1, -1));
  return NUMBERS.includes(name) ? `\`${name.slice(1, -1)}\` takes two ints or two uints` : TAKES[name] ?? "change the operands";
}

function unknownName(node) {
  const name = node.kind === "select" && node.operand.kind === "ident" ? `${node.operand.name}.${node.field}` : node.name ?? node.field ?? "";
  if (Object.hasOwn(INSTEAD, name)) return INSTEAD[name];
  if (node.kind === "call") return `the engine has no function \`${name}\`${meant(name, FUNCTIONS)}`;
  if (node.kind === "select" && node.isTest) return `\`has(${name})\` is left out: an attribute that is absent is an error, and counts as no match`;
  if (ROOTS.includes(name)) return `\`${name}\` is no value by itself: write one of its attributes, ${fieldsOf(name).join(", ")}`;
  const whole = Object.keys(ATTRIBUTES).find((attribute) => attribute.endsWith(`.${name}`));
  if (whole) return `did you mean \`${whole}\`?`;
  const [root, field] = name.split(".");
  if (field === undefined) return `the engine has no variable \`${name}\`: attributes begin with ${ROOTS.join(", ")}, and a text is in quotes`;
  return `\`${root}\` has no \`${field}\`${meant(field, fieldsOf(root)) || `: it has ${fieldsOf(root).join(", ")}`}`;
}

const fieldsOf = (root) => Object.keys(ATTRIBUTES).filter((name) => name.startsWith(`${root}.`)).map((name) => name.slice(root.length + 1));

function meant(name, names) {
  const near = nearest(name, names);
  return near ? `: did you mean \`${near}\`?` : "";
}

function sentence(words) {
  const first = words.startsWith("`") ? words : words[0].toUpperCase() + words.slice(1);
  return /[.?]$/.test(first) ? first : `${first}.`;
}

/** What to say of a request that has no verdict. */
export const NO_VERDICT = {
  400: ["400, the request is malformed",
    "Look for a method that is no word, a path without `/` at its start, a header's name with a space, no `Host` or two, or a control character."],
  431: ["431, the request is outside the limits", "At most 61 headers, names of 128 bytes, values and paths of 4096, a method of 32, and facts of 1024."],
  501: ["501, the request has a Transfer-Encoding", "Leave this header out: the engine does not skip such a body."],
  [-2]: ["a fact is outside of its range", "Correct the ports and addresses of the connection."],
  19: ["memory ran out", "Reload the page."],
};

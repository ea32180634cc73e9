// Why a verdict is what it is. The module tells the policy that decides, and no more. So each part of a policy is put to the engine as a
// filter of its own, with the same request: what is said here of a part is the engine's own answer on that part.
import { checkedMessage } from "../cel/message.js";
import { parse } from "../cel/parse.js";
import { pathKey } from "../encoder/encode.js";
import { Fault } from "../encoder/fault.js";
import { filterOf, policyAround } from "../encoder/condition.js";
import { SCHEMA } from "../encoder/schema.js";
import { bytesOf, message } from "../encoder/wire.js";
import { Refused } from "../vupresal.js";

const MOST_ASKED = 3000, MOST_BUDGET = 100_000_000n, DEEPEST = 6;
export const YES = "yes", NO = "no", ERROR = "error", UNKNOWN = "unknown";
const SETS = ["and_rules", "or_rules", "and_ids", "or_ids"], NEGATIONS = ["not_rule", "not_id"];

/** Asks the engine about parts of a filter, for one request. */
export class Explainer {
  constructor(engine, request, facts, visits) {
    Object.assign(this, { engine, request, facts, visits, left: MOST_ASKED });
  }

  /** Whether a policy matches the request; undefined if the engine cannot say it of this part alone. */
  isMatch(policy) {
    if (this.left-- <= 0) return undefined;
    let filter;
    try {
      filter = this.engine.admit(bytesOf(filterOf("p", policy)), { budget: MOST_BUDGET, bounds: { visits: this.visits } });
      return filter.decide(this.request, this.facts).number !== undefined;
    } catch (fault) {
      if (!(fault instanceof Refused)) throw fault;
      return undefined;
    } finally {
      filter?.close();
    }
  }

  answer(policy) {
    const isMatch = this.isMatch(policy);
    return isMatch === undefined ? UNKNOWN : isMatch ? YES : NO;
  }

  /** All policies in the order in which they are tried, each with its parts. */
  policies({ filter, conditions }) {
    const named = filter.values.get("rules")?.values?.get("policies") ?? [];
    return [...named].sort(([one], [other]) => compared(one, other)).map(([name, policy]) => this.policy(name, policy, conditions));
  }

  policy(name, policy, conditions) {
    const parts = [];
    if (!policy.values) return { name, answer: this.answer(policy), parts };
    for (const [field, type] of [["permissions", "Permission"], ["principals", "Principal"]]) {
      const rules = (policy.values.get(field) ?? []).map((rule) => this.rule(type, rule));
      parts.push({ title: field, answer: either(rules), parts: rules });
    }
    for (const field of ["checked_condition", "condition"]) {
      if (policy.values.has(field)) parts.push(this.condition(field, policy.values.get(field), conditions.get(pathKey(["rules", "policies", name, field]))));
    }
    return { name, answer: this.answer(policy), parts };
  }

  rule(type, rule) {
    const any = { permissions: [message("Permission", { any: true })], principals: [message("Principal", { any: true })] };
    const asked = message("Policy", { ...any, [type === "Permission" ? "permissions" : "principals"]: [rule] });
    const [member] = rule.values.keys(), answer = this.answer(asked);
    if (SETS.includes(member)) {
      const [inner] = [...rule.values.get(member).values.values()];
      return { title: `${member} (${member.startsWith("and") ? "all of" : "one of"})`, answer, parts: (inner ?? []).map((part) => this.rule(type, part)) };
    }
    if (NEGATIONS.includes(member)) return { title: member, answer, parts: [this.rule(type, rule.values.get(member))] };
    return { code: flow(rule).slice(1, -1), answer, parts: [] };
  }

  condition(field, given, written) {
    if (written) return { title: "condition", ...this.tree(written.tree, written.node.value, 0) };
    return { title: "condition, as a tree", answer: this.answer(policyAround(given, field)), parts: [] };
  }

  /** A part of a condition's text: true, false, or an error if neither it nor its negation matches. */
  tree(node, text, depth) {
    const code = text.slice(node.from, node.to), answer = this.value(code);
    const parts = answer === UNKNOWN || depth >= DEEPEST ? [] : operandsOf(node);
    return { code, answer, isValue: true, parts: parts.map((part) => this.tree(part, text, depth + 1)).filter((part) => part.answer !== UNKNOWN) };
  }

  value(code) {
    try {
      const isTrue = this.isMatch(policyAround(checkedMessage(parse(code))));
      if (isTrue !== false) return isTrue ? YES : UNKNOWN;
      const isFalse = this.isMatch(policyAround(checkedMessage(parse(`!(${code})`))));
      return isFalse === undefined ? UNKNOWN : isFalse ? NO : ERROR;
    } catch (fault) {
      if (!(fault instanceof Fault)) throw fault;
      return UNKNOWN;
    }
  }
}

/** The operands of `&&`, `||`, `!` and `?:`; those of a chain are side by side. */
function operandsOf(node) {
  if (node.kind !== "call" || node.target) return [];
  if (["!_", "_?_:_"].includes(node.name)) return node.args;
  return ["_&&_", "_||_"].includes(node.name) ? node.args.flatMap((part) => (part.name === node.name && !part.isInParentheses ? operandsOf(part) : [part])) : [];
}

const either = (parts) => (parts.some((part) => part.answer === YES) ? YES : parts.some((part) => part.answer === UNKNOWN) ? UNKNOWN : NO);

/** The order of the engine: that of the bytes. */
function compared(one, other) {
  const [left, right] = [one, other].map((name) => new TextEncoder().encode(name));
  const at = left.findIndex((byte, index) => byte !== right[index]);
  return at < 0 ? left.length - right.length : left[at] - (right[at] ?? -1);
}

// texts that need no quotes, and words that do
const PLAIN = /^(?:[A-Za-z_/][\w./@+-]*|\d+\.\d+\.\d+\.\d+)$/;
const TAKEN = /^(?:y|n|yes|no|on|off|true|false|null)$/i;

/** A message on one line of YAML. */
export function flow(value) {
  if (Array.isArray(value)) return `[${value.map(flow).join(", ")}]`;
  if (typeof value === "string") return PLAIN.test(value) && !TAKEN.test(value) ? value : JSON.stringify(value);
  if (typeof value !== "object") return String(value);
  if (value.type === "UInt32Value") return String(value.values.get("value") ?? 0);
  const fields = SCHEMA[value.type].filter((field) => value.values?.has(field.name));
  return `{${fields.map((field) => `${field.name}: ${flow(value.values.get(field.name))}`).join(", ")}}`;
}

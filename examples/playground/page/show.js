// What the page shows of an answer: the verdict, the reasons, the costs and the faults.
import { placeOf } from "../encoder/fault.js";
import { ERROR, NO, UNKNOWN, YES } from "./explain.js";

/** An element with these properties and parts. */
export function made(tag, properties = {}, ...parts) {
  const element = Object.assign(document.createElement(tag), properties);
  element.append(...parts.filter((part) => part !== undefined));
  return element;
}

/** Words with code between back quotes. */
function withCode(words) {
  return words.split(/(`[^`]+`)/).map((part) => (/^`.+`$/.test(part) ? made("code", {}, part.slice(1, -1)) : part));
}

const figure = (number) => String(number).replace(/\B(?=(?:\d{3})+$)/g, ",");

/** The verdict in a word and a sentence; its kind is allow, deny, stop, or nothing. */
export function showVerdict(to, kind, word, words) {
  const parts = [made("strong", {}, word), made("span", {}, ...withCode(words))];
  // the same words are not read out again
  if (to.textContent !== parts.map((part) => part.textContent).join("")) to.replaceChildren(...parts);
  to.className = kind;
}

/** The faults, each with its place, what is wrong and what to change; `go` shows a place. */
export function showFaults(to, faults, text, go) {
  if (faults.length === 0) {
    to.replaceChildren();
    return;
  }
  const items = faults.map((fault) => {
    const { line, column } = placeOf(text, fault.at);
    const button = made("button", { type: "button", onclick: () => go(fault) }, `Line ${line}, column ${column}`);
    const what = made("p", {}, fault.title ? made("strong", {}, `${fault.title}: `) : undefined, ...withCode(fault.words));
    const change = fault.change ? made("p", {}, ...withCode(fault.change)) : undefined;
    const where = fault.place ? made("p", { className: "hint" }, "The engine names this part: ", made("code", {}, fault.place)) : undefined;
    return made("li", { className: "fault" }, button, what, change, where);
  });
  const count = faults.length === 1 ? "1 fault" : `${faults.length} faults`;
  to.replaceChildren(made("p", { className: "wrong" }, count), made("ul", {}, ...items));
}

const WORDS = { [YES]: "matches", [NO]: "no match", [UNKNOWN]: "not asked alone", [ERROR]: "error" };
const VALUES = { [YES]: "true", [NO]: "false", [UNKNOWN]: "not asked alone", [ERROR]: "error" };

const TRIED = "Policies are tried in this order. Each part was put to the engine as a filter of its own, with the same request.";
const OF_ERRORS = "An error counts as no match. It comes from an attribute, header or fact that is absent, a sum that does not fit, or a division by 0.";
const hint = (words) => made("p", { className: "hint" }, words);

/** The policies with their parts, and whether each matches; the one that decides is open. */
export function showWhy(to, policies, decides) {
  if (policies.length === 0) {
    to.replaceChildren(hint("The filter has no policies."));
    return;
  }
  const items = policies.map((policy) => {
    const isFirst = policy.name === decides, part = { ...policy, title: `policy "${policy.name}"`, note: isFirst ? "decides" : "" };
    return made("li", {}, branch(part, policies.length === 1 || isFirst));
  });
  to.replaceChildren(hint(TRIED), made("ul", { className: "tree" }, ...items), ...(policies.some(hasErrorIn) ? [hint(OF_ERRORS)] : []));
}

const hasErrorIn = (part) => part.answer === ERROR || part.parts.some(hasErrorIn);

function branch(part, isOpen) {
  const kind = { [YES]: "yes", [ERROR]: "error" }[part.answer] ?? "", word = (part.isValue ? VALUES : WORDS)[part.answer];
  const line = [made("span", { className: `is ${kind}` }, word), " "];
  if (part.title) line.push(part.title, " ");
  if (part.code) line.push(made("code", {}, part.code));
  if (part.note) line.push(" ", made("strong", {}, part.note));
  if (part.parts.length === 0) return made("div", {}, ...line);
  const inner = part.parts.map((it) => made("li", {}, branch(it, true)));
  return made("details", { open: isOpen }, made("summary", {}, ...line), made("ul", {}, ...inner));
}

const OF_COSTS = "Steps: an upper limit for any request. Visits: the work of finding it, as the least number with which the engine takes the filter.";

/** A row of a table: its name, and two numbers. */
function row(name, steps, visits) {
  const number = (it) => made("td", { className: "number" }, figure(it));
  return made("tr", {}, made("th", { scope: "row" }, name), number(steps), number(visits));
}

/** The bound and the visits of the filter, beside their limits, and those of each policy. */
export function showCost(to, cost, limits, policies) {
  if (!cost || cost.bound === 0n) {
    to.replaceChildren(hint(cost ? "The filter has no conditions, so they take no steps." : "It is known once the engine takes the conditions."));
    return;
  }
  const column = (words, className) => made("th", { scope: "col", className }, words);
  const head = made("tr", {}, column("Part", ""), column("Steps at most", "number"), column("Visits", "number"));
  const rows = [row("all conditions", cost.bound, cost.visits), row("limit", limits.budget, limits.visits)];
  if (policies.length > 1) rows.push(...policies.map((it) => row(`policy "${it.name}"`, it.bound, it.visits)));
  to.replaceChildren(made("div", { className: "scrolls" }, made("table", {}, made("thead", {}, head), made("tbody", {}, ...rows))), hint(OF_COSTS));
}

// The page: it reads the policy and the request, asks the engine, and shows the answer. All of it is done here, in the reader's browser.
import { encodeCondition } from "../encoder/condition.js";
import { encodeYaml } from "../encoder/encode.js";
import { placeOf } from "../encoder/fault.js";
import { placeInText } from "../encoder/places.js";
import { module } from "../engine.js";
import { Refused, Vupresal } from "../vupresal.js";
import { Editor } from "./editor.js";
import { Explainer } from "./explain.js";
import { costOf, costsOfPolicies } from "./measure.js";
import { addFacts, fill, readForm } from "./request.js";
import { SAMPLES } from "./samples.js";
import { made, showCost, showFaults, showVerdict, showWhy } from "./show.js";
import { NO_VERDICT, refusalWords } from "./words.js";

const PAUSE = 150, TOO_COSTLY = 15, MOST_BUDGET = 100_000_000n, MOST_VISITS = (1n << 63n) - 1n;
const OLD_BROWSER = "This browser cannot run the engine, which needs WebAssembly with memory of 64 bits. Chromium 133 and Firefox 134, or later ones, have it.";
const PROVED = "The engine in this page is the proved one.";
const UNPROVED = "The engine in this page is compiled from the sources of the proved one, without their proof, and has checks at run time instead.";
const at = (id) => document.getElementById(id);
const editor = new Editor(at("text"), at("marks")), form = at("request");
// the text of each form of a policy, kept while the other one is shown
const texts = {};
let engine, waiting;

const chosenForm = () => document.querySelector("input[name=form]:checked").value;

/** Shows an example: its text, and its request. */
function showSample(sample) {
  editor.text = sample.text;
  fill(form, sample.request);
  at("facts").open = Object.keys(sample.request.facts ?? {}).length > 0;
  answer();
}

function showForm() {
  const name = chosenForm(), isCel = name === "cel";
  at("action-label").hidden = !isCel;
  at("text-label").textContent = isCel ? "Condition in CEL" : "Filter as YAML";
  at("example").replaceChildren(...SAMPLES[name].map((sample, index) => made("option", { value: String(index) }, sample.name)));
  if (texts[name] === undefined) {
    showSample(SAMPLES[name][0]);
    return;
  }
  nameOwnText();
  editor.text = texts[name];
  answer();
}

/** Says that the text is no example any more. */
function nameOwnText() {
  if (!at("example").querySelector("option[value='']")) at("example").prepend(made("option", { value: "" }, "your text"));
  at("example").value = "";
}

/** The limits of the filter; a field that is wrong says so, and has its usual number. */
function limits() {
  const found = {};
  for (const [name, usual, most] of [["budget", 1_000_000n, MOST_BUDGET], ["visits", 4_194_304n, MOST_VISITS]]) {
    const text = at(name).value.trim(), isRight = /^\d{1,19}$/.test(text) && BigInt(text) >= 1n && BigInt(text) <= most;
    found[name] = isRight ? BigInt(text) : usual;
    tellField(at(name), at(`${name}-wrong`), isRight ? "" : `Write a number from 1 to ${most}. Until then it is ${usual}.`);
  }
  return found;
}

function tellField(field, to, words) {
  field.setAttribute("aria-invalid", String(words !== ""));
  if (to.textContent !== words) to.textContent = words;
}

/** The filter that the engine admits, or the faults of the policy with their places. */
function admitted(text, encoded, { budget, visits }) {
  if (encoded.faults.length) return { faults: encoded.faults.map((fault) => ({ at: fault.at, end: fault.end, words: fault.message })) };
  try {
    return { filter: engine.admit(encoded.bytes, { budget, bounds: { visits } }), faults: [] };
  } catch (fault) {
    if (!(fault instanceof Refused)) throw fault;
    const place = placeInText(fault.place, text, encoded), { title, means, change } = refusalWords(fault.status, fault.place, place.node);
    const part = place.text && place.text.length <= 60 ? ` (\`${place.text.replaceAll("`", "'")}\`)` : "";
    return { status: fault.status, faults: [{ ...place, title, words: `${means}${part}.`, change, place: fault.place }] };
  }
}

/** Shows the answer; where the engine stops on the filter, it is started again. */
function answer() {
  clearTimeout(waiting);
  if (!engine) return;
  try {
    judge();
  } catch (fault) {
    if (!(fault instanceof WebAssembly.RuntimeError)) throw fault;
    showVerdict(at("verdict"), "stop", "No verdict", "The engine stopped on this filter, and was started again. Write a smaller one.");
    engine = undefined;
    Vupresal.load(module()).then((again) => (engine = again));
  }
}

/** Reads everything, asks the engine, and shows what it says. */
function judge() {
  const text = editor.text, limit = limits(), isCel = chosenForm() === "cel";
  const encoded = isCel ? encodeCondition(text, at("action").value) : encodeYaml(text);
  texts[chosenForm()] = text;
  const { request, facts, wrong, names } = readForm(form);
  names.forEach((name) => tellField(form.elements[name], at(`${name}-wrong`), wrong[name] ?? ""));
  countFacts(facts);
  const { filter, status, faults } = admitted(text, encoded, limit);
  editor.mark(faults);
  showFaults(at("faults"), faults, text, (fault) => editor.show(fault));
  const cost = filter || status === TOO_COSTLY ? costOf(engine, encoded.bytes, limit.visits) : undefined;
  showCost(at("cost"), cost, limit, filter ? costsOfPolicies(engine, encoded.filter, limit.visits) : []);
  if (!filter) {
    refuse(status, faults, text);
    return;
  }
  if (Object.keys(wrong).length) {
    at("why").replaceChildren();
    showVerdict(at("verdict"), "stop", "No verdict", `A part of the request is not readable. ${Object.values(wrong)[0]}`);
  } else {
    decide(filter, encoded, request, facts, limit);
  }
  filter.close();
}

/** What is shown of a filter that the engine refuses, or that is not readable. */
function refuse(status, faults, text) {
  at("why").replaceChildren(made("p", { className: "hint" }, "There is no verdict: a proxy keeps the filter that it had before."));
  const [first] = faults, { line } = placeOf(text, first.at), number = first.title ? `${first.title}: ` : "";
  const end = /[.?]$/.test(first.words) ? "" : ".", more = faults.length > 1 ? ` ${faults.length} faults are below the policy.` : "";
  showVerdict(at("verdict"), "stop", status ? "Refused" : "Not readable", `Line ${line}: ${number}${first.words}${end}${more}`);
}

function decide(filter, encoded, request, facts, { visits }) {
  try {
    const { isAllowed, policy } = filter.decide(request, facts);
    const action = { 0: "ALLOW", 1: "DENY", 2: "LOG" }[encoded.filter.values.get("rules")?.values?.get("action") ?? 0];
    showVerdict(at("verdict"), isAllowed ? "allow" : "deny", isAllowed ? "Allowed" : "Denied", reason(action, policy));
    showWhy(at("why"), new Explainer(engine, request, facts, visits).policies(encoded), policy);
  } catch (fault) {
    if (!(fault instanceof Refused)) throw fault;
    const [word, change] = NO_VERDICT[fault.status] ?? [`status ${fault.status}`, ""];
    at("why").replaceChildren();
    showVerdict(at("verdict"), "stop", "No verdict", `${word[0].toUpperCase()}${word.slice(1)}. ${change}`);
  }
}

function reason(action, policy) {
  const which = policy === undefined ? "No policy matches" : `Policy "${policy}" matches`;
  return action === "LOG" ? `${which}. The action is LOG, which lets every request pass.` : `${which}, and the action is ${action}.`;
}

function countFacts(facts) {
  const count = Object.keys(facts).length;
  at("facts-count").textContent = count ? `(${count} given)` : "(none given)";
}

function later() {
  clearTimeout(waiting);
  waiting = setTimeout(answer, PAUSE);
}

function listen() {
  at("text").addEventListener("input", () => {
    texts[chosenForm()] = editor.text;
    nameOwnText();
    editor.mark([]);
    later();
  });
  document.querySelectorAll("input[name=form]").forEach((radio) => radio.addEventListener("change", showForm));
  at("example").addEventListener("change", ({ target }) => target.value !== "" && showSample(SAMPLES[chosenForm()][Number(target.value)]));
  [form, at("budget"), at("visits"), at("action")].forEach((field) => field.addEventListener("input", later));
  form.addEventListener("submit", (event) => event.preventDefault());
}

function trouble(words) {
  Object.assign(at("trouble"), { hidden: false, textContent: words });
  showVerdict(at("verdict"), "stop", "No engine", "The engine does not run in this browser.");
}

async function start() {
  addFacts(at("fact-fields"));
  listen();
  showForm();
  try {
    engine = await Vupresal.load(module());
  } catch (fault) {
    trouble(fault instanceof WebAssembly.CompileError ? OLD_BROWSER : `The engine did not start: ${fault.message}`);
    return;
  }
  at("engine").textContent = `${engine.isProved ? PROVED : UNPROVED} What turns your text into a filter's bytes is not proved.`;
  answer();
}

start();

// Opens the built playground in headless Chromium, types policies and requests, and reads what it shows.
// Arguments: the browser, the folder, and perhaps a folder for pictures.
import { mkdirSync, writeFileSync } from "node:fs";
import { join } from "node:path";
import { SAMPLES } from "../page/samples.js";
import { Browser, serve } from "./chromium.mjs";

const [program, folder, pictures] = process.argv.slice(2);
const failed = [];
let passed = 0;

function check(name, holds) {
  if (holds) passed++;
  else {
    failed.push(name);
    console.log(`not so: ${name}`);
  }
}

const text = (id) => `document.getElementById("${id}").textContent`;
const marks = '[...document.querySelectorAll("#marks mark")].map((mark) => mark.textContent)';
// what each example is answered, in the order of the page
const ANSWERS = {
  yaml: ['Allowed.*"readers" matches', "Denied.*No policy matches", 'Denied.*"admin pages" matches', "Refused"],
  cel: ["Allowed", "Denied.*No policy matches", "Denied.*No policy matches", "Allowed", "Refused"],
};

/** Shows an example of a form of policies. */
async function choose(browser, form, number) {
  await browser.value(`document.querySelector("input[value=${form}]").click()`);
  await browser.value(`{
    const list = document.getElementById("example");
    list.value = "${number}";
    list.dispatchEvent(new Event("change", { bubbles: true }));
  }`);
}

async function examples(browser) {
  for (const form of ["yaml", "cel"]) {
    for (const [number, wanted] of ANSWERS[form].entries()) {
      await choose(browser, form, number);
      const told = await browser.value(text("verdict"));
      check(`example ${form} "${SAMPLES[form][number].name}": ${told}`, new RegExp(wanted, "s").test(told));
    }
    check(`each example of ${form} has an answer here`, SAMPLES[form].length === ANSWERS[form].length);
  }
}

const ANY = "permissions: [{any: true}]";

/** A filter with one policy, whose lines are given. */
const policy = (name, ...lines) => `rules:\n  policies:\n    ${name}:\n${lines.map((line) => `      ${line}\n`).join("")}`;

async function typed(browser) {
  await browser.value('document.querySelector("input[value=yaml]").click()');
  await browser.type("#text", policy('"a <b>"', "permissions: [{header: {name: x-user, string_match: {exact: alice}}}]", "principals: [{any: true}]"));
  await browser.type("textarea[name=headers]", "Host: h\nX-User: alice");
  check("a typed policy and header allow", await browser.until(`/Allowed.*"a <b>" matches/s.test(${text("verdict")})`));
  await browser.type("textarea[name=headers]", "Host: h\nX-User: bob");
  check("another header is denied", await browser.until(`/Denied.*No policy matches/s.test(${text("verdict")})`));
  check("the part that does not match is named", /no match\s*header: \{name: x-user, string_match: \{exact: alice\}\}/.test(await browser.value(text("why"))));
  await browser.type("textarea[name=headers]", "no colon");
  check("a header without a colon is told", await browser.until(`/Line 1 of the headers has no/.test(${text("headers-wrong")}) && /No verdict/.test(${text("verdict")})`));
  await browser.type("textarea[name=headers]", "x: y");
  check("a request without a host has no verdict", await browser.until(`/400, the request is malformed/.test(${text("verdict")}.toLowerCase())`));
  await browser.type("textarea[name=headers]", "Host: h");
}

async function faults(browser) {
  await browser.type("#text", policy("p", ANY, "principals: [{any: yes}]", "checked_condition: {text: 'request.method = \"GET\"'}"));
  check("two faults of a text are marked", await browser.until(`JSON.stringify(${marks}) === JSON.stringify(["yes", "="])`));
  const told = await browser.value(text("faults"));
  check("a fault says where it is, and what to write", /Line 5, column 26.*true or false is expected.*Line 6, column 49.*write ==/s.test(told));
  await browser.value('document.querySelector("#faults li:nth-child(2) button").focus()');
  await browser.press("Enter", 13, 0, "\r");
  const goes = 'document.activeElement.id === "text" && document.activeElement.value.slice(document.activeElement.selectionStart).startsWith("= ")';
  check("Enter on a place goes there", await browser.value(goes));
  const condition = ["checked_condition:", "  text: >-", "    request.method == 'GET' &&", "    request.path.matches('/a')"];
  await browser.type("#text", policy("p", ANY, "principals: [{any: true}]", ...condition));
  check("a refusal of the engine is marked in a folded text", await browser.until(`JSON.stringify(${marks}) === JSON.stringify(["request.path.matches('/a')"])`));
  const words = /Line 9, column 11.*9 UnknownName.*no regular expressions.*policy "p": checked_condition\.expr, node/s;
  check("a refusal has its number, its place and what to write", words.test(await browser.value(text("faults"))));
}

async function limits(browser) {
  await browser.value('document.querySelector("input[value=cel]").click()');
  await browser.type("#text", 'request.headers.all(k, v, v != "x")');
  check("the bound and the visits are shown", await browser.until(`/all conditions[\\d,]{5,}/.test(${text("cost")}) && ${marks}.length === 0`));
  await browser.value('document.querySelector(".policy details").open = true');
  await browser.type("#budget", "10");
  check("a small budget is refused as TooCostly", await browser.until(`/15 TooCostly/.test(${text("faults")}) && /Refused/.test(${text("verdict")})`));
  await browser.type("#budget", "1000000");
  await browser.type("#visits", "1");
  check("few visits are refused as TooLarge", await browser.until(`/8 TooLarge/.test(${text("faults")})`));
  await browser.type("#visits", "0");
  check("a limit that is no number is told", await browser.until(`/Write a number from 1/.test(${text("visits-wrong")})`));
  await browser.type("#visits", "4194304");
  await browser.type("#text", 'request.headers["x"] == "a" || 1 / 0 == 1 || request.method == "PUT"');
  const parts = `/error\\s*request\\.headers\\["x"\\] == "a"/.test(${text("why")}) && /false\\s*request\\.method == "PUT"/.test(${text("why")})`;
  check("a part that is an error is told", await browser.until(parts));
}

/** Each field, button and list has a name for a screen reader. */
async function names(browser) {
  const { nodes } = await browser.ask("Accessibility.getFullAXTree");
  const roles = ["textbox", "button", "combobox", "radio", "DisclosureTriangle", "main", "heading"];
  const nameless = nodes.filter((node) => !node.ignored && roles.includes(node.role?.value) && node.role.value !== "main" && !node.name?.value);
  check(`each control has a name: ${nameless.map((node) => node.role.value)}`, nodes.length > 50 && nameless.length === 0);
}

async function byKeyboard(browser) {
  await browser.value('{ const title = document.querySelector("h1"); title.tabIndex = -1; title.focus(); }');
  const met = [];
  for (let count = 0; count < 12; count++) {
    await browser.press("Tab", 9);
    met.push(await browser.value('document.activeElement.id || document.activeElement.name || document.activeElement.tagName'));
  }
  const wanted = ["form", "example", "action", "text", "SUMMARY", "method", "target", "protocol", "headers", "SUMMARY"];
  check(`Tab goes through the page: ${met}`, wanted.every((name) => met.includes(name)));
}

async function pictured(browser) {
  for (const [width, height] of [[360, 740], [1280, 900]]) {
    for (const scheme of ["light", "dark"]) {
      await browser.look(width, height, scheme);
      check(`nothing is wider than ${width} pixels`, await browser.value("document.scrollingElement.scrollWidth <= innerWidth"));
      if (!pictures) continue;
      mkdirSync(pictures, { recursive: true });
      for (const [form, number] of [["yaml", 1], ["yaml", 3], ["cel", 2]]) {
        await choose(browser, form, number);
        await browser.value("document.activeElement.blur(); scrollTo(0, 0)");
        writeFileSync(join(pictures, `${form}_${number}_${scheme}_${width}.png`), await browser.picture(width > 500));
        if (width < 500) writeFileSync(join(pictures, `${form}_${number}_${scheme}_${width}_whole.png`), await browser.picture(true));
      }
    }
  }
}

const server = await serve(folder), browser = await Browser.start(program);
try {
  await browser.open(server.url);
  check("the page loads, and its first example is allowed", await browser.until(`document.getElementById("verdict") !== null && /Allowed/.test(${text("verdict")})`));
  check("it says that the module is not proved", /without their proof/.test(await browser.value(text("engine"))));
  const loaded = server.asked.length;
  browser.events.length = 0;
  await examples(browser);
  await typed(browser);
  await faults(browser);
  await limits(browser);
  await names(browser);
  await byKeyboard(browser);
  const isSent = ({ method, params }) => method === "Network.requestWillBeSent" && !params.request.url.startsWith("data:");
  check("nothing is asked for once the page is loaded", server.asked.length === loaded && !browser.events.some(isSent));
  const isError = ({ level, source }) => level === "error" && source !== "security";
  const isWrong = ({ method, params }) => method === "Runtime.exceptionThrown" || (method === "Log.entryAdded" && isError(params.entry));
  const errors = browser.events.filter(isWrong).map(({ params }) => JSON.stringify(params.entry?.text ?? params.exceptionDetails.text));
  check(`no error is logged: ${errors}`, errors.length === 0);
  const isStopped = await browser.value('fetch("/index.html").then(() => false, () => true)');
  check("the page may not ask for anything", isStopped && server.asked.length === loaded);
  await pictured(browser);
} finally {
  await browser.stop();
  server.close();
}
console.log(`page: ${passed} passed, ${failed.length} failed`);
process.exitCode = failed.length ? 1 : 0;

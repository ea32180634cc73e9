// Texts of CEL to words and signs.
import { Fault } from "../encoder/fault.js";

const KINDS = [
  ["comment", String.raw`\/\/[^\r\n]*`],
  ["bytes", String.raw`[bB](?:"""(?:[^\\]|\\.)*?"""|'''(?:[^\\]|\\.)*?'''|"[^"\\\r\n]*(?:\\[^\r\n][^"\\\r\n]*)*"|'[^'\\\r\n]*(?:\\[^\r\n][^'\\\r\n]*)*'|[rR](?:""".*?"""|'''.*?'''|"[^"\r\n]*"|'[^'\r\n]*'))`],
  ["string", String.raw`"""(?:[^\\]|\\.)*?"""|'''(?:[^\\]|\\.)*?'''|"[^"\\\r\n]*(?:\\[^\r\n][^"\\\r\n]*)*"|'[^'\\\r\n]*(?:\\[^\r\n][^'\\\r\n]*)*'|[rR](?:""".*?"""|'''.*?'''|"[^"\r\n]*"|'[^'\r\n]*')`],
  ["double", String.raw`[0-9]+\.[0-9]+(?:[eE][+-]?[0-9]+)?|[0-9]+[eE][+-]?[0-9]+|\.[0-9]+(?:[eE][+-]?[0-9]+)?`],
  ["uint", String.raw`0x[0-9a-fA-F]+[uU]|[0-9]+[uU]`],
  ["int", String.raw`0x[0-9a-fA-F]+|[0-9]+`],
  ["name", String.raw`[_a-zA-Z][_a-zA-Z0-9]*`],
  ["sign", String.raw`\|\||&&|<=|>=|==|!=|[?:<>+\-*\/%!.,()[\]{}]`],
  ["space", String.raw`[ \t\f\r\n]+`],
];
const WORD = new RegExp(KINDS.map(([kind, form]) => `(?<${kind}>${form})`).join("|"), "sy");
const MOST_WORDS = 32768;
const KEYWORDS = ["true", "false", "null", "in"];
const DOUBLED = { "=": "==", "&": "&&", "|": "||" };
const CURLY = { "\u201c": '"', "\u201d": '"', "\u201e": '"', "\u00ab": '"', "\u00bb": '"', "\u2018": "'", "\u2019": "'", "\u201a": "'" };
const EMPTY = 'a condition is expected here, such as `request.method == "GET"`';

/** The words of a text, each with its kind and its place; the last one has the kind "end". A keyword is a sign. */
export function tokensOf(text) {
  const lone = /\r(?!\n)/.exec(text);
  if (lone) throw new Fault(lone.index, "there is a lone carriage return here: end the line with a line feed, or write `\\r` in a text");
  if (!text.trim()) throw new Fault(0, EMPTY);
  const found = [];
  for (WORD.lastIndex = 0; WORD.lastIndex < text.length;) {
    const at = WORD.lastIndex, match = WORD.exec(text);
    if (!match) throw characterFault(text, at);
    let [kind] = Object.entries(match.groups).find(([, part]) => part !== undefined);
    if (kind === "name" && KEYWORDS.includes(match[0])) kind = "sign";
    // the engine takes 2048 nodes, which need fewer words
    if (found.length === MOST_WORDS) throw new Fault(at, `a condition's text has at most ${MOST_WORDS} words and signs`);
    if (kind !== "space" && kind !== "comment") found.push({ kind, text: match[0], at, end: WORD.lastIndex });
  }
  const end = text.trimEnd().length;
  return [...found, { kind: "end", text: "", at: end, end }];
}

function characterFault(text, at) {
  const sign = String.fromCodePoint(text.codePointAt(at));
  if (sign === '"' || sign === "'") return new Fault(startsTriple(text, at) ? at - 2 : at, "these quotes are not closed");
  if (Object.hasOwn(DOUBLED, sign)) return new Fault(at, `\`${sign}\` is no operator: write \`${DOUBLED[sign]}\``);
  if (Object.hasOwn(CURLY, sign)) return new Fault(at, `\`${sign}\` is no quote of the language: write ${CURLY[sign]}`);
  if (sign === "`") return new Fault(at, "a back quote has no meaning here; a text is in \" or '");
  return new Fault(at, `\`${sign}\` has no meaning here`);
}

/** Whether a quote is the third of three. */
export const startsTriple = (text, at) => at >= 2 && text.slice(at - 2, at) === text[at] + text[at];

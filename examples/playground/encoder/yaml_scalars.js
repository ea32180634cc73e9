// The scalars of YAML 1.1, as libyaml reads them: plain, in quotes, and blocks. Each character of a value keeps the index that it comes from.
import { Fault } from "./fault.js";

const ESCAPES = { 0: "\0", a: "\x07", b: "\b", t: "\t", "\t": "\t", n: "\n", v: "\v", f: "\f", r: "\r", e: "\x1b", " ": " ", '"': '"', "/": "/", "\\": "\\",
  N: "\x85", _: "\xa0", L: "\u2028", P: "\u2029" };
const LONG_ESCAPES = { x: 2, u: 4, U: 8 };
const isBreak = (sign) => sign === "\n" || sign === "\r" || sign === "\x85" || sign === "\u2028" || sign === "\u2029";
const isSpace = (sign) => sign === " " || sign === "\t";
export const isBlankOrEnd = (sign) => sign === undefined || isSpace(sign) || isBreak(sign);

/** A value that is built character by character, with the index of each. */
class Value {
  constructor() {
    this.text = "";
    this.places = [];
  }

  add(text, at) {
    this.text += text;
    for (let i = 0; i < text.length; i++) this.places.push(at);
  }

  /** The scalar; what is after its last character is at the place `last`. */
  scalar(style, at, end, last = end) {
    return { kind: "scalar", value: this.text, style, at, end, places: [...this.places, last] };
  }
}

/** Reads scalars of a text; `at` is the next character. */
export class Scalars {
  constructor(text) {
    this.text = text;
    this.at = 0;
  }

  get sign() {
    return this.text[this.at];
  }

  column(at = this.at) {
    let start = at;
    while (start > 0 && !isBreak(this.text[start - 1])) start--;
    return at - start;
  }

  /** Takes a line's end, and answers what it means in a value. */
  takeBreak() {
    const sign = this.text[this.at];
    this.at += sign === "\r" && this.text[this.at + 1] === "\n" ? 2 : 1;
    return sign === "\u2028" || sign === "\u2029" ? sign : "\n";
  }

  /** Whether a mark of a document is here. */
  isAtMark() {
    return this.column() === 0 && /^(?:---|\.\.\.)(?=\s|$)/.test(this.text.slice(this.at, this.at + 4));
  }

  /** White space in a scalar of several lines: one line end is a space, further ones stay. */
  fold(value, indent) {
    const start = this.at;
    let spaces = "", first = "", more = "";
    while (this.at < this.text.length && isBlankOrEnd(this.sign)) {
      if (isBreak(this.sign)) {
        const taken = this.takeBreak();
        if (first) more += taken;
        else first = taken;
      } else {
        if (first && this.sign === "\t" && this.column() < indent) throw new Fault(this.at, "a tab is at the beginning of this line: indent it with spaces");
        if (!first) spaces += this.sign;
        this.at++;
      }
    }
    return () => value.add(!first ? spaces : first === "\n" ? more || " " : first + more, start);
  }

  plain(indent, isFlow) {
    const at = this.at, value = new Value();
    let end = at, join = () => {};
    while (!this.isAtMark() && this.sign !== "#" && this.at < this.text.length) {
      const before = this.at;
      while (!isBlankOrEnd(this.sign) && !this.endsPlain(isFlow)) {
        if (before === this.at) join();
        value.add(this.sign, this.at++);
      }
      if (this.at > before) end = this.at;
      if (this.at === this.text.length || !isBlankOrEnd(this.sign)) break;
      join = this.fold(value, indent);
      if (!isFlow && this.column() < indent) break;
    }
    this.at = end;
    return value.scalar("", at, end);
  }

  endsPlain(isFlow) {
    const next = this.text[this.at + 1];
    if (this.sign === ":" && isBlankOrEnd(next)) return true;
    if (isFlow && this.sign === ":" && ",?[]{}".includes(next)) throw new Fault(this.at, "a space is expected after this `:`");
    return isFlow && ",[]{}".includes(this.sign);
  }

  quoted(indent) {
    const at = this.at, quote = this.sign, value = new Value();
    this.at++;
    while (this.sign !== quote || (quote === "'" && this.text[this.at + 1] === "'")) {
      if (this.at >= this.text.length || this.isAtMark()) throw new Fault(at, "these quotes are not closed");
      if (isBlankOrEnd(this.sign)) this.fold(value, indent)();
      else if (quote === '"' && this.sign === "\\") this.escape(value);
      else {
        value.add(this.sign, this.at);
        this.at += this.sign === quote ? 2 : 1;
      }
    }
    this.at++;
    return value.scalar(quote, at, this.at, this.at - 1);
  }

  escape(value) {
    const at = this.at, letter = this.text[at + 1];
    this.at += 2;
    if (isBreak(letter)) {
      this.at--;
      this.takeBreak();
      this.fold({ add: (text, place) => text.includes("\n") && value.add(text, place) }, 0)();
    } else if (Object.hasOwn(LONG_ESCAPES, letter)) {
      // JSON escapes a character beyond U+FFFF by two surrogates
      const pair = /^u([dD][89abAB][0-9a-fA-F]{2})\\u([dD][c-fC-F][0-9a-fA-F]{2})/.exec(this.text.slice(at + 1, at + 12));
      if (pair) {
        value.add(String.fromCharCode(Number.parseInt(pair[1], 16), Number.parseInt(pair[2], 16)), at);
        this.at = at + 12;
        return;
      }
      const digits = this.text.slice(this.at, this.at + LONG_ESCAPES[letter]), code = Number.parseInt(digits, 16);
      if (digits.length < LONG_ESCAPES[letter] || !/^[0-9a-fA-F]+$/.test(digits)) throw new Fault(at, `\`\\${letter}\` takes ${LONG_ESCAPES[letter]} hexadecimal digits`);
      if (code > 0x10ffff || (code >= 0xd800 && code < 0xe000)) throw new Fault(at, "this is no code point of Unicode");
      value.add(String.fromCodePoint(code), at);
      this.at += digits.length;
    } else if (Object.hasOwn(ESCAPES, letter)) {
      value.add(ESCAPES[letter], at);
    } else {
      throw new Fault(at, `there is no escape \`\\${letter ?? ""}\` in double quotes: write a backslash twice, or use single quotes`, at + 2);
    }
  }

  /** A block of lines after `|` or `>`, which is indented more than its parent. */
  block(parent) {
    const at = this.at, isLiteral = this.sign === "|", value = new Value();
    const head = /^[|>]([+-]?)([1-9]?)([+-]?)[ \t]*(?: #[^\n\r]*)?(?=[\n\r\x85\u2028\u2029]|$)/.exec(this.text.slice(at, at + 2000));
    if (!head) throw new Fault(at, "nothing but `+`, `-` or a number may be on the line of this sign");
    const keeps = head[1] || head[3], wanted = head[2] ? Math.max(parent, 0) + Number(head[2]) : 0;
    this.at += head[0].length;
    if (this.at < this.text.length) this.takeBreak();
    let { indent, breaks } = this.blanks(wanted, parent), first = "", isIndented = false, end = this.at;
    while (this.column() === indent && this.at < this.text.length && !this.isAtMark()) {
      const isMore = isSpace(this.sign);
      if (!isLiteral && first === "\n" && !isIndented && !isMore) value.add(breaks || " ", this.at);
      else value.add(first + breaks, this.at);
      isIndented = isMore;
      while (this.at < this.text.length && !isBreak(this.sign)) value.add(this.sign, this.at++);
      end = this.at;
      first = this.at < this.text.length ? this.takeBreak() : "";
      ({ breaks } = this.blanks(indent, parent));
    }
    if (keeps !== "-") value.add(first, end);
    if (keeps === "+") value.add(breaks, end);
    return value.scalar(isLiteral ? "|" : ">", at, end);
  }

  /** Takes empty lines and the indentation of the next one; without an indentation so far, it is that of the first line with a text. */
  blanks(indent, parent) {
    let breaks = "", most = 0;
    for (;;) {
      while ((!indent || this.column() < indent) && this.sign === " ") this.at++;
      most = Math.max(most, this.column());
      if ((!indent || this.column() < indent) && this.sign === "\t") throw new Fault(this.at, "a tab is at the beginning of this line: indent it with spaces");
      if (this.at >= this.text.length || !isBreak(this.sign)) break;
      breaks += this.takeBreak();
    }
    return { indent: indent || Math.max(most, parent + 1, 1), breaks };
  }
}

// Texts of CEL to trees, by the grammar of the language definition. Chains of `&&` and `||` are balanced as cel-go does it.
import { Fault, shortened } from "../encoder/fault.js";
import { bytesValue, doubleValue, intValue, stringValue, uintValue } from "./literals.js";
import { expandedCall, expandedMethod } from "./macros.js";
import { startsTriple, tokensOf } from "./tokens.js";
import { call, constant, entry, ident, list, numbered, select, struct } from "./tree.js";

const RESERVED = "as break const continue else for function if import let loop package namespace return var void while".split(" ");
const WORDS_FOR_SIGNS = { and: "&&", or: "||", not: "!", is: "==", eq: "==", ne: "!=", xor: "!=" };
const RELATIONS = { "<": "_<_", "<=": "_<=_", ">=": "_>=_", ">": "_>_", "==": "_==_", "!=": "_!=_", in: "@in" };
const SUMS = { "+": "_+_", "-": "_-_" };
const PRODUCTS = { "*": "_*_", "/": "_/_", "%": "_%_" };
const DEEPEST = 250, LONGEST = 1 << 20;

/** The tree of a text, with ids in its order. */
export function parse(text) {
  if (text.length > LONGEST) throw new Fault(LONGEST, "a condition's text has at most 1048576 characters");
  const parser = new Parser(text);
  const tree = parser.expression();
  if (parser.next.kind !== "end") throw parser.unexpected();
  return numbered(tree);
}

class Parser {
  constructor(text) {
    this.text = text;
    this.tokens = tokensOf(text);
    this.at = 0;
    this.depth = 0;
  }

  get next() {
    return this.tokens[this.at];
  }

  is(sign) {
    return this.next.kind === "sign" && this.next.text === sign;
  }

  take() {
    return this.tokens[this.at++];
  }

  took(sign) {
    return this.is(sign) ? this.take() : undefined;
  }

  expect(sign) {
    if (!this.is(sign)) throw this.unexpected();
    return this.take();
  }

  unexpected(token = this.next) {
    const before = this.text.slice(0, token.at), word = token.text;
    if (token.kind === "end") return new Fault(token.at, "the text ends here, and more is expected");
    if (word === ">" && before.endsWith("<")) return new Fault(token.at - 1, "`<>` is no operator: write `!=`", token.end);
    if (/^["']/.test(word) && startsTriple(this.text, token.at)) return new Fault(token.at - 2, "these quotes are not closed");
    const sign = Object.hasOwn(WORDS_FOR_SIGNS, word.toLowerCase()) && WORDS_FOR_SIGNS[word.toLowerCase()];
    if (sign) return new Fault(token.at, `\`${word}\` is no operator: write \`${sign}\``, token.end);
    if (word === "?" && /[.[]$/.test(before.trimEnd())) {
      return new Fault(token.at, 'there are no optional values: ask for the key first, as in `"k" in m && m["k"] == "v"`');
    }
    const last = /\b(not|if)\s*$/.exec(before);
    if (last) return new Fault(last.index, `\`${last[1]}\` is no operator: write \`${last[1] === "not" ? "!" : "test ? one : other"}\``, last.index + last[1].length);
    return new Fault(token.at, `\`${shortened(word)}\` is not expected here`, token.end);
  }

  /** A node with the bounds of its text, from a place to the last word that was taken. */
  bounded(node, from) {
    node.from = from;
    node.to = this.tokens[this.at - 1].end;
    return node;
  }

  expression() {
    if (++this.depth > DEEPEST) throw new Fault(this.next.at, `this is nested more than ${DEEPEST} levels deep`);
    const from = this.next.at;
    let node = this.chain("||", "_||_", () => this.chain("&&", "_&&_", () => this.relation()));
    const sign = this.took("?");
    if (sign) {
      const yes = this.chain("||", "_||_", () => this.chain("&&", "_&&_", () => this.relation()));
      this.expect(":");
      node = this.bounded(call("_?_:_", [node, yes, this.expression()], sign.at), from);
    }
    this.depth--;
    return node;
  }

  chain(sign, name, operand) {
    const terms = [operand()], places = [];
    while (this.is(sign)) {
      places.push(this.take().at);
      terms.push(operand());
    }
    return balanced(name, terms, places);
  }

  binary(functions, operand) {
    const from = this.next.at;
    let node = operand();
    while (this.next.kind === "sign" && Object.hasOwn(functions, this.next.text)) {
      const sign = this.take();
      node = this.bounded(call(functions[sign.text], [node, operand()], sign.at), from);
    }
    return node;
  }

  relation() {
    return this.binary(RELATIONS, () => this.binary(SUMS, () => this.binary(PRODUCTS, () => this.unary())));
  }

  unary() {
    const from = this.next.at, nots = [], minuses = [];
    while (this.is("!")) nots.push(this.take());
    while (this.is("-") && (nots.length === 0 || minuses.length === 0)) minuses.push(this.take());
    const isNumber = ["int", "double"].includes(this.next.kind);
    if (nots.length && minuses.length && this.is("-")) throw this.unexpected();
    if (nots.length && minuses.length && !isNumber) throw new Fault(minuses[0].at, "`-` cannot follow `!`");
    const node = this.member(minuses.length === 1 && isNumber);
    if (nots.length) return this.odd("!_", nots, node, from);
    return minuses.length === 1 && isNumber ? this.bounded(node, from) : this.odd("-_", minuses, node, from);
  }

  /** An even number of signs means none, an odd number means one. */
  odd(name, signs, operand, from) {
    return this.bounded(signs.length % 2 === 0 ? operand : call(name, [operand], signs[0].at), from);
  }

  member(isNegative) {
    const from = this.next.at;
    let node = this.bounded(this.primary(isNegative), from);
    for (;;) {
      if (this.took(".")) node = this.selected(node);
      else if (this.is("[")) node = this.indexed(node);
      else if (this.is("{")) node = this.message(node);
      else return node;
      this.bounded(node, from);
    }
  }

  selected(node) {
    if (this.next.kind !== "name") throw this.unexpected();
    const name = this.take();
    if (!this.took("(")) return select(node, name.text, false, name.at);
    const args = this.listed(")", false);
    return expandedMethod(node, name.text, args, name.at) ?? call(name.text, args, name.at, node);
  }

  indexed(node) {
    const bracket = this.take(), index = this.expression();
    this.expect("]");
    return call("_[_]", [node, index], bracket.at);
  }

  /** The expressions up to a closing sign, perhaps with a comma after the last one. */
  listed(closing, hasComma, read = () => this.expression()) {
    const found = [];
    if (!this.is(closing) && !(hasComma && this.is(","))) {
      do found.push(read());
      while (this.is(",") && !(hasComma && this.tokens[this.at + 1].text === closing) && this.take());
    }
    if (hasComma) this.took(",");
    this.expect(closing);
    return found;
  }

  message(node) {
    const brace = this.next, name = dottedName(node);
    if (name === undefined) throw new Fault(brace.at, "`{` is not expected here");
    this.take();
    const field = () => {
      if (this.next.kind !== "name") throw this.unexpected();
      const key = this.take(), colon = this.expect(":");
      return entry(key.text, this.expression(), colon.at);
    };
    return struct(this.listed("}", true, field), name, brace.at);
  }

  primary(isNegative) {
    const token = this.next;
    if (token.kind === "name" || this.is(".")) return this.named();
    if (this.took("(")) {
      const node = this.expression();
      this.expect(")");
      node.isInParentheses = true;
      return node;
    }
    if (this.took("[")) return list(this.listed("]", true), token.at);
    if (this.took("{")) {
      const pair = () => {
        const key = this.expression(), colon = this.expect(":");
        return entry(key, this.expression(), colon.at);
      };
      return struct(this.listed("}", true, pair), "", token.at);
    }
    return this.literal(isNegative);
  }

  named() {
    const dot = this.took(".");
    if (this.next.kind !== "name") throw this.unexpected();
    const token = this.take(), place = (dot ?? token).at, name = (dot ? "." : "") + token.text;
    if (token.text === "if" && !["sign", "end"].includes(this.next.kind)) throw this.unexpected();
    // the name of a message may be such a word
    if (RESERVED.includes(token.text) && !this.is("{")) throw new Fault(token.at, `\`${token.text}\` is a reserved word`, token.end);
    if (!this.took("(")) return ident(name, place);
    const args = this.listed(")", false);
    return expandedCall(name, args) ?? call(name, args, place);
  }

  literal(isNegative) {
    const { kind, text, at } = this.next;
    if (kind === "sign" && !["true", "false", "null"].includes(text)) throw this.unexpected();
    if (kind === "end") throw this.unexpected();
    this.take();
    switch (kind) {
      case "int": return constant("int64", intValue(text, at, isNegative), at);
      case "double": return constant("double", doubleValue(text, at, isNegative), at);
      case "uint": return constant("uint64", uintValue(text, at), at);
      case "string": return constant("string", stringValue(text, at), at);
      case "bytes": return constant("bytes", bytesValue(text, at), at);
      default: return text === "null" ? constant("null", 0, at) : constant("bool", text === "true", at);
    }
  }
}

/** A chain of one operator as a balanced tree, whose root is the chain's middle operator. */
function balanced(name, terms, places) {
  if (places.length === 0) return terms[0];
  const middle = Math.floor(places.length / 2);
  const left = balanced(name, terms.slice(0, middle + 1), places.slice(0, middle));
  const right = balanced(name, terms.slice(middle + 1), places.slice(middle + 1));
  const node = call(name, [left, right], places[middle]);
  return Object.assign(node, { from: left.from, to: right.to });
}

/** The name that a plain chain of names spells, or undefined. */
function dottedName(node) {
  if (node.isInParentheses) return undefined;
  if (node.kind === "ident") return node.name;
  const before = node.kind === "select" && !node.isTest ? dottedName(node.operand) : undefined;
  return before === undefined ? undefined : `${before}.${node.field}`;
}

// YAML to nodes: mappings, lists and scalars, each with its place. It is the part of YAML 1.1 that policies are written in: no anchors,
// aliases, tags, directives or complex keys, and one document. These are refused at their place.
import { Fault } from "./fault.js";
import { isBlankOrEnd, Scalars } from "./yaml_scalars.js";

const DEEPEST = 300;
const LEFT_OUT = { "&": "an anchor", "*": "an alias", "!": "a tag" };

/** The node of a text's one document, or undefined if it has none. */
export function readYaml(text) {
  const wrong = /[\0-\x08\x0b\x0c\x0e-\x1f\x7f\x80-\x84\x86-\x9f\ufffe\uffff]|[\ud800-\udbff](?![\udc00-\udfff])|(?<![\ud800-\udbff])[\udc00-\udfff]/.exec(text);
  if (wrong) throw new Fault(wrong.index, "this character is not allowed here: write it as an escape in double quotes");
  return new Reader(text).document();
}

class Reader extends Scalars {
  constructor(text) {
    super(text);
    this.depth = 0;
    if (this.sign === "\ufeff") this.at++;
  }

  /** Goes to the next character that is no white space and in no comment. */
  skip(isFlow = false) {
    let isAtStart = this.at === 0 || this.column() === 0;
    for (;;) {
      while (this.sign === " " || (this.sign === "\t" && (isFlow || !isAtStart))) this.at++;
      if (this.sign === "#" && (this.at === 0 || isBlankOrEnd(this.text[this.at - 1]))) while (this.at < this.text.length && !/[\n\r]/.test(this.sign)) this.at++;
      if (this.at >= this.text.length || this.sign === "\t" || !isBlankOrEnd(this.sign)) break;
      this.takeBreak();
      isAtStart = true;
    }
    if (this.sign === "\t" && !isFlow) throw new Fault(this.at, "a tab is at the beginning of this line: indent it with spaces");
  }

  document() {
    this.skip();
    if (this.sign === "%" && this.column() === 0) throw new Fault(this.at, "directives of YAML are not read here: leave this line out");
    if (this.isAtMark() && this.sign === "-") {
      this.at += 3;
      this.skip();
    }
    const node = this.at < this.text.length && !this.isAtMark() ? this.node(-1) : undefined;
    this.skip();
    if (this.isAtMark() && this.sign === ".") {
      this.at += 3;
      this.skip();
    }
    if (this.at < this.text.length) throw new Fault(this.at, this.isAtMark() ? "a text holds one document: leave out what is after this" : this.unexpected());
    return node;
  }

  unexpected() {
    return this.sign === ":" || /^[^\n\r]*:(?:\s|$)/.test(this.text.slice(this.at, this.at + 300))
      ? "this is not indented as the lines above it, or a text with `: ` has no quotes"
      : "this is not expected here: is it indented as the lines above it?";
  }

  /** The node at this place, which is inside of one that is indented so far. */
  node(parent) {
    this.deeper();
    const column = this.column(), isDash = this.sign === "-" && isBlankOrEnd(this.text[this.at + 1]);
    let node;
    if (isDash) node = this.list(column);
    else if (this.sign === "?" && isBlankOrEnd(this.text[this.at + 1])) throw new Fault(this.at, "`?` is not read here: write `name: value`");
    else if (this.isKey()) node = this.mapping(column);
    else node = this.value(parent);
    this.depth--;
    return node;
  }

  deeper() {
    if (++this.depth > DEEPEST) throw new Fault(this.at, `this is nested more than ${DEEPEST} levels deep`);
  }

  /** Whether a key of a mapping is here: a scalar on one line with `:` after it. */
  isKey() {
    const start = this.at;
    if (Object.hasOwn(LEFT_OUT, this.sign)) throw new Fault(start, `${LEFT_OUT[this.sign]} is not read here: write out what it means, or put a text in quotes`);
    if ("|>[{".includes(this.sign)) return false;
    const key = this.key();
    const isFound = key && !/[\n\r]/.test(this.text.slice(start, key.end)) && this.sign === ":" && isBlankOrEnd(this.text[this.at + 1]);
    this.at = start;
    return isFound;
  }

  /** The scalar of a key, which ends on its line, and the spaces after it. */
  key() {
    const key = this.scalar(0, false);
    while (this.sign === " " || this.sign === "\t") this.at++;
    return key;
  }

  mapping(column) {
    const at = this.at, pairs = [];
    while (this.at < this.text.length && this.column() === column && !this.isAtMark()) {
      const isDash = this.sign === "-" && isBlankOrEnd(this.text[this.at + 1]);
      if (!this.isKey()) throw new Fault(this.at, isDash ? "this dash is not expected here: indent the list below its name" : "`name: value` is expected here");
      const key = this.key();
      this.at++;
      pairs.push([key, this.valueOfKey(column)]);
      this.skip();
    }
    if (this.at < this.text.length && this.column() > column && !this.isAtMark()) throw new Fault(this.at, this.unexpected());
    return { kind: "mapping", pairs, at, end: at };
  }

  valueOfKey(column) {
    const after = this.at, line = this.lineEnd();
    this.skip();
    if (this.at >= this.text.length || this.isAtMark()) return empty(after);
    if (this.at < line) {
      const isDash = this.sign === "-" && isBlankOrEnd(this.text[this.at + 1]);
      if (isDash) throw new Fault(this.at, "a list begins on a line of its own: write its first `-` below the name");
      const colon = this.isKey() && this.at + this.text.slice(this.at).search(/:(?:\s|$)/);
      if (colon) throw new Fault(colon, "a second `:` is on this line: put the text in quotes, or begin a new line");
      return this.value(column);
    }
    const isList = this.sign === "-" && isBlankOrEnd(this.text[this.at + 1]) && this.column() === column;
    return this.column() > column || isList ? this.node(column) : empty(after);
  }

  lineEnd() {
    const found = this.text.slice(this.at).search(/[\n\r]/);
    return found < 0 ? this.text.length : this.at + found;
  }

  list(column) {
    const at = this.at, items = [];
    while (this.sign === "-" && isBlankOrEnd(this.text[this.at + 1]) && this.column() === column && !this.isAtMark()) {
      const after = ++this.at;
      this.skip();
      const isInside = this.at < this.text.length && this.column() > column && !this.isAtMark();
      items.push(isInside ? this.node(column) : empty(after));
      this.skip();
    }
    if (this.at < this.text.length && this.column() > column && !this.isAtMark()) throw new Fault(this.at, this.unexpected());
    return { kind: "list", items, at, end: at };
  }

  /** A value that is no block mapping and no block list. */
  value(parent) {
    if (this.sign === "|" || this.sign === ">") return this.block(parent);
    if (this.sign === "[" || this.sign === "{") return this.flow();
    return this.scalar(parent + 1, false);
  }

  scalar(indent, isFlow) {
    const sign = this.sign, next = this.text[this.at + 1];
    if (Object.hasOwn(LEFT_OUT, sign)) throw new Fault(this.at, `${LEFT_OUT[sign]} is not read here: write out what it means, or put a text in quotes`);
    if (sign === '"' || sign === "'") return this.quoted(indent);
    const isPlain = !"-?:,[]{}#|>%@`".includes(sign) || (sign === "-" && !isBlankOrEnd(next)) || (!isFlow && "?:".includes(sign) && !isBlankOrEnd(next));
    if (!isPlain) throw new Fault(this.at, `no text begins with \`${sign}\`: put it in quotes`);
    return this.plain(indent, isFlow);
  }

  flow() {
    this.deeper();
    const at = this.at, isList = this.sign === "[", closing = isList ? "]" : "}", parts = [];
    this.at++;
    this.skip(true);
    while (this.sign !== closing) {
      if (this.at >= this.text.length || "]}".includes(this.sign)) throw new Fault(at, `this bracket is not closed: \`${closing}\` is missing`);
      parts.push(isList ? this.flowItem() : this.flowPair());
      this.skip(true);
      if (this.sign === ",") {
        this.at++;
        this.skip(true);
      } else if (this.sign !== closing) {
        if (this.at >= this.text.length || "]}".includes(this.sign)) throw new Fault(at, `this bracket is not closed: \`${closing}\` is missing`);
        throw new Fault(this.at, this.sign === ":" ? "a second `:` is here: put the text in quotes" : `\`,\` or \`${closing}\` is expected here`);
      }
    }
    this.at++;
    this.depth--;
    return isList ? { kind: "list", items: parts, at, end: this.at } : { kind: "mapping", pairs: parts, at, end: this.at };
  }

  flowNode() {
    return this.sign === "[" || this.sign === "{" ? this.flow() : this.scalar(0, true);
  }

  /** An element of a list in brackets; one with `:` is a mapping of one pair. */
  flowItem() {
    const node = this.flowNode();
    this.skip(true);
    return this.sign === ":" ? { kind: "mapping", pairs: [[node, this.flowValue()]], at: node.at, end: this.at } : node;
  }

  flowPair() {
    const key = this.flowNode();
    this.skip(true);
    return [key, this.sign === ":" ? this.flowValue() : empty(key.end)];
  }

  flowValue() {
    const after = ++this.at;
    this.skip(true);
    return this.at >= this.text.length || ",]}".includes(this.sign) ? empty(after) : this.flowNode();
  }
}

/** The value of a name without one. */
function empty(at) {
  return { kind: "scalar", value: "", style: "", at, end: at, places: [at] };
}

const NULL = /^(?:~|null|Null|NULL|)$/;
const BOOL = /^(?:yes|Yes|YES|no|No|NO|true|True|TRUE|false|False|FALSE|on|On|ON|off|Off|OFF)$/;
const INT = /^(?:[-+]?0b[0-1_]+|[-+]?0[0-7_]+|[-+]?(?:0|[1-9][0-9_]*)|[-+]?0x[0-9a-fA-F_]+|[-+]?[1-9][0-9_]*(?::[0-5]?[0-9])+)$/;
const FLOAT = new RegExp(`^(?:${[
  String.raw`[-+]?(?:[0-9][0-9_]*)\.[0-9_]*(?:[eE][-+][0-9]+)?`,
  String.raw`\.[0-9][0-9_]*(?:[eE][-+][0-9]+)?`,
  String.raw`[-+]?[0-9][0-9_]*(?::[0-5]?[0-9])+\.[0-9_]*`,
  String.raw`[-+]?\.(?:inf|Inf|INF)|\.(?:nan|NaN|NAN)`,
].join("|")})$`);

/** Whether a node is null, which leaves a field out. */
export const isAbsent = (node) => node.kind === "scalar" && !node.style && NULL.test(node.value);

/** Whether a node is a text: in quotes, or nothing that YAML takes for something else. */
export const isText = (node) => node.kind === "scalar" && (node.style !== "" || ![NULL, BOOL, INT, FLOAT].some((kind) => kind.test(node.value)));

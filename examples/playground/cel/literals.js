// Literals of CEL: their words to values. Ints are BigInts, bytes are lists of numbers.
import { Fault } from "../encoder/fault.js";

const SIMPLE = { a: 7, b: 8, f: 12, n: 10, r: 13, t: 9, v: 11, '"': 34, "'": 39, "\\": 92, "?": 63, "`": 96 };
const HEX = { x: 2, X: 2, u: 4, U: 8 };
const utf8 = new TextEncoder();

export function intValue(text, at, isNegative) {
  const value = isNegative ? -BigInt(text) : BigInt(text);
  if (value < -(1n << 63n) || value >= 1n << 63n) throw new Fault(at, "an int is a number from -2^63 to 2^63 - 1", at + text.length);
  return value;
}

export function uintValue(text, at) {
  const value = BigInt(text.slice(0, -1));
  if (value >= 1n << 64n) throw new Fault(at, "a uint is a number from 0 to 2^64 - 1", at + text.length);
  return value;
}

export function doubleValue(text, at, isNegative) {
  const value = Number(text);
  if (!Number.isFinite(value)) throw new Fault(at, "this number is too great for a double", at + text.length);
  return isNegative ? -value : value;
}

export function stringValue(token, at) {
  const { body, start, isRaw } = unquoted(token);
  if (isRaw || !body.includes("\\")) return body;
  return pieces(body, at + start, false).map((piece) => (typeof piece === "number" ? String.fromCodePoint(piece) : piece)).join("");
}

export function bytesValue(token, at) {
  const { body, start, isRaw } = unquoted(token.slice(1));
  const parts = isRaw || !body.includes("\\") ? [body] : pieces(body, at + 1 + start, true);
  return Uint8Array.from(parts.flatMap((piece) => (typeof piece === "number" ? [piece] : [...utf8.encode(piece)])));
}

/** The text between quotes with line feeds for its line ends, where it begins, and whether it is raw. */
function unquoted(token) {
  const isRaw = /^[rR]/.test(token), start = isRaw ? 1 : 0;
  const quotes = token.length >= start + 6 && ['"""', "'''"].includes(token.slice(start, start + 3)) ? 3 : 1;
  return { body: token.slice(start + quotes, token.length - quotes).replace(/\r\n?/g, "\n"), start: start + quotes, isRaw };
}

/** The pieces of a text: what is plain, and the numbers of the escapes. */
function pieces(body, place, isBytes) {
  const found = [];
  for (let at = 0; at < body.length;) {
    const next = body.indexOf("\\", at), plain = body.slice(at, next < 0 ? body.length : next);
    if (plain) found.push(plain);
    at += plain.length;
    if (next >= 0) {
      const [value, length] = escape(body, at, place, isBytes);
      found.push(value);
      at += length;
    }
  }
  return found;
}

function escape(body, at, place, isBytes) {
  const letter = body[at + 1], fault = (words, length = 2) => new Fault(place + at, words, place + at + length);
  if (Object.hasOwn(SIMPLE, letter)) return [SIMPLE[letter], 2];
  if ("uU".includes(letter) && isBytes) throw fault(`bytes have no escape \`\\${letter}\`: write each byte as \`\\x\` and two digits`);
  if (Object.hasOwn(HEX, letter)) {
    const count = HEX[letter], digits = body.slice(at + 2, at + 2 + count), value = Number.parseInt(digits, 16);
    if (digits.length < count || !/^[0-9a-fA-F]+$/.test(digits)) throw fault(`\`\\${letter}\` takes ${count} hexadecimal digits`);
    if (value > 0x10ffff || (value >= 0xd800 && value <= 0xdfff)) throw fault("this is no code point of Unicode", 2 + count);
    return [value, 2 + count];
  }
  if ("0123".includes(letter)) {
    const digits = body.slice(at + 1, at + 4);
    if (!/^[0-7]{3}$/.test(digits)) throw fault("an octal escape takes three digits, `\\000` to `\\377`");
    return [Number.parseInt(digits, 8), 4];
  }
  throw fault(`there is no escape \`\\${letter}\``);
}

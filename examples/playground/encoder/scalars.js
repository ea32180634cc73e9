// Scalars of YAML to values of fields, by the proto3 JSON mapping. Whole numbers of 64 bits are BigInts.
import { ENUMS } from "./schema.js";
import { isAbsent, isText } from "./yaml.js";

const RANGES = { int32: [-(1n << 31n), (1n << 31n) - 1n], int64: [-(1n << 63n), (1n << 63n) - 1n], uint32: [0n, (1n << 32n) - 1n], uint64: [0n, (1n << 64n) - 1n] };
const NUMBER = /^(-?)(0|[1-9][0-9]*)(?:\.([0-9]+))?(?:[eE]([+-]?[0-9]{1,4}))?$/;
const DOUBLES = { NaN: Number.NaN, Infinity: Number.POSITIVE_INFINITY, "-Infinity": Number.NEGATIVE_INFINITY };

/** The value of a scalar by a field's type; a text instead of it says what is expected. */
export function readScalar(type, node) {
  if (type === "string") return isText(node) ? { value: node.value } : { wrong: `a text is expected; in quotes this is one: "${node.value}"` };
  if (type === "bytes") return readBytes(node);
  if (type === "bool") return isBool(node) ? { value: node.value === "true" } : { wrong: "true or false is expected" };
  if (type === "double") return readDouble(node);
  return Object.hasOwn(ENUMS, type) ? readEnum(type, node) : readInt(type, node.value);
}

/** The key of a map. */
export function readKey(type, node) {
  if (type !== "string") return readInt(type, node.value);
  return isAbsent(node) ? { wrong: 'a name is expected; the empty one is ""' } : { value: node.value };
}

export const isBool = (node) => node.kind === "scalar" && !node.style && (node.value === "true" || node.value === "false");

function readInt(type, text) {
  const [low, high] = RANGES[type], found = NUMBER.exec(text), value = found && wholeOf(found);
  const isFit = typeof value === "bigint" && value >= low && value <= high;
  return isFit ? { value } : { wrong: `a whole number from ${low} to ${high} is expected` };
}

/** The whole number that a decimal one is, or undefined; one of more digits than any type takes is none. */
function wholeOf([, sign, whole, part = "", exponent = "0"]) {
  const power = Number(exponent) - part.length, digits = BigInt(whole + part);
  if (digits === 0n) return 0n;
  if (power > 30 || power < -5000) return undefined;
  const scale = 10n ** BigInt(Math.abs(power));
  if (power < 0 && digits % scale !== 0n) return undefined;
  const value = power < 0 ? digits / scale : digits * scale;
  return sign ? -value : value;
}

function readEnum(type, node) {
  if (Object.hasOwn(ENUMS[type], node.value)) return { value: ENUMS[type][node.value] };
  if (type === "Null" && isAbsent(node)) return { value: 0 };
  return NUMBER.test(node.value) ? readInt("int32", node.value) : { wrong: `one of these is expected: ${Object.keys(ENUMS[type]).join(", ")}` };
}

function readDouble(node) {
  if (Object.hasOwn(DOUBLES, node.value)) return { value: DOUBLES[node.value] };
  const value = Number(node.value);
  return NUMBER.test(node.value) && Number.isFinite(value) ? { value } : { wrong: "a number is expected" };
}

function readBytes(node) {
  const wrong = "bytes are expected, as a text in base64", text = node.value.replace(/=+$/, "").replaceAll("-", "+").replaceAll("_", "/");
  if (!isText(node) || !/^[A-Za-z0-9+/_-]*={0,2}$/.test(node.value) || text.length % 4 === 1) return { wrong };
  return { value: Uint8Array.from(atob(text), (sign) => sign.charCodeAt(0)) };
}

/** The bytes of pairs of hexadecimal digits, or undefined. */
export function readHex(text) {
  const digits = text.replace(/\s+/g, "");
  return /^(?:[0-9a-fA-F]{2})*$/.test(digits) ? Uint8Array.from(digits.match(/../g) ?? [], (pair) => Number.parseInt(pair, 16)) : undefined;
}

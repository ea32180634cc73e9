// Messages to the bytes of Protocol Buffers: fields in ascending order of number, without those that have the default value.
import { ENUMS, isMessage, SCHEMA } from "./schema.js";

const utf8 = new TextEncoder();
const LENGTH = 2, EIGHT_BYTES = 1, VARINT = 0;

/** A message: its type, and its values by the names of its fields. A map's value is a list of pairs. `wire` is instead of values. */
export const message = (type, values = {}) => ({ type, values: new Map(Object.entries(values).filter(([, value]) => value !== undefined)) });

/** The bytes of a message. */
export function bytesOf(of) {
  const out = [];
  write(of, out);
  return Uint8Array.from(out);
}

function write(of, out) {
  if (of.wire) {
    for (const byte of of.wire) out.push(byte);
    return;
  }
  for (const field of SCHEMA[of.type]) {
    if (of.values.has(field.name)) writeField(field, of.values.get(field.name), out);
  }
}

function writeField(field, value, out) {
  if (field.key) {
    for (const [key, held] of value) {
      const entry = [];
      writeOne(1, field.key, key, entry);
      writeOne(2, field.type, held, entry);
      writeBytes(field.number, entry, out);
    }
  } else if (field.isList && !isMessage(field.type) && field.type !== "string") {
    const packed = [];
    value.forEach((one) => writeVarint(BigInt.asUintN(64, BigInt(one)), packed));
    if (value.length) writeBytes(field.number, packed, out);
  } else if (field.isList) {
    value.forEach((one) => writeOne(field.number, field.type, one, out));
  } else if (field.isMember || isMessage(field.type) || !isDefault(field.type, value)) {
    writeOne(field.number, field.type, value, out);
  }
}

function isDefault(type, value) {
  if (type === "double") return Object.is(value, 0);
  if (type === "bytes" || type === "string") return value.length === 0;
  return BigInt(value) === 0n;
}

function writeOne(number, type, value, out) {
  if (isMessage(type)) {
    const inner = [];
    write(value, inner);
    writeBytes(number, inner, out);
  } else if (type === "string" || type === "bytes") {
    writeBytes(number, type === "string" ? utf8.encode(value) : value, out);
  } else if (type === "double") {
    writeVarint(BigInt(number * 8 + EIGHT_BYTES), out);
    const eight = new DataView(new ArrayBuffer(8));
    eight.setFloat64(0, value, true);
    for (let i = 0; i < 8; i++) out.push(eight.getUint8(i));
  } else {
    writeVarint(BigInt(number * 8 + VARINT), out);
    writeVarint(BigInt.asUintN(64, BigInt(value)), out);
  }
}

function writeBytes(number, bytes, out) {
  writeVarint(BigInt(number * 8 + LENGTH), out);
  writeVarint(BigInt(bytes.length), out);
  for (const byte of bytes) out.push(byte);
}

function writeVarint(number, out) {
  let rest = number;
  while (rest >= 128n) {
    out.push(Number(rest % 128n) + 128);
    rest /= 128n;
  }
  out.push(Number(rest));
}

/** Whether a type is an enum. */
export const isEnum = (type) => Object.hasOwn(ENUMS, type);

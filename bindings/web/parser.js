// The calls of the parser. This runs in workers and in node.

import { Memory, NoMemory } from "./memory.js";
import {
  COUNTS,
  COUNTS_BYTES,
  ERROR,
  ERROR_BYTES,
  FIGURES,
  MEASURE_COUNTS,
  MEASURE_COUNTS_BYTES,
  OPERATION,
  OPERATION_BYTES,
  STATUS,
  WORD,
  WORDS
} from "./rows.js";
import { NODE } from "./tree.js";

const NO_LIMIT = 2n ** 64n - 1n;
// A formatted text may have so many bytes, also if its source is short.
const MOST_FORMATTED = 2 ** 26;

// A module that has what the parser's has beside the first version of WebAssembly: it extends a sign and fills bytes.
const PROBE = Uint8Array.of(
  ...[0, 0x61, 0x73, 0x6d, 1, 0, 0, 0], ...[1, 4, 1, 0x60, 0, 0], ...[3, 2, 1, 0], ...[5, 3, 1, 0, 1],
  ...[10, 14, 1, 12, 0, 0x41, 0, 0xc0, 0x41, 0, 0x41, 0, 0xfc, 11, 0, 0x0b]
);

// Whether this engine has WebAssembly, and takes the parser's module.
export function isSupported() {
  return typeof WebAssembly === "object" && WebAssembly.validate(PROBE);
}

// A number that a caller gives under this name, as a BigInt for the module. Null and Infinity are no limit, and so is a
// number that needs more than 64 bits. Throws TypeError for what is no number, and RangeError for one that counts
// nothing: below 0, a fraction, NaN.
function counted(name, value) {
  if (value === null || value === Infinity) return NO_LIMIT;
  if (typeof value !== "number" && typeof value !== "bigint")
    throw new TypeError(`${name} is a number, a BigInt or null, and not ${typeof value}`);
  if (value < 0 || (typeof value === "number" && !Number.isInteger(value)))
    throw new RangeError(`${name} is no whole number from 0 on: ${value}`);
  const whole = BigInt(value);
  return whole < NO_LIMIT ? whole : NO_LIMIT;
}

// The same as a number of JavaScript, for how much a call gives at most: the larger ones are more than a memory holds,
// so that it need not be exact.
const most = (name, value) => Number(counted(name, value));

// The limits that a caller gives, as the module takes them.
function limitsOf(limits) {
  if (typeof limits !== "object" || limits === null)
    throw new TypeError(`limits are an object as { recursion: 500, tokens: null }, and not ${limits}`);
  const { recursion = 500, tokens = null } = limits;
  return [counted("recursion", recursion), counted("tokens", tokens)];
}

// How many units of 16 bits a text has. Throws TypeError for what is no text.
function lengthOf(text) {
  if (typeof text !== "string")
    throw new TypeError(`a text is a string, and not ${text === null ? null : typeof text}`);
  return text.length;
}

// Whether each half of a surrogate pair has the other one, so that UTF-8 has the text. Engines from before 2023 have no
// call for it.
const isWellFormed = (text) => text.isWellFormed?.() ?? !/\p{Surrogate}/u.test(text);

// For each byte of a text in UTF-8 and for its end, how many units of 16 bits, which JavaScript counts, are before it.
// It holds where a character begins.
function unitsBefore(bytes) {
  const units = new Uint32Array(bytes.length + 1);
  let unit = 0;
  for (let i = 0; i < bytes.length; i++) {
    units[i] = unit;
    if ((bytes[i] & 0xc0) !== 0x80) unit += bytes[i] >= 0xf0 ? 2 : 1;
  }
  units[bytes.length] = unit;
  return units;
}

// Fields of a row, by the byte of each field.
const numbers = (row, at, fields) => fields.map((field) => Number(row.getBigUint64(at[field], true)));

// The same of fields that are places of a text, with what `unitsBefore` gives for it, or null where each character is
// one byte.
const places = (row, at, fields, units) => numbers(row, at, fields).map((byte) => units?.[byte] ?? byte);

// What a call gives; or, where there is no memory for its text and its rows, the same as where the module is refused
// memory: the status, and that nothing was found.
function orRefused(call, nothing) {
  try {
    return call();
  } catch (error) {
    if (!(error instanceof NoMemory)) throw error;
    return { status: STATUS.NO_MEMORY, ...nothing };
  }
}

export class Parser {
  // A parser with a module that was compiled.
  constructor(module) {
    this.module = module;
    this.memory = new Memory(module);
  }

  // Writes a text to memory of which all was taken back: its address and its length in bytes.
  #write(text) {
    const room = 3 * lengthOf(text);
    this.memory.clear();
    const start = this.memory.place(room);
    const { written } = new TextEncoder().encodeInto(text, this.memory.bytes(start, room));
    // the encoder puts another character in place of half a pair: with a byte that UTF-8 does not have, the module
    // refuses the text
    if (!isWellFormed(text)) this.memory.bytes(start, 1)[0] = 0xff;
    this.memory.top = start + written;
    return [start, written];
  }

  #writeLimits(limits) {
    const start = this.memory.place(16);
    new BigUint64Array(this.memory.buffer, start, 2).set(limitsOf(limits));
    return start;
  }

  // Calls an export. An instance in which a call was cut off, as by a full stack, is thrown away.
  #call(name, ...words) {
    try {
      return this.memory.exports[name](...words.map(BigInt));
    } catch (error) {
      this.memory = new Memory(this.module);
      throw error;
    }
  }

  // Parses a text: the rows of its elements, where the text of the tree ends, its first errors, and how many there are.
  // Offsets are those of the JavaScript string. Throws RangeError or WebAssembly.RuntimeError where the browser's stack
  // or its memory for arrays is too small. Each call throws TypeError or RangeError for a wrong argument.
  parse(text, limits = {}, mostErrors = 1000) {
    const wanted = most("mostErrors", mostErrors);
    const room = {
      elements: (lengthOf(text) >> 1) + 64,
      errors: Math.min(wanted, 1000),
      messages: text.length + 65536
    };
    const nothing = { rows: new Uint32Array(0), textEnd: 0, errors: [], errorCount: 0, depth: 0, items: 0 };
    return orRefused(() => this.#parse(text, limits, wanted, room), nothing);
  }

  #parse(text, limits, wanted, room) {
    for (;;) {
      const [source, length] = this.#write(text);
      const [given, counts] = [this.#writeLimits(limits), this.memory.place(COUNTS_BYTES)];
      const [elements, errors, messages] =
        [room.elements * WORDS * 4, room.errors * ERROR_BYTES, room.messages].map((bytes) => this.memory.place(bytes));
      const status = this.#call(
        "dumyroke_parse", source, length, given, elements, room.elements, errors, room.errors, messages, room.messages,
        counts
      );
      const fields = ["elements", "text_bytes", "errors", "message_bytes", "recursion_high", "token_high"];
      const [elementCount, textBytes, errorCount, messageBytes, depth, items] =
        numbers(this.memory.row(counts, COUNTS_BYTES), COUNTS, fields);
      const errorsGiven = Math.min(errorCount, wanted);
      if (elementCount <= room.elements && errorsGiven <= room.errors && messageBytes <= room.messages) {
        const units = length === text.length ? null : unitsBefore(this.memory.bytes(source, length));
        const rows = new Uint32Array(this.memory.buffer, elements, elementCount * WORDS).slice();
        if (units !== null)
          for (let i = WORD.start_and_node; i < rows.length; i += WORDS)
            rows[i] += units[rows[i] % NODE] - (rows[i] % NODE);
        const found = this.#errors(errors, errorsGiven, this.memory.bytes(messages, messageBytes), units);
        return { status, rows, textEnd: units?.[textBytes] ?? textBytes, errors: found, errorCount, depth, items };
      }
      Object.assign(room, { elements: elementCount, errors: errorsGiven, messages: messageBytes });
    }
  }

  #errors(start, count, messages, units) {
    return Array.from({ length: count }, (_, i) => {
      const row = this.memory.row(start + i * ERROR_BYTES, ERROR_BYTES);
      const [from, to] = places(row, ERROR, ["start", "end"], units);
      const [message, bytes] = numbers(row, ERROR, ["message", "message_length"]);
      const [isLimit, isEnd] = ["is_limit", "is_eof"].map((field) => row.getUint32(ERROR[field], true) === 1);
      const said = new TextDecoder().decode(messages.subarray(message, message + bytes));
      return { start: from, end: to, message: said, isLimit, isEnd };
    });
  }

  // Measures the operations of a document: the first ones with their figures, which are BigInts, and how many there
  // are. Where they have no figures, the status says why, `place` where, and `other` where the first fragment of the
  // name is.
  measure(text, limits = {}, mostOperations = Infinity) {
    const wanted = most("mostOperations", mostOperations);
    const nothing = { operations: [], operationCount: 0, place: null, other: null };
    return orRefused(() => this.#measure(text, limits, wanted), nothing);
  }

  #measure(text, limits, wanted) {
    for (let room = Math.min(wanted, 1000); ; ) {
      const [source, length] = this.#write(text);
      const [given, counts, rows] =
        [this.#writeLimits(limits), this.memory.place(MEASURE_COUNTS_BYTES), this.memory.place(room * OPERATION_BYTES)];
      const status = this.#call("dumyroke_measure", source, length, given, rows, room, counts);
      const there = this.memory.row(counts, MEASURE_COUNTS_BYTES);
      const [operationCount] = numbers(there, MEASURE_COUNTS, ["operations"]);
      const count = Math.min(operationCount, wanted);
      if (count <= room) {
        const units = length === text.length ? null : unitsBefore(this.memory.bytes(source, length));
        const [start, end, otherStart, otherEnd] =
          places(there, MEASURE_COUNTS, ["start", "end", "other_start", "other_end"], units);
        const [place, other] =
          [end === 0 ? null : { start, end }, otherEnd === 0 ? null : { start: otherStart, end: otherEnd }];
        return { status, operations: this.#operations(rows, count, text, units), operationCount, place, other };
      }
      room = count;
    }
  }

  #operations(start, count, text, units) {
    return Array.from({ length: count }, (_, i) => {
      const row = this.memory.row(start + i * OPERATION_BYTES, OPERATION_BYTES);
      const [from, to, nameStart, nameEnd] = places(row, OPERATION, ["start", "end", "name_start", "name_end"], units);
      const figures = Object.entries(FIGURES).map(([name, at]) => [name, row.getBigUint64(at, true)]);
      return { name: text.slice(nameStart, nameEnd) || null, start: from, end: to, ...Object.fromEntries(figures) };
    });
  }

  // A call that writes one text, of at most as many bytes as there is room for: its status and the text.
  #text(name, text, limits, room) {
    const given = this.#write(text);
    if (limits !== undefined) given.push(this.#writeLimits(limits));
    const [bytes, start] = [this.memory.place(8), this.memory.place(room)];
    const status = this.#call(name, ...given, start, room, bytes);
    const length = Number(new BigUint64Array(this.memory.buffer, bytes, 1)[0]);
    return { status, text: new TextDecoder("utf-8", { ignoreBOM: true }).decode(this.memory.bytes(start, length)) };
  }

  // Formats a document. A formatted text of more bytes than `mostBytes` has the status NO_ROOM.
  format(text, limits = {}, mostBytes = Math.max(MOST_FORMATTED, 16 * lengthOf(text))) {
    const wanted = most("mostBytes", mostBytes);
    for (let room = Math.min(4 * lengthOf(text) + 64, wanted); ; room = Math.min(4 * room, wanted)) {
      const formatted = orRefused(() => this.#text("dumyroke_format", text, limits, room), { text: "" });
      if (formatted.status !== STATUS.NO_ROOM || room === wanted) return formatted;
    }
  }

  // The value of a string literal with its quotes, which has no more bytes than the literal.
  stringValue(literal) {
    const room = 3 * lengthOf(literal);
    return orRefused(() => this.#text("dumyroke_string_value", literal, undefined, room), { text: "" });
  }
}

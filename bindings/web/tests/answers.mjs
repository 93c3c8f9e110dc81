// Writes all that calls of the module answer: node answers.mjs MODULE CALL.. < TEXTS. bindings/c/tests/answers.c says
// what TEXTS is, and writes the same of a library for C.
import fs from "node:fs";
import { Memory } from "../memory.js";
import {
  COUNTS,
  COUNTS_BYTES,
  ERROR_BYTES,
  MEASURE_COUNTS,
  MEASURE_COUNTS_BYTES,
  OPERATION_BYTES,
  WORDS
} from "../rows.js";

const [file, ...names] = process.argv.slice(2);
const memory = new Memory(new WebAssembly.Module(fs.readFileSync(file)));
const [ROWS, BYTES] = [2 ** 18, 2 ** 22];

// Writes so many bytes of the memory, for which there is room up to `room`.
function put(start, length, room) {
  if (length > room) process.exit(3);
  fs.writeSync(1, memory.bytes(start, length));
}

// Calls an export, and writes its result and so many bytes of what it counts: the numbers of 64 bits among these.
function counted(name, size, ...words) {
  const result = memory.exports[`dumyroke_${name}`](...words.map(BigInt));
  fs.writeSync(1, Uint32Array.of(result));
  const counts = words.at(-1);
  put(counts, size, size);
  return Array.from({ length: size / 8 }, (_, i) => Number(memory.row(counts, size).getBigUint64(8 * i, true)));
}

const CALLS = {
  parse(text, limits) {
    const [rows, errors, bytes, counts] =
      [ROWS * WORDS * 4, ROWS * ERROR_BYTES, BYTES, COUNTS_BYTES].map((size) => memory.place(size));
    const [elements, , errorCount, messages] = counted(
      "parse", COUNTS.status, ...text, limits, rows, ROWS, errors, ROWS, bytes, BYTES, counts
    );
    put(rows, elements * WORDS * 4, ROWS * WORDS * 4);
    put(errors, errorCount * ERROR_BYTES, ROWS * ERROR_BYTES);
    put(bytes, messages, BYTES);
  },

  string_value(text) {
    const [bytes, count] = [memory.place(BYTES), memory.place(8)];
    put(bytes, counted("string_value", 8, ...text, bytes, BYTES, count)[0], BYTES);
  },

  format(text, limits) {
    const [bytes, count] = [memory.place(BYTES), memory.place(8)];
    put(bytes, counted("format", 8, ...text, limits, bytes, BYTES, count)[0], BYTES);
  },

  measure(text, limits) {
    const [rows, counts] = [memory.place(ROWS * OPERATION_BYTES), memory.place(MEASURE_COUNTS_BYTES)];
    const [operations] = counted("measure", MEASURE_COUNTS.status, ...text, limits, rows, ROWS, counts);
    put(rows, operations * OPERATION_BYTES, ROWS * OPERATION_BYTES);
  },
};

// Makes a call, with a text and both limits in places of their own.
function answer(name, limits, text) {
  memory.clear();
  const [source, given] = [memory.place(text.length), memory.place(limits.length)];
  memory.bytes(source, text.length).set(text);
  memory.bytes(given, limits.length).set(limits);
  CALLS[name]([source, text.length], given);
}

const texts = fs.readFileSync(0);
for (let at = 0; at < texts.length; ) {
  const [limits, start] = [texts.subarray(at, at + 16), at + 24];
  at = start + Number(texts.readBigUInt64LE(at + 16));
  names.forEach((name) => answer(name, limits, texts.subarray(start, at)));
}

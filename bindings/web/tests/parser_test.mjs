// What the module answers in node: node parser_test.mjs MODULE < CASES. CASES is a list in JSON of texts and limits.
// For each a line is written: what `gqlcst tree` writes of it, as a text in JSON. After that the other calls are
// tested.
import assert from "node:assert/strict";
import fs from "node:fs";
import { NoMemory } from "../memory.js";
import { isSupported, Parser } from "../parser.js";
import { STATUS } from "../rows.js";
import { Tree } from "../tree.js";

const module = new WebAssembly.Module(fs.readFileSync(process.argv[2]));
const parser = new Parser(module);
const ESCAPES = { "\0": "\\0", "\t": "\\t", "\n": "\\n", "\r": "\\r", '"': '\\"', "\\": "\\\\" };

// A text in quotes, with the escapes that gqlcst has.
function quoted(text) {
  return `"${
    text.replace(
      /[\0-\x1f"\\\x7f\ufeff]/g, (letter) => ESCAPES[letter] ?? `\\u{${letter.codePointAt(0).toString(16)}}`
    )}"`;
}

// The tree of a text with the places of its UTF-8, as gqlcst prints it.
function printed(text, { recursion, tokens }) {
  const parsed = parser.parse(text, { recursion, tokens }, 100000);
  const { errors, depth } = parsed;
  const tree = new Tree(text, parsed);
  const bytes = (unit) => Buffer.byteLength(text.slice(0, unit));
  const range = (start, end, between) => `@${bytes(start)}${between}${bytes(end)}`;
  const lines = Array.from({ length: tree.length }, (_, element) => {
    const token = tree.isToken(element) ? ` ${quoted(tree.textOf(element))}` : "";
    return `${"    ".repeat(tree.depth(element))}- ${tree.kind(element)}${
      range(tree.start(element), tree.end(element), "..")}${token}\n`;
  });
  const faults = errors.map(
    ({ start, end, message, isEnd }) =>
      `- ERROR${range(start, end, ":")} ${quoted(message)} ${isEnd ? "EOF" : text.slice(start, end)}\n`
  );
  return `${lines.join("")}${faults.join("")}recursion limit: ${recursion}, high: ${depth}\n`;
}

for (const { text, limits } of JSON.parse(fs.readFileSync(0, "utf8")))
  console.log(JSON.stringify(printed(text, limits)));

const LIMITS = { recursion: 1000000, tokens: null };
// The last address of the memory: the last 64 MB of those that 32 bits have are left out.
const END = 2 ** 32 - 2 ** 26;

// A parser whose memory is taken up to the last bytes.
function parserAtTheEnd(bytes) {
  const last = new Parser(module);
  last.memory.clear = () => Object.assign(last.memory, { last: END - bytes, top: END - bytes });
  return last;
}

const tests = {
  // the values are those that GraphQL October 2021, section 2.9.4, gives
  "string values"() {
    assert.deepEqual(parser.stringValue('"a\\u00e9\\n"'), { status: STATUS.OK, text: "aé\n" });
    assert.deepEqual(parser.stringValue('"""\n  b\n    c\n"""'), { status: STATUS.OK, text: "b\n  c" });
    assert.equal(parser.stringValue("a").status, STATUS.NOT_A_STRING);
  },

  // the borders at which a number may become another one, and their neighbours
  "large numbers are themselves, or no limit"() {
    const around = (border) => [border - 1n, border, border + 1n];
    const whole = [31n, 32n, 53n, 63n, 64n].flatMap((power) => around(2n ** power));
    const parsed = parser.parse("{a{b}}");
    for (const number of [...whole, ...whole.map(Number), 10n ** 30n, 1e300, Infinity, null]) {
      const limits = { recursion: number, tokens: number };
      assert.deepEqual(parser.parse("{a{b}}", limits, number), parsed, number);
      assert.deepEqual(parser.format("{a{b}}", limits, number).text, "{\n  a {\n    b\n  }\n}\n", number);
      assert.equal(parser.measure("{a{b}}", limits, number).operations[0].depth, 2n, number);
    }
    for (const most of [3000, 3000n, Infinity, null])
      assert.equal(parser.parse("}".repeat(2000), {}, most).errors.length, 2000);
  },

  "small numbers are themselves"() {
    assert.deepEqual(
      [0, 1, 2].map((recursion) => parser.parse("{a{b}}", { recursion }).errorCount > 0), [true, true, false]
    );
    assert.deepEqual(
      [0, 6, 7n].map((tokens) => parser.parse("{a{b}}", { tokens }).errorCount > 0), [true, true, false]
    );
    assert.deepEqual([0, 1, 2n].map((most) => parser.parse("}}}", {}, most).errors.length), [0, 1, 2]);
    assert.deepEqual([0, 1n].map((most) => parser.measure("{a}", {}, most).operations.length), [0, 1]);
    assert.deepEqual(
      [0, 7, 8n].map((most) => parser.format("{a}", {}, most).status), [STATUS.NO_ROOM, STATUS.NO_ROOM, STATUS.OK]
    );
  },

  "what counts nothing is an error"() {
    for (const number of [-1, -1n, -(2 ** 64), 1.5, NaN, -Infinity]) {
      const named = (name) => ({ name: "RangeError", message: `${name} is no whole number from 0 on: ${number}` });
      for (const call of [parser.parse, parser.format, parser.measure].map((call) => call.bind(parser))) {
        assert.throws(() => call("{a}", { recursion: number }), named("recursion"));
        assert.throws(() => call("{a}", { tokens: number }), named("tokens"));
      }
      assert.throws(() => parser.parse("{a}", {}, number), named("mostErrors"));
      assert.throws(() => parser.format("{a}", {}, number), named("mostBytes"));
      assert.throws(() => parser.measure("{a}", {}, number), named("mostOperations"));
    }
    for (const call of [parser.parse, parser.format, parser.measure].map((call) => call.bind(parser))) {
      assert.throws(
        () => call("{a}", { tokens: "5" }),
        { name: "TypeError", message: "tokens is a number, a BigInt or null, and not string" }
      );
      for (const limits of [null, 5])
        assert.throws(() => call("{a}", limits), { name: "TypeError", message: /^limits are an object/});
      for (const text of [null, undefined, 5, ["{a}"]])
        assert.throws(() => call(text), { name: "TypeError", message: /^a text is a string, and not /});
    }
    assert.throws(() => parser.stringValue(null), TypeError);
    assert.equal(parser.parse("{a}").errorCount, 0);
  },

  // UTF-8 has no such text, and no other text is taken for it
  "half of a surrogate pair is not UTF-8"() {
    for (const half of ["\ud800", "\udc00", "\udc00\ud800", "\ud83d \ude00"]) {
      const text = `{a(b:"${half}") # ${half}\n}`;
      for (const call of [parser.parse, parser.format, parser.measure])
        assert.equal(call.call(parser, text).status, STATUS.NOT_UTF8);
      assert.deepEqual(parser.format(text), { status: STATUS.NOT_UTF8, text: "" });
      assert.deepEqual(parser.stringValue(`"${half}"`), { status: STATUS.NOT_UTF8, text: "" });
      assert.equal(parser.parse(half).status, STATUS.NOT_UTF8);
    }
    assert.equal(parser.format('{a(b:"\ud83d\ude00")}').text, '{\n  a(b: "\ud83d\ude00")\n}\n');
  },

  // the layout is that of docs/FORMAT.md
  "formatting"() {
    assert.deepEqual(
      parser.format("query Q($id:ID!){hero(id:$id){name}}"),
      { status: STATUS.OK, text: "query Q($id: ID!) {\n  hero(id: $id) {\n    name\n  }\n}\n" }
    );
    assert.equal(parser.format("{").status, STATUS.NOT_A_DOCUMENT);
    assert.deepEqual(parser.format("{a}", {}, 7), { status: STATUS.NO_ROOM, text: "" });
    assert.equal(parser.format("{a}", {}, 8).text, "{\n  a\n}\n");
    assert.equal(parser.format("{a".repeat(400) + "}".repeat(400)).text.length, 322400);
  },

  // Counted by hand: the second operation is `query Q { b: a @d { b c d } }` with its fragment expanded. A selection
  // set counts the name `a` twice once.
  "figures of operations"() {
    const text = '{ a(b: "é𝄞") a } query Q { b: a @d { b ...F } } fragment F on T { c d }';
    const first = {
      name: null,
      start: 0,
      end: 17,
      depth: 1n,
      fields: 2n,
      rootFields: 2n,
      aliases: 0n,
      directives: 0n,
      height: 1n,
      distinctRootFields: 1n
    };
    const second = {
      name: "Q",
      start: 18,
      end: 48,
      depth: 2n,
      fields: 4n,
      rootFields: 1n,
      aliases: 1n,
      directives: 1n,
      height: 4n,
      distinctRootFields: 1n
    };
    assert.deepEqual(
      parser.measure(text),
      { status: STATUS.OK, operations: [first, second], operationCount: 2, place: null, other: null }
    );
    assert.deepEqual(
      parser.measure("type T { a: B }"),
      { status: STATUS.OK, operations: [], operationCount: 0, place: null, other: null }
    );
  },

  "operations without figures"() {
    const none = (text, limits) => {
      const { status, operations, operationCount, place, other } = parser.measure(text, limits);
      assert.deepEqual([operations, operationCount], [[], 0]);
      return [status, place, other];
    };
    const [first, second] = [{ start: 4, end: 23 }, { start: 24, end: 43 }];
    assert.deepEqual(none("{a} fragment F on T {a} fragment F on T {b}"), [STATUS.SAME_NAME, second, first]);
    assert.deepEqual(none("{...F} fragment F on T {...F}"), [STATUS.CYCLE, { start: 24, end: 28 }, null]);
    assert.deepEqual(none('{ a(b: "é𝄞") ...F }'), [STATUS.UNDEFINED, { start: 14, end: 18 }, null]);
    for (const [text, limits] of [["{a"], [""], ["{a{b}}", { recursion: 1 }], ["{a}", { tokens: 2 }]])
      assert.deepEqual(none(text, limits), [STATUS.NOT_A_DOCUMENT, null, null]);
  },

  "more operations than there is room for at first"() {
    const names = Array.from({ length: 3000 }, (_, i) => `Q${i}`);
    const text = names.map((name) => `query ${name} {a}`).join(" ");
    assert.deepEqual(parser.measure(text).operations.map(({ name }) => name), names);
    for (const most of [0, 3, 2000]) {
      const { operations, operationCount } = parser.measure(text, {}, most);
      assert.deepEqual([operations.map(({ name }) => name), operationCount], [names.slice(0, most), 3000]);
    }
  },

  // each of 2,000 fragments spreads the next one twice: 2 ** 2001 - 1 fields, none in another
  "a fragment bomb has its figures at once"() {
    const bomb = Array.from({ length: 2000 }, (_, i) => `fragment F${i} on T {a ...F${i + 1} ...F${i + 1}}`).join(" ");
    const begun = performance.now();
    const [{ depth, fields, aliases }] = parser.measure(`{...F0} ${bomb} fragment F2000 on T {a}`).operations;
    assert.ok(performance.now() - begun < 1000);
    assert.deepEqual([depth, fields, aliases], [1n, 2n ** 64n - 1n, 0n]);
  },

  "memory is taken back before the next call"() {
    const text = "{ a(b: [1, 2, 3]) }\n".repeat(20000);
    parser.parse(text);
    const before = parser.memory.buffer.byteLength;
    for (let i = 0; i < 10; i++) parser.parse(text);
    assert.equal(parser.memory.buffer.byteLength, before);
  },

  "the last places of the memory are as good as the first"() {
    const last = parserAtTheEnd(2 ** 20);
    for (const text of ["", "{", '{a(b:"é𝄞"),}', "query Q($a:[A!]){a@b{...F}} fragment F on T{c}", "} ".repeat(1000)])
      for (const call of [parser.parse, parser.format, parser.measure, parser.stringValue])
        assert.deepEqual(call.call(last, text), call.call(parser, text));
    assert.ok(last.memory.top > END - 2 ** 20);
    assert.equal(last.memory.buffer.byteLength, END);
  },

  // Of the texts, some do not fit themselves, and of others the module is refused memory.
  "what the memory does not hold has the status NO_MEMORY"() {
    const last = parserAtTheEnd(2 ** 20);
    const { memory } = last;
    const status = STATUS.NO_MEMORY;
    const nothing = { rows: new Uint32Array(0), textEnd: 0, errors: [], errorCount: 0, depth: 0, items: 0 };
    const statuses = Array.from({ length: 20 }, (_, power) => last.parse("{a}".repeat(2 ** power)).status);
    const full = statuses.indexOf(status);
    assert.deepEqual(statuses, statuses.map((_, power) => (power < full ? STATUS.OK : status)));
    assert.ok(full > 5 && full < 15, full);
    for (const power of [full, 19]) {
      const text = "{a}".repeat(2 ** power);
      assert.deepEqual(last.parse(text), { status, ...nothing });
      assert.deepEqual(last.measure(text), { status, operations: [], operationCount: 0, place: null, other: null });
      assert.deepEqual(last.format(text), { status, text: "" });
    }
    assert.deepEqual(last.stringValue("a".repeat(2 ** 20)), { status, text: "" });
    assert.equal(last.memory, memory);
    assert.equal(last.parse("{a}").errorCount, 0);
  },

  "the memory ends before the last addresses of 32 bits"() {
    const { memory } = new Parser(module);
    for (const bytes of [END, 2 ** 32, 2 ** 53, 2 ** 64])
      assert.throws(() => memory.place(bytes), NoMemory);
    assert.equal(memory.place(END - memory.top - 16) % 16, 0);
    assert.throws(() => memory.place(32), NoMemory);
    assert.equal(memory.buffer.byteLength, END);
  },

  "this engine is supported"() {
    assert.equal(isSupported(), true);
  },

  "an instance whose stack was full is replaced"() {
    const { memory } = parser;
    for (const text of
           ["{a".repeat(100000), "{a(b:".padEnd(500000, "["), `{a(b:${"{c:".repeat(100000)}`,
            `type A{b:${"[".repeat(100000)}`])
      assert.throws(() => parser.parse(text, LIMITS));
    assert.notEqual(parser.memory, memory);
    assert.equal(parser.parse("{ a }").errorCount, 0);
  },

  "there may be more errors and longer messages than there is room for at first"() {
    const { errors, errorCount } = parser.parse("} ".repeat(5000), {}, 10);
    assert.equal(errors.length, Math.min(10, errorCount));
    const long = "a".repeat(200000);
    assert.equal(parser.parse(`type A ${long} ${long}`).errors.every((error) => error.message.length > 0), true);
  },
};

for (const [name, test] of Object.entries(tests)) {
  test();
  console.error(`passed: ${name}`);
}

// Tests the package where it is installed: node package_test.mjs, beside node_modules.
import assert from "node:assert/strict";
import { readFileSync } from "node:fs";
import { createServer } from "node:http";
import * as dumyroke from "dumyroke";

const { KINDS, load, Parser, STATUS, Tree } = dumyroke;
const types = readFileSync("node_modules/dumyroke/index.d.ts", "utf8");
const parser = await load();
const text = 'query Q($id:ID!){hero(id:$id,of:"é"){name}}"';
const parsed = parser.parse(text);
const tree = new Tree(text, parsed);
const measured = parser.measure("query Q { a { b b ...F } } fragment F on T { c }");
const elements = Array.from({ length: tree.length }, (_, element) => element);

// What the types name is there.
const names = (pattern, within) => [...within.matchAll(pattern)].map((at) => at[1]);
const body = (head) => types.slice(types.indexOf(head)).split("\n}")[0];
for (const name of names(/^export (?:function|const|class) (\w+)/gm, types)) assert.ok(name in dumyroke, name);
assert.deepEqual(names(/^  readonly (\w+)/gm, body("export const STATUS")), Object.keys(STATUS));
const values = [
  ["class Parser", parser], ["class Tree", tree], ["interface Parsed", parsed],
  ["interface ParseError", parsed.errors[0]]
];
values.push(["interface Measured", measured], ["interface Operation", measured.operations[0]]);
for (const [head, value] of values) {
  const members =
    names(/^  (?:readonly )?(\w+)[(:?]/gm, body(`export ${head}`)).filter((name) => name !== "constructor");
  assert.ok(members.length >= 3);
  for (const name of members) assert.ok(name in value, `${head}: ${name}`);
}

// the quotation mark at the end begins a string without an end
assert.deepEqual(
  parsed.errors.map(({ start, end, isLimit }) => [start, end, isLimit]), [[text.length - 1, text.length, false]]
);
assert.equal(elements.filter(tree.isToken).map(tree.textOf).join(""), text);
assert.equal(tree.kind(0), "DOCUMENT");
assert.ok(elements.every((element) => KINDS.includes(tree.kind(element)) && tree.next(element) > element));
// the lowest element that has the name of the field, and the elements around it
const name = tree.holding(text.indexOf("hero"), text.indexOf("hero") + 4);
assert.equal(tree.textOf(name), "hero");
assert.equal(tree.kind(tree.parent(tree.parent(name))), "FIELD");
// the layout is that of docs/FORMAT.md, the value that of GraphQL October 2021, section 2.9.4
assert.deepEqual(
  parser.format("query Q($id:ID!){hero(id:$id){name}}"),
  { status: STATUS.OK, text: "query Q($id: ID!) {\n  hero(id: $id) {\n    name\n  }\n}\n" }
);
assert.deepEqual(parser.stringValue('"a\\u00e9\\n"'), { status: STATUS.OK, text: "aé\n" });
assert.equal(parser.parse("{ a { b } }", { recursion: 1 }).errors[0].isLimit, true);
assert.throws(() => parser.parse("{ a }", { recursion: -1 }), RangeError);
assert.equal(parser.format('{ a(b: "\ud800") }').status, STATUS.NOT_UTF8);
// every source of the module; a server need not know the MIME type of WebAssembly
const file = new URL(import.meta.resolve("dumyroke/dumyroke.wasm"));
const bytes = readFileSync(file);
const module = new WebAssembly.Module(bytes);
const server =
  createServer(
    (request, response) => (request.url === "/dumyroke.wasm" ? response.end(bytes) : response.writeHead(404).end())
  ).listen(0);
const there = `http://localhost:${server.address().port}`;
const sources = [
  file, String(file), bytes, bytes.buffer.slice(bytes.byteOffset, bytes.byteOffset + bytes.length), module,
  `${there}/dumyroke.wasm`
];
for (const one of [...(await Promise.all(sources.map((source) => load(source)))), new Parser(module)])
  assert.equal(one.parse("{ a }").errorCount, 0);
await assert.rejects(load(new URL(`${there}/none`)), /none has no module: status 404/);
await assert.rejects(load(null), TypeError);
server.close();
server.closeAllConnections();
// counted by hand: the operation is `{ a { b b c } }` with its fragment expanded
const figures = {
  depth: 2n,
  fields: 4n,
  rootFields: 1n,
  aliases: 0n,
  directives: 0n,
  height: 3n,
  distinctRootFields: 1n
};
assert.deepEqual(measured, {
  status: STATUS.OK,
  operations: [{ name: "Q", start: 0, end: 26, ...figures }],
  operationCount: 1,
  place: null,
  other: null
});
assert.deepEqual(parser.measure("{ ...F }").place, { start: 2, end: 6 });

// The package in node: the module is a file beside this one.
import { readFile } from "node:fs/promises";
import { Parser } from "./parser.js";
import { compiled, fetched } from "./source.js";

export * from "./calls.js";

function read(source) {
  const url = new URL(source);
  return url.protocol === "file:" ? readFile(url) : fetched(url);
}

export async function load(source = new URL("dumyroke.wasm", import.meta.url)) {
  return new Parser(await compiled(source, read));
}

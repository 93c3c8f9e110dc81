// The package in browsers: the module is fetched from beside this file.
import { Parser } from "./parser.js";
import { compiled, fetched } from "./source.js";

export * from "./calls.js";

export async function load(source = new URL("dumyroke.wasm", import.meta.url)) {
  return new Parser(await compiled(source, fetched));
}

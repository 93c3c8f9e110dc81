// Where the module of the parser comes from.
import { isSupported } from "./parser.js";

// The bytes at a URL. `WebAssembly.compileStreaming` would refuse them from servers that do not send the MIME type of
// WebAssembly.
export async function fetched(url) {
  const response = await fetch(url);
  if (!response.ok) throw new Error(`${url} has no module: status ${response.status}`);
  return response.arrayBuffer();
}

// The compiled module of a source: the module itself, its bytes, or a URL, whose bytes a function reads.
export async function compiled(source, read) {
  if (!isSupported()) throw new Error("this engine has no WebAssembly that takes the parser's module");
  if (source instanceof WebAssembly.Module) return source;
  return WebAssembly.compile(source instanceof URL || typeof source === "string" ? await read(source) : source);
}

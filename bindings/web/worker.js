// Parses, measures and formats beside the page, so that the page never waits.
import { Parser } from "./parser.js";

const loaded = WebAssembly.compileStreaming(fetch("dumyroke.wasm")).then((module) => new Parser(module));

onmessage = async ({ data: { task, text, limits, most } }) => {
  try {
    const parser = await loaded;
    const begun = performance.now();
    const answer = parser[task](text, limits, most);
    postMessage({ ...answer, took: performance.now() - begun }, answer.rows ? [answer.rows.buffer] : []);
  } catch (error) {
    // a full stack is one or the other, as the engine has it
    const isFull = error instanceof RangeError || error instanceof WebAssembly.RuntimeError;
    postMessage({
      failed: isFull ?
        "The browser's stack or memory is too small for this text. " +
          "A lower recursion limit helps when it nests deeply." :
        String(error)
    });
  }
};

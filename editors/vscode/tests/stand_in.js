#!/usr/bin/env node
// Stands in for gqlls: it answers `initialize` and `shutdown` after some time, and `textDocument/hover` with a text of
// as many bytes as the line says. Started with `--recursion 0` it answers nothing, and does not end by itself.
let bytes = Buffer.alloc(0);
const words = process.argv.slice(2);
const isMute = words[words.indexOf("--recursion") + 1] === "0";
const answers = {
  initialize: () =>
    ({ capabilities: { hoverProvider: true, foldingRangeProvider: true, documentFormattingProvider: true } }),
  shutdown: () => null,
  "textDocument/hover": ({ position }) =>
    ({ contents: { value: "a".repeat(position.line) }, range: { start: position, end: position } }),
};

function answer({ id, method, params }) {
  if (method === "exit") process.exit(0);
  if (isMute || !(method in answers)) return;
  const body = JSON.stringify({ jsonrpc: "2.0", id, result: answers[method](params) });
  setTimeout(() => process.stdout.write(`Content-Length: ${Buffer.byteLength(body)}\r\n\r\n${body}`), 30);
}

process.stdin.on("data", (piece) => {
  bytes = Buffer.concat([bytes, piece]);
  for (;;) {
    const head = /^Content-Length: (\d+)\r\n\r\n/.exec(bytes.toString("latin1"));
    const end = head && head[0].length + Number(head[1]);
    if (!head || bytes.length < end) return;
    const message = JSON.parse(bytes.toString("utf8", head[0].length, end));
    bytes = bytes.subarray(end);
    answer(message);
  }
});
if (isMute) setInterval(() => {}, 1000);

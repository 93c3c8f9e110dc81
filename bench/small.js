// Parses the text on standard input as often as the command line says, by graphql-js 16, which is looked for as in
// print.js. Prints the nanoseconds by the clock and the errors, of which there are none: parse throws. Parses before
// the first that counts have node compile it.
"use strict";

const { readFileSync } = require("fs");
const { parse } = require(process.env.GRAPHQL || "/usr/share/nodejs/graphql");

const text = readFileSync(0, "utf8");
const parses = Number(process.argv[2]);
for (let i = 0; i < 5000; i++) parse(text);
const started = process.hrtime.bigint();
for (let i = 0; i < parses; i++) parse(text);
console.log(String(process.hrtime.bigint() - started), 0);

// Parses and prints standard input by graphql-js 16, from Debian's package node-graphql or the folder that GRAPHQL
// names. On standard error: how many milliseconds parse and print took.
"use strict";

const { readFileSync } = require("fs");
const { parse, print } = require(process.env.GRAPHQL || "/usr/share/nodejs/graphql");

const text = readFileSync(0, "utf8");
const started = performance.now();
const printed = print(parse(text));
console.error((performance.now() - started).toFixed(1));
process.stdout.write(printed);

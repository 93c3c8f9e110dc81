// Tests how the extension starts and ends servers, and reads long answers, over stand-ins for VS Code and for gqlls:
// `node restarts.js [FOLDER]`. FOLDER has the extension, if it is not this one.
const assert = require("node:assert");
const processes = require("node:child_process");
const { readFileSync } = require("node:fs");
const Module = require("node:module");
const { join, resolve } = require("node:path");
const { commands, Document, providers, settings, shown, tell, vscode } = require("./vscode.js");

// All programs that were started.
const servers = [];
const { spawn } = processes;
processes.spawn = (...words) => {
  servers.push(spawn(...words));
  return servers.at(-1);
};
const load = Module._load;
Module._load = (name, ...rest) => (name === "vscode" ? vscode : load(name, ...rest));
const folder = process.argv[2] ? resolve(process.argv[2]) : join(__dirname, "..");
const { activate, deactivate } = require(folder);
const manifest = JSON.parse(readFileSync(join(folder, "package.json"), "utf8"));

const alive = () =>
  servers.filter(({ pid, exitCode, signalCode }) => pid !== undefined && exitCode === null && signalCode === null);
const pause = (milliseconds) => new Promise((resolve) => setTimeout(resolve, milliseconds));
const change = () => tell("onDidChangeConfiguration", { affectsConfiguration: (name) => name === "gqlls" });
const LANGUAGES = ["graphql", "javascript", "javascriptreact", "typescript", "typescriptreact", "python"];

// Waits until the extension has done what it does, for twenty seconds at most: the last server is the only one, and
// serves.
async function settled() {
  for (let left = 200; alive().length !== 1 || alive()[0] !== servers.at(-1) || !providers.Hover; left--) {
    assert.ok(
      left > 0,
      `${alive().length} of ${servers.length} servers are alive, and hover is ${
        providers.Hover ? "served" : "not served"}`
    );
    await pause(100);
  }
}

const tests = {
  async "changes of settings leave one server"() {
    for (const gaps of [[5], [0, 0, 0], [5, 40, 5, 100, 1], Array(30).fill(7)]) {
      const before = servers.length;
      change();
      for (const gap of gaps) {
        await pause(gap);
        assert.ok(alive().length <= 1, `${alive().length} servers at once`);
        change();
      }
      await settled();
      assert.ok(servers.length > before);
      await pause(300);
      assert.equal(alive().length, 1);
    }
  },

  async "the last change counts"() {
    const words = () => servers.at(-1).spawnargs.slice(1);
    for (const limit of [7, 8, 9]) {
      settings.recursionLimit = limit;
      change();
    }
    await settled();
    assert.deepEqual(words(), ["--recursion", "9"]);
    await pause(20);
    settings.recursionLimit = 10;
    const both = [commands["gqlls.restart"](), commands["gqlls.restart"]()];
    await Promise.all(both);
    await settled();
    assert.deepEqual(words(), ["--recursion", "10"]);
  },

  async "a program that says nothing is ended"() {
    settings.recursionLimit = 0;
    change();
    await pause(200);
    settings.recursionLimit = 500;
    change();
    await settled();
    assert.deepEqual(shown, []);
  },

  async "a program that is not there is said once, and does not stay in the way"() {
    for (const [path, why] of [
           ["missing", /^gqlls cannot be started as missing: .*ENOENT/], ["", /^gqlls cannot be started as : /]]) {
      settings.path = path;
      change();
      change();
      await pause(500);
      assert.match(shown.pop(), why);
    }
    settings.path = join(__dirname, "stand_in.js");
    change();
    await settled();
    assert.deepEqual(shown, []);
  },

  // an answer of 30 MB comes in pieces of at most 64 KB
  async "a long answer is joined once"() {
    const { concat } = Buffer;
    let joined = 0;
    Buffer.concat = (pieces, ...rest) => {
      const whole = concat(pieces, ...rest);
      joined += whole.length;
      return whole;
    };
    const { contents } = await providers.Hover.provider.provideHover(
      new Document("/a.graphql", "{a}"), new vscode.Position(30_000_000, 0)
    );
    Buffer.concat = concat;
    assert.equal(contents.value.length, 30_000_000);
    assert.ok(joined < 60_000_000, `${joined} bytes are joined for an answer of 30,000,000`);
  },

  // the server knows templates in these languages (docs/EDITORS.md), where layout and folds are those of the language
  async "languages with templates are served"() {
    const languages = (name) => providers[name].selector.map(({ language }) => language);
    assert.deepEqual(languages("Hover"), LANGUAGES);
    assert.deepEqual([languages("FoldingRange"), languages("DocumentFormattingEdit")], [["graphql"], ["graphql"]]);
    assert.deepEqual(manifest.activationEvents, LANGUAGES.map((language) => `onLanguage:${language}`));
  },

  async "a folder names the program only where the machine's settings may be overridden"() {
    assert.equal(manifest.contributes.configuration.properties["gqlls.path"].scope, "machine-overridable");
  },

  async "nothing is left"() {
    change();
    await pause(5);
    change();
    await deactivate();
    await pause(300);
    assert.deepEqual([alive().length, Object.keys(providers), shown], [0, [], []]);
  },
};

async function main() {
  settings.path = join(__dirname, "stand_in.js");
  await activate({ subscriptions: [] });
  for (const [name, test] of Object.entries(tests))
    await test().catch((error) => Promise.reject(new Error(`${name}: ${error.stack}`)));
  console.log(`extension: ${Object.keys(tests).length} tests of its servers passed`);
  process.exit(0);
}

main().catch((error) => {
  console.error(error.message);
  for (const server of alive()) server.kill("SIGKILL");
  process.exit(1);
});

// Tests the extension over a stand-in for VS Code and the program gqlls: `node server.js PROGRAM [FOLDER]`. FOLDER has
// the extension, if it is not this one. Places in the texts were counted by hand.
const assert = require("node:assert");
const processes = require("node:child_process");
const { mkdtempSync, readFileSync, rmSync, unlinkSync, writeFileSync } = require("node:fs");
const Module = require("node:module");
const { tmpdir } = require("node:os");
const { join } = require("node:path");
const { pathToFileURL } = require("node:url");
const { commands, Document, errors, PROVIDERS, providers, settings, shown, tell, vscode } = require("./vscode.js");

// The program that was started last.
let server;
const { spawn } = processes;
processes.spawn = (...words) => (server = spawn(...words));
const load = Module._load;
Module._load = (name, ...rest) => (name === "vscode" ? vscode : load(name, ...rest));
const { activate, deactivate } = require(process.argv[3] ?? "..");

const data = (name) => readFileSync(join(__dirname, "../../../tests/editors/data", name), "utf8");
const query = new Document("/a b/query.graphql", data("query.graphql"));
const schema = new Document("/schema.graphql", data("schema.graphql"));
const notes = new Document("/notes.txt", "{", "plaintext");
// A type that only a file of the folder defines.
const folder = mkdtempSync(join(tmpdir(), "gqlls-"));
const stored = pathToFileURL(join(folder, "stored.graphql"));
writeFileSync(stored, "type Elsewhere { a: ID }");
vscode.workspace.workspaceFolders.push({ uri: vscode.Uri.parse(pathToFileURL(folder).href), name: "folder" });
process.on("exit", () => rmSync(folder, { recursive: true }));
const stray = new Document("/stray.graphql", "fragment f on Elsewhere { a }");
const errorsOf = (document) => errors.get(document.uri.toString());
const span = ({ start, end }) => [start.line, start.character, end.line, end.character];
const ask = (name, call, ...given) => providers[name].provider[call](...given);
const at = (line, character) => new vscode.Position(line, character);
// A text after edits, which all refer to it.
const edited = (text, edits) =>
  edits.reduceRight((after, { range, newText }) => {
    const lines = text.split("\n");
    const offset = ({ line, character }) => lines.slice(0, line).join("\n").length + (line && 1) + character;
    return after.slice(0, offset(range.start)) + newText + after.slice(offset(range.end));
  }, text);
const OPTIONS = { tabSize: 2, insertSpaces: true };

// Lets the server go on until something is true, for a hundred seconds at most.
async function until(isReady) {
  for (let left = 10000; !isReady(); left--) {
    assert.ok(left > 0, String(isReady));
    await new Promise((resolve) => setTimeout(resolve, 10));
  }
}

const tests = {
  async "documents that are open are followed"() {
    await until(() => errorsOf(query) && errorsOf(schema));
    assert.deepEqual([errorsOf(query), errorsOf(schema), errorsOf(notes)], [[], [], undefined]);
    const opened = new Document("/new.graphql", "{ a ");
    tell("onDidOpenTextDocument", opened);
    await until(() => errorsOf(opened));
    const [{ range, message, severity, source, relatedInformation }] = errorsOf(opened);
    assert.deepEqual(
      [span(range), message, severity, source, relatedInformation], [[0, 4, 0, 4], "expected }", 0, "gqlls", undefined]
    );
    tell("onDidChangeTextDocument", { document: opened, contentChanges: [] });
    opened.replace(new vscode.Range(0, 4, 0, 4), "\nfragment F on T { b }");
    await until(() => errorsOf(opened)[0].relatedInformation);
    const [{ location, message: words }] = errorsOf(opened)[0].relatedInformation;
    assert.deepEqual(
      [location.uri.path, span(location.range), words], ["/new.graphql", [0, 0, 0, 1], "this { is never closed"]
    );
    opened.replace(new vscode.Range(0, 4, 1, 21), "");
    opened.replace(new vscode.Range(0, 4, 0, 4), "}");
    await until(() => errorsOf(opened).length === 0);
    tell("onDidCloseTextDocument", opened);
    await until(() => !errorsOf(opened));
    tell("onDidOpenTextDocument", notes);
    notes.replace(new vscode.Range(0, 0, 0, 1), "}");
  },

  async "outline, folds and growing selection"() {
    const [find, parts] = await ask("DocumentSymbol", "provideDocumentSymbols", query);
    assert.deepEqual([find.name, span(find.range), span(find.selectionRange)], ["Find", [0, 0, 2, 1], [0, 6, 0, 10]]);
    assert.deepEqual(find.children.map(({ name, detail }) => [name, detail]), [["$id", "ID!"], ["pet", ""]]);
    assert.deepEqual([parts.name, parts.detail, span(parts.range)], ["parts", "on Pet", [3, 0, 3, 30]]);
    const folds = await ask("FoldingRange", "provideFoldingRanges", schema, {});
    assert.deepEqual(folds.map(({ start, end, kind }) => [start, end, kind]), [[1, 3, undefined], [6, 7, undefined]]);
    const [name] = await ask("SelectionRange", "provideSelectionRanges", query, [at(3, 26)]);
    assert.deepEqual([name, name.parent, name.parent.parent].map(({ range }) => span(range)), [
      [3, 24, 3, 28], [3, 22, 3, 30], [3, 0, 3, 30]
    ]);
  },

  // the layout is that of docs/FORMAT.md
  async "layout"() {
    const whole = await ask("DocumentFormattingEdit", "provideDocumentFormattingEdits", query, OPTIONS);
    assert.equal(
      edited(data("query.graphql"), whole),
      data("query.graphql").replace("{ ...parts }", "{\n    ...parts\n  }").replace("{ name }", "{\n  name\n}")
    );
    const part = await ask(
      "DocumentRangeFormattingEdit", "provideDocumentRangeFormattingEdits", query, new vscode.Range(3, 0, 3, 5), OPTIONS
    );
    assert.deepEqual(
      part.map(({ range, newText }) => [span(range), newText]), [[[3, 23, 3, 23], "\n "], [[3, 28, 3, 29], "\n"]]
    );
  },

  async "definition, references and hover"() {
    const found = await ask("Definition", "provideDefinition", query, at(1, 22));
    assert.deepEqual([found.uri.path, span(found.range)], ["/a%20b/query.graphql", [3, 9, 3, 14]]);
    for (const [includeDeclaration, count] of [[true, 2], [false, 1]]) {
      assert.equal(
        (await ask("Reference", "provideReferences", query, at(1, 22), { includeDeclaration })).length, count
      );
    }
    const hover = await ask("Hover", "provideHover", schema, at(3, 17));
    assert.match(hover.contents.value, /type Pet/);
    assert.deepEqual(span(hover.range), [3, 16, 3, 19]);
    assert.equal(await ask("Hover", "provideHover", schema, at(0, 0)), null);
  },

  async "renaming, marks and symbols of the folder"() {
    const places = [[1, 20, 1, 25], [3, 9, 3, 14]];
    const { all } = await ask("Rename", "provideRenameEdits", query, at(1, 22), "some");
    assert.deepEqual(
      all.map(({ uri, edits }) => [uri.path, edits.map(({ range }) => span(range))]), [["/a%20b/query.graphql", places]]
    );
    assert.deepEqual(all[0].edits.map(({ newText }) => newText), ["some", "some"]);
    assert.equal(await ask("Rename", "provideRenameEdits", query, at(1, 22), "1"), null);
    const marks = await ask("DocumentHighlight", "provideDocumentHighlights", query, at(1, 22));
    assert.deepEqual(marks.map(({ range }) => span(range)), places);
    const symbols = await ask("WorkspaceSymbol", "provideWorkspaceSymbols", "PE");
    assert.deepEqual(
      symbols.map(({ name, location }) => [name, location.uri.path, span(location.range)]),
      [["Pet", "/schema.graphql", [6, 5, 6, 8]]]
    );
  },

  async "files of the folder"() {
    const type = () => ask("Definition", "provideDefinition", stray, at(0, 14));
    const { path } = (await type()).uri;
    assert.equal(path, stored.pathname);
    writeFileSync(stored, "\ntype Elsewhere { a: ID }");
    tell("change", vscode.Uri.parse(stored.href));
    assert.deepEqual(span((await type()).range), [1, 5, 1, 14]);
    unlinkSync(stored);
    tell("delete", vscode.Uri.parse(stored.href));
    assert.equal(await type(), null);
  },

  async "signature"() {
    assert.deepEqual(providers.SignatureHelp.words, ["(", ","]);
    const { signatures, activeSignature, activeParameter } =
      await ask("SignatureHelp", "provideSignatureHelp", query, at(1, 6));
    const [{ label, documentation, parameters }] = signatures;
    assert.deepEqual(
      [label, documentation, parameters.map((it) => it.label)], ["pet(id: ID!): Pet", "One pet.", ["id: ID!"]]
    );
    assert.deepEqual([signatures.length, activeSignature, activeParameter], [1, 0, 0]);
  },

  async "templates"() {
    for (const [languageId, text] of [
           ["typescript", "const q = gql`{ pet(id: }`\n"], ["python", 'Q = gql(\"\"\"{ pet(id: }\"\"\")\n']]) {
      const host = new Document(`/host.${languageId}`, text, languageId);
      tell("onDidOpenTextDocument", host);
      await until(() => errorsOf(host));
      assert.deepEqual(errorsOf(host).map(({ range }) => [range.start.line, text[range.start.character]]), [[0, "}"]]);
      const items = await ask("CompletionItem", "provideCompletionItems", host, at(0, text.indexOf("pet")));
      assert.ok(items.some(({ label }) => label === "pet"));
      host.replace(new vscode.Range(0, text.indexOf("}"), 0, text.indexOf("}")), "1) ");
      await until(() => errorsOf(host).length === 0);
      tell("onDidCloseTextDocument", host);
      await until(() => !errorsOf(host));
    }
  },

  async "completion"() {
    assert.deepEqual(providers.CompletionItem.words, ["$", "@", ".", ":", "(", "{"]);
    const items = await ask("CompletionItem", "provideCompletionItems", schema, at(3, 17));
    const pet = items.find(({ label }) => label === "Pet");
    assert.deepEqual([pet.kind, pet.insertText, span(pet.range)], [6, "Pet", [3, 16, 3, 17]]);
  },

  async "colours"() {
    const [{ tokenTypes }] = providers.DocumentSemanticTokens.words;
    const { data: all } = await ask("DocumentSemanticTokens", "provideDocumentSemanticTokens", query);
    const { data: some } = await ask(
      "DocumentRangeSemanticTokens", "provideDocumentRangeSemanticTokens", query, new vscode.Range(3, 0, 3, 5)
    );
    assert.deepEqual([[...all.slice(0, 3)], tokenTypes[all[3]]], [[0, 0, 5], "keyword"]);
    assert.deepEqual([[...some.slice(0, 3)], tokenTypes[some[3]]], [[3, 0, 8], "keyword"]);
  },

  async "a program that is no server, or none, is said"() {
    const missing = { path: "missing", why: /^gqlls cannot be started as missing: .*ENOENT/ };
    for (const { path, why } of [missing, { path: "true", why: /^gqlls cannot be started as true: / }]) {
      settings.path = path;
      tell("onDidChangeConfiguration", { affectsConfiguration: (name) => name === "gqlls" });
      await until(() => shown.length > 0);
      assert.match(shown.pop(), why);
      assert.deepEqual([shown, Object.keys(providers), errors.size], [[], [], 0]);
    }
  },

  // a text that the default limits allow, and smaller ones do not: a level too deep, and a token too many
  async "limits are passed on, and a change starts the server anew"() {
    settings.path = process.argv[2];
    for (const [limits, found] of [
      [{ recursionLimit: 1 }, ["parser recursion limit reached"]],
      [{ tokenLimit: 4 }, ["token limit reached, aborting lexing"]],
      [{}, []],
    ]) {
      Object.assign(settings, { recursionLimit: 500, tokenLimit: null }, limits);
      errors.clear();
      tell("onDidChangeConfiguration", { affectsConfiguration: (name) => name === "gqlls" });
      await until(() => errorsOf(query));
      assert.deepEqual(errorsOf(query).map(({ message }) => message), found);
    }
  },

  async "a limit that is none is refused, and not dropped"() {
    for (const tokenLimit of [-1, 1.5, "ten", 2 ** 70]) {
      settings.tokenLimit = tokenLimit;
      tell("onDidChangeConfiguration", { affectsConfiguration: (name) => name === "gqlls" });
      await until(() => shown.length > 0);
      assert.match(shown.pop(), /^gqlls cannot be started as .*: the server has ended$/);
      assert.deepEqual([shown, Object.keys(providers)], [[], []]);
    }
    settings.tokenLimit = null;
  },

  async "a server that ends is said, and started anew"() {
    settings.path = process.argv[2];
    await commands["gqlls.restart"]();
    await until(() => errorsOf(query));
    assert.deepEqual(Object.keys(providers).sort(), [...PROVIDERS].sort());
    tell("onDidChangeConfiguration", { affectsConfiguration: () => false });
    server.kill("SIGKILL");
    await until(() => shown.length > 0);
    assert.deepEqual([shown.pop(), Object.keys(providers), errors.size], ["gqlls ended with signal SIGKILL", [], 0]);
    await commands["gqlls.restart"]();
    await until(() => errorsOf(query));
  },
};

async function main() {
  settings.path = process.argv[2];
  vscode.workspace.textDocuments = [query, schema, notes, stray];
  const context = { subscriptions: [] };
  await activate(context);
  assert.equal(context.subscriptions.length, 2);
  for (const [name, test] of Object.entries(tests))
    await test().catch((error) => Promise.reject(new Error(`${name}: ${error.stack}`)));
  await deactivate();
  assert.deepEqual([server.exitCode, shown, Object.keys(providers), errors.size], [0, [], [], 0]);
  console.log(`extension: ${Object.keys(tests).length} tests over gqlls passed`);
}

main().catch((error) => {
  console.error(error.message);
  process.exit(1);
});

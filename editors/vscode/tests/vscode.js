// Stands in for VS Code's module `vscode`: the values that the extension makes, the documents that are open, and what
// the extension registered and showed.
const assert = require("node:assert");

class Position {
  constructor(line, character) {
    assert.ok(Number.isInteger(line) && Number.isInteger(character));
    Object.assign(this, { line, character });
  }
  isAfter = (other) => this.line > other.line || (this.line === other.line && this.character > other.character);
}

class Range {
  constructor(startLine, startCharacter, endLine, endCharacter) {
    Object.assign(this, { start: new Position(startLine, startCharacter), end: new Position(endLine, endCharacter) });
  }
  contains = (other) => !this.start.isAfter(other.start) && !other.end.isAfter(this.end);
}

// The edits of some documents.
class WorkspaceEdit {
  all = [];
  set = (uri, edits) => this.all.push({ uri, edits });
}

// A class whose values have these fields, in the order of the constructor's arguments, after a check that VS Code makes
// too.
function record(fields, check = () => true) {
  return class {
    constructor(...values) {
      fields.forEach((field, at) => (this[field] = values[at]));
      assert.ok(check(this));
    }
  };
}

const Uri = { parse: (text) => ({ path: new URL(text).pathname, toString: () => text }) };

// A document, and what its editor does.
class Document {
  constructor(path, text, languageId = "graphql") {
    Object.assign(this, { uri: Uri.parse(`file://${path}`), text, languageId, version: 1 });
  }
  getText = () => this.text;
  offset = ({ line, character }) =>
    this.text.split("\n").slice(0, line).join("\n").length + (line > 0 ? 1 : 0) + character;
  // Puts a text in the place of a range, and says so.
  replace(range, text) {
    this.text = this.text.slice(0, this.offset(range.start)) + text + this.text.slice(this.offset(range.end));
    this.version++;
    tell("onDidChangeTextDocument", { document: this, contentChanges: [{ range, text }] });
  }
}

const [listeners, commands, providers, shown, errors, settings] =
  [{}, {}, {}, [], new Map(), { path: "gqlls", recursionLimit: 500, tokenLimit: null }];
const tell = (event, given) => [...(listeners[event] ?? [])].forEach((listener) => listener(given));

function listening(event) {
  return (listener) => {
    listeners[event] = [...(listeners[event] ?? []), listener];
    return { dispose: () => (listeners[event] = listeners[event].filter((other) => other !== listener)) };
  };
}

// Each is registered once.
const registering = (name) => (selector, provider, ...words) => {
  assert.equal(providers[name], undefined);
  providers[name] = { selector, provider, words };
  return { dispose: () => delete providers[name] };
};
const PROVIDERS = [
  "DocumentSymbol", "FoldingRange", "SelectionRange", "DocumentFormattingEdit", "DocumentRangeFormattingEdit",
  "Definition", "Reference"
];
PROVIDERS.push(
  "Hover", "CompletionItem", "DocumentSemanticTokens", "DocumentRangeSemanticTokens", "DocumentHighlight", "Rename",
  "SignatureHelp"
);

const vscode = {
  Position,
  Range,
  Uri,
  Location: record(["uri", "range"]),
  TextEdit: record(["range", "newText"]),
  Diagnostic: record(["range", "message", "severity"]),
  DiagnosticRelatedInformation: record(["location", "message"]),
  DocumentSymbol: record(
    ["name", "detail", "kind", "range", "selectionRange"],
    ({ name, range, selectionRange }) => name && range.contains(selectionRange)
  ),
  CompletionItem: record(["label", "kind"]),
  FoldingRange: record(["start", "end", "kind"]),
  DocumentHighlight: record(["range"]),
  SymbolInformation: record(["name", "kind", "containerName", "location"]),
  WorkspaceEdit,
  SignatureHelp: record([]),
  SignatureInformation: record(["label", "documentation"]),
  ParameterInformation: record(["label"]),
  FoldingRangeKind: { Comment: 1 },
  SelectionRange: record(["range", "parent"], ({ range, parent }) => !parent || parent.range.contains(range)),
  Hover: record(["contents", "range"]),
  MarkdownString: record(["value"]),
  SemanticTokens: record(["data"]),
  SemanticTokensLegend: record(["tokenTypes", "tokenModifiers"]),
  commands: { registerCommand: (name, call) => (commands[name] = call) },
  window: { showErrorMessage: (message) => shown.push(message) },
  workspace: {
    textDocuments: [],
    workspaceFolders: [],
    getConfiguration: () => ({ get: (name) => settings[name] }),
    createFileSystemWatcher: (pattern) => {
      assert.equal(pattern, "**/*.{graphql,graphqls,gql}");
      return {
        onDidCreate: listening("create"),
        onDidChange: listening("change"),
        onDidDelete: listening("delete"),
        dispose: () => {}
      };
    },
  },
  languages: {
    createDiagnosticCollection: () => ({
      set: (uri, found) => errors.set(uri.toString(), found),
      delete: (uri) => errors.delete(uri.toString()),
      dispose: () => errors.clear(),
    }),
  },
};
for (const name of PROVIDERS) vscode.languages[`register${name}Provider`] = registering(name);
PROVIDERS.push("WorkspaceSymbol");
// This is the one that is not about a language.
vscode.languages.registerWorkspaceSymbolProvider = (provider) => registering("WorkspaceSymbol")(undefined, provider);
for (const event
       of ["onDidOpenTextDocument", "onDidChangeTextDocument", "onDidCloseTextDocument", "onDidChangeConfiguration"]) {
  vscode.workspace[event] = listening(event);
}

module.exports = { commands, Document, errors, PROVIDERS, providers, settings, shown, tell, vscode };

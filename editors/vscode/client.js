// A client of gqlls: it tells the server of the documents that are open, shows the errors, and asks the server what VS
// Code wants to know.
const { languages, SemanticTokensLegend, Uri, window, workspace } = require("vscode");
const answers = require("./answers.js");
const { Connection } = require("./connection.js");

// The languages of documents that are GraphQL, and of those that have it in templates.
const GRAPHQL = ["graphql"];
const ALL = [...GRAPHQL, "javascript", "javascriptreact", "typescript", "typescriptreact", "python"];
const CAPABILITIES = {
  general: { positionEncodings: ["utf-16"] },
  textDocument: {
    documentSymbol: { hierarchicalDocumentSymbolSupport: true },
    hover: { contentFormat: ["markdown"] },
    publishDiagnostics: { relatedInformation: true },
  },
};

const named = (document) => ({ uri: document.uri.toString() });
const position = ({ line, character }) => ({ line, character });
const range = ({ start, end }) => ({ start: position(start), end: position(end) });
// Lists of the server's values become lists of VS Code's.
const each = (value) => (list) => list.map(value);
const atPosition = (at) => ({ position: position(at) });
const inRange = (at) => ({ range: range(at) });
const options = ({ tabSize, insertSpaces }) => ({ options: { tabSize, insertSpaces } });
const triggers = ({ triggerCharacters }) => triggerCharacters;
const legend = ({ legend: { tokenTypes, tokenModifiers } }) => [new SemanticTokensLegend(tokenTypes, tokenModifiers)];

// What the server may serve: its capability; VS Code's provider with its call, and further words of its registration;
// the request, what it says beside the document, which it makes of the call's arguments, and how its answer is read. Of
// layout, folds and colours a document has one provider, so that these are left to the language that a template is in
// (`languages`).
const SERVED = [
  {
    can: "documentSymbolProvider",
    provider: "DocumentSymbol",
    call: "provideDocumentSymbols",
    method: "documentSymbol",
    value: each(answers.symbol)
  },
  {
    can: "foldingRangeProvider",
    provider: "FoldingRange",
    languages: GRAPHQL,
    call: "provideFoldingRanges",
    method: "foldingRange",
    value: each(answers.fold)
  },
  {
    can: "definitionProvider",
    provider: "Definition",
    call: "provideDefinition",
    method: "definition",
    more: atPosition,
    value: answers.location
  },
  {
    can: "hoverProvider",
    provider: "Hover",
    call: "provideHover",
    method: "hover",
    more: atPosition,
    value: answers.hover
  },
  {
    can: "selectionRangeProvider",
    provider: "SelectionRange",
    call: "provideSelectionRanges",
    method: "selectionRange",
    more: (positions) => ({ positions: positions.map(position) }),
    value: each(answers.selection),
  },
  {
    can: "referencesProvider",
    provider: "Reference",
    call: "provideReferences",
    method: "references",
    more: (at, { includeDeclaration }) => ({...atPosition(at), context: { includeDeclaration } }),
    value: each(answers.location),
  },
  {
    can: "documentHighlightProvider",
    provider: "DocumentHighlight",
    call: "provideDocumentHighlights",
    method: "documentHighlight",
    more: atPosition,
    value: each(answers.highlight),
  },
  {
    can: "renameProvider",
    provider: "Rename",
    call: "provideRenameEdits",
    method: "rename",
    more: (at, newName) => ({...atPosition(at), newName }),
    value: answers.changes,
  },
  {
    can: "completionProvider",
    provider: "CompletionItem",
    words: triggers,
    call: "provideCompletionItems",
    method: "completion",
    more: atPosition,
    value: each(answers.completion),
  },
  {
    can: "signatureHelpProvider",
    provider: "SignatureHelp",
    words: triggers,
    call: "provideSignatureHelp",
    method: "signatureHelp",
    more: atPosition,
    value: answers.signatures,
  },
  {
    can: "documentFormattingProvider",
    languages: GRAPHQL,
    provider: "DocumentFormattingEdit",
    call: "provideDocumentFormattingEdits",
    method: "formatting",
    more: options,
    value: each(answers.edit),
  },
  {
    can: "documentRangeFormattingProvider",
    languages: GRAPHQL,
    provider: "DocumentRangeFormattingEdit",
    call: "provideDocumentRangeFormattingEdits",
    method: "rangeFormatting",
    more: (at, given) => ({...inRange(at), ...options(given) }),
    value: each(answers.edit),
  },
  {
    can: "semanticTokensProvider",
    languages: GRAPHQL,
    provider: "DocumentSemanticTokens",
    words: legend,
    call: "provideDocumentSemanticTokens",
    method: "semanticTokens/full",
    value: answers.tokens,
  },
  {
    can: "semanticTokensProvider",
    languages: GRAPHQL,
    provider: "DocumentRangeSemanticTokens",
    words: legend,
    call: "provideDocumentRangeSemanticTokens",
    method: "semanticTokens/range",
    more: inRange,
    value: answers.tokens,
  },
];

class Client {
  constructor(command, words) {
    this.command = command;
    this.words = words;
    this.disposables = [];
  }

  // Starts the server and serves what it says that it can. Throws when the program cannot be started, or when it is
  // stopped meanwhile.
  async start() {
    // a server that is stopped may still send what it had to say
    const notified = (method, params) =>
      method === "textDocument/publishDiagnostics" && !this.isStopped && this.#show(params);
    const ended = (how) => {
      this.#dispose();
      if (this.isServing) window.showErrorMessage(`gqlls ended with ${how}`);
    };
    this.connection = new Connection(this.command, this.words, { notified, ended });
    await this.connection.started;
    this.#goOn();
    this.errors = languages.createDiagnosticCollection("gqlls");
    this.disposables.push(this.errors);
    const workspaceFolders = (workspace.workspaceFolders ?? []).map(({ uri, name }) => ({ uri: uri.toString(), name }));
    const rootUri = workspaceFolders[0]?.uri ?? null;
    const { capabilities } = await this.connection.request(
      "initialize", { processId: process.pid, rootUri, workspaceFolders, capabilities: CAPABILITIES }
    );
    this.#goOn();
    this.connection.notify("initialized", {});
    this.#follow();
    this.#watch();
    this.#serve(capabilities);
    this.isServing = true;
  }

  async stop() {
    this.isStopped = true;
    this.#dispose();
    await this.connection?.close();
  }

  #goOn() {
    if (this.isStopped) throw new Error("the server was stopped");
  }

  #dispose() {
    for (const it of this.disposables.splice(0)) it.dispose();
  }

  #show({ uri, diagnostics }) {
    this.errors.set(Uri.parse(uri), diagnostics.map(answers.diagnostic));
  }

  // Tells the server of the documents: those that are open, and what becomes of them.
  #follow() {
    const tell = (act) => (document) => ALL.includes(document.languageId) && act(document);
    const opened = tell((document) => {
      const textDocument = {
        ...named(document),
        languageId: document.languageId,
        version: document.version,
        text: document.getText()
      };
      this.connection.notify("textDocument/didOpen", { textDocument });
    });
    const closed = tell((document) => {
      this.connection.notify("textDocument/didClose", { textDocument: named(document) });
      this.errors.delete(document.uri);
    });
    const changed = ({ document, contentChanges }) => {
      if (!ALL.includes(document.languageId) || contentChanges.length === 0) return;
      const changes = contentChanges.map(({ range: at, text }) => ({ range: range(at), text }));
      this.connection.notify(
        "textDocument/didChange",
        { textDocument: {...named(document), version: document.version }, contentChanges: changes }
      );
    };
    workspace.textDocuments.forEach(opened);
    this.disposables.push(
      workspace.onDidOpenTextDocument(opened), workspace.onDidChangeTextDocument(changed),
      workspace.onDidCloseTextDocument(closed)
    );
  }

  // Tells the server of the files of the folder: which are made, changed or deleted (1 to 3 of the protocol's
  // `FileChangeType`).
  #watch() {
    const watcher = workspace.createFileSystemWatcher("**/*.{graphql,graphqls,gql}");
    const tell = (type) => (uri) =>
      this.connection.notify("workspace/didChangeWatchedFiles", { changes: [{ uri: uri.toString(), type }] });
    this.disposables.push(
      watcher, watcher.onDidCreate(tell(1)), watcher.onDidChange(tell(2)), watcher.onDidDelete(tell(3))
    );
  }

  // The answer as a value of VS Code. It is null where the server has none, or refuses the request.
  async #ask(method, params, value) {
    try {
      const result = await this.connection.request(method, params);
      return result && value(result);
    } catch {
      return null;
    }
  }

  #serve(capabilities) {
    for (const { can, provider, languages: served = ALL, words = () => [], call, method, more = () => ({}), value } of
           SERVED) {
      if (!capabilities[can]) continue;
      const ask = (document, ...given) =>
        this.#ask(`textDocument/${method}`, { textDocument: named(document), ...more(...given) }, value);
      this.disposables.push(languages[`register${provider}Provider`](
        served.map((language) => ({ language })), { [call]: ask }, ...words(capabilities[can])
      ));
    }
    if (!capabilities.workspaceSymbolProvider) return;
    const provideWorkspaceSymbols = (query) => this.#ask("workspace/symbol", { query }, each(answers.found));
    this.disposables.push(languages.registerWorkspaceSymbolProvider({ provideWorkspaceSymbols }));
  }
}

exports.Client = Client;

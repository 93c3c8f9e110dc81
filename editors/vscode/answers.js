// The server's answers as values of VS Code. Both count columns in units of UTF-16.
const vscode = require("vscode");

const range = ({ start, end }) => new vscode.Range(start.line, start.character, end.line, end.character);
const location = ({ uri, range: at }) => new vscode.Location(vscode.Uri.parse(uri), range(at));
const edit = ({ range: at, newText }) => new vscode.TextEdit(range(at), newText);

// VS Code counts severities and the kinds of symbols and completions from 0, the protocol from 1.
function diagnostic({ range: at, message, severity, source, code, relatedInformation }) {
  const related =
    relatedInformation?.map((it) => new vscode.DiagnosticRelatedInformation(location(it.location), it.message));
  return Object.assign(
    new vscode.Diagnostic(range(at), message, severity - 1), { source, code, relatedInformation: related }
  );
}

function symbol({ name, detail, kind, range: whole, selectionRange, children }) {
  const made = new vscode.DocumentSymbol(name, detail ?? "", kind - 1, range(whole), range(selectionRange));
  made.children = children.map(symbol);
  return made;
}

function completion({ label, kind, textEdit }) {
  return Object.assign(
    new vscode.CompletionItem(label, kind - 1), { range: range(textEdit.range), insertText: textEdit.newText }
  );
}

// A definition that is found by its name in the open documents.
const found = ({ name, kind, location: place }) => new vscode.SymbolInformation(name, kind - 1, "", location(place));

function changes({ changes: edits }) {
  const made = new vscode.WorkspaceEdit();
  for (const [uri, list] of Object.entries(edits)) made.set(vscode.Uri.parse(uri), list.map(edit));
  return made;
}

function signature({ label, documentation, parameters }) {
  return Object.assign(new vscode.SignatureInformation(label, documentation), {
    parameters: parameters.map((parameter) => new vscode.ParameterInformation(parameter.label)),
  });
}

function signatures({ signatures: all, activeSignature, activeParameter }) {
  return Object.assign(
    new vscode.SignatureHelp(), { signatures: all.map(signature), activeSignature, activeParameter }
  );
}

const highlight = ({ range: at }) => new vscode.DocumentHighlight(range(at));
const fold = ({ startLine, endLine, kind }) =>
  new vscode.FoldingRange(startLine, endLine, kind === "comment" ? vscode.FoldingRangeKind.Comment : undefined);
const selection = ({ range: at, parent }) => new vscode.SelectionRange(range(at), parent && selection(parent));
const hover = ({ contents, range: at }) => new vscode.Hover(new vscode.MarkdownString(contents.value), range(at));
const tokens = ({ data }) => new vscode.SemanticTokens(Uint32Array.from(data));

module.exports = {
  changes,
  completion,
  diagnostic,
  edit,
  fold,
  found,
  highlight,
  hover,
  location,
  range,
  selection,
  signatures,
  symbol,
  tokens
};

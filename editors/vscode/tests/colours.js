// Tests the colours without VS Code, by a small reader of TextMate's rules: `node colours.js`.
const assert = require("node:assert");
const { readFileSync } = require("node:fs");
const { join } = require("node:path");

const grammar = JSON.parse(readFileSync(join(__dirname, "../syntaxes/graphql.tmLanguage.json"), "utf8"));

// The rules that a list of patterns has, where includes and groups are opened.
function rulesOf(patterns) {
  return patterns.flatMap((it) => {
    const rule = it.include ? grammar.repository[it.include.slice(1)] : it;
    return rule.match || rule.begin ? [rule] : rulesOf(rule.patterns);
  });
}

function matchAt(pattern, line, at) {
  const regex = new RegExp(pattern, "dg");
  regex.lastIndex = at;
  return regex.exec(line);
}

// The scopes of a match: the innermost of each character.
function paint(scopes, match, captures, name) {
  for (let at = match.index; at < match.index + match[0].length; at++) scopes[at] ??= name;
  for (const [group, capture] of Object.entries(captures ?? {})) {
    const range = match.indices[group];
    if (range) scopes.fill(capture.name, ...range);
  }
}

// The scope of each character of a text, line by line.
function scopesOf(text) {
  const open = [{ patterns: grammar.patterns }];
  return text.split("\n").map((line) => {
    const scopes = new Array(line.length);
    for (let at = 0; ; ) {
      const inside = open[open.length - 1];
      const found = rulesOf(inside.patterns ?? [])
        .map((rule) => ({ rule, match: matchAt(rule.match ?? rule.begin, line, at) }))
        .filter(({ match }) => match);
      if (inside.end) {
        const match = matchAt(inside.end, line, at);
        if (match) found.unshift({ match });
      }
      const first = found.reduce((best, it) => (!best || it.match.index < best.match.index ? it : best), undefined);
      const content = inside.contentName ?? inside.name;
      scopes.fill(content, at, first ? first.match.index : line.length);
      if (!first) return scopes;
      const { rule, match } = first;
      if (!rule) {
        paint(scopes, match, inside.endCaptures, inside.name);
        open.pop();
      } else if (rule.begin) {
        paint(scopes, match, rule.beginCaptures, rule.name);
        open.push(rule);
      } else {
        paint(scopes, match, rule.captures, rule.name ?? content);
      }
      if (match.index + match[0].length === at && rule) return scopes;
      at = match.index + match[0].length;
    }
  });
}

// The last part but the language's of the scope of a piece of a text's line, which has one scope.
function scopeOf(text, piece) {
  const lines = text.split("\n");
  const row = lines.findIndex((line) => line.includes(piece));
  const start = lines[row].indexOf(piece);
  const found = new Set(scopesOf(text)[row].slice(start, start + piece.length));
  assert.equal(found.size, 1, `${piece} has the scopes ${[...found]}`);
  return [...found][0]?.replace(/\.graphql$/, "");
}

const QUERY =
  `query Hero($id: ID! = "a") @live { name: hero(id: $id, n: -1.5e3) { ...Parts ... on Droid { type } } } # query "x"`;
const TYPES = `"The hero." type Hero implements Node @key(fields: "id", of: ["a"]) {
  """
  Its name, with \\""" inside. query
  """
  name(first: Int = 10, "How." by: [String!] = ["x", "y"]): String @deprecated(reason: """no "use" """)
  type: Kind
}
extend enum Kind { "One." ONE # two
}
directive @key repeatable on OBJECT | FIELD_DEFINITION`;

const COLOURS = [
  [QUERY, "query", "keyword.other"],
  [QUERY, "Hero", "entity.name.function"],
  [QUERY, "$id", "variable.parameter"],
  [QUERY, '"a"', "string.quoted.double"],
  [QUERY, "@live", "entity.name.function.decorator"],
  [QUERY, "name", "variable.other.member"],
  [QUERY, "-1.5e3", "constant.numeric.float"],
  [QUERY, "Parts", "entity.name.function"],
  [QUERY, "Droid", "entity.name.type"],
  [QUERY, "type", "variable.other"],
  [QUERY, '# query "x"', "comment.line.number-sign"],
  [TYPES, '"The hero."', "comment.block.documentation"],
  [TYPES, "implements", "keyword.other"],
  [TYPES, '"id"', "string.quoted.double"],
  [TYPES, '"a"', "string.quoted.double"],
  [TYPES, "Its name, with ", "comment.block.documentation"],
  [TYPES, '\\"""', "constant.character.escape"],
  [TYPES, " inside. query", "comment.block.documentation"],
  [TYPES, "10", "constant.numeric.integer"],
  [TYPES, '"How."', "comment.block.documentation"],
  [TYPES, '"x"', "string.quoted.double"],
  [TYPES, '"""no "use" """', "string.quoted.triple"],
  [TYPES, '"One."', "comment.block.documentation"],
  [TYPES, "# two", "comment.line.number-sign"],
  [TYPES, "repeatable", "keyword.other"],
  [TYPES, "FIELD_DEFINITION", "constant.language.location"],
  ['{ a(b: "\\u{1F600}\\q") }', "\\u{1F600}", "constant.character.escape"],
  ['{ a(b: "\\u{1F600}\\q") }', "\\q", "invalid.illegal.escape"],
  // a string that has no end stops at the end of its line
  ['{ a(b: "x\n  query }', "query", "variable.other"],
];

for (const [text, piece, scope] of COLOURS) assert.equal(scopeOf(text, piece), scope, piece);

console.log("extension: colours passed");

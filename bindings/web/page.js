// The page: the text, the tree, the errors and the fields together. The parser is in a worker.
import { Editor, escaped, piece } from "./editor.js";
import { isSupported } from "./parser.js";
import { FIGURES, STATUS, WORDS } from "./rows.js";
import { movedTo, Tree } from "./tree.js";
import { TreeView } from "./tree_view.js";

const MOST_LISTED = 200;
// Longer texts have no link, as those with half of a surrogate pair, and no undo once they are formatted: Chromium
// takes minutes to type a long text.
const [LONGEST_LINK, LONGEST_UNDONE] = [20000, 100000];
const NO_FIGURES = {
  [STATUS.SAME_NAME]: "two fragments have one name",
  [STATUS.CYCLE]: "a cycle of fragments",
  [STATUS.UNDEFINED]: "a spread of no fragment"
};
// Figures that count a response name once in its selection set, and the figures that count each. They are left out
// where they are the same.
const COUNTED_ONCE = { height: "fields", distinctRootFields: "rootFields" };
const REFUSED = "The parser was refused memory, or the text is too long for it.";
const HALF = "The text has half of a surrogate pair, which is no character.";
const UNSUPPORTED = "This browser has no WebAssembly that takes the parser's module.";

const at = (id) => document.getElementById(id);
const count = (number, noun) => `${number.toLocaleString("en")} ${noun}${number === 1 ? "" : "s"}`;

let [worker, running] = [null, null];
const waiting = new Map();
// The last parse, the element that is chosen, and where places of the parse are in the text of now.
let [tree, errors, chosen] = [new Tree("", { rows: new Uint32Array(WORDS), textEnd: 0 }), [], null];
let moved = (place) => place;
// The timers of the figures, which take as long as a parse, and so wait for a pause, and of the address, which browsers
// refuse to set too often.
let [measuring, linking] = [];

// Gives the worker a task, after the running one. Of each sort the last one that waits is kept. `most` is how many
// operations are wanted.
function ask(task, most) {
  waiting.set(
    task,
    { task, text: editor.text, limits: { recursion: limit("recursion", 500), tokens: limit("tokens", null) }, most }
  );
  if (running === null) next();
}

function next() {
  const [task] = waiting.keys();
  running = waiting.get(task) ?? null;
  waiting.delete(task);
  if (running !== null) worker.postMessage(running);
}

function answered({ data }) {
  const { task, text } = running;
  next();
  if (task === "measure") showMeasured(text, data);
  else if (data.failed !== undefined) say(data.failed, "failed");
  else if (task === "format") showFormatted(text, data);
  else if (data.status === STATUS.OK) showParsed(text, data);
  else say(data.status === STATUS.NOT_UTF8 ? HALF : REFUSED, "failed");
}

const limit = (id, otherwise) => (at(id).value === "" ? otherwise : Math.max(0, Math.trunc(at(id).valueAsNumber)));

// The summary is read out by screen readers, the details are not.
function say(summary, state, details = "") {
  at("verdict").dataset.state = state;
  at("summary").textContent = summary;
  at("details").textContent = details;
}

// Until a text that changed is parsed, it keeps the colours of the text before, where they are now.
function changed() {
  moved = movedTo(tree.text, editor.text);
  clearTimeout(measuring);
  if (worker !== null) ask("parse");
}

function showParsed(text, found) {
  view.show(new Tree(text, found), tree.text === "" ? null : movedTo(tree.text, text));
  tree = view.tree;
  errors = found.errors.sort((a, b) => a.start - b.start);
  moved = movedTo(text, editor.text);
  chosen = null;
  const verdict =
    found.errorCount === 0 ? ["A GraphQL document", "document"] : [count(found.errorCount, "error"), "errors"];
  say(...verdict, `${count(tree.length, "element")} · nesting ${found.depth} · ${found.took.toFixed(1)} ms`);
  list("errors", errors, found.errorCount, "error");
  // the figures of the text before stay until those of this one are there
  if (found.errorCount > 0) list("figures", []);
  else if (text === editor.text) measuring = setTimeout(() => ask("measure", MOST_LISTED), 150);
  if (document.activeElement === editor.area && text === editor.text)
    follow(editor.area.selectionStart, editor.area.selectionEnd);
  else editor.render();
  clearTimeout(linking);
  linking = setTimeout(
    () => history.replaceState(
      null, "", text.length <= LONGEST_LINK && text.isWellFormed() ? `#${encodeURIComponent(text)}` : location.pathname
    ),
    300
  );
}

// Lists the first places, with their messages, and how many more there are.
function list(id, places, placeCount, noun) {
  at(id).replaceChildren(...places.slice(0, MOST_LISTED).map(listed));
  if (placeCount > MOST_LISTED)
    at(id).append(piece("more", `and ${count(placeCount - MOST_LISTED, `more ${noun}`)}`, "li"));
}

function listed({ start, end, message }) {
  const { line, column } = editor.position(start);
  const [item, button] = [piece("", "", "li"), piece("", "", "button")];
  button.append(piece("place", `${line}:${column}`), " ", piece("message", escaped(message)));
  button.onclick = () => editor.select(moved(start), moved(end), true);
  item.append(button);
  return item;
}

// Lists the operations with their figures, or says why they have none.
function showMeasured(text, { failed, status, operations, operationCount, place }) {
  if (text !== tree.text || errors.length > 0) return;
  if (status === STATUS.OK) list("figures", operations.map(figured), operationCount, "operation");
  else if (status in NO_FIGURES) list("figures", [{ ...place, message: `No figures: ${NO_FIGURES[status]}` }]);
  else at("figures").replaceChildren(piece("more", `No figures: ${failed ?? REFUSED}`, "li"));
}

// An operation in the words of gqlcheck.
function figured({ start, end, name, ...operation }) {
  const shown = Object.keys(FIGURES).filter((figure) => operation[figure] !== operation[COUNTED_ONCE[figure]]);
  const words =
    shown.map((figure) => `${figure.replace(/[A-Z]/g, (letter) => ` ${letter.toLowerCase()}`)} ${operation[figure]}`);
  return { start, end, message: `${name ?? "anonymous operation"}: ${words.join(", ")}` };
}

function showFormatted(text, { status, text: formatted }) {
  if (status === STATUS.NOT_A_DOCUMENT) say("A text with errors is not formatted.", "errors");
  else if (status === STATUS.NO_ROOM) say("The formatted text is too long.", "errors");
  else if (status === STATUS.OK && text === editor.text && formatted !== text)
    editor.replace(formatted, Math.max(text.length, formatted.length) <= LONGEST_UNDONE);
}

// Chooses the element that the cursor or the selection is in.
function follow(start, end) {
  if (tree.text !== editor.text) return;
  chosen = tree.holding(start, end);
  view.reveal(chosen);
  editor.render();
}

function choose(element, intoText) {
  chosen = element;
  editor.select(moved(tree.start(element)), moved(tree.end(element)), intoText);
}

const range = (element, name) => ({ start: moved(tree.start(element)), end: moved(tree.end(element)), name });

// A token has the classes of its kind and, since a name is coloured as what it names, of the node above its parent.
function words(start, end) {
  const found = [];
  for (let element = tree.holding(start, start); element < tree.length && moved(tree.start(element)) < end; element++)
    if (tree.isToken(element))
      found.push(range(element, `${tree.kind(element)} in-${tree.kind(tree.parent(tree.parent(element)))}`));
  return found;
}

function underlines(start, end) {
  const inSight = errors.filter((error) => moved(error.end) >= start && moved(error.start) <= end);
  return inSight.map((error) => ({
                       ...error,
                       start: moved(error.start),
                       end: moved(error.end),
                       name: error.start === error.end ? "error empty" : "error"
                     }));
}

async function load(example) {
  const [file, copies] = example.split("*");
  const text = await (await fetch(`examples/${file}`)).text();
  editor.replace(text.repeat(Number(copies ?? 1)));
}

function loadLink() {
  // other than decodeURIComponent this reads any address
  const text =
    new URLSearchParams(`text=${location.hash.slice(1).replaceAll("+", "%2B").replaceAll("&", "%26")}`).get("text");
  if (text === "") load(at("examples").value);
  else if (text !== editor.text) editor.replace(text);
}

const ranges = { chosen: () => (chosen === null ? [] : [range(chosen, "chosen")]), words, underlines };
const editor = new Editor(at("editor"), { input: changed, cursor: follow, ranges });
const view = new TreeView(at("tree"), choose);

if (isSupported()) {
  worker = new Worker("worker.js", { type: "module" });
  worker.onmessage = answered;
  worker.onerror = () => say("The parser could not be loaded.", "failed");
  at("recursion").oninput = at("tokens").oninput = changed;
  at("quiet").onchange = ({ target }) => view.refresh(target.checked);
  at("examples").onchange = () => load(at("examples").value);
  at("format").onclick = () => ask("format");
  onhashchange = loadLink;
  loadLink();
} else say(UNSUPPORTED, "failed");

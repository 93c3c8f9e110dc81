// The tree, as rows that open and close. Only the rows in sight are in the page, so a tree may have any number of
// elements.
import { escaped, piece } from "./editor.js";
import { lastAtMost } from "./tree.js";

const ROW_HEIGHT = 24;
const MOST_LETTERS = 80;
// A tree with more elements begins with its root alone open.
const SMALL = 3000;
const QUIET = new Set(["WHITESPACE", "COMMA"]);

export class TreeView {
  // `choose(element, intoText)` is called for an element that the reader chose.
  constructor(box, choose) {
    Object.assign(
      this, { box, choose, list: box.firstElementChild, tree: null, shown: [], chosen: 0, hasQuiet: false }
    );
    // What the reader opened or closed, by the keys of the tree: so it stays so while the text changes.
    this.toggled = new Map();
    box.onscroll = () => this.#render();
    box.onkeydown = (event) => this.#press(event);
    box.onclick = (event) => this.#click(event);
    new ResizeObserver(() => this.#render()).observe(box);
  }

  // Shows the tree of a text. `moved` says where places of the text before are now; without it the text is another one.
  show(tree, moved) {
    const before = moved === null ? [] : [...this.toggled];
    this.tree = tree;
    this.toggled =
      new Map(before.map(([key, isOpen]) => [moved(Math.floor(key / 0x10000)) * 0x10000 + (key % 0x10000), isOpen]));
    this.chosen = Math.min(this.chosen, tree.length - 1);
    this.refresh();
  }

  refresh(hasQuiet = this.hasQuiet) {
    const { tree } = this;
    Object.assign(this, { hasQuiet, shown: [] });
    for (let element = 0; element < tree.length; element = this.#isOpen(element) ? element + 1 : tree.next(element))
      if (hasQuiet || !QUIET.has(tree.kind(element))) this.shown.push(element);
    this.list.style.height = `${this.shown.length * ROW_HEIGHT}px`;
    this.#render();
  }

  #isOpen(element) {
    const { tree } = this;
    if (!tree.hasChildren(element)) return false;
    return this.toggled.get(tree.key(element)) ?? (tree.length <= SMALL || element === 0);
  }

  #toggle(element) {
    this.toggled.set(this.tree.key(element), !this.#isOpen(element));
    this.refresh();
  }

  // The row of an element, or the last one before it.
  #place = (element) => lastAtMost(this.shown.length, (place) => this.shown[place], element);

  // Opens what is above an element, and brings it into sight.
  reveal(element) {
    let hasOpened = false;
    for (let above = element; above > 0; ) {
      above = this.tree.parent(above);
      hasOpened ||= !this.#isOpen(above);
      this.toggled.set(this.tree.key(above), true);
    }
    this.chosen = element;
    // the list of a large tree is long
    if (hasOpened) this.refresh();
    else this.#render();
    const top = this.#place(element) * ROW_HEIGHT;
    const { scrollTop, clientHeight } = this.box;
    if (top < scrollTop || top + ROW_HEIGHT > scrollTop + clientHeight) this.box.scrollTop = top - clientHeight / 3;
  }

  #render() {
    if (this.tree === null) return;
    const first = Math.max(0, Math.floor(this.box.scrollTop / ROW_HEIGHT) - 5);
    const elements = this.shown.slice(first, first + Math.ceil(this.box.clientHeight / ROW_HEIGHT) + 10);
    this.list.replaceChildren(...elements.map((element, i) => this.#row(element, first + i)));
    this.box.setAttribute("aria-activedescendant", elements.includes(this.chosen) ? `element-${this.chosen}` : "");
  }

  #row(element, place) {
    const { tree } = this;
    const [kind, depth, isToken] = [tree.kind(element), tree.depth(element), tree.isToken(element)];
    const row = piece(`row ${isToken ? "token" : "node"} ${kind}`);
    Object.assign(
      row, { id: `element-${element}`, role: "treeitem", ariaLevel: depth + 1, ariaSelected: element === this.chosen }
    );
    if (tree.hasChildren(element)) row.ariaExpanded = this.#isOpen(element);
    row.style.top = `${place * ROW_HEIGHT}px`;
    row.style.setProperty("--depth", depth);
    const text = isToken ? escaped(JSON.stringify(tree.textOf(element).slice(0, MOST_LETTERS))) : "";
    row.append(
      piece("kind", kind), piece("text", text), piece("range", `${tree.start(element)}..${tree.end(element)}`)
    );
    return row;
  }

  #click({ target, offsetX }) {
    const row = target.closest("[role=treeitem]");
    const element = Number(row?.id.slice("element-".length));
    const isOnArrow = target === row && offsetX < parseFloat(getComputedStyle(row).paddingLeft);
    if (isOnArrow && this.tree.hasChildren(element)) this.#toggle(element);
    else if (row !== null) this.#choose(element);
  }

  #choose(element, intoText = false) {
    this.reveal(element);
    this.choose(element, intoText);
  }

  // The keys of a tree (WAI-ARIA, "Tree View").
  #press(event) {
    const { tree, chosen, shown } = this;
    const place = this.#place(chosen);
    const page = Math.max(1, Math.floor(this.box.clientHeight / ROW_HEIGHT) - 1);
    const go = (to) => () => this.#choose(shown[Math.min(Math.max(to, 0), shown.length - 1)]);
    const keys = {
      ArrowDown: go(place + 1),
      ArrowUp: go(place - 1),
      PageDown: go(place + page),
      PageUp: go(place - page),
      Home: go(0),
      End: go(shown.length - 1)
    };
    keys.ArrowRight = () => (this.#isOpen(chosen) ? go(place + 1)() : tree.hasChildren(chosen) && this.#toggle(chosen));
    keys.ArrowLeft = () => (this.#isOpen(chosen) ? this.#toggle(chosen) : this.#choose(tree.parent(chosen)));
    keys.Enter = () => this.#choose(chosen, true);
    if (tree === null || !Object.hasOwn(keys, event.key) || event.ctrlKey || event.altKey || event.metaKey) return;
    event.preventDefault();
    keys[event.key]();
  }
}

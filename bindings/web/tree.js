// A tree as the parser wrote it: one table of rows in document order, and where its text ends. An element is the index
// of its row.
import { FIRST_NODE, KINDS } from "./kinds.js";
import { WORD, WORDS } from "./rows.js";

// Of numbers that never fall, given by their count and a function, the place of the last one that is at most `limit`,
// or 0.
export function lastAtMost(count, numberAt, limit) {
  let [low, high] = [0, count - 1];
  while (low < high) {
    const middle = (low + high + 1) >> 1;
    if (numberAt(middle) <= limit) low = middle;
    else high = middle - 1;
  }
  return low;
}

// What the word of a start has more for a node.
export const NODE = 2 ** 31;

export class Tree {
  constructor(text, { rows, textEnd }) {
    this.text = text;
    this.rows = rows;
    this.length = rows.length / WORDS;
    this.textEnd = textEnd;
  }

  #word = (element, word) => this.rows[element * WORDS + word];
  #number = (element) => this.#word(element, WORD.parent_low) >>> 24;
  start = (element) => this.#word(element, WORD.start_and_node) % NODE;
  end = (element) => (this.next(element) < this.length ? this.start(this.next(element)) : this.textEnd);
  // The root's parent is the root.
  parent = (element) => element - (this.#word(element, WORD.parent_low) & 0xffffff) -
    (this.#word(element, WORD.size_and_parent) & 15) * 2 ** 24;
  // The element after it and all below it.
  next = (element) => element + (this.#word(element, WORD.size_and_parent) >>> 4);
  kind = (element) => KINDS[this.#number(element)];
  isToken = (element) => this.#number(element) < FIRST_NODE;
  // One number for where it begins and its kind.
  key = (element) => this.start(element) * 0x10000 + this.#number(element);
  hasChildren = (element) => this.next(element) > element + 1;
  textOf = (element) => this.text.slice(this.start(element), this.end(element));

  depth(element) {
    let depth = 0;
    for (; element > 0; depth++) element = this.parent(element);
    return depth;
  }

  // The lowest element that holds a part of the text. A place at the end of a word belongs to the word.
  holding(start, end) {
    const first = start === end && /\w/.test(this.text[start - 1] ?? "") ? start - 1 : start;
    let element = lastAtMost(this.length, this.start, first);
    while (element > 0 && this.end(element) < end) element = this.parent(element);
    return element;
  }
}

// Where places of an old text are in a new one, which differs from it in one part. Engines compare long strings much
// faster than their letters one by one.
export function movedTo(older, newer) {
  const [was, is, shorter] = [older.length, newer.length, Math.min(older.length, newer.length)];
  const same = lastAtMost(shorter + 1, (count) => Number(older.slice(0, count) !== newer.slice(0, count)), 0);
  const alike =
    lastAtMost(shorter - same + 1, (count) => Number(older.slice(was - count) !== newer.slice(is - count)), 0);
  return (place) => (place < was - alike ? Math.min(place, is - alike) : place + is - was);
}

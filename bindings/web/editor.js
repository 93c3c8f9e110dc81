// The text area, and behind it the same lines once more, in colours and with underlines. Only the lines in sight are
// there.
import { lastAtMost } from "./tree.js";

const LINE_HEIGHT = 22;
// Of more pieces in sight, as of a text of one long line, the last have no colours.
const MOST_PIECES = 5000;
// The characters that say in which order others are shown (Unicode, Annex 9, "Directional Formatting Characters"). They
// would turn round what follows them.
const TURNING = /([\u061c\u200e\u200f\u202a-\u202e\u2066-\u2069])/;

// An element of the page with a class and a text.
export function piece(name, text = "", tag = "span") {
  return Object.assign(document.createElement(tag), { className: name, textContent: text });
}

// A text as it is shown outside the text area: with escapes for characters that would not be seen, or would turn others
// round.
export const escaped = (text) =>
  text.replace(/[\p{Cc}\p{Cf}\p{Zl}\p{Zp}]/gu, (letter) => `\\u{${letter.codePointAt(0).toString(16)}}`);

// The parts of a text with a mark of no width, as the character has none either, in place of each character that turns
// others round. The text area, whose own letters are not seen, has no such marks: in such a line its caret and its
// selection are where the browser has the turned letters.
const unturned = (text) => text.split(TURNING).map((part, i) => (i % 2 === 0 ? part : piece("turning", "", "i")));

export class Editor {
  // `input()` is called when the text changed, `cursor(start, end)` when the selection did. `ranges` gives for each
  // layer the ranges of the text that are painted between two places of it: `{ start, end, name }`, in order, where
  // `name` is a class.
  constructor(box, { input, cursor, ranges }) {
    const [area, layers, numbers, hint] =
      ["textarea", ".layers", ".numbers", ".hint"].map((name) => box.querySelector(name));
    Object.assign(this, { box, area, layers, numbers, hint, input, ranges, lines: [0] });
    area.oninput = () => this.#changed();
    area.onscroll = () => this.render();
    area.onpointermove = ({ clientX, clientY }) => this.#hover(clientX, clientY);
    area.onpointerleave = () => this.#hover(-1, -1);
    document.addEventListener(
      "selectionchange", () => document.activeElement === area && cursor(area.selectionStart, area.selectionEnd)
    );
    new ResizeObserver(() => this.render()).observe(area);
  }

  get text() {
    return this.area.value;
  }

  // Puts another text in place of this one; `asTyped`, so that it can be undone.
  replace(text, asTyped = false) {
    if (asTyped) this.select(0, this.text.length, true);
    if (!asTyped || !document.execCommand("insertText", false, text)) {
      this.area.value = text;
      this.#changed();
    }
    this.select(0, 0);
  }

  #changed() {
    const { text } = this;
    this.lines = [0];
    for (let at = text.indexOf("\n"); at >= 0; at = text.indexOf("\n", at + 1)) this.lines.push(at + 1);
    this.input();
    this.render();
  }

  // The line of an offset and, in characters, its column. Both begin with 1.
  position(offset) {
    const line = lastAtMost(this.lines.length, (i) => this.lines[i], offset);
    return { line: line + 1, column: Array.from(this.text.slice(this.lines[line], offset)).length + 1 };
  }

  // Selects a part of the text and brings it into sight, and goes there when `withFocus`.
  select(start, end, withFocus = false) {
    if (withFocus) this.area.focus({ preventScroll: true });
    this.area.setSelectionRange(start, end);
    const top = (this.position(start).line - 1) * LINE_HEIGHT;
    const { scrollTop, clientHeight } = this.area;
    if (top < scrollTop || top + 2 * LINE_HEIGHT > scrollTop + clientHeight)
      this.area.scrollTop = top - clientHeight / 3;
    this.render();
  }

  render() {
    const { scrollTop, scrollLeft, clientHeight } = this.area;
    const first = Math.min(Math.floor(scrollTop / LINE_HEIGHT), this.lines.length - 1);
    const last = Math.min(first + Math.ceil(clientHeight / LINE_HEIGHT) + 1, this.lines.length);
    const [start, end] = [this.lines[first], this.lines[last] ?? this.text.length];
    const down = first * LINE_HEIGHT - scrollTop;
    this.layers.style.transform = `translate(${-scrollLeft}px, ${down}px)`;
    this.numbers.style.transform = `translateY(${down}px)`;
    this.numbers.textContent = Array.from({ length: last - first }, (_, i) => first + i + 1).join("\n");
    for (const layer of this.layers.children)
      layer.replaceChildren(...this.#pieces(this.ranges[layer.className](start, end), start, end));
  }

  // The text from `start` to `end`, cut where a range begins and ends. Of ranges that overlap the first is taken.
  #pieces(ranges, start, end) {
    const { text } = this;
    const pieces = [];
    let at = start;
    for (const range of ranges.slice(0, MOST_PIECES)) {
      const [from, to] = [Math.max(range.start, at), Math.min(range.end, end)];
      if (from > to) continue;
      const painted = Object.assign(piece(range.name), { range });
      painted.append(...unturned(text.slice(from, to)));
      pieces.push(...unturned(text.slice(at, from)), painted);
      at = to;
    }
    return [...pieces, ...unturned(text.slice(at, end)), "\n"];
  }

  // The message of the error that is at a place of the window, beside that place.
  #hover(x, y) {
    const isIn = ({ left, right, top, bottom }) => left <= x && x <= right && top <= y && y <= bottom;
    const mark = [...this.layers.querySelectorAll(".error")].find((it) => [...it.getClientRects()].some(isIn));
    this.hint.hidden = mark === undefined;
    if (mark === undefined) return;
    const { left, bottom } = mark.getClientRects()[0];
    const box = this.box.getBoundingClientRect();
    this.hint.textContent = escaped(mark.range.message);
    this.hint.style.left = `${Math.max(8, Math.min(left - box.left, box.width - this.hint.offsetWidth - 8))}px`;
    this.hint.style.top = `${bottom - box.top + 4}px`;
  }
}

// The memory of the parser, a WebAssembly module. It takes and gives addresses and lengths as BigInts of 64 bits, and
// the addresses are below 2^32. This runs in workers and in node.

const PAGE_BYTES = 65536;
// Every type of the module may be aligned to this.
const ALIGNMENT = 16;
// The memory never has the last addresses of 32 bits, since the stack ends at 0: a call that needs more stack runs on
// to the last addresses, and ends there.
const MOST_BYTES = 2 ** 32 - 2 ** 26;

// There is no more memory.
export class NoMemory extends RangeError {}

// An instance of the module, and the places that were handed out of its memory.
export class Memory {
  constructor(module) {
    this.exports = new WebAssembly.Instance(module, { heap: this.#heap() }).exports;
    this.clear();
  }

  // What the module imports. An answer is a byte that says whether there is a place, and 8 bytes further on its
  // address.
  #heap() {
    const heap_alloc = (answer, bytes, _align) => {
      const start = this.#placeOrNull(Number(BigInt.asUintN(64, bytes)));
      const view = this.row(Number(answer), 16);
      view.setUint8(0, start === null ? 0 : 1);
      view.setBigUint64(8, BigInt(start ?? ALIGNMENT), true);
    };
    const heap_free = (start) => {
      if (Number(start) === this.last) this.top = this.last;
    };
    return { heap_alloc, heap_free };
  }

  // Takes back all places. They are above the module's own memory, one above the other; the last one goes back when it
  // is freed, too.
  clear() {
    this.last = this.top = Number(this.exports.__heap_base.value);
  }

  // The address of so many bytes. Throws NoMemory where they can't be had.
  place(bytes) {
    const start = Math.ceil(this.top / ALIGNMENT) * ALIGNMENT;
    const end = start + bytes;
    if (end > this.buffer.byteLength) this.#grow(end);
    this.last = start;
    this.top = end;
    return start;
  }

  #placeOrNull(bytes) {
    try {
      return this.place(bytes);
    } catch {
      return null;
    }
  }

  // Grows the memory to so many bytes: to half as much again, so that it grows seldom, unless the engine refuses that.
  #grow(end) {
    const size = this.buffer.byteLength;
    const seldom = Math.min(MOST_BYTES, Math.max(end, size + size / 2));
    if (end > MOST_BYTES || !(this.#isGrown(seldom - size) || this.#isGrown(end - size)))
      throw new NoMemory("the parser has no more memory");
  }

  #isGrown(bytes) {
    try {
      this.exports.memory.grow(Math.ceil(bytes / PAGE_BYTES));
      return true;
    } catch {
      return false;
    }
  }

  get buffer() {
    return this.exports.memory.buffer;
  }

  bytes = (start, length) => new Uint8Array(this.buffer, start, length);

  row = (start, bytes) => new DataView(this.buffer, start, bytes);
}

// The types of the package. Offsets are indices of the JavaScript string.
import type { Kind } from "./kinds.js";
export type { Kind };

/** Loads the parser from `dumyroke.wasm` beside the package's files, or from a source: the URL of that file, its bytes,
 * or the compiled module. It fails where the engine does not support it. */
export function load(source?: URL | string | BufferSource | WebAssembly.Module): Promise<Parser>;

/** Whether the engine has WebAssembly, with operations on blocks of memory and sign extension. */
export function isSupported(): boolean;

/** The name of each kind of element, at its number. */
export const KINDS: readonly Kind[];

/** How a call ended. */
export const STATUS: {
  readonly OK: number;
  /** The text has half of a surrogate pair. */
  readonly NOT_UTF8: number;
  readonly TOO_LONG: number;
  /** The text, or what was found in it, does not fit the memory: 4 GB at most. */
  readonly NO_MEMORY: number;
  readonly NOT_A_STRING: number;
  readonly NOT_A_DOCUMENT: number;
  /** The formatted text has too many bytes. */
  readonly NO_ROOM: number;
  /** Two fragments have one name. */
  readonly SAME_NAME: number;
  /** An operation leads to a cycle of fragments. */
  readonly CYCLE: number;
  /** An operation leads to a spread of no fragment. */
  readonly UNDEFINED: number;
  /** Too much to validate. No call of this package has this status. */
  readonly UNDECIDED: number;
};

/** A whole number from 0 on, or null or Infinity for no limit. Another one is a RangeError, and what is no number a
 * TypeError. */
export type Count = number | bigint | null;

export interface Limits {
  /** How deep a document may nest: 500 if not given. */
  recursion?: Count;
  /** How many tokens it may have, ignored ones too: no limit if not given. */
  tokens?: Count;
}

export interface ParseError {
  start: number;
  end: number;
  message: string;
  /** Whether a limit was met. */
  isLimit: boolean;
  /** Whether the error is about the end of the text. */
  isEnd: boolean;
}

export interface Parsed {
  /** One of STATUS. Unless it is OK, nothing was parsed: there are no rows and no errors. */
  status: number;
  /** The elements of the tree, for Tree. */
  rows: Uint32Array;
  /** Where the text of the tree ends: before the text's own end only where the token limit is met. */
  textEnd: number;
  /** The first errors: 1,000 if not said otherwise. */
  errors: ParseError[];
  /** How many errors there are. */
  errorCount: number;
  /** How deep the text nests. */
  depth: number;
  /** How many tokens were counted. */
  items: number;
}

export interface Written {
  /** One of STATUS. */
  status: number;
  /** The text, where the status is OK. */
  text: string;
}

export interface Place {
  start: number;
  end: number;
}

/** How large an operation is with the selections of its fragment in place of each fragment spread. A figure stops at
 * 2n ** 64n - 1n. */
export interface Operation extends Place {
  /** Its name, or null where it has none. */
  name: string | null;
  /** The greatest number of fields in one another: 2n for `{a{b}}`. */
  depth: bigint;
  /** The number of fields, `__typename` among them. */
  fields: bigint;
  /** The number of fields that no field encloses. */
  rootFields: bigint;
  /** The number of aliases. */
  aliases: bigint;
  /** The number of directives: of the operation, its variables, its selections, and its fragments at each of their
   * spreads. */
  directives: bigint;
  /** The number of fields, where each selection set, also of a fragment, counts a response name once. Apollo Router
   * limits it as `max_height`. */
  height: bigint;
  /** The number of root fields, counted like `height`. */
  distinctRootFields: bigint;
}

export interface Measured {
  /** One of STATUS. With SAME_NAME, CYCLE or UNDEFINED the operations have no figures. */
  status: number;
  /** The first operations, where the status is OK. */
  operations: Operation[];
  /** How many operations there are. */
  operationCount: number;
  /** The second fragment of the name, or the spread, where there are no figures. */
  place: Place | null;
  /** The first fragment of the name. */
  other: Place | null;
}

export class Parser {
  /** A parser without a wait, as `new Parser(new WebAssembly.Module(bytes))`. */
  constructor(module: WebAssembly.Module);
  /** Parses any text. RangeError or WebAssembly.RuntimeError is thrown where the engine's stack is too small, or its
   * memory for arrays. */
  parse(text: string, limits?: Limits, mostErrors?: Count): Parsed;
  /** Formats a document. One with errors has the status NOT_A_DOCUMENT, and one whose formatted text has more than
   * `mostBytes` bytes NO_ROOM: if not given, 64 MiB, or 16 for each character of the text, if that is more. */
  format(text: string, limits?: Limits, mostBytes?: Count): Written;
  /** Measures the operations of a document, all of them or the first `mostOperations`. One with errors has the status
   * NOT_A_DOCUMENT. It takes no longer for a document that expands to very many fields. */
  measure(text: string, limits?: Limits, mostOperations?: Count): Measured;
  /** The value of a string literal with its quotes. */
  stringValue(literal: string): Written;
}

/** A tree. Its elements are the indices from 0, the root, to `length`, in the order of the text. */
export class Tree {
  constructor(text: string, parsed: Pick<Parsed, "rows" | "textEnd">);
  readonly text: string;
  readonly length: number;
  start(element: number): number;
  end(element: number): number;
  /** The root's parent is the root. */
  parent(element: number): number;
  /** The element after it and all below it. The first child of a node is the element after the node. */
  next(element: number): number;
  kind(element: number): Kind;
  isToken(element: number): boolean;
  hasChildren(element: number): boolean;
  textOf(element: number): string;
  depth(element: number): number;
  /** The lowest element that holds a part of the text. */
  holding(start: number, end: number): number;
}

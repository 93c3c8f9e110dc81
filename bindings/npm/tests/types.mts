// What TypeScript takes of the package, and what it refuses.
import { type Kind, KINDS, load, type Measured, type Parsed, STATUS, Tree } from "dumyroke";

const parser = await load();
const parsed: Parsed = parser.parse("{ a }", { tokens: 10 });
const tree = new Tree("{ a }", parsed);
const kind: Kind = tree.kind(0);
const messages: string[] = parsed.errors.map((error) => error.message);
const measured: Measured = parser.measure("{ a }", { recursion: 10 }, 100);
export const figures: [bigint[], number|undefined] =
  [measured.operations.map((operation) => operation.rootFields), measured.place?.start];
export const all: [boolean, string[], readonly Kind[], number] = [kind === "DOCUMENT", messages, KINDS, STATUS.OK];
// @ts-expect-error: no kind has this name
export const wrong: boolean = kind === "DOCUMENTS";
// @ts-expect-error: a figure is a bigint
export const fields: number[] = measured.operations.map((operation) => operation.fields);
parser.parse("", { recursion: null, tokens: 10n }, Infinity);
await load(new URL("file:///dumyroke.wasm"));
await load(new Uint8Array());
// @ts-expect-error: a limit is a number
parser.parse("", { recursion: "500" });

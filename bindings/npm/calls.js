// What the package has for node and for browsers alike.
export { KINDS } from "./kinds.js";
export { isSupported, Parser } from "./parser.js";
export { STATUS } from "./rows.js";
export { Tree } from "./tree.js";

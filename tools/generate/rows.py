"""The statuses and the rows of the library for C, for Rust, for Python and for the page, from the structs in
crates/apollo_tree/src/compact.rt and in `rows.rt` of crates/c_parsing and crates/c_validation; and the rules
of validation, from crates/validation_rules/src/violations.rt. The header, which is written by hand, has to have the
same fields and rules."""

import re

from .layout import CRATES, TOP, mark

SOURCE = "crates/apollo_tree/src/compact.rt, and rows.rt of crates/c_parsing and crates/c_validation"
SOURCES = [
    CRATES / "apollo_tree/src/compact.rt",
    CRATES / "c_parsing/src/rows.rt",
    CRATES / "c_validation/src/rows.rt",
]
RULES = CRATES / "validation_rules/src/violations.rt"
HEADER = TOP / "bindings/c/include/dumyroke.h"

# The bytes of each type of a field, and its name in C and in Python.
TYPES = {"usize": (8, "size_t", "c_size_t"), "u64": (8, "uint64_t", "c_uint64")}
TYPES |= {"u32": (4, "uint32_t", "c_uint32"), "u16": (2, "uint16_t", "c_uint16"), "u8": (1, "uint8_t", "c_uint8")}
# The rows that languages read, with their names in C.
READ = {"CompactElement": "element", "ItemRow": "item", "ErrorRow": "error", "Counts": "counts"}
READ |= {
    "ViolationRow": "violation", "ViolationCounts": "violation_counts", "OperationRow": "operation",
    "MeasureCounts": "measure_counts",
}


def statuses(text):
    """The number of each status."""
    return {name: int(number) for name, number in re.findall(r"pub const (\w+): u32 = (\d+);", text)}


def structs(text):
    """The fields of each struct with their types, in order."""
    found = re.findall(r"^pub struct (\w+) \{\n(.*?)^\}", text, re.DOTALL | re.MULTILINE)
    made = {name: re.findall(r"^    pub (\w+): (\w+),", body, re.MULTILINE) for name, body in found}
    for name in READ:
        if name not in made:
            raise SystemExit(f"{SOURCE}: there is no struct {name}")
        for field, kind in made[name]:
            if kind not in TYPES:
                raise SystemExit(f"{SOURCE}: {field} of {name} is a {kind}, which rows.py does not know")
    return made


def rules():
    """The rules of validation with their sections, in the order of their numbers."""
    body = re.search(r"^pub enum Rule \{\n(.*?)^\}", RULES.read_text(), re.DOTALL | re.MULTILINE)[1]
    return re.findall(r"^    /// (.*)\n    (\w+),", body, re.MULTILINE)


def offsets(fields):
    """The byte offset of each field, as C lays them out, and the size of the struct."""
    at, most, found = 0, 1, {}
    for field, kind in fields:
        size = TYPES[kind][0]
        at = -(-at // size) * size
        found[field], at, most = at, at + size, max(most, size)
    return found, -(-at // most) * most


def in_header(header, name):
    """The fields of a struct of the header with their types, in order."""
    at = re.search(rf"^typedef struct dumyroke_{name} \{{\n(.*?)^\}}", header, re.DOTALL | re.MULTILINE)
    lines = re.sub(r"/\*.*?\*/", "", at[1] if at else "", flags=re.DOTALL)
    return [
        (field.strip(), kind)
        for kind, names in re.findall(r"^\s*(\w+) ([\w, ]+);", lines, re.MULTILINE)
        for field in names.split(",")
    ]


def enum_in_header(header, name):
    """The numbers of an enum of the header."""
    body = re.search(rf"^enum dumyroke_{name} \{{\n(.*?)^\}}", header, re.DOTALL | re.MULTILINE)[1]
    return {name: int(number) for name, number in re.findall(r"^    DUMYROKE_(\w+) = (\d+)", body, re.MULTILINE)}


def check_header(text):
    """Ends where the header has other fields or other statuses."""
    header, made = HEADER.read_text(), structs(text)
    for name, short in READ.items():
        wanted = [(field, TYPES[kind][1]) for field, kind in made[name]]
        if in_header(header, short) != wanted:
            raise SystemExit(f"dumyroke.h: the struct dumyroke_{short} has not the fields of {name}")
    if enum_in_header(header, "status") != statuses(text):
        raise SystemExit("dumyroke.h: its statuses are not those of rows.rt")
    wanted = {re.sub(r"(?<!^)(?=[A-Z])", "_", name).upper(): number for number, (_, name) in enumerate(rules())}
    if enum_in_header(header, "rule") != wanted:
        raise SystemExit("dumyroke.h: its rules are not those of violations.rt")


def for_python(text):
    """The module of the Python package."""
    made = structs(text)
    lines = "".join(f"{name} = {number}\n" for name, number in statuses(text).items())
    classes = "".join(
        f"\n\nclass {name}(Structure):\n    _fields_ = [\n"
        + "".join(f'        ("{field}", {TYPES[kind][2]}),\n' for field, kind in made[name])
        + "    ]\n"
        for name in READ
        if name != "CompactElement"
    )
    named = "".join(f'    "{name}",\n' for _, name in rules())
    return f'''{mark("#", SOURCE)}"""The statuses and the rows of the C library."""

from ctypes import Structure, c_size_t, c_uint16, c_uint32, c_uint64

{lines}
RULES = (
{named})
"""The rules of validation, by their numbers."""

ELEMENT_SIZE = {offsets(made["CompactElement"])[1]}
"""The bytes of an element's row."""

KIND_AT = {offsets(made["CompactElement"])[0]["kind"]}
"""The byte of an element's row that is its kind."""

ITEM_SIZE = {offsets(made["ItemRow"])[1]}
"""The bytes of an item's row."""


class Limits(Structure):
    _fields_ = [("recursion", c_size_t), ("tokens", c_size_t)]
{classes}'''


def for_rust(text):
    """The module of the Rust crate."""
    made = structs(text)
    lines = "".join(f"pub(crate) const {name}: u32 = {number};\n" for name, number in statuses(text).items())
    fields = {name: "".join(f"    pub(crate) {field}: {kind},\n" for field, kind in made[name]) for name in READ}
    rows = "".join(
        f"\n/// `dumyroke_{short}`\n#[repr(C)]\n#[derive(Debug, Clone, Copy, Default, PartialEq, Eq)]\npub(crate)"
        f" struct {name} {{\n{fields[name]}}}\n"
        for name, short in READ.items()
    )
    listed = "".join(f"    /// Section {section}.\n    {name},\n" for section, name in rules())
    named = ", ".join(f"Rule::{name}" for _, name in rules())
    return f"""{mark("//", SOURCE)}//! The statuses, the rows and the rules of the library, which bindings/c/include/dumyroke.h describes.
#![allow(dead_code)]

{lines}
/// `dumyroke_limits`
#[repr(C)]
#[derive(Debug, Clone, Copy)]
pub(crate) struct Limits {{
    pub(crate) recursion: usize,
    pub(crate) tokens: usize,
}}
{rows}
/// A rule of validation, under the name that graphql-js gives it, with its section of the standard (October 2021).
#[derive(Debug, Clone, Copy, PartialEq, Eq, Hash)]
#[non_exhaustive]
pub enum Rule {{
{listed}}}

/// The rules, by their numbers.
pub(crate) const RULES: [Rule; {len(rules())}] = [{named}];
"""


def camel(name):
    """The name that JavaScript gives a field: `root_fields` is `rootFields`."""
    return re.sub(r"_(\w)", lambda at: at[1].upper(), name)


def byte_rows(made):
    """What the page knows of the rows that it reads by the byte."""
    for name in ("ErrorRow", "Counts", "OperationRow", "MeasureCounts"):
        found, size = offsets(made[name])
        figures = [field for field, kind in made[name] if kind == "u64"]
        listed = ", ".join(f"{field}: {at}" for field, at in found.items() if field not in figures)
        yield (
            f"export const {READ[name].upper()}_BYTES = {size};\nexport const {READ[name].upper()} = {{ {listed} }};\n"
        )
        if figures:
            yield f"export const FIGURES = {{ {', '.join(f'{camel(field)}: {found[field]}' for field in figures)} }};\n"


def for_page(text):
    """The module of the page."""
    made = structs(text)
    named = ", ".join(f"{name}: {number}" for name, number in statuses(text).items())
    element, size = offsets(made["CompactElement"])
    words = ", ".join(f"{field}: {at // 4}" for field, at in element.items() if at % 4 == 0)
    return f"""{mark("//", SOURCE)}// The statuses and the rows of the calls.
export const STATUS = {{ {named} }};

// An element's row: how many words of 32 bits it has, and the word of each field. The word of `parent_low` has `parent_middle` in the eight bits above its
// sixteen, and the kind in its highest eight.
export const WORDS = {size // 4};
export const WORD = {{ {words} }};

// The rows of errors and of operations, and the counts: their bytes, and the byte of each field. The figures of an operation have the names of JavaScript.
{"".join(byte_rows(made))}"""


def outputs(_grammar):
    """The text of each file, by its path."""
    text = "".join(source.read_text() for source in SOURCES)
    check_header(text)
    return {
        TOP / "bindings/rust/src/rows.rs": for_rust(text),
        TOP / "bindings/python/dumyroke/rows.py": for_python(text),
        TOP / "bindings/web/rows.js": for_page(text),
    }

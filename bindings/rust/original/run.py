#!/usr/bin/env python3
"""original/run.py ORIGINAL: runs the tests of apollo-parser 0.8.7, its examples and those of its documentation against
this crate.

ORIGINAL is the folder of the original: README.md, src, and its tests in tests/tests/part1.rs and part2.rs. No line of
it is in this repository. The run makes packages of them in target/original, and changes nothing but imports, which it
prints, and what `ADAPTED`, `FIELDS` and `LEFT_OUT` say.

Two of the tests read files that ORIGINAL lacks: texts, and what the original prints of them. The run makes them of the
texts that gqlfmt is tried with, by the original's own code, which bench/original/build compiles. It leaves out the
texts that the original reads differently from gqlcst (docs/DIFFERENCES.md), and says how many; without the gqlcst that
`rt ci` builds it leaves out both tests."""

import os
import re
import shutil
import subprocess
import sys
from pathlib import Path

HERE = Path(__file__).resolve().parent
CRATE = HERE.parent
TOP = CRATE.parent.parent
MADE = CRATE / "target/original"
GQLCST = TOP / "crates/gqlcst/out/gqlcst"
sys.path.append(str(TOP / "tests/format"))
import corpus  # noqa: E402

# What the module of each file has in scope by `use super::*` in the original.
SCOPE = """#[allow(unused_imports)]
use crate::{rowan::NodeOrToken, Error, Lexer, LimitTracker, Parser, SyntaxElement, SyntaxKind, SyntaxNode, SyntaxTree, Token, TokenKind};
"""
# Private names of the original that its tests use, put together from public calls of this crate.
ADAPTED = {
    "src/parser/mod.rs": "const DEFAULT_RECURSION_LIMIT: usize = 500;\n",
    "src/cst/node_ext.rs": """
fn value_of(literal: String) -> String {
    let tree = Parser::new(&format!("{{a(b:{literal})}}")).parse();
    let string = tree.document().syntax().descendants().find_map(<crate::cst::StringValue as crate::cst::CstNode>::cast);
    string.map(String::from).unwrap()
}
fn unescape_string(text: &str) -> String { value_of(format!("\\"{text}\\"")) }
fn unescape_block_string(text: &str) -> String { value_of(format!("\\"\\"\\"{text}\\"\\"\\"")) }
#[allow(unused_imports)]
use crate::cst::CstNode;
""",
}
# The imports that change, by file.
IMPORTS = [
    ("src/parser/mod.rs", "use expect_test::expect;", "use crate::rowan;\n    use expect_test::expect;"),
    ("src/tests.rs", "use rowan::NodeOrToken;", "use crate::rowan::NodeOrToken;"),
    ("src/cst/node_ext.rs", "use super::split_lines;", ""),
]
# The private fields of this crate that the tests read, since the original has fields of these names. The copy opens
# them.
FIELDS = {"parser.rs": "errors: Vec<Error>,", "error.rs": "message: String,", "token.rs": "data: &'a str,"}
# The tests that are not run, with the reason.
LEFT_OUT = {
    "it_splits_lines_by_graphql_newline_definition": "it is about a private function, and this crate has none like it",
}
# The tests that read files: their folder, and how gqlcst prints such a file.
READING = {"lexer_tests": ("lexer", "tokens"), "parser_tests": ("parser", "tree")}


def without(text, name):
    """A module without one of its tests."""
    at = text.index(f"fn {name}(")
    start = text.rindex("#[test]", 0, at)
    indent = re.search(r"[ ]*$", text[:start])[0]
    end = text.index(f"\n{indent}}}\n", at) + len(indent) + 3
    return text[:start] + text[end:]


def modules(parts):
    """The modules with tests by the path of their file, and the example program."""
    pieces = re.split(r"^// ===== (\S+)(?: \(test module\))? =====\n", parts, flags=re.MULTILINE)
    found = dict(zip(pieces[1::2], pieces[2::2]))
    example = next(text for path, text in found.items() if path.startswith("examples/"))
    return {path: text for path, text in found.items() if path.startswith("src/")}, example


def unit_tests(found):
    """All modules with tests, as one module of this crate."""
    made = []
    for path, text in found.items():
        # the last module of part1.rs lacks the brace that ends it
        text += "}\n" * (text.count("{") > text.count("}") and path.endswith("value.rs"))
        for file, old, new in IMPORTS:
            if file == path:
                print(f"{path}: {old} became {new.split(chr(10))[0] or 'nothing'}")
                text = text.replace(old, new)
        left_out = LEFT_OUT if GQLCST.exists() else {**LEFT_OUT, **dict.fromkeys(READING, f"there is no {GQLCST}")}
        for name, why in left_out.items():
            if f"fn {name}(" in text:
                print(f"{path}: {name} is left out: {why}")
                text = without(text, name)
        name = re.sub(r"\W+", "_", path.removeprefix("src/").removesuffix(".rs"))
        text = re.sub(r"^//! .*\n", "", text, flags=re.MULTILINE)
        scope = "" if path == "src/tests.rs" else SCOPE
        made.append(f"#[allow(unused, clippy::all)]\nmod {name} {{\n{scope}{ADAPTED.get(path, '')}{text}}}\n")
    return "".join(made)


def documented(original):
    """The examples of the README and of the documentation, each a function with a name."""
    for path in [original / "README.md", *sorted((original / "src").rglob("*.rs"))]:
        lines = path.read_text().split("\n")
        if path.suffix == ".rs":
            lines = [re.sub(r"^\s*//[/!] ?", "", line) if re.match(r"\s*//[/!]", line) else "" for line in lines]
        name = re.sub(r"\W+", "_", str(path.relative_to(original)).removesuffix(path.suffix))
        for number, block in enumerate(re.findall(r"^```rust\n(.*?)^```", "\n".join(lines), re.DOTALL | re.MULTILINE)):
            yield f"#[test]\nfn {name}_{number}() {{\n{block}}}\n"


def make_crate(tests):
    """A copy of this crate with the tests of the original's modules in it."""
    folder = MADE / "crate"
    shutil.copytree(CRATE / "src", folder / "src")
    for name, field in FIELDS.items():
        path = folder / "src" / name
        path.write_text(path.read_text().replace(f"    {field}", f"    pub(crate) {field}", 1))
    for name in ("README.md", "build.rs"):
        shutil.copy(CRATE / name, folder)
    stand_ins = "".join(
        f'{name} = {{ path = "{HERE / "stand_ins" / name.replace("-", "_")}" }}\n'
        for name in ("expect-test", "indexmap")
    )
    (folder / "Cargo.toml").write_text((CRATE / "Cargo.toml").read_text() + f"\n[dev-dependencies]\n{stand_ins}")
    (folder / "src/original_tests.rs").write_text(tests)
    with (folder / "src/lib.rs").open("a") as root:
        root.write("\n#[cfg(test)]\nmod original_tests;\n")
    return folder


def make_user(original, example):
    """A package that uses this crate under the name apollo-parser, with the examples of documentation and the example
    program."""
    folder = MADE / "user"
    (folder / "src").mkdir(parents=True)
    (folder / "tests").mkdir()
    dependency = f'apollo-parser = {{ package = "dumyroke", path = "{CRATE}" }}'
    (folder / "Cargo.toml").write_text(
        '[package]\nname = "user"\nversion = "0.1.0"\nedition ='
        f' "2021"\n\n[dependencies]\n{dependency}\n\n[workspace]\n'
    )
    (folder / "src/lib.rs").write_text("#![allow(unused, non_snake_case)]\n" + "".join(documented(original)))
    example = re.sub(r"^//!.*\n", "", example, flags=re.MULTILINE).replace("fn main() {", "#[test]\nfn runs() {")
    (folder / "tests/example.rs").write_text(example)
    # the document that the example reads; the original's own is not in ORIGINAL
    document = folder / "crates/apollo-parser/examples/graph_check_mutation.graphql"
    document.parent.mkdir(parents=True)
    document.write_text(
        "mutation GraphCheckMutation($id: ID!, $tag: String) { service(id: $id) { checkPartialSchema(tag: $tag) { id }"
        " } }\n"
    )
    return folder


def printed(program, mode, text):
    """What a program with gqlcst's command line prints of a text, and its status."""
    ended = subprocess.run([program, mode], input=text, stdout=subprocess.PIPE, stderr=subprocess.DEVNULL)
    return ended.returncode, ended.stdout


def make_files(original):
    """The files that the tests in `READING` read."""
    programs = (
        subprocess.run([TOP / "bench/original/build", original], check=True, stdout=subprocess.PIPE)
        .stdout.decode()
        .strip()
    )
    texts = sorted({text.encode() for text in corpus.texts()})
    for name, (folder, mode) in READING.items():
        kept = 0
        for number, text in enumerate(texts):
            status, wanted = answer = printed(f"{programs}/gqlcst", mode, text)
            if answer == printed(GQLCST, mode, text):
                at = MADE / "apollo-parser/test_data" / folder / ("err" if status else "ok")
                at.mkdir(parents=True, exist_ok=True)
                (at / f"{number:04}_text.graphql").write_bytes(text)
                (at / f"{number:04}_text.txt").write_bytes(wanted if mode == "tokens" else wanted.removesuffix(b"\n"))
                kept += 1
        print(f"{name} reads {kept} texts; {len(texts) - kept} are left out")


def main():
    original = Path(sys.argv[1]) if len(sys.argv) == 2 else None
    if not original or not (original / "tests/tests/part1.rs").exists():
        sys.exit(__doc__)
    shutil.rmtree(MADE, ignore_errors=True)
    parts = "".join((original / f"tests/tests/part{number}.rs").read_text() + "\n" for number in (1, 2))
    found, example = modules(parts)
    if GQLCST.exists():
        make_files(original)
    for folder in (make_crate(unit_tests(found)), make_user(original, example)):
        command = ["cargo", "test", "--offline", "--quiet", "--lib", "--tests"]
        # the crate's copy is not in the repository's place, beside `build`
        there = {"DUMYROKE_LIB_DIR": str(TOP / "build"), **os.environ}
        subprocess.run(command, cwd=folder, check=True, env=there)


if __name__ == "__main__":
    main()

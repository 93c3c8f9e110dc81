"""Makes the page with the WebAssembly module, and tests it in node and Chromium."""

import json
import re
import shutil
import subprocess
import tempfile
from pathlib import Path

from .answers import compare
from .shared import LIMITS, SITE, WEB, gqlcst, kit, numbers_of, rattle, run, static_library, stop, texts

# What the module has beside the first version of WebAssembly. `isSupported` in bindings/web/parser.js looks for both.
FEATURES = ["--enable-bulk-memory", "--enable-sign-ext"]
# The first version of node that the tests and the packages are for.
OLDEST_NODE = 18


def unpacked(folder):
    """The sources of the page's crates in a folder, under the names that rattle wants. In the repository each file has
    `.in` after its name: `rt ci` refuses sources of crates that crates.txt does not list, and those that crates.txt
    lists for wasm64."""
    for path in (WEB / "crates").rglob("*.in"):
        to = folder / path.relative_to(WEB / "crates").with_suffix("")
        to.parent.mkdir(parents=True, exist_ok=True)
        shutil.copyfile(path, to)
    return folder


def make_module(module):
    """Has rattle prove the page's crates, and links the module, whose addresses have 64 bits."""
    wasm = ("--target", "wasm64-unknown-unknown")
    with tempfile.TemporaryDirectory() as name:
        folder = unpacked(Path(name))
        rattle("web_heap", folder / "web_heap", folder / "web_heap.rlib")
        archive = rattle(
            "dumyroke_web", folder / "dumyroke_web", folder / "libdumyroke_web.a", *static_library(), *wasm, made=folder
        )
        run(kit() / "bin/rattle-link", *wasm, "--toolchain", kit() / "toolchain", "-o", module, archive)


def lower(module):
    """Has binaryen cut each address to 32 bits where the memory is reached, since few engines have memories of 64-bit
    addresses. The module must then need no more than `FEATURES`."""
    words = ["--enable-memory64", *FEATURES, "--memory64-lowering", "--strip-target-features"]
    run("wasm-opt", *words, "-o", module, module)
    run("wasm-opt", "--mvp-features", *FEATURES, "-o", "/dev/null", module, stderr=subprocess.DEVNULL)


def build_page():
    """Makes the page in build/web, a folder that any static server may serve, and answers whether it could."""
    shutil.rmtree(SITE, ignore_errors=True)
    with tempfile.TemporaryDirectory() as folder:
        module = Path(folder) / "dumyroke.wasm"
        make_module(module)
        if not shutil.which("wasm-opt"):
            print("there is no wasm-opt (binaryen): the page is proved, and was not made")
            return False
        lower(module)
        SITE.mkdir(parents=True)
        shutil.copy(module, SITE)
    for path in [*WEB.glob("*.html"), *WEB.glob("*.css"), *WEB.glob("*.js")]:
        shutil.copy(path, SITE)
    shutil.copytree(WEB / "examples", SITE / "examples")
    return True


def has_node():
    """Whether there is a node that is new enough."""
    if not shutil.which("node"):
        return False
    said = run("node", "--version", stdout=subprocess.PIPE, text=True).stdout
    return int(re.match(r"v(\d+)", said)[1]) >= OLDEST_NODE


def test_module():
    """What the module answers in node is what gqlcst prints, for each text and each pair of limits."""
    cases = [(text, limits) for text in texts() for limits in LIMITS]
    given = [
        {"text": text.decode(), "limits": dict(zip(("recursion", "tokens"), numbers_of(limits)))}
        for text, limits in cases
    ]
    test = ["node", WEB / "tests/parser_test.mjs", SITE / "dumyroke.wasm"]
    printed = run(*test, input=json.dumps(given).encode(), stdout=subprocess.PIPE, timeout=300).stdout.splitlines()
    if len(printed) != len(cases):
        stop(f"the module printed {len(printed)} trees of {len(cases)} texts")
    for (text, limits), line in zip(cases, printed):
        if json.loads(line).encode() != gqlcst(text, "tree", limits).stdout:
            stop(f"the module and gqlcst differ with the limits {limits} for the text\n{text.decode()}")
    print(f"the module and gqlcst print the same {len(cases)} trees")


def test_answers():
    """The calls of the module answer what those of the library for C answer."""
    answers = ["node", WEB / "tests/answers.mjs", SITE / "dumyroke.wasm"]
    with tempfile.TemporaryDirectory() as folder:
        compare("the module", answers, Path(folder), ["parse", "string_value", "format", "measure"])


def test_page(pictures=None):
    """The tests in node, and those in Chromium. What is not here is said."""
    if not has_node():
        print(f"there is no node of version {OLDEST_NODE} or later: the page was not tried")
        return
    test_answers()
    test_module()
    if not shutil.which("chromium"):
        print("there is no chromium: the page was not tried in it")
        return
    test_chromium(SITE, *([pictures] if pictures else []))


def test_chromium(site, *pictures):
    """The tests of the page in a folder."""
    run("node", WEB / "tests/page_test.mjs", site, *pictures, timeout=150)

"""Tests the libraries for C, the headers, the Rust crate and the Python package, as they are and as they are
installed."""

import itertools
import json
import os
import re
import shutil
import subprocess
import sys
import tempfile
import zipfile
from pathlib import Path

from .answers import compare
from .arm64 import QEMU, emulated, sysroot
from .assembly import ASSEMBLY
from .library import ARM64, CALLS, HERE, install
from .shared import (
    BUILD, C, INCLUDE, LIMITS, PACKAGE, PYTHON, RUST, UNPROVED, WARNINGS, gqlcst, need, run, stop, texts, version,
    words_of,
)
from .systems import SYSTEMS

# The fewest bytes that glibc takes for a thread's stack on arm64.
SMALLEST_ON_ARM64 = 131_072
# Where the repository has the library of the Rust crate, for each platform.
RUST_LIBRARIES = {
    f"{platform.processor}-unknown-linux-{system}": platform.folder
    for platform, system in itertools.product((HERE, ARM64), ("gnu", "musl"))
}
RUST_LIBRARIES |= {target: system.folder for system in SYSTEMS for target in system.static}
# All that the library calls.
NEEDED = ["free", "malloc", "memcpy", "memmove", "memset", "realloc"]


def compiled(source, folder, *flags, library=("-ldumyroke",), gcc="gcc", built=BUILD):
    """A program over the library in a folder, compiled with all warnings as errors."""
    program = folder / Path(source).stem
    compiler = ["g++", "-std=c++11"] if source.endswith(".cpp") else [gcc, "-std=c11"]
    run(
        *compiler, "-O2", *WARNINGS, *flags, f"-I{INCLUDE}", "-o", program, C / source, f"-L{built}", *library,
        "-lpthread",
    )
    return program


def test_c(folder):
    """The calls at their edges, with both libraries and with the sanitizers of gcc; where memory is refused; two
    threads at once; C++."""
    there = {**os.environ, "LD_LIBRARY_PATH": str(BUILD)}
    run(compiled("tests/edges.c", folder), env=there)
    run(compiled("tests/edges.c", folder, library=("-l:libdumyroke.a",)))
    run(
        compiled(
            "tests/edges.c", folder, "-g", "-fsanitize=address,undefined", "-fno-sanitize-recover=all",
            library=("-l:libdumyroke.a",),
        )
    )
    run(compiled("tests/no_memory.c", folder), env=there)
    test_refused([], folder)
    run(compiled("tests/threads.c", folder), env=there)
    if shutil.which("g++"):
        run(compiled("tests/headers.cpp", folder), env=there)
    else:
        print("there is no g++: the headers were not tried in C++")


def test_refused(command, folder, **how):
    """Whichever request for memory is refused, a call says so."""
    wrapped = "-Wl,--wrap=malloc,--wrap=realloc"
    run(*command, compiled("tests/refused.c", folder, wrapped, library=("-l:libdumyroke.a",), **how))


def test_stacks(smallest, command, folder, **how):
    """The usual limits are safe with the stacks that docs/BINDINGS.md names."""
    program = compiled("tests/stack.c", folder, library=("-l:libdumyroke.a",), **how)
    run(*command, program, smallest)
    run(*command, program, 440_000, "measure")


def test_stack(folder):
    """As it is proved, since the checks of a library without a proof take more stack."""
    if not UNPROVED.exists():
        test_stacks(100_000, [], folder)


def test_kinds(name, command, programs, folder, **how):
    """The tests in C, and all answers, with both kinds of the library. The command runs a program on a platform."""
    kinds = {"shared": ("-ldumyroke",), "static": ("-l:libdumyroke.a", "-static")}
    for source, library in itertools.product(programs, kinds.values()):
        run(*command, compiled(source, folder, library=library, **how))
    for kind, library in kinds.items():
        program = compiled("tests/answers.c", folder, library=library, **how)
        compare(f"the {kind} library {name}", [*command, program], folder)


def test_musl(folder):
    """The same libraries with musl in the place of glibc."""
    if not shutil.which("musl-gcc"):
        print("there is no musl-gcc: the libraries were not tried with musl")
        return
    programs = ["tests/edges.c", "tests/no_memory.c", "tests/threads.c"]
    test_kinds("with musl", ["env", f"LD_LIBRARY_PATH={BUILD}"], programs, folder, gcc="musl-gcc")


def test_arm64(folder):
    """The libraries for arm64 in qemu, which does not limit memory as no_memory.c wants it."""
    if not ARM64.folder.exists():
        return  # making them has said why
    if not shutil.which(QEMU):
        print(f"there is no {QEMU}: the libraries for arm64 were not tried")
        return
    test_symbols(ARM64)
    how = {"gcc": f"{ARM64.tools}gcc", "built": ARM64.folder}
    command = emulated(sysroot(), f"LD_LIBRARY_PATH={ARM64.folder}")
    test_kinds("for arm64", command, ["tests/edges.c", "tests/threads.c"], folder, **how)
    test_refused(command, folder, **how)
    test_stacks(SMALLEST_ON_ARM64, command, folder, **how)


def symbols(platform, *words):
    """The names that nm lists."""
    listed = platform.run("nm", *words, stdout=subprocess.PIPE).stdout.decode()
    return sorted(line.split()[-1] for line in listed.splitlines() if len(line.split()) > 1)


def test_symbols(platform=HERE):
    """Both libraries have the calls alone, the static one needs six functions of C alone, and the shared one has its
    name."""
    shared, static = platform.folder / "libdumyroke.so", platform.folder / "libdumyroke.a"
    for library, words in ((shared, ["-D"]), (static, ["-g"])):
        found = symbols(platform, *words, "--defined-only", library)
        if found != CALLS:
            stop(f"{library} has the symbols {' '.join(found)}")
    needed = symbols(platform, "-u", static)
    if needed != NEEDED:
        stop(f"{static} needs the symbols {' '.join(needed)}")
    if b"(SONAME)" not in platform.run("readelf", "-d", shared, stdout=subprocess.PIPE).stdout:
        stop(f"{shared} has no SONAME")


def test_printed(name, modes, command):
    """What a program prints is what gqlcst prints, in each mode, for each text and each pair of limits. `command` gives
    the words for a mode and limits."""
    cases = [(text, mode, limits) for text in texts() for mode in modes for limits in LIMITS]
    if not cases:
        stop("there are no texts to compare")
    for text, mode, limits in cases:
        ours = subprocess.run(command(mode, limits), input=text, stdout=subprocess.PIPE)
        theirs = gqlcst(text, mode, limits)
        if (ours.returncode, ours.stdout) != (theirs.returncode, theirs.stdout):
            stop(f"{name} and gqlcst differ in mode {mode} with the limits {limits} for the text\n{text.decode()}")
    print(f"{name} and gqlcst print the same {len(cases)} times")


def test_trees(folder):
    program = compiled("examples/print_tree.c", folder, library=("-l:libdumyroke.a",))
    test_printed("print_tree.c", ["tree"], lambda mode, limits: [program, *limits])


def test_rust(_folder):
    """The tests and the examples of the Rust crate, over its assembly, where there is one, and over both libraries."""
    if not shutil.which("cargo"):
        print("there is no cargo: the Rust crate was not tried")
        return
    there = {name: value for name, value in os.environ.items() if name != "DUMYROKE_LIB_DIR"}
    words = ["cargo", "test", "--offline", "--quiet"]
    if ASSEMBLY.exists():
        run(*words, "--features", "assembly", cwd=RUST, env=there, stdout=subprocess.DEVNULL)
    for link in ("dylib", "static"):
        settings = {"DUMYROKE_LIB_DIR": str(BUILD), "DUMYROKE_LINK": link, "LD_LIBRARY_PATH": str(BUILD)}
        run(*words, cwd=RUST, env={**there, **settings}, stdout=subprocess.DEVNULL)


def test_clippy(_folder):
    """The usual linter of Rust has nothing to say of the crate, its tests and its examples."""
    if not shutil.which("cargo-clippy"):
        print("there is no clippy: the Rust crate was not tried with it")
        return
    there = {**os.environ, "DUMYROKE_LIB_DIR": str(BUILD)}
    run("cargo", "clippy", "--offline", "--quiet", "--all-targets", "--", "-D", "warnings", cwd=RUST, env=there)


def test_mypy(folder):
    """The types of the Python package hold in the strictest mode of mypy."""
    if not shutil.which("mypy"):
        print("there is no mypy: the types of the Python package were not tried")
        return
    run("mypy", "--strict", "--cache-dir", folder / "cache", PACKAGE, stdout=subprocess.DEVNULL)


def test_rust_platforms(_folder):
    """A build for another platform says which one has a library. It takes no library of this one."""
    if not shutil.which("cargo"):
        return
    there = {name: value for name, value in os.environ.items() if name != "DUMYROKE_LIB_DIR"}
    made = ", ".join(RUST_LIBRARIES)
    for target in ("aarch64-pc-windows-msvc", "riscv64gc-unknown-linux-gnu", "wasm32-unknown-unknown"):
        built = subprocess.run(
            ["cargo", "check", "--offline", "--target", target], cwd=RUST, env=there, capture_output=True, text=True
        )
        if f"made for {made} alone, and this is a build for {target}" not in built.stderr:
            stop(f"a build of the Rust crate for {target} says\n{built.stderr}")


def linked(program, target, crate):
    """What build.rs, compiled as a program, says of a crate's folder for a platform: where the library is."""
    there = {"PATH": os.environ["PATH"], "TARGET": target, "CARGO_MANIFEST_DIR": str(crate)}
    said = run(program, env=there, stdout=subprocess.PIPE).stdout.decode()
    return re.search("^cargo:rustc-link-search=native=(.*)$", said, re.MULTILINE)[1]


def test_rust_libraries(folder):
    """On each platform that has a library the crate links it: a package its own, the repository the one in build/."""
    if not shutil.which("rustc"):
        return
    program = folder / "build"
    run("rustc", "--edition=2021", "-o", program, RUST / "build.rs")
    for target, built in RUST_LIBRARIES.items():
        packed = folder / "crate/lib" / target
        packed.mkdir(parents=True)
        for file in ("libdumyroke.a", "dumyroke.lib"):
            (packed / file).touch()
        places = {folder / "crate": packed, RUST: built}
        wanted = {crate: str(place) for crate, place in places.items() if place.exists()}
        found = {crate: linked(program, target, crate) for crate in wanted}
        if found != wanted:
            stop(f"for {target} the Rust crate links the libraries in {' and '.join(found.values())}")


def test_rust_trees(_folder):
    program = RUST / "target/debug/examples/gqlcst"
    if shutil.which("cargo"):
        test_printed("gqlcst.rs", ["tree", "tokens"], lambda mode, limits: [program, *words_of(mode, limits)])


def test_python(folder):
    """The tests of the package as it is, and of the wheel."""
    tests = PYTHON / "test_dumyroke.py"
    run(sys.executable, tests, "-q", env={**os.environ, "PYTHONPATH": str(PYTHON)})
    wheels, unpacked = folder / "wheels", folder / "unpacked"
    wheels.mkdir()
    run(sys.executable, "-c", f"import backend; backend.build_wheel({str(wheels)!r})", cwd=PYTHON)
    with zipfile.ZipFile(next(wheels.glob("*.whl"))) as wheel:
        wheel.extractall(unpacked)
    shutil.copy(tests, folder)
    run(sys.executable, folder / tests.name, "-q", env={**os.environ, "PYTHONPATH": str(unpacked)})
    if subprocess.run(
        [sys.executable, "-m", "pip", "--version"], stdout=subprocess.DEVNULL, stderr=subprocess.DEVNULL
    ).returncode:
        print("there is no pip: `pip install ./bindings/python` was not tried")
        return
    pip = [
        sys.executable, "-m", "pip", "install", "--quiet", "--no-index", "--disable-pip-version-check",
        "--root-user-action=ignore",
    ]
    run(*pip, "--target", folder / "installed", PYTHON)
    run(sys.executable, folder / tests.name, "-q", env={**os.environ, "PYTHONPATH": str(folder / "installed")})


def test_python_readme(_folder):
    """The program of the package's README prints what the README says."""
    text = (PYTHON / "README.md").read_text()
    program = re.search(r"```python\n(.*?)```", text, re.DOTALL)[1]
    shown = re.sub(r"^    ", "", re.search(r"It prints\n\n((?:    .*\n)+)", text)[1], flags=re.MULTILINE)
    printed = run(
        sys.executable, "-c", program, stdout=subprocess.PIPE, env={**os.environ, "PYTHONPATH": str(PYTHON)}
    ).stdout.decode()
    if printed != shown:
        stop(f"the program of bindings/python/README.md prints\n{printed}")


# Prints how many texts on standard input, which a zero ends, are parsed twice, as they are or without what a document
# may lack.
COUNTING = r"""
import re, sys
from dumyroke import lex, library, parse

def bare(text):
    joined = ""
    for item in lex(text):
        if item.kind not in ("WHITESPACE", "COMMENT", "COMMA"):
            joined += " " * bool(re.search(r'[\w"]$', joined) and re.match(r'[\w"-]', item.text)) + item.text
    return joined

def counted(*words):
    global calls
    calls += 1
    return call(*words)

texts = sys.stdin.buffer.read().split(b"\0")[:-1]
call, library.parse, calls = library.parse, counted, 0
for text in texts:
    parse(text)
    parse(bare(text))
print(calls - 2 * len(texts), len(texts))
"""


def test_room(_folder):
    """None of the texts is parsed twice for want of room. Python and dumyroke_tree.h guess the same."""
    joined = b"".join(text + b"\0" for text in texts() if b"\0" not in text)
    ended = run(
        sys.executable,
        "-c",
        COUNTING,
        input=joined,
        stdout=subprocess.PIPE,
        env={**os.environ, "PYTHONPATH": str(PYTHON)},
    )
    twice, count = map(int, ended.stdout.split())
    if twice or not count:
        stop(f"of {count} texts, {twice} are parsed twice")


def test_query_log(folder):
    """The example prints the same with Dask, where a python3 has it, and without."""
    log = folder / "log"
    log.mkdir()
    queries = ["{a b}", "{a", "query Q($a: B) {c}", "{...F ...F} fragment F on T {a {b}}"]
    (log / "a.jsonl").write_text("".join(f"{json.dumps({'query': query})}\n" for query in queries))
    there = {**os.environ, "PYTHONPATH": str(PYTHON)}
    script = PYTHON / "examples/query_log.py"
    printed = run(sys.executable, script, log, env=there, stdout=subprocess.PIPE).stdout.decode()
    lines = [line.strip() for line in printed.splitlines()]
    if lines[0] != "4 queries, 2 of them invalid" or lines[-2:] != ["4    2 a.jsonl:67", "2    1 a.jsonl:0"]:
        stop(f"query_log.py prints\n{printed}")
    for python in (sys.executable, "/usr/bin/python3"):
        if not subprocess.run([python, "-c", "import distributed"], stderr=subprocess.DEVNULL).returncode:
            again = run(python, script, log, "--workers", "2", env=there, stdout=subprocess.PIPE).stdout.decode()
            if again != printed:
                stop(f"query_log.py prints with Dask\n{again}")
            return
    print("there is no Dask: query_log.py was tried without it")


def test_install(folder):
    """The C example compiles with the installed files and flags."""
    install([f"PREFIX={folder}/usr", "DESTDIR="])
    prefix, flags = folder / "usr", ["-I{0}/include", "-L{0}/lib", "-ldumyroke"]
    wanted = [flag.format(prefix) for flag in flags]
    if shutil.which("pkg-config"):
        there = {**os.environ, "PKG_CONFIG_PATH": f"{prefix}/lib/pkgconfig"}
        said = (
            run("pkg-config", "--cflags", "--libs", "dumyroke", env=there, stdout=subprocess.PIPE)
            .stdout.decode()
            .split()
        )
        if said != wanted:
            stop(f"pkg-config gives the flags {' '.join(said)}")
    else:
        print("there is no pkg-config: dumyroke.pc was not tried")
    run("gcc", *WARNINGS, "-o", folder / "fields", C / "examples/fields.c", *wanted)
    ended = run(
        folder / "fields",
        input=b"type A { b: C }",
        stdout=subprocess.PIPE,
        env={**os.environ, "LD_LIBRARY_PATH": f"{prefix}/lib"},
    )
    if ended.stdout != b"A.b\n":
        stop(f"fields.c writes {ended.stdout.decode()}")


# A program for each of the two targets.
CMAKE = """cmake_minimum_required(VERSION 3.13)
project(fields C)
find_package(dumyroke {version} REQUIRED)
add_executable(shared {source})
target_link_libraries(shared PRIVATE dumyroke::dumyroke)
add_executable(static {source})
target_link_libraries(static PRIVATE dumyroke::static)
"""


def test_cmake(folder):
    """find_package finds what is installed, and links both libraries. A version that is not there is not found."""
    if not (shutil.which("cmake") and shutil.which("make")):
        print("there is no cmake, or no make: find_package(dumyroke) was not tried")
        return
    install([f"PREFIX={folder}/usr", "DESTDIR="])
    there = {**os.environ, "CMAKE_PREFIX_PATH": f"{folder}/usr"}
    major, minor, patch = map(int, version().split("."))
    versions = {
        "": True, version(): True, f"{major}.{minor}": True, f"{major}.{minor}.{patch + 1}": False,
        f"{major}.{minor + 1}": False, f"{major + 1}": False,
    }
    for number, is_there in versions.items():
        project = folder / f"project{number}"
        project.mkdir()
        (project / "CMakeLists.txt").write_text(CMAKE.format(version=number, source=C / "examples/fields.c"))
        made = subprocess.run(
            ["cmake", "-S", project, "-B", project / "build"], env=there, capture_output=True, text=True
        )
        if (made.returncode == 0) != is_there:
            stop(f"find_package(dumyroke {number}) ends with status {made.returncode}:\n{made.stderr}")
    run("cmake", "--build", folder / "project/build", stdout=subprocess.DEVNULL)
    for program in ("shared", "static"):
        if run(folder / "project/build" / program, input=b"type A { b: C }", stdout=subprocess.PIPE).stdout != b"A.b\n":
            stop(f"fields.c, built by cmake with the {program} library, writes something else")


C_PARTS = (test_c, test_stack, test_musl, test_arm64, test_trees, test_install, test_cmake)
RUST_PARTS = (test_rust, test_clippy, test_rust_platforms, test_rust_libraries, test_rust_trees)
PYTHON_PARTS = (test_python, test_mypy, test_python_readme, test_query_log, test_room)
# The parts that compare with the program gqlcst, which `rt ci` builds.
COMPARING = (test_trees, test_rust_trees)


def test(is_quick, more):
    """All tests, and more, up to the first that fails; or those that need no program of `rt ci`."""
    need("gcc", "nm", "readelf")
    if not (BUILD / "libdumyroke.so").exists():
        stop("there is nothing to test: `./do bindings build` comes first")
    test_symbols()
    for part in (*C_PARTS, *more, *RUST_PARTS, *PYTHON_PARTS):
        if not (is_quick and part in COMPARING):
            with tempfile.TemporaryDirectory() as folder:
                part(Path(folder))
    print("release/bindings/run: all tests passed")

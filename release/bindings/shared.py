"""Where the files of the bindings are, how a crate is proved over what `rt ci` left, and what the tests compare
with."""

import functools
import shutil
import subprocess
import sys
from pathlib import Path

TOP = Path(__file__).resolve().parent.parent.parent
sys.path.append(str(TOP / "tests/format"))
import corpus  # noqa: E402

BUILD = TOP / "build"
C = TOP / "bindings/c"
PYTHON = TOP / "bindings/python"
RUST = TOP / "bindings/rust"
WEB = TOP / "bindings/web"
SITE = BUILD / "web"
INCLUDE = C / "include"
# Is there where the library in build/ was made without a proof.
UNPROVED = BUILD / "UNPROVED"
PACKAGE = PYTHON / "dumyroke"
# The warnings that a compiler of C takes for errors.
WARNINGS = ["-Wall", "-Wextra", "-Werror", "-pedantic"]
# The list of the page's crates.
PAGES = "bindings/web/page_crates.txt"
# The limits that the trees are printed with: the usual ones, and two that are met often.
LIMITS = [(), ("3",), ("500", "12")]


def stop(why):
    sys.exit(f"{Path(sys.argv[0]).resolve().relative_to(TOP)}: {why}")


def need(*programs):
    """Ends where a program is missing."""
    for program in programs:
        if not shutil.which(program):
            stop(f"there is no {program} on the PATH")


def run(*words, **how):
    """Runs a command, and ends where it fails, or takes longer than a `timeout` in seconds."""
    try:
        ended = subprocess.run(list(map(str, words)), **how)
    except subprocess.TimeoutExpired:
        stop(f"this took too long: {' '.join(map(str, words))}")
    if ended.returncode:
        stop(f"this ended with status {ended.returncode}: {' '.join(map(str, words))}")
    return ended


def version():
    """The version of all bindings."""
    return (TOP / "VERSION").read_text().strip()


def kit():
    """The folder of the kit."""
    need("rt")
    return Path(shutil.which("rt")).resolve().parent.parent


def uses(listed="crates.txt"):
    """The libraries that each crate uses, as crates.txt says, or the list of the page's crates."""
    rows = [line.partition("#")[0].partition(":") for line in (TOP / listed).read_text().splitlines()]
    return {head.split()[0]: names.split() for head, _, names in rows if head.split()}


def below(name, crates):
    """The crates below a crate."""
    found = set()
    for library in crates[name]:
        if library in crates:
            found |= {library} | below(library, crates)
    return found


def library_words(name, crates, made):
    """What tells rattle where the libraries of a crate are: those of the page in the folder `made`, the others of the
    repository as `rt ci` left them, and those of the kit."""
    libraries, pages = kit() / "rlibs", uses(PAGES)
    words = ["--extern", f"std={libraries}/std.rlib", "-L", f"dependency={libraries}"]
    for library in sorted(below(name, crates) | set(crates[name])):
        folder = made if library in pages else TOP / f"crates/{library}/out/rlib" if library in crates else libraries
        if not (folder / f"{library}.rlib").exists():
            stop(
                f"there is no {folder / library}.rlib: run `rt ci` first; for C this also takes the archive that `rt"
                " lib` makes in crates/c_exports"
            )
        words += (
            ["--extern", f"{library}={folder}/{library}.rlib"]
            if library in crates[name]
            else ["-L", f"dependency={folder}"]
        )
    return words


def rattle(name, source, output, *words, made=None):
    """Has rattle prove a crate, whose folder is `source`, over the libraries that are proved, and write what it
    builds."""
    folder, crates = kit(), {**uses(), **uses(PAGES)}
    root = next(root for root in ("src/main.rt", "src/lib.rt") if (source / root).exists())
    command = [
        folder / "bin/rattle", "build", "--crate-name", name, root, *library_words(name, crates, made), *words,
    ]
    command += [
        "--antt-project", folder / "rattle/logic/antt-project.json", "--logic-built", folder / "logic_built", "--jobs",
        "1", "-o", output,
    ]
    run(*command, cwd=source)
    return output


def static_library(tools=None):
    """The words for a static library, by the kit's toolchain or another one."""
    return "--crate-type", "staticlib", "--toolchain", tools or kit() / "toolchain"


def toolchain(folder, script):
    """The kit's toolchain in a folder, with a script in the place of its compiler."""
    (folder / "bin").mkdir(parents=True)
    (folder / "lib").symlink_to(kit() / "toolchain/lib")
    for tool in (kit() / "toolchain/bin").iterdir():
        if tool.name != "clang":
            (folder / "bin" / tool.name).symlink_to(tool)
    compiler = folder / "bin/clang"
    compiler.write_text(script)
    compiler.chmod(0o755)
    return folder


def texts():
    """The texts of the tests, as bytes: those that gqlfmt is tried with. Those of crates/tests_parser are among
    them."""
    return [text.encode() for text in corpus.texts()]


def numbers_of(limits):
    """Both limits as numbers. Without one, tokens have None."""
    return int((*limits, 500)[0]), int(limits[1]) if limits[1:] else None


def words_of(mode, limits):
    """The command line of gqlcst for a mode and limits."""
    return [mode, *(word for pair in zip(("--recursion", "--tokens"), limits) for word in pair)]


@functools.cache
def gqlcst(text, mode, limits):
    """What gqlcst prints of a text, and its status."""
    program = TOP / "crates/gqlcst/out/gqlcst"
    if not program.exists():
        stop(f"there is no program {program}: `rt ci` builds it")
    return subprocess.run([program, *words_of(mode, limits)], input=text, stdout=subprocess.PIPE)

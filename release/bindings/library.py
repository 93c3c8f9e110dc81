"""Makes the library for C, static and shared, puts it into the Python package, and installs it."""

import os
import shutil
import tempfile
from dataclasses import dataclass
from pathlib import Path

from .shared import (
    BUILD, C, INCLUDE, PACKAGE, TOP, WARNINGS, kit, need, rattle, run, static_library, stop, toolchain, version,
)

CALLS = [
    "dumyroke_default_steps", "dumyroke_format", "dumyroke_lex", "dumyroke_measure", "dumyroke_parse",
    "dumyroke_parse_selection_set",
]
CALLS += ["dumyroke_parse_type", "dumyroke_string_value", "dumyroke_validate"]


@dataclass(frozen=True)
class Platform:
    """A Linux that the library is made for: its processor, the folder of its libraries, and how the names of its
    compiler and tools begin."""

    processor: str
    folder: Path
    tools: str = ""

    @property
    def target(self):
        """Its name for rattle and cargo."""
        return f"{self.processor}-unknown-linux-gnu"

    def run(self, tool, *words, **how):
        return run(f"{self.tools}{tool}", *words, **how)


HERE = Platform("x86_64", BUILD)
ARM64 = Platform("aarch64", BUILD / "arm64", "aarch64-linux-gnu-")
TOOLS = ["gcc", "ar", "ld", "objcopy"]
# In a platform's folder, the module that rattle has its compiler make code of. Beside it are the compiler's words.
KEPT = "module"
# Stands in for the compiler, and keeps both of its last call.
KEEPING = """#!/bin/sh
for word in "$@"; do
    [ ! -f "$word" ] || cp "$word" {kept}
done
echo "$@" > {kept}.words
exec {clang} "$@"
"""


def make_archive(archive, platform):
    """Has rattle prove c_exports once more, over the libraries that `rt ci` proved, and make the static library, beside
    which its module is kept. `rt ci` itself makes none, and `rt lib` would prove all libraries again, since it takes
    nothing from `rt ci`."""
    target = () if platform == HERE else ("--target", platform.target)
    keeping = KEEPING.format(kept=archive.with_name(KEPT), clang=kit() / "toolchain/bin/clang")
    words = static_library(toolchain(archive.with_name("toolchain"), keeping))
    return rattle("c_exports", TOP / "crates/c_exports", archive, *words, *target)


def make_heap(heap, platform):
    """Makes the object that has malloc, realloc and free under the names which the library calls: the kit's, or ours
    where the kit has none."""
    if platform == HERE:
        run("ar", "x", kit() / "c/liblibc_c.a", "heap.pic.o", cwd=heap.parent)
        (heap.parent / "heap.pic.o").rename(heap)
    else:
        platform.run("gcc", "-std=c11", "-O2", "-fPIC", *WARNINGS, "-c", C / "heap.c", "-o", heap)


def pc_text(prefix, include, library):
    """The file for pkg-config."""
    return f"""prefix={prefix}
includedir={include}
libdir={library}

Name: dumyroke
Description: A lossless, error-tolerant parser of GraphQL, proved correct
Version: {version()}
Cflags: -I${{includedir}}
Libs: -L${{libdir}} -ldumyroke
"""


def soname():
    """The name under which programs load the shared library."""
    return f"libdumyroke.so.{version().partition('.')[0]}"


def cmake_files(include):
    """What find_package(dumyroke) of CMake reads, for a library from whose folder the headers lie at `include`, by the
    names of the files."""
    major, minor, _ = version().split(".")
    same = f"^{major}[.]" if int(major) else f"^{major}[.]{minor}[.]"
    put = {"@VERSION@": version(), "@SONAME@": soname(), "@INCLUDE@": include, "@SAME@": same}
    files = {}
    for path in C.glob("*.cmake"):
        text = path.read_text()
        for name, value in put.items():
            text = text.replace(name, value)
        files[path.name] = text
    return files


def join(platform, archive, *members):
    """Makes one object of an archive and of objects, which has the calls alone as symbols: two libraries of the kit in
    one program would have the others twice."""
    joined = archive.with_suffix(".o")
    platform.run("ld", "-r", "-o", joined, "--whole-archive", archive, "--no-whole-archive", *members)
    platform.run("objcopy", *(f"--keep-global-symbol={call}" for call in CALLS), joined)
    archive.unlink()
    platform.run("ar", "rcsD", archive, joined)
    joined.unlink()


def link(platform, archive, shared):
    """Makes the shared library, which has the calls alone as symbols."""
    exports = shared.with_name("exports.map")
    exports.write_text(f"{{ global: {' '.join(f'{call};' for call in CALLS)} local: *; }};\n")
    words = [
        "-Wl,--whole-archive", archive, "-Wl,--no-whole-archive", f"-Wl,--version-script={exports}",
        f"-Wl,-soname,{soname()}", "-Wl,-z,defs,-z,relro,-z,now",
    ]
    platform.run("gcc", "-shared", "-s", "-o", shared, *words)
    exports.unlink()


def make_libraries(platform, given=None):
    """Makes both libraries in the platform's folder, and answers where the shared one is."""
    with tempfile.TemporaryDirectory() as name:
        folder = Path(name)
        made, heap = given or make_archive(folder / "libdumyroke_c.a", platform), folder / "heap.o"
        shutil.rmtree(platform.folder, ignore_errors=True)
        platform.folder.mkdir()
        archive = platform.folder / "libdumyroke.a"
        shutil.copyfile(made, archive)
        for kept in folder.glob(f"{KEPT}*"):
            shutil.copy(kept, platform.folder)
        make_heap(heap, platform)
        join(platform, archive, heap)
    shared = platform.folder / f"libdumyroke.so.{version()}"
    link(platform, archive, shared)
    # copies, since `rt ci` takes no link within the repository
    for name in (soname(), "libdumyroke.so"):
        shutil.copy(shared, platform.folder / name)
    return shared


def missing_tool(platform):
    """What is not here that making libraries for a platform takes, or None."""
    tools = [f"{platform.tools}{tool}" for tool in TOOLS]
    return next((tool for tool in tools if not shutil.which(tool)), None)


def make_arm64():
    """Makes the libraries for arm64 Linux in build/arm64, where there are tools for it."""
    if missing_tool(ARM64):
        print(f"there is no {missing_tool(ARM64)}: the libraries for arm64 were not made")
        return
    make_libraries(ARM64)


def build(given=None):
    """Makes both libraries and the file for pkg-config in build/, and puts the shared library into the Python package.
    Of a given archive there are none for arm64."""
    need(*TOOLS)
    shared = make_libraries(HERE, given)
    (BUILD / "dumyroke.pc").write_text(pc_text("${pcfiledir}/..", "${prefix}/bindings/c/include", "${pcfiledir}"))
    shutil.copyfile(shared, PACKAGE / "libdumyroke.so")
    if not given:
        make_arm64()


def install(settings):
    """Copies what was built to DESTDIR/PREFIX."""
    given = {
        "PREFIX": "/usr/local",
        "DESTDIR": "",
        **{name: os.environ[name] for name in ("PREFIX", "DESTDIR") if name in os.environ},
    }
    for setting in settings:
        name, found, value = setting.partition("=")
        if not found or name not in given:
            stop(f"install takes PREFIX=FOLDER and DESTDIR=FOLDER, and not {setting}")
        given[name] = value
    if not (BUILD / "dumyroke.pc").exists():
        stop("there is nothing to install: `./do bindings build` comes first")
    prefix = Path(given["PREFIX"])
    if not prefix.is_absolute():
        stop("PREFIX has to begin with /")
    to = Path(given["DESTDIR"] + str(prefix))
    for folder in ("lib/pkgconfig", "lib/cmake/dumyroke"):
        (to / folder).mkdir(parents=True, exist_ok=True)
    (to / "include").mkdir(exist_ok=True)
    for header in INCLUDE.glob("*.h"):
        shutil.copy(header, to / "include")
    shared = f"libdumyroke.so.{version()}"
    for library in BUILD.glob("libdumyroke.*"):
        installed = to / "lib" / library.name
        installed.unlink(missing_ok=True)
        if library.name in ("libdumyroke.a", shared):
            shutil.copy(library, installed)
        else:
            installed.symlink_to(shared)
    (to / "lib/pkgconfig/dumyroke.pc").write_text(pc_text(prefix, "${prefix}/include", "${prefix}/lib"))
    for name, text in cmake_files("../include").items():
        (to / "lib/cmake/dumyroke" / name).write_text(text)

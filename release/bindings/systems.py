"""Makes the library for Windows and macOS, of the modules that rattle hands to its compiler for Linux. Rattle has no
verdict for these systems. All tools are the kit's."""

import re
import shutil
import subprocess
import tempfile
from dataclasses import dataclass
from pathlib import Path

from .library import ARM64, CALLS, HERE, KEPT, Platform, version
from .shared import BUILD, C, INCLUDE, kit, run


@dataclass(frozen=True)
class System:
    """A system that the library is made for: its name for cargo and for the compiler, and the Linux whose module is
    taken."""

    target: str
    triple: str
    origin: Platform
    # What it is called in the name of an archive, and of a wheel.
    name: str
    wheel: str

    @property
    def is_linux(self):
        """Whether it is the Linux itself."""
        return self.triple == self.origin.target

    @property
    def folder(self):
        return BUILD / "systems" / self.target

    @property
    def shared(self):
        return "libdumyroke.dylib"

    @property
    def static(self):
        """The static library for each of cargo's names."""
        return {self.target: "libdumyroke.a"}


@dataclass(frozen=True)
class Windows(System):
    """The same files are for Microsoft's tools and for GNU's, which look for other names."""

    @property
    def shared(self):
        return "dumyroke.dll"

    @property
    def static(self):
        return {self.target: "dumyroke.lib", "x86_64-pc-windows-gnu": "libdumyroke.a"}


WINDOWS = Windows("x86_64-pc-windows-msvc", "x86_64-pc-windows-msvc", HERE, "windows-x86_64", "win_amd64")
SYSTEMS = [
    WINDOWS,
    System("aarch64-apple-darwin", "arm64-apple-macosx11.0.0", ARM64, "macos-arm64", "macosx_11_0_arm64"),
    System("x86_64-apple-darwin", "x86_64-apple-macosx11.0.0", HERE, "macos-x86_64", "macosx_11_0_x86_64"),
]
# What the library takes of the system. On macOS the compiler also writes a call that clears memory.
TAKEN = ["free", "malloc", "memcpy", "memmove", "memset", "realloc"]
CLEARING = ["__bzero", "bzero"]


def tool(name, *words, **how):
    """Runs one of the programs that the kit's clang is, by the name that it is called with."""
    return run(name, *words, executable=kit() / "toolchain/bin/clang", **how)


def text_of(triple, file, *words):
    """What clang reads, as the text of a module."""
    words = [f"--target={triple}", *words, file, "-S", "-emit-llvm", "-o", "-"]
    return tool("clang", *words, stdout=subprocess.PIPE).stdout.decode()


def layout(triple):
    """The lines of a module that say what it is for."""
    with tempfile.NamedTemporaryFile(suffix=".c") as empty:
        return re.findall(r"^target .*$", text_of(triple, empty.name), re.MULTILINE)


def retargeted(text, system):
    """The module of a Linux for another system of the same processor: only the lines that say what it is for differ,
    and what the functions want of a processor goes."""
    if system.is_linux:
        return text
    for line in layout(system.triple):
        head = line.partition("=")[0]
        text = re.sub(rf"^{head}=.*$", lambda _, line=line: line, text, count=1, flags=re.MULTILINE)
    return re.sub(r' "(?:target-cpu|target-features|tune-cpu)"="[^"]*"', "", text)


def by_pointer(text):
    """The module with `dumyroke_limits` as C on Windows hands it over: as a pointer to both numbers. On Linux they are
    two arguments, the third and the fourth."""
    header = (INCLUDE / "dumyroke.h").read_text()
    calls = re.findall(r"^\w+ (dumyroke_\w+)\([^;]*\bdumyroke_limits limits", header, re.MULTILINE)
    for call in calls:
        [kinds] = re.findall(rf"^define .*@{call}\((.*?)\)", text, re.MULTILINE)
        kinds = [kind.split()[0] for kind in kinds.split(", ")]
        taken = [f"{kind} %a{place}" for place, kind in enumerate(kinds)]
        text = re.sub(rf"^define (.*)@{call}\(", rf"define internal \1@{call}_on_linux(", text, flags=re.MULTILINE)
        text = text.replace(f"@{call}(", f"@{call}_on_linux(") + f"""
define i32 @{call}({", ".join([*taken[:2], "ptr %limits", *taken[4:]])}) nounwind {{
  %a2 = load i64, ptr %limits, align 8
  %second = getelementptr i8, ptr %limits, i64 8
  %a3 = load i64, ptr %second, align 8
  %status = tail call i32 @{call}_on_linux({", ".join(taken)})
  ret i32 %status
}}
"""
    return text


def flags(system):
    """The words that rattle gave its compiler, but for those about Linux and about files."""
    words = (system.origin.folder / f"{KEPT}.words").read_text().split()
    at = words.index("-c")
    # -c, -x ir FILE, -o FILE
    unwanted = ["--target", "--sysroot", *([] if system.is_linux else ["-march"])]
    kept = [word for word in words[:at] + words[at + 6 :] if not word.startswith(tuple(unwanted))]
    # code has no fixed place on Windows
    return [word for word in kept if word != "-fPIC" or not isinstance(system, Windows)]


def compile_module(system, folder, form, made):
    """Makes code with our heap inside, which has the calls alone as symbols, in the form that words for clang give."""
    origin = system.origin
    module = text_of(origin.target, origin.folder / KEPT, "-x", "ir", "-Xclang", "-disable-llvm-passes")
    headers = origin.run("gcc", "-print-file-name=include", stdout=subprocess.PIPE).stdout.decode().strip()
    # it has no tables of the stack, as the module has none: the assemblers of Windows write them in other words
    words = ["-std=c11", "-O2", "-fno-asynchronous-unwind-tables", "-isystem", headers]
    heap = text_of(origin.target, C / "heap.c", *words)
    module, heap = retargeted(module, system), retargeted(heap, system)
    (folder / "module.ll").write_text(by_pointer(module) if isinstance(system, Windows) else module)
    (folder / "heap.ll").write_text(heap)
    target = f"--target={system.triple}"
    tool("clang", target, "-c", "-emit-llvm", "-x", "ir", folder / "heap.ll", "-o", folder / "heap.bc")
    inside = ["-Xclang", "-mlink-builtin-bitcode", "-Xclang", folder / "heap.bc"]
    tool("clang", target, *flags(system), *inside, *form, "-x", "ir", folder / "module.ll", "-o", made)


def link_windows(made, folder, shared):
    """The DLL, and the library by which programs import it."""
    for name, functions in {"msvcrt.dll": TAKEN, "dumyroke.dll": CALLS}.items():
        (folder / f"{name}.def").write_text("\n".join([f"LIBRARY {name}", "EXPORTS", *functions, ""]))
    taken = folder / "msvcrt.lib"
    tool("llvm-dlltool", "-m", "i386:x86-64", "-d", folder / "msvcrt.dll.def", "-l", taken)
    words = ["/dll", "/noentry", "/nodefaultlib", "/timestamp:0", f"/def:{folder}/dumyroke.dll.def", f"/out:{shared}"]
    tool("lld-link", *words, f"/implib:{shared}.lib", made, taken)


# What the linker has to know of macOS: the functions of its C library.
STUB = """--- !tapi-tbd
tbd-version: 4
targets: [ arm64-macos, x86_64-macos ]
install-name: '/usr/lib/libSystem.B.dylib'
exports:
  - targets: [ arm64-macos, x86_64-macos ]
    symbols: [ dyld_stub_binder, {} ]
...
"""


def link_macos(made, folder, shared):
    """The dylib. The linker signs it in nobody's name, since macOS on arm64 wants a signature."""
    (folder / "libSystem.tbd").write_text(STUB.format(", ".join(f"_{name}" for name in TAKEN + CLEARING)))
    (folder / "exports").write_text("".join(f"_{call}\n" for call in CALLS))
    processor = "arm64" if "aarch64" in shared.parent.name else "x86_64"
    words = ["-arch", processor, "-platform_version", "macos", "11.0", "11.0", "-dylib", "-dead_strip"]
    words += ["-exported_symbols_list", folder / "exports", "-install_name", f"@rpath/{shared.name}"]
    words += ["-current_version", version(), "-compatibility_version", version()]
    tool("ld64.lld", *words, "-o", shared, made, folder / "libSystem.tbd")


def make_system(system):
    """Makes both libraries for a system in its folder."""
    with tempfile.TemporaryDirectory() as name:
        folder, made = Path(name), Path(name, "dumyroke.o")
        # with the second word an object for Windows has no time
        words = ["-c", *(["-mno-incremental-linker-compatible"] if system == WINDOWS else [])]
        compile_module(system, folder, words, made)
        shutil.rmtree(system.folder, ignore_errors=True)
        system.folder.mkdir(parents=True)
        form = "coff" if system == WINDOWS else "darwin"
        for file in system.static.values():
            tool("llvm-ar", "rcsD", f"--format={form}", system.folder / file, made)
        (link_windows if system == WINDOWS else link_macos)(made, folder, system.folder / system.shared)


def systems():
    """The systems that have libraries."""
    return [system for system in SYSTEMS if system.folder.exists()]


def make_systems():
    """Makes the libraries for Windows and macOS."""
    for system in SYSTEMS:
        if (system.origin.folder / KEPT).exists():
            make_system(system)
        else:
            print(f"there is no library for {system.origin.target}: the one for {system.target} was not made")

"""Tests the libraries for Windows in wine, and those for macOS as far as Linux can: by their symbols."""

import contextlib
import os
import shutil
import subprocess

from .answers import compare
from .assembly import assembly
from .library import CALLS
from .shared import run, stop
from .systems import CLEARING, TAKEN, WINDOWS, link_macos, systems, tool
from .tests import compiled

MINGW = "x86_64-w64-mingw32-gcc"


def names(system, file, *words):
    """The names that nm lists of a file, as C has them: on macOS each begins with a `_`."""
    listed = tool("llvm-nm", "-g", "-j", *words, system.folder / file, stdout=subprocess.PIPE).stdout.decode().split()
    found = [name for name in listed if not name.endswith(":")]
    return sorted(found if system == WINDOWS else [name[1:] for name in found])


def test_names(system):
    """The static library has the calls alone, beside the constants that linkers for Windows know by their names. It
    takes a few functions of the system."""
    file = system.static[system.target]
    found, needed = names(system, file, "--defined-only"), names(system, file, "--undefined-only")
    found = [name for name in found if "@" not in name]
    if found != CALLS or not set(needed) <= {*TAKEN, *CLEARING}:
        stop(f"{system.folder / file} has {' '.join(found)} and needs {' '.join(needed)}")
    if system != WINDOWS and names(system, system.shared, "--defined-only") != CALLS:
        stop(f"{system.folder / system.shared} has other symbols than the calls")


def test_assembly(system, folder):
    """The assembly for macOS gives the very shared library."""
    made, shared = folder / "made.o", folder / system.target / system.shared
    shared.parent.mkdir()
    tool("clang", f"--target={system.triple}", "-c", assembly(system), "-o", made)
    link_macos(made, folder, shared)
    if shared.read_bytes() != (system.folder / system.shared).read_bytes():
        stop(f"the assembly for {system.target} does not give {system.folder / system.shared}")


@contextlib.contextmanager
def wine(folder):
    """The words before a program for Windows. Wine keeps its files in the folder, and has ended when that goes."""
    setting = ["env", f"WINEPREFIX={folder}/wine", "WINEDEBUG=-all"]
    # Debian has it in a folder of its own
    server = shutil.which("wineserver", path=f"{os.environ['PATH']}:/usr/lib/wine")
    run(*setting, "wine", "wineboot", stderr=subprocess.DEVNULL)
    try:
        yield [*setting, "wine"]
    finally:
        run(*setting, server, "--kill")
        run(*setting, server, "--wait")


def test_windows(folder):
    """The tests in C, and all answers, with both kinds of the library."""
    shutil.copy(WINDOWS.folder / WINDOWS.shared, folder)
    static = WINDOWS.static[WINDOWS.target]
    with wine(folder) as start:
        for kind, file in {"static": static, "shared": f"{WINDOWS.shared}.lib"}.items():
            how = {"gcc": MINGW, "built": WINDOWS.folder, "library": (f"-l:{file}", "-static")}
            for source in ("tests/edges.c", "tests/threads.c"):
                run(*start, compiled(source, folder, **how).with_suffix(".exe"))
            program = compiled("tests/answers.c", folder, **how).with_suffix(".exe")
            compare(f"the {kind} library for Windows", [*start, program], folder)


def test_systems(folder):
    made = systems()
    for system in made:
        test_names(system)
        if system != WINDOWS:
            test_assembly(system, folder)
    missing = [program for program in (MINGW, "wine") if not shutil.which(program)]
    if WINDOWS in made and missing:
        print(f"there is no {missing[0]}: the library for Windows was not tried")
    elif WINDOWS in made:
        test_windows(folder)

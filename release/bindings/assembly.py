"""Makes the library as assembly, for the feature `assembly` of the Rust crate: of the modules that rattle hands to its
compiler for Linux, with the same words. Our heap is inside on each system."""

import dataclasses
import shutil
import tempfile
from pathlib import Path

from .library import ARM64, HERE, KEPT
from .shared import BUILD
from .systems import SYSTEMS, WINDOWS, System, Windows, compile_module

ASSEMBLY = BUILD / "assembly"
# As GNU's assembler reads it, and without remarks.
FORM = ["-S", "-fno-integrated-as", "-fno-verbose-asm"]
# For Windows it does not read clang's words for a section of each function.
WHOLE = ["-fno-function-sections", "-fno-data-sections"]
LINUX = [System(f"{it.processor}-unknown-linux", it.target, it, "", "") for it in (HERE, ARM64)]
# The words of Microsoft's triple are not GNU's, and clang takes these for both.
OF_WINDOWS = dataclasses.replace(WINDOWS, target="x86_64-pc-windows", triple="x86_64-pc-windows-gnu")
ASSEMBLED = [*LINUX, OF_WINDOWS, *(system for system in SYSTEMS if system != WINDOWS)]


def assembly(system):
    """The file for a system, which has the name of a target without its C library."""
    return ASSEMBLY / f"{system.target}.s"


def make_assembly():
    """Makes a file for each system, where its module is."""
    shutil.rmtree(ASSEMBLY, ignore_errors=True)
    ASSEMBLY.mkdir()
    for system in ASSEMBLED:
        if (system.origin.folder / KEPT).exists():
            with tempfile.TemporaryDirectory() as folder:
                form = FORM + WHOLE * isinstance(system, Windows)
                compile_module(system, Path(folder), form, assembly(system))
        else:
            print(f"there is no library for {system.origin.target}: the assembly for {system.target} was not made")

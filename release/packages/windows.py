"""Tries the packages for Windows in wine, from C."""

import shutil
import tarfile
import tempfile
import zipfile
from pathlib import Path

from bindings.answers import compare
from bindings.shared import C, run
from bindings.systems import WINDOWS, systems
from bindings.systems_tests import MINGW, wine

from .here import package, without


def unpack(folder):
    """Unpacks the packages, and answers where the wheel, the Rust crate and the archive are."""
    for ending in (f"{WINDOWS.wheel}.whl", f"{WINDOWS.name}.zip"):
        with zipfile.ZipFile(package(ending)) as packed:
            packed.extractall(folder / ending)
    with tarfile.open(package(".crate")) as packed:
        packed.extractall(folder / "crate")
    [crate], [archive] = (folder / "crate").iterdir(), (folder / f"{WINDOWS.name}.zip").iterdir()
    return folder / f"{WINDOWS.wheel}.whl", crate, archive


def programs(folder):
    """The program of all answers over the library of each package, by the package's name."""
    wheel, crate, archive = unpack(folder)
    shutil.copy(wheel / "dumyroke" / WINDOWS.shared, folder)
    libraries, made = {"the wheel for Windows": archive / f"lib/{WINDOWS.shared}.lib"}, {}
    for target, file in WINDOWS.static.items():
        libraries[f"the Rust crate for {target}"] = crate / "lib" / target / file
    libraries["the Rust crate's assembly for Windows"] = crate / "assembly/x86_64-pc-windows.s"
    for name, library in libraries.items():
        made[name] = folder / f"{len(made)}.exe"
        run(MINGW, "-O2", f"-I{archive}/include", C / "tests/answers.c", "-o", made[name], library)
    return made


def try_windows():
    tried = "the release for Windows"
    if WINDOWS not in systems() or any(without(program, tried) for program in (MINGW, "wine", "cargo")):
        return
    with tempfile.TemporaryDirectory() as name:
        folder = Path(name)
        with wine(folder) as start:
            for library, program in programs(folder).items():
                compare(library, [*start, program], folder)
    yield "windows"

"""Tries the packages for arm64 Linux under qemu, over Debian's files for arm64: Python, glibc and musl."""

import os
import shlex
import shutil
import subprocess
import tarfile
import tempfile
import zipfile
from pathlib import Path

from bindings.answers import compare
from bindings.arm64 import QEMU, emulated, sysroot
from bindings.library import ARM64
from bindings.shared import C, INCLUDE, PYTHON, run

from . import debian
from .here import package, without

NEEDED = ["python3", "musl-dev"]
# This test of the Rust crate starts a process with little memory, which qemu does not take.
LEFT_OUT = "a_guess_takes_nothing_that_a_parse_needs"


def unpack(root):
    """Unpacks both packages in the folder, and answers where they are."""
    with zipfile.ZipFile(package("linux_*_aarch64.whl")) as wheel:
        wheel.extractall(root / "wheel")
    with tarfile.open(package(".crate")) as crate:
        crate.extractall(root)
    [crate] = root.glob("dumyroke-*")
    return root / "wheel", crate


def musl(root):
    """The words with which the compiler takes musl, as it lies in the folder, in the place of glibc."""
    words = (root / "usr/lib/aarch64-linux-musl/musl-gcc.specs").read_text()
    specs = root / "musl.specs"
    specs.write_text(words.replace("/usr/", f"{root}/usr/"))
    return ["-specs", specs, "-Wl,--unresolved-symbols=ignore-in-shared-libs"]


def programs(root, wheel, crate):
    """The program of all answers over the library of each package, with glibc and with musl, by a name of the two."""
    shared, made = wheel / "dumyroke/libdumyroke.so", {}
    shutil.copy(shared, root / "libdumyroke.so.0")
    for system, words in {"gnu": [], "musl": musl(root)}.items():
        source = [f"{ARM64.tools}gcc", "-O2", *words, f"-I{INCLUDE}", C / "tests/answers.c"]
        static = crate / f"lib/aarch64-unknown-linux-{system}/libdumyroke.a"
        run(*source, "-o", root / f"wheel-{system}", shared)
        run(*source, "-o", root / f"crate-{system}", "-static", static)
        made |= {f"the {name} for arm64, linux-{system}": root / f"{name}-{system}" for name in ("wheel", "crate")}
    assembly = crate / "assembly/aarch64-unknown-linux.s"
    run(f"{ARM64.tools}gcc", "-O2", f"-I{INCLUDE}", C / "tests/answers.c", "-o", root / "assembly", "-static", assembly)
    return {**made, "the crate's assembly for arm64": root / "assembly"}


def interpreter(root):
    """Debian's Python for arm64 as a script, so that the tests can start it, too."""
    script = root / "python3"
    words = [*emulated(root), "-0", script, root / "usr/bin/python3"]
    script.write_text(f'#!/bin/sh\nexec {shlex.join(map(str, words))} "$@"\n')
    script.chmod(0o755)
    return script


def try_python(root, wheel):
    """The tests of the Python package over the wheel."""
    tests = root / "test_dumyroke.py"
    shutil.copy(PYTHON / tests.name, tests)
    run(interpreter(root), tests, "-q", env={**os.environ, "PYTHONPATH": str(wheel)}, timeout=1800)


def try_rust(crate):
    """The tests of the Rust crate, where there is a standard library of Rust for arm64."""
    words = ["rustc", "--print", "target-libdir", "--target", ARM64.target]
    if not Path(run(*words, stdout=subprocess.PIPE).stdout.decode().strip()).exists():
        print("there is no standard library of Rust for arm64: the Rust crate for arm64 was tried from C alone")
        return
    name = f"CARGO_TARGET_{ARM64.target.upper().replace('-', '_')}"
    there = {name: value for name, value in os.environ.items() if name != "DUMYROKE_LIB_DIR"}
    there |= {f"{name}_LINKER": f"{ARM64.tools}gcc", f"{name}_RUNNER": shlex.join(emulated(sysroot()))}
    words = ["cargo", "test", "--offline", "--quiet", "--target", ARM64.target, "--", "--skip", LEFT_OUT]
    run(*words, cwd=crate, env=there, stdout=subprocess.DEVNULL, timeout=1800)
    print("the Rust crate for arm64 passed its tests")
    yield "arm64_rust"


def try_arm64():
    tried = "the release for arm64"
    if not ARM64.folder.exists():
        print(f"there are no libraries for arm64: {tried} was not tried")
        return
    if any(without(program, tried) for program in (QEMU, f"{ARM64.tools}gcc", "cargo")):
        return
    with tempfile.TemporaryDirectory() as name:
        root = Path(name, "root")
        if not debian.unpack(root, "arm64", NEEDED):
            print(f"Debian's files for arm64 did not come from the network: {tried} was not tried")
            return
        wheel, crate = unpack(root)
        for library, program in programs(root, wheel, crate).items():
            compare(library, [*emulated(root, f"LD_LIBRARY_PATH={root}"), program], Path(name))
        yield "arm64"
        try_python(root, wheel)
        yield "arm64_python"
        yield from try_rust(crate)

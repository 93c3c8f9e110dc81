"""Tries the libraries of the wheel and of the Rust crate where there is no glibc: in a folder with musl and busybox
alone."""

import os
import shutil
import subprocess
import tempfile
from pathlib import Path

from bindings.answers import compare
from bindings.shared import C, INCLUDE, run

from .here import package, without

LOADER = Path("/lib/ld-musl-x86_64.so.1")


def make(root):
    """Makes the folder, and answers whether its busybox runs: one that needs glibc does not."""
    for folder in ("bin", "lib"):
        (root / folder).mkdir(parents=True)
    shutil.copy(shutil.which("busybox"), root / "bin")
    shutil.copy(LOADER, root / "lib")
    return subprocess.run(["chroot", root, "/bin/busybox", "true"], stderr=subprocess.DEVNULL).returncode == 0


def unpack(root, file, *words):
    """Has busybox unpack a package in the folder."""
    shutil.copy(file, root)
    run("chroot", root, "/bin/busybox", *words, file.name)


def programs(root):
    """The program of all answers over the library of each package, by the package's name."""
    unpack(root, package("linux_*_x86_64.whl"), "unzip", "-q")
    unpack(root, package(".crate"), "tar", "-xzf")
    [shared] = root.glob("dumyroke/libdumyroke.so")
    [static] = root.glob("dumyroke-*/lib/x86_64-unknown-linux-musl/libdumyroke.a")
    shutil.copy(shared, root / "lib/libdumyroke.so.0")
    words = ["musl-gcc", "-O2", f"-I{INCLUDE}", C / "tests/answers.c"]
    run(*words, "-o", root / "shared", shared)
    run(*words, "-static", "-o", root / "static", static)
    return {"the wheel": "/shared", "the Rust crate": "/static"}


def try_musl():
    tried = "a folder with musl alone"
    if any(without(program, tried) for program in ("musl-gcc", "busybox", "chroot", "cargo")):
        return
    if os.geteuid() or not LOADER.exists():
        print(f"there is no root, or no {LOADER}: {tried} was not tried")
        return
    with tempfile.TemporaryDirectory() as name:
        folder, root = Path(name), Path(name, "root")
        if not make(root):
            print(f"busybox is not static: {tried} was not tried")
            return
        for package_name, program in programs(root).items():
            compare(f"{package_name} in a folder with musl alone", ["chroot", root, program], folder)
    yield "musl"

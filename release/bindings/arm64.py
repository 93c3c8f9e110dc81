"""Runs programs for arm64 Linux on this machine, by qemu."""

import subprocess
from pathlib import Path

from .library import ARM64

QEMU = "qemu-aarch64-static"


def sysroot():
    """The folder of the C library that the compiler for arm64 links."""
    loader = ARM64.run("gcc", "-print-file-name=ld-linux-aarch64.so.1", stdout=subprocess.PIPE).stdout.decode().strip()
    return Path(loader).parent.parent


def emulated(root, *settings):
    """The words before a program and its words. It finds its libraries below the folder, and gets the settings as
    variables."""
    return [QEMU, "-L", str(root), *(word for setting in settings for word in ("-E", setting))]

"""Tries the static programs where nothing else is: in an empty folder."""

import os
import shutil
import subprocess
import tarfile
import tempfile
from pathlib import Path

from bindings.arm64 import QEMU
from bindings.library import HERE
from bindings.shared import run, stop, words_of
from bindings.tests import test_printed

from .here import package, without
from .release import static_for

HELLO = '{"jsonrpc":"2.0","id":1,"method":"initialize","params":{"capabilities":{}}}'
OPENING = f"Content-Length: {len(HELLO)}\r\n\r\n{HELLO}".encode()


def unpack(root, platform):
    """Unpacks the programs in the folder, and answers the words before a program."""
    with tarfile.open(package(f"-linux-{platform.processor}-static.tar.gz")) as archive:
        archive.extractall(root)
    [unpacked] = root.iterdir()
    for part in list(unpacked.iterdir()):
        part.rename(root / part.name)
    if platform == HERE:
        return ["chroot", root]
    shutil.copy(shutil.which(QEMU), root / "qemu")
    return ["chroot", root, "/qemu"]


def expect(platform, name, found, wanted):
    if found != wanted:
        stop(f"{name} for {platform.processor} in an empty folder: found {found!r}, wanted {wanted!r}")


def try_platform(platform, root):
    start, file = unpack(root, platform), root / "a.graphql"
    file.write_text("{a}")
    run(*start, "/bin/gqlfmt", "/a.graphql")
    expect(platform, "gqlfmt", file.read_text(), "{\n  a\n}\n")
    run(*start, "/bin/gqlcheck", "/a.graphql", stdout=subprocess.DEVNULL)
    answer = subprocess.run([*start, "/bin/gqlls"], input=OPENING, stdout=subprocess.PIPE).stdout
    expect(platform, "gqlls", b'"capabilities"' in answer, True)
    name = f"gqlcst for {platform.processor} in an empty folder"
    test_printed(name, ["check"], lambda mode, limits: [*start, "/bin/gqlcst", *words_of(mode, limits)])


def try_alone():
    for platform in static_for():
        tried = f"the static programs for {platform.processor} in an empty folder"
        if os.geteuid():
            print(f"there is no root: {tried} were not tried")
            continue
        if without("chroot", tried) or platform != HERE and without(QEMU, tried):
            continue
        with tempfile.TemporaryDirectory() as name:
            try_platform(platform, Path(name))
        yield f"static_{platform.processor}"

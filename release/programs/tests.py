"""Tests the static programs as those of `rt ci` are tested: what they print, what they do with files, and what they do
where memory, devices and files fail. Those for arm64 run in qemu."""

import shlex
import shutil
import subprocess
import sys
import tempfile
from concurrent.futures import ThreadPoolExecutor
from pathlib import Path

from bindings.arm64 import QEMU
from bindings.library import ARM64, HERE
from bindings.shared import TOP, run, stop, words_of
from bindings.tests import symbols, test_printed
from packages.installed import PROGRAMS

from .static import AT_ONCE, SYSTEM, compiled, link, static_folder

# A test, and the program that it is given.
TESTS = [("tests/files", "gqlfmt"), ("tests/gqlcheck", "gqlcheck"), ("tests/editors/protocol.py", "gqlls")]


def command(platform):
    """The words before a program."""
    return [] if platform == HERE else [QEMU]


def starters(platform, programs, to):
    """The folder of the programs, or for another processor one with scripts that start them in qemu."""
    if platform == HERE:
        return programs
    to.mkdir()
    for name in PROGRAMS:
        script = to / name
        script.write_text(f'#!/bin/sh\nexec {shlex.join([*command(platform), str(programs / name)])} "$@"\n')
        script.chmod(0o755)
    return to


def faulty(platform, to):
    """The programs with tests/faults/faulty.c linked into them."""
    to.mkdir()
    hooks = compiled(platform, TOP / "tests/faults/faulty.c", to, "-DLINKED")
    defined = symbols(platform, "-g", "--defined-only", hooks)
    functions = [name.replace("__wrap_", "") for name in defined]
    system = [static_folder(platform) / f"{source.stem}.o" for source in SYSTEM]
    for name in PROGRAMS:
        link(platform, to / name, [static_folder(platform) / f"{name}.o", *system, hooks], *functions)
    return to


def test_alone(platform):
    """No program names a loader or a library."""
    for name in PROGRAMS:
        said = platform.run("readelf", "-lW", "-d", static_folder(platform) / name, stdout=subprocess.PIPE).stdout
        if b"INTERP" in said or b"(NEEDED)" in said:
            stop(f"the program {name} for {platform.processor} is not static")


def test_system(platform, to):
    """Each function of system.c does what its comment says."""
    (to / "place/folder/inner").mkdir(parents=True)
    (to / "place/link").symlink_to("folder")
    (to / "place/file").write_text("{a}")
    tried = compiled(platform, SYSTEM[0].with_name("system_test.c"), to)
    link(platform, to / "system_test", [tried, static_folder(platform) / "system.o"])
    run(*command(platform), to / "system_test", "abc", "", cwd=to / "place")


def test_platform(platform, to):
    test_alone(platform)
    test_system(platform, to)
    programs = starters(platform, static_folder(platform), to / "programs")
    name = f"the static gqlcst for {platform.processor}"
    test_printed(name, ["tree", "tokens"], lambda mode, limits: [programs / "gqlcst", *words_of(mode, limits)])
    for test, program in TESTS:
        run(sys.executable, TOP / test, programs / program, timeout=1800)
    failing = starters(platform, faulty(platform, to / "faulty"), to / "failing")
    run(TOP / "tests/faults/run", failing, timeout=1800)


def try_platform(platform):
    """The tests of a processor, where its programs are. What is not here is said."""
    if not static_folder(platform).exists():
        return  # making them has said why
    if platform == ARM64 and not shutil.which(QEMU):
        print(f"there is no {QEMU}: the static programs for {platform.processor} were not tried")
        return
    with tempfile.TemporaryDirectory() as name:
        # another user starts the programs, too
        Path(name).chmod(0o755)
        test_platform(platform, Path(name))
    print(f"the static programs for {platform.processor} passed their tests", flush=True)


def test():
    """All tests, those in qemu first, since they take longest."""
    with ThreadPoolExecutor(AT_ONCE) as pool:
        list(pool.map(try_platform, (ARM64, HERE)))

"""Makes the four programs as static files. They need no file of the system they run on, so any Linux of their processor
does. Their C library is musl, since glibc's licence, the LGPL, wants that users can link the file anew."""

import shutil
from concurrent.futures import ThreadPoolExecutor
from functools import partial
from pathlib import Path

from bindings.library import ARM64, HERE
from bindings.shared import BUILD, C, TOP, WARNINGS, kit, rattle
from packages.installed import PROGRAMS

# What the programs call and musl lacks.
SYSTEM = [Path(__file__).resolve().parent / "system.c", C / "heap.c"]
# They lie at another address in each run, and no table of addresses stays writable.
LINKING = ["-static", "-pie", "--no-dynamic-linker", "-z", "text", "-z", "relro", "-z", "now", "--gc-sections", "-s"]
# How many proofs run at a time, and tests of processors.
AT_ONCE = 2
# The licence of musl, which comes with each copy of it.
NOTICE = Path("/usr/share/doc/musl-dev/copyright")


def static_folder(platform):
    """Where the programs for a processor are, each with the object that it is linked of."""
    return BUILD / "programs" / platform.processor


def musl(platform):
    """The folder of musl, as Debian's musl-dev for this processor has it."""
    return Path(f"/usr/lib/{platform.processor}-linux-musl")


def missing(platform):
    """What is not here that making programs for a processor takes, or None."""
    tools = [f"{platform.tools}{tool}" for tool in ("gcc", "nm") if not shutil.which(f"{platform.tools}{tool}")]
    files = [str(path) for path in (musl(platform) / "libc.a", NOTICE) if not path.exists()]
    return next(iter(tools + files), None)


def compiled(platform, source, to, *flags):
    """The object of a file in C, over musl."""
    made = to / f"{source.stem}.o"
    words = ["-specs", musl(platform) / "musl-gcc.specs", "-std=c11", "-O2", "-fPIE", *WARNINGS, *flags]
    platform.run("gcc", *words, "-c", source, "-o", made)
    return made


def link(platform, program, objects, *functions):
    """Links a program of objects. For each of the functions it calls the one that an object has as `__wrap_` and its
    name."""
    library = musl(platform)
    words = ",".join([*LINKING, *(f"--wrap={name}" for name in ("main", *functions))])
    parts = [library / "rcrt1.o", library / "crti.o", *objects, library / "crtn.o"]
    platform.run("gcc", "-specs", library / "musl-gcc.specs", "-nostartfiles", f"-Wl,{words}", "-o", program, *parts)


def make_object(platform, name):
    """Has rattle prove a program once more, for the oldest processor of the platform, and make its object."""
    target = ["--cpu=x86-64"] if platform == HERE else ["--target", platform.target]
    made = static_folder(platform) / f"{name}.o"
    return rattle(name, TOP / f"crates/{name}", made, "--toolchain", kit() / "toolchain", *target)


def make(platform):
    """Makes the programs for a processor, where there are tools for it."""
    shutil.rmtree(static_folder(platform), ignore_errors=True)
    lacking = missing(platform)
    if lacking:
        print(f"there is no {lacking}: the static programs for {platform.processor} were not made")
        return
    static_folder(platform).mkdir(parents=True)
    system = [compiled(platform, source, static_folder(platform)) for source in SYSTEM]
    with ThreadPoolExecutor(AT_ONCE) as pool:
        for name, made in zip(PROGRAMS, pool.map(partial(make_object, platform), PROGRAMS)):
            link(platform, static_folder(platform) / name, [made, *system])


def build():
    for platform in (HERE, ARM64):
        make(platform)

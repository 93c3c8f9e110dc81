"""What a release holds, each package by its file's name."""

import hashlib
import importlib.util
import itertools
import re
import shutil
import subprocess
import tempfile
from pathlib import Path

from bindings.assembly import ASSEMBLED, ASSEMBLY, assembly
from bindings.library import ARM64, HERE, missing_tool, pc_text
from bindings.shared import BUILD, C, INCLUDE, PACKAGE, PYTHON, RUST, SITE, TOP, UNPROVED, need, run, stop, version
from bindings.systems import SYSTEMS, WINDOWS, systems
from platforms import OF_OTHERS, PAGE, noted, rows, state, with_table
from programs.static import NOTICE, missing, static_folder

from .about import LICENCES, about, licences
from .archives import File, packed, read, tar, under, zipped
from .deb import deb
from .installed import PROGRAMS, described, glibc, installed
from .npm import npm
from .vsix import vsix


def archive():
    """For a Linux of this processor with glibc: to be unpacked below any folder."""
    name = f"dumyroke-{version()}-linux-x86_64"
    found_by = pc_text("${pcfiledir}/../..", "${prefix}/include", "${prefix}/lib")
    files = installed() | {"lib/pkgconfig/dumyroke.pc": File(found_by.encode())}
    return f"{name}.tar.gz", packed(tar(under(name, files)))


def static_for():
    """The platforms that have static programs."""
    return [platform for platform in (HERE, ARM64) if static_folder(platform).exists()]


def static(platform):
    """The programs for any Linux of a processor, with the notice that comes with musl."""
    name = f"dumyroke-{version()}-linux-{platform.processor}-static"
    files = described({name: static_folder(platform) / name for name in PROGRAMS})
    files |= {"share/doc/dumyroke/LICENSE-musl": read(NOTICE)}
    return f"{name}.tar.gz", packed(tar(under(name, files)))


# The first version of musl that the wheel is for. The library was tried with 1.2.3 and 1.2.5.
MUSL = "1_2"


def wheel(library, tags):
    """The Python package with a library, for the systems that the tags name."""
    described = importlib.util.spec_from_file_location("backend", PYTHON / "backend.py")
    backend = importlib.util.module_from_spec(described)
    described.loader.exec_module(backend)
    backend.LIBRARY = library
    backend.tag = lambda: f"py3-none-{'.'.join(tags)}"
    with tempfile.TemporaryDirectory() as folder:
        name = backend.build_wheel(folder)
        return name, Path(folder, name).read_bytes()


def linux_wheel(platform):
    """For each Linux of a processor whose glibc has the symbols that the library names, and for those with musl."""
    library = platform.folder / "libdumyroke.so"
    major, minor = glibc(library)
    tags = [f"manylinux_{major}_{minor}", f"musllinux_{MUSL}"]
    return wheel(library, [f"{tag}_{platform.processor}" for tag in tags])


def system_wheel(system):
    return wheel(system.folder / system.shared, [system.wheel])


def system_archive(system):
    """The libraries and the headers for Windows or macOS."""
    name = f"dumyroke-{version()}-{system.name}"
    files = {f"include/{path.name}": read(path) for path in sorted(INCLUDE.glob("*.h"))}
    files |= {f"lib/{path.name}": read(path) for path in sorted(system.folder.iterdir())}
    files |= licences() | {"CHANGELOG.md": read(TOP / "CHANGELOG.md")}
    if system == WINDOWS:
        return f"{name}.zip", zipped(under(name, files))
    return f"{name}.tar.gz", packed(tar(under(name, files)))


def made_for():
    """The platforms that have libraries."""
    return [platform for platform in (HERE, ARM64) if platform.folder.exists()]


def crate():
    """The Rust crate as cargo packages it, with the static library inside for each platform, and with assembly."""
    with tempfile.TemporaryDirectory() as name:
        folder = Path(name, "rust")
        shutil.copytree(RUST, folder, ignore=shutil.ignore_patterns("target", "original", "Cargo.lock"))
        for document in (*LICENCES, "CHANGELOG.md"):
            shutil.copy(TOP / document, folder)
        for platform, libc in itertools.product(made_for(), ("gnu", "musl")):
            library = folder / f"lib/{platform.processor}-unknown-linux-{libc}"
            library.mkdir(parents=True)
            shutil.copy(platform.folder / "libdumyroke.a", library)
        if ASSEMBLY.exists():
            shutil.copytree(ASSEMBLY, folder / "assembly")
        for system in systems():
            for target, file in system.static.items():
                (folder / "lib" / target).mkdir()
                shutil.copy(system.folder / file, folder / "lib" / target)
        said = run(
            "cargo", "package", "--offline", "--no-verify", "--allow-dirty", cwd=folder, stderr=subprocess.PIPE
        ).stderr.decode()
        if "warning" in said:
            stop(f"cargo warns of the crate:\n{said}")
        file = folder / f"target/package/dumyroke-{version()}.crate"
        return file.name, file.read_bytes()


def page():
    """The page, a folder for any static server."""
    name = f"dumyroke-page-{version()}"
    files = {str(path.relative_to(SITE)): read(path) for path in sorted(SITE.rglob("*")) if path.is_file()}
    if not files:
        stop(f"there is no page in {SITE}: `./do bindings pages` makes it")
    return f"{name}.tar.gz", packed(tar(under(name, files | licences())))


def platforms(files):
    """The section of docs/BINDINGS.md that says what was tried on which platform, with the table of this release."""
    text = with_table(PAGE.read_text(), rows(files, noted(files)))
    return re.search(r"^## (Platforms\n.*?)\n## ", text, re.DOTALL | re.MULTILINE)[1]


def static_programs():
    """Where the proof of the static programs ends."""
    processors = " and ".join(platform.processor for platform in static_for())
    if not processors:
        return "No static programs were made."
    below = "release/programs/system.c, bindings/c/heap.c and musl are trusted"
    return f"The static programs are proved for {processors}. Below them, {below}."


def proved(files):
    """What a release with these files is made of, and where its proof ends."""
    kit = run("rt", "version", stdout=subprocess.PIPE, text=True).stdout.strip()
    arm64 = "The libraries for arm64 are proved for it; the heap below them, bindings/c/heap.c, is tested only."
    if ARM64 not in made_for():
        arm64 = "No libraries for arm64 were made."
    others = ", ".join(system.target for system in systems())
    others = f"Not proved for its system, but made of the proved modules for Linux: {others}." if others else ""
    unproved = "NOT PROVED: the library was made without a proof, to try the packages.\n\n" if UNPROVED.exists() else ""
    return f"""{unproved}Dumyroke {version()}, from commit {state()}, proved by {kit}.

Programs: `run` of gqlcheck_run, gqlcst_run, gqlfmt_run and gqlls_program is proved, with the devices of byte_streams; the system below them is trusted.
{static_programs()}
libdumyroke, and so the Rust crate and the Python package; the page's module, which is the npm package's: each exported call is proved. Headers, Rust,
Python, JavaScript, the module's memory, and the extension for VS Code are tested only. After the proof, binaryen gives the module addresses of 32 bits.
{arm64}
{others}
docs/PROMISES.md says what is proved, and EVIDENCE.md which lemmas prove it. The provers and compilers of the kit, LLVM, binaryen and the C library are trusted.

{platforms(files)}"""


def made_with_more():
    """What makes the packages that take a program which may be missing. This is said."""
    makers = {"the Rust crate": ("cargo", crate), "the npm package": ("wasm-opt", npm), "the page": ("wasm-opt", page)}
    for name, (program, _) in makers.items():
        if not shutil.which(program):
            print(f"there is no {program}: {name} is left out")
    return [make for program, make in makers.values() if shutil.which(program)]


def left_out():
    """What is not in build/, each with a tool that is missing, or None, and with the command that makes it."""
    for it in (HERE, ARM64):
        if it not in made_for():
            yield f"libraries for {it.target}", missing_tool(it), "./do bindings build"
        if it not in static_for():
            yield f"static programs for {it.processor}", missing(it), "./do programs"
    for it in SYSTEMS:
        if it not in systems():
            yield f"libraries for {it.target}", missing_tool(it.origin), "./do bindings build"
    for it in ASSEMBLED:
        if not assembly(it).exists():
            yield f"files of assembly for {it.target}", missing_tool(it.origin), "./do bindings build"


def release():
    """All files of a release, by their names."""
    need("objdump", "strip", "git", "rt")
    if not BUILD.exists():
        stop("there is no build/: `./do gate` comes first")
    for library in (BUILD / "libdumyroke.a", PACKAGE / "libdumyroke.so"):
        read(library, made_by="./do bindings build")
    for what, tool, command in left_out():
        why = f"there is no {tool}" if tool else f"`{command}` has not made them"
        print(f"{why}: the {what} are left out")
    if f"## {version()}" not in read(TOP / "CHANGELOG.md").content.decode().splitlines():
        stop(f"CHANGELOG.md has no entry `## {version()}`")
    if about()["homepage"].endswith(".example"):
        print("the addresses in about.json are placeholders: whoever publishes these packages puts real ones there")
    run(TOP / "tools/evidence/run", stdout=subprocess.DEVNULL)
    if run(TOP / "tools/kinds", "--print", stdout=subprocess.PIPE).stdout != (C / "released_kinds.txt").read_bytes():
        print(
            "bindings/c/released_kinds.txt is of another release: run `tools/kinds` when these packages are published"
        )
    packages = [*map(linux_wheel, made_for()), *map(static, static_for())]
    packages += [make(system) for system in systems() for make in (system_wheel, system_archive)]
    packages += [make() for make in [archive, deb, vsix, *made_with_more()]]
    return whole(dict(packages) | {"EVIDENCE.md": (BUILD / "EVIDENCE.md").read_bytes()})


def whole(files):
    """The files of a release with PROVED.txt, as this trial's notes have it, and with their sums."""
    files = {name: content for name, content in files.items() if name not in OF_OTHERS}
    files["PROVED.txt"] = proved(files).encode()
    sums = "".join(f"{hashlib.sha256(content).hexdigest()}  {name}\n" for name, content in sorted(files.items()))
    return files | {"SHA256SUMS": sums.encode()}

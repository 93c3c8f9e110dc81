"""What a release installs, and what it needs of the system."""

import re
import subprocess
import tempfile
from pathlib import Path

from bindings.library import install
from bindings.shared import TOP

from .about import LICENCES
from .archives import File, read
from .manuals import manuals

PROGRAMS = ["gqlcheck", "gqlcst", "gqlfmt", "gqlls"]
DOCUMENTS = [
    "README.md", *LICENCES, "CHANGELOG.md", "docs/BINDINGS.md", "docs/DIFFERENCES.md", "docs/EDITORS.md",
    "docs/FORMAT.md", "docs/GRAMMAR.md", "docs/PROMISES.md", "docs/DEFINITIONS.md", "build/EVIDENCE.md",
]


def described(programs):
    """Programs, by their names, with manual pages, completions and documents, as they lie below /usr/local or /usr."""
    files = manuals(PROGRAMS) | {f"bin/{name}": read(path, True) for name, path in programs.items()}
    return files | {f"share/doc/dumyroke/{Path(name).name}": read(TOP / name) for name in DOCUMENTS}


def installed():
    """What is described, with libraries, headers and dumyroke.pc."""
    files = described({name: TOP / f"crates/{name}/out/{name}" for name in PROGRAMS})
    with tempfile.TemporaryDirectory() as name:
        install([f"DESTDIR={name}", "PREFIX=/usr"])
        for path in sorted(Path(name, "usr").rglob("*")):
            inside = str(path.relative_to(Path(name, "usr")))
            if path.is_symlink():
                files[inside] = File(link=str(path.readlink()))
            elif path.is_file():
                files[inside] = read(path)
    return files


def glibc(*paths):
    """The newest version of glibc whose symbols these files name."""
    found = [(0, 0)]
    for path in paths:
        names = subprocess.run(["objdump", "-T", path], stdout=subprocess.PIPE, text=True, check=True).stdout
        found += [tuple(map(int, version)) for version in re.findall(r"GLIBC_(\d+)\.(\d+)", names)]
    return max(found)

"""The package for Debian and what comes from it."""

import email.utils
import gzip
import hashlib
import tempfile
from pathlib import Path

from bindings.library import cmake_files, pc_text
from bindings.shared import PACKAGE, TOP, run, version

from .about import LICENCES, about, maintainer
from .archives import TIME, File, ar, packed, read, tar
from .installed import PROGRAMS, glibc, installed

# Where Debian has the libraries of this processor.
LIBRARIES = "usr/lib/x86_64-linux-gnu"


def control(files, depends):
    """The description of a Debian package."""
    size = sum(len(file.content) for file in files.values()) // 1024
    return f"""Package: dumyroke
Version: {version()}
Architecture: amd64
Maintainer: {maintainer()}
Installed-Size: {size}
Depends: libc6 (>= {depends[0]}.{depends[1]})
Section: devel
Priority: optional
Homepage: {about()["homepage"]}
Description: GraphQL parser with a proof, formatter, checker and language server
 The programs gqlcheck, gqlcst, gqlfmt and gqlls read GraphQL documents: they
 print their trees and errors, put them into one layout, check them without a
 schema, and serve editors. The library libdumyroke has the same for C.
"""


def debian_copyright():
    """The licences of a Debian package (Machine-readable debian/copyright file, version 1.0). Debian itself has the
    text of the Apache License."""
    held, _, permission = read(TOP / "LICENSE-MIT").content.decode().partition("\n\n")[2].partition("\n\n")
    holders = held.replace("Copyright (c) ", "").replace("\n", "\n           ")
    mit = "".join(f" {line}\n" if line else " .\n" for line in permission.splitlines())
    return f"""Format: https://www.debian.org/doc/packaging-manuals/copyright-format/1.0/
Upstream-Name: dumyroke
Upstream-Contact: {maintainer()}
Source: {about()["repository"]}
Comment: Dumyroke is a port of the Rust crate apollo-parser 0.8.7 by Apollo
 Graph, Inc., which comes under the same licences.

Files: *
Copyright: {holders}
License: Expat or Apache-2.0

License: Expat
{mit}
License: Apache-2.0
 Licensed under the Apache License, Version 2.0. On Debian systems, its text
 is in /usr/share/common-licenses/Apache-2.0.
"""


def debian_changelog():
    """The changes in the form that Debian reads (deb-changelog(5)): CHANGELOG.md has them in words."""
    time = email.utils.formatdate(TIME)
    return (
        f"dumyroke ({version()}) unstable; urgency=medium\n\n  * Version {version()}: CHANGELOG.md.gz has its"
        f" changes.\n\n -- {maintainer()}  {time}\n"
    )


def in_debian(name):
    """Where a file that lies below /usr is in Debian."""
    return f"usr/{name}".replace("zsh/site-functions", "zsh/vendor-completions").replace("usr/lib/", f"{LIBRARIES}/")


def stripped(file):
    """A program without its table of symbols, which is not loaded when it runs: Debian takes none with it."""
    with tempfile.TemporaryDirectory() as name:
        path = Path(name, "program")
        path.write_bytes(file.content)
        run("strip", path)
        return read(path, is_program=True)


def debian_files():
    """The files as Debian has them: programs without symbols, manual pages and changes packed, the licences in one
    file."""
    files = {in_debian(name): file for name, file in installed().items() if Path(name).name not in LICENCES}
    files |= {name: stripped(file) for name, file in files.items() if file.is_program}
    files[f"{LIBRARIES}/pkgconfig/dumyroke.pc"] = File(
        pc_text("/usr", "${prefix}/include", "${prefix}/lib/x86_64-linux-gnu").encode()
    )
    files |= {
        f"{LIBRARIES}/cmake/dumyroke/{name}": File(text.encode()) for name, text in cmake_files("../../include").items()
    }
    files["usr/share/doc/dumyroke/copyright"] = File(debian_copyright().encode())
    files["usr/share/doc/dumyroke/changelog"] = File(debian_changelog().encode())
    for name in [name for name in files if "/man/" in name or Path(name).name.lower().startswith("changelog")]:
        files[f"{name}.gz"] = File(gzip.compress(files.pop(name).content, 9, mtime=0))
    return files


def deb():
    """A package for Debian and what comes from it."""
    files = debian_files()
    programs = [TOP / f"crates/{name}/out/{name}" for name in PROGRAMS]
    text = control(files, glibc(*programs, PACKAGE / "libdumyroke.so"))
    sums = "".join(
        f"{hashlib.md5(file.content).hexdigest()}  {name}\n" for name, file in sorted(files.items()) if not file.link
    )
    shared = f"libdumyroke {version().partition('.')[0]} dumyroke (>= {version()})\n"
    parts = {"control": text, "md5sums": sums, "shlibs": shared, "triggers": "activate-noawait ldconfig\n"}
    described = {name: File(content.encode()) for name, content in parts.items()}
    members = [
        ("debian-binary", b"2.0\n"),
        ("control.tar.gz", packed(tar(described))),
        ("data.tar.gz", packed(tar(files))),
    ]
    return f"dumyroke_{version()}_amd64.deb", ar(members)

"""Tries the packages where the kit is not: in a bare Debian, in a folder with musl or with nothing, and under qemu."""

import re
import shutil
import subprocess
import tarfile
import tempfile
import time
from concurrent.futures import ThreadPoolExecutor
from importlib.machinery import SourceFileLoader
from pathlib import Path

from bindings.assembly import ASSEMBLY
from bindings.page import OLDEST_NODE, has_node, test_chromium
from bindings.shared import RUST, TOP, run, stop, words_of
from bindings.tests import test_printed
from platforms import missing, note

from . import debian
from .alone import OPENING, try_alone
from .arm64 import try_arm64
from .here import NPM, RELEASE, npm_example, package, without
from .installed import PROGRAMS
from .musl import try_musl
from .release import whole
from .windows import try_windows

# What the packages need beside themselves: a C compiler and pkg-config, pip, cargo, node. npm would bring four hundred
# packages more.
NEEDED = ["gcc", "libc6-dev", "pkgconf", "python3-pip", "cargo", "nodejs"]
# The folder of a package's trial in the bare system.
PLACE = "trial"
readme = SourceFileLoader("readme", str(TOP / "tests/readme")).load_module()


def examples(page, *programs):
    """The commands that a page shows with these programs: each with its folder, and the text that it writes. `rt try`
    in a program's folder is that program, and so is `./do try` with its name."""
    for block in readme.blocks((TOP / page).read_text()):
        folder = "."
        for command, written in readme.commands(block):
            if command.startswith("cd "):
                folder = command[3:]
            command = re.sub(r"\./do try (\w+)( --)?", r"\1", command)
            command = re.sub(r"\brt try( --)?", Path(folder).name, command)
            if not command.startswith("cd ") and set(programs) & set(command.split()):
                yield folder, command, written


class Bare:
    """A bare Debian, in a folder."""

    def __init__(self, root):
        self.root, self.place = root, root / PLACE

    def run(self, command, folder=".", **how):
        """What a command writes, in a folder of the trial's."""
        within = f"mkdir -p /{PLACE}/{folder} && cd /{PLACE}/{folder} && {command}"
        return run("chroot", self.root, "sh", "-c", within, stdout=subprocess.PIPE, timeout=1800, **how).stdout.decode()

    def show(self, page, *programs, before=""):
        """Runs a page's commands with these programs. Each must write what the page shows."""
        tried = list(examples(page, *programs))
        for folder, command, shown in tried:
            # an example may end with status 1
            found = self.run(f"{before}{command} || true", folder)
            if found != shown:
                stop(f"in a bare Debian `{command}` of {page} writes\n{found}")
        if not tried:
            stop(f"{page} shows no command with {' or '.join(programs)}")

    def left(self):
        """The files that the packages have left behind."""
        names = " -o ".join(f"-name '*{name}*'" for name in ("dumyroke", *PROGRAMS))
        return self.run(f"find / -xdev \\( {names} \\) -not -path '/{PLACE}/*'")

    def try_one(self, trial, ending):
        """One package's trial, in a folder that has the package and the examples over the libraries. Afterwards nothing
        is left of it."""
        file = package(ending)
        self.place.mkdir()
        shutil.copy(file, self.place)
        for source in readme.RUN:
            (self.place / source).parent.mkdir(parents=True, exist_ok=True)
            shutil.copy(TOP / source, self.place / source)
        trial(self, file.name)
        left = self.left()
        if left:
            stop(f"{file.name} leaves files behind:\n{left}")
        shutil.rmtree(self.place)
        print(f"a bare Debian: {file.name} passed", flush=True)


def try_installed(bare, before=""):
    """The programs, the server, and a program in C by pkg-config."""
    bare.show("README.md", "gqlcst", "gqlfmt", before=before)
    answer = bare.run(f"{before}gqlls || true", input=OPENING)
    if '"capabilities"' not in answer:
        stop(f"in a bare Debian gqlls answers {answer!r}")
    bare.show("docs/BINDINGS.md", "gcc", "./fields", before=before)


def try_debian(bare, name):
    bare.run(f"dpkg -i {name}")
    try_installed(bare)
    bare.run("dpkg -r dumyroke")


def try_archive(bare, name):
    """Unpacked below a folder of its own."""
    to = "/opt/dumyroke"
    bare.run(f"mkdir {to} && tar -C {to} --strip-components=1 -xf {name}")
    try_installed(bare, f"export PATH={to}/bin:$PATH PKG_CONFIG_PATH={to}/lib/pkgconfig LD_LIBRARY_PATH={to}/lib; ")
    bare.run(f"rm -r {to}")


def try_wheel(bare, name):
    pip = "python3 -m pip --quiet --disable-pip-version-check"
    bare.run(f"{pip} install --no-index --break-system-packages --root-user-action=ignore {name}")
    shutil.copy(TOP / "README.md", bare.place)
    bare.run("python3 -m doctest README.md")
    bare.show("docs/BINDINGS.md", "python3")
    bare.run(f"{pip} uninstall --yes --break-system-packages --root-user-action=ignore dumyroke")


CARGO = "cargo build --offline --quiet"


def build_example(bare, name, command):
    """Unpacks the crate, and has cargo build its example gqlcst.rs without a network."""
    bare.run(f"tar -xf {name} && mkdir -p src && mv {name.removesuffix('.crate')} dumyroke")
    shutil.copy(RUST / "examples/gqlcst.rs", bare.place / "src/main.rs")
    manifest = (
        '[package]\nname = "gqlcst"\nversion = "1.0.0"\nedition = "2021"\n[dependencies]\ndumyroke = { path ='
        ' "dumyroke" }\n'
    )
    (bare.place / "Cargo.toml").write_text(manifest)
    bare.run(command)
    shutil.rmtree(bare.root / "root/.cargo", ignore_errors=True)


def try_crate(bare, name):
    """The example does what README shows of gqlcst."""
    build_example(bare, name, CARGO)
    bare.show("README.md", "gqlcst", before=f"PATH=/{PLACE}/target/debug:$PATH; ")


def try_assembly(bare, name):
    """Made of the crate's assembly, where the crate has no library, the example prints what gqlcst prints."""
    build_example(bare, name, f"rm -r dumyroke/lib && {CARGO} --features dumyroke/assembly")
    program = ["chroot", bare.root, f"/{PLACE}/target/debug/gqlcst"]
    test_printed("the Rust crate's assembly", ["tree", "tokens"], lambda *case: [*program, *words_of(*case)])


def try_npm(bare, name):
    """The package as npm unpacks it: the example of its README, and its tests."""
    bare.run(
        f"mkdir -p node_modules && tar -C node_modules -xf {name} && mv node_modules/package node_modules/dumyroke"
    )
    program, shown = npm_example()
    (bare.place / "example.mjs").write_text(program)
    shutil.copy(NPM / "tests/package_test.mjs", bare.place)
    if bare.run("node example.mjs") != shown:
        stop("in a bare Debian the example of bindings/npm/README.md prints something else")
    bare.run("node package_test.mjs")


# Each by its name in release/platforms.json, with the program without which the package is left out.
TRIALS = {
    "debian": (try_debian, ".deb", "strip"),
    "archive": (try_archive, "-linux-x86_64.tar.gz", "strip"),
    "wheel": (try_wheel, "linux_*_x86_64.whl", "strip"),
    "crate": (try_crate, ".crate", "cargo"),
    "assembly": (try_assembly, ".crate", "cargo"),
    "npm": (try_npm, ".tgz", "wasm-opt"),
}


def try_bare():
    trials = dict(TRIALS)
    if not ASSEMBLY.exists():
        print("there is no assembly: the Rust crate was not tried with it")
        del trials["assembly"]
    with tempfile.TemporaryDirectory() as folder:
        bare = Bare(Path(folder))
        if not debian.make(bare.root, NEEDED):
            print("no bare Debian could be made from the network: the packages were not tried in it")
            return
        for name, (trial_of, ending, program) in trials.items():
            if not without(program, f"the package *{ending}"):
                bare.try_one(trial_of, ending)
                yield name


def try_page():
    """The page as it is packed, in Chromium."""
    if any(without(program, "the packed page") for program in ("wasm-opt", "chromium")):
        return
    if not has_node():
        print(f"there is no node of version {OLDEST_NODE} or later: the packed page was not tried")
        return
    with tempfile.TemporaryDirectory() as folder:
        with tarfile.open(package("-page-*.tar.gz")) as archive:
            archive.extractall(folder)
        [site] = Path(folder).iterdir()
        test_chromium(site)
    yield "page"


def timed(part):
    """The trials that a part ran, each with its seconds. The first has those for the things that all need, too."""
    took, began = {}, time.monotonic()
    for name in part():
        took[name] = time.monotonic() - began - sum(took.values())
        print(f"the trial {name} passed: {took[name]:.0f} seconds", flush=True)
    return took


def trial():
    """Two parts at a time, the longest first."""
    began, parts, why = time.monotonic(), [try_windows, try_musl, try_alone, try_page], debian.why_not()
    if why:
        print(f"{why}: the packages were not tried in a bare Debian, and those for arm64 were not tried")
    else:
        parts = [try_arm64, try_bare, *parts]
    with ThreadPoolExecutor(2) as pool:
        took = {name: seconds for part in pool.map(timed, parts) for name, seconds in part.items()}
    files = {path.name: path.read_bytes() for path in RELEASE.iterdir()}
    note(files, set(took))
    for name, content in whole(files).items():
        (RELEASE / name).write_bytes(content)
    print("\n".join(missing(files, set(took))) or "the trials bear out each cell of the table in docs/BINDINGS.md")
    print(f"the trials took {sum(took.values()):.0f} seconds, {time.monotonic() - began:.0f} by the clock")

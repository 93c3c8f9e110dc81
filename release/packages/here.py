"""Tests the packages where they are made: what needs no bare system."""

import json
import re
import shutil
import subprocess
import sys
import tarfile
import tempfile
import zipfile
from pathlib import Path
from xml.etree import ElementTree

from bindings.page import OLDEST_NODE, has_node
from bindings.shared import BUILD, TOP, run, stop

from .about import LICENCES
from .installed import PROGRAMS
from .manuals import bash, fish, words, zsh
from .npm import NPM
from .release import release
from .vsix import VSCODE

RELEASE = BUILD / "release"


def package(ending):
    """The package of the release whose name has this ending."""
    found = list(RELEASE.glob(f"*{ending}")) if RELEASE.exists() else []
    if len(found) != 1:
        stop(f"there is no package *{ending} in {RELEASE}: `./do release` makes it")
    return found[0]


def without(program, tried):
    """Whether a program is missing, which is said."""
    if shutil.which(program):
        return False
    print(f"there is no {program}: {tried} was not tried")
    return True


def test_same():
    """Made once more, each file is the same."""
    for name, content in release().items():
        if not (RELEASE / name).exists() or (RELEASE / name).read_bytes() != content:
            stop(f"{name} is not the same when it is made again")


def test_manuals(_folder):
    """Each manual page names the options, and their letters, that the program names when it gets `--help`."""
    for program in PROGRAMS:
        said = subprocess.run(
            [TOP / f"crates/{program}/out/{program}", "--help"],
            stdin=subprocess.DEVNULL,
            capture_output=True,
            text=True,
        )
        named = set(re.findall(r"--[a-z]+(?:-[a-z]+)*", said.stdout + said.stderr))
        listed = {word.name for word in words(program) if word.is_option}
        if named != listed:
            stop(
                f"the manual page of {program} and what it says of itself differ in {' '.join(sorted(named ^ listed))}"
            )
        letters = set(re.findall(r"^  (-\w), (--[a-z]+)", said.stdout, re.MULTILINE))
        if letters != {tuple(word.spellings) for word in words(program) if word.letter}:
            stop(f"the manual page of {program} and what it says of itself differ in the letters of options")


# How a shell says what may come after a word that is begun. Zsh has no call for that: its file is run over a stand-in
# for its function.
COMPLETED = {
    "bash": (bash, '_{program} "" "{typed}" {program}; printf "%s\\n" "${{COMPREPLY[@]}}"'),
    "fish": (fish, 'complete -C "{program} {typed}"'),
    "zsh": (zsh, ""),
}


def completed(shell, program, typed):
    """The words that a shell offers."""
    text, offer = COMPLETED[shell]
    if shell == "zsh":
        script = f'_arguments() {{ print -l -- "$@" }}\n{text(program)}'
    else:
        script = f"{text(program)}\n{offer.format(program=program, typed=typed)}"
    said = run(shell, "-c", script, stdout=subprocess.PIPE, timeout=300).stdout.decode()
    return {re.split(r"[\t\[]", line)[0] for line in said.splitlines()}


def test_completions(_folder):
    for shell in COMPLETED:
        if without(shell, "its completion"):
            continue
        # zsh itself chooses those that begin so, and it is not run here
        options = {
            name for word in words("gqlfmt") for name in word.spellings if name.startswith("--") or shell == "zsh"
        }
        if completed(shell, "gqlfmt", "--") - {"*:file:_files"} != options:
            stop(f"{shell} does not offer the options of gqlfmt")
        if shell != "zsh" and completed(shell, "gqlcst", "t") != {"tokens", "tree"}:
            stop(f"{shell} does not offer the modes of gqlcst")


def contents(file):
    """The files of a package, by the last part of their names."""
    if file.suffix in (".whl", ".vsix", ".zip"):
        with zipfile.ZipFile(file) as archive:
            return {Path(name).name: archive.read(name) for name in archive.namelist()}
    with tarfile.open(file) as archive:
        return {Path(one.name).name: archive.extractfile(one).read() for one in archive.getmembers() if one.isfile()}


def test_licences(_folder):
    """Each package has the notice and the texts of both licences. That of Debian has them in one file, and names
    Debian's own copy of the Apache License."""
    for file in RELEASE.iterdir():
        if file.suffix not in (".txt", ".md", ".deb") and file.name != "SHA256SUMS":
            held = contents(file)
            for name in LICENCES:
                if (TOP / name).read_bytes() not in (held.get(name), held.get(f"{name}.txt")):
                    stop(f"{file.name} has no {name}")


def test_debian(folder):
    """Debian's own check finds no error."""
    if without("lintian", "the package for Debian"):
        return
    shutil.copy(package(".deb"), folder)
    run("lintian", "--allow-root", "--fail-on", "error", *folder.glob("*.deb"), stdout=subprocess.DEVNULL, timeout=300)
    unpacked = run("dpkg-deb", "--fsys-tarfile", *folder.glob("*.deb"), stdout=subprocess.PIPE).stdout
    (folder / "files.tar").write_bytes(unpacked)
    said = " ".join(contents(folder / "files.tar")["copyright"].decode().split())
    for part in (
        "Permission is hereby granted, free of charge",
        "/usr/share/common-licenses/Apache-2.0",
        "port of the Rust crate apollo-parser",
    ):
        if part not in said:
            stop(f"the copyright file of the package for Debian lacks: {part}")


# Prints the tags of a wheel's name, as pip reads it.
TAGS = """
import sys
from pip._vendor.packaging.utils import parse_wheel_filename
print(*parse_wheel_filename(sys.argv[1])[3])
"""


def test_wheels(_folder):
    for wheel in RELEASE.glob("*.whl"):
        test_wheel(wheel)


def test_wheel(wheel):
    """The page of the wheel is one that the index of Python shows, and its tags are those of its name."""
    if not without("twine", "the wheel"):
        run("twine", "check", "--strict", wheel, stdout=subprocess.DEVNULL, timeout=300)
    read = subprocess.run([sys.executable, "-c", TAGS, wheel.name], capture_output=True, text=True)
    if read.returncode:
        print("there is no pip that reads the names of wheels: the tags of the wheel were not tried")
        return
    tags = re.findall(r"^Tag: (.*)$", contents(wheel)["WHEEL"].decode(), re.MULTILINE)
    if sorted(read.stdout.split()) != sorted(tags) or ("linux" in wheel.name) != ("musllinux" in read.stdout):
        stop(f"the name {wheel.name} has the tags {read.stdout.strip()}, and the wheel {' '.join(tags)}")


def npm_example():
    """The program that the package's README shows, and what it says that it prints."""
    text = (NPM / "README.md").read_text()
    shown = re.search(r"It prints\n\n((?:    .*\n)+)", text)[1]
    return re.search(r"```js\n(.*?)```", text, re.DOTALL)[1], re.sub(r"^    ", "", shown, flags=re.MULTILINE)


def test_npm(folder):
    """The package as npm installs it without a network: its tests, its README's example, and its types."""
    if without("wasm-opt", "the npm package"):
        return
    if not (has_node() and shutil.which("npm")):
        print(f"there is no npm, or no node of version {OLDEST_NODE} or later: the npm package was not tried")
        return
    (folder / "package.json").write_text('{"private": true, "type": "module"}')
    program, shown = npm_example()
    (folder / "example.mjs").write_text(program)
    for test in (NPM / "tests").iterdir():
        shutil.copy(test, folder)
    packed = run(
        "npm", "pack", "--dry-run", "--offline", package(".tgz"), cwd=folder, stdout=subprocess.DEVNULL,
        stderr=subprocess.PIPE,
    ).stderr.decode()
    if "warn" in packed.lower():
        stop(f"npm warns of the package:\n{packed}")
    run("npm", "install", "--offline", "--no-audit", "--no-fund", "--silent", package(".tgz"), cwd=folder)
    run("node", "package_test.mjs", cwd=folder)
    if run("node", "example.mjs", cwd=folder, stdout=subprocess.PIPE).stdout.decode() != shown:
        stop("the example of bindings/npm/README.md prints something else")
    if not without("tsc", "the typing of the npm package"):
        run(
            "tsc", "--strict", "--noEmit", "--module", "nodenext", "--target", "es2022", "--lib", "es2022,dom",
            "types.mts", cwd=folder,
        )


def test_vsix(folder):
    """Each file that the package names is there, and the extension in it passes its tests."""
    with zipfile.ZipFile(package(".vsix")) as archive:
        archive.extractall(folder)
    ElementTree.parse(folder / "[Content_Types].xml")
    assets = [
        asset.get("Path")
        for asset in ElementTree.parse(folder / "extension.vsixmanifest").iter()
        if asset.tag.endswith("}Asset")
    ]
    about = json.loads((folder / "extension/package.json").read_text())
    added = about["contributes"]
    named = [
        about["main"],
        *(it["configuration"] for it in added["languages"]),
        *(it["path"] for it in added["grammars"]),
    ]
    for name in [*assets, *(f"extension/{name}" for name in named)]:
        if not (folder / name).exists():
            stop(f"the extension's package has no {name}")
    if not without("node", "the extension"):
        run("node", VSCODE / "tests/server.js", TOP / "crates/gqlls/out/gqlls", folder / "extension", timeout=600)
        run("node", VSCODE / "tests/restarts.js", folder / "extension", timeout=300)


def test_here():
    for test in (test_manuals, test_completions, test_licences, test_debian, test_wheels, test_npm, test_vsix):
        with tempfile.TemporaryDirectory() as folder:
            test(Path(folder))
    test_same()
    print("release: the tests of its packages passed")

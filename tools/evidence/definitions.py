"""Definitions: the files of `specs/`, what they name of one another, and how many lines of them a clause needs."""

import re
import subprocess
from collections import Counter
from functools import cache
from pathlib import Path

TOP = Path(__file__).resolve().parent.parent.parent
CRATES = TOP / "crates"
# The kit's libraries whose words the clauses use.
KIT = Path(subprocess.run(["rt", "doc"], capture_output=True, text=True, check=True).stdout.strip()).parent / "rattle"
KIT_CRATES = ["json", "httparse"]
NAME = re.compile(r"[^\s(){}\[\],;.:]+")


def home(crate):
    """The directory of a crate: of the repository or of the kit."""
    return KIT if crate in KIT_CRATES else CRATES


def is_generated(path):
    """Whether a program wrote the file."""
    return path.read_text().startswith("-- Generated")


@cache
def spec(path):
    """The file of a module's path, which may be one that a crate passes on; nothing for those of the kit's other
    libraries and for types of the code."""
    crate, *rest = path.split(".")
    if not (home(crate) / crate).is_dir() or rest[:1] != ["specs"] or rest[1:2] == ["declared"]:
        return None
    file = home(crate) / crate / "specs" / ("/".join(rest[1:]) + ".antt")
    if file.exists():
        return file
    for at in re.finditer(
        r"^pub use Rattle\.(\S+?)(?: as (\S+))?$", (home(crate) / crate / "specs/Lib.antt").read_text(), re.MULTILINE
    ):
        if (at[2] or at[1].split(".")[-1]) == rest[1]:
            return spec(at[1])
    return None


class Source:
    """A file's definitions, each with its text, and what it names of other files."""

    read = {}

    def __init__(self, path):
        self.uses, self.modules, self.definitions = {}, {}, {}
        text = re.sub(r"--.*", "", path.read_text())
        for at in re.finditer(
            r"^\s*(?:pub |ghost )*use Rattle\.([\w.]+?)(?:\.\{(.*?)\}| as (\w+))?;?$", text, re.MULTILINE
        ):
            for word in (at[2] or "").split(",") if at[2] else []:
                name, _, other = word.strip().partition(" as ")
                self.uses[other or name] = (at[1], name)
            if not at[2]:
                self.modules[at[3] or at[1].split(".")[-1]] = at[1]
        for body in re.split(r"\n(?=[^\s)\]}])", text):
            if not re.match(r"(?:pub |ghost )*use ", body):
                for name in self.defined(body):
                    self.definitions.setdefault(name, []).append(body)

    @staticmethod
    def defined(body):
        words = r"(?:pub |abbrev |unfoldable |record |data |ghost )*"
        is_block = re.match(r"(?:abbrev |unfoldable )?mutual|module", body) or re.match(r"(?:pub |abbrev )*data ", body)
        heads = re.findall(rf"^{words}([^\s:(]+)", body) + (
            re.findall(rf"^\s+{words}([^\s:(]+)", body, re.MULTILINE) if is_block else []
        )
        return set(heads)

    @classmethod
    def of(cls, path):
        if path not in cls.read:
            cls.read[path] = cls(path)
        return cls.read[path]

    def named(self, text, path):
        """The definitions that the text names: each a file and a name."""
        for at in re.finditer(r"(\w+)\.([^\s(){}\[\],;.:]+)", text):
            if at[1] in self.modules:
                yield spec(self.modules[at[1]]), at[2]
        operators = [
            name
            for name in {**self.uses, **self.definitions}
            if "◌" in name and all(part in text for part in name.split("◌") if part)
        ]
        for name in {*NAME.findall(text), *operators}:
            if name in self.definitions:
                yield path, name
            elif name in self.uses:
                module, other = self.uses[name]
                yield spec(module), other


@cache
def used_by(path, name):
    """The definitions that a definition names, each a file and a name."""
    source = Source.of(path)
    return {found for body in source.definitions.get(name, []) for found in source.named(body, path)}


def used(clauses, spared):
    """The definitions that clauses use, and those that these use, each a file and a name, without those of the spared
    files. Clauses are pairs of a text and the file it is in."""
    seen, left = set(), [found for text, file in clauses for found in Source.of(file).named(text, file)]
    while left:
        path, name = left.pop()
        if path and path not in spared and (path, name) not in seen:
            seen.add((path, name))
            left += used_by(path, name)
    return {(path, name) for path, name in seen if path.suffix == ".antt" and name in Source.of(path).definitions}


def lines_by_file(definitions):
    """How many lines the definitions have in each file, without comments and blank lines. Those that are defined
    together count once."""
    bodies = {(path, body) for path, name in definitions for body in Source.of(path).definitions[name]}
    lines = Counter()
    for path, body in bodies:
        lines[path] += sum(1 for line in body.splitlines() if line.strip())
    return lines


def in_order(files):
    """The files in an order in which they can be read: each after those that it uses."""
    placed, order = set(), []

    def place(path):
        if path not in placed:
            placed.add(path)
            for module in sorted(
                {module for module, _ in Source.of(path).uses.values()} | set(Source.of(path).modules.values())
            ):
                used = spec(module)
                if used in files:
                    place(used)
            order.append(path)

    for path in sorted(files):
        place(path)
    return order


def name_of(path):
    """The file as the page names it: from its crate on."""
    return "/".join(path.parts[path.parts.index("specs") - 1 :])

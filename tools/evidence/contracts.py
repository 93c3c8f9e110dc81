"""Contracts: the public calls of files of code, and the clauses of each."""

import re
from dataclasses import dataclass, field
from pathlib import Path

from .definitions import CRATES


@dataclass(eq=False)
class Call:
    """A public call. `clauses` has the text of each clause by name; one without a name is `result`."""

    file: Path
    owner: str
    name: str
    clauses: dict = field(default_factory=dict)

    @property
    def crate(self):
        return self.file.relative_to(CRATES).parts[0]

    @property
    def title(self):
        return f"{self.owner}::{self.name}" if self.owner else self.name


OWNER = re.compile(r"(?:impl(?:<.*?>)? (?:\w+(?:<.*?>)? for )?|pub trait )(?:&\S* )?(\w+)")


def calls_of(file):
    """The public calls of a file that promise something, and those of its impls of traits."""
    found, owner, in_trait, call, clause = [], "", False, None, None
    for line in file.read_text().splitlines():
        if at := OWNER.match(line):
            owner, in_trait = at[1], " for " in line or "trait" in line
        elif line == "}":
            owner = "" if clause is None else owner
        if at := re.match(r"\s*(pub(?:\([\w ]+\))? )?(?:const |extern \"C\" )?fn (\w+)", line):
            is_public = at[1] == "pub " or (in_trait and not at[1] and line.startswith(" "))
            call = Call(file, owner if line.startswith(" ") else "", at[2]) if is_public else None
        if at := re.match(r"\s*(?:ensures|requires)\s*(\w*)", line):
            clause = (at[1] or "result") if line.strip().startswith("ensures") else ""
        if clause is not None and call:
            call.clauses[clause] = call.clauses.get(clause, "") + line + "\n"
        if clause is not None and line.rstrip(";").endswith("}"):
            clause = None
        if call and call not in found:
            found.append(call)
    return [call for call in found if set(call.clauses) - {""}]


def calls(doors):
    """The public calls of files and folders of code."""
    found = []
    for door in doors:
        path = CRATES / door
        for file in sorted(path.rglob("*.rt")) if path.is_dir() else [path]:
            found += calls_of(file)
    return found


def fields(name, crate):
    """The fields of a record of a crate's specs, each with its text; nothing where there is no such record."""
    for path in (CRATES / crate / "specs").glob("*.antt"):
        if at := re.search(rf"^pub record {name} .*\n((?:[ ].*\n|\n)*)", path.read_text(), re.MULTILINE):
            return path, dict(re.findall(r"^  pub (\w+) : (.*)$", at[1], re.MULTILINE))
    return None, {}

"""Lemmas: what the proof of a clause names."""

import re
from collections import Counter
from functools import cache

from .definitions import CRATES, Source


@cache
def answers(call):
    """The files of a call's proof: what answers the goals of its clauses, and the invariants of its loops."""
    place = [call.file.stem] if call.file.stem != "lib" else []
    found = []
    for path in sorted((CRATES / call.crate / "proofs").rglob(f"{call.name}/*.antt")):
        above = path.relative_to(CRATES / call.crate / "proofs").parts[:-2]
        # an impl of a trait is called by its type and the trait
        owners = [part for part in above if part.split("+")[0].endswith(call.owner) or call.owner in part.split("+")]
        if path.stem in ("Answers", "Invariants") and set(place) <= set(above) and (owners or not call.owner):
            found.append(path)
    return found


@cache
def text_of(path):
    """A file without its comments."""
    return re.sub(r"--.*", "", path.read_text())


@cache
def heads(path):
    """The names of a file's lemmas."""
    return set(re.findall(r"^\s*(?:pub |abbrev )*([^\s:(){}]+) :", text_of(path), re.MULTILINE))


@cache
def body(path, name):
    """The lines of a definition: those that begin with its name, and those indented below them."""
    text, kept, indent = text_of(path), [], None
    for line in text.splitlines():
        deep = len(line) - len(line.lstrip())
        if re.match(rf"\s*(?:pub |abbrev )*{re.escape(name)}(?=[\s:]|$)", line):
            indent = deep
            kept.append(line)
        elif indent is not None and line.strip() and deep > indent:
            kept.append(line)
        else:
            indent = None
    return "\n".join(kept)


def proof(module):
    """The file of a module of proofs of this repository, or nothing."""
    crate, *rest = module.split(".")
    file = CRATES / crate / ("/".join(rest) + ".antt")
    return file if rest[:1] == ["proofs"] and rest[-1] != "Goals" and file.exists() else None


def named(path, name, seen=()):
    """The lemmas of other files that a lemma names, by itself or by the lemmas of its own file: each a file and a name,
    in their order."""
    source, found = Source.of(path), []
    for at in re.finditer(r"(?:(\w+)\.)?([^\s(){}\[\],;.:]+)", body(path, name)):
        if at[1] in source.modules and (file := proof(source.modules[at[1]])):
            found.append((file, at[2]))
        elif not at[1] and at[2] in source.uses and (file := proof(source.uses[at[2]][0])):
            found.append((file, source.uses[at[2]][1]))
        elif not at[1] and at[2] != name and at[2] not in seen and at[2] in heads(path):
            found += named(path, at[2], (*seen, name))
    return [lemma for lemma in dict.fromkeys(found) if lemma[1][0].islower()]


def of_clause(call, clause):
    """The lemmas that the answer to a clause names."""
    goal = r"\S*" if clause == "result" else rf"\S*clause-{clause}(?:-\S+)?"
    found = []
    for path in answers(call):
        for name in re.findall(rf"^pub (returns{goal}) :", path.read_text(), re.MULTILINE):
            found += named(path, name)
    return list(dict.fromkeys(found))


def of_fields(file, fields):
    """For each field the lemmas of other crates that the lemma of its name in the file rests on. A lemma on which more
    than five rest says little, and goes."""
    names = heads(file)
    found = {field: below(file, name) for field in fields for name in (field, field.replace("_", "-")) if name in names}
    often = Counter(lemma for lemmas in found.values() for lemma in lemmas)
    return {field: [lemma for lemma in lemmas if often[lemma] <= 5] or lemmas for field, lemmas in found.items()}


def below(file, name, seen=()):
    """The lemmas of other crates that a lemma names, by itself or by lemmas of its own crate."""
    crate, found = file.relative_to(CRATES).parts[0], []
    for lemma in named(file, name):
        if lemma[0].relative_to(CRATES).parts[0] != crate:
            found.append(lemma)
        elif lemma not in seen:
            found += below(*lemma, (*seen, lemma))
    return list(dict.fromkeys(found))


def module(file):
    """A file of proofs as the page names it: from its crate on, without `proofs`."""
    crate, *rest = file.relative_to(CRATES).with_suffix("").parts
    return "/".join([crate, *(part for part in rest if part != "proofs")])

"""The table of platforms: of the list platforms.json, and of the trials that `./do release trial` ran. The page
docs/BINDINGS.md has the one after all trials, and PROVED.txt the one of its own release.

A cell of the list is a text, or says which files of a release it is about; what is said where a trial ran (the first
whose names all did, of several) or, as `made`, where none did; and what was tried by hand."""

import fnmatch
import hashlib
import json
import re
import subprocess
from pathlib import Path

from bindings.shared import BUILD, TOP, stop

PAGE = TOP / "docs/BINDINGS.md"
NOTES = BUILD / "trial.json"
LIST = json.loads(Path(__file__).with_suffix(".json").read_text())
# The names of the trials that the list knows.
TRIALS = {
    name
    for cells in LIST["things"].values()
    for cell in cells
    if isinstance(cell, dict)
    for names in cell.get("tried", {})
    for name in names.split()
}
# The files of a release that are made of the trial's notes, or of the others.
OF_OTHERS = {"PROVED.txt", "SHA256SUMS"}


def said(cell, files, ran):
    """What the table says in a cell, for a release with these files and trials. Without files it is a whole one."""
    if isinstance(cell, str):
        return cell
    if files and not all(fnmatch.filter(files, pattern) for pattern in cell["files"]):
        return "no, because it was not made here"
    words = [words for names, words in cell.get("tried", {}).items() if ran.issuperset(names.split())]
    words = [*words, cell.get("made", "made, untried")][0]
    return f"{words}; by hand in {cell['by hand']}" if "by hand" in cell else words


def rows(files=(), ran=frozenset(TRIALS)):
    return {thing: [said(cell, files, ran) for cell in cells] for thing, cells in LIST["things"].items()}


def table(found):
    """The rows as a table of Markdown."""
    lines = [["", *LIST["platforms"]], *([thing, *cells] for thing, cells in found.items())]
    lines = ["| " + " | ".join(line) + " |" for line in lines]
    return "\n".join([lines[0].replace("|  |", "| |"), "|---" * (len(LIST["platforms"]) + 1) + "|", *lines[1:], ""])


def with_table(text, found):
    """The page with these rows in its table of platforms."""
    head = re.escape(f"| | {LIST['platforms'][0]} |")
    text, count = re.subn(rf"^{head}.*\n(?:\|.*\n)*", lambda _: table(found), text, flags=re.MULTILINE)
    if count != 1:
        stop(f"{PAGE.relative_to(TOP)} has {count} tables of platforms, and not one")
    return text


def write_page():
    PAGE.write_text(with_table(PAGE.read_text(), rows()))


def check_page():
    if PAGE.read_text() != with_table(PAGE.read_text(), rows()):
        stop(f"the table in {PAGE.relative_to(TOP)} is not the one of release/platforms.json")


def state():
    """The commit, and whether files differ from it."""
    words = {"stdout": subprocess.PIPE, "text": True, "check": True}
    commit = subprocess.run(["git", "-C", TOP, "rev-parse", "HEAD"], **words).stdout.strip()
    changed = subprocess.run(["git", "-C", TOP, "status", "--porcelain", "--untracked-files=no"], **words).stdout
    return f"{commit}{' with changes' if changed else ''}"


def tried_of(files):
    """What a trial's notes are about: this commit, and the files of its release with their sums."""
    sums = {name: hashlib.sha256(files[name]).hexdigest() for name in sorted(set(files) - OF_OTHERS)}
    return {"commit": state(), "files": sums}


def note(files, ran):
    """Notes which trials ran of a release with these files."""
    if not TRIALS.issuperset(ran):
        stop(f"release/platforms.json has no trial {' or '.join(sorted(set(ran) - TRIALS))}")
    NOTES.write_text(json.dumps({**tried_of(files), "ran": sorted(ran)}, indent=1) + "\n")


def noted(files):
    """The trials that are noted of this commit and of these very files."""
    notes = json.loads(NOTES.read_text()) if NOTES.exists() else {}
    return set(notes["ran"]) if notes.items() >= tried_of(files).items() else set()


def missing(files, ran):
    """The cells in which docs/BINDINGS.md says more than this release and these trials bear out."""
    found = rows(files, ran)
    for thing, cells in rows().items():
        for platform, page, here in zip(LIST["platforms"], cells, found[thing]):
            if page != here:
                yield f"{thing}, {platform}: docs/BINDINGS.md says `{page}`, and this trial `{here}`"

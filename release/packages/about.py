"""What all packages say of the project: about.json, which tools/generate writes into their manifests too, and the texts
of the licences."""

import json

from bindings.shared import TOP

from .archives import read

# The notice, which says what Dumyroke is a port of, and the text of each licence.
LICENCES = ["LICENSE", "LICENSE-MIT", "LICENSE-APACHE"]


def about():
    return json.loads((TOP / "about.json").read_text())


def maintainer():
    return f"{about()['author']} <{about()['email']}>"


def licences(ending=""):
    """The notice and the licences, by their names, which may get an ending."""
    return {name + ending: read(TOP / name) for name in LICENCES}

"""The cases that graphql-js tries its rules with, in the form in which gqlparser has them (validator/imported/spec).
Debian has this folder in the package golang-github-vektah-gqlparser-dev."""

from importlib.util import find_spec
from pathlib import Path

FOLDER = Path("/usr/share/gocode/src/github.com/vektah/gqlparser/validator/imported/spec")


def is_here(folder=FOLDER):
    """Whether there is such a folder, and what reads it."""
    return Path(folder).is_dir() and find_spec("yaml") is not None


def read(path):
    import yaml

    return yaml.safe_load(path.read_text(encoding="utf-8")) or []


def cases(folder=FOLDER):
    """The cases in the order of their files. Each has its name, its rule, the number of its schema, a query, and the
    errors that graphql-js finds."""
    return [case for path in sorted(Path(folder).glob("*.spec.yml")) for case in read(path)]


def schemas(folder=FOLDER):
    """The texts of the schemas, by their numbers."""
    return read(Path(folder) / "schemas.yml")

"""What about.json says of the project - author, addresses, keywords, classifiers - in the manifests of the packages,
which cannot read it."""

import json

from .layout import TOP

ABOUT = TOP / "about.json"
NPM = ("author", "homepage", "repository", "bugs", "keywords")


def about():
    return json.loads(ABOUT.read_text())


def text(value):
    """A value in JSON, with white space inside braces as the manifests have it. In TOML a text and a list of texts are
    the same."""
    return json.dumps(value, ensure_ascii=False).replace("{", "{ ").replace("}", " }")


def person():
    said = about()
    return f"{said['author']} <{said['email']}>"


def of_npm():
    """The fields of a package.json."""
    said = about()
    values = [
        person(),
        said["homepage"],
        {"type": "git", "url": f"git+{said['repository']}"},
        {"url": said["issues"]},
        said["keywords"],
    ]
    return {f'"{name}": ': f"{text(value)}," for name, value in zip(NPM, values)}


def of_cargo():
    """The fields of Cargo.toml."""
    said = about()
    values = {
        "authors": [person()],
        **{name: said[name] for name in ("homepage", "repository", "documentation", "keywords", "categories")},
    }
    return {f"{name} = ": text(value) for name, value in values.items()}


def of_python():
    """The fields of pyproject.toml."""
    said = about()
    values = {"keywords": said["keywords"], "classifiers": said["classifiers"]}
    values |= {name.capitalize(): said[name] for name in ("homepage", "repository", "issues", "documentation")}
    author = f'[{{ name = {text(said["author"])}, email = {text(said["email"])} }}]'
    return {"authors = ": author, **{f"{name} = ": text(value) for name, value in values.items()}}


# How the lines of each manifest begin and go on.
LINES = {
    TOP / "bindings/npm/package.json": of_npm,
    TOP / "bindings/python/pyproject.toml": of_python,
    TOP / "bindings/rust/Cargo.toml": of_cargo,
    TOP / "editors/vscode/package.json": of_npm,
}


def with_about(path, manifest):
    """The text of a manifest, each line of about.json in its place; of another file the same text."""
    lines = manifest.splitlines()
    for begin, value in LINES[path]().items() if path in LINES else ():
        at = [index for index, line in enumerate(lines) if line.lstrip().startswith(begin)]
        if len(at) != 1:
            raise SystemExit(f"{path.relative_to(TOP)}: {len(at)} lines begin with `{begin.strip()}`, and not one")
        line = lines[at[0]]
        lines[at[0]] = line[: len(line) - len(line.lstrip())] + begin + value
    return "".join(f"{line}\n" for line in lines)

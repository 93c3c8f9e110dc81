"""Makes the wheel, without setuptools: what `pip install ./bindings/python` calls (PEP 517). The library has to be in
the package: `./do bindings` puts it there."""

import base64
import hashlib
import json
import re
import sysconfig
import zipfile
from pathlib import Path

FOLDER = Path(__file__).resolve().parent
PACKAGE = FOLDER / "dumyroke"
TOP = FOLDER.parent.parent
# The library that goes into the wheel.
LIBRARY = PACKAGE / "libdumyroke.so"


def project(field):
    """A field of pyproject.toml: a text or a list of texts, which are written as in JSON."""
    return json.loads(re.search(rf"^{field} = (.*)$", (FOLDER / "pyproject.toml").read_text(), re.MULTILINE)[1])


def author():
    """The name and the address of the author."""
    return re.search(
        r'^authors = \[\{ name = "(.*)", email = "(.*)" \}\]$', (FOLDER / "pyproject.toml").read_text(), re.MULTILINE
    ).groups()


def tag():
    """Any Python 3, no interface of CPython's, and this platform, since the package has a library in C."""
    return f"py3-none-{re.sub('[-.]', '_', sysconfig.get_platform())}"


def tags():
    """The tag for each platform that `tag` has."""
    *start, platforms = tag().split("-")
    return ["-".join([*start, platform]) for platform in platforms.split(".")]


def licences():
    """The files of the licences. They are at the top of the repository."""
    missing = [name for name in project("license-files") if not (TOP / name).exists()]
    if missing:
        raise SystemExit(
            f"bindings/python is not in its repository: there is no {' and no '.join(missing)} two folders above it"
        )
    return [TOP / name for name in project("license-files")]


def metadata():
    """The form of Metadata 2.1 (Python Packaging User Guide, "Core metadata specifications"), with the README as the
    text."""
    name, address = author()
    addresses = [f"{label}, {project(label)}" for label in ("Homepage", "Repository", "Issues", "Documentation")]
    fields = [
        ("Metadata-Version", "2.1"),
        ("Name", project("name")),
        ("Version", project("version")),
        ("Summary", project("description")),
        ("Author", name),
        ("Author-email", f"{name} <{address}>"),
        ("License", project("license")),
        *(("License-File", path.name) for path in licences()),
        *(("Project-URL", line) for line in addresses),
        ("Keywords", ",".join(project("keywords"))),
        *(("Classifier", line) for line in project("classifiers")),
        ("Requires-Python", project("requires-python")),
        ("Description-Content-Type", "text/markdown; charset=UTF-8; variant=GFM"),
    ]
    return "".join(f"{field}: {value}\n" for field, value in fields) + "\n" + (FOLDER / "README.md").read_text()


def files():
    """The files of the package and their bytes, by their names in the wheel."""
    if not LIBRARY.exists():
        raise SystemExit("bindings/python/dumyroke/libdumyroke.so is missing: `./do bindings` makes it")
    wanted = [*(path for path in sorted(PACKAGE.iterdir()) if path.suffix in (".py", ".typed")), LIBRARY]
    return {f"dumyroke/{path.name}": path.read_bytes() for path in sorted(wanted, key=lambda path: path.name)}


def recorded(name, content):
    """A line of RECORD."""
    digest = base64.urlsafe_b64encode(hashlib.sha256(content).digest()).rstrip(b"=").decode()
    return f"{name},sha256={digest},{len(content)}\n"


def build_wheel(wheel_directory, config_settings=None, metadata_directory=None):
    """Writes the wheel into a folder, and gives its name."""
    name = f"{project('name')}-{project('version')}"
    content = files()
    content[f"{name}.dist-info/METADATA"] = metadata().encode()
    head = ["Wheel-Version: 1.0", "Generator: dumyroke", "Root-Is-Purelib: false", *(f"Tag: {one}" for one in tags())]
    content[f"{name}.dist-info/WHEEL"] = "".join(f"{line}\n" for line in head).encode()
    content |= {f"{name}.dist-info/{path.name}": path.read_bytes() for path in [*licences(), TOP / "CHANGELOG.md"]}
    record = f"{name}.dist-info/RECORD"
    lines = "".join(recorded(*item) for item in content.items())
    content[record] = f"{lines}{record},,\n".encode()
    with zipfile.ZipFile(Path(wheel_directory) / f"{name}-{tag()}.whl", "w", zipfile.ZIP_DEFLATED) as wheel:
        for path, written in content.items():
            wheel.writestr(zipfile.ZipInfo(path, (1980, 1, 1, 0, 0, 0)), written, zipfile.ZIP_DEFLATED)
    return f"{name}-{tag()}.whl"

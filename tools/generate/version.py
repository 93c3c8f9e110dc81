"""The version, which the file VERSION says, in the files that cannot read it, and the header of C that has it."""

import re

from .about import with_about
from .layout import CRATES, TOP, mark

# Each file with the text before its version and the text after it.
PLACES = {
    CRATES / "gqlcst_run/src/command.rt": ('pub const VERSION: &str = "gqlcst ', '\\n";'),
    CRATES / "gqlcheck_run/src/command.rt": ('pub const VERSION: &str = "gqlcheck ', '\\n";'),
    CRATES / "gqlcheck_run/src/sarif_log.rt": ('\\"version\\":\\"', '\\",'),
    CRATES / "gqlfmt_run/src/command.rt": ('pub const VERSION: &str = "gqlfmt ', '\\n";'),
    CRATES / "gqlls_program/src/command.rt": ('pub const VERSION: &str = "gqlls ', '\\n";'),
    CRATES / "gqlls_server/src/capabilities.rt": ('const VERSION: &str = "', '";'),
    TOP / "bindings/python/pyproject.toml": ('version = "', '"'),
    TOP / "bindings/python/dumyroke/__init__.py": ('__version__ = "', '"'),
    TOP / "bindings/npm/package.json": ('"version": "', '"'),
    TOP / "bindings/rust/Cargo.toml": ('version = "', '"'),
    TOP / "editors/vscode/package.json": ('"version": "', '"'),
}


def version():
    text = (TOP / "VERSION").read_text()
    if not re.fullmatch(r"\d+\.\d+\.\d+\n", text):
        raise SystemExit("VERSION: it is no line of three numbers, as 1.2.3")
    return text.strip()


def header():
    """dumyroke_version.h."""
    major, minor, patch = map(int, version().split("."))
    return f"""/*{mark("", "VERSION").rstrip()} */
#ifndef DUMYROKE_VERSION_H
#define DUMYROKE_VERSION_H

/* The version of these headers, also as numbers: DUMYROKE_VERSION_NUMBER grows from each version to the next. */
#define DUMYROKE_VERSION "{version()}"
#define DUMYROKE_VERSION_MAJOR {major}
#define DUMYROKE_VERSION_MINOR {minor}
#define DUMYROKE_VERSION_PATCH {patch}
#define DUMYROKE_VERSION_NUMBER (DUMYROKE_VERSION_MAJOR * 1000000 + DUMYROKE_VERSION_MINOR * 1000 + DUMYROKE_VERSION_PATCH)

/* The same for languages that call functions alone. The library has the calls of its soname, libdumyroke.so.{major}, and says no version itself. */
static inline const char *dumyroke_version(void)
{{
    return DUMYROKE_VERSION;
}}

#endif
"""


def with_version(path, before, after, number):
    """The file's text with this version."""
    text, count = re.subn(
        rf"^(\s*){re.escape(before)}[\d.]+{re.escape(after)}",
        lambda at: f"{at[1]}{before}{number}{after}",
        path.read_text(),
        flags=re.MULTILINE,
    )
    if count != 1:
        raise SystemExit(f"{path.relative_to(TOP)}: it has {count} versions, and not one")
    return text


def outputs(_grammar):
    """The text of each file, by its path."""
    files = {
        path: with_about(path, with_version(path, before, after, version())) for path, (before, after) in PLACES.items()
    }
    return {**files, TOP / "bindings/c/include/dumyroke_version.h": header()}

"""python -m dumyroke check FILE..: prints the errors of GraphQL documents as FILE:LINE:COLUMN: message. Columns count
characters. The file - is standard input. Ends with 0 if there are no errors, with 1 if there are, and with 2 if a file
can't be read or is not UTF-8."""

import io
import sys
import unicodedata

from . import check


def shown(text: str) -> str:
    """A text whose control and format characters and line separators are escapes, so that a terminal obeys none of
    them."""
    return "".join(
        c.encode("unicode_escape").decode() if unicodedata.category(c) in ("Cc", "Cf", "Cs", "Zl", "Zp") else c
        for c in text
    )


def errors_in(name: str) -> int:
    """Prints the errors of a file, and gives the status."""
    try:
        if name == "-":
            text = sys.stdin.buffer.read()
        else:
            with open(name, "rb") as file:
                text = file.read()
        errors = check(text)
    except (OSError, UnicodeDecodeError, ValueError) as fault:
        print(shown(f"{name}: {fault}"), file=sys.stderr)
        return 2
    for error in errors:
        print(shown(f"{name}:{error}"))
    return 1 if errors else 0


def main() -> None:
    command, *files = sys.argv[1:] or [""]
    if command != "check" or not files:
        print(__doc__, file=sys.stderr)
        sys.exit(2)
    if isinstance(sys.stdout, io.TextIOWrapper):
        sys.stdout.reconfigure(errors="backslashreplace")
    sys.exit(max(map(errors_in, files)))


if __name__ == "__main__":
    main()

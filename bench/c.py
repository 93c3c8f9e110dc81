#!/usr/bin/env python3
"""Measures the calls of the C library, as `./do bindings` has built it, on the file `--text`, or on `text.py queries`
unless it is given: the best and the median processor time in milliseconds."""

import os
import subprocess
import tempfile
from pathlib import Path

from programs import HERE, TOP, arguments, made_text


def main():
    given = arguments(__doc__, text=None)
    flags = subprocess.run(
        [TOP / "release/bindings/run", "flags"], stdout=subprocess.PIPE, check=True, text=True
    ).stdout.split()
    with tempfile.TemporaryDirectory() as name:
        program = Path(name) / "calls"
        subprocess.run(["gcc", "-O2", HERE / "calls.c", *flags, "-o", program], check=True)
        text = given.text or made_text(Path(name) / "queries", "queries")
        with open(text) as source:
            subprocess.run(
                [program], stdin=source, check=True, env={**os.environ, "LD_LIBRARY_PATH": str(TOP / "build")}
            )


main()

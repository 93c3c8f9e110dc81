#!/usr/bin/env python3
"""Tries the library for C on texts that libFuzzer makes, led by the edges of the generated code that they reach.
`fuzz/target.c` says what has to hold of each text. It is compiled with the sanitizers for addresses and undefined
behaviour, as `--language` c or c++; with `--inside 1` the library has the first, too, and is some five times as slow.
The library is made without a proof, in a minute, and has counters at its edges.

The texts of `fuzz/corpus.jsonl` come first, then others for `--seconds` seconds. What was found wrong is in build/fuzz,
and the status is libFuzzer's. With `--keep` BYTES the corpus is written anew, up to that number of bytes: of texts that
together reach all edges, the shortest first.

It needs clang with libFuzzer, which Debian has in clang and libclang-rt-14-dev."""

import json
import os
import subprocess
import sys
import tempfile
from pathlib import Path

from programs import HERE, TOP, arguments

sys.path.insert(0, str(TOP / "release"))

from bindings.quick import quick_archive  # noqa: E402
from bindings.shared import BUILD, INCLUDE, kit  # noqa: E402

FOLDER, CORPUS = HERE / "fuzz", HERE / "fuzz/corpus.jsonl"
# Words of the grammar that a change of a few bytes would seldom make.
WORDS = """{ } ( ) [ ] : = @ | & ! $ ... \"\"\" \\\"\"\" \\u{1F600} \\u00e9 # , é 😀 0 -1.5e3 true false null on query mutation subscription fragment schema
scalar type interface union enum input directive extend implements repeatable FIELD OBJECT QUERY __typename""".split()
COUNTED = "-fsanitize-coverage=inline-8bit-counters,pc-table,trace-cmp"


def target(folder, language, inside):
    """The program that libFuzzer drives."""
    archive, program = folder / "library.a", folder / "target"
    quick_archive(archive, COUNTED, *["-fsanitize=address"] * inside)
    words = [
        "clang++" if language == "c++" else "clang", "-x", language, "-g", "-O1", "-Wall", "-Wextra", "-Werror",
        f"-I{INCLUDE}",
    ]
    words += ["-fsanitize=fuzzer,address,undefined", "-fno-sanitize-recover=undefined", FOLDER / "target.c"]
    words += ["-x", "none", archive, kit() / "c/liblibc_c.a", "-o", program]
    subprocess.run(list(map(str, words)), check=True)
    return program


def unpacked(folder):
    """A folder with a file for each input of the corpus."""
    folder.mkdir()
    lines = CORPUS.read_bytes().splitlines() if CORPUS.exists() else []
    for number, line in enumerate(lines):
        (folder / str(number)).write_bytes(json.loads(line).encode("latin-1"))
    return folder


def keep(program, corpus, folder, most):
    """Writes the corpus anew, a text of JSON a line, whose characters are the input's bytes."""
    folder.mkdir()
    subprocess.run([program, "-merge=1", "-use_counters=0", folder, corpus], check=True, stderr=subprocess.DEVNULL)
    lines, size = [], 0
    for path in sorted(folder.iterdir(), key=lambda path: (path.stat().st_size, path.name)):
        line = json.dumps(path.read_bytes().decode("latin-1"), ensure_ascii=False).encode() + b"\n"
        size += len(line)
        if size > most:
            break
        lines.append(line)
    CORPUS.write_bytes(b"".join(lines))
    print(f"{len(lines)} texts, {CORPUS.stat().st_size} bytes")


def main():
    given = arguments(__doc__, seconds=600, language="c", inside=0, keep=0, length=1500)
    found = BUILD / "fuzz"
    found.mkdir(parents=True, exist_ok=True)
    with tempfile.TemporaryDirectory() as name:
        folder = Path(name)
        program, corpus = target(folder, given.language, given.inside), unpacked(folder / "corpus")
        words = folder / "words"
        words.write_text("".join('"' + "".join(f"\\x{byte:02x}" for byte in word.encode()) + '"\n' for word in WORDS))
        options = [
            f"-dict={words}", f"-max_len={given.length}", f"-max_total_time={given.seconds}",
            f"-artifact_prefix={found}/", "-timeout=30",
        ]
        ended = subprocess.run(
            [program, *options, "-print_final_stats=1", corpus],
            env={**os.environ, "UBSAN_OPTIONS": "print_stacktrace=1"},
        )
        if given.keep:
            keep(program, corpus, folder / "kept", given.keep)
        sys.exit(ended.returncode)


main()

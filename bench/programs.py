"""What all scripts of this folder share: the words that they take, how they find a program, and one run of it."""

import argparse
import os
import subprocess
import sys
import time
from pathlib import Path

HERE = Path(__file__).resolve().parent
TOP = HERE.parent

# The original's programs: by cargo over the real rowan, or by bench/original/build. None where they are not built.
ORIGINAL = next(filter(Path.is_dir, [HERE / "original/target/release", HERE / "original/out"]), None)


def built(name):
    """The program of this name that `rt ci` has proved and built."""
    program = TOP / f"crates/{name}/out/{name}"
    if not program.exists():
        sys.exit(f"there is no program {program}: `./do gate` builds it")
    return program


def over_the_crate(folder, *names):
    """The original's programs of these names, built in the folder over the Rust crate of this repository, which has the
    same interface."""
    programs = "".join(f"""
[[bin]]
name = "{name}"
path = "{HERE / f"original/src/{name}.rs"}"
""" for name in names)
    (folder / "Cargo.toml").write_text(f"""[package]
name = "over-the-crate"
version = "0.0.0"
edition = "2021"

[dependencies]
apollo-parser = {{ package = "dumyroke", path = "{TOP / "bindings/rust"}" }}
{programs}
[workspace]
""")
    subprocess.run(
        ["cargo", "build", "--quiet", "--release", "--offline"],
        cwd=folder,
        check=True,
        env={**os.environ, "DUMYROKE_LIB_DIR": str(TOP / "build")},
    )
    return [folder / "target/release" / name for name in names]


def arguments(about, **defaults):
    """The words of a script. Each is an option with a default, whose type is the option's."""
    parser = argparse.ArgumentParser(description=about, formatter_class=argparse.RawDescriptionHelpFormatter)
    for name, default in defaults.items():
        several = (
            {"nargs": "+", "type": type(default[0])}
            if isinstance(default, list)
            else {"type": type(default) if default is not None else str}
        )
        shown = (
            ""
            if default is None
            else f"{' '.join(map(str, default)) if isinstance(default, list) else default} unless given"
        )
        parser.add_argument(f"--{name}", default=default, help=shown, **several)
    return parser.parse_args()


def made_text(path, kind, size=5_000_000):
    """The file, with a text of text.py. The text is never in this process, since its memory would count for those that
    it starts."""
    with open(path, "w") as target:
        subprocess.run([sys.executable, HERE / "text.py", kind, str(size)], stdout=target, check=True)
    return path


class Run:
    """One run of a program on a file: the seconds by the clock, those of the program itself and of the kernel for it,
    the greatest memory in bytes, and what it wrote on standard error."""

    def __init__(self, command, path):
        with open(path) as source, open(os.devnull, "w") as sink:
            started = time.perf_counter()
            process = subprocess.Popen(
                list(map(str, command)), stdin=source, stdout=sink, stderr=subprocess.PIPE, text=True
            )
            self.told = process.stderr.read()
            _, self.status, usage = os.wait4(process.pid, 0)
            self.seconds = time.perf_counter() - started
            self.own, self.kernel = usage.ru_utime, usage.ru_stime
            self.processor = self.own + self.kernel
            self.memory = usage.ru_maxrss * 1024

"""The manual pages, and what shells complete: the words that the pages list.

A page of `manuals/` lists the options of which it has more to say than `--help`. The others are put in as `--help` has
them."""

import re
from dataclasses import dataclass
from pathlib import Path

from bindings.shared import TOP, version

from .archives import File

FOLDER = Path(__file__).resolve().parent / "manuals"
# A word in a list of a page: `.It Fl -NAME`, maybe with a letter before it, or `.It Cm NAME`; maybe with an argument;
# and the sentence about it.
LISTED = re.compile(r"^\.It (?:Fl (\w) , )?(Fl -|Cm )(\S+)( Ar \S+)?\n(.*)\.$", re.MULTILINE)

# An option in the text for `--help`: maybe a letter, its name, maybe an argument, and what it does, maybe on lines of
# their own.
SAID = re.compile(r"^  (?:-(\w), )?--([a-z-]+)(?: ([A-Z]+|\S+\|\S+))?((?: +\S.*)?(?:\n {10,}\S.*)*)$", re.MULTILINE)


@dataclass(frozen=True)
class Word:
    name: str
    about: str
    has_argument: bool
    letter: str = ""

    @property
    def is_option(self):
        return self.name.startswith("--")

    @property
    def spellings(self):
        """The word, after its letter if it has one."""
        return [f"-{self.letter}", self.name] if self.letter else [self.name]


def said(program):
    """The options in a program's text for `--help`, in its order: the letter or nothing, the name, the argument or
    nothing, and what it does."""
    crate = "gqlls_program" if program == "gqlls" else f"{program}_run"
    text = (TOP / f"crates/{crate}/src/command.rt").read_text()
    text = re.search(r'^pub const HELP: &str = "(.*?)";$', text, re.DOTALL | re.MULTILINE)[1]
    return [(letter, name, argument, " ".join(about.split())) for letter, name, argument, about in SAID.findall(text)]


def with_options(text, program):
    """A page with the options that it lacks, each before the one that follows it in the text for `--help`."""
    following, synopsis = ".El", next(line for line in (".Op Ar\n", ".Sh DESCRIPTION\n") if line in text)
    for letter, name, argument, about in reversed(said(program)):
        listed = re.search(rf"^\.It (?:Fl \w , )?Fl -{name}(?: Ar .*)?$", text, re.MULTILINE)
        called = f"Fl -{name}" + (f" Ar {argument}" if argument else "")
        if not listed:
            item = f".It {f'Fl {letter} , ' if letter else ''}{called}"
            text = text.replace(f"{following}\n", f"{item}\n{about[:1].upper()}{about[1:]}.\n{following}\n", 1)
            text = text.replace(synopsis, f".Op {called}\n{synopsis}", 1)
            synopsis = f".Op {called}\n"
        following = listed[0] if listed else item
    return text


def page(program):
    return with_options((FOLDER / f"{program}.1").read_text(), program).replace("@VERSION@", version())


def words(program):
    """The words that a program's page lists, in its order."""
    return [
        Word("--" * (sort != "Cm ") + name, about, bool(argument), letter)
        for letter, sort, name, argument, about in LISTED.findall(page(program))
    ]


def takes_files(program):
    return "\n.Op Ar\n" in page(program)


def bash(program):
    """Words alone, or where the program takes files, options after a dash and else files."""
    listed = words(program)
    valued = " | ".join(word.name for word in listed if word.has_argument)
    before = f"case $3 in {valued}) return ;; esac" if valued else ""
    names, files = " ".join(name for word in listed for name in word.spellings), takes_files(program)
    return f"""_{program}() {{
    {before}
    {"[[ $2 != -* ]] || " if files else ""}COMPREPLY=($(compgen -W "{names}" -- "$2"))
}}
complete {"-o default " if files else ""}-F _{program} {program}
"""


def zsh(program):
    listed = words(program)
    lines = [
        f"'{name}[{word.about}]{':N: ' if word.has_argument else ''}'"
        for word in listed
        if word.is_option
        for name in word.spellings
    ]
    modes = " ".join(f'{word.name}\\:"{word.about}"' for word in listed if not word.is_option)
    lines += [f"'1:mode:(({modes}))'"] if modes else []
    lines += ["'*:file:_files'"] if takes_files(program) else []
    return f"#compdef {program}\n_arguments {' '.join(lines)}\n"


def fish(program):
    listed = words(program)
    modes = " ".join(word.name for word in listed if not word.is_option)
    lines = [] if takes_files(program) else [f"complete -c {program} -f"]
    for word in listed:
        if word.is_option:
            letter = f"-s {word.letter} " if word.letter else ""
            lines.append(
                f"complete -c {program} {letter}-l {word.name[2:]} {'-x ' if word.has_argument else ''}-d"
                f" '{word.about}'"
            )
        else:
            lines.append(
                f"complete -c {program} -n 'not __fish_seen_subcommand_from {modes}' -a {word.name} -d '{word.about}'"
            )
    return "".join(f"{line}\n" for line in lines)


def manuals(programs):
    """The pages, and the completions of the programs that have words, as they lie below /usr/local or /usr."""
    files = {f"share/man/man1/{program}.1": page(program) for program in programs}
    for program in filter(words, programs):
        files[f"share/bash-completion/completions/{program}"] = bash(program)
        files[f"share/zsh/site-functions/_{program}"] = zsh(program)
        files[f"share/fish/vendor_completions.d/{program}.fish"] = fish(program)
    return {name: File(text.encode()) for name, text in files.items()}

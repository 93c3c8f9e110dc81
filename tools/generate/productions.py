"""The productions of the standard above the functions of the grammar, in the crates apollo_grammar and apollo_document.

A rule of Rules.antt has its production in the first line of the comment above it, as `-- Alias (2.7) : Name :`. The
function that runs the rule has it in the last line of its own comment, further in. Only these lines are written: all
else in the files is by hand. A function `default_value`, which runs `OptionalDefaultValue`, has the production of
DefaultValue.
"""

import re

from .layout import CRATES

RULES = CRATES / "parser_rules/specs/Rules.antt"
SOURCES = [CRATES / name / "src/grammar" for name in ("apollo_grammar", "apollo_document")]

FORM = r"\w+(?:\[Const\])? \([\d.]+\) : [^\n]+"
# A production and the node or part whose rule follows.
RULE = re.compile(rf"^-- ({FORM})\n(?:--[^\n]*\n)*(?:inside|body) \(?(\w+)", re.M)
# A production above a function.
WRITTEN = re.compile(rf"^///? {{5}}{FORM}\n", re.M)
# A function: its comment, its attributes, and the rest up to the end of its contract.
FUNCTION = re.compile(r"((?:^//[^\n]*\n)*)((?:^#\[[^\n]*\n)*^(?:pub )?fn .*?\n\{\n)", re.M | re.S)
# Its name, and the node or part whose rule it runs.
RUN = re.compile(r"\bfn (\w+).*\{ Parses \((?:Call|Child) \(?rule\.(\w+)", re.S)


def node_of(function, rule):
    """The node or part that a function is about."""
    return rule if function.startswith("optional_") else rule.removeprefix("Optional")


def with_productions(text, productions):
    """The text of a file, each function with the production of its rule, where that has one."""

    def function(found):
        comment, rest = found.groups()
        run = RUN.search(rest)
        production = run and productions.get(node_of(*run.groups()))
        if not production:
            return found[0]
        marker = "///" if comment.startswith("///") else "//"
        return f"{comment}{marker}     {production}\n{rest}"

    return FUNCTION.sub(function, WRITTEN.sub("", text))


def outputs(grammar):
    """The text of each file of functions, by its path."""
    productions = {rule: production for production, rule in RULE.findall(RULES.read_text())}
    return {
        path: with_productions(path.read_text(), productions)
        for source in SOURCES
        for path in sorted(source.rglob("*.rt"))
    }

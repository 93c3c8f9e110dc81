"""Slips in a project, as graphql-core and gqlcheck judge them."""

import json
import random
import subprocess
import tempfile
from concurrent.futures import ProcessPoolExecutor
from contextlib import suppress
from dataclasses import dataclass
from multiprocessing import get_context
from pathlib import Path

from graphql import GraphQLSyntaxError, TypeInfo, TypeInfoVisitor, build_schema, concat_ast, parse, visit
from graphql.language import ParallelVisitor
from graphql.validation import ValidationContext, specified_rules

import project
from changes import SORTS, Document, NoPlace, slipped

SEED = 460
PROCESSES = 2


@dataclass
class Slip:
    sort: str
    path: str
    # the rules that are broken by graphql-core, each with a message
    errors: list
    # the rules of gqlcheck's findings
    findings: set
    # the sorts of the slips that were drawn before this one, and break no rule by graphql-core
    harmless: list


class Trial:
    """A project, and the program that is tried in it."""

    def __init__(self, program):
        self.program = Path(program).resolve()
        self.texts = project.texts(random.Random(SEED))
        of_schema = [text for path, text in self.texts.items() if path.startswith("schema/")]
        self.schema = build_schema("\n".join(of_schema))
        self.documents = {
            path: Document(self.schema, text) for path, text in self.texts.items() if not path.startswith("schema/")
        }

    def broken(self, changed):
        """The rules that the documents break by graphql-core, each with a message. Some of them have other texts."""
        try:
            trees = {path: parse(text) for path, text in changed.items() if text.strip()}
        except GraphQLSyntaxError as error:
            return [("Syntax", error.message)]
        trees |= {path: document.tree for path, document in self.documents.items() if path not in changed}
        return broken_rules(self.schema, concat_ast(list(trees.values())))

    def findings(self, changed):
        """The rules of gqlcheck's findings in the files. Some of them have other texts."""
        with tempfile.TemporaryDirectory() as folder:
            for path, text in {**self.texts, **changed}.items():
                Path(folder, path).parent.mkdir(exist_ok=True)
                Path(folder, path).write_text(text)
            words = [self.program, "--json", "--schema", "schema", "."]
            ended = subprocess.run(words, cwd=folder, capture_output=True, text=True, timeout=60)
        if ended.returncode not in (0, 1) or ended.stderr:
            raise RuntimeError(f"{self.program} ended with {ended.returncode}: {ended.stderr}")
        return {line["rule"] for line in map(json.loads, ended.stdout.splitlines()) if "rule" in line}

    def draw(self, dice):
        """A sort of slips, and the path and the new text of a document that has a place for one."""
        sort = dice.choice(list(SORTS))
        while True:
            path = dice.choice(list(self.documents))
            with suppress(NoPlace):
                return sort, path, slipped(dice, sort, self.documents[path])

    def slip(self, number):
        """The slip with a number, which is the same each time."""
        dice, harmless = random.Random(f"{SEED} {number}"), []
        while True:
            sort, path, text = self.draw(dice)
            errors = self.broken({path: text})
            if errors:
                return Slip(sort, path, errors, self.findings({path: text}), harmless)
            harmless.append(sort)


class Noting:
    """A context of validation for one rule, which notes the rule with each error. Caches are those of the context that
    all rules have."""

    def __init__(self, context, rule, found):
        self.context, self.name, self.found = context, rule.__name__.removesuffix("Rule"), found

    def report_error(self, error):
        self.found.append((self.name, error.message))

    def __getattr__(self, name):
        return getattr(self.context, name)


def broken_rules(schema, document):
    """The rules that a document breaks by graphql-core, each with a message, as often as it breaks them."""
    found, info = [], TypeInfo(schema)
    context = ValidationContext(schema, document, info, lambda error: None)
    visitors = [rule(Noting(context, rule, found)) for rule in specified_rules]
    visit(document, TypeInfoVisitor(info, ParallelVisitor(visitors)))
    return found


# ---- several slips at a time, in processes that are copies of this one


def keep(kept):
    global trial
    trial = kept


def slip(number):
    return trial.slip(number)


def slips(kept, count):
    """The first slips of a trial, as many as wanted."""
    with ProcessPoolExecutor(PROCESSES, get_context("fork"), keep, [kept]) as pool:
        return list(pool.map(slip, range(count)))

"""The page build/EVIDENCE.md: from each clause to its lemmas and to the edits that break it, and what to read in order
to believe a clause; and docs/DEFINITIONS.md, the number of lines that are to be read."""

import re
import textwrap

from . import contracts, lemmas
from .definitions import CRATES, KIT, Source, in_order, is_generated, lines_by_file, name_of, spec, used

# The calls that a user reads, by their part: a title, files and folders, and how much of the list of definitions is
# counted for it.
PARTS = {
    "`parse`, and parts of documents": "apollo_parser/src/parser.rt",
    "trees, typed nodes and values": """
        apollo_parser/src/syntax_tree.rt apollo_parser/src/borrowed_tree.rt parser_state/src/borrowed_error.rt
        apollo_tree/src/builder.rt apollo_tree/src/node.rt apollo_tree/src/children.rt apollo_tree/src/pointer.rt
        apollo_tree/src/subtree.rt apollo_tree/src/range.rt apollo_tree/src/token_text.rt apollo_tree/src/indexed.rt
        apollo_cst_core/src/laws.rt apollo_cst_executable/src apollo_cst_type_system/src""",
    "the lexer": """
        apollo_lexer/src/lexer.rt apollo_lexer/src/limit.rt apollo_lexer/src/error.rt apollo_lexer/src/token.rt
        apollo_lexer/src/lex_error.rt""",
    "`gqlcst`": "byte_streams/src gqlcst_run/src/program.rt gqlcst_run/src/outcome.rt command_lines/src/gqlcst.rt",
    "`format_or_errors`": "formatter/src/lib.rt",
    "`gqlfmt`": """
        ignore_rules/src/rules.rt unignored_files/src/unignored.rt named_files/src/search.rt
        command_lines/src/gqlfmt.rt gqlfmt_run/src/revision.rt gqlfmt_run/src/input.rt gqlfmt_run/src/paths.rt
        gqlfmt_run/src/program.rt""",
    "C, Python and the page": """
        c_parsing/src/parse.rt c_parsing/src/items.rt c_parsing/src/strings.rt
        c_parsing/src/format.rt c_parsing/src/laws.rt c_validation/src/laws.rt c_validation/src/violation_rows.rt
        c_validation/src/operation_rows.rt c_exports/src/lib.rt""",
    "positions, and `gqlls`": """
        line_index/src editor_text/src rpc_messages/src rpc_serving/src editor_diagnostics/src editor_validation/src
        editor_answers/src embedded_documents/src schema_members/src command_lines/src/gqlls.rt
        gqlls_server/src/server.rt file_uris/src gqlls_program/src/program.rt""",
    "validation": """
        document_validation/src/validation.rt document_validation/src/messages.rt document_validation/src/lists.rt
        variable_rules/src/operations.rt variable_rules/src/steps.rt""",
    "validation against a schema": """
        type_system/src/parts.rt query_validation/src/violations.rt query_validation/src/messages.rt""",
    "the cost of operations": (
        "cost_limits/src/measures.rt cost_limits/src/limits.rt cost_figures/src/limits.rt"
    ),
    "`gqlcheck`": "document_checks/src/text_check.rt command_lines/src/gqlcheck.rt gqlcheck_run/src/program.rt",
}
# Laws, and calls between crates: the page has their lemmas, and no definitions are listed for them.
LAWS = """
    lexical_grammar/src/lib.rt lexical_grammar/src/escapes.rt document_grammar/src/kind.rt
    document_grammar/src/laws.rt grammar_machine/src/laws.rt apollo_lexer/src/laws.rt apollo_parser/src/laws.rt
    apollo_cst_core/src/typed.rt apollo_cst_core/src/strings.rt apollo_cst_core/src/kinds.rt
    format_layout/src/layout.rt format_layout/src/block_strings.rt format_layout/src/laws.rt format_layout/src/slot.rt"""
# The calls and programs for which the lines of definitions are counted.
COUNTED = {
    "`parse`, and parts of documents": "apollo_parser/src/parser.rt",
    "`format_or_errors`": "formatter/src/lib.rt",
    "`gqlcst`": "gqlcst_run/src/program.rt",
    "`gqlfmt`": "gqlfmt_run/src/program.rt unignored_files/src/unignored.rt",
    "`gqlcheck`": "gqlcheck_run/src/program.rt",
    "`gqlls`": "gqlls_program/src/program.rt",
    "C, Python and the page": "c_exports/src/lib.rt",
    "`Schema::read` and `query_validation`": (
        "type_system/src/parts.rt query_validation/src/violations.rt query_validation/src/messages.rt"
    ),
}
# The four clauses of `parse` that are the main theorem.
MAIN = ["sound", "accepts", "only_derivation", "still_a_sentence"]
# Generated calls: an accessor has the contract of one of three calls of `apollo_cst_core`, and the law `reading_back`
# is about all of them.
ACCESSORS = ("apollo_cst_executable", "apollo_cst_type_system")
HEAD = """\
# Evidence

`./do evidence` writes this page from the contracts, the proofs and the edits. PROMISES.md says in words what the clauses mean.
"""
CALLS = """\
## From a clause to its proof

Below each public call are its clauses (`result` has no name), and below a clause that is a record its fields. After a clause come the lemmas that its
proof names, each after its file, from the crate on and without `proofs`; after a field the lemmas of other crates on which the lemma of that name
rests. Where no lemma follows, the proof needs none beside the contracts of the calls in the body and the invariants of its loops. `✗` precedes the
edits that break a clause and that `./do gate` checks the prover to refuse: `CRATE/NAME` is `crates/CRATE/must-fail/NAME.edit`. `(✗)` precedes those of
`crates/CRATE/edits/`, which `./do edits` tries.
"""
READING = """\
## What to read in order to believe it

Below are the files of definitions, each after those that it uses, with the lines that are needed. A definition is in the first list that needs it.
DEFINITIONS.md has the sum for each program.
"""
TABLE = """\
# What to read in order to believe it

A clause is as good as the definitions that it uses. This table counts their lines, for each program
and each library. For example, whoever has read the lines of the first row knows what each clause of
a parse means.

- A definition counts if a clause names it, or if a definition that counts names it.
- Comments and blank lines do not count.
- "The kit's" are definitions of JSON and of headers, which come with the kit.
- "Generated" are lists of the kinds of nodes, which a program writes.
- Two constants of the code do not count. One is the table of a program's options, with a row for
  each option. The other is what the program prints for `--help`.

{rows}

`./do generate` writes this page. `./do evidence` writes `build/EVIDENCE.md`, which lists the
definitions file by file. It also has the lemmas of each clause, and the edits that break it.
"""
# Files whose definitions a reader may take as they are, and why.
SPARED = """
    lexical_grammar/specs/Reads.antt lexical_grammar/specs/NumberStates.antt apollo_parser/specs/ByRules.antt
    parser_rules/specs/State.antt parser_rules/specs/Nodes.antt parser_rules/specs/RuleLanguage.antt
    parser_rules/specs/Rules.antt parser_rules/specs/Runs.antt parser_state/specs/Errors.antt
    grammar_machine/specs/Machine.antt grammar_machine/specs/Symbols.antt grammar_machine/specs/Table.antt
    document_grammar/specs/Booleans.antt"""
UNREAD = """\
### Not to be read

`items_of`, in `lexical_grammar/specs/Reads.antt` and `lexical_grammar/specs/NumberStates.antt`, is how the lexer cuts a text: `cut` says that its result
is a cut, and two cuts of a text agree up to the first bad string. `ByRules`, in `apollo_parser/specs/ByRules.antt`, is how the parser's rules ran. By
`one_parse` it has one result, and nothing else about it matters: `State`, `Nodes`, `RuleLanguage`, `Rules` and `Runs` of `parser_rules`, `Errors` of
`parser_state`, and the names that these use of `Machine`, `Symbols` and `Table` of `grammar_machine` and of `Booleans` of `document_grammar`. No other
clause of `parse` names a rule of the parser.
"""


# The folders of a crate's edits: those that the gate tries, and the others.
FOLDERS = ("must-fail", "edits")


# ---- the calls


def edit_files():
    return {f"{path.parts[-3]}/{path.stem}": path for folder in FOLDERS for path in CRATES.glob(f"*/{folder}/*.edit")}


def is_in_gate(edit):
    crate, name = edit.split("/")
    return (CRATES / crate / "must-fail" / f"{name}.edit").exists()


def fits(path):
    """Whether each text that an edit replaces is in its file once."""
    file = None
    for line in path.read_text().splitlines():
        if line.startswith("file: "):
            file = path.parents[1] / line.removeprefix("file: ").strip()
        if line.startswith("old: ") and file.read_text().count(line.removeprefix("old: ")) != 1:
            return False
    return True


def edits():
    """What each edit breaks: by (crate, call), the edits with their clauses."""
    found = {}
    for line in (CRATES.parent / "tools/evidence/edits").read_text().splitlines():
        if line and not line.startswith("#"):
            edit, _, broken = line.partition(": ")
            crate, call, *clauses = broken.split()
            found.setdefault((crate, call), []).append((edit, clauses))
    return found


def all_calls():
    doors = " ".join([*PARTS.values(), LAWS]).split()
    return [call for call in contracts.calls(doors) if call.crate not in ACCESSORS]


def fields_of(call, text):
    """The fields, each with its text, of the record of this repository that a clause says holds, by its name or by an
    `abbrev` of its file; nothing for a record of one field."""
    source = Source.of(call.file)
    said = re.match(r"\s*ensures \w* ?\{\s+(?:IfOk \w+\s+|IfErr \w+\s+|\(|λ \w+\.\s+)*(\w+)", text)
    path = spec(source.uses[said[1]][0]) if said and said[1] in source.uses else None
    if path and CRATES in path.parents:
        name = source.uses[said[1]][1]
        short_for = re.search(rf"^{name} [\w ]+ = (\w+)", path.read_text(), re.MULTILINE)
        fields = contracts.fields(short_for[1] if short_for else name, path.relative_to(CRATES).parts[0])[1]
        return fields if len(fields) > 1 else {}
    return {}


def by_file(found):
    """Lemmas, each file once."""
    files = {}
    for file, name in found:
        files.setdefault(file, []).append(name)
    return "; ".join(
        f"`{lemmas.module(file)}` " + ", ".join(f"`{name}`" for name in names) for file, names in files.items()
    )


def said(text, broken, clause=None):
    """What is said of a clause, or of a call: its lemmas, and the edits that break it."""
    edits = [edit for edit, clauses in broken if (clause in clauses if clause else not clauses)]
    in_gate, others = (
        names(edit for edit in edits if (folder == "must-fail") == is_in_gate(edit)) for folder in FOLDERS
    )
    return (f": {text}" if text else "") + (f" ✗ {in_gate}" if in_gate else "") + (f" (✗) {others}" if others else "")


def names(found):
    return ", ".join(f"`{name}`" for name in found)


def field_lines(fields, file, broken, is_new):
    """A line for each field of a record that has lemmas of other crates or edits, and one for the others. Where the
    record had its lines before, those with edits alone."""
    rests = lemmas.of_fields(file, fields) if file and is_new else {}
    told = {field: said(by_file(rests.get(field, [])), broken, field) for field in fields}
    for field in fields:
        if told[field]:
            yield 2, f"`{field}`{told[field]}"
    if is_new and not all(told.values()):
        yield 2, names(field for field in fields if not told[field])


def lines(call, others, broken, seen):
    """The lines of a call: the call, its clauses, and the fields of those that are records."""
    clauses, bare = [], []
    of_fields = [(edit, found) for edit, found in broken if not set(found) & set(call.clauses)]
    for clause, text in call.clauses.items():
        same = [other for other in others if other.clauses.get(clause) == text and other.file == call.file]
        found, fields = [lemma for other in same for lemma in lemmas.of_clause(other, clause)], fields_of(call, text)
        makes = next((file for file, name in found if name == clause), None)
        if fields and same[0] != call:
            clauses.append((1, f"`{clause}`, as `{same[0].title}`"))
        elif found or fields or (clause and said("", broken, clause)):
            clauses.append((1, f"`{clause}`" + said(by_file(found), broken, clause)))
            clauses += field_lines(fields, makes, of_fields, (makes or call.file, *fields) not in seen)
            seen.add((makes or call.file, *fields))
        elif clause:
            bare.append(clause)
    named = bare if bare != ["result"] else []
    if clauses:
        return [(0, f"`{call.title}`" + said("", broken)), *clauses, *([(1, names(named))] if named else [])]
    return [(0, f"`{call.title}`" + (f" ({names(named)})" if named else "") + said("", broken))]


def wrapped(deep, text):
    """An item of a list, in lines of at most 150 characters."""
    return textwrap.fill(
        f"- {text}", 150, initial_indent="  " * deep, subsequent_indent="  " * deep + "  ", break_long_words=False,
        break_on_hyphens=False,
    )


def proofs():
    broken, found, seen, made = edits(), {}, set(), []
    for call in all_calls():
        found.setdefault(call.crate, []).append(call)
    for crate, calls in found.items():
        made.append(f"\n### `{crate}`\n")
        bare = []
        for call in calls:
            items = lines(call, calls, broken.get((call.crate, call.title), []), seen)
            if len(items) == 1 and "✗" not in items[0][1]:
                bare.append(items[0][1])
            else:
                made += [wrapped(deep, text) for deep, text in items]
        made += [wrapped(0, ", ".join(bare))] if bare else []
    return "\n".join(made) + "\n"


def edits_wrong():
    """Edits that are not in the list or fit no file, and names in the list that are not edits."""
    there = edit_files()
    listed = {edit: (key, clauses) for key, found in edits().items() for edit, clauses in found}
    named = {(call.crate, call.title): call for call in all_calls()}
    yield from (f"tools/evidence/edits: it lacks the edit {edit}" for edit in sorted(set(there) - set(listed)))
    yield from (f"tools/evidence/edits: there is no edit {edit}" for edit in sorted(set(listed) - set(there)))
    yield from (f"{path}: a text that it replaces is not once in its file" for path in there.values() if not fits(path))
    for edit, (key, clauses) in listed.items():
        if key not in named:
            yield f"tools/evidence/edits: {edit} breaks {' '.join(key)}, which is no public call"
        else:
            call = named[key]
            known = set(call.clauses) | {field for text in call.clauses.values() for field in fields_of(call, text)}
            yield from (
                f"tools/evidence/edits: {call.title} has no clause {clause}"
                for clause in clauses
                if clause not in known
            )


def wrong_bodies():
    """The wrong bodies of tools/evidence/wrong_bodies: each its place among the edits."""
    for line in (CRATES.parent / "tools/evidence/wrong_bodies").read_text().splitlines():
        if line and not line.startswith("#"):
            yield line.rpartition(": ")[2]


def wrong_bodies_missing():
    """Wrong bodies that are no edit any more. One is refused by a test, since each clause of a call lets it say that
    memory is refused."""
    there = edit_files()
    for body in wrong_bodies():
        crate, is_edit, _ = body.partition("/")
        if body not in there if is_edit else not (CRATES / crate.split(",")[0]).is_dir():
            yield f"tools/evidence/wrong_bodies: nothing tries {body} any more"


# ---- the definitions


def clauses_of(doors):
    """The clauses of files and folders, with those of generated accessors."""
    return [(text, call.file) for call in contracts.calls(doors) for text in call.clauses.values()]


def spared():
    return {CRATES / name for name in SPARED.split()}


def definitions_of(doors):
    return used(clauses_of(doors), spared())


def main_definitions():
    """The definitions that the main theorem needs."""
    path, fields = contracts.fields("Promise", "apollo_parser")
    return {found for found in used([(fields[name], path) for name in MAIN], spared()) if found[0] != path}


def counts(doors):
    """How many lines of definitions files and folders need: those by hand, those of them that are the kit's, and those
    that a program wrote."""
    lines = lines_by_file(definitions_of(doors))
    by_hand = {path: count for path, count in lines.items() if not is_generated(path)}
    return (
        sum(by_hand.values()),
        sum(count for path, count in by_hand.items() if KIT in path.parents),
        sum(lines.values()) - sum(by_hand.values()),
    )


def table():
    """The lines that each call and program needs."""
    yield "| To believe | Lines to read | of these the kit's | Generated |"
    yield "|---|---|---|---|"
    for title, doors in COUNTED.items():
        by_hand, of_kit, generated = counts(doors.split())
        yield f"| {title} | {by_hand:,} | {of_kit or '–'} | {generated} |"


def definitions():
    """The page docs/DEFINITIONS.md."""
    return TABLE.format(rows="\n".join(table()))


def lists():
    """The lists of definitions, each with its title and without those of the lists before it."""
    listed = main_definitions()
    kit = set()
    yield "the main theorem: " + ", ".join(f"`{name}`" for name in MAIN), listed
    for title, doors in PARTS.items():
        found = definitions_of(doors.split()) - listed
        listed = listed | found
        of_kit = {one for one in found if KIT in one[0].parents}
        kit |= of_kit
        yield title, found - of_kit
    yield "the kit's words for JSON and for headers, which `gqlls` uses", kit


def reading():
    made = []
    for title, found in lists():
        lines = lines_by_file(found)
        by_hand = sum(count for path, count in lines.items() if not is_generated(path))
        files = in_order(set(lines))
        made.append(f"\n### For {title}: {by_hand:,} lines\n")
        made.append(
            textwrap.fill(
                ", ".join(f"`{name_of(path)}`\u00a0{lines[path]}" for path in files), 158, break_on_hyphens=False
            )
        )
    return "\n".join(made) + "\n"


def page():
    return f"{HEAD}\n{CALLS}{proofs()}\n{READING}{reading()}\n{UNREAD}"

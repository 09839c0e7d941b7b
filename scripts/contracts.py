"""The contracts that the promise stands on: which they are, in the order of README's sentences, and their text.

`scripts/trust` follows them, compares docs/CONTRACTS.md with them, and by `--contracts` writes it.
"""
import pathlib
import re
import sys
import textwrap

TOP = pathlib.Path(__file__).resolve().parent.parent
CRATES = TOP / "crates"
PAGE = TOP / "docs/CONTRACTS.md"

# What each sum of `scripts/trust` is of.
PROMISE, COMMAND, FURTHER = "the promise", "the command's words", "the further laws"

# A sentence of README or of docs/PROMISES.md, the sum that its contracts belong to, and these: a crate, a file
# of its `src`, and a function, a method or a trait there; or a file of its `specs`, and a record there.
GROUPS = [
    ("A query text is accepted exactly where it is well-formed, valid and well-typed", PROMISE, [
        ("jp_run", "src/prepared", "Prepared::new"),
    ]),
    ("for every accepted query, readable collection, number of workers and cutting, the bytes of a finished"
     " run are the lines of the RFC's nodelist of each document in turn, duplicates kept, as one thread writes"
     " them", PROMISE, [
        ("jp_run", "src/running", "run"),
        ("jp_run", "src/prepared", "Prepared::run"),
        ("jp_run", "specs/Ran", "IsRunOf"),
        ("jp_run", "src/ends", "Supply"),
        ("jp_run", "src/ends", "Source"),
        ("jp_run", "src/ends", "Sink"),
    ]),
    ("each printed path, read as a query, selects just its node", PROMISE, [
        ("jp_path", "src/laws", "printed_lines"),
        ("jp_path", "src/query", "query_of"),
    ]),
    ("where a JSON text is one document", FURTHER, [
        ("jp_documents", "src/laws", "json_text_is_one_document"),
    ]),
    ("With `--output` they hold of the form that is asked for", FURTHER, [
        ("jp_run", "src/laws", "forms"),
    ]),
    ("With `--decimals` they hold of what a line is read as then", FURTHER, [
        ("jp_answer", "src/laws", "same_with_decimals"),
        ("jp_run", "src/laws", "same_with_decimals"),
    ]),
    ("The command keeps to its words", COMMAND, [
        ("jp_program", "src/command", "program"),
        ("jp_program", "src/inputs", "Inputs"),
    ]),
    ("What the words of a command line say is the definition of the kit's `clap` for the options that `jp`"
     " has", FURTHER, [
        ("jp_program", "src/laws", "query_alone"),
        ("jp_program", "src/laws", "one_wish"),
        ("jp_program", "src/laws", "no_file"),
        ("jp_program", "src/laws", "none_is_passed"),
    ]),
    ("Read as a literal of a query by RFC 9535 (2.3.1) it has the one value VALUE", FURTHER, [
        ("jp_quote", "src/literal", "quote"),
        ("jp_program", "src/laws", "quoting_stands_alone"),
    ]),
    ("A line has just two tabs, and one line feed, its last byte, whatever the names and texts hold", FURTHER, [
        ("jp_output", "src/laws", "three_fields"),
        ("jp_answer", "src/laws", "three_fields"),
    ]),
    ("A name has no control character, so a line has four fields then, and three tabs", FURTHER, [
        ("jp_output", "src/laws", "four_fields"),
        ("jp_program", "src/laws", "name_is_field"),
    ]),
    ("With `--output values` a line is the value alone, as by `cut -f3`", FURTHER, [
        ("jp_output", "src/laws", "values_are_third_fields"),
    ]),
    ("it is one line, and two texts are never one", FURTHER, [
        ("jp_output", "src/laws", "texts_read_back"),
    ]),
    ("With `-0` each value, text or raw text ends with the byte 0 in the place of the line feed", FURTHER, [
        ("jp_output", "src/laws", "values_ended_by_null"),
        ("jp_output", "src/laws", "raw_ended_by_null"),
    ]),
    ("With `-c` each input has one line, behind its name and a tab where lines have theirs", FURTHER, [
        ("jp_program", "src/laws", "counts_are_nodes"),
    ]),
    ("With `rows` a node gives one line, its fields with tabs between", FURTHER, [
        ("jp_output", "src/laws", "rows"),
    ]),
    ("A field is the value in the nodelist of its query, where `@` is the node", FURTHER, [
        ("jp_field", "src/laws", "values_of_nodelists"),
        ("jp_field", "src/laws", "singular_queries"),
        ("jp_field", "src/laws", "one_field"),
    ]),
    ("With `lines` each line of the input with a selected node stands once, byte for byte as it came", FURTHER, [
        ("jp_output", "src/laws", "lines_with_nodes"),
        ("jp_output", "src/laws", "lines_of_first_fields"),
        ("jp_answer", "src/laws", "lines_of_first_fields"),
    ]),
    ("an answer with no faulty line is empty exactly where every nodelist is, in every form", FURTHER, [
        ("jp_run", "src/laws", "nothing_selected"),
    ]),
    ("The answer is that of the query to the lines whose documents are chosen, and the faulty ones", FURTHER, [
        ("jp_answer", "src/laws", "chosen_answers"),
    ]),
    ("what the READMEs of the crates say of each clause and law, for every input", FURTHER, [
        ("jp_answer", "src/laws", "pieces"),
        ("jp_answer", "src/laws", "streams"),
        ("jp_answer", "src/laws", "stops_before"),
        ("jp_answer", "src/laws", "none_passed_before"),
        ("jp_run", "src/laws", "numbered_from_one"),
        ("jp_run", "src/laws", "parts"),
    ]),
    ("`jp_select` is the library, for programs in Rattle", FURTHER, [
        ("jp_check", "src/checking", "plan_in"),
        ("jp_check", "src/checking", "plan"),
        ("jp_select", "src/evaluation", "visit_nodes"),
        ("jp_select", "src/evaluation", "evaluate"),
    ]),
]

HEAD = """# The contracts of the promise

`scripts/trust --contracts` makes this page, and `.ci/run` fails where it differs from the sources. A change of
it is a change of what is promised: the commit that makes it says why.

Each sentence stands in [README](../README.md) or [PROMISES](PROMISES.md). Below it stand the contracts that
carry it, word for word, with what a caller owes. [DEFINITIONS](DEFINITIONS.md) says how to read a clause, and
leads to the definitions.
"""


def plain(text):
    """A text on one line, with no marks of links."""
    return re.sub(r"\s+", " ", re.sub(r"\[([^\]]*)\]\([^)]*\)", r"\1", text.replace("\n> ", "\n")))


def lines_of(crate, place, name):
    """The lines of a contract: from the signature to the body, or a whole trait or record."""
    kind, file = place.split("/")
    path = CRATES / crate / kind / f"{file}.{'rt' if kind == 'src' else 'antt'}"
    lines, at = path.read_text().split("\n"), 0
    owner, _, method = name.rpartition("::")
    if owner:
        at = next((n for n, it in enumerate(lines) if re.match(rf"impl\b.*\b{owner}\b", it)), None)
    heads = rf"\s*pub (?:fn|trait|record) {method}\b"
    first = next((n for n, it in enumerate(lines[at:], at) if re.match(heads, it)), None) if at is not None else None
    if first is None:
        sys.exit(f"trust: {crate} {place} has no {name}")
    indent = re.match(r"\s*", lines[first])[0]
    is_end = re.compile(rf"{indent}(?:\{{.*|\}})$" if kind == "src" else r"\S|$")
    last = next(n for n, it in enumerate(lines[first + 1:], first + 1) if is_end.match(it))
    if lines[last] == "}":
        last += 1
    return [it.removeprefix(indent) for it in lines[first:last]]


def contract(crate, place, name):
    """The text of a contract, with its comments, and without what documents the items of a trait."""
    lines = [it for it in lines_of(crate, place, name) if it and not re.match(r"\s*///", it)]
    return "\n".join([f"// {crate}: {place.split('/')[1]}", *lines])


def page():
    """The page of all contracts, and the sentences that stand nowhere."""
    said = plain((TOP / "README.md").read_text() + (TOP / "docs/PROMISES.md").read_text())
    parts, lost = [HEAD], []
    for sentence, _, roots in GROUPS:
        if sentence not in said:
            lost.append(sentence)
        quoted = textwrap.fill(sentence, 108, initial_indent="> ", subsequent_indent="> ")
        parts += [quoted, "```text", "\n".join(contract(*root) for root in roots), "```", ""]
    return "\n".join(parts), lost

"""Samples where the time of the command goes, with one worker, and prints each stage's share in percent.

A sample belongs to the first stage below that one of its functions names, so memory that is asked for while
JSON is read counts for that.
"""
import collections
import os
import re
import shutil
import subprocess
import tempfile

import cases
import corpus
import tools

STAGES = [(name, re.compile(pattern)) for name, pattern in (
    ("the kernel reads or writes", r"ksys_(read|write)|vfs_(read|write)"),
    ("a line is read flat",
     r"\bjp_flat_nodes\b|\bjson::(tape|index|run|word|unescape|scratch)\b|\bsimdutf8\b"
     r"|\bjp_flat::(lines|line_reader|reader|nodes)\b"),
    ("a line is read as a tree",
     r"\bserde_json::(de|value|number)\b|\bjson::(reader|lexer)\b|\bjp_doc::limits\b"),
    ("lines are cut", r"\bjp_(buffer|documents)\b|\bjp_doc::cutting\b|\bjp_run::(gathering|input)\b"),
    ("members in rising order", r"\bjp_flat::(gather|insertion)\b|\bFlatMembers::gather\b"),
    ("the text of lines", r"\bjp_output\b|\bserde_json::ser\b|\bjson::write|\bitoa\b"),
    ("patterns", r"\bjp_(automaton|pattern)\b"),
    ("the walk", r"\bjp_(eval|found|node|value|flat)\b"),
    ("the workers", r"\bjp_(answer|board)\b|map_vec|start_thread|\bclone3?\b"),
)]
OTHERS = "all else"


def stage_of(sample):
    return next((name for name, pattern in STAGES if pattern.search(sample)), OTHERS)


def samples(command, words, source, room):
    """The functions of each sample of one run, the innermost first."""
    data = os.path.join(room, "samples")
    with open(source, "rb") as stdin:
        done = subprocess.run(["perf", "record", "-q", "-F", "2000", "-e", "cpu-clock", "--call-graph",
                               "dwarf,16384", "-o", data, command, "--workers", "1", *words],
                              stdin=stdin, stdout=subprocess.DEVNULL, stderr=subprocess.DEVNULL)
    if done.returncode != 0:
        tools.refuse("perf record ends with status %d on %s" % (done.returncode, " ".join(words)))
    told = subprocess.run(["perf", "script", "-i", data, "--no-inline", "-F", "pid,ip,sym"],
                          stdout=subprocess.PIPE, stderr=subprocess.DEVNULL).stdout.decode(errors="replace")
    return [sample for sample in told.split("\n\n") if len(sample.strip().split("\n")) > 1]


def shares(case, arguments, command, room):
    source = corpus.made_in(tools.ROOM, case.kind, arguments.mb)
    counts = collections.Counter()
    for _ in range(arguments.rounds):
        counts.update(map(stage_of, samples(command, case.words(), source, room)))
    total = sum(counts.values())
    if total == 0:
        tools.refuse("perf took no sample of %s" % case.name)
    return {stage: 100 * count / total for stage, count in counts.items()}, total


def table(told):
    rows = [["", *["`%s`" % case for case in told]], ["---"] + ["---:"] * len(told)]
    for stage in [name for name, _ in STAGES] + [OTHERS]:
        rows.append([stage, *["%.0f" % part.get(stage, 0) for part, _ in told.values()]])
    rows.append(["samples", *[str(total) for _, total in told.values()]])
    return "\n".join("| %s |" % " | ".join(row) for row in rows)


def words():
    parser = tools.Words(prog="bench/stages", description=__doc__.split("\n\n")[0])
    parser.add_argument("--mb", type=float, default=8, help="megabytes of each input (8)")
    parser.add_argument("--rounds", type=int, default=3, help="how many runs are sampled (3)")
    parser.add_argument("--only", choices=[case.name for case in cases.CASES], help="one case alone")
    return tools.checked(parser)


def main():
    arguments = words()
    command = tools.jp()
    if shutil.which("perf") is None:
        tools.refuse("no perf: Debian's package linux-perf")
    tools.make_room()
    told = {}
    with tempfile.TemporaryDirectory(dir=tools.ROOM) as room:
        for case in cases.CASES:
            if arguments.only in (None, case.name):
                told[case.name] = shares(case, arguments, command, room)
    print(table(told))


if __name__ == "__main__":
    try:
        main()
    except OSError as fault:
        tools.refuse(str(fault))

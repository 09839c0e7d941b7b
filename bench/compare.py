"""Measures jp and what it is compared with, side by side on the same inputs, and prints a table in Markdown.

The first run of each program goes to a file, and its bytes are compared with those of the program by hand
before anything is timed. The timed runs go to /dev/null; the programs take turns within a round, and the best
round counts, of those during which nothing else ran on the machine.
"""
import filecmp
import json
import math
import os
import platform
import re
import shutil
import subprocess
import sys
import tempfile
import textwrap
import time

import cases
import corpus
import tools

TIME = "/usr/bin/time"
# How long a run may take, in seconds.
PATIENCE = "600"
# Under which name four runs of jp at once are kept beside the programs.
PROCESSES = "four processes"
# Whose time that of jp is held to, in a case in another form: of what, in which case, and whose.
OTHERS = [("values", "the same query in the form of nodes", "all", "jp"),
          ("grep", "the program by hand", "grep", "by_hand")]


class Watch:
    """What the whole machine did while something was timed, by /proc/stat, in seconds of processor time. These
    are counted in ticks, so that a little stays unknown of a short run."""

    # What others may take: a share of a processor, and what a few ticks are.
    SHARE, UNKNOWN = 0.12, 0.04

    def __init__(self):
        self.before = self.worked()

    @staticmethod
    def worked():
        with open("/proc/stat") as told:
            user, nice, system, _, _, *interrupts = [int(count) for count in told.readline().split()[1:8]]
        return (user + nice + system + sum(interrupts)) / os.sysconf("SC_CLK_TCK")

    def is_alone(self, own, wall):
        """Whether nothing else ran beside what took so much processor time in so many seconds."""
        return self.worked() - self.before - own <= self.SHARE * wall + self.UNKNOWN


class Run:
    """One run, under a small process that tells the peak of memory (a fork of this one would count)."""

    def __init__(self, words, source, sink, notes):
        watched = [TIME, "-o", notes, "-f", "%M", "timeout", PATIENCE, *words]
        with open(source, "rb") as stdin, open(sink, "wb") as stdout:
            watch, start = Watch(), time.perf_counter()
            child = subprocess.Popen(watched, stdin=stdin, stdout=stdout, stderr=subprocess.DEVNULL)
            _, status, used = os.wait4(child.pid, 0)
            self.wall = time.perf_counter() - start
        child.returncode = self.status = os.waitstatus_to_exitcode(status)
        self.processor = used.ru_utime + used.ru_stime
        self.alone = watch.is_alone(self.processor, self.wall)
        with open(notes) as told:
            self.memory = int((told.read().split() or ["0"])[-1]) / 1024


class Processes:
    """Four runs at once, each of one worker and with the whole input: what the machine gives four workers."""

    COUNT = 4

    def __init__(self, words, source):
        watch, start = Watch(), time.perf_counter()
        children = []
        for _ in range(self.COUNT):
            with open(source, "rb") as stdin:
                children.append(subprocess.Popen(words, stdin=stdin, stdout=subprocess.DEVNULL,
                                                 stderr=subprocess.DEVNULL))
        self.failed, own = False, 0
        for child in children:
            _, status, used = os.wait4(child.pid, 0)
            child.returncode = os.waitstatus_to_exitcode(status)
            self.failed |= child.returncode != 0
            own += used.ru_utime + used.ru_stime
        self.wall = time.perf_counter() - start
        self.alone = watch.is_alone(own, self.wall)


def rank(run):
    """Runs during which nothing else ran come first, and then the fast ones."""
    return not run.alone, run.wall


class Program:
    """A program that is measured. It prints the bytes of the program by hand, or is slow, is run once, and
    prints the same lines, or the values of them, in an order of its own."""

    def __init__(self, name, words, prints="bytes"):
        self.name, self.words, self.prints = name, words, prints
        self.slow = prints != "bytes"
        self.best = None

    def keep(self, run):
        """Keeps the least time and the most memory."""
        best = self.best or run
        run.memory = best.memory = max(run.memory, best.memory)
        self.best = min(run, best, key=rank)


def programs_for(case, paths, others):
    found = []
    for name in ("jp", "by_hand", "over_simdjson"):
        for workers in ("1", "4"):
            if name in paths and not (case.decimals and name in cases.WHOLE_ALONE):
                words = [paths[name], "--workers", workers, *case.words()]
                found.append(Program("%s %s" % (name, workers), words))
    if case.form != "nodes":
        return found + [Program(name, [name, "-c", case.expression], "values") for name in others]
    for name in others:
        found.append(Program(name, [name, "-nr", cases.jq_program(case.expression)], "lines"))
    if "jq" in others:
        found.append(Program("jq, values", ["jq", "-c", case.expression], "values"))
    return found


def sorted_lines(path):
    """What stands before the value of each line, and the value with its members in order of their names."""
    found = []
    with open(path, encoding="utf-8") as lines:
        for line in lines:
            *front, value = line.rstrip("\n").split("\t")
            found.append((front, json.dumps(json.loads(value), sort_keys=True)))
    return sorted(found)


def same(program, got, wanted):
    if program.prints == "bytes":
        return filecmp.cmp(got, wanted, shallow=False)
    if program.prints == "lines":
        return sorted_lines(got) == sorted_lines(wanted)
    return [value for _, value in sorted_lines(got)] == sorted(value for _, value in sorted_lines(wanted))


def compare(case, source, programs, room):
    """Runs each program once, and fails where it does not print what the program by hand does."""
    wanted, notes = os.path.join(room, "wanted"), os.path.join(room, "notes")
    by_hand = next(program for program in programs if program.name == "by_hand 1")
    if Run(by_hand.words, source, wanted, notes).status != 0:
        tools.refuse("by_hand fails on the case %s" % case)
    for program in programs:
        got = os.path.join(room, "got")
        first = Run(program.words, source, got, notes)
        if first.status != 0:
            tools.refuse("%s ends with status %d on the case %s" % (program.name, first.status, case))
        if not same(program, got, wanted):
            tools.refuse("%s does not print what by_hand does on the case %s" % (program.name, case))
        if program.slow:
            program.keep(first)


def measure(case, arguments, paths, others, room):
    """The programs, and four of jp at once, measured on one case, and the size of its input in megabytes."""
    source = corpus.made_in(tools.ROOM, case.kind, arguments.mb)
    programs = programs_for(case, paths, others)
    compare(case.name, source, programs, room)
    alone, at_once = [paths["jp"], "--workers", "1", *case.words()], []
    for _ in range(arguments.rounds):
        at_once.append(Processes(alone, source))
        if at_once[-1].failed:
            tools.refuse("one of four jp at once fails on the case %s" % case.name)
        for program in programs:
            if not program.slow:
                timed = Run(program.words, source, os.devnull, os.path.join(room, "notes"))
                if timed.status != 0:
                    tools.refuse("%s ends with status %d on the case %s"
                                 % (program.name, timed.status, case.name))
                program.keep(timed)
    best = {program.name: program.best for program in programs}
    best[PROCESSES] = min(at_once, key=rank)
    return best, os.path.getsize(source) / 1e6


def speed(size, run):
    """Megabytes of input a second."""
    return "%.*f" % (size / run.wall < 10, size / run.wall)


def memory(runs, name):
    return "%.0f, %.0f" % (runs[name + " 1"].memory, runs[name + " 4"].memory)


def times(runs, name):
    return runs[name + " 1"].wall / runs[name + " 4"].wall


def share(runs):
    """The throughput of four workers by that of four processes at once."""
    return runs[PROCESSES].wall / (Processes.COUNT * runs["jp 4"].wall)


def table(measured, names):
    """The table in Markdown: megabytes of input a second, four workers by one and by four processes, the peak
    of memory in MB."""
    head = ["case", *[name.replace("_", " ") for name in names], "jp, 4 by 1", "jp, 4 by 4 processes",
            "by hand, 4 by 1",
            "MB of jp 1, 4", "MB of by hand 1, 4"]
    rows = [head, ["---"] + ["---:"] * (len(head) - 1)]
    for case, (runs, size) in measured.items():
        rows.append(["`%s`" % case, *[speed(size, runs[name]) if name in runs else "" for name in names],
                     "%.1f" % times(runs, "jp"), "%.2f" % share(runs), "%.1f" % times(runs, "by_hand"),
                     memory(runs, "jp"), memory(runs, "by_hand")])
    return "\n".join("| %s |" % " | ".join(row) for row in rows)


def spread(numbers):
    """The geometric mean, and in brackets the least and the most."""
    mean = math.exp(sum(math.log(number) for number in numbers) / len(numbers))
    return "%.2f (%.2f to %.2f)" % (mean, min(numbers), max(numbers))


def ratios(measured, above, below):
    return spread([runs[above].wall / runs[below].wall for runs, _ in measured.values()])


def means(measured, names):
    """What the table says of these cases, in the geometric mean over them."""
    said = []
    for name, words in (("by_hand", "the program by hand"), ("over_simdjson", "the one over simdjson")):
        if name + " 1" in names:
            said.append("the time of jp by that of %s: %s with one worker, %s with four" % (
                words, ratios(measured, "jp 1", name + " 1"), ratios(measured, "jp 4", name + " 4")))
    for name in ("jq", "gojq", "jq, values"):
        if name in names:
            said.append("the time of %s by that of jp: %s with one worker, %s with four" % (
                name.replace("values", "the values alone,"), ratios(measured, name, "jp 1"),
                ratios(measured, name, "jp 4")))
    ups = [name for name in ("jp", "by_hand", "over_simdjson") if name + " 1" in names]
    said.append("four workers by one: " + ", ".join(
        "%s %s" % (name.replace("_", " "), ratios(measured, name + " 1", name + " 4")) for name in ups))
    said.append("four workers of jp by four processes of one worker, at once: "
                + spread([share(runs) for runs, _ in measured.values()]))
    return said


def shares(measured):
    """What the table says of cases in another form, where both times were measured."""
    said = []
    for case, what, other, name in OTHERS:
        if case in measured and other in measured:
            ours, theirs = measured[case][0], measured[other][0]
            one, four = [ours["jp " + count].wall / theirs["%s %s" % (name, count)].wall for count in "14"]
            said.append("for `%s` by that of %s: %.2f with one worker, %.2f with four"
                        % (case, what, one, four))
    return ["the time of jp " + "; ".join(said)] if said else []


def summary(measured, names):
    """What the table says: means over its cases in the form of nodes, and a line of its own on the others."""
    nodes = {case.name: measured[case.name] for case in cases.CASES
             if case.form == "nodes" and not case.decimals and case.name in measured}
    decimals = {case.name: measured[case.name] for case in cases.CASES
                if case.decimals and case.name in measured}
    said = (means(nodes, names) if nodes else []) + shares(measured)
    if decimals:
        said.append("with `--decimals`, the time of jp by that of the program by hand: %s with one worker,"
                    " %s with four" % tuple(ratios(decimals, "jp " + count, "by_hand " + count)
                                            for count in "14"))
    busy = max(run.wall / max(run.processor, 1e-3) for runs, _ in measured.values()
               for name, run in runs.items() if name.endswith("1"))
    said.append("the best run of one thread took at most %.2f times its processor time" % busy)
    beside = ["%s of `%s`" % (name, case) for case, (runs, _) in measured.items()
              for name, run in runs.items() if not run.alone]
    said.append("something else ran during each run of: " + ", ".join(beside) if beside
                else "nothing else ran during any of these runs")
    return "\n".join(textwrap.fill("- " + line, 110, subsequent_indent="  ") for line in said)


def first_line(words):
    return subprocess.run(words, capture_output=True, text=True).stdout.split("\n")[0]


def versions(paths, others):
    """What the programs that jp is compared with were made from."""
    with open(os.path.join(tools.HERE, "by_hand", "Cargo.lock")) as lock:
        crates = dict(re.findall(r'name = "(\w+)"\nversion = "(.*)"', lock.read()))
    said = [first_line(["rustc", "--version"])]
    said += ["%s %s" % (name, crates[name]) for name in ("serde_json", "regex")]
    if "over_simdjson" in paths:
        with open("/usr/include/simdjson.h", encoding="utf-8") as header:
            found = re.search(r"#define SIMDJSON_VERSION ([0-9.]+)", header.read())
        said.append("simdjson %s" % (found[1] if found else "of an unknown version"))
    return said + [first_line([name, "--version"]) for name in others]


def machine(arguments, load, made_from):
    with open("/proc/cpuinfo") as told:
        models = [line.split(":", 1)[1].strip() for line in told if line.startswith("model name")]
    said = ["%d processors, %s" % (os.cpu_count(), models[0] if models else platform.machine()),
            "load %.1f before and %.1f after" % (load, os.getloadavg()[0]),
            "%g MB of each input, best of %d rounds" % (arguments.mb, arguments.rounds), *made_from]
    now = time.strftime("%d %B %Y, %H:%M UTC", time.gmtime())
    return textwrap.fill("%s: %s." % (now, "; ".join(said)), 110)


def words():
    parser = tools.Words(prog="bench/run", description=__doc__.split("\n\n")[0])
    parser.add_argument("--mb", type=float, default=16, help="megabytes of each input (16)")
    parser.add_argument("--rounds", type=int, default=5, help="timed rounds (5)")
    parser.add_argument("--only", choices=[case.name for case in cases.CASES], help="one case alone")
    parser.add_argument("--jq", action="store_true", help="also jq and gojq, run once")
    return tools.checked(parser)


def found_others(arguments):
    found = []
    for name in ("jq", "gojq") if arguments.jq else ():
        if shutil.which(name):
            found.append(name)
        else:
            print("bench/run: %s is left out: Debian's package %s" % (name, name), file=sys.stderr)
    return found


def main():
    arguments = words()
    paths = {"jp": tools.jp()}
    if not os.access(TIME, os.X_OK):
        tools.refuse("no %s: Debian's package time" % TIME)
    paths.update(tools.build())
    others = found_others(arguments)
    load, measured = os.getloadavg()[0], {}
    with tempfile.TemporaryDirectory(dir=tools.ROOM) as room:
        for case in cases.CASES:
            if arguments.only in (None, case.name):
                measured[case.name] = runs, size = measure(case, arguments, paths, others, room)
                said = ", ".join("%s %s" % (name, speed(size, run)) for name, run in runs.items()
                                 if name != PROCESSES)
                print("%s: %s MB/s" % (case.name, said), file=sys.stderr, flush=True)
    names = [name for name in next(iter(measured.values()))[0] if name != PROCESSES]
    about = machine(arguments, load, versions(paths, others))
    print("\n\n".join([about, table(measured, names), summary(measured, names)]))


if __name__ == "__main__":
    try:
        main()
    except OSError as fault:
        tools.refuse(str(fault))

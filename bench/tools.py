"""What both scripts need: refusals of one line, the folder of what is made, and the programs."""
import argparse
import os
import subprocess
import sys

HERE = os.path.dirname(os.path.abspath(__file__))
ROOM = os.path.join(os.environ.get("TMPDIR") or "/tmp", "jp-bench-%d" % os.getuid())


def refuse(reason, status=1):
    print("bench/%s: %s" % (os.environ.get("BENCH_SCRIPT", "run"), reason), file=sys.stderr)
    sys.exit(status)


class Words(argparse.ArgumentParser):
    """The words behind a script's name. A wrong one is refused by one line and status 64."""

    def error(self, message):
        refuse("%s; --help says more" % message, 64)


def checked(parser):
    """The words of the call, where --mb and --rounds are numbers above zero."""
    arguments = parser.parse_args()
    if not 0 < arguments.mb <= 100000 or arguments.rounds < 1:
        parser.error("--mb and --rounds want numbers above zero")
    return arguments


def make_room():
    try:
        os.makedirs(ROOM, exist_ok=True)
    except OSError:
        refuse("%s cannot be made" % ROOM)


def jp():
    """The command that is measured: JP, or what the toolchain has built here."""
    path = os.path.abspath(os.environ.get("JP") or os.path.join(HERE, "..", "crates", "jp", "out", "jp"))
    if not os.access(path, os.X_OK) or os.path.isdir(path):
        refuse("%s is not built: `rt run` in crates/jp builds it, and JP names another command" % path)
    return path


def build():
    """Builds the programs that jp is compared with, and gives the paths of those that there are."""
    done = subprocess.run([os.path.join(HERE, "build"), ROOM])
    if done.returncode != 0:
        sys.exit(done.returncode)
    paths = {name: os.path.join(ROOM, name) for name in ("by_hand", "over_simdjson")}
    return {name: path for name, path in paths.items() if os.path.exists(path)}

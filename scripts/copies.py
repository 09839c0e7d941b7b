"""Copies of crates, each in a folder of its own with all that it stands on. `rt` lets one run at a time into
a crate and those below it: what is to be proved side by side has to stand apart."""
import os
import shutil

PARTS = ("src", "specs", "proofs")


def listed(top):
    """The crates of crates.txt, each with what it stands on."""
    lines = [line.split("#")[0].split(":") for line in (top / "crates.txt").read_text().splitlines()]
    return {line[0].split()[0]: line[1].split() for line in lines if len(line) == 2}


def below(name, crates):
    """A crate and all of ours that it stands on."""
    found, ahead = [], [name]
    while ahead:
        crate = ahead.pop()
        if crate in crates and crate not in found:
            found.append(crate)
            ahead += crates[crate]
    return sorted(found)


def lay(top, room, name, crates, built):
    """Lays a crate and those below it in a folder, with what is built of them in another clone, and gives the
    crate's folder there."""
    (room / ".git").mkdir(parents=True, exist_ok=True)
    for file in ("crates.txt", "HANDLES"):
        shutil.copyfile(top / file, room / file)
    for crate in crates:
        # (every crate that crates.txt lists has to be there)
        for part in PARTS if crate in below(name, crates) else ("src",):
            to = room / "crates" / crate / part
            shutil.rmtree(to, ignore_errors=True)
            if (top / "crates" / crate / part).is_dir():
                shutil.copytree(top / "crates" / crate / part, to)
        if crate in below(name, crates):
            take_built(built / "crates" / crate / "out", room / "crates" / crate / "out", crate == name)
    return room / "crates" / name


def take_built(built, out, is_own):
    """Links what is built of a crate into a copy, and, of the copy's own, copies what its check keeps."""
    if (built / "rlib/stamp").exists() and not (out / "rlib").exists():
        shutil.copytree(built / "rlib", out / "rlib", copy_function=link)
    if is_own and (built / "incremental").exists() and not (out / "incremental").exists():
        shutil.copytree(built / "incremental", out / "incremental")


def link(source, to):
    """A file once more, or a copy of it in another folder's system."""
    try:
        os.link(source, to)
    except OSError:
        shutil.copy2(source, to)

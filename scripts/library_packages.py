"""The Debian packages of the library for C: libjp0, libjp-dev and python3-jsonpath-lines."""
import os
import re
import shutil
import subprocess

# Where Debian has libraries.
FOLDER = "usr/lib/x86_64-linux-gnu"
ABOUT = """ Queries of RFC 9535, with the patterns of RFC 9485, over JSON that a program holds
 in memory: the library of the command jp.
"""
# A package: its section, what it depends on, what it is, and which file stands where.
PACKAGES = {
    "libjp0": (
        "libs", "libc6 (>= {glibc})", "JSONPath queries over JSON documents",
        {"libjp.so.0": f"{FOLDER}/libjp.so.0"},
    ),
    "libjp-dev": (
        "libdevel", "libjp0 (= {version})", "JSONPath queries over JSON documents, to compile with",
        {"libjp.a": f"{FOLDER}/libjp.a", "libjp.so": f"{FOLDER}/libjp.so", "jp.h": "usr/include/jp.h",
         "jp.pc": f"{FOLDER}/pkgconfig/jp.pc"},
    ),
    "python3-jsonpath-lines": (
        "python", "libjp0 (= {version}), python3", "JSONPath queries over JSON documents, in Python", {},
    ),
}


def pack_all(top, made, version, out):
    """Makes the packages in the folder out, of the library that lies in the folder made. The same commit and
    the same library give the same bytes."""
    git = ["git", "-C", top, "log", "-1", "--format=%ct %an <%ae>"]
    said = subprocess.run(git, capture_output=True, text=True, check=True).stdout
    epoch, maintainer = said.strip().split(" ", 1)
    needed = re.findall(r"GLIBC_([0-9.]+)", (made / "libjp.so.0").read_bytes().decode("latin-1"))
    glibc = max(needed, key=lambda it: [int(part) for part in it.split(".")])
    (made / "jp.pc").write_text((made / "jp.pc").read_text().replace("${prefix}/lib", f"/{FOLDER}"))
    out.mkdir(parents=True, exist_ok=True)
    for name, (section, depends, about, files) in PACKAGES.items():
        root = made.parent / name
        for source, place in files.items():
            (root / place).parent.mkdir(parents=True, exist_ok=True)
            shutil.copyfile(made / source, root / place, follow_symlinks=False)
        (root / "DEBIAN").mkdir(parents=True)
        if name == "libjp0":
            (root / "DEBIAN/triggers").write_text("activate-noawait ldconfig\n")
            (root / "DEBIAN/shlibs").write_text("libjp 0 libjp0\n")
        if not files:
            place = root / "usr/lib/python3/dist-packages/jsonpath_lines"
            made_by_python = shutil.ignore_patterns("__pycache__")
            shutil.copytree(top / "python/jsonpath_lines", place, ignore=made_by_python)
        documents(top, root / "usr/share/doc" / name)
        of = {
            "Package": name, "Source": "jsonpath-lines", "Version": version,
            "Architecture": "amd64" if files else "all", "Multi-Arch": "same" if files else "foreign",
            "Maintainer": maintainer, "Section": section, "Priority": "optional",
            "Installed-Size": sum(it.lstat().st_size for it in root.rglob("*")) // 1024 + 1,
            "Depends": depends.format(glibc=glibc, version=version), "Description": about,
        }
        (root / "DEBIAN/control").write_text("".join(f"{key}: {it}\n" for key, it in of.items()) + ABOUT)
        pack(root, out / f"{name}_{version}_{of['Architecture']}.deb", int(epoch))


def documents(top, place):
    """The licences and the notice."""
    place.mkdir(parents=True)
    apache = "The text of the Apache License 2.0: /usr/share/common-licenses/Apache-2.0"
    notice = "".join((top / "NOTICE").read_text().splitlines(True)[2:])
    (place / "copyright").write_text(f"{(top / 'LICENSE-MIT').read_text()}\n{apache}\n\n{notice}")


def pack(root, package, epoch):
    """Makes a package of what stands in a root."""
    for it in [root, *root.rglob("*")]:
        os.utime(it, (epoch, epoch), follow_symlinks=False)
        if not it.is_symlink():
            it.chmod(0o755 if it.is_dir() else 0o644)
    subprocess.run(["dpkg-deb", "-Zgzip", "-z9", "--root-owner-group", "-b", root, package], check=True,
                   stdout=subprocess.DEVNULL, env={**os.environ, "SOURCE_DATE_EPOCH": str(epoch)})

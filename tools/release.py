#!/usr/bin/env python3
"""Makes a release of the program and the library in build/release/: docs/RELEASE.md says what is in it.

usage: tools/release.py [--deb] [--unproved]

An archive, a wheel, a crate (if cargo is here), with --deb a package for Debian, and SHA256SUMS of them. build/cc_player
and the libraries in build/ have to be proved of the text that stands in crates/ (`make`, `make lib`). --unproved takes
what stands there, as for a trial of the packages, and every name says so.
"""
import argparse
import ast
import gzip
import io
import os
import pathlib
import platform
import re
import shutil
import subprocess
import sys
import tarfile
import tempfile
import time

sys.dont_write_bytecode = True
import lib
import wheel
from built import PLAYER, file_sum, is_of, text_sum

ROOT = pathlib.Path(__file__).resolve().parent.parent
BUILD, OUT = ROOT / "build", ROOT / "build" / "release"
# The folder below PREFIX for what is neither program nor library; tools and pages find each other there as here.
SHARE = "share/cc_compositor"
SHARED = ["README.md", "CHANGELOG.md", "docs", "examples", "clients", "crates/page_layers/src/command.rt"]
TOOLS = ["explain", "recording", "page", "judge"]
ARCHITECTURES = {"x86_64": "amd64"}
DESCRIPTION = """page compositor whose frames are proved
 The core of a web page compositor as a program and as a library for C: layers
 with rects and bitmaps, clips, groups with opacity, nested scrollers, damage.
 Each function is proved to meet its contract; each frame is the painting of the
 page."""


def stop(text):
    sys.exit("release.py: " + text)


def run(*words, **more):
    """Runs a command, whose words are shown if it fails."""
    done = subprocess.run([str(it) for it in words], capture_output=True, text=True, **more)
    if done.returncode:
        stop(f"{words[0]} ended with {done.returncode}\n{done.stdout}{done.stderr}")
    return done.stdout


class Release:
    """What a release is made of, and its names."""

    def __init__(self, is_proved):
        self.is_proved = is_proved
        self.version = re.search(r"^VERSION := (.*)$", (ROOT / "Makefile").read_text(), re.M)[1]
        self.processor = platform.machine()
        self.library = BUILD / f"libcc.so.{lib.version()}"
        self.libraries = [BUILD / "libcc.a", self.library, BUILD / "libcc.so"]
        self.look()
        self.libc = max(int(it) for path in (PLAYER, self.library)
                        for it in re.findall(rb"GLIBC_2\.(\d+)", path.read_bytes()))
        self.seconds = int(os.environ.get("SOURCE_DATE_EPOCH") or self.committed("%ct") or time.time())

    def look(self):
        """Looks whether all is there, and proved."""
        for path in (PLAYER, *self.libraries):
            if not path.is_file():
                stop(f"{path.relative_to(ROOT)} is not there: make, make lib")
        if self.is_proved and not (is_of(PLAYER, text_sum()) and all(is_of(it, lib.library_sum()) for it in self.libraries)):
            stop("build/ has a program or a library that is not proved of this text: make, make lib (--unproved for a trial)")
        self.told = run(PLAYER, "--version").strip()
        if self.told.split()[:2] != ["cc_player", self.version]:
            stop(f"the Makefile has version {self.version}, the program says {self.told}")

    def committed(self, form):
        """A fact of the last commit; empty where there is no repository."""
        told = subprocess.run(["git", "log", "-1", "--format=" + form], cwd=ROOT, capture_output=True, text=True)
        return told.stdout.strip()

    def name(self):
        """The name of the archive."""
        return f"cc-{self.version}-linux-{self.processor}" + self.mark("-")

    def mark(self, sign):
        """What a name says after its version, with this sign before it, if not all is proved."""
        return "" if self.is_proved else sign + "unproved"

    def debian_version(self):
        """The version of the package."""
        return self.version + self.mark("~")

    def about(self):
        """What the file BUILD tells."""
        changed = "" if not self.committed("%H") or not run("git", "status", "--porcelain", cwd=ROOT) else " and changes"
        lines = [f"version: {self.version}", f"system: linux {self.processor}, C library 2.{self.libc} or later",
                 f"program: {self.told}, sha256 {file_sum(PLAYER)}",
                 f"library: {self.library.name}, sha256 {file_sum(self.library)}",
                 f"proved: {'yes' if self.is_proved else 'no, a trial of the packages'}",
                 f"sources: {self.committed('%H') or 'no repository'}{changed}"]
        if self.is_proved:
            lines.append(f"text: {text_sum()}")
        return "\n".join(lines) + "\n"


def tracked(names):
    """The files of the sources below these names: what git has, or all where there is no repository."""
    told = subprocess.run(["git", "ls-files", "-z", "--", *names], cwd=ROOT, capture_output=True, text=True)
    if told.returncode == 0:
        return [it for it in told.stdout.split("\0") if it and (ROOT / it).is_file()]
    below = (path for name in names for path in ([ROOT / name] if (ROOT / name).is_file() else (ROOT / name).rglob("*")))
    return [str(it.relative_to(ROOT)) for it in below if it.is_file()]


def modules_of(names):
    """These tools and the modules in tools/ that they import."""
    found, left = set(), list(names)
    while left:
        name = left.pop()
        path = ROOT / "tools" / (name + ".py")
        if name in found or not path.is_file():
            continue
        found.add(name)
        for it in ast.walk(ast.parse(path.read_text())):
            if isinstance(it, ast.Import):
                left += [one.name for one in it.names]
            elif isinstance(it, ast.ImportFrom):
                left.append(it.module)
    return [f"tools/{name}.py" for name in sorted(found)]


def put(root, name, data, mode=0o644):
    """Writes a file of the release."""
    path = root / name
    path.parent.mkdir(parents=True, exist_ok=True)
    path.write_bytes(data if isinstance(data, bytes) else data.encode())
    path.chmod(mode)


def stage(release, root, prefix, libdir):
    """Installs all below a folder."""
    run("make", "-s", "install", "install-lib", f"DESTDIR={root}", f"PREFIX={prefix}", f"LIBDIR={libdir}", cwd=ROOT)
    share = root / (prefix.lstrip("/") or ".") / SHARE
    for name in tracked([*SHARED, *map(str, (it.relative_to(ROOT) for it in ROOT.glob("LICEN[CS]E*")))]) + modules_of(TOOLS) + ["tools/viewer.html"]:
        put(share, name, (ROOT / name).read_bytes(), 0o755 if os.access(ROOT / name, os.X_OK) else 0o644)
    put(share, "BUILD", release.about())


def archive(release):
    """The archive, the same bytes for the same files."""
    path = OUT / (release.name() + ".tar.gz")
    with tempfile.TemporaryDirectory() as room, open(path, "wb") as out:
        root = pathlib.Path(room)
        stage(release, root, "", "lib")
        with gzip.GzipFile("", "wb", 9, out, release.seconds) as packed, tarfile.open(fileobj=packed, mode="w") as tar:
            for it in sorted(root.rglob("*")):
                entry = tar.gettarinfo(it, f"{release.name()}/{it.relative_to(root)}")
                entry.uid = entry.gid = 0
                entry.uname = entry.gname = "root"
                entry.mtime = release.seconds
                entry.mode = 0o755 if entry.isdir() or entry.mode & 0o100 else 0o644
                tar.addfile(entry, io.BytesIO(it.read_bytes()) if entry.isreg() else None)
    return path


def copyright_text():
    """What the package says of rights."""
    licences = [it.read_text() for it in sorted(ROOT.glob("LICEN[CS]E*"))]
    return "\n".join(licences) or "No licence has been given for this text yet: all rights are with its authors.\n"


def control(release, root):
    """The control file of the package."""
    size = sum(it.lstat().st_size for it in root.rglob("*") if it.is_file())
    return (f"Package: cc-compositor\nVersion: {release.debian_version()}\nArchitecture: {ARCHITECTURES[release.processor]}\n"
            "Maintainer: cc maintainers <root@localhost>\n"
            f"Installed-Size: {size // 1024 + 1}\nDepends: libc6 (>= 2.{release.libc})\nSuggests: python3, pkgconf\n"
            f"Section: libdevel\nPriority: optional\nDescription: {DESCRIPTION}\n")


def packed_manuals(root):
    """Manual pages as Debian has them."""
    for it in root.glob("usr/share/man/man*/*.[0-9]"):
        put(it.parent, it.name + ".gz", gzip.compress(it.read_bytes(), 9, mtime=0))
        it.unlink()


def deb(release):
    """A package for Debian and its kin."""
    if not shutil.which("dpkg-deb"):
        stop("dpkg-deb is not here")
    if release.processor not in ARCHITECTURES:
        stop(f"no package is made for {release.processor}")
    with tempfile.TemporaryDirectory() as room:
        root = pathlib.Path(room) / "root"
        stage(release, root, "/usr", f"lib/{release.processor}-linux-gnu")
        for it in ("cc.py", "cc_serve.py"):
            put(root, f"usr/lib/python3/dist-packages/{it}", (ROOT / "clients" / "python" / it).read_bytes())
        packed_manuals(root)
        put(root, "usr/share/doc/cc-compositor/copyright", copyright_text())
        put(root, "usr/share/doc/cc-compositor/changelog.gz", gzip.compress((ROOT / "CHANGELOG.md").read_bytes(), 9, mtime=0))
        told = control(release, root)
        sums = [f"{run('md5sum', it).split()[0]}  {it.relative_to(root)}\n" for it in sorted(root.rglob("*")) if it.is_file() and not it.is_symlink()]
        put(root, "DEBIAN/control", told)
        put(root, "DEBIAN/md5sums", "".join(sums))
        put(root, "DEBIAN/triggers", "activate-noawait ldconfig\n")
        for it in root.rglob("*"):
            if it.is_dir():
                it.chmod(0o755)
        path = OUT / f"cc-compositor_{release.debian_version()}_{ARCHITECTURES[release.processor]}.deb"
        run("dpkg-deb", "--build", "--root-owner-group", root, path, env=dict(os.environ, SOURCE_DATE_EPOCH=str(release.seconds)))
    return path


def crate(release):
    """The crate as cargo packs it, which builds it once more out of what it packed."""
    if not shutil.which("cargo"):
        print("no crate: cargo is not here")
        return None
    with tempfile.TemporaryDirectory() as room:
        run("cargo", "package", "--quiet", "--offline", "--allow-dirty", "--target-dir", room, cwd=ROOT / "clients" / "rust",
            env=dict(os.environ, CC_LIB=str(BUILD)))
        made = next(pathlib.Path(room, "package").glob("*.crate"))
        return pathlib.Path(shutil.copy(made, OUT / made.name))


def main():
    words = argparse.ArgumentParser(description=__doc__, formatter_class=argparse.RawDescriptionHelpFormatter)
    words.add_argument("--deb", action="store_true", help="make a package for Debian, too")
    words.add_argument("--unproved", action="store_true", help="take what stands in build/, for a trial")
    words = words.parse_args()
    release = Release(not words.unproved)
    shutil.rmtree(OUT, ignore_errors=True)
    OUT.mkdir(parents=True)
    made = [archive(release)]
    made.append(wheel.write(OUT, release.version + release.mark("+"), release.libc, release.processor, PLAYER, release.library, release.seconds))
    made += filter(None, [crate(release), deb(release) if words.deb else None])
    (OUT / "SHA256SUMS").write_text("".join(f"{file_sum(it)}  {it.name}\n" for it in sorted(made)))
    for it in sorted(made):
        print(f"{it.relative_to(ROOT)}: {it.stat().st_size} bytes")


if __name__ == "__main__":
    main()

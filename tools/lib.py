#!/usr/bin/env python3
"""Builds the library for C: build/libcc.a, build/libcc.so with its soname, and build/cc.pc.

usage: tools/lib.py [--into FOLDER] [--own] [--pkg-config LIBDIR]

`rt lib` proves crates/cc_c, and what it stands on, and builds the static library. The kit's heap shim, which calls the
program's malloc, realloc and free, is put into the same archive. A shared library is linked from it that exports the
functions of include/cc.h alone. Where those in FOLDER were built of the present text and header, nothing is done; nor
where none of them was built here (they have no notes), as those that somebody copied there; --own builds them even so.

--pkg-config prints cc.pc for an installation whose libraries lie in LIBDIR of its prefix (lib) and nothing else. It
finds its folders by its own place, so the installation may be moved.

Of the libraries below, those that the gate built of this text are taken (tools/gate_libraries.py).
"""
import argparse
import os
import pathlib
import re
import shutil
import subprocess
import sys
import tempfile

sys.dont_write_bytecode = True
import machine
from built import file_sum, is_foreign, is_of, note_of, text_sum, write_note
from gate_libraries import kit, stamped

ROOT = pathlib.Path(__file__).resolve().parent.parent
CRATE = ROOT / "crates" / "cc_c"
HEADER = ROOT / "include" / "cc.h"
COMPILERS = ("gcc", "clang", "cc")
# What a job of the proof takes, and how many there are at most.
MEMORY, MOST_JOBS = 3 << 30, 4


def stop(text):
    sys.exit("lib.py: " + text)


def run(*words, **more):
    done = subprocess.run([str(w) for w in words], **more)
    if done.returncode:
        stop("%s ended with %d" % (words[0], done.returncode))


def prove(crate):
    """Proves a crate and builds its library; of what rt says, the end is shown where it refuses."""
    words = ["rt", "lib", "--jobs", str(min(machine.jobs(MEMORY), MOST_JOBS))]
    done = subprocess.run(words, cwd=crate, stdout=subprocess.PIPE, stderr=subprocess.STDOUT, text=True, errors="replace")
    if done.returncode:
        stop("rt lib ended with %d\n%s" % (done.returncode, done.stdout[-3000:]))


def version():
    """The version of the interface, as the header has it: the number of the soname."""
    return re.search(r"#define CC_VERSION (\d+)", HEADER.read_text())[1]


def library_sum():
    """A sum of all that the library is made of."""
    return "%s-%s" % (text_sum(), file_sum(HEADER))


def exported():
    """The functions of the library, as the header declares them: those that are not inline."""
    return sorted(set(re.findall(r"^(?:uint32_t|size_t|void) (cc_\w+)\(", HEADER.read_text(), re.M)))


def merged(into, archives):
    """One archive of the objects of several, which has no names for others but the functions of the header."""
    with tempfile.TemporaryDirectory() as folder:
        whole = pathlib.Path(folder) / (into.stem + ".o")
        run("ld", "-r", "--whole-archive", *archives, "-o", whole)
        run("objcopy", *("--keep-global-symbol=" + name for name in exported()), whole)
        into.unlink(missing_ok=True)
        run("ar", "rcs", into, whole)


def link(compiler, archive, shared):
    """A shared library of an archive that exports the functions of the header; its file's name is its soname."""
    with tempfile.TemporaryDirectory() as folder:
        names = pathlib.Path(folder) / "exports"
        names.write_text("{ global: %s; local: *; };\n" % "; ".join(exported()))
        run(compiler, "-shared", "-o", shared, "-Wl,-soname," + shared.name,
            "-Wl,--whole-archive", archive, "-Wl,--no-whole-archive", "-Wl,--version-script=%s" % names,
            "-Wl,--no-undefined", "-Wl,-z,noexecstack")


def pkg_config(libdir, include):
    """The text of cc.pc; both folders as they are reached from its own."""
    return ("libdir=${pcfiledir}/%s\nincludedir=${pcfiledir}/%s\n\nName: cc\n"
            "Description: a page compositor whose frames are proved\nVersion: %s\n"
            "Libs: -L${libdir} -lcc\nCflags: -I${includedir}\n" % (libdir, include, version()))


def write_pkg_config(into):
    """Writes cc.pc for the libraries of a folder and the header of this tree."""
    (into / "cc.pc").write_text(pkg_config(".", os.path.relpath(HEADER.parent, into)))


def main():
    words = argparse.ArgumentParser(description=__doc__.splitlines()[0])
    words.add_argument("--into", type=pathlib.Path, default=ROOT / "build")
    words.add_argument("--own", action="store_true", help="take no libraries that were copied there")
    words.add_argument("--pkg-config", metavar="LIBDIR", help="print cc.pc for libraries in this folder of a prefix")
    words = words.parse_args()
    if words.pkg_config:
        print(pkg_config("..", os.path.relpath("include", pathlib.Path(words.pkg_config) / "pkgconfig")), end="")
        return
    into = words.into.resolve()
    archive, shared, numbered = into / "libcc.a", into / "libcc.so", into / ("libcc.so." + version())
    libraries = (archive, numbered, shared)
    if not words.own and all(is_foreign(library) for library in libraries):
        print("%s and %s were not built here, and are taken as they are" % (archive, shared))
        write_pkg_config(into)
        return
    compiler = next(filter(shutil.which, COMPILERS), None) or stop("no C compiler is here (%s)" % ", ".join(COMPILERS))
    shim, made_of = kit() / "c" / "liblibc_c.a", library_sum()
    if all(is_of(library, made_of) for library in libraries):
        print("%s and %s are of this text" % (archive, shared))
        return
    with stamped("cc_c"):
        prove(CRATE)
    into.mkdir(parents=True, exist_ok=True)
    # Notes first: no library that breaks off looks as if it was copied there.
    for library in libraries:
        note_of(library).write_text("unfinished\n")
    merged(archive, [CRATE / "out" / "libcc_c.a", shim])
    link(compiler, archive, numbered)
    # A copy and no link: the gate takes no links in the tree.
    shared.unlink(missing_ok=True)
    shutil.copyfile(numbered, shared)
    write_pkg_config(into)
    if library_sum() == made_of:
        for library in libraries:
            write_note(library, made_of)
    print("%s, %s and %s" % (archive, shared, into / "cc.pc"))


if __name__ == "__main__":
    main()

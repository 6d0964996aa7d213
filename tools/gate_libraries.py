"""The libraries that the gate built, so that nobody proves them once more.

`rt ci` leaves its libraries without the stamps by which `rt lib` and `rt must-fail` know of which text a library is.
Right after it, `note` writes down the stamp of each, and when the library was written. `stamps` gives the stamps of
those that are still the same, of the text that now stands there.
"""
import contextlib
import functools
import importlib.machinery
import importlib.util
import json
import os
import pathlib
import shutil
import sys

ROOT = pathlib.Path(__file__).resolve().parent.parent
NOTE = ROOT / "build" / "gate.libraries"


def kit():
    """The folder of the Rattle kit."""
    rt = shutil.which("rt") or sys.exit("rt is missing: install the Rattle kit and put its bin/ on the PATH")
    return pathlib.Path(rt).resolve().parent.parent


@functools.cache
def rt_crates():
    """The crates as rt's own library knows them, by name. Each stamp is made once."""
    loader = importlib.machinery.SourceFileLoader("rtlib", str(kit() / "bin" / "rtlib.py"))
    rtlib = importlib.util.module_from_spec(importlib.util.spec_from_loader("rtlib", loader))
    sys.modules["rtlib"] = rtlib
    loader.exec_module(rtlib)
    rtlib.Crate.stamp = functools.cache(rtlib.Crate.stamp)
    return {crate.name: crate for crate in rtlib.crates_below(str(ROOT))}


def room_of(crate):
    """The folder of a crate's library and its stamp."""
    return pathlib.Path(crate.folder) / "out" / "rlib"


def state(crate):
    """The stamp of a crate, how many files its library has, and when the last of them was written."""
    walked = os.walk(room_of(crate) / (crate.name + ".rlib"))
    times = [os.stat(os.path.join(folder, name)).st_mtime_ns for folder, _, names in walked for name in names]
    return [crate.stamp(), len(times), max(times, default=0)]


def note():
    """Writes down the libraries of the gate, which has just passed."""
    states = {name: state(crate) for name, crate in rt_crates().items()}
    NOTE.parent.mkdir(exist_ok=True)
    NOTE.write_text(json.dumps({name: it for name, it in states.items() if it[1]}, indent=0))


def stamps(names):
    """The stamp of each of these crates whose library is that of the gate, and has none."""
    try:
        noted = json.loads(NOTE.read_text())
    except (OSError, ValueError):
        return {}
    crates = rt_crates()
    bare = [it for it in names if it in noted and not (room_of(crates[it]) / "stamp").exists()]
    return {it: noted[it][0] for it in bare if noted[it] == state(crates[it])}


@contextlib.contextmanager
def stamped(name):
    """The gate's libraries that a crate stands on have their stamps meanwhile."""
    crates = rt_crates()
    below = stamps([it.name for it in crates[name].below()])
    files = {room_of(crates[it]) / "stamp": stamp for it, stamp in below.items()}
    try:
        for file, stamp in files.items():
            file.write_text(stamp)
        yield
    finally:
        for file in files:
            file.unlink(missing_ok=True)

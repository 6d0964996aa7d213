#!/usr/bin/env python3
"""Tries the library for C: its callers, under sanitizers, with allocations refused, and with random pages.

usage: tools/try_embed.py [--build FOLDER] [--program PROGRAM] [--pages N] [--seed S] [--gate]

`make lib` has to have left libcc.a and libcc.so in FOLDER (build/). Callers in C, C++, Python and Rust play the page
of examples/embed, and their pictures have to equal the stored ones (examples/embed/*.png); tools/data/rules.c tries
what the header says of empty handles, errors, null pointers and buffers. Then N random pages (60) are played through the library and,
as scripts of the same effects, through PROGRAM (crates/cc_player/out/cc_player), and each picture is compared. What is
not installed (a second compiler, cargo, SDL2) is skipped with a line that says so. It ends with 1 where anything
differs.

--gate is for the gate's second half: the library is built first (tools/lib.py), and one caller in each language is
tried, with fewer pages and without sanitizers.
"""
import argparse
import json
import os
import pathlib
import random
import re
import shutil
import subprocess
import sys
import tempfile

sys.dont_write_bytecode = True
from built import PROVED
from lib import COMPILERS
from png_chunks import picture_of
from script_cost import shot_of

ROOT = pathlib.Path(__file__).resolve().parent.parent
EXAMPLES, CLIENTS = ROOT / "examples" / "embed", ROOT / "clients"
FLAGS = ["-Wall", "-Wextra", "-Wpedantic", "-Werror", "-I", ROOT / "include"]
SANITIZERS = ["-g", "-fsanitize=address,undefined", "-fno-sanitize-recover=all"]
PICTURES = ["built", "scrolled", "end", "changed", "rebuilt"]


class Fault(Exception):
    """Something differs, or ended otherwise than it has to."""


def run(*words, **more):
    done = subprocess.run([str(w) for w in words], capture_output=True, **more)
    if done.returncode:
        said = (done.stdout + done.stderr).decode(errors="replace")[-2000:]
        raise Fault("%s: status %d\n%s" % (" ".join(map(str, words)), done.returncode, said))
    return done.stdout


# ---- pictures

def ppm(data):
    """Width, height and pixels of a raw portable pixmap, with which the data begins."""
    head = re.match(rb"P6\s(\d+)\s(\d+)\s255\n", data)
    if not head:
        raise Fault("no picture, but %r" % data[:40])
    width, height = int(head[1]), int(head[2])
    return width, height, data[head.end():head.end() + 3 * width * height]


def is_stored(data, name):
    if ppm(data) != picture_of((EXAMPLES / (name + ".png")).read_bytes()):
        raise Fault("the picture %s is not that of examples/embed/%s.png" % (name, name))


def are_stored(folder):
    for name in PICTURES:
        is_stored((folder / (name + ".ppm")).read_bytes(), name)
    is_stored((folder / "again.ppm").read_bytes(), "scrolled")


# ---- callers

def compiled(compiler, source, into, build, *more):
    language = ["-x", "c++", "-std=c++11"] if compiler.endswith("++") else ["-std=c11"]
    run(compiler, *language, *FLAGS, *more, source, "-x", "none", build / "libcc.a", "-o", into)


def in_c(compiler, build, room, *more):
    compiled(compiler, EXAMPLES / "demo.c", room / "demo", build, *more)
    told = run(room / "demo", room)
    if told != (EXAMPLES / "demo.txt").read_bytes():
        raise Fault("demo of %s tells otherwise than examples/embed/demo.txt:\n%s" % (compiler, told.decode()))
    are_stored(room)


def the_first(compiler, build, room):
    compiled(compiler, EXAMPLES / "first.c", room / "first", build)
    is_stored(run(room / "first"), "first")


# How a program of the first version of the interface began.
OLD_PROGRAM = """
#include "cc.h"
int main(void) {
  cc *page;
  return cc_new(160, 120, 64, 0xffffffff, 1 << 20, &page) != CC_DONE;
}
"""


def an_old_program(compiler, room):
    """A program of another version of the interface is told so by the compiler."""
    (room / "old.c").write_text(OLD_PROGRAM)
    done = subprocess.run([compiler, "-std=c11", "-fsyntax-only", "-I", ROOT / "include", room / "old.c"], capture_output=True, text=True)
    if not done.returncode or "cc" not in done.stderr:
        raise Fault("%s takes a program of version 1 of the interface" % compiler)
    return "refused by " + compiler


def the_rules(compiler, build, room, *more):
    compiled(compiler, ROOT / "tools" / "data" / "rules.c", room / "rules", build, *more)
    run(room / "rules")
    return "as the header says"


def refused(compiler, build, room, *more):
    wrap = ["-Wl,--wrap=malloc", "-Wl,--wrap=realloc"]
    compiled(compiler, ROOT / "tools" / "data" / "refuse.c", room / "refuse", build, *more, *wrap)
    return run(room / "refuse").decode().strip()


def kept(compiler, build, room):
    compiled(compiler, ROOT / "tools" / "data" / "kept.c", room / "kept", build, "-Wl,--wrap=malloc", "-Wl,--wrap=realloc")
    run(room / "kept")
    return "as the budget says"


def in_python(build, room):
    here = dict(os.environ, CC_LIBRARY=str(build / "libcc.so"), PYTHONDONTWRITEBYTECODE="1")
    run(sys.executable, CLIENTS / "python" / "demo.py", room, env=here)
    are_stored(room)


# Each call that C forbids is an exception here, and the compositor of another thread stays whole.
MISUSED = """
import threading
import cc

def refuses(*calls):
    for call in calls:
        try:
            call()
        except RuntimeError:
            continue
        raise SystemExit(f"call {calls.index(call)} is taken")

page = cc.Compositor(16, 16)
faults = []
calls = page.draw, page.size, page.close
thread = threading.Thread(target=lambda: (refuses(*calls), faults.append(None)))
thread.start()
thread.join()
page.commit()
if not faults or page.draw() != (0, 16):
    raise SystemExit("another thread is not refused")
page.close()
page.close()
with cc.Compositor(16, 16) as other:
    other.draw()
for closed in page, other:
    refuses(closed.draw, closed.size, closed.pixels, closed.damage, closed.commit, lambda: closed.is_changed,
            lambda: closed.offset(1), lambda: closed.set_view(16, 16, 16))
"""


def misused_in_python(build, room):
    run(sys.executable, "-c", MISUSED, env=dict(os.environ, CC_LIBRARY=str(build / "libcc.so"), PYTHONDONTWRITEBYTECODE="1",
                                                PYTHONPATH=str(CLIENTS / "python")))
    return "each is an exception"


def in_rust(build, room):
    words = ["cargo", "run", "--quiet", "--offline", "--release", "--example", "demo"]
    here = dict(os.environ, CC_LIB=str(build))
    run(*words, "--target-dir", room / "target", "--", room, cwd=CLIENTS / "rust", env=here)
    are_stored(room)


def in_a_window(build, room):
    flags = run("sdl2-config", "--cflags", "--libs").decode().split()
    run("gcc", "-std=gnu11", *FLAGS, EXAMPLES / "window.c", build / "libcc.a", *flags, "-o", room / "window")
    nowhere = dict(os.environ, SDL_VIDEODRIVER="dummy", SDL_RENDER_DRIVER="software")
    run(room / "window", "40", env=nowhere)


# ---- random pages, against the program

KINDS = ["transform", "clip", "effect", "scroller", "layer", "item", "item", "item", "bitmap", "move", "fade", "remove",
         "view"]


def exchanged(pixels):
    """The same pixels with red and blue exchanged."""
    found = bytearray(pixels)
    found[0::4], found[2::4] = pixels[2::4], pixels[0::4]
    return bytes(found)


class Page:
    """Random commands, scrolls, wheels and commits, played through the library, and as commands of a script."""

    def __init__(self, cc, library, seed):
        self.cc, self.random = cc, random.Random(seed)
        r = self.random
        self.view = (r.randint(1, 48), r.randint(1, 48), r.choice((16, 17, 32)))
        self.page = cc.Compositor(*self.view, background=0x204060FF, library=library)
        self.main, self.active, self.counts = [], [], {}

    def fresh(self, family):
        self.counts[family] = self.counts.get(family, 0) + 1
        return self.counts[family]

    def some(self, family):
        return self.random.randint(0, self.counts.get(family, 0))

    def colour(self):
        alpha = self.random.choice((0, 90, 200, 255, 255))
        return "".join("%02x" % self.random.randint(0, alpha) for _ in range(3)) + "%02x" % alpha

    def rect(self):
        r = self.random
        return [r.randint(-9, 40), r.randint(-9, 40), r.randint(1, 40), r.randint(1, 40)]

    def command(self):
        """A command that mostly is taken; the library says whether it was."""
        r, page = self.random, self.page
        kind = r.choice(KINDS)
        x, y = r.randint(-30, 30), r.randint(-30, 30)
        if kind == "transform":
            id = self.fresh("transforms")
            parent, scroller = self.random.randrange(id), self.some("scrollers")
            page.add_transform(id, parent, x, y, scroller)
            return {"op": "add_transform", "id": id, "parent": parent, "x": x, "y": y, "scroller": scroller}
        if kind == "clip":
            id, transform, rect = self.fresh("clips"), self.some("transforms"), self.rect()
            page.add_clip(id, rect, 0, transform)
            return {"op": "add_clip", "id": id, "parent": 0, "transform": transform, "rect": rect}
        if kind == "effect":
            id, opacity = self.fresh("effects"), r.choice((0, 80, 200, 255))
            page.add_effect(id, opacity)
            return {"op": "add_effect", "id": id, "parent": 0, "opacity": opacity}
        if kind == "scroller":
            id, most = self.fresh("scrollers"), (r.randint(0, 60), r.randint(0, 60))
            page.add_scroller(id, *most)
            return {"op": "add_scroller", "id": id, "parent": 0, "max_x": most[0], "max_y": most[1]}
        if kind == "layer":
            id = self.fresh("layers")
            transform, clip, effect = self.some("transforms"), self.some("clips"), self.some("effects")
            w, h = r.randint(1, 70), r.randint(1, 70)
            page.add_layer(id, 0, transform, clip, effect, w, h)
            return {"op": "add_layer", "id": id, "at": 0, "transform": transform, "clip": clip, "effect": effect,
                    "w": w, "h": h, "colour": "00000000"}
        layer = self.some("layers")
        if kind == "item":
            rect, colour = self.rect(), self.colour()
            page.insert_rect(layer, 0, rect, int(colour, 16))
            return {"op": "insert_item", "layer": layer, "at": 0, "rect": rect, "colour": colour}
        if kind == "bitmap":
            rect = self.rect()[:2] + [r.randint(1, 5), r.randint(1, 5)]
            pixels = "".join(self.colour() for _ in range(rect[2] * rect[3]))
            page.insert_bitmap(layer, 0, rect, bytes.fromhex(pixels))
            return {"op": "insert_item", "layer": layer, "at": 0, "rect": rect, "pixels": pixels}
        if kind == "move":
            id = self.some("transforms")
            page.set_transform(id, x, y)
            return {"op": "set_transform", "id": id, "x": x, "y": y}
        if kind == "fade":
            id, opacity = self.some("effects"), r.choice((0, 40, 128, 255))
            page.set_opacity(id, opacity)
            return {"op": "set_opacity", "id": id, "opacity": opacity}
        if kind == "remove":
            page.remove_item(layer, 0)
            return {"op": "remove_item", "layer": layer, "at": 0}
        view = (r.randint(1, 48), r.randint(1, 48), r.choice((16, 17, 32)))
        page.set_view(*view)
        return {"op": "set_view", "w": view[0], "h": view[1], "tile": view[2]}

    def edit(self):
        try:
            self.main.append(self.command())
        except self.cc.Refused:
            pass

    def scroll(self):
        """A scroll of the active page: the main page takes what was taken, where it has the scroller."""
        id = self.random.randint(1, 4)
        try:
            by = self.page.scroll(id, self.random.randint(-40, 40), self.random.randint(-40, 40))
        except ValueError:
            return
        self.moved(id, by)

    def moved(self, id, by):
        """Both pages took this move, the main page where it has the scroller."""
        move = {"op": "scroll_by", "id": id, "dx": by[0], "dy": by[1]}
        self.active.append(move)
        self.main.append(move)

    def wheel(self):
        """A wheel on the active page: what its scrollers moved by and what is left are what was asked, on each axis."""
        r, ids = self.random, range(1, self.counts.get("scrollers", 0) + 1)
        before = [self.page.offset(id) for id in ids]
        asked = r.randint(-40, 40), r.randint(-40, 40)
        left = self.page.wheel(r.randint(0, 47), r.randint(0, 47), *asked)
        for id, (x, y) in zip(ids, before):
            now_x, now_y = self.page.offset(id)
            if (now_x, now_y) != (x, y):
                self.moved(id, (now_x - x, now_y - y))
                left = left[0] + now_x - x, left[1] + now_y - y
        if left != asked:
            raise Fault("of a wheel of %s, %s is told" % (asked, left))

    def commit(self):
        self.page.commit()
        self.active = list(self.main)

    def script(self):
        commands = self.active or [{"op": "add_effect", "id": 60000, "parent": 0, "opacity": 255}]
        page = {"version": 2, "viewport": self.view[:2], "tile": self.view[2], "background": "204060",
                "budget": 4096, "raster_per_frame": 4096, "soon": 0, "eventually": 0, "priority": "same", "main": [commands]}
        return json.dumps(shot_of(page)).encode()

    def picture(self):
        """Draws, and looks that the frame stays outside of the rows and of the rects that are told."""
        size, old = self.page.size(), self.page.pixels()
        (top, bottom), rects = self.page.draw(), self.page.damage()
        (w, h), new = self.page.size(), self.page.pixels()
        if not top <= bottom <= h:
            raise Fault("rows %d to %d of %d are told" % (top, bottom, h))
        for at in range(w * h if size == (w, h) else 0):
            if old[4 * at:4 * at + 4] == new[4 * at:4 * at + 4]:
                continue
            y, x = divmod(at, w)
            if not (top <= y < bottom and any(l <= x < l + a and t <= y < t + b for l, t, a, b in rects)):
                raise Fault("pixel %d, %d changed outside of the damage" % (x, y))
        if self.page.is_changed or self.page.pixels(self.cc.BGRA) != exchanged(new):
            raise Fault("after a draw a frame is taken for changed, or its bytes are not exchanged")
        return w, h, bytes(byte for at, byte in enumerate(new) if at % 4 < 3)


def random_pages(build, program, pages, seed):
    sys.path.insert(0, str(CLIENTS / "python"))
    import cc
    library, drawn = cc.load(str(build / "libcc.so")), 0
    for number in range(seed, seed + pages):
        one = Page(cc, library, number)
        with one.page:
            kinds = (one.edit, one.scroll, one.wheel, one.commit, one.picture)
            for _ in range(one.random.randint(10, 60)):
                kind = one.random.choices(kinds, (20, 3, 3, 3, 2))[0]
                kind()
            one.commit()
            one.scroll()
            mine = one.picture()
            recording = run(program, "step", "1", input=one.script())
            if mine != ppm(recording[recording.rfind(b"P6\n"):]):
                raise Fault("the picture of random page %d is not that of the program" % number)
            drawn += 1
    return "%d random pages are those of the program" % drawn


def tries(build, program, pages, seed):
    """What is tried, each with what it needs: first what takes seconds."""
    compiler = next(filter(shutil.which, COMPILERS), COMPILERS[0])
    quick = [(compiler, "demo by " + compiler, lambda room: in_c(compiler, build, room)),
             (compiler, "first.c", lambda room: the_first(compiler, build, room)),
             (compiler, "empty handles, errors, null pointers and buffers", lambda room: the_rules(compiler, build, room)),
             (compiler, "a program of version 1", lambda room: an_old_program(compiler, room)),
             (sys.executable, "demo in Python", lambda room: in_python(build, room)),
             (sys.executable, "use after the end, and by another thread, in Python", lambda room: misused_in_python(build, room)),
             ("cargo", "demo in Rust", lambda room: in_rust(build, room)),
             (str(program), "random pages", lambda room: random_pages(build, program, pages, seed))]
    slow = [(other, "demo by " + other, lambda room, c=other: in_c(c, build, room))
            for other in ("gcc", "clang", "g++") if other != compiler]
    slow += [(other, "demo by %s under ASan and UBSan" % other, lambda room, c=other: in_c(c, build, room, *SANITIZERS))
             for other in ("gcc", "clang")]
    slow += [("gcc", "empty handles, errors, null pointers and buffers under ASan and UBSan",
              lambda room: the_rules("gcc", build, room, *SANITIZERS)),
             ("gcc", "refused allocations", lambda room: refused("gcc", build, room)),
             ("gcc", "refused allocations under ASan and UBSan", lambda room: refused("gcc", build, room, *SANITIZERS)),
             ("gcc", "tiles that are kept", lambda room: kept("gcc", build, room)),
             ("sdl2-config", "a window", lambda room: in_a_window(build, room))]
    return quick, slow


def main():
    words = argparse.ArgumentParser(description=__doc__.splitlines()[0])
    words.add_argument("--build", type=pathlib.Path, default=ROOT / "build")
    words.add_argument("--program", type=pathlib.Path, default=PROVED)
    words.add_argument("--pages", type=int)
    words.add_argument("--seed", type=int, default=1)
    words.add_argument("--gate", action="store_true", help="build the library, and try what takes seconds")
    asked = words.parse_args()
    build, program, faults = asked.build.resolve(), asked.program.resolve(), 0
    if asked.gate and not any(map(shutil.which, COMPILERS)):
        print("skipped: the library for C (no %s is here)" % ", ".join(COMPILERS))
        return
    if asked.gate:
        subprocess.run([sys.executable, ROOT / "tools" / "lib.py", "--own", "--into", build], check=True)
    if not (build / "libcc.a").exists():
        sys.exit("try_embed: %s has no libcc.a: make lib" % build)
    quick, slow = tries(build, program, asked.pages or (20 if asked.gate else 60), asked.seed)
    for needed, name, trial in quick if asked.gate else quick + slow:
        if not shutil.which(needed):
            print("skipped: %s (%s is not here)" % (name, needed))
            continue
        with tempfile.TemporaryDirectory() as room:
            try:
                print("%s: %s" % (name, trial(pathlib.Path(room)) or "as stored"), flush=True)
            except Fault as fault:
                faults += 1
                print("FAULT: %s: %s" % (name, fault), flush=True)
    sys.exit(faults > 0)


if __name__ == "__main__":
    main()

#!/usr/bin/env python3
"""Says why `cc_player check` refuses a recording: what stands at its first wrong event, and what was wanted.

usage: judge.py RECORDING [LINE] [--program PROGRAM]

LINE is what check wrote, as 'cc: event 133 is wrong'; without it PROGRAM is asked (build/cc_player, or the one that
the gate built). Where the image of a draw differs, the first pixel is told with both colours. Where an event may not
come, the rule that it breaks is told as far as the recording itself shows it, and what comes there in lockstep, where
the events before are those of lockstep. The status is 0 where the recording is legal, else 1.

The rules are those of crates/model_states/specs (`Kinds`: in which state an event may come) and of
crates/model_history/specs (`Due`: what its line says); docs/DEFINITIONS.md has them in words. Pictures are painted
from the definition (painting.py). It needs Python alone.
"""
import argparse
import itertools
import pathlib
import re
import subprocess
import sys

sys.dont_write_bytecode = True
import painting
import recording
from built import PLAYER, PROVED

LINE = re.compile(r"cc: event (\d+) is wrong")
MOST_WORKERS = 16
# What is left where an event breaks none of the rules that are looked at here.
UNLOOKED = {
    "ready": "a main frame without commands is ready only where what it was told goes past a range of its page",
    "activate": "a visible tile of that frame is not made, or the moves are not those that bring scrollers into their ranges",
    "wheel": "another layer lies under its point, or its scrollers take something else",
    "start": "another tile comes first, or there is no room for this one, or others are given up for it",
    "draw": "the missing tiles are not those: all that are visible and not made, by layer, row and column",
    "settle": "a tile is left that may be made",
}


class Course:
    """How far a run is after some of its events: the state of impl frame and main frame, the inputs that are used,
    what each worker holds."""

    def __init__(self, script):
        self.script, self.shown = script, painting.Shown(script)
        self.begun, self.is_drawn, self.has_sent = None, False, False
        self.main_state, self.sent, self.ended = "idle", 0, set()
        self.pending, self.active, self.used, self.unsent = None, None, 0, {}
        self.held, self.made = {}, set()

    def next_input(self):
        """The name of the next input, or None."""
        inputs = self.script["inputs"]
        return inputs[self.used]["op"] if self.used < len(inputs) else None

    def enter(self, line):
        """Follows an event that may come."""
        word, *fields = line.split(" ")
        getattr(self, f"enter_{word}", lambda *fields: None)(*fields)
        self.used += word in ("scroll", "wheel", "await", "settle") or word == "begin" and fields[0] != "-"
        self.shown.enter(line)
        self.note_moves(word, fields)

    def enter_begin(self, given):
        self.begun, self.is_drawn, self.has_sent = given, False, False

    def enter_send(self, frame, *moves):
        self.main_state, self.has_sent, self.sent, self.unsent = "sent", True, self.sent + 1, {}

    def enter_ready(self, frame):
        self.main_state = "ready"

    def enter_abort(self, frame):
        self.main_state = "idle"
        self.ended.add(int(frame))

    def enter_commit(self, frame):
        self.main_state, self.pending = "idle", int(frame)
        self.ended.add(int(frame))

    def enter_activate(self, frame, *moves):
        self.active, self.pending = int(frame), None

    def enter_start(self, worker, key, *given_up):
        self.held[worker] = key
        self.made.difference_update(given_up)

    def enter_done(self, worker, key):
        self.held.pop(worker, None)
        self.made.add(key)

    def enter_draw(self, given, *keys):
        self.is_drawn = True

    enter_skip = enter_draw

    def enter_nodraw(self):
        self.is_drawn = True

    def enter_finish(self):
        self.begun, self.is_drawn, self.has_sent = None, False, False

    def note_moves(self, word, fields):
        """Adds up what the next send tells the main side."""
        moves = painting.moves_of(fields[3:]) if word == "wheel" else painting.moves_of(fields[1:]) if word == "activate" else []
        if word == "scroll" and fields[1] != "0,0":
            moves = [(self.script["inputs"][int(fields[0])]["scroller"], *map(int, fields[1].split(",")))]
        for scroller, x, y in moves:
            before = self.unsent.get(scroller, (0, 0))
            self.unsent[scroller] = (before[0] + x, before[1] + y)

    # Why an event may not come

    def refusal(self, line):
        """The rule that an event breaks, or None where what is known here allows it."""
        word, *fields = line.split(" ")
        return next(filter(None, getattr(self, f"wrong_{word}")(*fields)), None)

    def wrong_input(self, given, *ops):
        """An event that uses an input: the next one, of its kind."""
        inputs = self.script["inputs"]
        if self.used >= len(inputs):
            yield f"all {len(inputs)} inputs are used"
        elif int(given) != self.used:
            yield f"input {self.used} is next, not {given}: inputs are used in their order"
        elif self.next_input() not in ops:
            yield f"input {given} is {self.next_input()}"

    def in_no_frame(self):
        if self.begun is not None:
            yield f"the impl frame of `begin {self.begun}` is open: a finish comes first"

    def before_draw(self):
        if self.is_drawn:
            yield f"the impl frame of `begin {self.begun}` has drawn, or has drawn nothing: its finish comes first"

    def wrong_begin(self, given):
        yield from self.in_no_frame()
        if given != "-":
            yield from self.wrong_input(given, "draw")
            return
        if self.main_state != "idle":
            yield f"main frame {self.sent - 1} is in flight"
        if self.next_input() == "draw":
            yield f"the next input, {self.used}, is a draw: its impl frame is `begin {self.used}`"
        if self.sent == len(self.script["main"]):
            yield "no main frame is left"

    def wrong_send(self, frame, *moves):
        if self.begun is None:
            yield "no impl frame is open: a send comes after its begin"
        yield from self.before_draw()
        if self.main_state != "idle":
            yield f"main frame {self.sent - 1} is in flight"
        if self.has_sent:
            yield "this impl frame has sent a main frame already"
        if self.sent == len(self.script["main"]):
            yield "no main frame is left"
        if int(frame) != self.sent:
            yield f"main frame {self.sent} is next"
        told = [f"{scroller}:{x},{y}" for scroller, (x, y) in sorted(self.unsent.items()) if (x, y) != (0, 0)]
        if [it for it in moves if not it.endswith(":0,0")] != told:
            yield f"since the last send the scrollers moved by {' '.join(told) or 'nothing'}"

    def wrong_answer(self, frame):
        if self.main_state != "sent":
            yield "no main frame was sent that is unanswered"
        if int(frame) != self.sent - 1:
            yield f"main frame {self.sent - 1} was sent last"

    def wrong_ready(self, frame):
        yield from self.wrong_answer(frame)
        if not self.script["main"][int(frame)]:
            yield UNLOOKED["ready"]

    def wrong_abort(self, frame):
        yield from self.wrong_answer(frame)
        if self.script["main"][int(frame)]:
            yield f"main frame {frame} has commands: it is ready, not aborted"

    def wrong_commit(self, frame):
        yield from self.before_draw()
        if self.main_state != "ready":
            yield "no main frame is ready"
        if self.pending is not None:
            yield f"main frame {self.pending} is pending: it is activated first"
        if int(frame) != self.sent - 1:
            yield f"main frame {self.sent - 1} was sent last"

    def wrong_activate(self, frame, *moves):
        yield from self.before_draw()
        if self.pending is None:
            yield "no commit is pending"
        elif int(frame) != self.pending:
            yield f"main frame {self.pending} is pending"
        yield UNLOOKED["activate"]

    def wrong_scroll(self, given, amounts):
        yield from self.before_draw()
        yield from self.wrong_input(given, "scroll")
        asked = self.script["inputs"][self.used] if self.next_input() == "scroll" else None
        wanted = asked and "%d,%d" % self.shown.accepted(asked["scroller"], asked["dx"], asked["dy"])
        if asked and wanted != amounts:
            yield f"the range of scroller {asked['scroller']} allows {wanted}"

    def wrong_wheel(self, given, *rest):
        yield from self.before_draw()
        yield from self.wrong_input(given, "wheel")
        yield UNLOOKED["wheel"]

    def wrong_start(self, worker, key, *given_up):
        if int(worker) >= MOST_WORKERS:
            yield f"there are workers 0 to {MOST_WORKERS - 1}"
        if worker in self.held:
            yield f"worker {worker} holds tile {self.held[worker]}: its done comes first"
        if key in self.held.values():
            yield f"tile {key} is being made"
        if key in self.made:
            yield f"tile {key} is made already"
        gone = next((it for it in given_up if it not in self.made), None)
        if gone:
            yield f"tile {gone} is given up for it, and is not there"
        yield UNLOOKED["start"]

    def wrong_done(self, worker, key):
        if worker not in self.held:
            yield f"worker {worker} holds no tile"
        elif self.held[worker] != key:
            yield f"worker {worker} holds tile {self.held[worker]}"

    def wrong_drawing(self, given):
        """A draw or a skip."""
        if self.begun is None:
            yield "no impl frame is open"
        yield from self.before_draw()
        if self.begun == "-":
            yield "the impl frame was begun for a main frame alone: `nodraw` comes, not a picture"
        if self.begun != given:
            yield f"the impl frame was begun for input {self.begun}"

    def wrong_draw(self, given, *keys):
        yield from self.wrong_drawing(given)
        if self.active is None:
            yield "no main frame is active yet: the draw is skipped"
        made = next((key for key in keys if key in self.made), None)
        if made:
            yield f"tile {made} is made, so it is not missing"
        yield UNLOOKED["draw"]

    def wrong_skip(self, given):
        yield from self.wrong_drawing(given)
        if self.active is not None:
            yield f"main frame {self.active} is active, so the draw has a picture"

    def wrong_nodraw(self):
        if self.begun != "-":
            yield "no impl frame is open that was begun for a main frame alone"
        yield from self.before_draw()
        if not self.has_sent:
            yield "the impl frame was begun for a main frame, and none was sent"

    def wrong_finish(self):
        if not self.is_drawn:
            yield "no impl frame is open that has drawn, skipped or drawn nothing"

    def wrong_await(self, given):
        yield from self.in_no_frame()
        yield from self.wrong_input(given, "await")
        frame = self.script["inputs"][self.used]["frame"] if self.next_input() == "await" else 0
        if frame not in self.ended:
            yield f"main frame {frame} has not ended"
        if self.pending is not None and self.pending <= frame:
            yield f"main frame {self.pending} is pending"

    def wrong_settle(self, given):
        yield from self.in_no_frame()
        yield from self.wrong_input(given, "settle")
        if self.pending is not None:
            yield f"main frame {self.pending} is pending"
        if self.held:
            yield "a worker holds a tile"
        yield UNLOOKED["settle"]

    def wrong_end(self):
        yield from self.in_no_frame()
        if self.used < len(self.script["inputs"]):
            yield f"input {self.used} is not used yet"
        if self.sent < len(self.script["main"]):
            yield f"main frame {self.sent} is left"
        if self.main_state != "idle" or self.pending is not None:
            yield "a main frame is in flight or pending"
        if self.held:
            yield "a worker holds a tile"


# The image of a draw

def image_difference(played, shown, event):
    """Where an image differs from the painting, in words; None where it does not."""
    width, pixels = event.image.width, played.pixels(event.image)
    scene = shown.scene(event.line.split(" ")[2:])
    for y, row in enumerate(scene.rows()):
        stands = pixels[3 * width * y:3 * width * (y + 1)]
        if stands != row:
            x = next(at for at in range(width) if stands[3 * at:3 * at + 3] != row[3 * at:3 * at + 3])
            return (f"the image differs at {x}, {y}: stands {stands[3 * x:3 * x + 3].hex()}, wanted {row[3 * x:3 * x + 3].hex()} "
                    f"({topmost_told(scene, x, y)})")
    return None


def topmost_told(scene, x, y):
    """Which layer is the uppermost that shows something at a pixel."""
    layer = scene.topmost(x, y)
    return "no layer is there, but the background" if layer is None else f"the uppermost layer there is {layer}"


# Asking the program

def program_of(words):
    """The program that is asked, or None."""
    given = [words.program] if words.program else [PLAYER, PROVED]
    return next((str(it) for it in given if pathlib.Path(it).is_file()), None)


def asked_line(words):
    """What check says of the recording."""
    program = program_of(words)
    if not program:
        raise recording.Trouble("give the program's line, or the program by --program: it is not in build/")
    with open(words.recording, "rb") as file:
        return subprocess.run([program, "check"], stdin=file, capture_output=True).stderr.decode().strip()


def lockstep_line(words, played, index):
    """The line of this event in lockstep, where those before are the recording's; None where they are not."""
    program = program_of(words)
    if not program:
        return None
    script = bytes(played.data[4:played.first - 1])
    ran = subprocess.run([program, "step", "1"], input=script, capture_output=True)
    lines = itertools.zip_longest(recording.Recording(ran.stdout).events(), itertools.islice(played.events(), index + 1))
    for own, other in lines:
        if own is None or other is None:
            return None
        if other.index == index:
            return own.line
        if own.line != other.line:
            return None
    return None


def verdict(words, index):
    """The lines that say what is wrong at an event."""
    played = recording.Recording(recording.opened(words.recording))
    course, picture = Course(played.script), 0
    for event in played.events():
        if event.index == index:
            break
        course.enter(event.line)
        picture += bool(event.image)
    else:
        raise recording.Trouble(f"the recording has no event {index}")
    yield f"{words.recording}: event {index}{f', picture {picture}' if event.image else ''}: {event.line[:120]}"
    in_lockstep = lockstep_line(words, played, index)
    difference = image_difference(played, course.shown, event) if event.image and in_lockstep in (None, event.line) else None
    yield f"  {'wrong:':9} {difference or 'the event may not come: ' + (course.refusal(event.line) or 'no rule that is looked at here')}"
    if in_lockstep and in_lockstep != event.line:
        yield f"  {'wanted:':9} {in_lockstep[:120]} (in lockstep; a run by threads may do otherwise)"


def main():
    words = argparse.ArgumentParser(description=__doc__, formatter_class=argparse.RawDescriptionHelpFormatter)
    words.add_argument("recording")
    words.add_argument("line", nargs="?", default="")
    words.add_argument("--program")
    words = words.parse_args()
    try:
        line = words.line.strip() or asked_line(words)
        found = LINE.fullmatch(line)
        if not line:
            print(f"{words.recording}: legal")
        elif found:
            print("\n".join(verdict(words, int(found[1]))))
        else:
            print(f"{words.recording}: {line}: tools/explain.py tells more")
    except (recording.Bad, recording.Trouble, OSError) as fault:
        sys.exit(f"judge: {fault}")
    return 1 if line else 0


if __name__ == "__main__":
    sys.exit(main())

#!/usr/bin/env python3
"""Reads a recording: its pictures, a film, its lines, its figures, a timeline.

usage: recording.py pictures RECORDING PREFIX      PREFIX-n.ppm and PREFIX-n.png for each picture n, from 0
       recording.py film RECORDING FILE [--delay MS] [--scale N]
                                                   one animated PNG of all pictures; FILE ending in .mkv, .mp4 or
                                                   .webm: a video, made by ffmpeg, which has to be there
       recording.py events RECORDING [--number]    the lines of the events, without the images
       recording.py draws RECORDING                for each draw its input, its picture and the main frame that it shows;
                                                   at the end the main frames that no picture shows
       recording.py missing RECORDING              for each picture the missing tiles: layer, how many, and why
       recording.py stats RECORDING                events by kind, draws without a picture, missing tiles, bytes
       recording.py trace RECORDING                a timeline in the trace event format, for browsers' viewers

A recording is what cc_player writes; docs/FORMAT.md describes it. RECORDING may be - for standard input. A file
that is no recording is told with the offset of its first bad part, and the status is 1. Whether a script's line is
one that a page can take, and whether the events are legal, is not looked at here. It needs Python alone.
"""
import argparse
import collections
import json
import mmap
import re
import shutil
import subprocess
import sys

sys.dont_write_bytecode = True
import png

NUMBER, SIGNED = r"(?:0|[1-9][0-9]*)", r"(?:0|-?[1-9][0-9]*)"
KEYS = rf"(?: {NUMBER}/{NUMBER}/{NUMBER}/{NUMBER})*"
MOVES = rf"(?: {NUMBER}:{SIGNED},{SIGNED})*"
# The form of each line, by its word.
FORMS = {
    "begin": rf"begin (?:-|{NUMBER})",
    "send": rf"send {NUMBER}{MOVES}",
    "ready": rf"ready {NUMBER}",
    "abort": rf"abort {NUMBER}",
    "commit": rf"commit {NUMBER}",
    "activate": rf"activate {NUMBER}{MOVES}",
    "scroll": rf"scroll {NUMBER} {SIGNED},{SIGNED}",
    "wheel": rf"wheel {NUMBER} {NUMBER} {SIGNED},{SIGNED}{MOVES}",
    "start": rf"start {NUMBER} {NUMBER}/{NUMBER}/{NUMBER}/{NUMBER}{KEYS}",
    "done": rf"done {NUMBER} {NUMBER}/{NUMBER}/{NUMBER}/{NUMBER}",
    "draw": rf"draw {NUMBER}{KEYS}",
    "skip": rf"skip {NUMBER}",
    "nodraw": "nodraw",
    "finish": "finish",
    "await": rf"await {NUMBER}",
    "settle": rf"settle {NUMBER}",
    "end": "end",
}
FORMS = {word: re.compile(form) for word, form in FORMS.items()}

Image = collections.namedtuple("Image", "width height at pixels_at end")
Event = collections.namedtuple("Event", "index at line image")


class Bad(Exception):
    """The first part of a recording that is not of its form, by its offset."""

    def __init__(self, place, why):
        super().__init__(f"bad recording at {place}: {why}")


class Trouble(Exception):
    """What stands in the way, in one line."""


def are_sides(values):
    """Whether values can be the sides of a picture. One below 0 would lead back to what was read before."""
    return all(type(side) is int and 0 < side <= 2048 for side in values)


def is_view(command):
    """Whether a command sets the view to a size that a picture can have."""
    return isinstance(command, dict) and command.get("op") == "set_view" and are_sides((command.get("w"), command.get("h")))


class Recording:
    """A recording's bytes with its script; the events are read one by one."""

    def __init__(self, data):
        self.data = data
        if data[:4] != b"cc1\n":
            raise Bad(0, "the line cc1 does not stand first" + ("; this looks like a script: play it first" if data[:1] == b"{" else ""))
        end = data.find(b"\n", 4)
        if end < 0:
            raise Bad(4, "the script's line has no end")
        self.script, self.first = script_of(data[4:end]), end + 1
        self.sizes = self.sizes_by_frame()

    def sizes_by_frame(self):
        """The size of the pictures that show main frame k, for each k."""
        size, sizes = tuple(self.script["viewport"]), []
        for commands in self.script["main"]:
            for command in filter(is_view, commands if isinstance(commands, list) else []):
                size = (command["w"], command["h"])
            sizes.append(size)
        return sizes

    def size_at(self, frame):
        """The size of a picture while the tree of this frame is active, or None before the first."""
        known = frame is not None and frame < len(self.sizes)
        return self.sizes[frame] if known else tuple(self.script["viewport"])

    def image_at(self, place, size):
        """The image of this size that begins at a place."""
        head = b"P6\n%d %d\n255\n" % size
        end = place + len(head) + 3 * size[0] * size[1]
        if self.data[place:place + len(head)] != head or end > len(self.data):
            return None
        return Image(size[0], size[1], place, place + len(head), end)

    def events(self):
        """Each event in order, with its image where it is a draw."""
        data, place, frame, index = self.data, self.first, None, 0
        while True:
            end = data.find(b"\n", place)
            line = data[place:end].decode("ascii", "replace") if end >= 0 else ""
            form = FORMS.get(line.split(" ", 1)[0])
            if end < 0 or not form or not form.fullmatch(line) or not are_in_range(line):
                raise Bad(place, "no event's line" if end >= 0 else "the recording ends before its end")
            image = None
            if line.startswith("draw "):
                image = self.image_at(end + 1, self.size_at(frame))
                if not image:
                    raise Bad(end + 1, "no image of %d by %d pixels after the draw" % self.size_at(frame))
            elif line.startswith("activate "):
                frame = int(line.split(" ")[1])
            yield Event(index, place, line, image)
            place, index = (image.end if image else end + 1), index + 1
            if line == "end":
                if place < len(data):
                    raise Bad(place, "bytes after the end")
                return

    def pixels(self, image):
        """Red, green and blue of each pixel, by rows."""
        return bytes(self.data[image.pixels_at:image.end])

    def images(self):
        """The images of the draws in order."""
        return (event.image for event in self.events() if event.image)


def first_fault(data):
    """What is wrong with bytes that are to be a recording, or None."""
    try:
        for _ in Recording(data).events():
            pass
    except Bad as fault:
        return str(fault)
    return None


def script_of(line):
    """The script of a recording's second line."""
    try:
        script = json.loads(line)
        again = json.dumps(script, sort_keys=True, separators=(",", ":")).encode()
        is_script = isinstance(script["main"], list) and isinstance(script["inputs"], list) and \
            are_sides(script["viewport"]) and len(script["viewport"]) == 2
    except (ValueError, TypeError, KeyError, RecursionError):
        is_script, again = False, None
    if not is_script or bytes(line) != again:
        raise Bad(4, "no canonical text of a script")
    return script


def fit(numbers, low, high):
    """Whether each of some numbers is from low to below high. Python refuses to read thousands of digits."""
    return all(len(it) <= 20 and low <= int(it) < high for it in numbers)


def are_in_range(line):
    """Whether each number of a line fits its field: 64 bits with a sign in moves, 32 in other amounts, else 32 without."""
    for field in line.split(" ")[1:]:
        scroller, _, amounts = field.rpartition(":")
        most = 2 ** (63 if scroller else 31)
        numbers = [scroller] * bool(scroller) if "," in field else field.replace("-", "0").split("/")
        if not fit(numbers, 0, 2 ** 32) or "," in field and not fit(amounts.split(","), -most, most):
            return False
    return True


def opened(name):
    """The bytes of a file, mapped where that can be."""
    if name == "-":
        return sys.stdin.buffer.read()
    try:
        with open(name, "rb") as file:
            try:
                return mmap.mmap(file.fileno(), 0, access=mmap.ACCESS_READ)
            except (ValueError, OSError):
                return file.read()
    except OSError as fault:
        raise Trouble(f"{name}: {fault.strerror}") from fault


def write_file(name, pieces):
    """Writes the pieces into a new file."""
    try:
        with open(name, "wb") as file:
            for piece in pieces:
                file.write(piece)
    except OSError as fault:
        raise Trouble(f"{name}: {fault.strerror}") from fault


# The words

def write_pictures(recording, words):
    """pictures: each picture as .ppm and as .png."""
    for number, image in enumerate(recording.images()):
        name = f"{words.prefix}-{number}"
        write_file(name + ".ppm", [bytes(recording.data[image.at:image.end])])
        write_file(name + ".png", [png.whole(image.width, image.height, recording.pixels(image))])
        print(name + ".ppm", name + ".png")


def video_command(rate, name):
    """The command by which ffmpeg makes a video of the pictures that it is handed. Sides are made even for the
    formats that want that; .mkv is without loss."""
    how = ["-c:v", "ffv1"] if name.endswith(".mkv") else ["-vf", "pad=ceil(iw/2)*2:ceil(ih/2)*2", "-pix_fmt", "yuv420p"]
    return ["ffmpeg", "-loglevel", "error", "-y", "-f", "image2pipe", "-c:v", "ppm", "-framerate", f"{rate:g}", "-i", "-", *how, name]


def write_video(recording, images, words):
    """film, as a video: the images go to ffmpeg as they stand in the recording."""
    command = video_command(1000 / words.delay, words.file)
    print(" ".join(command))
    if not shutil.which("ffmpeg"):
        raise Trouble("ffmpeg is not installed, and a video is made by it; a name that ends in .png gives an animated PNG")
    if len({image[:2] for image in images}) > 1:
        raise Trouble("the pictures have several sizes, which a video can't have; a name that ends in .png gives an animated PNG")
    with subprocess.Popen(command, stdin=subprocess.PIPE) as made:
        try:
            for image in images:
                made.stdin.write(recording.data[image.at:image.end])
            made.stdin.close()
        except BrokenPipeError:
            pass
    if made.returncode:
        raise Trouble(f"ffmpeg ended with status {made.returncode}")


def write_film(recording, words):
    """film: all pictures as an animated PNG, or a video."""
    images = list(recording.images())
    if not images:
        raise Trouble("the recording has no pictures")
    if not 1 <= words.delay <= 65535 or not 1 <= words.scale <= 16:
        raise Trouble("the delay is 1 to 65535 ms, the scale 1 to 16")
    if words.file.endswith((".mkv", ".mp4", ".webm")):
        write_video(recording, images, words)
    else:
        pictures = (png.scaled((it.width, it.height, recording.pixels(it)), words.scale) for it in images)
        sizes = [(it.width * words.scale, it.height * words.scale) for it in images]
        write_file(words.file, png.Film(sizes, words.delay).pieces(pictures))
    print(f"{words.file}: {len(images)} pictures")


def write_events(recording, words):
    """events: the lines, without the images."""
    for event in recording.events():
        print(f"{event.index} {event.line}" if words.number else event.line)


def draws_of(recording):
    """Each draw that a script asked for: its event, the number of its picture, or None where it was skipped, and the
    main frame that was active."""
    frame, pictures = None, 0
    for event in recording.events():
        word, *fields = event.line.split(" ")
        if word == "activate":
            frame = int(fields[0])
        if word in ("draw", "skip"):
            yield event, pictures if event.image else None, frame
        pictures += word == "draw"


def unseen_frames(recording):
    """The first and the last main frame that was committed and is in no picture, or None. A picture shows the active
    frame and all before it; a frame that was aborted changed nothing."""
    shown, active, committed = -1, -1, []
    for event in recording.events():
        word, *fields = event.line.split(" ")
        if word == "commit":
            committed.append(int(fields[0]))
        elif word == "activate":
            active = int(fields[0])
        elif event.image:
            shown = active
    unseen = [frame for frame in committed if frame > shown]
    return (unseen[0], unseen[-1]) if unseen else None


def draw_lines(recording):
    """A line for each draw: its input, its picture, the main frame that it shows, its missing tiles; and one for the
    main frames that no picture shows."""
    for event, picture, frame in draws_of(recording):
        _, number, *missing = event.line.split(" ")
        if picture is None:
            yield f"input {number}: no picture, since no main frame was active yet (event {event.index})"
        else:
            size = f"{event.image.width} by {event.image.height}"
            yield f"input {number}: picture {picture}, main frame {frame}, {size}, {len(missing)} missing (event {event.index})"
    unseen = unseen_frames(recording)
    if unseen:
        first, last = unseen
        which = f"main frame {first} is" if first == last else f"main frames {first} to {last} are"
        yield f"{which} in no picture: no draw came after the activation; put an await of frame {last} before the last draw, or add draws"


def write_draws(recording, words):
    """draws: a line for each draw: its input, its picture, the main frame that it shows, its missing tiles; and one for
    the main frames that no picture shows."""
    for line in draw_lines(recording):
        print(line)


class Tiles:
    """What became of the tiles of a recording so far, by their keys."""

    def __init__(self):
        self.made, self.started, self.given_up, self.known = set(), {}, {}, set()

    def enter(self, event):
        """Follows an event."""
        word, *fields = event.line.split(" ")
        if word == "start":
            self.started[fields[1]] = event.index
            for key in fields[2:]:
                self.made.discard(key)
                self.given_up[key] = event.index
        elif word == "done":
            self.started.pop(fields[1], None)
            self.made.add(fields[1])
            self.known.add(fields[1].rsplit("/", 1)[0])

    def why_missing(self, key):
        """Why a tile can't be drawn."""
        if key in self.started:
            return f"being made since event {self.started[key]}"
        if key in self.given_up:
            return f"given up at event {self.given_up[key]}"
        place, stamp = key.rsplit("/", 1)
        return f"not made anew since main frame {stamp} changed it" if place in self.known else "not made yet"


def missing_of(recording):
    """The missing tiles of each picture: its number, its event, the layer, why, and how many."""
    tiles, picture = Tiles(), 0
    for event in recording.events():
        tiles.enter(event)
        if event.image:
            keys = event.line.split(" ")[2:]
            found = collections.Counter((int(key.split("/")[0]), tiles.why_missing(key)) for key in keys)
            for (layer, why), count in found.items():
                yield picture, event, layer, why, count
            picture += 1


def write_missing(recording, words):
    """missing: which pictures lack tiles: the layer, how many, and why."""
    for picture, event, layer, why, count in missing_of(recording):
        print(f"picture {picture}, event {event.index}, layer {layer}: {count} {'tile' if count == 1 else 'tiles'}, {why}")


def stats_of(recording):
    """What a recording comes to: pairs of a name and a number or text."""
    kinds, sizes = collections.Counter(), collections.Counter()
    lines = images = given_up = lacking = missing = 0
    for event in recording.events():
        word, *fields = event.line.split(" ")
        kinds[word] += 1
        lines += len(event.line) + 1
        if word == "start":
            given_up += len(fields) - 2
        if event.image:
            images += event.image.end - event.image.at
            sizes[f"{event.image.width} by {event.image.height}"] += 1
            lacking, missing = lacking + (len(fields) > 1), missing + len(fields) - 1
    yield "bytes", len(recording.data)
    yield "bytes of the two first lines", recording.first
    yield "bytes of event lines", lines
    yield "bytes of images", images
    yield "events", sum(kinds.values())
    for word in FORMS:
        if kinds[word]:
            yield f"  {word}", kinds[word]
    yield "pictures", kinds["draw"]
    for size, count in sizes.items():
        yield f"  {size}", count
    yield "draws that gave no picture", kinds["skip"]
    yield "draws with missing tiles", lacking
    yield "missing tiles in all", missing
    yield "tiles made", kinds["done"]
    yield "tiles given up", given_up
    yield "main frames committed", kinds["commit"]
    yield "main frames aborted", kinds["abort"]


def write_stats(recording, words):
    """stats: a line for each figure."""
    for name, value in stats_of(recording):
        print(f"{name:30} {value:>12}")


def span(name, first, last, lane, told):
    """A bar of a timeline, from one event to another."""
    return {"name": name, "ph": "X", "ts": first, "dur": max(last - first, 1), "pid": 1, "tid": lane, "args": told}


def trace_of(recording):
    """The events of a timeline: impl frames, main frames and tiles as bars, others as points, and an arc from each
    send to its commit and its activation. Nothing in a recording has a time: the index of an event represents it, as
    if each took a microsecond."""
    begun, sent, tiles, lanes = None, None, {}, {0: "compositor", 1: "main side"}
    for event in recording.events():
        word, *fields = event.line.split(" ")
        told, now = {"line": event.line, "index": event.index}, event.index
        if word == "begin":
            begun = event
        elif word == "finish" and begun:
            yield span(begun.line, begun.index, now, 0, told)
            begun = None
        elif word in ("ready", "abort") and sent:
            yield span(f"{word} {fields[0]}", sent.index, now, 1, told)
        elif word == "start":
            tiles[fields[0]] = event
            lanes[2 + int(fields[0])] = f"worker {fields[0]}"
        elif word == "done" and fields[0] in tiles:
            yield span(fields[1], tiles.pop(fields[0]).index, now, 2 + int(fields[0]), told)
        else:
            yield {"name": event.line[:60], "ph": "i", "s": "t", "ts": now, "pid": 1, "tid": 0, "args": told}
        if word == "send":
            sent = event
        if word in ("send", "commit", "activate"):
            phase = {"send": "s", "commit": "t", "activate": "f"}[word]
            yield {"name": f"main frame {fields[0]}", "cat": "frame", "ph": phase, "bp": "e", "id": int(fields[0]),
                   "ts": now, "pid": 1, "tid": 0}
    for lane, name in lanes.items():
        yield {"name": "thread_name", "ph": "M", "pid": 1, "tid": lane, "args": {"name": name}}


def write_trace(recording, words):
    """trace: one JSON object, an event a line."""
    print('{"displayTimeUnit":"ns","traceEvents":[')
    before = None
    for event in trace_of(recording):
        if before is not None:
            print(before + ",")
        before = json.dumps(event, separators=(",", ":"))
    print((before or "") + "\n]}")


def parser():
    """The words and what each takes."""
    words = argparse.ArgumentParser(description=__doc__, formatter_class=argparse.RawDescriptionHelpFormatter)
    verbs = words.add_subparsers(dest="verb", required=True)
    for verb, does in (("pictures", write_pictures), ("film", write_film), ("events", write_events),
                       ("draws", write_draws), ("missing", write_missing), ("stats", write_stats), ("trace", write_trace)):
        own = verbs.add_parser(verb, help=does.__doc__.split(": ", 1)[1])
        own.set_defaults(does=does)
        own.add_argument("recording")
        if verb == "pictures":
            own.add_argument("prefix")
        if verb == "events":
            own.add_argument("--number", action="store_true", help="the number of each event before its line, from 0")
        if verb == "film":
            own.add_argument("file")
            own.add_argument("--delay", type=float, default=100, help="milliseconds a picture, 1 to 65535 (100)")
            own.add_argument("--scale", type=int, default=1, help="the side of a pixel in an animated PNG, 1 to 16 (1)")
    return words


def main():
    words = parser().parse_args()
    if words.verb == "film":
        words.delay = int(words.delay)
    try:
        words.does(Recording(opened(words.recording)), words)
        sys.stdout.flush()
    except (Bad, Trouble) as fault:
        sys.stdout.flush()
        sys.exit(f"recording: {fault}")
    except BrokenPipeError:
        # (whoever read had enough, as head does)
        sys.stderr.close()
    except KeyboardInterrupt:
        sys.exit("recording: interrupted")
    except (MemoryError, OSError) as fault:
        sys.exit(f"recording: {fault or 'out of memory'}")


if __name__ == "__main__":
    main()

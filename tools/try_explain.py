#!/usr/bin/env python3
"""Tries tools/explain.py, tools/judge.py and tools/page.py.

usage: tools/try_explain.py [PROGRAM] [--alone] [--scripts FOLDER] [--store]

Each wrong input below must be explained by the line that PROGRAM (crates/cc_player/out/cc_player, which the gate
builds) writes for it, and by what docs/MESSAGES.md says to do. Changes of a recording must be judged by the event that
`check` names, pictures must be what painting.py paints, and examples/blog.json what page.py makes of
examples/blog.page; the three frames of FORMAT must give the events that it tells; and no run may cost more than is
told of its script, which is tried with 200 that the program makes. --alone tries what needs no program.
--scripts also holds every file of a folder, as a fuzzer leaves them, against the program's line. --store writes the
table of MESSAGES anew, to be read before it is committed.
"""
import argparse
import dataclasses
import json
import pathlib
import re
import subprocess
import sys
import tempfile

sys.dont_write_bytecode = True
import explain
import judge
import page
import painting
import recording
import script_cost
import script_wheels
from built import PROVED
from tally import Tally

ROOT = pathlib.Path(__file__).resolve().parent.parent
MESSAGES = ROOT / "docs" / "MESSAGES.md"
BEGINS, ENDS = "<!-- wrong inputs begin -->\n", "<!-- wrong inputs end -->\n"

# The script that is changed: two layers with an item each, one of them in an effect.
BASE = """{"version": 1, "viewport": [4, 4], "tile": 16, "background": "ffffff", "budget": 8, "raster_per_frame": 4,
 "soon": 0, "eventually": 0, "priority": "same",
 "main": [[
   {"op": "add_effect", "id": 1, "parent": 0, "opacity": 128},
   {"op": "add_layer", "id": 1, "at": 0, "transform": 0, "clip": 0, "effect": 1, "w": 4, "h": 4, "colour": "00000000"},
   {"op": "insert_item", "layer": 1, "at": 0, "rect": [0, 0, 2, 2], "colour": "ff0000ff"},
   {"op": "add_layer", "id": 2, "at": 1, "transform": 0, "clip": 0, "effect": 0, "w": 4, "h": 4, "colour": "00000000"},
   {"op": "insert_item", "layer": 2, "at": 0, "rect": [2, 2, 2, 2], "colour": "80000080"}]],
 "inputs": [{"op": "await", "frame": 0}, {"op": "draw"}]}
"""
RED, VIEW = '"colour": "ff0000ff"', '{"op": "set_view", "w": 4, "h": 4, "tile": 16}'
THIRD = '{"op": "add_layer", "id": 3, "at": 2, "transform": 0, "clip": 0, "effect": 1, "w": 4, "h": 4, "colour": "00000000"}'

# What is wrong, what is replaced in the script, and by what. Nothing replaced: the whole input.
WRONG = [
    ("a colour with a sign", RED, '"colour": "#ff0000ff"'),
    ("a colour in upper case", RED, '"colour": "FF0000FF"'),
    ("a colour without alpha", RED, '"colour": "ff0000"'),
    ("a colour that is not premultiplied", RED, '"colour": "ff000080"'),
    ("`color`", RED, '"color": "ff0000ff"'),
    ("both paints", RED, RED + ', "pixels": "ff0000ff"'),
    ("a field that is missing", '"effect": 1, "w": 4, "h": 4', '"effect": 1, "w": 4'),
    ("a field that is not there", '"opacity": 128', '"opacity": 128, "name": "card"'),
    ("a number with a point", '"opacity": 128', '"opacity": 128.0'),
    ("a number that is too large", '"opacity": 128', '"opacity": 256'),
    ("a name that no command has", '"op": "insert_item", "layer": 2', '"op": "add_item", "layer": 2'),
    ("an item past the end of the list", '"layer": 2, "at": 0', '"layer": 2, "at": 3'),
    ("an item of a layer that is not there", '"layer": 2, "at": 0', '"layer": 5, "at": 0'),
    ("twice the same id", '"id": 2, "at": 1', '"id": 1, "at": 1'),
    ("layers that are not nested", '"colour": "80000080"}', '"colour": "80000080"}, ' + THIRD),
    ("`set_view` in version 1", '"colour": "80000080"}', '"colour": "80000080"}, ' + VIEW),
    ("an `await` of a frame that is not there", '"frame": 0', '"frame": 1'),
    ("broken off", BASE[700:], ""),
    ("a comma too many", '"colour": "80000080"}]]', '"colour": "80000080"},]]'),
    ("a comma that is missing after a command", RED + "},", RED + "}"),
    ("a comma that is missing after a field", '"tile": 16,', '"tile": 16'),
    ("a list that is not closed", '"colour": "80000080"}]],', '"colour": "80000080"}],'),
    ("another bracket than is due", '"colour": "80000080"}]],', '"colour": "80000080"]],'),
    ("a comment", ' "inputs"', ' // what happens\n "inputs"'),
    ("empty", None, ""),
    ("a byte order mark", None, "\ufeff" + BASE),
    ("a recording for a script", None, "cc1\n{}\nend\n"),
]
TALLY = Tally("try_explain")
check = TALLY.check


def wrong_inputs():
    """Each wrong input: what is wrong, and its bytes."""
    for what, old, new in WRONG:
        if old is not None and BASE.count(old) != 1:
            raise ValueError(f"{what}: {old} does not stand once")
        yield what, (new if old is None else BASE.replace(old, new)).encode()


def asked(program, word, data, without=""):
    """The line that the program writes; where there is none, this one."""
    if not program:
        return without
    words = [word, "1"] if word == "step" else [word]
    return subprocess.run([program, *words], input=data, capture_output=True, timeout=60).stderr.decode().strip()


def row_of(what, found, text):
    """The row of MESSAGES for an explanation."""
    place = ""
    if found.at is not None and text:
        place = "line {}, column {}: ".format(*explain.json_places.line_and_column(text, found.at))
    why = f"; {found.why}" if found.why else ""
    return f"| {what} | `{found.line}` | {place}{found.where}{why} | {found.do} |\n"


def try_wrong_inputs(program, is_stored):
    """Each wrong input against the program and the table of MESSAGES."""
    rows = []
    for what, data in wrong_inputs():
        text, _, found = explain.explanation(data)
        check(f"{what} is a fault", found is not None)
        said = asked(program, "step", data, found.line)
        check(f"{what}: the line", found.line == said, f"{found.line}, and the program says {said}")
        check(f"{what}: what to do", bool(found.do))
        rows.append(row_of(what, found, text))
    lines, is_fine = explain.told("page.json", BASE.encode(), "cc: bad recording at 0")
    check("a script for a recording", not is_fine and "a script" in lines[0], lines)
    check("a script for a recording: the line", asked(program, "frames", BASE.encode(), "cc: bad recording at 0") == "cc: bad recording at 0")
    rows.append(f"| a script for a recording | `cc: bad recording at 0` | {lines[0].split(': ', 1)[1]} | {lines[1].split(':', 1)[1].strip()} |\n")
    page_text, text = MESSAGES.read_text(), next(wrong_inputs())[1].decode()
    check("the example of MESSAGES", "\n".join(explain.explanation(text.encode())[2].lines("page.json", text)) in page_text)
    first, last = page_text.index(BEGINS) + len(BEGINS), page_text.index(ENDS)
    table = "| What is wrong | The program says | Where, and what is there | What to do |\n|---|---|---|---|\n" + "".join(rows)
    if is_stored:
        MESSAGES.write_text(page_text[:first] + table + page_text[last:])
    else:
        check("the table of MESSAGES (--store writes it)", page_text[first:last] == table)


def try_accepted():
    """An accepted script, and the remarks."""
    lines, is_fine = explain.told("page.json", BASE.encode(), "")
    check("an accepted script", is_fine and len(lines) == 2, lines)
    check("what it costs", lines[1] == "  cost:     at most 20 events, 1 draw, 16 pixels (by step, film, shot or serve)", lines)
    script = json.loads(BASE)
    script["main"] += [[], []]
    lines, is_fine = explain.told("page.json", json.dumps(script).encode(), "")
    check("a main frame that no picture shows", is_fine and "main frame 2 is played after the last input" in lines[2], lines)
    lines, _ = explain.told("page.json", BASE.encode(), "cc: not JSON")
    check("a line of another script", "another one" in lines[-1], lines)
    found = explain.explanation(b" " * 16777217)[2]
    check("a script that is too long", found.line == "cc: too long, limit 16777216")
    for line in ("cc: usage: word 1", "cc: event 3 is wrong", "cc: out of memory", "cc: no picture", "cc: too long, limit 16777216"):
        check(f"explained: {line}", len(explain.told("page.json", b"", line)[0]) == 2)


# What is added to BASE, the inputs that follow an await of frame 0, and what the one remark says; nothing where it is empty.
SCROLLER = [{"op": "add_scroller", "id": 1, "parent": 0, "max_x": 0, "max_y": 3},
            {"op": "add_transform", "id": 1, "parent": 0, "x": 0, "y": 0, "scroller": 1},
            {"op": "add_layer", "id": 3, "at": 0, "transform": 1, "clip": 0, "effect": 0, "w": 4, "h": 2, "colour": "00000000"},
            {"op": "insert_item", "layer": 3, "at": 0, "rect": [0, 0, 4, 2], "colour": "0000ffff"}]
SMALL = [{"op": "resize_layer", "id": it, "w": 1, "h": 1} for it in (1, 2)]


def wheel(x, y, dx, dy):
    return {"op": "wheel", "x": x, "y": y, "dx": dx, "dy": dy}


SCROLLS = [
    ("a wheel over a layer that does not scroll", SCROLLER, [wheel(3, 1, 0, 1)], "the wheel of input 1 moves nothing: layer 2 is uppermost at 3, 1,"),
    ("wheels where no layer lies", SCROLLER + SMALL, [wheel(3, 3, 0, 1)] * 3, "the 3 wheels of inputs 1 to 3 move nothing: no layer lies at 3, 3"),
    ("a wheel that scrolls", SCROLLER + SMALL, [wheel(3, 1, 0, 1)], ""),
    ("a wheel after the layer has gone up", SCROLLER + SMALL, [wheel(3, 1, 0, 1), wheel(3, 1, 0, 1)], "the wheel of input 2 moves nothing: no layer lies"),
    ("a wheel the other way", SCROLLER + SMALL, [wheel(3, 1, 1, 0)], "scroller 1 of layer 3 at 3, 1 can go no further that way"),
    ("a scroll past the end", SCROLLER, [{"op": "scroll", "scroller": 1, "dx": 0, "dy": 9}] * 2, "the scroll of input 2 moves nothing: scroller 1"),
    ("a wheel over what is hidden", SCROLLER + SMALL + [{"op": "set_opacity", "id": 1, "opacity": 0}], [wheel(0, 0, 0, 1)], "layer 2 is uppermost"),
]


def try_scrolls():
    """Remarks on wheels and scrolls that move nothing, and a script that is for `shot`."""
    for what, commands, inputs, wanted in SCROLLS:
        script = json.loads(BASE)
        script["main"][0] += commands
        script["inputs"] = [{"op": "await", "frame": 0}, *inputs, {"op": "draw"}]
        lines, is_fine = explain.told("page.json", json.dumps(script).encode(), "")
        check(what, is_fine and len(lines) == (3 if wanted else 2) and wanted in lines[-1], lines)
        script["inputs"][0] = {"op": "settle"}
        lines, _ = explain.told("page.json", json.dumps(script).encode(), "")
        check(f"{what}: nothing is said of a page that may not be there yet", not any("nothing:" in it for it in lines), lines)
    script = {**json.loads(BASE), "inputs": []}
    lines, is_fine = explain.told("page.json", json.dumps(script).encode(), "")
    check("a script for shot", is_fine and len(lines) == 3 and "`shot` makes the picture" in lines[2] and "no picture shows it" not in lines[2], lines)
    check("what it costs by shot", "1 draw, 16 pixels (by shot; without inputs the others draw nothing)" in lines[1], lines)


# Recordings

def changed_recordings(whole):
    """What is changed in a recording of BASE, the bytes, and what the judgement must say."""
    place = whole.index(b"\n255\n") + 5
    return [
        ("an image", whole[:place] + b"\0" + whole[place + 1:], "the image differs at 0, 0: stands 00"),
        ("another input", whole.replace(b"draw 1\n", b"draw 0\n"), "begun for input 1"),
        ("an event twice", whole.replace(b"finish\nawait", b"finish\nfinish\nawait"), "no impl frame is open"),
        ("a main frame that was not sent", whole.replace(b"commit 0", b"commit 1"), "main frame 0 was sent last"),
        ("a tile that nobody makes", whole.replace(b"done 0 1/0/0/0", b"done 1 1/0/0/0"), "worker 1 holds no tile"),
        ("no activation", whole.replace(b"activate 0\n", b""), ""),
        ("an end before the inputs", whole[:whole.index(b"await 0")] + b"end\n", "input 0 is not used yet"),
    ]


def try_judge(program, folder):
    """judge.py on changes of a recording, at the event that check names."""
    whole = subprocess.run([program, "step", "1"], input=BASE.encode(), capture_output=True).stdout
    for what, data, wanted in [("the recording itself", whole, "legal"), *changed_recordings(whole)]:
        path = folder / "changed.rec"
        path.write_bytes(data)
        ran = subprocess.run([sys.executable, ROOT / "tools" / "judge.py", path, "--program", program], capture_output=True, timeout=60)
        told, said = ran.stdout.decode(), asked(program, "check", data)
        event = re.search(r"cc: event (\d+) is wrong", said)
        check(f"judge: {what}", (ran.returncode == 0) == (not said) and wanted in told and (not event or f"event {event[1]}" in told), told + ran.stderr.decode())


def try_frames(program):
    """The example of FORMAT, "When frames come": its events are those that its table tells of each input."""
    section = (ROOT / "docs" / "FORMAT.md").read_text().split("### When frames come\n", 1)[1].split("\n### ", 1)[0]
    lists = re.search(r"^```json\n(.*?)^```$", section, re.M | re.S)[1]
    head = {**json.loads(BASE), "viewport": [2, 1], "background": "000000"}
    script = {**head, **json.loads("{" + lists + "}")}
    ran = subprocess.run([program, "step", "1"], input=json.dumps(script).encode(), capture_output=True)
    told = [line for row in re.findall(r"^\| \d, `\w+` \| (.*?) \|", section, re.M) for line in re.findall(r"`(.*?)`", row)]
    events = [event.line for event in recording.Recording(ran.stdout).events()]
    check("the events of FORMAT, When frames come", told + ["end"] == events, events)


def is_told(scrolled, line):
    """Whether the line of an event tells the same of a wheel or a scroll."""
    word, _, *fields = line.split(" ")
    if word == "scroll":
        return fields[0] == "{},{}".format(*scrolled.moves[0][1:])
    return fields[0] == str(scrolled.layer) and painting.moves_of(fields[2:]) == scrolled.moves


def try_played(program, paths):
    """What the program plays: each picture is what painting.py paints, judge.py refuses no event, and what wheels and
    scrolls move is what script_wheels.py tells of the script."""
    followed = 0
    for path in paths:
        played = recording.Recording(subprocess.run([program, "step", "1"], input=path.read_bytes(), capture_output=True).stdout)
        course, refused, told = judge.Course(played.script), [], list(script_wheels.scrolled(played.script))
        followed += len(told)
        lines = {int(it.line.split()[1]): it.line for it in played.events() if it.line.split()[0] in script_wheels.SCROLLING}
        check(f"wheels: {path.name}", all(is_told(it, lines[it.place]) for it in told), lines)
        for event in played.events():
            told = course.refusal(event.line)
            refused += [event.index] if told and told not in judge.UNLOOKED.values() else []
            course.enter(event.line)
            if event.image:
                difference = judge.image_difference(played, course.shown, event)
                check(f"painting: {path.name}, event {event.index}", difference is None, difference)
        check(f"judge: {path.name}", not refused, refused)
    check("wheels and scrolls are followed", followed > 50, followed)


# What a script costs

def costs(program, text):
    """What a script may cost, and what playing it does: events, draws and pixels."""
    played = subprocess.run([program, "step", "1"], input=text, capture_output=True, timeout=60).stdout
    events = [*recording.Recording(played).events()]
    images = [event.image for event in events if event.image]
    most = script_cost.cost_of(json.loads(text))
    return dataclasses.astuple(most), (len(events), len(images), sum(it.width * it.height for it in images))


def try_costs(program):
    """No made script costs more than is told, and the examples that are drawn once cost what is told to the last event."""
    above = 0
    for number in range(200):
        text = subprocess.run([program, "gen", str(number)], capture_output=True, timeout=60).stdout
        most, run = costs(program, text)
        check(f"cost: gen {number}", all(a >= b for a, b in zip(most, run)), f"at most {most}, and the run {run}")
        above += most[0] > run[0]
    check("cost: the made scripts leave something to be told", above > 100, above)
    for name in ("groups", "icons", "page", "view"):
        most, run = costs(program, (ROOT / "examples" / f"{name}.json").read_bytes())
        check(f"cost: {name}.json", most == run, f"told {most}, and the run {run}")


# page.py

WRONG_PAGES = [
    ("a word that is not there", "vieww 4 4", "1: vieww is no word"),
    ("a number that is none", "view 4 x", "1: x is no whole number"),
    ("an item that is none", "layer a 4 4\n  circle 0 0 1 1 ffffff", "2: circle is no item"),
    ("a colour that is none", "layer a 4 4\n  repeat 2\n    rect 0 0 1 1 red", "3: red is no colour"),
    ("a name that is not known", "transform a 0 0 scrolls b", "1: there is no scroller b"),
    ("a layer that is not there", "layer a 4 4\nlayer b 4 4 below c", "2: there is no layer c"),
    ("a layer that was removed", "layer a 4 4\nremove a\ninto a", "3: there is no layer a"),
    ("a frame that is not there", "layer a 4 4\nframe b\ninputs\n  draw c", "4: there is no frame c"),
    ("a draw of a frame that came before", "layer a 4 4\nframe b\ninputs\n  await b\n  draw b", "main frame 1 has come"),
    ("a draw of a frame that comes after another", "layer a 4 4\nframe b\nframe c\ninputs\n  await 0\n  draw c", "main frame 1 has not come"),
    ("an input that is none", "inputs\n  draw\n  touch 1 1", "3: touch is no input"),
]


def try_pages():
    """page.py: the example that it makes, colours, frames, faults by their line."""
    made = page.script_text(page.script_of((ROOT / "examples" / "blog.page").read_text()))
    check("blog.json is what page.py makes of blog.page", made == (ROOT / "examples" / "blog.json").read_text())
    script = page.script_of("layer a 9 9\n  repeat 3 down 2\n    rect 0 0 1 1 ff000080 00ff00\nframe b\npaint a 0 0000ff\ninputs\n  await 0\n  draw\n  draw b")
    check("colours are premultiplied, and come in turn", [it["colour"] for it in script["main"][0][1:]] == ["80000080", "00ff00ff", "80000080"])
    check("a named frame comes with its draw", [len(it) for it in script["main"]] == [4, 0, 1])
    for what, text, wanted in WRONG_PAGES:
        try:
            page.script_of(text)
            told = "nothing"
        except page.Wrong as fault:
            told = str(fault)
        check(f"page.py: {what}", told.startswith(wanted), told)


def try_scripts(program, folder):
    """Every script of a folder: the line of the program and the one that is explained."""
    for path in sorted(pathlib.Path(folder).iterdir()) if folder else []:
        data = path.read_bytes()
        _, _, found = explain.explanation(data)
        said = asked(program, "step", data)
        check(str(path), (found.line if found else "") == said, f"{found and found.line}, and the program says {said}")


def main():
    words = argparse.ArgumentParser(description=__doc__, formatter_class=argparse.RawDescriptionHelpFormatter)
    words.add_argument("program", nargs="?", default=str(PROVED))
    words.add_argument("--alone", action="store_true")
    words.add_argument("--scripts")
    words.add_argument("--store", action="store_true")
    words = words.parse_args()
    program = None if words.alone else words.program
    if program and not pathlib.Path(program).is_file():
        sys.exit(f"try_explain: {program} is not there")
    try_wrong_inputs(program, words.store)
    try_accepted()
    try_scrolls()
    try_pages()
    if program:
        with tempfile.TemporaryDirectory() as made:
            try_judge(program, pathlib.Path(made))
        try_frames(program)
        try_costs(program)
        try_played(program, sorted([*(ROOT / "docs" / "tutorial").glob("*.json"), *(ROOT / "examples").glob("*.json")]))
        try_scripts(program, words.scripts)
    return TALLY.status()


if __name__ == "__main__":
    sys.exit(main())

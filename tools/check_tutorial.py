#!/usr/bin/env python3
"""Checks docs/TUTORIAL.md and docs/PAGE.md against the program: scripts, pictures, and what the texts quote of them.

usage: tools/check_tutorial.py [PROGRAM] [--store]

PROGRAM (crates/cc_player/out/cc_player, which the gate builds) must play each script of docs/tutorial/. Each picture
that the text shows must be what the program draws: stepN-K.png is picture K of stepN.json, from 0, and stepN.png the
film of all its pictures. In the section of step N the lines of a json block must stand in stepN.json and those of a
text block in the events of its recording, one right after the other; a line `..` leaves lines out. The same of PAGE.md
and examples/blog.json, whose film is docs/blog.png; its page blocks stand in examples/blog.page and its draws block is
what `recording.py draws` tells. --store writes the pictures anew, to be looked at before they are committed.
"""
import argparse
import pathlib
import re
import subprocess
import sys
import zlib

sys.dont_write_bytecode = True
import png
import recording
from built import PROVED
from png_chunks import chunks_of

ROOT = pathlib.Path(__file__).resolve().parent.parent
TEXT, FOLDER = ROOT / "docs" / "TUTORIAL.md", ROOT / "docs" / "tutorial"
SECTION, LINK = re.compile(r"^## (\d+)\. ", re.M), re.compile(r"\]\(tutorial/(step(\d+)(?:-(\d+))?\.png)\)")
BLOCK = re.compile(r"^```(json|text|page|draws)\n(.*?)^```$", re.M | re.S)
PAGE, PAGE_FILM, PAGE_SCRIPT = ROOT / "docs" / "PAGE.md", ROOT / "docs" / "blog.png", ROOT / "examples" / "blog.json"


def played(program, script):
    """The recording of a script."""
    ran = subprocess.run([program, "step", "1"], input=script.read_bytes(), capture_output=True, timeout=60)
    if ran.returncode:
        raise recording.Trouble(f"{script.name}: status {ran.returncode}, {ran.stderr.decode().strip()}")
    return recording.Recording(ran.stdout)


def picture_of(played_step, number, delay=100):
    """The PNG file of a picture, or the film where there is no number."""
    images = list(played_step.images())
    if number is not None:
        image = images[int(number)]
        return png.whole(image.width, image.height, played_step.pixels(image))
    pictures = ((it.width, it.height, played_step.pixels(it)) for it in images)
    return b"".join(png.Film([(it.width, it.height) for it in images], delay).pieces(pictures))


def content(file):
    """The chunks of a PNG file, with the data of images unpacked: how well they are packed is left to zlib."""
    chunks = []
    for kind, data in chunks_of(file):
        skipped, is_image = 4 if kind == b"fdAT" else 0, kind in (b"IDAT", b"fdAT")
        chunks.append((kind, data[:skipped], zlib.decompress(data[skipped:]) if is_image else data))
    return chunks


def run_not_in(quoted, lines):
    """The first line of the first run of quoted lines, parted by `..`, that does not stand in these lines after the
    run before it; None where all do."""
    lines, runs, at = [it.strip() for it in lines], [[]], 0
    for line in filter(None, (it.strip() for it in quoted.splitlines())):
        runs = [*runs, []] if line == ".." else [*runs[:-1], [*runs[-1], line]]
    for run in filter(None, runs):
        found = next((it for it in range(at, len(lines)) if lines[it:it + len(run)] == run), None)
        if found is None:
            return run[0]
        at = found + len(run)
    return None


def wrong_quotes(text, scripts, steps):
    """What a section quotes that does not stand in its script or recording."""
    starts = list(SECTION.finditer(text))
    for start, end in zip(starts, [*(it.start() for it in starts[1:]), len(text)]):
        name = f"step{start[1]}"
        if name not in steps:
            yield f"section {start[1]} has no {name}.json"
            continue
        yield from (f"section {start[1]}: {told}" for told in wrong_blocks(text[start.end():end], scripts[name], steps[name]))


def wrong_blocks(text, script, step):
    """The blocks of a text that do not stand in a script, in its description or in its recording."""
    page = script.with_suffix(".page")
    described = [it for it in page.read_text().splitlines() if it and not it.startswith("#")] if page.exists() else []
    lines = {"json": script.read_text().splitlines(), "text": [it.line for it in step.events()],
             "draws": list(recording.draw_lines(step)), "page": described}
    for block in BLOCK.finditer(text):
        line = run_not_in(block[2], lines[block[1]])
        if line is not None:
            yield f"the {block[1]} that begins with {line} does not stand there"


def wrong_blog(program, is_stored):
    """What PAGE.md quotes or shows and is not so."""
    step = played(program, PAGE_SCRIPT)
    yield from (f"PAGE.md: {told}" for told in wrong_blocks(PAGE.read_text(), PAGE_SCRIPT, step))
    film = picture_of(step, None, 700)
    if is_stored:
        PAGE_FILM.write_bytes(film)
    elif content(PAGE_FILM.read_bytes()) != content(film):
        yield f"{PAGE_FILM.name} is not what the program draws"


def wrong_pictures(text, steps, is_stored):
    """The pictures that the text shows and the program does not draw, or that the text does not show."""
    shown = {it[1]: (f"step{it[2]}", it[3]) for it in LINK.finditer(text)}
    for name, (step, number) in shown.items():
        drawn, file = picture_of(steps[step], number), FOLDER / name
        if is_stored:
            file.write_bytes(drawn)
        elif not file.exists() or content(file.read_bytes()) != content(drawn):
            yield f"{name} is not what the program draws"
    for file in FOLDER.glob("*.png"):
        if file.name not in shown:
            yield f"{file.name} is not shown"


def main():
    words = argparse.ArgumentParser(description=__doc__, formatter_class=argparse.RawDescriptionHelpFormatter)
    words.add_argument("program", nargs="?", default=str(PROVED))
    words.add_argument("--store", action="store_true")
    words = words.parse_args()
    text, scripts = TEXT.read_text(), {it.stem: it for it in sorted(FOLDER.glob("*.json"))}
    try:
        steps = {name: played(words.program, script) for name, script in scripts.items()}
        wrong = [*wrong_quotes(text, scripts, steps), *wrong_pictures(text, steps, words.store), *wrong_blog(words.program, words.store)]
    except (OSError, recording.Bad, recording.Trouble, KeyError, IndexError, ValueError) as fault:
        wrong, steps = [f"{type(fault).__name__}: {fault}"], {}
    for line in wrong:
        print(f"check_tutorial: {line}", file=sys.stderr)
    print(f"check_tutorial: {len(steps)} scripts, {len(LINK.findall(text))} pictures, {len(wrong)} wrong")
    return 1 if wrong or not steps else 0


if __name__ == "__main__":
    sys.exit(main())

#!/usr/bin/env python3
"""Tries what the clients of `serve` do where things go wrong: a server that ended, a job that takes too long or writes too
much, threads, a text that is no JSON, a pool with hostile jobs among others; and the pictures that they give.

usage: tools/try_clients.py [PROGRAM] [--jobs N]     (crates/cc_player/out/cc_player, which the gate builds)

--jobs plays N jobs by the pool in place of 40.
"""
import argparse
import contextlib
import json
import os
import pathlib
import shutil
import subprocess
import sys
import tempfile
import threading
import time

sys.dont_write_bytecode = True
from built import PROVED
from png_chunks import picture_of
from tally import Tally

HERE = pathlib.Path(__file__).resolve().parent.parent
sys.path.insert(0, str(HERE / "clients/python"))
import cc_serve

PATIENCE = 60
TALLY = Tally("try_clients")
check = TALLY.check
FIRST = (HERE / "examples/first.json").read_text()
# Answers nothing, and does not end where its input does.
DEAF = [sys.executable, "-c", "import time; time.sleep(600)"]


def flood(draws):
    """A script of few bytes whose recording has 12 MB a draw."""
    script = json.loads(FIRST)
    script.update(version=2, viewport=[2048, 2048], inputs=[{"op": "await", "frame": 0}, *[{"op": "draw"}] * draws])
    return script


@contextlib.contextmanager
def watched(what):
    """Ends the trial where something hangs."""
    clock = threading.Timer(PATIENCE, lambda: (print(f"try_clients: {what} hangs", flush=True), os._exit(1)))
    clock.daemon = True
    clock.start()
    yield
    clock.cancel()


def raised(kind, call):
    """Whether a call raises this kind of fault, and none of its kinds."""
    try:
        call()
    except Exception as fault:
        return type(fault) is kind
    return False


def try_ended(program):
    """A server that ended: the fault is Broken, also where the `with` block is left, and nothing stays."""
    for pause in (0, 0.2):
        def dead():
            with cc_serve.Server([program, "serve", "1"]) as server:
                found.append(server)
                server.process.kill()
                time.sleep(pause)
                server.play(FIRST)
        found = []
        check(f"a server that was killed {pause} s before", raised(cc_serve.Broken, dead))
        process = found[0].process
        check("a server that was killed is waited for", process.returncode is not None and process.stdin.closed and process.stdout.closed)
    check("a program that is not there", raised(FileNotFoundError, lambda: cc_serve.Server(["/no/such/program"])))
    server = cc_serve.Server([program, "serve", "1"])
    check("a session that is closed ends in 0", server.play(FIRST).status == 0 and server.close() == 0)
    check("a script after that", raised(cc_serve.Broken, lambda: server.play(FIRST)))


def try_limits(program):
    """A job that takes too long, and one that writes too much, are cut; the process is gone."""
    server = cc_serve.Server(DEAF, timeout=0.3)
    began = time.monotonic()
    check("a job that takes too long", raised(cc_serve.TimedOut, lambda: server.play(FIRST)))
    check("its time", 0.3 <= time.monotonic() - began < 5)
    check("its process is gone", server.process.returncode is not None)
    server.close()
    with cc_serve.Server([program, "serve", "1"], most_bytes=20 << 20) as server:
        check("a recording within the limit", server.play(flood(1)).status == 0)
        check("a recording that grows too long", raised(cc_serve.TooMuch, lambda: server.play(flood(4096))))
    with cc_serve.Server([program, "serve", "1"], timeout=0.5) as server:
        check("a job whose pieces come for too long", raised(cc_serve.TimedOut, lambda: server.play(flood(4096), lambda piece: None)))
    with cc_serve.Server([program, "serve", "1"], timeout=0.3) as server:
        check("a limit is of each job", all(server.play(FIRST).status == 0 and not time.sleep(0.1) for _ in range(5)))


def try_taker(program):
    """A fault of the caller's own while pieces come, and a script that is sent meanwhile."""
    def wrong(piece):
        raise KeyError
    with cc_serve.Server([program, "serve", "1"]) as server:
        check("a fault in `take`", raised(KeyError, lambda: server.play(FIRST, wrong)))
        check("no answer of another script follows", raised(cc_serve.Broken, lambda: server.play("[")))
    with cc_serve.Server([program, "serve", "1"]) as server:
        check("a script in `take`", raised(RuntimeError, lambda: server.play(FIRST, lambda piece: server.play(FIRST))))


def try_text(program):
    """Newlines between the parts of a script, and in a string: as `step` takes the same bytes."""
    texts = [FIRST, FIRST.replace(" ", "\r\n"), FIRST.replace('"same"', '"sa\nme"'), FIRST.replace('"same"', '"sa\rme"'),
             FIRST.replace('"same"', '"same"\n'), FIRST.replace('"same"', '"same\n"'), "", "\n"]
    with cc_serve.Server([program, "serve", "1"]) as server:
        for text in texts:
            alone = subprocess.run([program, "step", "1"], input=text.encode(), capture_output=True)
            answer = server.play(text)
            check(f"newlines in {text[:30]!r}..: the status", answer.status == alone.returncode, (answer.status, alone.returncode))
            check("the recording", answer.recording == alone.stdout)


def try_threads(program):
    """Threads share a server: each gets the answer of its own script."""
    wrong = []

    def client(script, wanted):
        wrong.extend(1 for _ in range(8) if server.play(script).recording != wanted)
    scripts = [subprocess.run([program, "gen", str(it)], capture_output=True).stdout for it in range(4)]
    wanted = [subprocess.run([program, "step", "1"], input=it, capture_output=True).stdout for it in scripts]
    with cc_serve.Server([program, "serve", "1"]) as server:
        threads = [threading.Thread(target=client, args=it) for it in zip(scripts, wanted)]
        for it in threads:
            it.start()
        for it in threads:
            it.join()
    check("four threads on a server", not wrong, f"{len(wrong)} wrong answers")


def try_pictures(program):
    """The pictures of an answer are those of `frames`, and its PNG files read back."""
    script = (HERE / "examples/page.json").read_bytes()
    wanted = subprocess.run([program, "film", "1"], input=script, capture_output=True).stdout
    with cc_serve.Server([program, "serve", "1"]) as server:
        answer = server.play(script)
        pictures = list(answer.pictures())
        check("the pictures of an answer", b"".join(b"P6\n%d %d\n255\n%s" % it for it in pictures) == wanted and pictures)
        check("their PNG files", all(picture_of(it.png()) == tuple(it) for it in pictures))
        check("no picture of a refused script", not list(server.play("[").pictures()))
        cut = cc_serve.Answer(answer.recording[:-len(answer.recording) // 3], 11, "")
        whole = list(cut.pictures())
        check("the whole pictures of a prefix", whole == pictures[:len(whole)] and len(whole) < len(pictures))


def try_pool(program, jobs):
    """Jobs by four servers, hostile ones among them: each is answered, or cut in its time."""
    scripts, wanted = [], []
    for number in range(jobs):
        kind = number % 25
        if kind == 7:
            scripts.append(flood(4096))
            wanted.append(cc_serve.TooMuch)
        elif kind == 13:
            scripts.append("[" * 1000)
            wanted.append(3)
        elif kind == 19:
            scripts.append(FIRST.replace('"layer"', '"plate"', 1))
            wanted.append(4)
        else:
            scripts.append(subprocess.run([program, "gen", str(number)], capture_output=True).stdout)
            wanted.append(0)
    with cc_serve.Pool([program, "serve", "1"], size=4, timeout=20, most_bytes=64 << 20) as pool:
        answers = list(pool.map(scripts))
        told = [type(it) if isinstance(it, Exception) else it.status for it in answers]
        check("the answers of a pool", told == wanted, [it for it in zip(range(jobs), told, wanted) if it[1] != it[2]])
        alone = [subprocess.run([program, "step", "1"], input=it, capture_output=True).stdout
                 for it in scripts if isinstance(it, bytes)]
        check("the recordings of a pool", [it.recording for it in answers if not isinstance(it, Exception) and it.status == 0] == alone)
        check("a limit of one job", raised(cc_serve.TimedOut, lambda: pool.play(flood(4096), lambda piece: None, timeout=0.01)))
        check("a pool after that", pool.play(FIRST).status == 0)
    check("a pool that is closed", raised(RuntimeError, lambda: pool.play(FIRST)))
    with cc_serve.Pool(["/no/such/program"], size=1) as pool:
        check("a pool without its program", raised(FileNotFoundError, lambda: pool.play(FIRST)) and raised(FileNotFoundError, lambda: pool.play(FIRST)))


def try_c():
    """The client in C says so where the program is not there."""
    compiler = shutil.which("cc")
    if not compiler:
        print("try_clients: no C compiler is here")
        return
    with tempfile.TemporaryDirectory() as room:
        client = f"{room}/serve"
        subprocess.run([compiler, "-Wall", "-Wextra", "-Werror", "-o", client, HERE / "clients/c/serve.c"], check=True)
        done = subprocess.run([client, "/no/such/program"], input=b"[\n", capture_output=True, timeout=PATIENCE)
        check("the client in C without the program", done.returncode == 1 and b"/no/such/program: No such file" in done.stderr, done)


def main():
    words = argparse.ArgumentParser(description=__doc__, formatter_class=argparse.RawDescriptionHelpFormatter)
    words.add_argument("program", nargs="?", default=str(PROVED))
    words.add_argument("--jobs", type=int, default=40)
    words = words.parse_args()
    program = str(pathlib.Path(words.program).resolve())
    tries = [lambda: try_ended(program), lambda: try_limits(program), lambda: try_taker(program), lambda: try_text(program),
             lambda: try_threads(program), lambda: try_pictures(program), lambda: try_pool(program, words.jobs), try_c]
    for number, trial in enumerate(tries):
        with watched(f"trial {number}"):
            trial()
    return TALLY.status()


if __name__ == "__main__":
    sys.exit(main())

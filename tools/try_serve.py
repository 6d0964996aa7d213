#!/usr/bin/env python3
"""Tries `serve N`: a session answers each of 20 lines as a run of its own does, good scripts and refused ones; a client
that waits for each answer before it writes its next line is answered 1,000 times; a line that is too long is skipped
within bounded memory; the clients in Python and C, and a folder of scripts in parallel with a broken one among them.

usage: tools/try_serve.py [PROGRAM]      (crates/cc_player/out/cc_player, which the gate and `rt run` build)
"""
import io
import pathlib
import resource
import shutil
import subprocess
import sys
import tempfile
import threading

sys.dont_write_bytecode = True
from built import PROVED  # noqa: E402

HERE = pathlib.Path(__file__).resolve().parent.parent
sys.path.insert(0, str(HERE / "clients/python"))
import cc_serve  # noqa: E402

PATIENCE = 120
PROGRAM = str(pathlib.Path(sys.argv[1] if len(sys.argv) > 1 else PROVED).resolve())
faults = []


def fault(text):
    faults.append(text)
    print(f"try_serve: {text}", file=sys.stderr)


def run(*words, given=b""):
    return subprocess.run([PROGRAM, *words], input=given, capture_output=True, timeout=PATIENCE)


def scripts():
    """20 lines: scripts of numbers, and what `step` refuses in each way that a script can be refused."""
    lines = [run("gen", str(number)).stdout.rstrip(b"\n") for number in range(14)]
    first = (HERE / "examples/first.json").read_bytes().replace(b"\n", b" ")
    lines[3:3] = [b"", b"[", b"{}", first.replace(b'"id":', b'"name":', 1), first.replace(b'"layer"', b'"plate"', 1)]
    return lines + [first]


def single(line):
    """What a run of its own says of a line: status, recording, note."""
    done = run("step", "1", given=line)
    return done.returncode, done.stdout, done.stderr.decode().rstrip("\n")


def answers_in(given):
    """The answers of a session: the number of each line, its status, recording and note."""
    answers, pieces = [], []
    for line in given:
        words = line.rstrip(b"\n").split(b" ", 3)
        if words[0] == b"data":
            pieces.append(given.read(int(words[1])))
            continue
        status, note = (0, "") if words[0] == b"ok" else (int(words[2].rstrip(b":")), words[3].decode())
        answers.append((int(words[1]), (status, b"".join(pieces), note)))
        pieces = []
    return answers


def try_session(lines):
    """All lines at once, the last without its newline."""
    done = run("serve", "2", given=b"\n".join(lines))
    if done.returncode != 0 or done.stderr:
        fault(f"a session: status {done.returncode}, {done.stderr[:200]!r}")
    answers = answers_in(io.BytesIO(done.stdout))
    for number, line in enumerate(lines):
        if number >= len(answers) or answers[number] != (number, single(line)):
            fault(f"line {number} of a session is answered otherwise than by a run of its own")
    if len(answers) != len(lines):
        fault(f"{len(lines)} lines, {len(answers)} answers")


def watched(work):
    """Does some work, or says that it hangs."""
    thread = threading.Thread(target=work, daemon=True)
    thread.start()
    thread.join(PATIENCE)
    if thread.is_alive():
        fault(f"{work.__name__} hangs")


def wait_for_each():
    first = (HERE / "examples/first.json").read_bytes()
    wanted = single(first.replace(b"\n", b" "))[1]
    with cc_serve.Server([PROGRAM, "serve", "1"]) as server:
        for number in range(1000):
            broken = number % 7 == 3
            answer = server.play(b"[" if broken else first)
            if (answer.status, answer.note) != ((3, "cc: not JSON") if broken else (0, "")):
                fault(f"line {number} of a waiting client: status {answer.status}, {answer.note}")
                return
            if not broken and answer.recording.split(b"\n", 2)[2] != wanted.split(b"\n", 2)[2]:
                fault(f"line {number} of a waiting client has another recording")
                return


def long_line():
    """A line of 64 MiB is refused, the next one answered, and the server keeps no more of it than a line may have."""
    def room():
        resource.setrlimit(resource.RLIMIT_AS, (160 << 20, 160 << 20))
    first = (HERE / "examples/first.json").read_bytes().replace(b"\n", b" ")
    done = subprocess.run([PROGRAM, "serve", "1"], input=b" " * (64 << 20) + b"\n" + first + b"\n", capture_output=True,
                          timeout=PATIENCE, preexec_fn=room)
    if not done.stdout.startswith(b"no 0 8: cc: too long, limit 16777216\ndata ") or not done.stdout.endswith(b"ok 1\n"):
        fault(f"a line that is too long: status {done.returncode}, {done.stdout[:100]!r}, {done.stderr[:100]!r}")


def try_c(lines, room):
    compiler = shutil.which("cc")
    if not compiler:
        print("try_serve: no C compiler is here")
        return
    client = f"{room}/serve"
    subprocess.run([compiler, "-Wall", "-Wextra", "-Werror", "-o", client, str(HERE / "clients/c/serve.c")], check=True)
    done = subprocess.run([client, PROGRAM], input=b"\n".join(lines) + b"\n", capture_output=True, timeout=PATIENCE)
    wanted = ""
    for number, line in enumerate(lines):
        status, recording, note = single(line)
        wanted += f"{number} {status} {len(recording)}" + (f" {note}" if note else "") + "\n"
    if done.returncode != 0 or done.stdout.decode() != wanted:
        fault(f"the client in C: status {done.returncode}, {done.stdout[:300]!r}")


def try_folder(room):
    """A hundred scripts side by side, one of them broken: its status is told, and the others are done."""
    for number in range(100):
        text = b"[" if number == 41 else run("gen", str(number)).stdout
        pathlib.Path(f"{room}/{number:02}.json").write_bytes(text)
    command = f'''cd {room} && printf '%s\\n' *.json | xargs -P 4 -I @ sh -c '"{PROGRAM}" step 1 < @ > @.rec || echo "@: status $?"' '''
    done = subprocess.run(["sh", "-c", command], capture_output=True, timeout=10 * PATIENCE)
    if done.stdout != b"41.json: status 3\n" or done.stderr != b"cc: not JSON\n":
        fault(f"a folder: {done.stdout[:200]!r}, {done.stderr[:200]!r}")
    for number in range(100):
        size = pathlib.Path(f"{room}/{number:02}.json.rec").stat().st_size
        if (size == 0) != (number == 41):
            fault(f"a folder: script {number} has a recording of {size} bytes")


def main():
    lines = scripts()
    try_session(lines)
    watched(wait_for_each)
    long_line()
    with tempfile.TemporaryDirectory() as room:
        try_c(lines, room)
        try_folder(room)
    print(f"serve: a session of {len(lines)} lines, 1,000 lines one by one, two clients, a folder of 100: {len(faults)} wrong")
    return 1 if faults else 0


if __name__ == "__main__":
    sys.exit(main())

#!/usr/bin/env python3
"""What the feed does where the system fails, and when its verdicts go out.

    python3 tests/feed.py PROGRAM      PROGRAM is sdjwt_tools, as prove.sh makes it

Standard output that nobody reads any more, a full disk, input that is none and input that fails in its middle, and each
request for memory refused in turn: the status and the line are those of the manual, and what was written before is a
front of all verdicts. The verdicts of a piece of the input go out when it has come, by one write, and are those of the
time that it is. Refusing memory needs a C compiler; without one that part is skipped. It stands beside the gate and
proves nothing.
"""
import os
import shutil
import socket
import struct
import subprocess
import sys
import tempfile
import time
from pathlib import Path

HERE = Path(__file__).resolve().parent
sys.path.insert(0, str(HERE.parent / "vectors"))
import clock  # noqa: E402

CASES = HERE.parent / "examples" / "refusals"
MOST = "1000000000"
POLICY = CASES / "policy.json"
GOOD = (CASES / "good.txt").read_bytes().rstrip(b"\n") + b"\n"
INPUT = b"a.b.c\n" + GOOD + b"\n"
wrong = 0


def expect(what, came, due):
    global wrong
    if came != due:
        wrong += 1
        print(f"feed.py: {what}: {came!r}, and not {due!r}", file=sys.stderr)


def run(program, given, out=subprocess.PIPE, **more):
    """The status of a feed over this input, what it wrote, and its line."""
    source = {"input": given} if isinstance(given, bytes) else {"stdin": given}
    words = [program, "feed", POLICY, MOST]
    done = subprocess.run(words, **source, stdout=out, stderr=subprocess.PIPE, timeout=60, **more)
    return done.returncode, done.stdout, done.stderr


def output_fails(program):
    reader, writer = os.pipe()
    os.close(reader)
    expect("nobody reads", run(program, INPUT, out=writer), (4, None, b"unwritten\n"))
    os.close(writer)
    if os.path.exists("/dev/full"):
        with open("/dev/full", "wb") as full:
            expect("a full disk", run(program, INPUT, out=full), (4, None, b"unwritten\n"))
    with tempfile.TemporaryFile() as out:
        # a reader that goes away in the middle: the first lines came to it whole
        words = [program, "feed", POLICY, MOST]
        feed = subprocess.Popen(words, stdin=subprocess.PIPE, stdout=subprocess.PIPE, stderr=out)
        feed.stdin.write(INPUT * 3)
        feed.stdin.flush()
        expect("the first line", feed.stdout.readline(), b"refused 2 form at 5\n")
        feed.stdout.close()
        try:
            for _ in range(1000):
                feed.stdin.write(INPUT * 100)
            feed.stdin.close()
        except BrokenPipeError:
            pass
        status = feed.wait(60)
        out.seek(0)
        expect("a reader that goes away", (status, out.read()), (4, b"unwritten\n"))


def input_fails(program, whole):
    here = os.open(".", os.O_RDONLY)
    expect("input that is a folder", run(program, here), (3, b"", b"unread source\n"))
    os.close(here)
    expect("input that is closed", run(program, None, preexec_fn=lambda: os.close(0)), (3, b"", b"unread source\n"))

    # a connection that is cut behind some lines
    server = socket.create_server(("127.0.0.1", 0))
    sender = socket.create_connection(server.getsockname())
    taken, _ = server.accept()
    words = [program, "feed", POLICY, MOST]
    feed = subprocess.Popen(words, stdin=taken, stdout=subprocess.PIPE, stderr=subprocess.PIPE)
    taken.close()
    sender.sendall(INPUT + b"half a li")
    lines = b"".join(feed.stdout.readline() for _ in range(3))
    sender.setsockopt(socket.SOL_SOCKET, socket.SO_LINGER, struct.pack("ii", 1, 0))
    sender.close()
    rest, line = feed.communicate(timeout=60)
    expect("input that fails in its middle", (feed.returncode, lines + rest, line), (3, whole, b"unread source\n"))
    server.close()


def verdicts_go_out(program, whole):
    """The verdicts of a piece by one write, as soon as it has come: a socket of packets keeps the writes apart."""
    ours, its = socket.socketpair(socket.AF_UNIX, socket.SOCK_SEQPACKET)
    ours.settimeout(60)
    feed = subprocess.Popen([program, "feed", POLICY, MOST], stdin=subprocess.PIPE, stdout=its)
    its.close()
    said = whole.splitlines(keepends=True)
    for piece, due in [(b"a.b", b""), (b".c\n", said[0]), (GOOD[:-1], b""), (b"\n", said[1]), (INPUT, whole),
                       (b"x", b"")]:
        feed.stdin.write(piece)
        feed.stdin.flush()
        if due:
            expect("the verdicts", ours.recv(100_000), due)
        ours.setblocking(False)
        try:
            expect("more than is due", ours.recv(100_000), None)
        except BlockingIOError:
            pass
        ours.settimeout(60)
    feed.stdin.close()
    expect("the last verdict and the count", ours.recv(100_000), b"refused 2 form at 1\nlines 6\n")
    expect("the status", feed.wait(60), 0)
    ours.close()


def judges_now(program, made):
    """Tokens whose verdict tells what time the feed takes it to be."""
    for vector in clock.vectors(int(time.time())):
        if [run["words"][0] for run in vector["runs"]] != ["verify"]:
            continue
        policy = made / "policy.json"
        policy.write_text(vector["files"]["p"], encoding="utf-8")
        due = f"{vector['line']}\n" if vector["line"] else f"accepted {vector['output']}"
        done = subprocess.run([program, "feed", policy, MOST], input=vector["files"]["t"].encode(), capture_output=True,
                              timeout=60)
        expect(vector["about"], (done.returncode, done.stdout), (0, f"{due}lines 1\n".encode()))


def memory_is_refused(program, whole, made):
    compiler = shutil.which("cc")
    library = made / "refuse.so"
    words = ["-shared", "-fPIC", "-O1", "-o", library, HERE / "refuse_memory.c", "-ldl"]
    if compiler is None or subprocess.run([compiler, *words], capture_output=True).returncode:
        print("skipped: refused memory, since there is no C compiler that builds refuse_memory.c")
        return
    count = made / "requests"
    set_up = {"LD_PRELOAD": str(library)}
    counted = run(program, INPUT, env={**set_up, "REQUESTS": str(count)})
    expect("nothing refused", counted, (0, whole + b"lines 3\n", b""))
    requests = int(count.read_text()) if count.exists() else 0
    if requests == 0:
        print("skipped: refused memory, since the program makes no request that could be refused")
        return
    for number in range(requests):
        status, out, line = run(program, INPUT, env={**set_up, "REFUSED": str(number)})
        expect(f"request {number} refused", (status, line), (5, b"memory\n"))
        lines = out.splitlines(keepends=True)
        expect(f"what was written before request {number}", lines, whole.splitlines(keepends=True)[: len(lines)])
    print(f"each of {requests} requests for memory refused in turn")


def main():
    if len(sys.argv) != 2:
        sys.exit(__doc__)
    program = shutil.which(sys.argv[1])
    if program is None:
        sys.exit(f"feed.py: there is no program {sys.argv[1]}")
    program = Path(program).resolve()
    status, out, line = run(program, INPUT)
    whole = out.removesuffix(b"lines 3\n")
    said = [verdict.split(b" ")[0] for verdict in whole.splitlines()]
    expect("the verdicts", (status, said, line), (0, [b"refused", b"accepted", b"refused"], b""))
    with tempfile.TemporaryDirectory() as made:
        output_fails(program)
        input_fails(program, whole)
        verdicts_go_out(program, whole)
        judges_now(program, Path(made))
        memory_is_refused(program, whole, Path(made))
    print(f"feed.py: {wrong} differ" if wrong else "feed.py: all as it should be")
    return 1 if wrong else 0


if __name__ == "__main__":
    sys.exit(main())

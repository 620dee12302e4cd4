"""Runs the built program with readers and writers that are slow, end early, never end or fail, and compares what it does.

Usage: streams.py PROGRAM. The last line tells how many runs went otherwise than wanted; the status is 0 where none did. A run
must end by itself with the status and the line that are wanted, and never by a signal. It wants a C compiler, cc.
"""
import os
import pty
import subprocess
import sys
import tempfile
import threading
import time

ROOT = os.path.dirname(os.path.dirname(os.path.realpath(__file__)))
X1, X2 = f"{ROOT}/examples/x1.ttcn", f"{ROOT}/examples/x2.ttcn"
TEST = ["--testcase", "T", "--steps"]
SECONDS = 60

# the longest text that is a module
LONGEST = 1 << 20

# the report on examples/x1.ttcn
REPORT = b"testcase T\nsteps 2\nconfigurations 3\ncomplete yes\nverdict pass 2\n  mtc\n  mtc\n"

# a test case with more configurations than any limit below allows: three components send many messages each to the main one
CROWD = """module C {
type port P message { inout integer }
type component M { port P p }
type component W { port P q }
function f() runs on W { while (true) { q.send(1) } }
testcase T() runs on M {
var W a := W.create; var W b := W.create; var W c := W.create;
connect(self:p, a:q); connect(self:p, b:q); connect(self:p, c:q);
a.start(f()); b.start(f()); c.start(f());
while (true) { p.receive }
}
}
"""

# a run of so many seconds shows a line of progress for sure
LONG = 3

# what takes a line of progress away, and how one begins
CLEAR = b"\r\x1b[K"
LINE = CLEAR + b"layer "

# Stands before the C library's own read: behind the first one of more than a byte the file SHRINKING has 77 bytes.
SHRINKING = r"""
#define _GNU_SOURCE
#include <stdlib.h>
#include <sys/syscall.h>
#include <unistd.h>
ssize_t read(int file, void *bytes, size_t count) {
    static int is_done;
    ssize_t given = syscall(SYS_read, file, bytes, count);
    if (given > 1 && !is_done) is_done = truncate(getenv("SHRINKING"), 77) == 0;
    return given;
}
"""


def file_in(folder, name, text):
    """Writes a file, and returns its path."""
    with open(f"{folder}/{name}", "wb") as file:
        file.write(text)
    return f"{folder}/{name}"


def bytes_of(path):
    with open(path, "rb") as file:
        return file.read()


def run(program, words, **streams):
    """Returns the status of a run, and what it writes where that is asked for."""
    ran = subprocess.run([program, *words], timeout=SECONDS, **{"stdin": subprocess.DEVNULL, **streams})
    return ran.returncode, ran.stdout or b"", ran.stderr or b""


def from_pipe(program, words, feed):
    """Returns the answer of a run whose standard input is a pipe that `feed` writes to until the program no longer reads it."""
    reads, writes = os.pipe()

    def work():
        try:
            feed(writes)
        except BrokenPipeError:
            pass
        os.close(writes)

    thread = threading.Thread(target=work)
    thread.start()
    try:
        return run(program, words, stdin=reads, capture_output=True)
    finally:
        os.close(reads)
        thread.join()


def slowly(text):
    """Returns a writer of a text that writes few bytes at a time."""
    def feed(pipe):
        for at in range(0, len(text), 7):
            os.write(pipe, text[at:at + 7])
            time.sleep(0.01)
    return feed


def at_once(text):
    return lambda pipe: os.write(pipe, text)


def without_end(pipe):
    while True:
        os.write(pipe, b"(" * 65536)


def to_closed_pipe(program, words):
    """Returns the answer of a run whose standard output is a pipe that nobody reads."""
    reads, writes = os.pipe()
    os.close(reads)
    try:
        return run(program, words, stdout=writes, stderr=subprocess.PIPE)
    finally:
        os.close(writes)


def waits(process):
    """Waits until a process sleeps, for some seconds at most."""
    asleep = 0
    for _ in range(SECONDS * 10):
        with open(f"/proc/{process.pid}/stat") as file:
            state = file.read().rpartition(")")[2].split()[0]
        asleep = asleep + 1 if state == "S" else 0
        if asleep == 3:
            return
        time.sleep(0.1)


def to_full_pipe(program, words):
    """Returns the answer of a run whose standard output is a full pipe, which is closed while the program waits for room."""
    reads, writes = os.pipe()
    os.set_blocking(writes, False)
    try:
        while True:
            os.write(writes, b" " * 4096)
    except BlockingIOError:
        pass
    os.set_blocking(writes, True)
    ran = subprocess.Popen([program, *words], stdin=subprocess.DEVNULL, stdout=writes, stderr=subprocess.PIPE)
    os.close(writes)
    waits(ran)
    os.close(reads)
    try:
        _, told = ran.communicate(timeout=SECONDS)
    finally:
        ran.kill()
    return ran.returncode, b"", told


def to_file(program, words, path):
    with open(path, "wb") as file:
        return run(program, words, stdout=file, stderr=subprocess.PIPE)


def without(program, words, number):
    """Returns the answer of a run that has no stream of this number."""
    return run(program, words, capture_output=True, preexec_fn=lambda: os.close(number))


def on_terminal(program, words):
    """Returns the answer of a run whose standard error is a terminal."""
    ours, theirs = pty.openpty()
    shown = []

    def read():
        try:
            while piece := os.read(ours, 4096):
                shown.append(piece)
        except OSError:
            pass  # the terminal's other end is closed

    reader = threading.Thread(target=read)
    reader.start()
    status, out, _ = run(program, words, stdout=subprocess.PIPE, stderr=theirs)
    os.close(theirs)
    reader.join()
    os.close(ours)
    return status, out, b"".join(shown)


def progress(program, folder):
    """Returns what a run of some seconds answers on a terminal, and whether a line of progress comes and goes there.

    A run with twice the limit takes some twice as long: the first that takes long enough is run again.
    """
    path = file_in(folder, "crowd.ttcn", CROWD.encode())
    for doublings in range(10):
        words = ["run", path, *TEST, "100000", "--workers", "1", "--limit", str(50_000 << doublings)]
        begun = time.monotonic()
        wanted = run(program, words, capture_output=True)
        if time.monotonic() - begun >= LONG:
            break
    status, out, shown = on_terminal(program, words)
    told = shown.rpartition(CLEAR)[2].replace(b"\r\n", b"\n")
    return (status, out, told, shown.startswith(LINE)), (*wanted, True)


def shrinking(program, folder):
    """Returns the answer of a run whose module loses blanks at its end behind the first read of it, and how long it is then."""
    path, library = f"{folder}/shrinking", f"{folder}/shrink.so"
    with open(f"{folder}/shrink.c", "w") as file:
        file.write(SHRINKING)
    subprocess.run(["cc", "-O2", "-shared", "-fPIC", "-o", library, f"{folder}/shrink.c"], check=True)
    with open(path, "wb") as file:
        file.write(bytes_of(X1).ljust(LONGEST))
    more = {"LD_PRELOAD": library, "SHRINKING": path}
    given = run(program, ["run", path, *TEST, "2"], capture_output=True, env={**os.environ, **more})
    return given, os.path.getsize(path)


def rows(program, folder):
    """Returns for each run its name, what it answered, and what is wanted."""
    module, race = bytes_of(X1), bytes_of(X2)
    report, report_on_race = (0, REPORT, b""), (0, bytes_of(f"{ROOT}/examples/x2.report"), b"")
    pipe, unread, unwritten = ["run", "/dev/stdin", *TEST], (5, b"", f"cannot read {folder}\n".encode()), (5, b"", b"cannot write\n")
    replay = ["replay", X2, "--testcase", "T", "--run", f"{ROOT}/examples/x2.pass.run"]
    yield "a slow writer", from_pipe(program, [*pipe, "13"], slowly(race)), report_on_race
    yield "a module at once", from_pipe(program, [*pipe, "2"], at_once(module)), report
    for beginning, fault in ((module[:59], b"refused P3 LeftOut at 3:26\n"), (module[:40], None), (b"", None)):
        given = from_pipe(program, [*pipe, "2"], at_once(beginning))
        wanted = (1, b"", fault or (given[2] if given[2].startswith(b"refused P1 Unexpected at ") else b"P1"))
        yield f"a writer that ends after {len(beginning)} bytes", given, wanted
    for command in (pipe + ["2"], ["check", "/dev/stdin"]):
        yield f"{command[0]}: a writer without end", from_pipe(program, command, without_end), (1, b"", b"refused L5 TextTooLong at 1:1\n")
    yield "a directory, run", run(program, ["run", folder, *TEST, "2"], capture_output=True), unread
    yield "a directory, check", run(program, ["check", folder], capture_output=True), unread
    yield "a directory, replay", run(program, ["replay", folder, *replay[2:]], capture_output=True), unread
    yield "a directory as run file", run(program, [*replay[:-1], folder], capture_output=True), unread
    yield "no standard input", without(program, [*pipe, "2"], 0), (5, b"", b"cannot read /dev/stdin\n")
    for words in (["run", X2, *TEST, "13"], ["run", X2, *TEST, "13", "--json"], ["check", X1], replay, ["--help"]):
        yield f"{words[0]} to a pipe that nobody reads", to_closed_pipe(program, words), unwritten
        yield f"{words[0]} to a full pipe that is closed", to_full_pipe(program, words), unwritten
        yield f"{words[0]} to a full device", to_file(program, words, "/dev/full"), unwritten
        yield f"{words[0]} without standard output", without(program, words, 1), unwritten
    yield "a fault without standard error", without(program, ["check", folder], 2), (5, b"", b"")
    yield "a short run on a terminal", on_terminal(program, ["run", X1, *TEST, "2"]), report
    yield "a run of some seconds on a terminal", *progress(program, folder)
    yield "a file that shrinks while it is read", shrinking(program, folder), (report, len(module))


def main(program):
    program, count, otherwise = os.path.abspath(program), 0, 0
    with tempfile.TemporaryDirectory() as folder:
        for name, given, wanted in rows(program, folder):
            count += 1
            if given != wanted:
                otherwise += 1
                print(f"streams: {name}: {str(given)[:900]}", file=sys.stderr)
    print(f"streams: {count} runs, {otherwise} went otherwise")
    return 1 if otherwise else 0


if __name__ == "__main__":
    sys.exit(main(sys.argv[1]))

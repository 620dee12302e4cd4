"""Has requests for memory refused: in the calls, in whole runs of the program, and by a limit on the program's memory.

Usage: memory.py TTCNX CALLS [limits]. TTCNX is the built program, CALLS the program that makes the calls where its
argument is --refuse-memory (crates/test_rows). It wants a C compiler, cc, and the C library of GNU.

- In the calls: CALLS makes each call over and over, and has its N-th call of malloc, calloc or realloc refused, from N = 1
  on, until a call asks no more so often. Each call must answer that it got no memory, or as with ample memory.
- In whole runs: TTCNX runs on texts of examples/, and its N-th request is refused, from the first one of the process on. A run
  must answer as with ample memory, byte for byte, or write nothing but the line "out of memory" and end with status 4. The
  process is forked for each N before its main function begins, which takes a fraction of a new process.
- By a limit: TTCNX explores a module that needs more memory than it may have, 100 and 400 MB, with 1 and 4 workers; it must
  write "out of memory" alone and end with status 4. With the word limits that is all that is tried, from 100 MB to 2 GB.

It prints a line for each call, command and limit. The last line tells how many requests were refused and how many were
answered otherwise; the status is 0 where none was. A call or command of which no request was refused counts as answered
otherwise, since each of them asks for memory.
"""
import os
import resource
import subprocess
import sys
import tempfile

ROOT = os.path.dirname(os.path.dirname(os.path.realpath(__file__)))

COMMANDS = [
    "check examples/x5.ttcn",
    "run examples/x1.ttcn --testcase T --steps 2",
    "run examples/x2.ttcn --testcase T --steps 13 --workers 4 --piece 1",
    "run examples/x6.ttcn --testcase T --steps 10 --json",
    "run examples/y1.ttcn --testcase T --steps 9 --script examples/y1.json",
    "replay examples/x2.ttcn --testcase T --run examples/x2.pass.run",
    "double examples/x2.ttcn --testcase T --run examples/x2.pass.run",
    "explain examples/lock.ttcn --testcase two_clients --run examples/lock.blocked.run",
    "explain examples/x2.ttcn --testcase T --run examples/x2.fail.run --format svg",
    "run examples/y1.ttcn --testcase T --steps 9 --script examples/y1.json --explain --json",
    "run examples/x2.ttcn --testcase T --until-complete --first fail",
    "run examples/x2.ttcn --testcase T --steps 13 --limit 10 --partial --explain",
    "run examples/x2.ttcn --testcase T --steps 13 --run-to 15:1",
    "run examples/x6.ttcn --testcase T --until-complete --expiries 1 --json",
    "run examples/y1.ttcn --testcase T --steps 9 --script examples/y1.json --patient-timers",
    "run examples/x6.ttcn --testcase T --until-complete --few-expiries --explain",
    "run tools/statuses/lost.ttcn --testcase T --until-complete --explain",
    "lint examples/x2.ttcn tools/statuses/lint/lock.ttcn",
    "lint tools/statuses/lint/warnings.ttcn --format json",
    "list examples/lock.ttcn",
    "coarsen examples/x6.ttcn --testcase T --run examples/x6.fine.run",
    "coarsen examples/x2.ttcn --testcase T --run examples/x2.pass.run",
    "run examples/x1.ttcn --testcase t --steps 2",
    "run examples/x1.ttcn --testcase T --steps 2 --limit 2",
]

# Megabytes that a process may have.
FEW_LIMITS, ALL_LIMITS = [100, 400], [100, 200, 500, 1000, 2000]

# The status and the texts of a run that gets no memory.
REFUSAL = (4, b"", b"out of memory\n")

# Stands before the C library's own calls. A program asks for refusals by opening files of these names: "/refused memory/N"
# (from here on the N-th request is refused), "/refused memory/all", and "/refused memory/any", which ends that and opens only
# where a request was refused. "/refused memory/" always opens.
# Where the environment names FIRST and STEP, the process is made anew before its main function for N = FIRST, FIRST + STEP and
# so on, each time with its N-th request refused, until a process asks no more so often. Each must answer with the status
# WANTED and the bytes of the files OUT and ERR, or as REFUSAL says; N is printed where one doesn't. The last line tells how
# many requests were refused.
LIBRARY = r"""
#define _GNU_SOURCE
#include <errno.h>
#include <fcntl.h>
#include <poll.h>
#include <signal.h>
#include <stdarg.h>
#include <stdatomic.h>
#include <stdio.h>
#include <stdlib.h>
#include <string.h>
#include <sys/mman.h>
#include <sys/syscall.h>
#include <sys/wait.h>
#include <unistd.h>
extern void *__libc_malloc(size_t);
extern void *__libc_calloc(size_t, size_t);
extern void *__libc_realloc(void *, size_t);
static const char ORDER[] = "/refused memory/", NONE[] = "out of memory\n";
enum { MOST = 1 << 20, SECONDS = 60 };
struct text { char bytes[MOST]; long length; };
static struct text wanted[2], given[2];
static atomic_long requests, at, refusals, *told;
static int real_open(const char *name, int flags, int mode) { return syscall(SYS_openat, AT_FDCWD, name, flags, mode); }
static int refused(void) {
    long which = atomic_load(&at), number = atomic_fetch_add(&requests, 1) + 1;
    if (!which || (which > 0 && which != number)) return 0;
    atomic_fetch_add(&refusals, 1);
    if (told) atomic_store(told, 1);
    errno = ENOMEM;
    return 1;
}
void *malloc(size_t size) { return refused() ? NULL : __libc_malloc(size); }
void *calloc(size_t count, size_t size) { return refused() ? NULL : __libc_calloc(count, size); }
void *realloc(void *old, size_t size) { return refused() ? NULL : __libc_realloc(old, size); }
static int obeyed(const char *order) {
    if (!*order) return 1;
    if (!strcmp(order, "any")) { atomic_store(&at, 0); return atomic_exchange(&refusals, 0) > 0; }
    atomic_store(&refusals, 0);
    atomic_store(&requests, 0);
    atomic_store(&at, strcmp(order, "all") ? atol(order) : -1);
    return 1;
}
int open(const char *name, int flags, ...) {
    va_list rest;
    va_start(rest, flags);
    int mode = va_arg(rest, int);
    va_end(rest);
    if (strncmp(name, ORDER, sizeof ORDER - 1)) return real_open(name, flags, mode);
    if (obeyed(name + sizeof ORDER - 1)) return real_open("/dev/null", O_RDONLY, 0);
    errno = ENOENT;
    return -1;
}
/* Reads more of a text. Answers whether there was more, and room for it. */
static int more(int from, struct text *text) {
    long count = read(from, text->bytes + text->length, MOST - text->length);
    if (count > 0) text->length += count;
    return count > 0;
}
static int is_same(const struct text *one, const char *bytes, long length) {
    return one->length == length && !memcmp(one->bytes, bytes, length);
}
/* Reads what a process writes, and waits for its end. */
static int status_of(pid_t process, int out, int err) {
    struct pollfd ends[2] = {{out, POLLIN, 0}, {err, POLLIN, 0}};
    given[0].length = given[1].length = 0;
    while (ends[0].fd >= 0 || ends[1].fd >= 0) {
        if (poll(ends, 2, 1000 * SECONDS) <= 0) { kill(process, SIGKILL); break; }
        for (int it = 0; it < 2; it++)
            if (ends[it].revents && !more(ends[it].fd, &given[it])) { close(ends[it].fd); ends[it].fd = -1; }
    }
    for (int it = 0; it < 2; it++) if (ends[it].fd >= 0) close(ends[it].fd);
    int status;
    waitpid(process, &status, 0);
    return WIFEXITED(status) ? WEXITSTATUS(status) : -WTERMSIG(status);
}
static int is_as_wanted(int status) {
    return (status == atoi(getenv("WANTED")) && is_same(&given[0], wanted[0].bytes, wanted[0].length)
            && is_same(&given[1], wanted[1].bytes, wanted[1].length))
        || (status == 4 && !given[0].length && is_same(&given[1], NONE, sizeof NONE - 1));
}
__attribute__((constructor)) static void begin(void) {
    if (!getenv("FIRST")) return;
    const char *names[2] = {getenv("OUT"), getenv("ERR")};
    for (int it = 0; it < 2; it++) {
        int file = real_open(names[it], O_RDONLY, 0);
        while (more(file, &wanted[it])) {}
        close(file);
    }
    told = mmap(NULL, sizeof *told, PROT_READ | PROT_WRITE, MAP_SHARED | MAP_ANONYMOUS, -1, 0);
    long number = atol(getenv("FIRST")), step = atol(getenv("STEP")), count = 0;
    for (;; number += step, count++) {
        int out[2], err[2];
        if (pipe(out) || pipe(err)) _exit(70);
        atomic_store(told, 0);
        pid_t process = fork();
        if (process < 0) _exit(70);
        if (!process) {
            dup2(out[1], 1);
            dup2(err[1], 2);
            for (int it = 0; it < 2; it++) { close(out[it]); close(err[it]); }
            atomic_store(&requests, 0);
            atomic_store(&at, number);
            return;
        }
        close(out[1]);
        close(err[1]);
        int status = status_of(process, out[0], err[0]);
        if (!atomic_load(told)) break;
        if (!is_as_wanted(status)) { printf("%ld\n", number); fflush(stdout); }
    }
    printf("refused %ld\n", count);
    fflush(stdout);
    _exit(0);
}
"""


def build(folder):
    """Returns the path of the library that refuses requests."""
    with open(f"{folder}/refuse.c", "w") as file:
        file.write(LIBRARY)
    library = f"{folder}/refuse.so"
    subprocess.run(["cc", "-O2", "-shared", "-fPIC", "-o", library, f"{folder}/refuse.c"], check=True)
    return library


def refuse_in_calls(program, library):
    """Returns how many requests of the calls were refused, and how many of the answers were otherwise than they may be."""
    ran = subprocess.Popen([program, "--refuse-memory"], env={**os.environ, "LD_PRELOAD": library}, stdout=subprocess.PIPE, text=True)
    name, refused, wrong, otherwise = "", 0, 0, 0
    for line in ran.stdout:
        print(line, end="", flush=True)
        name, _, counts = line.rpartition(": ")
        numbers = [int(it) for it in counts.split() if it.isdigit()]
        refused, wrong = numbers if len(numbers) == 2 else (0, 1)
        otherwise += refused == 0
    status, otherwise = ran.wait(), otherwise + wrong
    if name != "all" or status not in (0, 1):
        print(f"  the program ended with status {status} behind {name!r}")
        otherwise += 1
    return refused, otherwise


def answer(program, words):
    """Returns the status and what the program writes."""
    ran = subprocess.run([program, *words], cwd=ROOT, capture_output=True, timeout=60)
    return ran.returncode, ran.stdout, ran.stderr


def refuse_each(program, words, folder, library):
    """Returns how many requests of a command were refused, and how many of the runs answered otherwise than they may."""
    wanted = answer(program, words)
    for name, text in zip(("out", "err"), wanted[1:]):
        with open(f"{folder}/{name}", "wb") as file:
            file.write(text)
    count = os.cpu_count()
    told = {"LD_PRELOAD": library, "STEP": str(count), "WANTED": str(wanted[0]), "OUT": f"{folder}/out", "ERR": f"{folder}/err"}
    parts = [subprocess.Popen([program, *words], cwd=ROOT, env={**os.environ, **told, "FIRST": str(it + 1)},
                              stdout=subprocess.PIPE, text=True) for it in range(count)]
    refused, otherwise = 0, 0
    for part in parts:
        *numbers, last = part.communicate()[0].splitlines() or [""]
        for number in numbers:
            print(f"  request {number} refused: another answer")
        otherwise += len(numbers)
        if part.returncode == 0 and last.startswith("refused "):
            refused += int(last.split()[1])
        else:
            print(f"  the requests were not gone through: status {part.returncode}, {last!r}")
            otherwise += 1
    if not refused or wanted[0] == REFUSAL[0]:
        otherwise += 1
        print(f"  no request is refused, or the answer with ample memory is {wanted}")
    return refused, otherwise


def crowd(senders, messages):
    """Returns a module in which so many components send so many messages each, and the main one takes them all."""
    makes = "".join(f"var W w{it} := W.create;\nconnect(self:p, w{it}:q);\n" for it in range(senders))
    starts = "".join(f"w{it}.start(f({it}));\n" for it in range(senders))
    return f"""module F {{
type port P message {{ inout integer }}
type component M {{ port P p }}
type component W {{ port P q }}
function f(integer x) runs on W {{
for (var integer i := 0; i < {messages}; i := i + 1) {{ q.send(x + i) }}
}}
testcase T() runs on M {{
{makes}{starts}for (var integer i := 0; i < {senders * messages}; i := i + 1) {{ p.receive }}
}}
}}
"""


def limit_memory(program, folder, limits):
    """Returns how many of the runs with so many megabytes answered otherwise than that they got no memory."""
    path, otherwise = f"{folder}/crowd.ttcn", 0
    with open(path, "w") as file:
        file.write(crowd(5, 4))
    for limit in limits:
        for workers in (1, 4):
            words = ["run", path, "--testcase", "T", "--steps", "1000", "--limit", "10000000", "--workers", str(workers)]
            bound = limit * 1000000
            ran = subprocess.run([program, *words], capture_output=True, timeout=1200,
                                 preexec_fn=lambda: resource.setrlimit(resource.RLIMIT_AS, (bound, bound)))
            given = ran.returncode, ran.stdout, ran.stderr
            otherwise += given != REFUSAL
            print(f"{limit} MB, {workers} workers: status {given[0]}, {given[1][:200] + given[2][:200]!r}", flush=True)
    return otherwise


def main(words):
    program, calls = (os.path.abspath(it) for it in words[:2])
    refused, otherwise = 0, 0
    with tempfile.TemporaryDirectory() as folder:
        if words[2:] == ["limits"]:
            otherwise = limit_memory(program, folder, ALL_LIMITS)
        else:
            library = build(folder)
            refused, otherwise = refuse_in_calls(calls, library)
            for command in COMMANDS:
                more = refuse_each(program, command.split(), folder, library)
                print(f"{command}: {more[0]} requests refused in turn, {more[1]} answered otherwise", flush=True)
                refused, otherwise = refused + more[0], otherwise + more[1]
            otherwise += limit_memory(program, folder, FEW_LIMITS)
    print(f"memory: {refused} requests refused, {otherwise} answered otherwise")
    return 1 if otherwise else 0


if __name__ == "__main__":
    sys.exit(main(sys.argv[1:]))

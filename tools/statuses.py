"""Runs the built program with command lines of each kind, and compares its statuses and texts with those wanted.

Usage: statuses.py PROGRAM. The last line tells how many were answered otherwise; the status is 0 where none was.

The texts of help, and one of each kind of refusal of a command line, stand in the folder statuses/, byte for byte. They are
mostly words of `clap`, so they are what the program wrote once, read and found right: a change of them is to be read again.
statuses/causes.ttcn has runs beside what their explanations must say; statuses/faults.ttcn has two faults, and how it comes to them.
"""
import os
import re
import subprocess
import sys
import tempfile

TOOLS = os.path.dirname(os.path.realpath(__file__))
EXAMPLES = os.path.join(os.path.dirname(TOOLS), "examples")
X1, X2, Y1 = f"{EXAMPLES}/x1.ttcn", f"{EXAMPLES}/x2.ttcn", f"{EXAMPLES}/y1.ttcn"

# the runs of examples whose explanations are stored beside them, and their test cases
EXPLAINED = {
    "x2.fail": "T",
    "ecu.fail": "write_in_session",
    "lock.blocked": "two_clients",
    "register.fail": "store_and_load",
    "unit.fail": "read_data",
}

# the longest text that is a module or a script
LONGEST = 1 << 20

# the first steps of examples/y1.ttcn, and the reports on it with 9 steps: where 1 comes in and then 2, where 2 comes in first,
# and where nothing comes in
FIRST = b"mtc\n" * 3
HEAD = b"testcase T\nsteps 9\nconfigurations %d\ncomplete yes\n"
VERDICT = b"verdict %s 7\n" + b"  mtc\n" * 3 + b"  %s\n" + b"  mtc\n" * 3
ONE_FIRST = HEAD % 29 + VERDICT % (b"pass", b"system.p") + VERDICT % (b"inconc", b"mtc/0.t") + b"branch 9:1\nbranch 11:1\n"
TWO_FIRST = HEAD % 29 + VERDICT % (b"inconc", b"mtc/0.t") + VERDICT % (b"fail", b"system.p") + b"branch 10:1\nbranch 11:1\n"
NOTHING = HEAD % 8 + VERDICT % (b"inconc", b"mtc/0.t") + b"branch 11:1\n"
ONE_FIRST_IN_JSON = (
    b'{"blocked":[],"branches":["9:1","11:1"],"complete":true,"configurations":29,"steps":9,"testcase":"T","verdicts":['
    b'{"run":["mtc","mtc","mtc","system.p","mtc","mtc","mtc"],"verdict":"pass"},'
    b'{"run":["mtc","mtc","mtc","mtc/0.t","mtc","mtc","mtc"],"verdict":"inconc"}]}\n'
)

# the report on examples/x2.ttcn, and the beginning of its runs
TO_RACE = b"mtc\n" * 6
RACE_RUN = b"verdict %s 10\n" + b"  mtc\n" * 6 + b"  %s\n" + b"  mtc\n" * 3
RACE = b"testcase T\nsteps 13\nconfigurations 47\ncomplete yes\n" + RACE_RUN % (b"pass", b"mtc.1") + RACE_RUN % (b"fail", b"mtc.2") + b"branch 14:1\nbranch 15:1\n"

# a report on it of fewer steps, and that on a module that counts without end, which is of the most steps
FEW = b"testcase T\nsteps 6\nconfigurations 8\ncomplete no\n"
FEW_IN_JSON = b'{"blocked":[],"branches":[],"complete":false,"configurations":8,"steps":6,"testcase":"T","verdicts":[]}\n'
COUNTING = b"module L {\ntype component C {}\ntestcase T() runs on C {\nvar integer n := 0;\nwhile (true) { n := n + 1 }\n}\n}\n"

COUNTED = b"testcase T\nsteps 100000\nconfigurations 100001\ncomplete no\n"

# a test case whose only run has as many steps as a run may have, and its report
LAST = b'module L {\ntype component C {}\ntestcase T() runs on C {\nvar integer n := 0;\nwhile (n < 49998) { n := n + 1 }\nlog("x")\n}\n}\n'

ENDED = b"testcase T\nsteps 100000\nconfigurations 100001\ncomplete yes\nverdict none 100000\n" + b"  mtc\n" * 100000

# reports within a bound on a component that waits for a message or for a timer: its run without an expiry, and with one
MESSAGE_RUN = b"verdict pass 9\n" + b"  mtc\n" * 4 + b"  mtc.1\n" + b"  mtc\n" * 4
TIMEOUT_RUN = b"verdict inconc 8\n" + b"  mtc\n" * 4 + b"  mtc/0.t\n" + b"  mtc\n" * 3
IN_TIME = b"testcase T\nsteps 10\n%sconfigurations 16\ncomplete yes\n" + MESSAGE_RUN + b"branch 12:1\n"
ONE_EXPIRY = b"testcase T\nsteps 11\nexpiries 1\nconfigurations 33\ncomplete yes\n" + MESSAGE_RUN + TIMEOUT_RUN + b"branch 12:1\nbranch 13:1\n"
FIRST_EXPIRY = b"testcase T\nsteps 8\nexpiries 1\nconfigurations 26\ncomplete no\n" + TIMEOUT_RUN + b"branch 12:1\nbranch 13:1\n"
FEW_EXPIRIES = b"testcase T\nsteps 5\nexpiries 1\nconfigurations 9\ncomplete no\n"
MESSAGE_IN_JSON = (b'{"blocked":[],"branches":["12:1"],"complete":true,"configurations":16,"steps":30,"testcase":"T",'
                   b'"verdicts":[{"run":["mtc","mtc","mtc","mtc","mtc.1","mtc","mtc","mtc","mtc"],"verdict":"pass"}],"within":%s}\n')

# words that are no places
NO_PLACES = ["", "14", "14:", ":1", "14:1:1", "14: 1", "+14:1", "014:1", "14:01", "x:1", "4294967296:1", "14.1"]

# a module that waits for ever in line 6
WAITING = b"module W {\ntype port P message { inout integer }\ntype component C { port P p }\ntestcase T() runs on C {\nvar integer n := 0;\np.receive(1);\n}\n}\n"


def stored(name):
    """Returns a text of the folder statuses/."""
    with open(f"{TOOLS}/statuses/{name}.txt", "rb") as file:
        return file.read()


def explained(name, script=None):
    """Returns the command line that explains the run of an example, and the explanation that is stored beside it."""
    module, testcase = name.split(".")[0], EXPLAINED[name]
    words = ["explain", f"{EXAMPLES}/{module}.ttcn", "--testcase", testcase, "--run", f"{EXAMPLES}/{name}.run"]
    if script:
        words += ["--script", f"{EXAMPLES}/{script}"]
    with open(f"{EXAMPLES}/{name}.explained", "rb") as file:
        return words, 0, file.read()


def labels_of(words):
    """Returns the labels of a run that is written in short, as `mtc*3 mtc.1`, a line each."""
    parts = (word.partition("*") for word in words.split())
    return "".join(f"{label}\n" * int(count or 1) for label, _, count in parts).encode()


def cause_rows(folder):
    """Returns the command lines that explain the runs of statuses/causes.ttcn, each with its status, and the lines of its text."""
    module = f"{TOOLS}/statuses/causes.ttcn"
    with open(module, encoding="utf-8") as file:
        cases = re.findall(r"// run: ?(.*)\n((?: *// says: .*\n)+) *testcase (\w+)", file.read())
    for run, says, name in cases:
        run = file_in(folder, f"{name}.run", labels_of(run))
        yield ["explain", module, "--testcase", name, "--run", run], 0, re.findall(r"// says: (.*)", says)


def drawing_rows(folder):
    """Returns the command lines that draw a run with all that charts can show, and a run without steps, in each format."""
    module, test = f"{TOOLS}/statuses/drawn.ttcn", ["--testcase", "tc_drawn"]
    script = ["--script", file_in(folder, "drawn.json", b'{"ui":[{"boolean":true}]}')]
    run = file_in(folder, "drawn.run", labels_of("mtc*7 mtc.1*9 system.ui mtc*3"))
    none = file_in(folder, "none.run", b"")
    for drawing in ["text", "json", "mermaid", "svg"]:
        yield ["explain", module, *test, "--run", run, *script, "--format", drawing], 0, stored(f"drawn_{drawing}")
        yield ["explain", module, *test, "--run", none, *script, "--format", drawing], 0, stored(f"drawn_none_{drawing}")


def explained_rows(folder):
    """Returns command lines that explain runs, each with its status, and what its text is or begins with, or how lines of it end."""
    test = ["--testcase", "T", "--run", f"{EXAMPLES}/x2.fail.run"]
    wrong = file_in(folder, "wrong.run", b"mtc\nmtc.1\n")
    lock = ["run", f"{EXAMPLES}/lock.ttcn", "--testcase", "two_clients", "--steps", "60"]
    return [
        *(explained(name) for name in EXPLAINED if not name.startswith("unit")),
        explained("unit.fail", "unit.json"),
        *cause_rows(folder),
        *drawing_rows(folder),
        (["explain", X2, *test, "--format", "json"], 0, stored("explained_json")),
        (["explain", X2, *test, "--format=mermaid"], 0, stored("explained_mermaid")),
        (["explain", X2, *test, "--format", "svg"], 0, stored("explained_svg")),
        (["run", X2, "--testcase", "T", "--steps", "13", "--explain"], 0, stored("explained_report")),
        (["run", X2, "--testcase", "T", "--steps", "13", "--explain", "--json"], 0, stored("explained_report_json")),
        (["run", f"{TOOLS}/statuses/faults.ttcn", "--testcase", "T", "--until-complete", "--explain"], 0, stored("explained_faults")),
        (["run", f"{TOOLS}/statuses/lost.ttcn", "--testcase", "T", "--until-complete", "--explain"], 0, stored("explained_lost")),
        ([*lock, "--explain"], 0, stored("explained_lock")),
        ([*lock, "--explain", "--json"], 0, stored("explained_lock_json").decode().splitlines()),
        (["explain", X1, *test], 1, b"refused N2 NotEnabled at label 3\n"),
        (["explain", X2, "--testcase", "T", "--run", wrong], 1, b"refused N2 NotEnabled at label 2\n"),
        (["run", X1, "--testcase", "T", "--steps", "2", "--limit", "2", "--explain"], 3, b"refused E1 TooMany\n"),
    ]


def until_rows(folder):
    """Returns command lines with reports up to a stop, each with its status, and what its text is or begins with."""
    run = ["run", X2, "--testcase", "T"]
    few = [*run, "--steps", "13", "--limit", "10"]
    counting = ["run", file_in(folder, "counting.ttcn", COUNTING), "--testcase", "T"]
    stopped = b"stopped E1 TooMany behind 6 steps\n"
    return [
        ([*run, "--until-complete"], 0, RACE),
        ([*run, "--until-complete", "--workers", "4", "--piece", "1", "--limit", "47"], 0, RACE),
        ([*run, "--until-complete", "--json"], 0, '{"blocked":[],"branches":["14:1","15:1"],"complete":true,"configurations":47,"steps":13,'),
        ([*run, "--until-complete", "--explain"], 0, stored("explained_report")),
        ([*run, "--until-complete", "--explain", "--json"], 0, stored("explained_report_json")),
        ([*run, "--until-complete", "--limit", "46"], 3, b"refused E1 TooMany\n"),
        ([*run, "--until-complete", "--limit", "10", "--partial"], 3, (FEW, stopped)),
        ([*run, "--steps", "13", "--partial"], 0, RACE),
        ([*run, "--steps", "6", "--partial", "--limit", "10"], 0, FEW),
        (few, 3, b"refused E1 TooMany\n"),
        ([*few, "--partial"], 3, (FEW, stopped)),
        ([*few, "--partial", "--json"], 3, (FEW_IN_JSON, stopped)),
        ([*few, "--partial", "--explain"], 3, (stored("explained_few"), stopped)),
        ([*few, "--partial", "--explain", "--json"], 3, (FEW_IN_JSON + stored("explained_few_json"), stopped)),
        ([*few, "--partial", "--first", "fail"], 3, (FEW, stopped)),
        ([*run, "--steps", "13", "--first", "fail"], 0, stored("first_fail")),
        ([*run, "--steps", "10"], 0, stored("first_fail")),
        ([*run, "--until-complete", "--first", "pass", "--workers", "2", "--piece", "1"], 0, stored("first_fail")),
        ([*run, "--until-complete", "--first", "error"], 0, RACE),
        ([*run, "--steps", "9", "--first", "fail"], 0, "testcase T\nsteps 9\n"),
        ([*counting, "--until-complete", "--limit", "100"], 3, b"refused E1 TooMany\n"),
        ([*counting, "--until-complete"], 3, (COUNTED, b"stopped E3 NotComplete behind 100000 steps\n")),
        (["run", file_in(folder, "last.ttcn", LAST), "--testcase", "T", "--until-complete"], 0, ENDED),
        ([*run[:3], "t", "--until-complete"], 1, b"refused U1 NoSuchTestCase\n"),
        (["run", f"{folder}/missing", *run[2:], "--until-complete"], 5, f"cannot read {folder}/missing\n".encode()),
    ]


def bound_rows():
    """Returns command lines with a bound on expiries, each with its status and its text."""
    run = ["run", f"{TOOLS}/statuses/timeout.ttcn", "--testcase", "T"]
    complete = [*run, "--until-complete"]
    race = ["run", X2, "--testcase", "T", "--steps", "13"]
    return [
        ([*complete, "--expiries", "0"], 0, IN_TIME % b"expiries 0\n"),
        ([*complete, "--patient-timers", "--workers", "4", "--piece", "1"], 0, IN_TIME % b"patient-timers\n"),
        ([*complete, "--patient-timers", "--expiries=1", "--quiet"], 0, IN_TIME % b"expiries 1\npatient-timers\n"),
        ([*run, "--steps", "30", "--expiries", "0", "--json"], 0, MESSAGE_IN_JSON % b'{"expiries":0}'),
        ([*run, "--steps", "30", "--expiries", "1", "--patient-timers", "--json"], 0, MESSAGE_IN_JSON % b'{"expiries":1,"patient_timers":true}'),
        ([*complete, "--expiries", "1"], 0, ONE_EXPIRY),
        ([*complete, "--expiries", "1", "--first", "inconc"], 0, FIRST_EXPIRY),
        ([*complete, "--expiries", "1", "--limit", "32"], 3, b"refused E1 TooMany\n"),
        ([*complete, "--expiries", "1", "--limit", "12", "--partial"], 3, (FEW_EXPIRIES, b"stopped E1 TooMany behind 5 steps\n")),
        ([*race, "--patient-timers"], 0, RACE.replace(b"steps 13\n", b"steps 13\npatient-timers\n")),
        ([*race, "--expiries", "4294967295", "--limit", "46"], 3, b"refused E1 TooMany\n"),
        ([*run[:3], "t", "--until-complete", "--expiries", "1"], 1, b"refused U1 NoSuchTestCase\n"),
    ]


def aim_rows(folder):
    """Returns command lines with runs to places, each with its status and what its text is."""
    run = ["run", X2, "--testcase", "T", "--steps", "13"]
    complete = ["run", X2, "--testcase", "T", "--until-complete"]
    waiting = ["run", file_in(folder, "waiting.ttcn", WAITING), "--testcase", "T", "--until-complete"]
    script = ["--script", file_in(folder, "two_to_come.json", b'{"p":[{"integer":2}]}')]
    return [
        ([*run, "--run-to", "15:1"], 0, TO_RACE + b"mtc.2\nmtc\n"),
        ([*complete, "--run-to=14:1", "--workers", "4", "--piece", "1"], 0, TO_RACE + b"mtc.1\nmtc\n"),
        ([*run, "--run-to", "7:1"], 0, b"mtc\n"),
        ([*run, "--run-to", "5:35"], 0, b"mtc\n" * 5 + b"mtc.1\n"),
        ([*run, "--run-to", "15:16"], 0, TO_RACE + b"mtc.2\nmtc\nmtc\n"),
        ([*run, "--limit", "46", "--run-to", "15:1"], 0, TO_RACE + b"mtc.2\nmtc\n"),
        ([*run, "--limit", "7", "--run-to", "15:1"], 3, b"refused E1 TooMany\n"),
        ([*run[:-1], "7", "--run-to", "15:1"], 1, b"refused U2 NoSuchRun of 7 steps\n"),
        ([*run, "--run-to", "1:1"], 1, b"refused U2 NoSuchRun of 13 steps\n"),
        ([*complete, "--run-to", "0:4294967295"], 1, b"refused U2 NoSuchRun\n"),
        ([*complete, "--run-to-block", "15:1"], 1, b"refused U2 NoSuchRun\n"),
        ([*waiting, "--run-to-block", "6:1"], 0, b"mtc\n"),
        ([*waiting, "--run-to", "6:1"], 1, b"refused U2 NoSuchRun\n"),
        (["run", Y1, "--testcase", "T", "--steps", "9", *script, "--run-to", "10:1"], 0, FIRST + b"system.p\nmtc\n"),
        (["run", Y1, "--testcase", "T", "--steps", "9", "--run-to", "10:1"], 1, b"refused U2 NoSuchRun of 9 steps\n"),
        ([*run[:3], "t", "--steps", "13", "--run-to", "15:1"], 1, b"refused U1 NoSuchTestCase\n"),
        *(([*run, "--run-to", word], 2, f"error: invalid value '{word}' for '--run-to <LINE:COL>': ") for word in NO_PLACES),
        *((["run", "f", *run[2:], f"--run-to-block={word}"], 2, f"error: invalid value '{word}' for '--run-to-block <LINE:COL>': ") for word in NO_PLACES),
    ]


# a module whose shortest run to a verdict has an expiry that it doesn't need: without it a message comes, and a timer is stopped
EARLY = b"""module E {
type port P message { inout integer }
type component M { port P p; timer t := 1.0 }
type component W { port P q }
function f() runs on W { q.send(1) }
testcase T() runs on M {
var W a := W.create;
connect(self:p, a:q);
a.start(f());
t.start;
alt {
[] p.receive(1) { t.stop; setverdict(fail) }
[] t.timeout { setverdict(fail) }
}
}
}
"""
EARLY_REPORT = b"testcase T\nsteps 100\nconfigurations 27\ncomplete yes\nverdict fail %s\nbranch 12:1\nbranch 13:1\n"
WITH_EXPIRY = b"8\n" + b"  mtc\n" * 4 + b"  mtc/0.t\n" + b"  mtc\n" * 2 + b"  mtc"
WITHOUT_EXPIRY = b"9\n" + b"  mtc\n" * 4 + b"  mtc.1\n" + b"  mtc\n" * 3 + b"  mtc"


def within(report, *lines):
    """Returns a report with the lines that tell of a bound behind that of the steps."""
    head, steps, rest = re.fullmatch(rb"(testcase .*\n)(steps .*\n)((?s:.*))", report).groups()
    return head + steps + b"".join(lines) + rest


def within_in_json(report, bound):
    """Returns a report in JSON with what tells of a bound behind its other members."""
    return report[:-2] + b',"within":' + bound + b"}\n"


def bounded_rows(folder):
    """Returns command lines with reports on the runs that keep a bound on expiries, each with its status and what its text is."""
    run = ["run", X2, "--testcase", "T", "--steps", "13"]
    few = [*run, "--limit", "10", "--partial"]
    stopped = b"stopped E1 TooMany behind 6 steps\n"
    none, patient = b"expiries 0\n", b"patient-timers\n"
    script = ["--script", file_in(folder, "bounded.json", b'{"p":[{"integer":1},{"integer":2}]}')]
    explore = ["run", Y1, "--testcase", "T", "--until-complete", *script]
    early = ["run", file_in(folder, "early.ttcn", EARLY), "--testcase", "T"]
    return [
        ([*run, "--expiries", "0"], 0, within(RACE, none)),
        ([*run, "--patient-timers", "--workers", "3", "--piece", "1"], 0, within(RACE, patient)),
        ([*run, "--expiries=4294967295", "--patient-timers"], 0, within(RACE, b"expiries 4294967295\n", patient)),
        ([*few, "--expiries", "0"], 3, (within(FEW, none), stopped)),
        ([*few, "--json", "--expiries", "0"], 3, (within_in_json(FEW_IN_JSON, b'{"expiries":0}'), stopped)),
        ([*few, "--json", "--patient-timers"], 3, (within_in_json(FEW_IN_JSON, b'{"patient_timers":true}'), stopped)),
        ([*run, "--limit", "46", "--expiries", "1"], 3, b"refused E1 TooMany\n"),
        ([*run, "--expiries", "0", "--first", "fail"], 0, within(stored("first_fail"), none)),
        ([*explore, "--expiries", "0", "--first", "pass"], 0, within(b"testcase T\nsteps 7\n", none).decode()),
        ([*run[:3], "t", "--steps", "13", "--expiries", "0"], 1, b"refused U1 NoSuchTestCase\n"),
        ([*early, "--steps", "100"], 0, EARLY_REPORT % WITH_EXPIRY),
        ([*early, "--steps", "100", "--few-expiries"], 0, EARLY_REPORT % WITHOUT_EXPIRY),
        ([*early, "--steps", "8", "--few-expiries"], 0, "testcase T\nsteps 8\nconfigurations "),
        ([*early, "--until-complete", "--few-expiries"], 0, ["verdict fail 9", "  mtc.1"]),
        ([*early, "--until-complete", "--few-expiries", "--explain"], 0, ["How it ends with fail:", "[] p ? 1 from mtc.1"]),
        ([*early, "--until-complete", "--few-expiries", "--patient-timers"], 0, ["patient-timers", "verdict fail 9"]),
        ([*run, "--few-expiries"], 0, RACE),
        ([*run, "--limit", "46", "--few-expiries"], 3, b"refused E1 TooMany\n"),
        ([*run, "--few-expiries", "--run-to", "15:1"], 2, "error: the argument '--run-to <LINE:COL>' cannot be used with '--few-expiries'\n"),
        ([*run, "--quiet"], 0, RACE),
        ([*run, "--quiet", "--expiries", "0"], 0, within(RACE, none)),
    ]


def large_module():
    """Returns a module of 2,000 lines, whose test case calls 60 functions of 32 lines, and how many steps its run has before two messages race."""
    lines = ["module Large {", "type port P message { inout integer }", "type component C { port P p; var integer n := 0 }", "type component W { port P q }"]
    for number in range(60):
        lines += [f"function f_{number}() runs on C {{", *(f"    n := n + {added};" for added in range(31)), "}"]
    lines += ["function g(integer x) runs on W { q.send(x) }", "testcase T() runs on C {", "var W a := W.create;", "var W b := W.create;", "connect(self:p, a:q);", "connect(self:p, b:q);"]
    lines += [*(f"f_{number}();" for number in range(0, 60, 6)), "a.start(g(1));", "b.start(g(2));", "alt {", "[] p.receive(1) { setverdict(pass) }", "[] p.receive { setverdict(fail) }", "}", "}", "}"]
    return "\n".join(lines).encode() + b"\n"


def large_rows(folder):
    """Returns command lines with a module of 2,000 lines, each with its status, and what its text is or how lines of it end."""
    module = file_in(folder, "large.ttcn", large_module())
    test = [module, "--testcase", "T"]
    place = large_module().split(b"\n").index(b"[] p.receive { setverdict(fail) }") + 1
    return [
        (["check", module], 0, b"ok\n"),
        (["list", module], 0, b"T\n"),
        (["run", *test, "--until-complete"], 0, ["complete yes", f"branch {place}:1"]),
        (["run", *test, "--until-complete", "--explain"], 0, ["How it ends with pass:", "How it ends with fail:"]),
        (["run", *test, "--until-complete", "--patient-timers", "--json"], 0, '{"blocked":[],"branches":['),
    ]


def crowd(components, messages):
    """Returns a module in which so many components send so many messages each to the main one, which counts those of the first."""
    workers = range(1, components + 1)
    lines = [
        "module F {",
        "type port P message { inout integer }",
        "type component M { port P p; var integer n := 0; var integer c := 0 }",
        "type component W { port P q }",
        "function f(integer x) runs on W {",
        f"for (var integer i := 0; i < {messages}; i := i + 1) {{ q.send(x) }}",
        "}",
        "testcase T() runs on M {",
        *(f"var W w{it} := W.create;" for it in workers),
        *(f"connect(self:p, w{it}:q);" for it in workers),
        *(f"w{it}.start(f({it}));" for it in workers),
        f"while (n < {components * messages}) {{",
        "alt {",
        "[] p.receive(1) { c := c + 1 }",
        "[] p.receive { }",
        "}",
        "n := n + 1",
        "}",
        f"if (c == {messages}) {{ setverdict(pass) }} else {{ setverdict(fail) }}",
        "}",
        "}",
    ]
    return "\n".join(lines).encode()


def crowd_rows(folder):
    """Returns command lines with modules of many configurations, each with its status, and what its text begins with.

    The reference makes the same reports of them (tools/reference).
    """
    for components, messages, count in ((2, 2, 2268), (2, 3, 9219), (3, 2, 126538)):
        module = file_in(folder, f"crowd_{components}_{messages}.ttcn", crowd(components, messages))
        for workers in ("1", "4"):
            wanted = f"testcase T\nsteps 200\nconfigurations {count}\ncomplete yes\nverdict pass "
            yield ["run", module, "--testcase", "T", "--steps", "200", "--workers", workers, "--piece", "64"], 0, wanted


def lint_rows():
    """Returns command lines whose modules are linted, in the folder of the modules, each with its status and what is printed."""
    texts = ["mark", "equals", "name", "left_out", "number", "semicolon", "word", "stop", "behind", "brace", "end"]
    return [
        (["lint", X1, X2, Y1], 0, b""),
        (["lint", "lock.ttcn"], 1, (stored("lint/lock"), b"")),
        (["lint", "lock.ttcn", "--format", "json"], 1, (stored("lint/lock_json"), b"")),
        (["lint", "warnings.ttcn"], 0, stored("lint/warnings")),
        (["lint", "kinds.ttcn"], 1, (stored("lint/kinds"), b"")),
        (["lint", *(f"{text}.ttcn" for text in texts)], 1, (stored("lint/unread"), b"")),
        (["lint", "lock.ttcn", "missing.ttcn"], 5, b"cannot read missing.ttcn\n"),
        (["list", X2], 0, b"T\n"),
        (["list", "lock.ttcn"], 1, "refused C2 UnknownName at 24:"),
        (["list", "missing.ttcn"], 5, b"cannot read missing.ttcn\n"),
    ]


def help_rows():
    """Returns the command lines that ask for help, each with its status and the whole text that is wanted."""
    return [
        (["--help"], 0, stored("help")),
        (["-h"], 0, stored("help")),
        (["help"], 0, stored("help")),
        (["check", "--help"], 0, stored("help_check")),
        (["run", "--help"], 0, stored("help_run")),
        (["help", "run"], 0, stored("help_run")),
        (["replay", "--help"], 0, stored("help_replay")),
        (["coarsen", "--help"], 0, stored("help_coarsen")),
        (["double", "--help"], 0, stored("help_double")),
        (["explain", "--help"], 0, stored("help_explain")),
        (["lint", "--help"], 0, stored("help_lint")),
        (["list", "--help"], 0, stored("help_list")),
        (["--version"], 0, b"ttcnx 0.1\n"),
        (["-V"], 0, b"ttcnx 0.1\n"),
    ]


def refused_rows():
    """Returns command lines that are refused, one of each kind, each with its status and the whole text that is wanted."""
    run = ["run", "f", "--testcase", "T"]
    values = [("limit", "0"), ("limit", "10000001"), ("workers", "0"), ("workers", "65"), ("piece", "0"), ("piece", "65537"), ("steps", "1.0"), ("expiries", "4294967296"), ("expiries", "-1"), ("first", "PASS"), ("first", "")]
    return [
        *(([*run, "--until-complete", f"--{name}={value}"], 2, f"error: {'a value is required' if value == '' else f'invalid value {value!r}'} for '--{name} <") for name, value in values),
        *((["explain", "f", "--testcase", "T", "--run", "g", f"--format={value}"], 2, f"error: invalid value '{value}' for '--format <FORMAT>'\n") for value in ["SVG", "tex"]),
        *(([command, "f", "--testcase", "T"], 2, stored("missing_option").replace(b"replay", command.encode()).decode()) for command in ["coarsen", "double", "explain"]),
        *(([*words, "f", "--other"], 2, "error: unexpected argument '--other' found\n") for words in [["check"], ["lint"], ["list"], ["replay"], ["explain"]]),
        ([], 2, stored("no_command")),
        (["walk"], 2, stored("unknown_command")),
        (["chek"], 2, stored("similar_command")),
        (["check"], 2, stored("missing_file")),
        (["run"], 2, stored("missing_words")),
        (["replay", "f", "--testcase", "T"], 2, stored("missing_option")),
        (["check", "f", "g"], 2, stored("word_too_many")),
        ([*run, "--steps", "1", "--other"], 2, stored("unknown_option")),
        ([*run, "--step", "1"], 2, stored("similar_option")),
        (run, 2, stored("no_bound")),
        ([*run, "--steps", "1", "--until-complete"], 2, stored("two_bounds")),
        ([*run, "--steps", "1", "--run-to", "1:1", "--run-to-block", "1:1"], 2, stored("two_aims")),
        ([*run, "--steps", "1", "--run-to", "1:1", "--explain"], 2, stored("run_to_and_explain")),
        ([*run, "--steps", "1", "--json", "--run-to-block=1:1"], 2, stored("run_to_block_and_json")),
        ([*run, "--steps", "1", "--run-to", "1:1", "--partial"], 2, "error: the argument '--run-to <LINE:COL>' cannot be used with '--partial'\n"),
        ([*run, "--steps", "1", "--run-to", "1:1", "--first", "fail"], 2, "error: the argument '--run-to <LINE:COL>' cannot be used with '--first <VERDICT>'\n"),
        ([*run, "--steps", "1", "--run-to", "1:1", "--expiries", "2"], 2, "error: the argument '--run-to <LINE:COL>' cannot be used with '--expiries <N>'\n"),
        ([*run, "--steps", "1", "--run-to-block", "1:1", "--patient-timers"], 2, "error: the argument '--run-to-block <LINE:COL>' cannot be used with '--patient-timers'\n"),
        ([*run, "--steps", "1", "--explain", "--expiries", "2"], 2, stored("explain_and_expiries")),
        ([*run, "--steps", "1", "--patient-timers", "--explain"], 2, "error: the argument '--explain' cannot be used with '--patient-timers'\n"),
        ([*run, "--steps", "1", "--expiries", "4294967296"], 2, "error: invalid value '4294967296' for '--expiries <N>': 4294967296 is not in 0..=4294967295\n"),
        ([*run, "--steps", "1", "--first", "failed"], 2, stored("unknown_verdict")),
        ([*run, "--steps", "1", "--run-to", "14"], 2, stored("no_place")),
        ([*run, "--steps"], 2, stored("missing_value")),
        ([*run, "--steps", "x"], 2, stored("no_number")),
        ([*run, "--steps", ""], 2, stored("empty_number")),
        ([*run, "--steps", "-1"], 2, stored("negative_number")),
        ([*run, "--steps", "100001"], 2, stored("number_out_of_range")),
        ([*run, "--steps", "1", "--json=yes"], 2, stored("value_of_flag")),
        ([*run, "--testcase", "U", "--steps", "1"], 2, stored("option_twice")),
        (["check", b"\xff"], 2, stored("not_utf8")),
        (["explain", "f", "--testcase", "T", "--run", "g", "--format", "png"], 2, stored("unknown_format")),
        (["lint"], 2, stored("missing_files")),
        (["lint", "f", "--format", "svg"], 2, "error: invalid value 'svg' for '--format <FORMAT>'\n"),
        (["list", "f", "g"], 2, "error: unexpected argument 'g' found\n"),
    ]


def file_in(folder, name, text):
    """Writes a file and returns its path."""
    path = f"{folder}/{name}"
    with open(path, "wb") as file:
        file.write(text)
    return path


def long_rows(folder):
    """Returns command lines with files and names of files that are long: none is cut."""
    with open(X1, "rb") as file:
        module = file.read()
    with open(f"{EXAMPLES}/x2.pass.run", "rb") as file:
        run = file.read()
    longest = file_in(folder, "longest", module.ljust(LONGEST))
    longer = file_in(folder, "longer", module.ljust(LONGEST + 1))
    late_run = file_in(folder, "late_run", b"\n" * LONGEST + run)
    late_fault = file_in(folder, "late_fault", b"\n" * LONGEST + b"mtc.01")
    far = f"{folder}{'/a far folder' * 100}/missing"
    return [
        (["check", longest], 0, b"ok\n"),
        (["check", longer], 1, b"refused L5 TextTooLong at 1:1\n"),
        (["replay", X2, "--testcase", "T", "--run", late_run], 0, b"replayed 10\nended pass\n"),
        (["replay", X2, "--testcase", "T", "--run", late_fault], 1, f"refused N1 BadLabel at line {LONGEST + 1}\n".encode()),
        (["check", far], 5, f"cannot read {far}\n".encode()),
    ]


def script_rows(folder):
    """Returns command lines with a script, each with its status, and what its text is or begins with."""
    test = ["--testcase", "T"]
    explore = ["run", Y1, *test, "--steps", "9"]
    one_first = file_in(folder, "one_first.json", b'{"p":[{"integer":1},{"integer":2}]}')
    two_first = file_in(folder, "two_first.json", b' {"p": [{"integer": 2}, {"integer": 1}]}\n')
    run = file_in(folder, "delivery.run", FIRST + b"system.p\n" + FIRST)
    fine_run = file_in(folder, "delivery.fine.run", FIRST + b"system.p\nsnap mtc\nsystem.p\nchoose mtc\nmtc\nmtc\n")
    missing, other = f"{folder}/missing.json", f"{folder}/other"
    about_run = [
        (["replay", Y1, *test, "--run", run, "--script", one_first], 0, b"replayed 7\nended pass\n"),
        (["replay", Y1, *test, "--run", run, "--script", two_first], 0, b"replayed 7\nended fail\n"),
        (["replay", Y1, *test, "--run", run], 1, b"refused N2 NotEnabled at label 4\n"),
        (["double", Y1, *test, "--run", run, "--script", one_first], 0, FIRST + b"system.p\nsnap mtc\nchoose mtc\nmtc\nmtc\n"),
        (["coarsen", Y1, *test, "--run", fine_run, "--script", one_first], 0, FIRST + b"system.p\nmtc\nsystem.p\nmtc\nmtc\n"),
        (["coarsen", Y1, *test, "--run", fine_run], 1, b"refused F1 NotFine at label 4\n"),
    ]
    return [
        ([*explore, "--script", one_first], 0, ONE_FIRST),
        ([*explore, f"--script={one_first}", "--json", "--workers", "4", "--piece", "1"], 0, ONE_FIRST_IN_JSON),
        ([*explore, "--script", two_first], 0, TWO_FIRST),
        ([*explore, "--script", file_in(folder, "longest.json", b"{}".ljust(LONGEST))], 0, NOTHING),
        (explore, 0, NOTHING),
        *about_run,
        *refused_script_rows(folder),
        ([*explore, "--script", missing], 5, f"cannot read {missing}\n".encode()),
        (["run", other, *test, "--steps", "9", "--script", missing], 5, f"cannot read {missing}\n".encode()),
        (["replay", other, *test, "--run", other, "--script", missing], 5, f"cannot read {missing}\n".encode()),
        (["replay", other, *test, "--run", missing, "--script", one_first], 5, f"cannot read {other}\n".encode()),
        (["check", Y1, "--script", one_first], 2, "error: unexpected argument '--script' found\n"),
    ]


def refused_script_rows(folder):
    """Returns command lines with a script that is refused, or not judged, each with its status and what its text is or begins with."""
    explore = ["run", Y1, "--testcase", "T", "--steps", "9", "--script"]
    open_object = file_in(folder, "open.json", b"{")
    run, module = file_in(folder, "no.run", b"mtc.01\n"), file_in(folder, "no.ttcn", b"module Y {")
    scripts = [
        (b"{".ljust(LONGEST + 1), b"refused J4 TooLarge\n"),
        (b"{}".ljust(LONGEST + 1), b"refused J4 TooLarge\n"),
        (b"", b"refused J1 BadJson\n"),
        (b"{", b"refused J1 BadJson\n"),
        (b'{"p":[{"integer":1}]} {}', b"refused J1 BadJson\n"),
        (b"[]", b"refused J2 NoSuchPort\n"),
        (b'{"q":[]}', b"refused J2 NoSuchPort\n"),
        (b'{"p":[1],"q":[]}', b"refused J2 NoSuchPort\n"),
        (b'{"p":1}', b"refused J3 BadMessage\n"),
        (b'{"p":[1]}', b"refused J3 BadMessage\n"),
        (b'{"p":[{"boolean":true}]}', b"refused J3 BadMessage\n"),
        (b'{"p":[{"integer":1},{"integer":1.0}]}', b"refused J3 BadMessage\n"),
    ]
    return [
        *(([*explore, file_in(folder, f"{at}.json", text)], 1, line) for at, (text, line) in enumerate(scripts)),
        (["run", module, "--testcase", "T", "--steps", "9", "--script", open_object], 1, "refused P1 Unexpected at "),
        (["run", Y1, "--testcase", "t", "--steps", "9", "--script", open_object], 1, b"refused U1 NoSuchTestCase\n"),
        (["replay", Y1, "--testcase", "T", "--run", run, "--script", open_object], 1, b"refused J1 BadJson\n"),
        (["double", Y1, "--testcase", "T", "--run", run, "--script", open_object], 1, b"refused J1 BadJson\n"),
        (["coarsen", Y1, "--testcase", "T", "--run", run, "--script", open_object], 1, b"refused J1 BadJson\n"),
    ]


def rows(folder):
    """Returns for each command line its words, the status, and what its text is, as bytes, what it begins with, or a list of how lines of it end.

    Where both outputs have text, it is a pair of them.
    """
    missing = f"{folder}/missing"
    module = file_in(folder, "module", b"module M {")
    run = file_in(folder, "run", b"mtc\n\nmtc.01\n")
    doubling = file_in(folder, "doubling", b"mtc\n" * 6 + b"mtc.1\n snap mtc\n\nchoose mtc\nmtc\nmtc")
    beginning = file_in(folder, "beginning", b"mtc\n" * 6 + b"mtc.1\nsnap mtc\n")
    test = ["--testcase", "T"]
    return [
        (["check", X1], 0, b"ok\n"),
        (["run", X1, *test, "--steps", "2"], 0, "testcase T\nsteps 2\nconfigurations 3\n"),
        (["run", X1, *test, "--steps", "2", "--json"], 0, '{"blocked":[]'),
        (["replay", X2, *test, "--run", f"{EXAMPLES}/x2.pass.run"], 0, b"replayed 10\nended pass\n"),
        (["check", module], 1, "refused P1 Unexpected at "),
        (["run", X1, "--testcase", "t", "--steps", "2"], 1, b"refused U1 NoSuchTestCase\n"),
        (["replay", X1, *test, "--run", run], 1, b"refused N1 BadLabel at line 3\n"),
        (["replay", X1, *test, "--run", f"{EXAMPLES}/x2.pass.run"], 1, b"refused N2 NotEnabled at label 3\n"),
        (["double", X2, *test, "--run", f"{EXAMPLES}/x2.pass.run"], 0, b"mtc\n" * 6 + b"mtc.1\nsnap mtc\nchoose mtc\n" + b"mtc\n" * 2),
        (["coarsen", X2, *test, "--run", doubling], 0, b"mtc\n" * 6 + b"mtc.1\n" + b"mtc\n" * 3),
        (["coarsen", X2, *test, "--run", f"{EXAMPLES}/x2.pass.run"], 1, b"refused F1 NotFine at label 8\n"),
        (["coarsen", X2, *test, "--run", beginning], 1, b"refused F2 NotEnded\n"),
        (["coarsen", X2, *test, "--run", run], 1, b"refused N1 BadLabel at line 3\n"),
        (["double", module, *test, "--run", missing], 5, f"cannot read {missing}\n".encode()),
        (["run", X1, *test, "--steps", "2", "--limit", "2"], 3, b"refused E1 TooMany\n"),
        (["check", missing], 5, f"cannot read {missing}\n".encode()),
        (["replay", missing, *test, "--run", f"{folder}/other"], 5, f"cannot read {missing}\n".encode()),
        (["replay", module, *test, "--run", missing], 5, f"cannot read {missing}\n".encode()),
        *long_rows(folder),
        *script_rows(folder),
        *explained_rows(folder),
        *until_rows(folder),
        *bound_rows(),
        *aim_rows(folder),
        *bounded_rows(folder),
        *large_rows(folder),
        *crowd_rows(folder),
        *lint_rows(),
        *help_rows(),
        *refused_rows(),
    ]


def is_as_wanted(ran, status, wanted):
    """Tells whether a run has this status and this text, on the standard output where the status is 0 and else on the standard error, and the other one is empty.

    A pair has the texts of both.
    """
    if isinstance(wanted, tuple):
        return (ran.returncode, ran.stdout, ran.stderr) == (status, *wanted)
    told, silent = (ran.stdout, ran.stderr) if status == 0 else (ran.stderr, ran.stdout)
    if isinstance(wanted, list):
        as_wanted = all(any(line.endswith(end) for line in told.decode().splitlines()) for end in wanted)
    else:
        as_wanted = told == wanted if isinstance(wanted, bytes) else told.startswith(wanted.encode())
    return ran.returncode == status and as_wanted and not silent


def main(program):
    program = os.path.abspath(program)
    otherwise = 0
    with tempfile.TemporaryDirectory() as folder:
        wanted_rows = rows(folder)
        for words, status, wanted in wanted_rows:
            ran = subprocess.run([program, *words], capture_output=True, stdin=subprocess.DEVNULL, cwd=f"{TOOLS}/statuses/lint")
            if not is_as_wanted(ran, status, wanted):
                otherwise += 1
                print(f"statuses: {words}: {ran.returncode}, {ran.stdout[:500]!r}, {ran.stderr[:500]!r}", file=sys.stderr)
        with open("/dev/full", "wb") as full:
            ran = subprocess.run([program, "check", X1], stdout=full, stderr=subprocess.PIPE, stdin=subprocess.DEVNULL)
        if (ran.returncode, ran.stderr) != (5, b"cannot write\n"):
            otherwise += 1
            print(f"statuses: output that fails: {ran.returncode}, {ran.stderr[:500]!r}", file=sys.stderr)
    print(f"statuses: {len(wanted_rows) + 1} command lines, {otherwise} answered otherwise")
    return 1 if otherwise else 0


if __name__ == "__main__":
    sys.exit(main(sys.argv[1]))

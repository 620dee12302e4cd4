"""Runs ./ttcnx --now without any proof, and compares what it writes, and its statuses, with what is wanted.

The first command line has the program compiled, which takes about three minutes. The last line says how many were answered
otherwise; the status is 0 where none was.
"""
import os
import re
import subprocess
import sys
import tempfile

ROOT = os.path.dirname(os.path.dirname(os.path.realpath(__file__)))
EXAMPLES = f"{ROOT}/examples"
X1, X2 = f"{EXAMPLES}/x1.ttcn", f"{EXAMPLES}/x2.ttcn"
# What comes before the program's own error: that it is compiled, the first time, and that nothing is proved.
NOTES = re.compile(r"\A(ttcnx: compiling the program without any proof, .*\n)?ttcnx: nothing of this answer is proved on this machine; .*\n")


def text_of(file):
    with open(file) as it:
        return it.read()


def rows(folder):
    """Returns for each command line its words, the status, what standard output is, and what standard error begins with.

    The command is run in the folder, which has two files with blanks in their names.
    """
    with open(f"{folder}/a module", "w") as file:
        file.write("module M {")
    with open(f"{folder}/a run", "w") as file:
        file.write("mtc\n\nmtc.01\n")
    test, missing = ["--testcase", "T"], "/missing folder/x.ttcn"
    json = ('{"blocked":[],"branches":[],"complete":true,"configurations":3,"steps":2,"testcase":"T",'
            '"verdicts":[{"run":["mtc","mtc"],"verdict":"pass"}]}\n')
    return [
        (["run", X2, *test, "--steps", "13"], 0, text_of(f"{EXAMPLES}/x2.report"), ""),
        (["run", *test, "--steps=2", "--json", X1], 0, json, ""),
        (["check", os.path.relpath(X2, folder)], 0, "ok\n", ""),
        (["replay", X2, *test, f"--run={EXAMPLES}/x2.pass.run"], 0, "replayed 10\nended pass\n", ""),
        (["replay", X1, *test, "--run", "a run"], 1, "", "refused N1 BadLabel at line 3\n"),
        (["check", "a module"], 1, "", "refused P1 Unexpected at 1:"),
        (["run", X1, "--testcase", "t", "--steps", "2"], 1, "", "refused U1 NoSuchTestCase\n"),
        (["run", X1, *test, "--steps", "2", "--limit", "2"], 3, "", "refused E1 TooMany\n"),
        (["check", missing], 5, "", f"cannot read {missing}\n"),
        (["check", "."], 5, "", "cannot read .\n"),
        (["replay", "a module", *test, "--run=no run"], 5, "", "cannot read no run\n"),
        (["run", X1, *test, "--walk"], 2, "", "error: "),
        (["check", "a module", "a run"], 2, "", "error: unexpected argument 'a run' found"),
        ([b"check", b"\xff"], 2, "", "error: a word of the command line is not UTF-8\n"),
        (["--help"], 0, None, ""),
    ]


def is_as_wanted(ran, status, out, error):
    """Tests whether a run has this status and output, and whether its error is the notes and then begins so, or ends there."""
    said = ran.stderr.decode(errors="replace")
    notes = NOTES.match(said)
    more = said[notes.end():] if notes else ""
    is_written = ran.stdout.decode() == out if out is not None else ran.stdout
    is_said = more.startswith(error) if error else not more
    return notes is not None and ran.returncode == status and is_written and is_said


def main():
    otherwise = 0
    with tempfile.TemporaryDirectory() as folder:
        wanted = rows(folder)
        for line, status, out, error in wanted:
            command = [f"{ROOT}/ttcnx", "--now", *line]
            ran = subprocess.run(command, cwd=folder, env={**os.environ, "TTCNX_UNPROVED": "1"}, capture_output=True)
            if not is_as_wanted(ran, status, out, error):
                otherwise += 1
                print(f"now_test: {line}: {ran.returncode}, {ran.stdout[:200]!r}, {ran.stderr[:400]!r}", file=sys.stderr)
    print(f"now_test: {len(wanted)} command lines without any proof, {otherwise} answered otherwise")
    return 1 if otherwise else 0


if __name__ == "__main__":
    sys.exit(main())

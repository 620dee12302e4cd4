#!/usr/bin/env python3
"""Compares the reference with a built program, or with rows of modules.

    compare.py PROGRAM SEED COUNT [--keep FOLDER]
        runs the program and the reference on COUNT random modules, from the
        seed SEED on, and prints each module whose reports differ in any byte
    compare.py PROGRAM SEED COUNT [--expiries K] [--patient-timers]
        does so for the runs with at most K expiries of timers, with patient
        timers, or both
    compare.py PROGRAM SEED COUNT --fine
        compares what both make of random fine runs of such modules, some of
        them broken: `coarsen`, `double`, and `replay` of what was printed
    compare.py --laws SEED COUNT
        checks in the reference alone that fine runs end with the verdicts of
        runs, on random modules
    compare.py --rows FOLDER
        checks the reference alone against the rows of the files in FOLDER

The status is 0 where nothing differs.
"""

import argparse
import collections
import itertools
import json
import pathlib
import random
import re
import subprocess
import sys
import tempfile
import time
from typing import NamedTuple

import crowds
import fine
import modules
import reference
import walks

# --------------------------------------------------------------------------
# Rows
# --------------------------------------------------------------------------

REPEAT = re.compile(r"<<(\d+) times ((?:\\.|(?!>>).)*)>>", re.DOTALL)


class Row:
    """A text with the answer that it wants, and what the row sets."""

    def __init__(self, title, settings, text, answer):
        self.title = title
        self.settings = settings
        self.text = text
        self.answer = answer


def expand_repeats(text):
    """Writes out each `<<N times PATTERN>>`."""
    def expanded(found):
        return "".join(one_turn(found[2], turn) for turn in range(1, int(found[1]) + 1))
    return REPEAT.sub(expanded, text)


def one_turn(pattern, turn):
    """A pattern in its turn: `#` is the turn, `@` the number before it, and a
    backslash makes the next character plain (`n` a line's end)."""
    written = []
    characters = iter(pattern)
    for character in characters:
        if character == "\\":
            escaped = next(characters)
            written.append("\n" if escaped == "n" else escaped)
        elif character == "#":
            written.append(str(turn))
        elif character == "@":
            written.append(str(turn - 1))
        else:
            written.append(character)
    return "".join(written)


def setting_of(line):
    key, _, value = line[3:].partition(" ")
    return key, value


def read_rows(text):
    """The rows of a file: settings and a frame for all, then row by row."""
    lines = text.split("\n")
    common, frame, at = {}, None, 0
    while at < len(lines) and not lines[at].startswith("== "):
        if lines[at] == "-- frame":
            begin = at + 1
            at = begin
            while not lines[at].startswith(("== ", "#")):
                at += 1
            frame = "\n".join(lines[begin:at])
            continue
        if lines[at].startswith("-- "):
            key, value = setting_of(lines[at])
            common[key] = value
        at += 1
    rows = []
    while at < len(lines):
        if not lines[at].startswith("== "):
            at += 1
            continue
        title = lines[at][3:]
        at += 1
        settings = dict(common)
        while lines[at].startswith("-- "):
            key, value = setting_of(lines[at])
            settings[key] = value
            at += 1
        begin = at
        while not lines[at].startswith(">> "):
            at += 1
        row_text = expand_repeats("\n".join(lines[begin:at]))
        answer = []
        while at < len(lines) and lines[at].startswith(">> "):
            answer.append(lines[at][3:])
            at += 1
        if frame is not None:
            before, after = frame.split("<<row>>")
            row_text = expand_repeats(before) + row_text + expand_repeats(after)
        rows.append(Row(title, settings, row_text, answer))
    return rows


COMMANDS = ("run", "replay", "coarsen", "double")


def is_covered(row):
    """Whether the reference answers rows of this kind: reports, runs that are
    followed, and the refusals that come after those of the text."""
    if "by" in row.settings or row.settings.get("command", "run") not in COMMANDS:
        return False
    refusal = re.match(r"refused (\S+)", row.answer[-1])
    return refusal is None or refusal[1] in (
        "E1", "U1", "J1", "J2", "J3", "J4", "N1", "N2", "F1", "F2")


def run_file_of(settings):
    """The run file that a row asks for."""
    if "runfile" in settings:
        plain = {"\\n": "\n", "\\t": "\t", "\\r": "\r"}
        return re.sub(r"\\[ntr]", lambda found: plain[found[0]], settings["runfile"])
    labels = []
    for word in settings.get("run", "").split():
        label, _, times = word.partition("*")
        end = " " if label in ("snap", "choose") else "\n"
        labels.extend([label + end] * int(times or 1))
    return "".join(labels)


def status_of(refusal):
    return 3 if refusal.startswith("refused E1") else 1


def folded(lines):
    """Equal lines of a run in one line, with their number."""
    shown = []
    for line, group in itertools.groupby(lines):
        times = len(list(group))
        if times > 1:
            shown.append(f"{line}*{times}")
        else:
            shown.append(line)
    return shown


NUMBERS = ("steps", "configurations")


def as_json(lines):
    """The report in its other form, made from the text."""
    report = {"verdicts": [], "branches": [], "blocked": []}
    for line in lines:
        words = line.split()
        if words[0] == "testcase":
            report["testcase"] = words[1]
        elif words[0] in NUMBERS:
            report[words[0]] = int(words[1])
        elif words[0] == "expiries":
            report.setdefault("within", {})["expiries"] = int(words[1])
        elif words[0] == "patient-timers":
            report.setdefault("within", {})["patient_timers"] = True
        elif words[0] == "complete":
            report["complete"] = words[1] == "yes"
        elif words[0] == "verdict":
            report["verdicts"].append({"run": [], "verdict": words[1]})
        elif words[0] == "branch":
            report["branches"].append(words[1])
        elif words[0] == "blocked":
            report["blocked"].append({"component": words[1], "place": words[2]})
        else:
            report["verdicts"][-1]["run"].append(words[0])
    return [json.dumps(report, sort_keys=True, separators=(",", ":"))]


def answer_of(row):
    """The reference's answer to a row, as the row would write it."""
    settings = row.settings
    text = row.text
    if "bytes" in settings:
        text = text[:int(settings["bytes"])]
    name = settings.get("testcase", "T")
    script = settings.get("script")
    following = {"replay": reference.replay, "coarsen": fine.coarsen, "double": fine.double}
    command = settings.get("command", "run")
    if command in following:
        printed = following[command](text, name, run_file_of(settings), script)
    else:
        expiries = settings.get("expiries")
        bound = reference.Bound(None if expiries is None else int(expiries),
                                "patient-timers" in settings)
        printed = reference.run(text, name, int(settings["steps"]),
                                int(settings.get("limit", "1000000")), script, bound)
    lines = printed.splitlines() or ["no lines"]
    if printed.startswith("refused"):
        return [f"status {status_of(printed)}"] + lines
    if settings.get("format") == "folded":
        return folded(lines)
    if settings.get("format") == "json":
        return as_json(lines)
    return lines


def is_wanted(answer, wanted):
    return answer == wanted or (
        answer[:-1] == wanted[:-1]
        and re.sub(r" at \d+:\d+$", "", answer[-1]) == wanted[-1])


def compare_rows(folder):
    """Prints each row that the reference answers otherwise; tells how many."""
    different = checked = skipped = 0
    for file in sorted(pathlib.Path(folder).glob("*.rows")):
        for row in read_rows(reference.read_bytes(file)):
            if not is_covered(row):
                skipped += 1
                continue
            checked += 1
            began = time.monotonic()
            try:
                answer = answer_of(row)
            except reference.Unreadable as refusal:
                answer = [f"unreadable: {refusal}"]
            if not is_wanted(answer, row.answer):
                different += 1
                print(f"== {file.name}: {row.title}")
                print(row.text)
                print("-- wanted", *row.answer, sep="\n")
                print("-- reference", *answer, sep="\n")
            spent = time.monotonic() - began
            if spent > 5:
                print(f"(slow: {file.name}: {row.title}: {spent:.0f} s)")
    print(f"{checked} rows checked, {skipped} skipped, {different} different")
    return different


# --------------------------------------------------------------------------
# Random modules
# --------------------------------------------------------------------------

LIMIT = 3000
SECONDS = 120
FINE_RUNS = 3


class Printed(NamedTuple):
    """What a program leaves behind."""

    output: str
    faults: str
    status: int

    def __str__(self):
        return f"{self.output}{self.faults}(status {self.status})"


def printed_by_reference(text):
    """A report or replay goes to the output, a refusal to the faults."""
    if text.startswith("refused"):
        return Printed("", text, status_of(text))
    return Printed(text, "", 0)


def printed_by_program(words):
    """What the built program prints for a command line."""
    try:
        done = subprocess.run(words, capture_output=True, timeout=SECONDS, check=False)
    except subprocess.TimeoutExpired:
        return Printed("", f"no answer within {SECONDS} seconds", -1)
    return Printed(done.stdout.decode("latin-1"), done.stderr.decode("latin-1"),
                   done.returncode)


class Comparison:
    """Runs the program and the reference on the same modules."""

    def __init__(self, program, folder, keep, bound=reference.ALL_RUNS):
        self.program = program
        self.bound = bound
        self.folder = pathlib.Path(folder)
        self.script = self.folder / "script.json"
        self.keep = keep
        self.compared = collections.Counter()
        self.different = collections.Counter()

    def compare(self, seed):
        """One module: its report under a random plan, now and then as JSON,
        and now and then a run that is followed."""
        made = modules.module(seed)
        choices = random.Random(seed)
        file = self.written(made)
        steps = made.steps
        report = self.report(made, steps)
        self.compare_run(seed, made, file, steps, report, choices)
        while report.startswith("refused E1") and steps > 0:
            # Fewer steps give fewer configurations, and so a report.
            steps -= 2
            report = self.report(made, steps)
            if not report.startswith("refused"):
                self.compare_run(seed, made, file, steps, report, choices)
        if choices.random() < 0.3:
            self.compare_replay(seed, made, file, choices)

    def report(self, made, steps):
        """What the reference answers for so many steps."""
        return reference.run(made.text, made.testcase, steps, LIMIT, made.script, self.bound)

    def written(self, made):
        """Writes a module and its script; tells the module's file."""
        file = self.folder / "module.ttcn"
        file.write_bytes(made.text.encode("latin-1"))
        if made.script is not None:
            self.script.write_bytes(made.script.encode("latin-1"))
        return file

    def with_script(self, made):
        """The words for the script, where the module has one."""
        return [] if made.script is None else ["--script", str(self.script)]

    def within_bound(self):
        """The words for the bound."""
        words = [] if self.bound.expiries is None else ["--expiries", str(self.bound.expiries)]
        return words + (["--patient-timers"] if self.bound.patient else [])

    def compare_run(self, seed, made, file, steps, report, choices):
        plan = ["--workers", str(choices.choice([1, 2, 3, 4])),
                "--piece", str(choices.choice([1, 2, 7, 64, 256]))]
        words = ["run", str(file), "--testcase", made.testcase, "--steps", str(steps),
                 "--limit", str(LIMIT)] + plan + self.with_script(made) + self.within_bound()
        expected = printed_by_reference(report)
        if expected.status == 0 and choices.random() < 0.15:
            words.append("--json")
            expected = expected._replace(output=as_json(report.splitlines())[0] + "\n")
        self.judge("report", seed, made, words, expected)

    def compare_replay(self, seed, made, file, choices):
        self.follow("replay", seed, made, file, random_run_file(made, choices))

    def compare_fine(self, seed):
        """Fine runs of one module, and the doubling of a run."""
        made = module_for_fine_runs(seed)
        choices = random.Random(seed)
        file = self.written(made)
        fine_machine = fine.FineMachine(walks.machine_of(made))
        for _ in range(FINE_RUNS):
            self.compare_walk(seed, made, file, random_walk(fine_machine, choices), choices)
        run = random_run_file(made, choices)
        doubled = self.follow("double", seed, made, file, run)
        if not doubled.startswith("refused"):
            self.follow("coarsen", seed, made, file, doubled)

    def compare_walk(self, seed, made, file, walk, choices):
        """A fine run, the run that it stands for, and the same with something
        wrong in it."""
        fine_run = fine.lines_of(walk.labels)
        run = self.follow("coarsen", seed, made, file, walks.laid_out(fine_run, choices))
        if walk.has_ended():
            replayed = self.follow("replay", seed, made, file, run)
            if not replayed.endswith(f"\nended {reference.VERDICTS[walk.fine.now.verdict]}\n"):
                self.complain(seed, "the coarse run has another end", made, fine_run)
        self.follow("coarsen", seed, made, file, walks.broken(walk.labels, choices))

    def follow(self, command, seed, made, file, run_text):
        """One run that is followed; tells what the reference prints."""
        run_file = self.folder / "run"
        run_file.write_bytes(run_text.encode("latin-1"))
        commands = {"replay": reference.replay, "coarsen": fine.coarsen, "double": fine.double}
        expected = commands[command](made.text, made.testcase, run_text, made.script)
        words = ([command, str(file), "--testcase", made.testcase, "--run", str(run_file)]
                 + self.with_script(made))
        self.judge(command, seed, made, words, printed_by_reference(expected), run_text)
        return expected

    def complain(self, seed, what, made, run_text):
        self.different["law"] += 1
        print(f"== seed {seed}: {what}")
        print(f"{made.text}-- run\n{run_text}", flush=True)

    def judge(self, kind, seed, made, words, expected, run_text=None):
        """Compares one answer byte for byte and prints a difference."""
        self.compared[kind] += 1
        answered = printed_by_program([self.program] + words)
        if answered == expected:
            return
        self.different[kind] += 1
        print(f"== seed {seed}: {' '.join(words)}")
        print(made.text + ("" if made.script is None else f"-- script\n{made.script}\n")
              + ("" if run_text is None else "-- run\n" + run_text))
        print(f"-- reference\n{expected}")
        print(f"-- program\n{answered}", flush=True)
        if self.keep is not None:
            kept = pathlib.Path(self.keep)
            kept.mkdir(exist_ok=True)
            (kept / f"seed{seed}.ttcn").write_bytes(made.text.encode("latin-1"))
            if made.script is not None:
                (kept / f"seed{seed}.json").write_bytes(made.script.encode("latin-1"))
            if run_text is not None:
                (kept / f"seed{seed}.run").write_bytes(run_text.encode("latin-1"))


def random_run_file(made, choices):
    """A run of random steps; the last label may be one that is not enabled."""
    labels, _ = walks.random_run(walks.machine_of(made), choices, choices.randint(0, 30))
    lines = [str(label) for label in labels]
    if choices.random() < 0.3:
        lines.append(choices.choice(walks.STRANGE_LABELS))
    return "".join(line + "\n" for line in lines)


MOST_LABELS = 150


def module_for_fine_runs(seed):
    """A random module; in every second one several components wait at a
    time.  A script that would be refused is left out."""
    made = crowds.module(seed) if seed % 2 else modules.module(seed)
    if isinstance(reference.machine_of(made.text, made.testcase, made.script), str):
        return made._replace(script=None)
    return made


def random_walk(fine_machine, choices, tries=3):
    """A random fine run, if possible one that ends."""
    for _ in range(tries):
        walk = walks.random_fine_run(fine_machine, choices, MOST_LABELS)
        if walk.has_ended():
            break
    return walk


def compare_modules(program, seed, count, keep, bound):
    """Prints each module that both answer otherwise; tells how many answers."""
    with tempfile.TemporaryDirectory() as folder:
        comparison = Comparison(program, folder, keep, bound)
        for each in range(seed, seed + count):
            comparison.compare(each)
    different = sum(comparison.different.values())
    print(f"{count} modules, {comparison.compared['report']} reports and "
          f"{comparison.compared['replay']} replays compared, {different} different")
    return different


def compare_fine_runs(program, seed, count, keep):
    """Prints each fine run, run or doubling of which both say something else;
    tells how many."""
    with tempfile.TemporaryDirectory() as folder:
        comparison = Comparison(program, folder, keep)
        for each in range(seed, seed + count):
            comparison.compare_fine(each)
    different = sum(comparison.different.values())
    compared = ", ".join(f"{comparison.compared[command]} by {command}"
                         for command in ("coarsen", "replay", "double"))
    print(f"{count} modules, {compared} compared, {different} different")
    return different


# --------------------------------------------------------------------------
# Laws of fine runs, in the reference alone
# --------------------------------------------------------------------------

WALKS = 5
MOST_CONFIGURATIONS = 4000


class Laws:
    """Checks on random modules what is said of fine runs."""

    def __init__(self):
        self.counts = collections.Counter()
        self.broken = 0

    def complain(self, seed, what, made, labels):
        self.broken += 1
        print(f"== seed {seed}: {what}")
        print(f"{made.text}-- run\n{fine.lines_of(labels)}", flush=True)

    def check(self, seed):
        made = module_for_fine_runs(seed)
        choices = random.Random(seed)
        machine = walks.machine_of(made)
        fine_machine = fine.FineMachine(machine)
        self.counts["modules"] += 1
        for _ in range(WALKS):
            walk = walks.random_fine_run(fine_machine, choices, MOST_LABELS)
            self.counts["fine runs"] += 1
            self.check_stored(seed, made, fine_machine, walk)
            self.check_coarse(seed, made, fine_machine, walk)
            labels, end = walks.random_run(machine, choices, choices.randint(0, 60))
            self.check_doubled(seed, made, fine_machine, labels, end)
        self.check_verdicts(seed, made, fine_machine)

    def check_stored(self, seed, made, fine_machine, walk):
        """Only components that run and stand at an alt have snapshots."""
        now = fine_machine.start()
        for number, label in enumerate(walk.labels, start=1):
            now = fine_machine.next(now, label)
            if not all(not isinstance(now.now, reference.Ended)
                       and fine.stands_at_alt(fine.component_at(now.now, path))
                       for path, _ in now.stored):
                self.complain(seed, f"stored behind label {number}", made, walk.labels)
                return

    def check_coarse(self, seed, made, fine_machine, walk):
        """The run that a fine run stands for ends with its verdict and is no
        longer."""
        if not walk.has_ended():
            return
        self.counts["that end"] += 1
        self.counts.update(walk.seen)
        run = fine_machine.coarse(walk.labels)
        end = follow(fine_machine.machine, run)
        if end != walk.fine.now:
            self.complain(seed, "the coarse run ends otherwise", made, walk.labels)
            return
        if len(run) > len(walk.labels):
            self.complain(seed, "the coarse run is longer", made, walk.labels)
        if any(isinstance(label, fine.Snap) for label in walk.labels):
            self.counts["that end and have a snapshot"] += 1
        self.check_doubled(seed, made, fine_machine, run, end)

    def check_doubled(self, seed, made, fine_machine, labels, end):
        """A doubling has the end of its run, and stands for it."""
        self.counts["doublings"] += 1
        doubled = fine_machine.doubled(labels)
        if fine_machine.replay(doubled) != fine.Fine(end, ()):
            self.complain(seed, "the doubling ends otherwise", made, doubled)
        if fine_machine.coarse(doubled) != labels:
            self.complain(seed, "the doubling stands for another run", made, doubled)

    def check_verdicts(self, seed, made, fine_machine):
        """Where all fine configurations can be gone through: their verdicts are
        those of all runs."""
        try:
            _, verdicts = fine.explore(fine_machine, MOST_CONFIGURATIONS)
        except reference.TooMany:
            return
        self.counts["modules gone through"] += 1
        answer = reference.explore(fine_machine.machine, 10 ** 6, 10 ** 6)
        if verdicts != set(answer.runs):
            self.complain(seed, f"fine runs end with {verdicts}, runs with "
                          f"{set(answer.runs)}", made, [])


def follow(machine, labels):
    """Where labels lead, or None."""
    configuration = machine.start()
    for label in labels:
        step = machine.step_of(configuration, label)
        if step is None:
            return None
        configuration = step.end
    return configuration


def check_laws(seed, count):
    """Prints each fine run of which something else holds; tells how many."""
    laws = Laws()
    for each in range(seed, seed + count):
        laws.check(each)
    for what, number in sorted(laws.counts.items()):
        print(f"{number:8} {what}")
    print(f"{laws.broken} laws broken")
    return laws.broken


def main():
    parser = argparse.ArgumentParser(description=__doc__.splitlines()[0])
    parser.add_argument("--rows", metavar="FOLDER")
    parser.add_argument("--laws", metavar=("SEED", "COUNT"), nargs=2, type=int)
    parser.add_argument("--fine", action="store_true")
    parser.add_argument("--expiries", metavar="K", type=int)
    parser.add_argument("--patient-timers", action="store_true")
    parser.add_argument("--keep", metavar="FOLDER")
    parser.add_argument("program", nargs="?")
    parser.add_argument("seed", nargs="?", type=int, default=0)
    parser.add_argument("count", nargs="?", type=int, default=100)
    words = parser.parse_args()
    if words.rows is not None:
        return 1 if compare_rows(words.rows) else 0
    if words.laws is not None:
        return 1 if check_laws(*words.laws) else 0
    if words.program is None:
        parser.error("a program, --laws or --rows is needed")
    if words.fine:
        different = compare_fine_runs(words.program, words.seed, words.count, words.keep)
    else:
        bound = reference.Bound(words.expiries, words.patient_timers)
        different = compare_modules(words.program, words.seed, words.count, words.keep, bound)
    return 1 if different else 0


if __name__ == "__main__":
    sys.exit(reference.with_deep_stack(main))

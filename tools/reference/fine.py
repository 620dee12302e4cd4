#!/usr/bin/env python3
"""Fine runs: a component at an alt takes its snapshot in one step, and chooses
by it in a later one.

A fine configuration is a configuration with the snapshots that components have
stored.  There are three kinds of fine labels:

    snap PATH      a component that runs and stands at an alt, and has stored no
                   snapshot, stores one
    choose PATH    a component that has stored a snapshot chooses by it: the
                   branch is taken, or a fault ends the test case, or, where
                   nothing can be chosen, the snapshot alone goes
    LABEL          any step but that of an alt

A component that doesn't run any more has no snapshot.

    fine.py FILE --testcase NAME --coarsen FINERUN
    fine.py FILE --testcase NAME --double RUN
    fine.py FILE --testcase NAME --verdicts
        goes through all fine runs
"""

import argparse
import enum
import sys
from dataclasses import dataclass
from typing import NamedTuple

import reference
from reference import Label, path_text


# --------------------------------------------------------------------------
# Fine labels and fine configurations
# --------------------------------------------------------------------------

@dataclass(frozen=True)
class Snap:
    """A component takes its snapshot."""

    path: tuple

    def __str__(self):
        return "snap " + path_text(self.path)


@dataclass(frozen=True)
class Choose:
    """A component chooses by the snapshot that it has stored."""

    path: tuple

    def __str__(self):
        return "choose " + path_text(self.path)


@dataclass(frozen=True)
class Plain:
    """Any other step."""

    label: Label

    def __str__(self):
        return str(self.label)


class Fine(NamedTuple):
    """A configuration, and the stored snapshots: a path with its snapshot
    each, in the order of the paths."""

    now: object
    stored: tuple

    def snapshot_at(self, path):
        return dict(self.stored).get(path)


class Fate(enum.Enum):
    """What comes of a stored snapshot."""

    LAPSES = "no choice is made by it, or nothing can be chosen"
    TAKES = "a branch is taken"
    FAULTS = "the choice, or taking the branch, is a fault"


def component_at(configuration, path):
    """The component with a path, if it is there and hasn't terminated."""
    return dict(configuration.components).get(path)


def stands_at_alt(component):
    """Whether a component runs, and an alt is what remains to be done first in
    its last frame.  (A lone event, and a lone call of an altstep, are alts.)"""
    if not component.running:
        return False
    items = component.frames[-1].items
    return items is not None and isinstance(items.first, reference.Alternative)


def with_stored(stored, path, snapshot):
    return tuple(sorted(stored + ((path, snapshot),), key=lambda entry: entry[0]))


def without_stored(stored, path):
    return tuple(entry for entry in stored if entry[0] != path)


def behind(configuration, stored):
    """The fine configuration behind a step: the snapshots of components that
    don't run are gone, and all of them where the test case has ended."""
    if isinstance(configuration, reference.Ended):
        return Fine(configuration, ())
    runs = {path for path, component in configuration.components if component.running}
    return Fine(configuration, tuple(entry for entry in stored if entry[0] in runs))


# --------------------------------------------------------------------------
# Fine steps
# --------------------------------------------------------------------------

class NotFine(Exception):
    """The label of this number, counted from 1, can't follow."""

    def __init__(self, number):
        super().__init__(number)
        self.number = number


class FineMachine:
    """The fine steps of one test case."""

    def __init__(self, machine):
        self.machine = machine

    def start(self):
        return Fine(self.machine.start(), ())

    def next(self, fine, label):
        """Where a fine label leads, or None where it can't follow."""
        if isinstance(fine.now, reference.Ended):
            return None
        if isinstance(label, Snap):
            return self.snap(fine, label.path)
        if isinstance(label, Choose):
            return self.choose(fine, label.path)
        return self.step_plainly(fine, label.label)

    def snap(self, fine, path):
        component = component_at(fine.now, path)
        if component is None or not stands_at_alt(component):
            return None
        if fine.snapshot_at(path) is not None:
            return None
        snapshot = reference.snapshot_of(fine.now, path)
        return Fine(fine.now, with_stored(fine.stored, path, snapshot))

    def choose(self, fine, path):
        snapshot = fine.snapshot_at(path)
        if component_at(fine.now, path) is None or snapshot is None:
            return None
        others = without_stored(fine.stored, path)
        step = self.machine.statement_step(fine.now, path, snapshot)
        if step is None:
            return Fine(fine.now, others)
        return behind(step.end, others)

    def step_plainly(self, fine, label):
        if self.is_of_alt(fine.now, label):
            return None
        step = self.machine.step_of(fine.now, label)
        return None if step is None else behind(step.end, fine.stored)

    def is_of_alt(self, configuration, label):
        """Whether a label is the statement of an alt."""
        if isinstance(configuration, reference.Ended) or label.kind != 0:
            return False
        component = component_at(configuration, label.path)
        return component is not None and stands_at_alt(component)

    def enabled(self, fine):
        """Each fine label that can follow, with where it leads."""
        if isinstance(fine.now, reference.Ended):
            return
        for path, component in fine.now.components:
            if stands_at_alt(component):
                label = Snap(path) if fine.snapshot_at(path) is None else Choose(path)
                yield label, self.next(fine, label)
        for step in self.machine.steps(fine.now):
            if not self.is_of_alt(fine.now, step.label):
                yield Plain(step.label), behind(step.end, fine.stored)

    # Fine labels one after the other.

    def after(self, fine, label):
        """Where a label leads; one that can't follow changes nothing."""
        following = self.next(fine, label)
        return fine if following is None else following

    def replay(self, labels):
        """Where fine labels lead from the start."""
        fine = self.start()
        for number, label in enumerate(labels, start=1):
            fine = self.next(fine, label)
            if fine is None:
                raise NotFine(number)
        return fine

    # The run that a fine run stands for.

    def coarse(self, labels):
        """A plain label stays.  A snapshot by which a branch is taken becomes
        the step of its component's statement, and so does one by which a fault
        is met; nothing stands behind that.  All else goes."""
        fines = [self.start()]
        for label in labels:
            fines.append(self.after(fines[-1], label))
        run = []
        for number, label in enumerate(labels):
            if isinstance(label, Plain):
                run.append(label.label)
            elif isinstance(label, Snap):
                fate = self.fate(label.path, fines[number + 1:], labels[number + 1:])
                if fate is not Fate.LAPSES:
                    run.append(Label(label.path))
                if fate is Fate.FAULTS:
                    return run
        return run

    def fate(self, path, fines, labels):
        """What comes of the snapshot that a component has stored, by the labels
        that follow.  In front of each label stands one of the fine
        configurations."""
        for fine, label in zip(fines, labels):
            snapshot = fine.snapshot_at(path)
            if snapshot is None:
                return Fate.LAPSES
            if label == Choose(path):
                return self.judged(fine.now, path, snapshot)
        return Fate.LAPSES

    def judged(self, configuration, path, snapshot):
        """What a component does by a snapshot."""
        if isinstance(configuration, reference.Ended):
            return Fate.LAPSES
        if component_at(configuration, path) is None:
            return Fate.LAPSES
        step = self.machine.statement_step(configuration, path, snapshot)
        if step is None:
            return Fate.LAPSES
        return Fate.FAULTS if step.branch is None else Fate.TAKES

    # The fine run of a run.

    def doubled(self, labels):
        """Each step at an alt as a snapshot and the choice by it."""
        configuration = self.machine.start()
        fine_labels = []
        for label in labels:
            if self.is_of_alt(configuration, label):
                fine_labels += [Snap(label.path), Choose(label.path)]
            else:
                fine_labels.append(Plain(label))
            step = self.machine.step_of(configuration, label)
            configuration = configuration if step is None else step.end
        return fine_labels


# --------------------------------------------------------------------------
# All fine runs
# --------------------------------------------------------------------------

def explore(fine_machine, limit):
    """How many fine configurations fine runs reach, and with which verdicts
    they end."""
    found = {fine_machine.start()}
    left = list(found)
    verdicts = set()
    while left:
        fine = left.pop()
        if isinstance(fine.now, reference.Ended):
            verdicts.add(fine.now.verdict)
        for _, end in fine_machine.enabled(fine):
            if end not in found:
                found.add(end)
                left.append(end)
                if len(found) > limit:
                    raise reference.TooMany
    return len(found), verdicts


# --------------------------------------------------------------------------
# What the commands print
# --------------------------------------------------------------------------

def read_fine_label(line):
    """The fine label that a line is, or None."""
    for word, kind in (("snap ", Snap), ("choose ", Choose)):
        if line.startswith(word):
            label = reference.read_label(line[len(word):])
            return kind(label.path) if label is not None and label.kind == 0 else None
    label = reference.read_label(line)
    return None if label is None else Plain(label)


def read_fine_run(text):
    """The fine labels of a run file, or the number of the first bad line."""
    return reference.read_run(text, read_fine_label)


def read_all(text, name, run_text, read, script=None):
    """The machine of a test case and the labels of a run file, or a refusal."""
    machine = reference.machine_of(text, name, script)
    if isinstance(machine, str):
        return None, machine
    labels = read(run_text)
    if isinstance(labels, int):
        return None, f"refused N1 BadLabel at line {labels}\n"
    return machine, labels


def lines_of(labels):
    return "".join(f"{label}\n" for label in labels)


def coarsen(text, name, run_text, script=None):
    """What is printed for the run that a fine run stands for."""
    machine, labels = read_all(text, name, run_text, read_fine_run, script)
    if machine is None:
        return labels
    fine_machine = FineMachine(machine)
    try:
        fine = fine_machine.replay(labels)
    except NotFine as refusal:
        return f"refused F1 NotFine at label {refusal.number}\n"
    if not isinstance(fine.now, reference.Ended):
        return "refused F2 NotEnded\n"
    return lines_of(fine_machine.coarse(labels))


def double(text, name, run_text, script=None):
    """What is printed for the fine run of a run."""
    machine, labels = read_all(text, name, run_text, reference.read_run, script)
    if machine is None:
        return labels
    configuration = machine.start()
    for number, label in enumerate(labels, start=1):
        step = machine.step_of(configuration, label)
        if step is None:
            return f"refused N2 NotEnabled at label {number}\n"
        configuration = step.end
    return lines_of(FineMachine(machine).doubled(labels))


def all_verdicts(text, name, script=None, limit=1000000):
    """What is printed for all fine runs."""
    machine, refusal = read_all(text, name, "", read_fine_run, script)
    if machine is None:
        return refusal
    try:
        count, verdicts = explore(FineMachine(machine), limit)
    except reference.TooMany:
        return "refused E1 TooMany\n"
    words = [reference.VERDICTS[verdict] for verdict in sorted(verdicts)]
    return f"fine configurations {count}\n" + "".join(f"verdict {word}\n" for word in words)


def main():
    parser = argparse.ArgumentParser(description=__doc__.splitlines()[0])
    parser.add_argument("file")
    parser.add_argument("--testcase", required=True)
    which = parser.add_mutually_exclusive_group(required=True)
    which.add_argument("--coarsen", metavar="FINERUN")
    which.add_argument("--double", metavar="RUN")
    which.add_argument("--verdicts", action="store_true")
    parser.add_argument("--script", metavar="FILE")
    words = parser.parse_args()
    text = reference.read_bytes(words.file)
    script = None if words.script is None else reference.read_bytes(words.script)
    if words.coarsen is not None:
        printed = coarsen(text, words.testcase, reference.read_bytes(words.coarsen), script)
    elif words.verdicts:
        printed = all_verdicts(text, words.testcase, script)
    else:
        printed = double(text, words.testcase, reference.read_bytes(words.double), script)
    sys.stdout.write(printed)
    return 1 if printed.startswith("refused") else 0


if __name__ == "__main__":
    sys.exit(reference.with_deep_stack(main))

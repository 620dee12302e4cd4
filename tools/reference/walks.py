"""Makes random runs and random fine runs of a test case."""

from dataclasses import dataclass, field

import fine
import reference
from fine import Choose, FineMachine, Plain, Snap
from reference import Ended, Label

STRANGE_LABELS = ["mtc", "mtc.1", "mtc.2", "mtc/0.t0", "mtc/1.t", "system.p", "system.q", "system.zz"]

BAD_LINES = ["snap", "choose", "snap  mtc", "choose\tmtc", "snap mtc/0.t", "choose mtc.01",
             "Snap mtc", "snapmtc", "snap mtc mtc", "choose mtc.", "choose snap mtc",
             "plain mtc", "snap mtc.4294967296"]


def machine_of(made):
    """The machine of a random module's test case; where its script is none,
    nothing comes in."""
    machine = reference.machine_of(made.text, made.testcase, made.script)
    if isinstance(machine, str):
        return reference.machine_of(made.text, made.testcase, None)
    return machine


# --------------------------------------------------------------------------
# Runs
# --------------------------------------------------------------------------

def random_run(machine, choices, most):
    """Random steps from the start, at most so many: the labels, and where they
    lead."""
    configuration = machine.start()
    labels = []
    for _ in range(most):
        found = list(machine.steps(configuration))
        if not found:
            break
        step = choices.choice(found)
        labels.append(step.label)
        configuration = step.end
    return labels, configuration


# --------------------------------------------------------------------------
# Fine runs
# --------------------------------------------------------------------------

@dataclass
class Habits:
    """How likely a walk takes a label of each kind.  A lazy walk chooses late:
    then others step behind a snapshot, and several are stored at a time."""

    snap: float
    idle_snap: float
    choose: float
    expiry: float
    statement: float = 1.0


@dataclass
class Walk:
    """A random fine run, and what happened in it."""

    labels: list
    fine: fine.Fine
    seen: set = field(default_factory=set)

    def has_ended(self):
        return isinstance(self.fine.now, Ended)


def random_habits(choices):
    return Habits(snap=choices.choice([0.5, 1, 3]),
                  idle_snap=choices.choice([0.02, 0.1, 0.5]),
                  choose=choices.choice([0.01, 0.03, 0.1, 0.5]),
                  expiry=choices.choice([0.05, 0.3, 1]))


def random_fine_run(fine_machine, choices, most):
    """Fine labels that can follow, taken at random, at most so many."""
    habits = random_habits(choices)
    walk = Walk([], fine_machine.start())
    while len(walk.labels) < most:
        found = list(fine_machine.enabled(walk.fine))
        weights = [weight_of(fine_machine, walk.fine, label, habits) for label, _ in found]
        if not any(weights):
            break
        label, end = choices.choices(found, weights)[0]
        walk.seen.update(events(fine_machine, walk.fine, label, end))
        walk.labels.append(label)
        walk.fine = end
    return walk


def weight_of(fine_machine, now, label, habits):
    if isinstance(label, Choose):
        return habits.choose
    if isinstance(label, Snap):
        steps = fine_machine.machine.statement_step(now.now, label.path) is not None
        return habits.snap if steps else habits.idle_snap
    return habits.expiry if label.label.kind else habits.statement


def events(fine_machine, now, label, end):
    """What is worth to be counted in a fine step."""
    gone = [path for path, _ in now.stored if end.snapshot_at(path) is None]
    if len(end.stored) > 1:
        yield "several snapshots at a time"
    if isinstance(label, Choose):
        yield from events_of_choice(fine_machine, now, label.path)
    elif gone:
        yield ("the end of the test case takes a snapshot" if isinstance(end.now, Ended)
               else "the end of a component takes its snapshot")


def events_of_choice(fine_machine, now, path):
    then = now.snapshot_at(path)
    today = reference.snapshot_of(now.now, path)
    fate = fine_machine.judged(now.now, path, then)
    step = fine_machine.machine.statement_step(now.now, path)
    if fate is fine.Fate.LAPSES:
        yield "nothing can be chosen"
        if step is not None:
            yield "nothing can be chosen, but now it could"
    if fate is fine.Fate.FAULTS:
        yield "a fault"
    if then != today:
        yield "chosen by what is old"
        if fate is fine.Fate.TAKES and (step is None or step.branch is None
                or step != fine_machine.machine.statement_step(now.now, path, then)):
            yield "another choice than it would be now"
    if then.fronts != today.fronts:
        yield "an old front"
    if (then.timers, then.member_timers) != (today.timers, today.member_timers):
        yield "an expiry since the snapshot"
    if (then.running, then.terminated) != (today.running, today.terminated):
        yield "a start or an end since the snapshot"


# --------------------------------------------------------------------------
# Fine runs that are broken
# --------------------------------------------------------------------------

def broken(labels, choices):
    """Lines of a fine run with something wrong in them, mostly: a label that is
    dropped, doubled, moved or changed, or a line that is none."""
    lines = [str(label) for label in labels]
    at = choices.randrange(len(lines)) if lines else 0
    way = choices.choice(["drop", "double", "exchange", "path", "kind", "insert", "cut",
                          "more", "bad"])
    if way == "drop":
        del lines[at:at + 1]
    elif way == "double":
        lines[at:at] = lines[at:at + 1]
    elif way == "exchange":
        lines[at:at + 2] = reversed(lines[at:at + 2])
    elif way == "path" and labels:
        lines[at] = str(elsewhere(labels[at], choices))
    elif way == "kind" and labels:
        lines[at] = str(of_another_kind(labels[at], choices))
    elif way == "insert" and labels:
        like = choices.choice(labels)
        lines.insert(at, str(of_another_kind(like, choices)))
    elif way == "cut":
        del lines[at:]
    elif way == "more":
        lines.append(choices.choice(lines or ["mtc"]))
    elif way == "bad":
        lines.insert(at, choices.choice(BAD_LINES))
    return "".join(line + "\n" for line in lines)


def path_of(label):
    return label.label.path if isinstance(label, Plain) else label.path


def elsewhere(label, choices):
    """A label with another path."""
    path = path_of(label)
    other = choices.choice([path[:-1], path + (1,), path[:-1] + (2,), path[:-1] + (1,), (3,)])
    if isinstance(label, Plain):
        return Plain(label.label._replace(path=other))
    return type(label)(other)


def of_another_kind(label, choices):
    path = path_of(label)
    return choices.choice([Snap(path), Choose(path), Plain(Label(path)),
                           Plain(Label(path, 1, choices.choice([0, 1, 2]),
                                       choices.choice(["t", "u", "t0"])))])


def laid_out(text, choices):
    """A run file with blanks and empty lines in it."""
    lines = []
    for line in text.split("\n")[:-1]:
        if choices.random() < 0.1:
            lines.append(choices.choice(["", " ", "\t\r"]))
        lines.append(choices.choice(["", " ", "\t"]) + line + choices.choice(["", " ", "\r"]))
    return "\n".join(lines) + choices.choice(["", "\n"])

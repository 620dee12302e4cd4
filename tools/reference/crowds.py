#!/usr/bin/env python3
"""Makes random modules in which several components wait at an alt at a time.

They are well typed by construction.  The test case and all other components run
on one component type, with two ports, two timers and a number.  The components
are connected with each other, send, wait, start and stop timers, and stop each
other.

    crowds.py SEED        prints the module
"""

import random
import sys

from modules import Generated

HEAD = """module Crowd {
type port P message { inout integer }
type component C { port P p, q; timer t := 1.0, u := 2.0; var integer x := 0 }
"""

# With this as a default the test case seldom waits for ever.
RESCUE = "altstep rescue() runs on C { [] t.timeout { } [] u.timeout { u.start } }\n"


class CrowdMaker:
    """Makes one module.  `others` are the names of components that are visible
    where a statement stands."""

    def __init__(self, seed):
        self.random = random.Random(f"crowd {seed}")
        self.altsteps = [f"a{number}" for number in range(self.random.randint(0, 2))]
        self.others = []

    def chance(self, probability):
        return self.random.random() < probability

    def weighted(self, choices):
        """One of pairs of a weight and a choice; each choice is made only if
        it is taken."""
        choices = [choice for choice in choices if choice[0] > 0]
        made = self.random.choices(choices, [weight for weight, _ in choices])[0][1]
        return made() if callable(made) else made

    def pick(self, choices):
        return self.random.choice(choices)

    # Names and expressions.

    def port(self):
        return self.pick("pq")

    def timer(self):
        return self.pick("ttu")

    def number(self):
        return self.pick(["1", "2", "x"])

    def other(self):
        return self.pick(self.others)

    def guard(self):
        has_others = 1 if self.others else 0
        return self.weighted([
            (8, ""),
            (2, lambda: f"x < {self.random.randint(0, 2)}"),
            (2, lambda: f"{self.timer()}.running"),
            (1, lambda: f"not {self.timer()}.running"),
            (2 * has_others, lambda: f"{self.other()}.running"),
            (1 * has_others, lambda: f"not {self.other()}.running"),
            (0.3, "1 / x == 1")])

    # Events and branches.

    def receive(self):
        has_others = 1 if self.others else 0
        return self.weighted([
            (4, lambda: f"{self.port()}.receive"),
            (3, lambda: f"{self.port()}.receive({self.number()})"),
            (2, lambda: f"{self.port()}.receive(?) -> value x"),
            (2, "any port.receive"),
            (1 * has_others, lambda: f"{self.port()}.receive from {self.other()}"),
            (0.2, lambda: f"{self.port()}.receive(1 / x)")])

    def event(self):
        has_others = 1 if self.others else 0
        return self.weighted([
            (6, self.receive),
            (3, lambda: f"{self.timer()}.timeout"),
            (1.5 * has_others, lambda: f"{self.other()}.done")])

    def branch(self, altsteps):
        event = self.event()
        if altsteps and self.chance(0.2):
            event = f"{self.pick(altsteps)}()"
        return f"[{self.guard()}] {event} {self.block()}"

    def block(self):
        """The block of a branch."""
        statements = [self.simple() for _ in range(self.random.randint(0, 2))]
        if self.chance(0.15):
            statements.append("repeat")
        return "{ " + "; ".join(statements) + " }"

    def alt(self):
        branches = [self.branch(self.altsteps) for _ in range(self.random.randint(1, 3))]
        if self.chance(0.2):
            branches.append("[else] " + self.block())
        return "alt { " + "; ".join(branches) + " }"

    # Statements.

    def simple(self):
        has_others = 1 if self.others else 0
        return self.weighted([
            (4, self.send),
            (3, lambda: f"{self.timer()}.start"),
            (1, lambda: f"{self.timer()}.stop"),
            (3, lambda: f"setverdict({self.pick(['pass', 'pass', 'inconc', 'fail'])})"),
            (2, "x := x + 1"),
            (0.7 * has_others, lambda: f"{self.other()}.stop"),
            (0.1, "mtc.stop"),
            (0.2, "stop")])

    def send(self):
        to = f" to {self.other()}" if self.others and self.chance(0.03) else ""
        return f"{self.port()}.send({self.number()}){to}"

    def statement(self):
        has_altsteps = 1 if self.altsteps else 0
        return self.weighted([
            (5, self.simple),
            (5, self.alt),
            (4, self.event),
            (1 * has_altsteps, lambda: f"{self.pick(self.altsteps)}()"),
            (1 * has_altsteps, lambda: f"activate({self.pick(self.altsteps)}())"),
            (0.3, "deactivate"),
            (0.7, lambda: f"if (x < 2) {{ {self.alt()} }}")])

    def statements(self, least, most):
        return [self.statement() for _ in range(self.random.randint(least, most))]

    # Definitions.

    def altstep(self, number):
        branches = [self.branch(self.altsteps[:number])
                    for _ in range(self.random.randint(1, 2))]
        if self.chance(0.1):
            branches.append("[else] " + self.block())
        return f"altstep a{number}() runs on C {{ {'; '.join(branches)} }}\n"

    def worker(self, number):
        self.others = ["first", "second"]
        body = ["t.start"] * self.chance(0.6) + [self.send()] * self.chance(0.6)
        body += self.statements(1, 3)
        return (f"function w{number}(C first, C second) runs on C {{\n"
                + "".join(each + ";\n" for each in body) + "}\n")

    def testcase(self, names):
        lines = [f"var C {name} := C.create" for name in names]
        ring = ["self"] + names
        for one, two in zip(ring, ring[1:] + ring[:1]):
            if self.chance(0.9):
                lines.append(f"connect({one}:q, {two}:p)")
        for number, name in enumerate(names):
            self.others = names
            lines.append(f"{name}.start(w{number}({self.other()}, {self.other()}))")
        lines += ["t.start"] * self.chance(0.8) + ["u.start"] * self.chance(0.8)
        lines += ["activate(rescue())"] * self.chance(0.7)
        lines += self.statements(1, 4)
        if self.chance(0.4):
            lines += [f"{name}.stop" for name in names] + ["all component.done"]
        return "testcase T() runs on C {\n" + "".join(each + ";\n" for each in lines) + "}\n"

    def make(self):
        definitions = [RESCUE] + [self.altstep(number) for number in range(len(self.altsteps))]
        names = ["a", "b", "c"][:self.random.choice([1, 2, 2, 2, 3])]
        definitions += [self.worker(number) for number in range(len(names))]
        definitions.append(self.testcase(names))
        return Generated(HEAD + "".join(definitions) + "}\n", "T", 40)


def module(seed):
    """The module of a seed."""
    return CrowdMaker(seed).make()


if __name__ == "__main__":
    print(module(int(sys.argv[1])).text, end="")

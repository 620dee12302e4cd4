#!/usr/bin/env python3
"""Makes random modules that are well typed by construction.

A seed determines the module.  Each has one test case `T` that creates some
components, connects and starts them and then does random things; the other
definitions are random too.  Most expressions have a value, most sends have a
way to go and most templates are near to what is sent, so that runs get far;
a few don't, so that each dynamic error is met.

    modules.py SEED        prints the module
"""

import json
import random
import sys
from dataclasses import dataclass, field
from typing import NamedTuple, Optional

VERDICTS = ["none", "pass", "inconc", "fail"]
LOCAL_NAMES = ["u", "v", "w", "x", "y", "z", "m0"]
TIMER_NAMES = ["t", "u", "s", "t0"]


class Generated(NamedTuple):
    """A module, its test case, a bound that keeps its runs few, and perhaps a
    script of what comes in at its system ports."""

    text: str
    testcase: str
    steps: int
    script: Optional[str] = None


@dataclass
class Variable:
    """A name with a value.  `certain` tells that it very likely has one."""

    name: str
    type: str
    assignable: bool = True
    certain: bool = True


@dataclass
class PortType:
    name: str
    incoming: list
    outgoing: list


@dataclass
class ComponentType:
    """`links` tells for each port how many connections the test case makes for
    it: to nobody, to one or to many components."""

    name: str
    ports: list
    members: list = field(default_factory=list)
    timers: list = field(default_factory=list)
    links: dict = field(default_factory=dict)
    text: list = field(default_factory=list)


@dataclass
class Signature:
    kind: str
    name: str
    formals: list
    runs_on: Optional[str]
    result: Optional[str]
    number: int


@dataclass
class Template:
    name: str
    type: str
    formals: list
    specific: bool
    number: int


# How strongly an expression's operators bind.
OR, XOR, AND, NOT, EQUAL, ORDER, SUM, PRODUCT, SIGN, PRIMARY = range(10)


class Spot:
    """Where a statement or expression stands: what is visible there, and what
    may be done."""

    def __init__(self, kind, runs_on=None, result=None):
        self.kind = kind
        self.runs_on = runs_on
        self.result = result
        self.scopes = [[]]
        self.timer_scopes = [[]]
        self.taken = set()
        self.in_branch = False
        self.in_loop = False
        self.started = []
        self.expected = 0
        self.budget = 8
        self.number = 10 ** 6

    def enter(self):
        self.scopes.append([])
        self.timer_scopes.append([])

    def leave(self):
        """Ends a block: what was made visible in it no longer is."""
        self.scopes.pop()
        self.timer_scopes.pop()

    def variables(self):
        return [variable for scope in self.scopes for variable in scope]

    def timers(self):
        return [timer for scope in self.timer_scopes for timer in scope]

    def is_free(self, name):
        return (name not in self.taken and name not in self.timers()
                and all(variable.name != name for variable in self.variables()))


class ModuleMaker:
    """Makes one module."""

    def __init__(self, seed):
        self.random = random.Random(seed)
        self.enumerations = {}
        self.records = {}
        self.port_types = []
        self.component_types = {}
        self.constants = []
        self.templates = []
        self.signatures = []
        self.definitions = []
        self.workers = []
        self.tries_faults = self.chance(0.4)
        self.loop_ports = None
        self.themes = [self.weighted([(4, None), (3, "names"), (4, "records"), (3, "alts"),
                                      (2, "components"), (2, "defaults"), (3, "messages"),
                                      (1.5, "numbers"), (3, "calls"),
                                      (3, "ways")]) for _ in range(2)]

    # Choices.

    def chance(self, probability):
        return self.random.random() < probability

    def fault(self, probability=0.04):
        """Whether to do something that is likely a dynamic error."""
        return self.tries_faults and self.chance(probability)

    def pick(self, choices):
        return self.random.choice(choices)

    def weighted(self, choices):
        """One of pairs of a weight and a choice."""
        weights = [weight for weight, _ in choices]
        return self.random.choices([choice for _, choice in choices], weights)[0]

    def some(self, choices, least, most):
        """Some of the choices, each at most once."""
        most = min(most, len(choices))
        return self.random.sample(choices, self.random.randint(min(least, most), most))

    # The module.

    def make(self):
        self.make_enumerations()
        self.make_records()
        self.make_port_types()
        self.make_component_types()
        self.make_constants()
        self.make_templates()
        self.plan_connections()
        self.make_signatures()
        self.sends = {}
        for signature in self.signatures:
            text = self.behaviour(signature)
            self.sends[signature.name] = text.count(".send(")
            self.definitions.append(text)
        testcase, steps = self.testcase()
        self.definitions.append(testcase)
        if self.chance(0.5):
            self.random.shuffle(self.definitions)
        head = "module Random" + self.pick(["", "", "", ' language "TTCN-3:2018"'])
        text = head + " {\n" + "".join(self.laid_out(each) for each in self.definitions)
        if self.chance(0.1):
            text += "control { execute(T()) ( [ ] ) }\n"
        return Generated(text + "}\n", "T", steps, self.script())

    # The script.

    def script(self):
        """What comes in at some of the system ports, now and then something
        that is no script."""
        if not self.scripted and self.chance(0.8):
            return None
        ports = {}
        for port, port_type in self.component_types[self.system or "M"].ports:
            if self.chance(0.8):
                ports[port] = [self.message(port_type)
                               for _ in range(self.weighted([(1, 0), (5, 1), (4, 2), (1, 3)]))]
        if self.fault(0.05):
            ports["nowhere"] = []
        written = json.dumps(ports, indent=self.pick([None, None, 1]))
        return written + "]" if self.fault(0.03) else written

    def message(self, port_type):
        types = self.data_types() if self.fault(0.03) else port_type.incoming
        of_type = self.pick(types or self.data_types())
        return {of_type: self.written_value(of_type)}

    def written_value(self, of_type):
        """A value in JSON, now and then of another type."""
        if self.fault(0.01):
            return self.pick([None, 1.0, "e0d", [], {}, -0.0, 2 ** 63])
        if of_type == "integer":
            return self.pick([0, 1, 1, 2, 2, 3, -1, 7, -2 ** 63, 2 ** 63 - 1])
        if of_type == "boolean":
            return self.chance(0.5)
        if of_type in self.enumerations:
            return self.pick(self.enumerations[of_type])
        written = {}
        for field_type, name, optional in self.records[of_type]:
            if optional and self.chance(0.4):
                if self.chance(0.5):
                    written[name] = None
            else:
                written[name] = self.written_value(field_type)
        return written

    # Layout of definitions.

    def laid_out(self, definition):
        """A definition with what may stand around it and has no meaning."""
        before = self.weighted([(20, ""), (1, "// what follows is random\n"),
                                (1, "/* a comment\nof two lines */ "), (1, "\t ")])
        after = self.weighted([(20, "\n"), (4, ";\n"), (1, ' with { encode "x" }\n')])
        return before + definition + after

    # Types.

    def make_enumerations(self):
        for number in range(self.pick([0, 1, 1])):
            name = f"E{number}"
            items = [f"e{number}{letter}" for letter in "abc"[:self.random.randint(1, 3)]]
            self.enumerations[name] = items
            written = [items[0] + self.pick(["", "(4)", "(-1)"])] + items[1:]
            self.definitions.append(f"type enumerated {name} {{ {', '.join(written)} }}")

    def make_records(self):
        most = [1, 2, 2] if "records" in self.themes else [0, 1, 1, 2, 2]
        for number in range(self.pick(most)):
            name = f"R{number}"
            fields = []
            for letter in "abcd"[:self.weighted([(1, 0), (3, 1), (6, 2), (6, 3), (1, 4)])]:
                of_type = self.pick(["integer", "integer", "boolean"]
                                    + list(self.enumerations) + list(self.records))
                fields.append((of_type, letter, self.chance(0.5)))
            self.records[name] = fields
            written = [f"{of_type} {letter}" + (" optional" if optional else "")
                       for of_type, letter, optional in fields]
            self.definitions.append(f"type record {name} {{ {', '.join(written)} }}")

    def data_types(self):
        return ["integer", "boolean"] + list(self.enumerations) + list(self.records)

    def make_port_types(self):
        """Most ports send and receive the same types; one pair of port types
        has directions."""
        shared = ["integer"] + self.some(self.data_types()[1:], 0, 2)
        least = 2 if "records" in self.themes else 0
        shared += self.some([each for each in self.records if each not in shared], least, 2)
        self.random.shuffle(shared)
        self.port_types.append(PortType("P", shared, shared))
        written = [f"type port P message {{ inout {', '.join(shared)} }}"]
        if self.chance(0.4):
            only = self.pick(self.data_types())
            self.port_types.append(PortType("Q", [only], [only]))
            written.append(f"type port Q message {{ inout {only} }}")
        if self.chance(0.3):
            asked, answered = self.pick(self.data_types()), self.pick(self.data_types())
            self.port_types.append(PortType("Ask", [answered], [asked]))
            self.port_types.append(PortType("Tell", [asked], [answered]))
            written.append(f"type port Ask message {{ out {asked}; in {answered} }}")
            written.append(f"type port Tell message {{ in {asked}; out {answered}; }}")
        self.definitions.extend(written)

    def fit(self, first, second):
        return (set(first.outgoing) <= set(second.incoming)
                and set(second.outgoing) <= set(first.incoming))

    def may_map(self, port, system_port):
        return (set(port.outgoing) <= set(system_port.outgoing)
                and set(system_port.incoming) <= set(port.incoming))

    def partner(self, port_type):
        """A port type that fits this one."""
        return self.pick([other for other in self.port_types if self.fit(port_type, other)])

    def make_component_types(self):
        """The main type `M` and one or two types of workers."""
        for name, port_names in (("M", "pqrs"), ("W", "ghi"), ("V", "gkl")):
            ports = []
            if name == "M":
                for port in port_names[:self.random.randint(2, 4)]:
                    ports.append((port, self.pick(self.port_types)))
            else:
                for port in port_names[:self.random.randint(1, 3)]:
                    main = self.pick(self.component_types["M"].ports)[1]
                    ports.append((port, self.partner(main)))
            component_type = ComponentType(name, ports)
            self.component_types[name] = component_type
        for component_type in self.component_types.values():
            self.make_members(component_type)
        names = list(self.component_types)
        for name in names:
            self.definitions.append(self.written_component_type(self.component_types[name]))

    def written_component_type(self, component_type):
        members = list(component_type.text)
        for port, port_type in component_type.ports:
            members.append(f"port {port_type.name} {port}")
        if self.chance(0.2):
            # Ports stay in their order, so the first one isn't moved behind
            # another port; other members stay in their order too.
            members = members[len(component_type.text):] + members[:len(component_type.text)]
        return (f"type component {component_type.name} {{ " + "; ".join(members)
                + self.pick(["", ";"] if members else [""]) + " }")

    def make_members(self, component_type):
        spot = Spot("member")
        spot.runs_on = component_type.name
        for number in range(self.pick([0, 1, 1, 2, 3])):
            name = f"m{number}"
            of_type = self.weighted([(4, "integer"), (2, "boolean"), (1, "default"),
                                     (2, self.pick(self.data_types())),
                                     (1, self.pick(list(self.component_types)))])
            if self.chance(0.15) and of_type != "default":
                value = self.value(spot, of_type)
                component_type.text.append(f"const {of_type} {name} := {value}")
                variable = Variable(name, of_type, assignable=False)
            elif self.chance(0.75):
                value = self.value(spot, of_type)
                component_type.text.append(f"var {of_type} {name} := {value}")
                variable = Variable(name, of_type, certain=value != "null")
            else:
                component_type.text.append(f"var {of_type} {name}")
                variable = Variable(name, of_type, certain=False)
            component_type.members.append(variable)
            spot.scopes[-1].append(variable)
        for number in range(self.pick([0, 0, 1, 1, 2])):
            name = f"t{number}"
            component_type.text.append(f"timer {name}" + self.pick(["", " := 1.0"]))
            component_type.timers.append(name)

    # Constants and templates.

    def make_constants(self):
        spot = Spot("constant")
        for number in range(self.pick([0, 1, 1, 2])):
            of_type = self.pick(self.data_types())
            name = f"c{number}"
            self.definitions.append(f"const {of_type} {name} := {self.value(spot, of_type)}")
            self.constants.append(Variable(name, of_type, assignable=False))

    def make_templates(self):
        for number in range(self.pick([0, 1, 2, 2, 3])):
            of_type = self.pick(self.data_types())
            formals = [Variable(letter, self.pick(self.data_types()))
                       for letter in "xy"[:self.pick([0, 0, 1, 2])]]
            spot = Spot("template")
            spot.scopes[0].extend(formals)
            specific = self.chance(0.4)
            if specific:
                body = self.specific(spot, of_type)[0]
            else:
                body = self.template(spot, of_type, 2)[0]
            name = f"k{number}"
            written = self.written_formals(formals) if formals or self.chance(0.3) else ""
            self.definitions.append(f"template {of_type} {name}{written} := {body}")
            self.templates.append(Template(name, of_type, formals, specific, number))

    # Behaviours.

    def plan_connections(self):
        """Which ports the test case connects: each worker to a port of the
        main component, and perhaps two of the main component's own ports."""
        main = self.component_types["M"]
        for component_type in self.component_types.values():
            component_type.links = {port: [] for port, _ in component_type.ports}
        self.connections = []
        self.system = self.weighted([(6, None), (2, self.pick(list(self.component_types)))])
        counts = [(3, 0), (5, 1), (5, 2), (1, 3)]
        if any(theme is not None for theme in self.themes):
            counts = [(5, 0), (4, 1), (3, 2), (0.5, 3)]
        for number in range(self.weighted(counts)):
            name = f"w{number + 1}"
            worker = self.component_types[self.pick(["W", "W", "V"])]
            self.workers.append((name, worker.name))
            served = [other for other in worker.links if worker.links[other]]
            pairs = [(mine, other) for mine, mine_type in main.ports
                     for other, other_type in worker.ports
                     if self.fit(mine_type, other_type)
                     and (not served or other in served)]
            for mine, other in self.some(pairs, 1, 1):
                self.connections.append((f"self:{mine}", f"{name}:{other}"))
                main.links[mine].append(name)
                worker.links[other].append("mtc")
        loops = [(first, second) for first, first_type in main.ports
                 for second, second_type in main.ports
                 if first < second and self.fit(first_type, second_type)
                 and not main.links[first] and not main.links[second]]
        if loops and (not self.workers or self.chance(0.5)):
            first, second = self.pick(loops)
            self.connections.append((f"self:{first}", f"self:{second}"))
            main.links[first].append("self")
            main.links[second].append("self")
            self.loop_ports = self.pick([(first, second), (second, first)])

    def make_signatures(self):
        number = 0
        for _ in range(self.pick([0, 1, 2, 3, 3])):
            runs_on = self.weighted([(7, "M"), (1.5, "W"), (0.5, "V"), (2, None)])
            self.signatures.append(Signature(
                "altstep", f"a{number}", self.formals(), runs_on, None, number))
            number += 1
        for worker_type in sorted({of_type for _, of_type in self.workers}):
            for _ in range(self.pick([1, 2])):
                self.signatures.append(Signature(
                    "function", f"f{number}", self.formals(), worker_type,
                    self.pick(self.data_types()) if self.chance(0.15) else None, number))
                number += 1
        for _ in range(self.pick([1, 2, 3] if "calls" in self.themes else [0, 1, 2])):
            runs_on = self.weighted([(5, "M"), (1, "W"), (3, None)])
            result = None
            if self.chance(0.7):
                result = self.pick(self.data_types() + ["M"])
            self.signatures.append(Signature(
                "function", f"f{number}", self.formals(), runs_on, result, number))
            number += 1

    def formals(self):
        formals = []
        for letter in ["n1", "n2"][:self.weighted([(4, 0), (4, 1), (1, 2)])]:
            of_type = self.weighted([(5, "integer"), (2, "boolean"),
                                     (2, self.pick(self.data_types())),
                                     (2, self.pick(["M", "W"])), (1, "default")])
            formals.append(Variable(letter, of_type))
        return formals

    def written_formals(self, formals):
        written = [self.pick(["", "", "in "]) + f"{formal.type} {formal.name}"
                   for formal in formals]
        return "(" + ", ".join(written) + ")"

    def spot_of(self, signature):
        """The spot at the beginning of a behaviour."""
        spot = Spot(signature.kind, signature.runs_on, signature.result)
        spot.number = signature.number
        if signature.runs_on is not None:
            component_type = self.component_types[signature.runs_on]
            spot.scopes[0].extend(Variable(m.name, m.type, m.assignable, m.certain)
                                  for m in component_type.members)
            spot.timer_scopes[0].extend(component_type.timers)
            spot.taken.update(port for port, _ in component_type.ports)
        spot.scopes.append([Variable(f.name, f.type, certain=f.type not in
                                     ("M", "W", "default")) for f in signature.formals])
        spot.timer_scopes.append([])
        return spot

    def behaviour(self, signature):
        spot = self.spot_of(signature)
        head = f"{signature.kind} {signature.name}{self.written_formals(signature.formals)}"
        if signature.runs_on is not None:
            head += f" runs on {signature.runs_on}"
        if signature.kind == "altstep":
            spot.budget = 5
            branches = [self.branch(spot, last) for last in
                        self.branch_places(self.weighted([(1, 0), (4, 1), (4, 2), (1, 3)]))]
            return f"{head} {{\n" + self.joined(branches) + "}"
        if signature.result is not None:
            head += f" return {signature.result}"
        spot.budget = self.random.randint(2, 6)
        statements = []
        if signature.runs_on in ("W", "V") and self.chance(0.8):
            statements.extend(self.send(spot) or [])
        statements.extend(self.statements(spot, self.random.randint(0, 3)))
        if signature.result is not None and not self.fault(0.1):
            statements.append("return " + self.value(spot, signature.result))
        return f"{head} {{\n" + self.joined(statements) + "}"

    def testcase(self):
        """The test case, and a number of steps that lets it get somewhere."""
        signature = Signature("testcase", "T", [], "M", None, 10 ** 6)
        spot = self.spot_of(signature)
        spot.enter()
        statements = []
        for name, of_type in self.workers:
            if self.chance(0.8):
                statements.append(f"var {of_type} {name} := {of_type}.create")
            else:
                statements.append(f"var {of_type} {name}")
                statements.append(f"{name} := {of_type}.create")
            spot.scopes[-1].append(Variable(name, of_type, assignable=self.chance(0.2)))
        connects = [f"connect({first}, {second})" if self.chance(0.5)
                    else f"connect({second}, {first})" for first, second in self.connections]
        if self.fault(0.15):
            connects = connects[1:]
        statements.extend(connects)
        self.scripted = self.chance(0.5)
        if self.scripted:
            for _ in range(self.pick([1, 1, 2])):
                statements.extend(self.mapping_of("self", "M", "map"))
                spot.expected += 1
        elif self.chance(0.2):
            statements.extend(self.mapping_of("self", "M"))
        for of_type in self.some(self.data_types() + ["W", "V"], 0, 2):
            name = self.new_name(spot, LOCAL_NAMES)
            certain = of_type in self.data_types() and self.chance(0.6)
            right = f" := {self.value(spot, of_type)}" if certain else ""
            statements.append(f"var {of_type} {name}{right}")
            spot.scopes[-1].append(Variable(name, of_type, certain=certain))
        for timer in spot.timers():
            if self.chance(0.5):
                statements.append(f"{timer}.start")
                spot.started.append(timer)
        if self.chance(0.5):
            for altstep in self.some(self.activatable(spot), 0, 2):
                statements.append(self.activation(spot, altstep))
        for name, of_type in self.workers:
            functions = [signature for signature in self.signatures
                         if signature.kind == "function" and signature.runs_on == of_type]
            if functions and not self.chance(0.08):
                function = self.pick(functions)
                statements.append(f"{name}.start({self.call(spot, function)})")
                spot.expected += self.sends[function.name]
        begun = len(statements)
        spot.budget = 14
        for _ in range(self.random.randint(1, 4)):
            statements.extend(self.round(spot))
        most = {0: 60, 1: 30, 2: 20, 3: 14}[len(self.workers)]
        steps = begun + self.random.randint(most // 3, most)
        system = f" system {self.system}" if self.system else ""
        return f"testcase T() runs on M{system} {{\n" + self.joined(statements) + "}", steps

    def round(self, spot):
        """Something sent, anything at all, and something waited for."""
        made = []
        if self.chance(0.6 if self.workers else 0.3):
            made.extend(self.send(spot) or [])
        made.extend(self.statements(spot, self.weighted([(2, 0), (4, 1), (3, 2)])))
        if spot.timers() and self.chance(0.25):
            timer = self.pick(spot.timers())
            made.append(f"{timer}.start")
            spot.started.append(timer)
        if self.loop_ports is not None and self.chance(0.6):
            types = dict(self.component_types["M"].ports)[self.loop_ports[0]].outgoing
            if "records" in self.themes:
                types = [each for each in types if each in self.records] or types
            made.extend(self.loop_of(spot, self.pick(types)))
        elif spot.expected > 0 or spot.started or self.chance(0.1):
            made.extend(self.alternative(spot) if self.chance(0.75)
                        else self.lone_event(spot))
            spot.expected -= 1
        return made

    # Layout.

    def joined(self, items):
        """Statements or branches, each with what ends it.  Where the last
        token is a closing brace the semicolon may be missing."""
        written = []
        for at, item in enumerate(items):
            if item.endswith("}"):
                end = self.pick(["", "", ";"])
            elif at == len(items) - 1:
                end = self.pick(["", ";"])
            else:
                end = ";"
            written.append(item + end + self.pick(["\n", "\n", "\n", " "]))
        return "".join(written)

    def block(self, spot, statements):
        """A block of so many statements, in a scope of its own."""
        spot.enter()
        text = "{ " + self.joined(self.statements(spot, statements)) + "}"
        spot.leave()
        return text

    def small_block(self, spot):
        return self.block(spot, self.weighted([(2, 0), (4, 1), (2, 2)]))

    # Statements.

    def statements(self, spot, count):
        made = []
        for _ in range(count):
            if spot.budget <= 0:
                break
            spot.budget -= 1
            made.extend(self.statement(spot))
        return made

    def statement(self, spot):
        """One statement, or a few that belong together."""
        theme = self.pick(self.themes)
        if theme is not None and spot.budget > 2 and self.chance(0.5):
            made = getattr(self, "theme_of_" + theme)(spot)
            if made:
                spot.budget -= 2
                return made
        has_ports = spot.runs_on is not None
        kinds = [(4, self.new_variable), (5, self.assign), (2, self.choice_of_blocks),
                 (2, self.loop), (3, self.verdict), (0.4, self.log),
                 (1.5, self.new_timer), (2, self.timer_action), (2, self.activate),
                 (0.7, self.deactivate), (2.5, self.call_function), (1.5, self.call_altstep),
                 (2.5, self.alternative), (0.8, self.lone_event), (0.6, self.stop),
                 (0.5, self.new_component)]
        if has_ports:
            kinds += [(7, self.send), (0.4, self.connect), (0.4, self.mapping)]
        if spot.kind == "function":
            kinds.append((0.7, self.give_back))
        if spot.in_branch:
            kinds.append((5, self.go_back))
        return self.weighted(kinds)(spot) or [self.verdict(spot)[0]]

    def new_name(self, spot, names):
        """A name that isn't visible here, perhaps one of a block that has
        ended."""
        free = [name for name in names if spot.is_free(name)]
        return self.pick(free) if free else None

    def new_variable(self, spot):
        name = self.new_name(spot, LOCAL_NAMES)
        if name is None:
            return None
        of_type = self.weighted([(4, "integer"), (2, "boolean"), (1, "default"),
                                 (7, self.pick(self.data_types())),
                                 (2, self.pick(list(self.component_types)))])
        right, certain = self.right_side(spot, of_type)
        if right is None or self.chance(0.2):
            spot.scopes[-1].append(Variable(name, of_type, certain=False))
            return [f"var {of_type} {name}"]
        if (self.chance(0.15) and of_type != "default" and of_type not in self.component_types):
            value = self.value(spot, of_type)
            spot.scopes[-1].append(Variable(name, of_type, assignable=False))
            return [f"const {of_type} {name} := {value}"]
        spot.scopes[-1].append(Variable(name, of_type, certain=certain))
        text = f"var {of_type} {name} := {right}"
        second = self.new_name(spot, LOCAL_NAMES)
        if second is not None and self.chance(0.2):
            text += f", {second}"
            if self.chance(0.7):
                text += f" := {self.value(spot, of_type)}"
                spot.scopes[-1].append(Variable(second, of_type, certain=of_type in self.data_types()))
            else:
                spot.scopes[-1].append(Variable(second, of_type, certain=False))
        return [text]

    def right_side(self, spot, of_type):
        """What may stand behind `:=`, and whether it certainly is a value that
        isn't null."""
        calls = [signature for signature in self.signatures
                 if signature.kind == "function" and signature.result == of_type
                 and self.may_call(spot, signature)]
        if of_type == "default":
            altsteps = self.activatable(spot)
            if altsteps and self.chance(0.8):
                return self.activation(spot, self.pick(altsteps)), True
            return "null", False
        if calls and self.chance(0.6):
            return self.call(spot, self.pick(calls)), True
        if of_type in self.component_types:
            if self.chance(0.25):
                return f"{of_type}.create", True
            text = self.value(spot, of_type)
            return text, text != "null"
        return self.value(spot, of_type), True

    def places(self, spot, of_type=None):
        """Paths that can be assigned, as pairs of a text and a type."""
        found = []
        for variable in spot.variables():
            if variable.assignable:
                self.add_places(found, variable.name, variable.type)
        return [(text, each) for text, each in found if of_type in (None, each)]

    def add_places(self, found, text, of_type):
        found.append((text, of_type))
        for field_type, name, _ in self.records.get(of_type, []):
            self.add_places(found, f"{text}.{name}", field_type)

    def assign(self, spot):
        places = self.places(spot)
        if not places:
            return None
        text, of_type = self.pick(places)
        if self.chance(0.15) and self.is_optional(spot, text):
            return [f"{text} := omit"]
        right, certain = self.right_side(spot, of_type)
        for variable in spot.variables():
            if variable.name == text:
                variable.certain = certain and (variable.certain or not spot.in_loop)
        if "." in text:
            # What was assigned can be read, even where its record lacks others.
            spot.scopes[-1].append(Variable(text, of_type, assignable=False))
        return [f"{text} := {right}"]

    def is_optional(self, spot, path):
        """Whether a path ends with an optional field."""
        names = path.split(".")
        of_type = next(v.type for v in spot.variables() if v.name == names[0])
        optional = False
        for name in names[1:]:
            of_type, _, optional = next(each for each in self.records[of_type]
                                        if each[1] == name)
        return optional

    def choice_of_blocks(self, spot):
        text = f"if ({self.expression(spot, 'boolean', 2)}) {self.small_block(spot)}"
        while self.chance(0.3):
            text += f" else if ({self.expression(spot, 'boolean', 2)}) {self.small_block(spot)}"
        if self.chance(0.5):
            text += f" else {self.small_block(spot)}"
        return [text]

    def loop(self, spot):
        """A loop that most likely ends after a few turns."""
        was_in_loop, spot.in_loop = spot.in_loop, True
        made = self.weighted([(2, self.counting_while), (2, self.counting_do),
                              (4, self.counting_for), (0.5, self.free_loop)])(spot)
        spot.in_loop = was_in_loop
        return made

    def counter(self, spot):
        """An integer variable that is sure to have a value, or None."""
        counters = [variable.name for variable in spot.variables()
                    if variable.type == "integer" and variable.certain and variable.assignable]
        return self.pick(counters) if counters else None

    def counting_while(self, spot):
        name = self.counter(spot)
        if name is None:
            return None
        limit = self.random.randint(1, 3)
        body = self.small_block(spot).removesuffix("}").rstrip()
        if not body.endswith((";", "{", "}")):
            body += ";"
        return [f"while ({name} < {limit}) {body} {name} := {name} + 1 }}"]

    def counting_do(self, spot):
        name = self.counter(spot)
        if name is None:
            return None
        limit = self.random.randint(1, 3)
        return [f"do {{ {name} := {name} + 1; {self.small_block(spot)[1:]} while ({name} < {limit})"]

    def counting_for(self, spot):
        limit = self.random.randint(1, 2)
        name = self.new_name(spot, LOCAL_NAMES + ["i", "j"])
        spot.enter()
        if name is not None and self.chance(0.7):
            head = f"var integer {name} := 0"
            spot.scopes[-1].append(Variable(name, "integer"))
            second = self.new_name(spot, ["i", "j", "n"])
            if second is not None and self.chance(0.2):
                head += f", {second} := {self.expression(spot, 'integer', 1)}"
                spot.scopes[-1].append(Variable(second, "integer"))
        else:
            name = self.counter(spot)
            if name is None:
                spot.leave()
                return None
            head = f"{name} := {self.pick(['0', '0', name + ' + 1'])}"
        advance = f"{name} := {name} + 1"
        if self.chance(0.06):
            # A loop that never ends, perhaps with two equal assignments.
            advance = f"{name} := 0"
        text = f"for ({head}; {name} < {limit}; {advance}) {self.small_block(spot)}"
        spot.leave()
        return [text]

    def free_loop(self, spot):
        return [f"while ({self.expression(spot, 'boolean', 2)}) {self.small_block(spot)}"]

    def verdict(self, spot):
        reason = self.pick(["", "", ', "why"', f", {self.expression(spot, 'integer', 1)}"])
        return [f"setverdict({self.pick(VERDICTS)}{reason})"]

    def log(self, spot):
        return [f"log({self.pick(['', chr(34) + 'x' + chr(34), self.expression(spot, 'boolean', 1)])})"]

    def new_timer(self, spot):
        name = self.new_name(spot, TIMER_NAMES)
        if name is None:
            return None
        spot.timer_scopes[-1].append(name)
        made = [f"timer {name}" + self.pick(["", " := 2.5"])]
        if self.chance(0.7):
            made.append(f"{name}.start" + self.pick(["", "(0.5)", "(1.0E-3)"]))
            spot.started.append(name)
        if self.chance(0.4):
            made.extend(self.call_function(spot) or self.call_altstep(spot) or [])
        return made

    def timer_action(self, spot):
        timers = spot.timers()
        if not timers:
            return None
        return [self.pick(timers) + self.pick([".start", ".start", ".stop", ".timeout"])]

    def activatable(self, spot):
        return [signature for signature in self.signatures
                if signature.kind == "altstep" and signature.runs_on in (None, spot.runs_on)]

    def activation(self, spot, altstep):
        return f"activate({self.call(spot, altstep)})"

    def activate(self, spot):
        altsteps = self.activatable(spot)
        return [self.activation(spot, self.pick(altsteps))] if altsteps else None

    def deactivate(self, spot):
        defaults = [variable.name for variable in spot.variables()
                    if variable.type == "default"
                    and (variable.certain or self.fault(0.5))]
        if defaults and self.chance(0.7):
            return [f"deactivate({self.pick(defaults)})"]
        return ["deactivate"]

    def may_call(self, spot, signature):
        return signature.runs_on in (None, spot.runs_on)

    def call(self, spot, signature):
        arguments = [self.value(spot, formal.type) for formal in signature.formals]
        return f"{signature.name}({', '.join(arguments)})"

    def callable(self, spot, kind):
        """The behaviours of a kind that may be called here.  Mostly earlier
        ones, so that recursion stays rare."""
        found = [signature for signature in self.signatures
                 if signature.kind == kind and self.may_call(spot, signature)]
        earlier = [signature for signature in found if signature.number < spot.number]
        return found if self.chance(0.15) else earlier

    def call_function(self, spot):
        functions = self.callable(spot, "function")
        return [self.call(spot, self.pick(functions))] if functions else None

    def call_altstep(self, spot):
        altsteps = self.callable(spot, "altstep")
        return [self.call(spot, self.pick(altsteps))] if altsteps else None

    def stop(self, spot):
        """Mostly another component is stopped."""
        others = self.component_expressions(spot)
        kinds = [(1, "stop"), (0.5, "self.stop"), (0.5, "mtc.stop")]
        if others:
            kinds.append((6, self.pick(others) + ".stop"))
        return [self.weighted(kinds)]

    def new_component(self, spot):
        """Creates one more component, and perhaps connects and starts it."""
        name = self.new_name(spot, ["n", "o"])
        if name is None:
            return None
        of_type = self.pick(list(self.component_types))
        spot.scopes[-1].append(Variable(name, of_type))
        made = [f"var {of_type} {name} := {of_type}.create"]
        if spot.runs_on is not None and self.chance(0.6):
            mine = self.pick(self.component_types[spot.runs_on].ports)[0]
            links = self.component_types[of_type].links
            served = [port for port in links if links[port]]
            other = self.pick(served or list(links))
            made.append(f"connect(self:{mine}, {name}:{other})")
        functions = [signature for signature in self.signatures
                     if signature.kind == "function" and signature.runs_on == of_type]
        if functions and self.chance(0.4):
            made.append(f"{name}.start({self.call(spot, self.pick(functions))})")
        return made

    def connect(self, spot):
        ends = [("self", spot.runs_on), ("mtc", "M")]
        ends += [(variable.name, variable.type) for variable in spot.variables()
                 if variable.type in self.component_types and variable.certain]
        written = []
        for component, of_type in (self.pick(ends), self.pick(ends)):
            port = self.pick(self.component_types[of_type].ports)[0]
            written.append(f"{component}:{'nowhere' if self.fault(0.02) else port}")
        return [f"connect({written[0]}, {written[1]})"]

    def mapping(self, spot):
        ends = [("self", spot.runs_on), ("mtc", "M")]
        ends += [(variable.name, variable.type) for variable in spot.variables()
                 if variable.type in self.component_types and variable.certain]
        return self.mapping_of(*self.pick(ends))

    def mapping_of(self, component, of_type, operation=None):
        """A port of a component is mapped or unmapped; most often its type allows that."""
        its = self.component_types[of_type]
        free = [each for each in its.ports if not its.links[each[0]]]
        port, port_type = self.pick(its.ports if self.fault(0.1) else free or its.ports)
        system_ports = self.component_types[self.system or "M"].ports
        fitting = [each for each in system_ports if self.may_map(port_type, each[1])]
        operation = operation or self.pick(["map", "map", "unmap"])
        if not fitting and not self.fault(0.1):
            operation = "unmap"
        system_port = self.pick(fitting or system_ports)[0]
        if self.fault(0.02):
            system_port = "nowhere"
        ends = [f"{component}:{port}", f"system:{system_port}"]
        self.random.shuffle(ends)
        return [f"{operation}({ends[0]}, {ends[1]})"]

    def give_back(self, spot):
        if spot.result is None:
            return ["return"]
        return [f"return {self.value(spot, spot.result)}"]

    def go_back(self, spot):
        """`repeat`, mostly guarded, so that it is left at some time."""
        if self.chance(0.5):
            return ["repeat"]
        name = self.counter(spot)
        if name is None:
            return [f"if ({self.expression(spot, 'boolean', 1)}) {{ repeat }}"]
        return [f"if ({name} < 2) {{ {name} := {name} + 1; repeat }}"]

    # Themes: a few statements that belong together and lead somewhere.

    def theme_of_names(self, spot):
        """One name declared in blocks beside each other, as different things,
        on two ways that may come together again."""
        name = self.new_name(spot, ["x", "y", "z"])
        if name is None:
            return None
        made = []
        if spot.timers() and self.chance(0.8):
            timer = self.pick(spot.timers())
            made.append(f"{timer}.start")
            condition = f"{timer}.running"
            made.append(f"if ({condition}) {self.naming_block(spot, name)} "
                        f"else {self.naming_block(spot, name)}")
            made.append(f"{timer}.stop")
        else:
            made.append(f"if (true) {self.naming_block(spot, name)}")
        for _ in range(self.random.randint(0, 2)):
            made.append(f"if (true) {self.naming_block(spot, name)}")
        return made

    def naming_block(self, spot, name):
        """A block that declares this name, and perhaps uses it."""
        spot.enter()
        made = []
        kind = self.weighted([(3, "timer"), (4, "value"), (4, "empty"), (4, "call"), (2, "none")])
        if kind == "timer":
            made.append(f"timer {name}")
            if self.chance(0.7):
                made.append(f"{name}.start")
        elif kind != "none":
            of_type = self.pick(self.data_types() + ["integer", "default", "W"])
            if kind == "value":
                made.append(f"var {of_type} {name} := {self.value(spot, of_type)}")
                if self.chance(0.3) and of_type == "integer":
                    made.append(f"if ({name} == 1) {{ setverdict(pass) }}")
            elif kind == "call":
                calls = self.results(spot)
                if calls:
                    function = self.pick(calls)
                    made.append(f"var {function.result} {name} := {self.call(spot, function)}")
            else:
                made.append(f"var {of_type} {name}")
                if self.chance(0.1) and of_type == "integer":
                    made.append(f"if ({name} == 1) {{ setverdict(pass) }}")
        if self.chance(0.2):
            made.extend(self.verdict(spot))
        spot.leave()
        return "{ " + self.joined(made) + "}"

    def results(self, spot):
        """The functions with results that may be called here."""
        return [signature for signature in self.signatures
                if signature.kind == "function" and signature.result is not None
                and self.may_call(spot, signature) and signature.number < spot.number]

    def theme_of_ways(self, spot):
        """Two ways that a timer decides between.  What they leave behind may
        be the same, and then they come together again."""
        timer = self.pick(spot.timers()) if spot.timers() else None
        made = []
        if timer is None:
            timer = self.new_name(spot, TIMER_NAMES)
            if timer is None:
                return None
            spot.timer_scopes[-1].append(timer)
            made.append(f"timer {timer}")
        first, second = self.way(spot), self.way(spot)
        if self.chance(0.4):
            second = first
        made.append(f"{timer}.start")
        made.append(f"if ({timer}.running) {first}" + self.pick(["", f" else {second}"]))
        made.append(f"{timer}.stop")
        for variable in spot.variables():
            if variable.type in self.component_types and self.chance(0.2):
                made.append(f"{variable.name}.stop") if variable.certain else None
        return made

    def way(self, spot):
        """A block whose traces are hard to see."""
        spot.enter()
        kind = self.pick(["assign", "component", "default", "connect", "send", "any", "none"])
        made = []
        if kind == "assign":
            made.extend(self.assign(spot) or [])
        elif kind == "component":
            made.append("var W n := W.create" if spot.is_free("n") else "log()")
            if made[0] != "log()" and self.chance(0.7):
                made.append("n.stop")
        elif kind == "default" and self.activatable(spot):
            made.append(self.activation(spot, self.pick(self.activatable(spot))))
            if self.chance(0.6):
                made.append("deactivate")
        elif kind == "connect":
            others = self.component_expressions(spot)
            if others and spot.runs_on is not None:
                made.extend(self.connection_of(spot, others))
        elif kind == "send" and spot.runs_on is not None:
            made.extend(self.send(spot) or [])
        elif kind == "any":
            made.extend(self.statements(spot, 1))
        spot.leave()
        return "{ " + self.joined(made) + "}"

    def connection_of(self, spot, others):
        """A connection between two components that are named here, whose
        ports fit."""
        types = {variable.name: variable.type for variable in spot.variables()}
        first, second = self.pick(others), self.pick(others)
        pairs = [(port, other)
                 for port, port_type in self.component_types[types[first]].ports
                 for other, other_type in self.component_types[types[second]].ports
                 if self.fit(port_type, other_type) and (first, port) != (second, other)]
        if not pairs:
            return []
        port, other = self.pick(pairs)
        return [f"connect({first}:{port}, {second}:{other})"]

    def theme_of_records(self, spot):
        """A record that is made, changed, asked about, compared and sent."""
        types = [each for each in self.records if self.records[each]]
        name = self.new_name(spot, ["x", "y", "z", "v"])
        if not types or name is None:
            return None
        of_type = self.pick(types)
        right = self.weighted([(2, ""), (3, " := " + self.literal(spot, of_type, self.value)),
                               (4, " := " + self.literal(spot, of_type, self.value, lacks=True))])
        made = [f"var {of_type} {name}{right}"]
        spot.scopes[-1].append(Variable(name, of_type, certain=right != ""))
        paths = []
        self.add_places(paths, name, of_type)
        for _ in range(self.random.randint(2, 5)):
            path, path_type = self.pick(paths[1:])
            kind = self.weighted([(5, "assign"), (3, "omit"), (5, "present"), (1.5, "equal"),
                                  (1, "read"), (1, "whole"), (2.5, "send")])
            if kind == "omit" and self.is_optional(spot, path):
                made.append(f"{path} := omit")
            elif kind == "assign":
                made.append(f"{path} := {self.right_side(spot, path_type)[0]}")
            elif kind == "present":
                made.append(f"if (ispresent({path})) {{ {self.verdict(spot)[0]} }} "
                            + self.pick(["", "else { setverdict(none) } "]).rstrip())
                made[-1] = made[-1].rstrip()
            elif kind == "equal":
                other = self.pick([each for each in self.readable(spot, of_type)] + [name])
                made.append(f"if ({name} {self.pick(['==', '!='])} {other}) {{ log() }}")
            elif kind == "read":
                made.append(f"if ({path} == {path}) {{ setverdict(none) }}")
            elif kind == "whole":
                made.append(f"{name} := {self.literal(spot, of_type, self.value, lacks=self.chance(0.5))}")
            elif kind == "send":
                made.extend(self.loop_of(spot, of_type, name) or [])
        return made

    def loop_of(self, spot, of_type, text=None):
        """Something sent to oneself and received again, by one of several
        templates."""
        if self.loop_ports is None or spot.runs_on != "M":
            return None
        port, far = self.loop_ports
        types = dict(self.component_types["M"].ports)
        outgoing, incoming = types[port].outgoing, types[far].incoming
        if of_type not in outgoing:
            return None
        known = text is not None
        if text is None:
            text, known = self.specific(spot, of_type)
        made = [f"{port}.send({self.typed(text, known, of_type, outgoing)})"]
        branches = []
        for _ in range(self.random.randint(1, 3)):
            wanted = of_type if self.chance(0.8) else self.pick(incoming)
            template, known = self.template(spot, wanted, 2)
            port_text = far
            if self.chance(0.15):
                port_text, incoming_here = "any port", ["", " "]
            else:
                incoming_here = incoming
            event = (f"{port_text}.receive({self.typed(template, known, wanted, incoming_here)})"
                     + self.risky_sender(spot) + self.redirect(spot, wanted))
            branches.append(f"[{self.guard(spot) if self.chance(0.15) else ''}] {event} "
                            f"{self.branch_block(spot)}")
        if self.chance(0.85):
            branches.append(f"[] {self.pick([far, 'any port'])}.receive"
                            f"{self.redirect(spot, None)} {self.branch_block(spot)}")
        made.append("alt { " + self.joined(branches) + "}")
        return made

    def risky_sender(self, spot):
        """Sometimes a sender: oneself, another, null or none at all."""
        if not self.chance(0.2):
            return ""
        others = [variable.name for variable in spot.variables()
                  if variable.type in self.component_types]
        return f" from {self.pick(others + ['mtc', 'self'])}"

    def theme_of_messages(self, spot):
        if self.loop_ports is None:
            return None
        types = dict(self.component_types["M"].ports)
        made = []
        name = self.new_name(spot, ["x", "y", "z"])
        if name is not None and self.chance(0.4):
            of_type = self.weighted([(3, "M"), (1, "W")])
            made.append(f"var {of_type} {name}" + self.pick(["", " := null"]))
            spot.scopes[-1].append(Variable(name, of_type, certain=False))
        return made + (self.loop_of(spot, self.pick(types[self.loop_ports[0]].outgoing)) or [])

    def theme_of_alts(self, spot):
        """Alts in alts that go on by themselves and are repeated some times."""
        made = []
        name = self.counter(spot)
        if name is None:
            name = self.new_name(spot, ["i", "j"])
            if name is None:
                return None
            made.append(f"var integer {name} := 0")
            spot.scopes[-1].append(Variable(name, "integer"))
        return made + [self.nested_alt(spot, name, self.random.randint(1, 3))]

    def nested_alt(self, spot, counter, depth):
        limit = self.random.randint(1, 4)
        branches = []
        if self.chance(0.3):
            branches.append(self.branch(spot, False))
        altsteps = self.callable(spot, "altstep")
        if spot.kind == "altstep":
            altsteps = [each for each in altsteps if each.number < spot.number]
        if altsteps and self.chance(0.6):
            branches.append(f"[{counter} < {limit}] {self.call(spot, self.pick(altsteps))} "
                            + self.counting_block(spot, counter, limit, depth))
        branches.append("[else] " + self.counting_block(spot, counter, limit, depth))
        return "alt { " + self.joined(branches) + "}"

    def counting_block(self, spot, counter, limit, depth):
        """A block that counts, perhaps holds another alt, and repeats."""
        was_in_branch, spot.in_branch = spot.in_branch, True
        spot.enter()
        made = []
        if self.chance(0.8):
            made.append(f"{counter} := {counter} + 1")
        if depth > 1 and self.chance(0.7):
            made.append(self.nested_alt(spot, counter, depth - 1))
        if self.chance(0.3):
            made.extend(self.verdict(spot))
        if self.chance(0.7):
            made.append(f"if ({counter} < {limit}) {{ repeat }}" if self.chance(0.8) else "repeat")
        if self.chance(0.2):
            made.extend(self.verdict(spot))
        spot.leave()
        spot.in_branch = was_in_branch
        return "{ " + self.joined(made) + "}"

    def theme_of_components(self, spot):
        """A component that is created, connected, started, stopped, waited
        for and asked about, in some order."""
        name = self.new_name(spot, ["n", "o", "x", "y"])
        if name is None or spot.runs_on is None:
            return None
        of_type = self.pick(["W", "V", "W", "M"])
        spot.scopes[-1].append(Variable(name, of_type))
        made = [f"var {of_type} {name} := {of_type}.create"]
        mine = self.component_types[spot.runs_on].ports
        theirs = self.component_types[of_type].ports
        functions = [signature for signature in self.signatures
                     if signature.kind == "function" and signature.runs_on == of_type]
        port = other = None
        for _ in range(self.random.randint(2, 6)):
            kind = self.weighted([(3, "connect"), (2, "again"), (2, "stop"), (2, "start"),
                                  (2, "done"), (3, "running"), (3, "send"), (1.5, "all")])
            if kind == "connect":
                pairs = [(first, second) for first, first_type in mine
                         for second, second_type in theirs if self.fit(first_type, second_type)
                         and (not self.component_types[spot.runs_on].links[first] or self.chance(0.1))]
                if pairs and (port is None or self.chance(0.3)):
                    port, other = self.pick(pairs)
                    made.append(f"connect(self:{port}, {name}:{other})")
                elif self.chance(0.1):
                    made.append(f"connect(self:{self.pick(mine)[0]}, {name}:{self.pick(theirs)[0]})")
            elif kind == "again" and port is not None:
                made.append(f"connect({name}:{other}, self:{port})")
            elif kind == "stop":
                made.append(f"{name}.stop")
            elif kind == "start" and functions and self.chance(0.6):
                made.append(f"{name}.start({self.call(spot, self.pick(functions))})")
            elif kind == "done":
                made.append(f"alt {{ [] {name}.done {{ {self.verdict(spot)[0]} }} [else] {{ }} }}"
                            if self.chance(0.7) else f"{name}.done")
            elif kind == "all":
                made.append("alt { [] all component.done { } [else] { setverdict(none) } }")
            elif kind == "running":
                made.append(f"if ({name}.running) {{ {self.verdict(spot)[0]} }}")
            elif kind == "send" and port is not None:
                types = dict(mine)[port].outgoing
                if types:
                    message_type = self.pick(types)
                    text, known = self.specific(spot, message_type)
                    made.append(f"{port}.send({self.typed(text, known, message_type, types)})"
                                + self.pick(["", f" to {name}"]))
        return made

    def theme_of_defaults(self, spot):
        """Defaults that come and go, and an alt that needs them."""
        altsteps = self.activatable(spot)
        name = self.new_name(spot, ["d", "e"])
        if not altsteps or name is None:
            return None
        made = [f"var default {name} := {self.activation(spot, self.pick(altsteps))}"]
        spot.scopes[-1].append(Variable(name, "default"))
        for _ in range(self.random.randint(1, 4)):
            kind = self.weighted([(4, "activate"), (2, "deactivate"), (2, "assign"),
                                  (0.5, "null"), (0.5, "all"), (3, "wait"), (2, "send")])
            if kind == "activate":
                made.append(self.activation(spot, self.pick(altsteps)))
            elif kind == "deactivate":
                made.append(f"deactivate({name})")
            elif kind == "assign":
                made.append(f"{name} := {self.activation(spot, self.pick(altsteps))}")
            elif kind == "null":
                made.append(f"{name} := null")
            elif kind == "all":
                made.append("deactivate")
            elif kind == "wait":
                made.extend(self.alternative(spot) if self.chance(0.4) else self.lone_event(spot))
            elif spot.runs_on is not None:
                made.extend(self.send(spot) or [])
        return made

    def theme_of_numbers(self, spot):
        """Operators on numbers with signs; what comes out decides."""
        made = []
        for _ in range(self.random.randint(1, 3)):
            left, right = [self.random.choice([-9, -7, -6, -2, -1, 0, 1, 2, 3, 6, 7, 8])
                           for _ in range(2)]
            operator = self.pick(["/", "rem", "mod", "mod", "+", "-", "*"])
            right = right or (0 if self.fault(0.3) else 5)
            size = abs(right) or 1
            found = self.pick([0, 1, left // size, -(-left // size), left % size,
                               -(-left % size), left + right, left * right])
            made.append(f"if ({left} {operator} {right} == {found}) {{ {self.verdict(spot)[0]} }}")
            if self.chance(0.3):
                made[-1] += " else { setverdict(none) }"
        if self.chance(0.3):
            left = self.pick(["true", "false"])
            operator = self.pick(["and", "or", "xor"])
            made.append(f"if ({left} {operator} 1 / 0 == 1) {{ setverdict(none) }}")
        return made

    def theme_of_calls(self, spot):
        """A timer that runs below, and calls whose results are stored."""
        calls = self.results(spot)
        made = []
        if self.chance(0.5):
            name = self.new_name(spot, TIMER_NAMES)
            if name is not None:
                spot.timer_scopes[-1].append(name)
                made += [f"timer {name}", f"{name}.start"]
        for _ in range(self.random.randint(1, 3)):
            if not calls:
                made.extend(self.call_function(spot) or [])
                continue
            function = self.pick(calls)
            call = self.call(spot, function)
            targets = [text for text, _ in self.places(spot, function.result)]
            name = self.new_name(spot, ["x", "y", "z"])
            if targets and self.chance(0.5):
                made.append(f"{self.pick(targets)} := {call}")
            elif name is not None and self.chance(0.8):
                made.append(f"var {function.result} {name} := {call}")
                spot.scopes[-1].append(Variable(name, function.result))
            else:
                made.append(call)
        return made

    # Ports.

    def send(self, spot):
        component_type = self.component_types[spot.runs_on]
        linked = [(port, port_type) for port, port_type in component_type.ports
                  if component_type.links[port] or self.fault(0.02)]
        linked = [(port, port_type) for port, port_type in linked if port_type.outgoing]
        if not linked:
            return None
        port, port_type = self.pick(linked)
        links = component_type.links[port]
        to = ""
        if spot.runs_on != "M":
            if self.chance(0.1):
                to = " to mtc"
        elif len(links) != 1 or self.chance(0.1):
            visible = [variable.name for variable in spot.variables()]
            others = [link for link in links if link == "self" or link in visible]
            if not others:
                others = [name for name in visible if name in ("n1", "n2")
                          and name in self.component_expressions(spot)]
            if others:
                to = f" to {self.pick(others)}"
            elif not self.fault(0.3):
                return None
        if spot.runs_on == "M" and links == ["self"]:
            spot.expected += 1
        of_type = self.pick(port_type.outgoing)
        text, known = self.specific(spot, of_type)
        return [f"{port}.send({self.typed(text, known, of_type, port_type.outgoing)}){to}"]

    def typed(self, text, known, of_type, port_types):
        """The type is written where it isn't known otherwise."""
        needed = not known and len(set(port_types)) != 1
        return f"{of_type}:{text}" if needed or self.chance(0.15) else text

    def component_expressions(self, spot):
        return [variable.name for variable in spot.variables()
                if variable.type in self.component_types
                and (variable.certain or self.fault(0.2))]

    # Branches and events.

    def branch_places(self, count):
        """For each of so many branches whether it is the last one."""
        return [at == count - 1 for at in range(count)]

    def alternative(self, spot):
        count = self.weighted([(1, 1), (5, 2), (4, 3), (1, 4)])
        branches = [self.branch(spot, last) for last in self.branch_places(count)]
        if self.chance(0.35):
            event = "any port.receive" + self.redirect(spot, None)
            branches[-1] = f"[] {event} {self.branch_block(spot)}"
        return ["alt { " + self.joined(branches) + "}"]

    def branch(self, spot, last):
        alone = spot.kind == "altstep" and "defaults" in self.themes
        if self.chance(0.4 if alone else 0.2 if last else 0.02):
            return f"[else] {self.branch_block(spot)}"
        guard = self.guard(spot) if self.chance(0.3) else ""
        altsteps = [signature for signature in self.signatures
                    if signature.kind == "altstep" and self.may_call(spot, signature)
                    and (spot.kind != "altstep" or signature.number < spot.number)]
        if altsteps and self.chance(0.5 if spot.kind == "altstep" else 0.4):
            event = self.call(spot, self.pick(altsteps))
        else:
            event = self.event(spot)
        text = f"[{guard}] {event}"
        if self.chance(0.85):
            text += " " + self.branch_block(spot)
        return text

    def guard(self, spot):
        timers = spot.timers()
        if timers and self.chance(0.2):
            return f"{self.pick(timers)}.running"
        if self.fault(0.1):
            return self.pick(["1 / 0 == 1", "3 rem 0 > 1", "true or 1 mod 0 == 0",
                              "9223372036854775807 + 1 > 0"])
        return self.expression(spot, "boolean", 2)

    def branch_block(self, spot):
        was_in_branch, spot.in_branch = spot.in_branch, True
        block = self.small_block(spot)
        if self.chance(0.45):
            block = "{ " + self.verdict(spot)[0] + ";" + block[1:]
        spot.in_branch = was_in_branch
        return block

    def lone_event(self, spot):
        return [self.event(spot)]

    def event(self, spot):
        kinds = [(1.5, self.receive_anywhere)]
        if spot.runs_on is not None:
            kinds.append((7, self.receive))
        started = [timer for timer in spot.timers() if timer in spot.started]
        if started:
            kinds.append((3, lambda spot: self.pick(started) + ".timeout"))
        if spot.timers():
            kinds.append((0.6, lambda spot: self.pick(spot.timers()) + ".timeout"))
        others = self.component_expressions(spot)
        if others:
            kinds.append((1.2, lambda spot: self.pick(others) + ".done"))
        if spot.runs_on == "M" or self.fault():
            kinds.append((0.4, lambda spot: "all component.done"))
        if self.fault():
            kinds.append((0.4, lambda spot: self.pick(["mtc.done", "self.done"])))
        return self.weighted(kinds)(spot)

    def receive(self, spot):
        component_type = self.component_types[spot.runs_on]
        linked = [(port, port_type) for port, port_type in component_type.ports
                  if component_type.links[port]]
        port, port_type = self.pick(linked or component_type.ports)
        if not port_type.incoming:
            return f"{port}.receive"
        of_type = self.pick(port_type.incoming)
        if self.chance(0.2):
            return f"{port}.receive" + self.sender(spot) + self.redirect(spot, None)
        text, known = self.template(spot, of_type, 2)
        message = self.typed(text, known, of_type, port_type.incoming)
        return f"{port}.receive({message})" + self.sender(spot) + self.redirect(spot, of_type)

    def receive_anywhere(self, spot):
        if self.chance(0.5):
            return "any port.receive" + self.sender(spot) + self.redirect(spot, None)
        others = self.component_expressions(spot)
        if others and self.chance(0.05):
            return f"any port.receive({self.pick(others)})"
        of_type = self.pick(self.data_types())
        text, known = self.template(spot, of_type, 1)
        message = text if known and self.chance(0.7) else f"{of_type}:{text}"
        return (f"any port.receive({message})" + self.sender(spot)
                + self.redirect(spot, of_type))

    def sender(self, spot):
        if not self.chance(0.12):
            return ""
        others = self.component_expressions(spot) + ["mtc", "self"]
        return f" from {self.pick(others)}"

    def redirect(self, spot, of_type):
        """Where the message, of a type or of none that is known, and its
        sender are stored."""
        parts = []
        if of_type is not None and self.chance(0.6):
            targets = [text for text, _ in self.places(spot, of_type)]
            if targets:
                parts.append(f"value {self.pick(targets)}")
        if self.chance(0.35):
            targets = [text for text, each in self.places(spot)
                       if each in self.component_types
                       and (each == self.likely_sender(spot) or self.fault(0.3))]
            if targets:
                parts.append(f"sender {self.pick(targets)}")
        return " -> " + " ".join(parts) if parts else ""

    def likely_sender(self, spot):
        """The component type that most messages to this place come from."""
        if spot.runs_on != "M":
            return "M"
        senders = [link for links in self.component_types["M"].links.values()
                   for link in links]
        types = dict(self.workers)
        return types.get(self.pick(senders), "M") if senders else "M"

    # Values.

    def readable(self, spot, of_type):
        """Paths of a type that likely have a value."""
        found = []
        for variable in spot.variables() + self.constants:
            if variable.certain or self.fault(0.1):
                self.add_readable(found, variable.name, variable.type, 0)
        return [text for text, each in found if each == of_type]

    def add_readable(self, found, text, of_type, depth):
        found.append((text, of_type))
        for field_type, name, optional in self.records.get(of_type, []):
            if not optional or self.chance(0.1):
                self.add_readable(found, f"{text}.{name}", field_type, depth + 1)

    def value(self, spot, of_type):
        """A value of a type, as it may stand behind `:=`."""
        if of_type == "default":
            names = [variable.name for variable in spot.variables()
                     if variable.type == "default" and variable.certain]
            return self.pick(names) if names and self.chance(0.8) else "null"
        if of_type in self.component_types:
            names = [variable.name for variable in spot.variables()
                     if variable.type == of_type and variable.certain]
            if spot.runs_on == of_type:
                names.append("self")
            return self.pick(names) if names and self.chance(0.9) else "null"
        if of_type in self.records:
            names = self.readable(spot, of_type)
            if names and self.chance(0.4):
                return self.pick(names)
            return self.literal(spot, of_type, self.value, lacks=self.chance(0.15))
        return self.expression(spot, of_type, 2)

    def literal(self, spot, of_type, part, lacks=False):
        """A record in braces.  One that lacks fields has them named."""
        fields = self.records[of_type]
        parts = [(name, "omit" if optional and self.chance(0.35)
                  else part(spot, field_type))
                 for field_type, name, optional in fields]
        if not parts:
            return "{}"
        if lacks or self.chance(0.3):
            self.random.shuffle(parts)
            if lacks:
                parts = parts[:max(1, len(parts) - 1)]
            return "{ " + ", ".join(f"{name} := {text}" for name, text in parts) + " }"
        return "{ " + ", ".join(text for _, text in parts) + " }"

    def expression(self, spot, of_type, depth, least=OR):
        """An expression of a type, in parentheses where it binds weaker than
        its place asks for."""
        text, binding = self.bare_expression(spot, of_type, depth)
        return f"({text})" if binding < least or self.chance(0.04) else text

    def bare_expression(self, spot, of_type, depth):
        names = self.readable(spot, of_type)
        if of_type == "integer":
            if names and self.chance(0.5):
                return self.pick(names), PRIMARY
            if depth > 0 and self.chance(0.25):
                return self.calculation(spot, depth)
            return str(self.random.randint(0, 3)), PRIMARY
        if of_type == "boolean":
            if names and self.chance(0.3):
                return self.pick(names), PRIMARY
            if depth > 0 and self.chance(0.75):
                return self.condition(spot, depth)
            return self.pick(["true", "false", "true"]), PRIMARY
        if of_type in self.enumerations:
            if names and self.chance(0.5):
                return self.pick(names), PRIMARY
            return self.pick(self.enumerations[of_type]), PRIMARY
        raise ValueError(f"no expression of {of_type}")

    def calculation(self, spot, depth):
        def operand(least):
            return self.expression(spot, "integer", depth - 1, least)
        if self.fault(0.03):
            return "9223372036854775807 + " + operand(PRODUCT), SUM
        operator = self.weighted([(6, "+"), (4, "-"), (3, "*"), (1, "/"), (1, "mod"),
                                  (1, "rem"), (2, "sign")])
        if operator == "sign":
            return self.pick(["-", "-", "+"]) + operand(PRIMARY), SIGN
        if operator in ("+", "-"):
            return f"{operand(SUM)} {operator} {operand(PRODUCT)}", SUM
        divisor = operand(SIGN)
        if operator != "*" and not self.fault(0.3):
            divisor = self.pick(["1", "2", "3", "-2"])
        return f"{operand(PRODUCT)} {operator} {divisor}", PRODUCT

    def condition(self, spot, depth):
        """A boolean expression with an operator, or with something read."""
        kinds = [(4, self.comparison), (3, self.equality), (2, self.logic)]
        if spot.timers():
            kinds.append((1.5, self.timer_runs))
        kinds.append((1, self.component_runs))
        if any(variable.type in self.records for variable in spot.variables()):
            kinds.append((2, self.presence))
        return self.weighted(kinds)(spot, depth - 1)

    def comparison(self, spot, depth):
        operator = self.pick(["<", ">", "<=", ">="])
        left = self.expression(spot, "integer", depth, SUM)
        return f"{left} {operator} {self.expression(spot, 'integer', depth, SUM)}", ORDER

    def equality(self, spot, depth):
        operator = self.pick(["==", "==", "!="])
        components = self.component_expressions(spot) + ["null", "mtc"]
        if self.chance(0.15):
            components.append("self")
            return f"{self.pick(components)} {operator} {self.pick(components)}", EQUAL
        of_type = self.pick(self.data_types())
        names = self.readable(spot, of_type) if of_type in self.records else []
        if names:
            left, right = self.pick(names), self.pick(names)
        else:
            if of_type in self.records:
                of_type = "integer"
            left, right = [self.expression(spot, of_type, depth, ORDER) for _ in range(2)]
        text = f"{left} {operator} {right}"
        if self.chance(0.1):
            text += f" {self.pick(['==', '!='])} {self.expression(spot, 'boolean', 0, ORDER)}"
        return text, EQUAL

    def logic(self, spot, depth):
        operator = self.pick(["and", "or", "xor", "not"])
        if operator == "not":
            return "not " + self.expression(spot, "boolean", depth, EQUAL), NOT
        binding = {"or": OR, "xor": XOR, "and": AND}[operator]
        left = self.expression(spot, "boolean", depth, binding)
        right = self.expression(spot, "boolean", depth, binding + 1)
        return f"{left} {operator} {right}", binding

    def timer_runs(self, spot, _):
        return f"{self.pick(spot.timers())}.running", PRIMARY

    def component_runs(self, spot, _):
        return f"{self.pick(self.component_expressions(spot) + ['self', 'mtc'])}.running", PRIMARY

    def presence(self, spot, depth):
        found = []
        for variable in spot.variables():
            if variable.certain and variable.type in self.records:
                self.add_places(found, variable.name, variable.type)
        paths = [text for text, _ in found if "." in text]
        if not paths:
            return self.comparison(spot, depth)
        short = [path for path in paths if path.count(".") == 1]
        return f"ispresent({self.pick(short if self.chance(0.8) else paths)})", PRIMARY

    # Templates.

    def named_templates(self, spot, of_type, specific):
        """Calls of named templates; in a template only of earlier ones, which
        are all that there are."""
        found = []
        for template in self.templates:
            if template.type == of_type and (template.specific or not specific):
                arguments = [self.value(spot, formal.type) for formal in template.formals]
                if arguments or self.chance(0.3):
                    found.append(f"{template.name}({', '.join(arguments)})")
                else:
                    found.append(template.name)
        return found

    def specific(self, spot, of_type):
        """What may be sent, and whether its type is known from it."""
        if self.fault(0.03):
            return self.template(spot, of_type, 1)
        named = self.named_templates(spot, of_type, True)
        if named and self.chance(0.25):
            return self.pick(named), True
        if of_type not in self.records:
            return self.expression(spot, of_type, 2), True
        names = self.readable(spot, of_type)
        if names and self.chance(0.5):
            return self.pick(names), True
        return self.literal(spot, of_type,
                            lambda spot, each: self.specific(spot, each)[0]), False

    def template(self, spot, of_type, depth, optional=False):
        """A template of a type, and whether its type is known from it."""
        kinds = [(4, self.exact_template), (3 if optional or of_type in self.records else 6,
                                            self.any_template)]
        if depth > 0:
            kinds += [(1.5, self.list_template), (2 if optional else 1, self.complement_template)]
        if of_type == "integer":
            kinds.append((2, self.range_template))
        if of_type in self.records and depth > 0:
            kinds.append((6, self.record_template))
        if self.named_templates(spot, of_type, False):
            kinds.append((3, self.named_template))
        if optional:
            kinds += [(3, lambda *_: ("*", False)), (2, lambda *_: ("omit", False))]
        text, known = self.weighted(kinds)(spot, of_type, depth, optional)
        if optional and text not in ("*", "omit") and self.chance(0.35):
            return f"{text} ifpresent", known
        return text, known

    def exact_template(self, spot, of_type, depth, optional):
        text, known = self.specific(spot, of_type)
        return text, known

    def any_template(self, spot, of_type, depth, optional):
        return "?", False

    def list_template(self, spot, of_type, depth, optional):
        return "(" + self.template_parts(spot, of_type, depth, optional, 2) + ")", False

    def complement_template(self, spot, of_type, depth, optional):
        if self.chance(0.8):
            return f"complement({self.specific(spot, of_type)[0]})", False
        return "complement(" + self.template_parts(spot, of_type, depth, optional, 1) + ")", False

    def template_parts(self, spot, of_type, depth, optional, least):
        count = self.random.randint(least, 3)
        return ", ".join(self.template(spot, of_type, depth - 1, optional)[0]
                         for _ in range(count))

    def range_template(self, spot, of_type, depth, optional):
        low = self.pick(["-infinity", "0", "1", self.expression(spot, "integer", 1)])
        high = self.pick(["infinity", "1", "2", self.expression(spot, "integer", 1)])
        return f"({low} .. {high})", False

    def record_template(self, spot, of_type, depth, optional):
        fields = self.records[of_type]
        parts = [(name, self.template(spot, field_type, depth - 1, is_optional)[0])
                 for field_type, name, is_optional in fields]
        if not parts:
            return "{}", False
        if self.chance(0.3):
            self.random.shuffle(parts)
            return "{ " + ", ".join(f"{name} := {text}" for name, text in parts) + " }", False
        return "{ " + ", ".join(text for _, text in parts) + " }", False

    def named_template(self, spot, of_type, depth, optional):
        return self.pick(self.named_templates(spot, of_type, False)), True


def module(seed):
    """The module that a seed determines."""
    return ModuleMaker(seed).make()


def main():
    made = module(int(sys.argv[1]))
    print(f"// test case {made.testcase}, steps {made.steps}")
    print(made.text, end="")


if __name__ == "__main__":
    main()

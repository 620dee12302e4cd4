#!/usr/bin/env python3
"""Explores one test case of a TTCN-3 module under every order of steps.

The module's text is cut into tokens, parsed, bound (names and the few types
that the steps need) and run breadth first.  A configuration is kept as its
live part: all that can still matter for what comes.  Two configurations with
equal live parts are one.

The text is taken to be well typed; nothing is checked here.

In one point it reads the rules in another way than the program: a record value
has no type here.  So where one name is declared with two record types that have
the same fields, in blocks beside each other, fewer configurations may be told
apart.  No module can compare such values.

    reference.py FILE --testcase NAME --steps N [--limit L] [--script FILE]
                 [--expiries K] [--patient-timers]
    reference.py FILE --testcase NAME --replay RUNFILE [--script FILE]
"""

import argparse
import re
import sys
import threading
from dataclasses import dataclass, field
from typing import NamedTuple, Optional

import scripts

LEAST_INTEGER = -(2 ** 63)
GREATEST_INTEGER = 2 ** 63 - 1
GREATEST_COUNT = 2 ** 32 - 1

VERDICTS = ["none", "pass", "inconc", "fail", "error"]
ERROR = VERDICTS.index("error")


class Unreadable(Exception):
    """The text is not a module of the subset."""


class DynamicError(Exception):
    """The step being made is an error: the test case ends with verdict error."""


# --------------------------------------------------------------------------
# Tokens
# --------------------------------------------------------------------------

USED_WORDS = frozenset("""
activate all alt altstep and any boolean complement component connect const
control create deactivate default do done else enumerated error fail false for
from function if ifpresent in inconc infinity inout integer ispresent language
log map message mod module mtc none not null omit on optional or out pass port
receive record rem repeat return running runs self send sender setverdict start
stop system template testcase timeout timer to true type unmap value var while
with xor
""".split())

TOKEN = re.compile(r"""
    (?P<blank> [\x09-\x0d\x20]+ | /\*.*?\*/ | //[^\n]* )
  | (?P<word>  [A-Za-z][A-Za-z0-9_]* )
  | (?P<float> [0-9]+\.[0-9]+(?:E-?[0-9]+)? | [0-9]+E-?[0-9]+ )
  | (?P<int>   [0-9]+ )
  | (?P<text>  "(?:[^"]|"")*" )
  | (?P<symbol> := | -> | \.\. | == | != | <= | >= | [{}()\[\],;.:+\-*/<>?] )
  | (?P<other> [!-~] )
""", re.VERBOSE | re.DOTALL)


class Place(NamedTuple):
    """Where a token begins: line and column, from 1, the column in bytes."""

    line: int
    column: int

    def __str__(self):
        return f"{self.line}:{self.column}"


class Token(NamedTuple):
    """One token.  `kind` is `id`, `int`, `float`, `text`, `end`, or the used
    word or symbol itself."""

    kind: str
    text: str
    place: Place


def tokens_of(text):
    """Cuts a text (one character a byte) into tokens, blanks left out."""
    tokens = []
    at, line, line_start = 0, 1, 0
    while at < len(text):
        piece = TOKEN.match(text, at)
        if piece is None:
            raise Unreadable(f"no token at {line}:{at - line_start + 1}")
        kind, found = piece.lastgroup, piece.group()
        place = Place(line, at - line_start + 1)
        if kind == "word":
            tokens.append(Token(found if found in USED_WORDS else "id", found, place))
        elif kind == "symbol":
            tokens.append(Token(found, found, place))
        elif kind != "blank":
            tokens.append(Token(kind, found, place))
        line += found.count("\n")
        if "\n" in found:
            line_start = at + found.rindex("\n") + 1
        at = piece.end()
    tokens.append(Token("end", "", Place(line, at - line_start + 1)))
    return tokens


# --------------------------------------------------------------------------
# Tree: expressions, values and templates
#
# Nodes of this part compare by their structure.  A chain of operators of one
# binding level is one node, so that long sums stay flat.
# --------------------------------------------------------------------------

@dataclass
class IntegerLiteral:
    number: int


@dataclass
class BooleanLiteral:
    truth: bool


@dataclass
class NullLiteral:
    pass


@dataclass
class SelfReference:
    pass


@dataclass
class MtcReference:
    pass


@dataclass
class Reference:
    """A name, perhaps with a path of fields behind it.

    The binder adds `home`: where the first name lives (`own` for the frame,
    `member` for the component, `constant`, `item`, `template`, `timer`), and
    the type of the whole path.
    """

    names: tuple
    home: Optional[str] = field(default=None, compare=False)
    type: Optional[str] = field(default=None, compare=False)


@dataclass
class Running:
    """`x.running`, of a component or of a timer."""

    subject: object


@dataclass
class IsPresent:
    subject: Reference


@dataclass
class Sign:
    sign: str
    operand: object


@dataclass
class Not:
    operand: object


@dataclass
class Chain:
    """Operands joined from the left by operators of one binding level.
    `operand_type` is the type of the first two operands (set by the binder);
    it is asked for only by `==` and `!=`."""

    first: object
    rest: list
    operand_type: Optional[str] = field(default=None, compare=False)


@dataclass
class OmitLiteral:
    pass


@dataclass
class Braces:
    """`{ .. }`, as a value or as a template.  `names` is None where the parts
    stand by position; the binder then fills in the fields' names."""

    names: Optional[list]
    parts: list
    type: Optional[str] = field(default=None, compare=False)


@dataclass
class AnyValue:
    pass


@dataclass
class AnyOrOmit:
    pass


@dataclass
class Complement:
    parts: list


@dataclass
class OneOf:
    """A list of templates in parentheses."""

    parts: list


@dataclass
class Range:
    """`(lo .. hi)`; None stands for an infinite bound."""

    low: object
    high: object


@dataclass
class TemplateCall:
    name: str
    arguments: list


@dataclass
class IfPresent:
    template: object


@dataclass
class Typed:
    """A template with the type before its colon, if one is written.  The
    binder sets `type` to the message's type."""

    written_type: Optional[str]
    template: object
    type: Optional[str] = field(default=None, compare=False)


# What may stand on a right side besides a value.

@dataclass
class Create:
    component_type: str


@dataclass
class Call:
    name: str
    arguments: list


@dataclass
class Activation:
    altstep: str
    arguments: list


# --------------------------------------------------------------------------
# Tree: statements and branches
#
# Each node of this part is itself alone: two are equal where they are the
# same statement of the source.
# --------------------------------------------------------------------------

@dataclass(eq=False)
class Statement:
    place: Place


@dataclass(eq=False)
class Declaration(Statement):
    """A variable or constant; `right` is None where it gets no value."""

    type: str
    name: str
    right: object


@dataclass(eq=False)
class TimerDeclaration(Statement):
    name: str


@dataclass(eq=False)
class Assignment(Statement):
    target: Reference
    right: object


@dataclass(eq=False)
class CallStatement(Statement):
    """A call of a function for what it does.  (A call of an altstep is an
    `Alternative`.)"""

    call: Call


@dataclass(eq=False)
class Alternative(Statement):
    """An `alt`, or an event or altstep call that stands alone."""

    branches: list


@dataclass(eq=False)
class Repeat(Statement):
    pass


@dataclass(eq=False)
class If(Statement):
    """The arms from number `at` on, then the block behind the last `else`.
    What is left of a chain behind a false condition is a statement too."""

    arms: list
    otherwise: list
    at: int = 0
    made_rest: Optional["If"] = None

    def rest_of_chain(self):
        if self.made_rest is None:
            self.made_rest = If(self.place, self.arms, self.otherwise, self.at + 1)
        return self.made_rest


@dataclass(eq=False)
class While(Statement):
    condition: object
    body: list


@dataclass(eq=False)
class Do(Statement):
    loop: While


@dataclass(eq=False)
class For(Statement):
    """`initials` are the statements that the head begins with; `loop` is the
    while whose body ends with the head's last assignment."""

    initials: list
    loop: While
    body: list
    advance: Assignment


@dataclass(eq=False)
class Return(Statement):
    value: object


@dataclass(eq=False)
class StopSelf(Statement):
    pass


@dataclass(eq=False)
class Log(Statement):
    pass


@dataclass(eq=False)
class SetVerdict(Statement):
    verdict: int


@dataclass(eq=False)
class Connect(Statement):
    ends: list


@dataclass(eq=False)
class Mapping(Statement):
    """A `map` or an `unmap` of a component's port and a port of the system."""

    operation: str
    component: object
    port: str
    system_port: str


@dataclass(eq=False)
class Send(Statement):
    port: str
    message: Typed
    to: object


@dataclass(eq=False)
class StartTimer(Statement):
    timer: Reference


@dataclass(eq=False)
class StartComponent(Statement):
    component: object
    call: Call


@dataclass(eq=False)
class Stop(Statement):
    """`x.stop`, of a component or of a timer."""

    subject: object


@dataclass(eq=False)
class Activate(Statement):
    activation: Activation


@dataclass(eq=False)
class Deactivate(Statement):
    """`default` is None where all defaults go."""

    default: Optional[Reference]


@dataclass(eq=False)
class Branch:
    """`guard` is None where the brackets are empty.  `event` is one of the
    events below, a `Call` of an altstep, or `Else`."""

    place: Place
    guard: object
    event: object
    block: list


@dataclass
class Else:
    pass


@dataclass
class Receive:
    """`port` is None for any port, `message` None without a template."""

    port: Optional[str]
    message: Optional[Typed]
    sender: object
    store_value: Optional[Reference]
    store_sender: Optional[Reference]


@dataclass
class Timeout:
    timer: Reference


@dataclass
class Done:
    component: object


@dataclass
class AllDone:
    pass


# --------------------------------------------------------------------------
# Tree: definitions
# --------------------------------------------------------------------------

@dataclass
class Field:
    type: str
    name: str
    optional: bool


@dataclass
class RecordType:
    name: str
    fields: list

    def field_type(self, name):
        return next(f.type for f in self.fields if f.name == name)


@dataclass
class PortType:
    """The message types that come in and go out, each once, in order."""

    name: str
    incoming: list
    outgoing: list


@dataclass
class ComponentType:
    """`ports` are (name, port type) in order of declaration; `members` are
    the declarations of variables, constants and timers."""

    name: str
    ports: list
    members: list

    def port_type(self, name):
        """The port type of a port, or None where there is no such port."""
        return dict(self.ports).get(name)

    def port_number(self, name):
        return [port for port, _ in self.ports].index(name)


@dataclass
class Constant:
    type: str
    name: str
    value: object


@dataclass
class Formal:
    type: str
    name: str


@dataclass
class TemplateDefinition:
    type: str
    name: str
    formals: list
    body: object


@dataclass
class Behaviour:
    """A function, altstep or test case.  An altstep has branches, the others
    have a body."""

    kind: str
    name: str
    formals: list
    runs_on: Optional[str]
    result: Optional[str]
    body: list
    branches: list
    # The component type whose ports a test case's system ports are.
    system: Optional[str] = None


@dataclass
class Module:
    records: dict = field(default_factory=dict)
    items: dict = field(default_factory=dict)
    port_types: dict = field(default_factory=dict)
    component_types: dict = field(default_factory=dict)
    constants: dict = field(default_factory=dict)
    templates: dict = field(default_factory=dict)
    behaviours: dict = field(default_factory=dict)

    def testcase(self, name):
        """The test case of that name, or None."""
        found = self.behaviours.get(name)
        return found if found is not None and found.kind == "testcase" else None


# --------------------------------------------------------------------------
# Parser
# --------------------------------------------------------------------------

class Parser:
    """Reads the grammar by descent, with some tokens of sight."""

    def __init__(self, tokens):
        self.tokens = tokens
        self.at = 0

    # Tokens.

    def kind(self, ahead=0):
        at = self.at + ahead
        return self.tokens[at].kind if at < len(self.tokens) else "end"

    def place(self):
        return self.tokens[self.at].place

    def take(self, kind):
        token = self.tokens[self.at]
        if token.kind != kind:
            raise Unreadable(f"{kind} expected at {token.place}, not {token.text!r}")
        self.at += 1
        return token

    def skip(self, kind):
        """Takes the token if it is of this kind; tells whether it was."""
        if self.kind() == kind:
            self.at += 1
            return True
        return False

    def skip_semicolons(self):
        while self.skip(";"):
            pass

    def name(self):
        return self.take("id").text

    def listed(self, part, opening, closing):
        """Zero or more parts between brackets, with commas between them."""
        self.take(opening)
        parts = []
        if self.kind() != closing:
            parts.append(part())
            while self.skip(","):
                parts.append(part())
        self.take(closing)
        return parts

    # Definitions.

    def module(self):
        module = Module()
        self.take("module")
        self.name()
        if self.skip("language"):
            self.take("text")
            while self.skip(","):
                self.take("text")
        self.take("{")
        self.skip_semicolons()
        while self.kind() not in ("}", "control"):
            self.definition(module)
            self.ignored_with()
            self.skip_semicolons()
        if self.skip("control"):
            self.ignored_group()
            self.ignored_with()
            self.skip_semicolons()
        self.take("}")
        self.ignored_with()
        self.skip_semicolons()
        self.take("end")
        return module

    def ignored_with(self):
        if self.skip("with"):
            self.ignored_group()

    def ignored_group(self):
        """Braces with all kinds of brackets balanced inside them."""
        self.take("{")
        open_brackets = ["}"]
        closing = {"{": "}", "(": ")", "[": "]"}
        while open_brackets:
            token = self.tokens[self.at]
            if token.kind in closing:
                open_brackets.append(closing[token.kind])
            elif token.kind in ("}", ")", "]"):
                if token.kind != open_brackets.pop():
                    raise Unreadable(f"unbalanced bracket at {token.place}")
            elif token.kind == "end":
                raise Unreadable("an ignored part doesn't end")
            self.at += 1

    def definition(self, module):
        kind = self.kind()
        if kind == "type":
            self.type_definition(module)
        elif kind == "const":
            for constant in self.constants():
                module.constants[constant.name] = Constant(
                    constant.type, constant.name, constant.right)
        elif kind == "template":
            self.take("template")
            of_type = self.type()
            name = self.name()
            formals = self.formals() if self.kind() == "(" else []
            self.take(":=")
            module.templates[name] = TemplateDefinition(
                of_type, name, formals, self.template())
        elif kind == "function":
            self.take("function")
            name = self.name()
            formals = self.formals()
            runs_on = self.runs_on()
            result = self.type() if self.skip("return") else None
            module.behaviours[name] = Behaviour(
                "function", name, formals, runs_on, result, self.block(), [])
        elif kind == "altstep":
            self.take("altstep")
            name = self.name()
            formals = self.formals()
            runs_on = self.runs_on()
            module.behaviours[name] = Behaviour(
                "altstep", name, formals, runs_on, None, [], self.branches())
        else:
            self.take("testcase")
            name = self.name()
            self.take("(")
            self.take(")")
            runs_on = self.runs_on()
            system = self.name() if self.skip("system") else runs_on
            module.behaviours[name] = Behaviour(
                "testcase", name, [], runs_on, None, self.block(), [], system)

    def runs_on(self):
        if self.skip("runs"):
            self.take("on")
            return self.name()
        return None

    def type_definition(self, module):
        self.take("type")
        if self.skip("record"):
            name = self.name()
            module.records[name] = RecordType(name, self.listed(self.field, "{", "}"))
        elif self.skip("enumerated"):
            name = self.name()
            for item in self.listed(self.item, "{", "}"):
                module.items[item] = name
        elif self.skip("port"):
            name = self.name()
            module.port_types[name] = self.port_type(name)
        else:
            self.take("component")
            name = self.name()
            module.component_types[name] = self.component_type(name)

    def field(self):
        of_type = self.type()
        return Field(of_type, self.name(), self.skip("optional"))

    def item(self):
        name = self.name()
        if self.skip("("):
            self.skip("-")
            self.take("int")
            self.take(")")
        return name

    def port_type(self, name):
        port_type = PortType(name, [], [])
        self.take("message")
        self.take("{")
        while self.kind() != "}":
            direction = self.take(self.kind()).kind
            while True:
                of_type = self.type()
                for types, directions in ((port_type.incoming, ("in", "inout")),
                                          (port_type.outgoing, ("out", "inout"))):
                    if direction in directions and of_type not in types:
                        types.append(of_type)
                if not self.skip(","):
                    break
            self.skip_semicolons()
        self.take("}")
        return port_type

    def component_type(self, name):
        component_type = ComponentType(name, [], [])
        self.take("{")
        while self.kind() != "}":
            if self.kind() == "port":
                self.take("port")
                of_type = self.name()
                component_type.ports.append((self.name(), of_type))
                while self.skip(","):
                    component_type.ports.append((self.name(), of_type))
            else:
                component_type.members.extend(self.declarations())
            self.skip_semicolons()
        self.take("}")
        return component_type

    def type(self):
        if self.kind() in ("integer", "boolean", "default"):
            return self.take(self.kind()).text
        return self.name()

    def formals(self):
        return self.listed(self.formal, "(", ")")

    def formal(self):
        self.skip("in")
        of_type = self.type()
        return Formal(of_type, self.name())

    # Declarations.  One of several names is several declarations.

    def declarations(self):
        return {"var": self.variables, "const": self.constants,
                "timer": self.timers}[self.kind()]()

    def variables(self):
        place = self.take("var").place
        of_type = self.type()
        declared = []
        while True:
            name = self.name()
            right = self.right_side() if self.skip(":=") else None
            declared.append(Declaration(place, of_type, name, right))
            if not self.skip(","):
                return declared

    def constants(self):
        place = self.take("const").place
        of_type = self.type()
        declared = []
        while True:
            name = self.name()
            self.take(":=")
            declared.append(Declaration(place, of_type, name, self.value()))
            if not self.skip(","):
                return declared

    def timers(self):
        place = self.take("timer").place
        declared = []
        while True:
            declared.append(TimerDeclaration(place, self.name()))
            if self.skip(":="):
                self.take("float")
            if not self.skip(","):
                return declared

    # Statements.

    def block(self):
        self.take("{")
        self.skip_semicolons()
        statements = []
        while self.kind() != "}":
            statements.extend(self.statements())
            self.skip_semicolons()
        self.take("}")
        return statements

    def statements(self):
        """One statement of the grammar, as the statements that it stands for."""
        if self.kind() in ("var", "const", "timer"):
            return self.declarations()
        return [self.statement()]

    def statement(self):
        place, kind = self.place(), self.kind()
        if kind == "id":
            return self.statement_of_name(place)
        if kind in ("self", "mtc"):
            return self.statement_of_component(place, self.component())
        if kind in ("any", "all"):
            return self.lone(place, self.event())
        self.at += 1
        if kind == "alt":
            return Alternative(place, self.branches())
        if kind == "repeat":
            return Repeat(place)
        if kind == "if":
            return self.if_chain(place)
        if kind == "while":
            condition = self.condition()
            return While(place, condition, self.block())
        if kind == "do":
            body = self.block()
            self.take("while")
            return Do(place, While(place, self.condition(), body))
        if kind == "for":
            return self.for_loop(place)
        if kind == "return":
            return Return(place, None if self.kind() in (";", "}") else self.value())
        if kind == "stop":
            return StopSelf(place)
        if kind == "log":
            self.listed(self.log_argument, "(", ")")
            return Log(place)
        if kind == "setverdict":
            self.take("(")
            verdict = VERDICTS.index(self.take(self.kind()).text)
            while self.skip(","):
                self.log_argument()
            self.take(")")
            return SetVerdict(place, verdict)
        if kind == "connect":
            ends = self.listed(self.connection_end, "(", ")")
            return Connect(place, ends)
        if kind in ("map", "unmap"):
            return self.mapping(place, kind)
        if kind == "activate":
            return Activate(place, self.activation())
        if kind == "deactivate":
            default = None
            if self.skip("("):
                default = self.reference()
                self.take(")")
            return Deactivate(place, default)
        raise Unreadable(f"no statement at {place}")

    def log_argument(self):
        if not self.skip("text"):
            self.expression()

    def connection_end(self):
        component = self.component()
        self.take(":")
        return component, self.name()

    def mapping(self, place, operation):
        """The two ports stand in either order."""
        self.take("(")
        if self.kind() == "system":
            system_port = self.system_port()
            self.take(",")
            component, port = self.connection_end()
        else:
            component, port = self.connection_end()
            self.take(",")
            system_port = self.system_port()
        self.take(")")
        return Mapping(place, operation, component, port, system_port)

    def system_port(self):
        self.take("system")
        self.take(":")
        return self.name()

    def condition(self):
        self.take("(")
        condition = self.expression()
        self.take(")")
        return condition

    def if_chain(self, place):
        arms = []
        otherwise = []
        while True:
            condition = self.condition()
            arms.append((condition, self.block()))
            if not self.skip("else"):
                break
            if not self.skip("if"):
                otherwise = self.block()
                break
        return If(place, arms, otherwise)

    def for_loop(self, place):
        """The two assignments of the head are two parts of it: they are two
        statements, even where they are written alike."""
        self.take("(")
        if self.kind() == "var":
            initials = self.variables()
        else:
            initials = [self.assignment(place)]
        self.take(";")
        condition = self.expression()
        self.take(";")
        advance = self.assignment(place)
        self.take(")")
        body = self.block()
        return For(place, initials, While(place, condition, body + [advance]),
                   body, advance)

    def assignment(self, place):
        target = self.reference()
        self.take(":=")
        return Assignment(place, target, self.right_side())

    def statement_of_name(self, place):
        """A statement that begins with a name: a call, an assignment, or
        something that is done with a port, a timer or a component."""
        if self.kind(1) == "(":
            # Whether this is an altstep is known only when names are bound.
            return CallStatement(place, self.call())
        begin = self.at
        reference = self.reference()
        if self.skip(":="):
            return Assignment(place, reference, self.right_side())
        if self.kind() == "." and self.kind(1) in ("receive", "timeout"):
            self.at = begin
            return self.lone(place, self.event())
        if self.kind() == "." and self.kind(1) == "send":
            return self.send(place, reference)
        return self.statement_of_component(place, reference)

    def send(self, place, reference):
        self.take(".")
        self.take("send")
        self.take("(")
        message = self.typed()
        self.take(")")
        to = self.component() if self.skip("to") else None
        return Send(place, reference.names[0], message, to)

    def statement_of_component(self, place, subject):
        """What stands behind a component or a timer: start, stop or done."""
        self.take(".")
        if self.skip("done"):
            return self.lone(place, Done(subject))
        if self.skip("stop"):
            return Stop(place, subject)
        self.take("start")
        if self.kind() == "(" and self.kind(1) == "id":
            self.take("(")
            call = self.call()
            self.take(")")
            return StartComponent(place, subject, call)
        if self.skip("("):
            self.take("float")
            self.take(")")
        return StartTimer(place, subject)

    def lone(self, place, event):
        """An event alone is an alt with this one branch and an empty block."""
        return Alternative(place, [Branch(place, None, event, [])])

    def call(self):
        name = self.name()
        return Call(name, self.arguments())

    def arguments(self):
        return self.listed(self.value, "(", ")")

    def activation(self):
        self.take("(")
        call = self.call()
        self.take(")")
        return Activation(call.name, call.arguments)

    def right_side(self):
        if self.kind() == "id" and self.kind(1) == "." and self.kind(2) == "create":
            name = self.name()
            self.take(".")
            self.take("create")
            return Create(name)
        if self.kind() == "id" and self.kind(1) == "(":
            return self.call()
        if self.skip("activate"):
            return self.activation()
        return self.value()

    # Branches and events.

    def branches(self):
        self.take("{")
        branches = []
        while self.kind() != "}":
            branches.append(self.branch())
            self.skip_semicolons()
        self.take("}")
        return branches

    def branch(self):
        place = self.take("[").place
        if self.skip("else"):
            self.take("]")
            return Branch(place, None, Else(), self.block())
        guard = None if self.kind() == "]" else self.expression()
        self.take("]")
        if self.kind() == "id" and self.kind(1) == "(":
            event = self.call()
        else:
            event = self.event()
        block = self.block() if self.kind() == "{" else []
        return Branch(place, guard, event, block)

    def event(self):
        if self.skip("all"):
            self.take("component")
            self.take(".")
            self.take("done")
            return AllDone()
        if self.skip("any"):
            self.take("port")
            self.take(".")
            return self.receive(None)
        subject = self.component()
        self.take(".")
        if self.skip("timeout"):
            return Timeout(subject)
        if self.skip("done"):
            return Done(subject)
        return self.receive(subject.names[0])

    def receive(self, port):
        self.take("receive")
        message = sender = store_value = store_sender = None
        if self.skip("("):
            message = self.typed()
            self.take(")")
        if self.skip("from"):
            sender = self.component()
        if self.skip("->"):
            if self.skip("value"):
                store_value = self.reference()
            if self.skip("sender"):
                store_sender = self.reference()
        return Receive(port, message, sender, store_value, store_sender)

    # Values and templates.

    def component(self):
        if self.skip("self"):
            return SelfReference()
        if self.skip("mtc"):
            return MtcReference()
        return self.reference()

    def reference(self):
        names = [self.name()]
        while self.kind() == "." and self.kind(1) == "id":
            self.take(".")
            names.append(self.name())
        return Reference(tuple(names))

    def value(self):
        if self.skip("omit"):
            return OmitLiteral()
        if self.kind() == "{":
            return self.braces(self.value)
        return self.expression()

    def braces(self, part):
        if self.kind(1) == "id" and self.kind(2) == ":=":
            pairs = self.listed(lambda: self.named_part(part), "{", "}")
            return Braces([name for name, _ in pairs], [given for _, given in pairs])
        return Braces(None, self.listed(part, "{", "}"))

    def named_part(self, part):
        name = self.name()
        self.take(":=")
        return name, part()

    def typed(self):
        written = None
        if self.kind() in ("integer", "boolean", "default", "id") and self.kind(1) == ":":
            written = self.type()
            self.take(":")
        return Typed(written, self.template())

    def template(self):
        body = self.template_body()
        return IfPresent(body) if self.skip("ifpresent") else body

    def template_body(self):
        if self.skip("?"):
            return AnyValue()
        if self.skip("*"):
            return AnyOrOmit()
        if self.skip("omit"):
            return OmitLiteral()
        if self.skip("complement"):
            return Complement(self.listed(self.template, "(", ")"))
        if self.kind() == "{":
            return self.braces(self.template)
        if self.kind() == "id" and self.kind(1) == "(":
            name = self.name()
            return TemplateCall(name, self.arguments())
        if self.kind() != "(":
            return self.expression()
        # Parentheses are an expression's where they can be read so.
        begin = self.at
        try:
            return self.expression()
        except Unreadable:
            self.at = begin
        return self.template_list()

    def template_list(self):
        """A list of templates, or a range, in parentheses."""
        self.take("(")
        if self.infinity_is_next():
            self.bound()
            low = None
        else:
            low = self.template()
        if self.skip(".."):
            high = self.bound()
            self.take(")")
            return Range(low, high)
        parts = [low]
        while self.skip(","):
            parts.append(self.template())
        self.take(")")
        return OneOf(parts)

    def infinity_is_next(self):
        return (self.kind() == "infinity"
                or self.kind() == "-" and self.kind(1) == "infinity")

    def bound(self):
        if self.infinity_is_next():
            self.skip("-")
            self.take("infinity")
            return None
        return self.expression()

    # Expressions, from the weakest to the strongest binding.

    def chain(self, part, operators):
        first = part()
        rest = []
        while self.kind() in operators:
            operator = self.take(self.kind()).kind
            rest.append((operator, part()))
        return Chain(first, rest) if rest else first

    def expression(self):
        return self.chain(self.xor_expression, ("or",))

    def xor_expression(self):
        return self.chain(self.and_expression, ("xor",))

    def and_expression(self):
        return self.chain(self.not_expression, ("and",))

    def not_expression(self):
        if self.skip("not"):
            return Not(self.equality())
        return self.equality()

    def equality(self):
        return self.chain(self.relation, ("==", "!="))

    def relation(self):
        first = self.sum()
        if self.kind() in ("<", ">", "<=", ">="):
            operator = self.take(self.kind()).kind
            return Chain(first, [(operator, self.sum())])
        return first

    def sum(self):
        return self.chain(self.product, ("+", "-"))

    def product(self):
        return self.chain(self.signed, ("*", "/", "mod", "rem"))

    def signed(self):
        if self.kind() in ("+", "-"):
            sign = self.take(self.kind()).kind
            return Sign(sign, self.primary())
        return self.primary()

    def primary(self):
        kind = self.kind()
        if kind == "int":
            number = int(self.take("int").text)
            if number > GREATEST_INTEGER:
                raise Unreadable("a number is too large")
            return IntegerLiteral(number)
        if kind in ("true", "false"):
            self.at += 1
            return BooleanLiteral(kind == "true")
        if self.skip("null"):
            return NullLiteral()
        if self.skip("ispresent"):
            self.take("(")
            subject = self.reference()
            self.take(")")
            return IsPresent(subject)
        if self.skip("("):
            inner = self.expression()
            self.take(")")
            return inner
        subject = self.component()
        if self.kind() == "." and self.kind(1) == "running":
            self.at += 2
            return Running(subject)
        return subject


# --------------------------------------------------------------------------
# Binder
# --------------------------------------------------------------------------

class Binder:
    """Adds to the tree where each name lives, and the types that the steps
    need: of messages, of literals in braces and of what `==` compares.

    A local name never equals a visible one, so the first scope that knows a
    name is the right one.  `scopes` is a list of maps from names to pairs of
    a home and a type, the innermost last.
    """

    def __init__(self, module):
        self.module = module
        self.scopes = []
        self.self_type = None
        self.ports = {}

    def bind_module(self):
        module = self.module
        for constant in module.constants.values():
            self.enter(None, [])
            self.value(constant.value, constant.type)
        for template in module.templates.values():
            self.enter(None, template.formals)
            self.template(template.body, template.type)
        for component_type in module.component_types.values():
            self.bind_component_type(component_type)
        for behaviour in module.behaviours.values():
            self.enter(behaviour.runs_on, behaviour.formals)
            self.result = behaviour.result
            self.block(behaviour.body)
            self.branches(behaviour.branches)

    def enter(self, runs_on, formals):
        """Begins a definition: what its component type, if it has one, and its
        formal parameters make visible."""
        self.self_type = runs_on
        members = {}
        self.ports = {}
        if runs_on is not None:
            component_type = self.module.component_types[runs_on]
            self.ports = dict(component_type.ports)
            for member in component_type.members:
                members[member.name] = self.entry_of_member(member)
        self.scopes = [members, {f.name: ("own", f.type) for f in formals}]

    def entry_of_member(self, member):
        if isinstance(member, TimerDeclaration):
            return "member", "timer"
        return "member", member.type

    def bind_component_type(self, component_type):
        self.enter(None, [])
        self.self_type = component_type.name
        for member in component_type.members:
            if isinstance(member, Declaration) and member.right is not None:
                self.value(member.right, member.type)
            self.scopes[0][member.name] = self.entry_of_member(member)

    def find(self, name):
        """The home and type of a visible name."""
        for scope in reversed(self.scopes):
            if name in scope:
                return scope[name]
        module = self.module
        if name in module.items:
            return "item", module.items[name]
        if name in module.constants:
            return "constant", module.constants[name].type
        if name in module.templates:
            return "template", module.templates[name].type
        raise Unreadable(f"unknown name {name}")

    # Statements.

    def block(self, statements):
        self.scopes.append({})
        for at, statement in enumerate(statements):
            statements[at] = self.statement(statement)
        self.scopes.pop()

    def statement(self, statement):
        """Binds a statement and gives the one that stands for it: a lone call
        of an altstep is an alt."""
        method = "bind_" + type(statement).__name__
        return getattr(self, method)(statement) or statement

    def declare(self, name, of_type):
        self.scopes[-1][name] = ("own", of_type)

    def bind_Declaration(self, declaration):
        if declaration.right is not None:
            self.right_side(declaration.right, declaration.type)
        self.declare(declaration.name, declaration.type)

    def bind_TimerDeclaration(self, declaration):
        self.declare(declaration.name, "timer")

    def bind_Assignment(self, assignment):
        self.right_side(assignment.right, self.reference(assignment.target))

    def bind_CallStatement(self, statement):
        self.call(statement.call)
        if self.module.behaviours[statement.call.name].kind == "altstep":
            branch = Branch(statement.place, None, statement.call, [])
            return Alternative(statement.place, [branch])

    def bind_Alternative(self, alternative):
        self.branches(alternative.branches)

    def bind_Repeat(self, statement):
        pass

    bind_StopSelf = bind_Log = bind_SetVerdict = bind_Repeat

    def bind_If(self, statement):
        for condition, block in statement.arms:
            self.expression(condition)
            self.block(block)
        self.block(statement.otherwise)

    def bind_While(self, loop):
        self.expression(loop.condition)
        self.block(loop.body)

    def bind_Do(self, statement):
        self.bind_While(statement.loop)

    def bind_For(self, loop):
        self.scopes.append({})
        for initial in loop.initials:
            self.statement(initial)
        self.expression(loop.loop.condition)
        self.bind_Assignment(loop.advance)
        self.block(loop.body)
        loop.loop.body = loop.body + [loop.advance]
        self.scopes.pop()

    def bind_Return(self, statement):
        if statement.value is not None:
            self.value(statement.value, self.result)

    def bind_Connect(self, statement):
        for component, _ in statement.ends:
            self.expression(component)

    def bind_Mapping(self, statement):
        self.expression(statement.component)

    def bind_Send(self, statement):
        port_type = self.module.port_types[self.ports[statement.port]]
        self.typed(statement.message, port_type.outgoing)
        if statement.to is not None:
            self.expression(statement.to)

    def bind_StartTimer(self, statement):
        self.expression(statement.timer)

    def bind_StartComponent(self, statement):
        self.expression(statement.component)
        self.call(statement.call)

    def bind_Stop(self, statement):
        self.expression(statement.subject)

    def bind_Activate(self, statement):
        self.right_side(statement.activation, None)

    def bind_Deactivate(self, statement):
        if statement.default is not None:
            self.expression(statement.default)

    def call(self, call):
        self.arguments(call.arguments, self.module.behaviours[call.name].formals)

    def arguments(self, arguments, formals):
        for argument, formal in zip(arguments, formals):
            self.value(argument, formal.type)

    def right_side(self, right, of_type):
        if isinstance(right, Call):
            self.call(right)
        elif isinstance(right, Activation):
            self.arguments(right.arguments, self.module.behaviours[right.altstep].formals)
        elif not isinstance(right, Create):
            self.value(right, of_type)

    # Branches.

    def branches(self, branches):
        for branch in branches:
            if branch.guard is not None:
                self.expression(branch.guard)
            self.event(branch.event)
            self.block(branch.block)

    def event(self, event):
        if isinstance(event, Call):
            self.call(event)
        elif isinstance(event, Timeout):
            self.expression(event.timer)
        elif isinstance(event, Done):
            self.expression(event.component)
        elif isinstance(event, Receive):
            self.receive(event)

    def receive(self, event):
        if event.message is not None:
            incoming = []
            if event.port is not None:
                incoming = self.module.port_types[self.ports[event.port]].incoming
            self.typed(event.message, incoming)
        for reference in (event.sender, event.store_value, event.store_sender):
            if reference is not None:
                self.expression(reference)

    # Templates and values.

    def typed(self, typed, port_types):
        """A message's type is the written one; else that of an expression or
        a named template; else the port's only one."""
        known = typed.written_type or self.known_type(typed.template)
        if known is None and len(port_types) == 1:
            known = port_types[0]
        typed.type = known
        self.template(typed.template, known)

    def known_type(self, template):
        if isinstance(template, IfPresent):
            return self.known_type(template.template)
        if isinstance(template, TemplateCall):
            return self.module.templates[template.name].type
        if isinstance(template, (AnyValue, AnyOrOmit, OmitLiteral, Complement,
                                 OneOf, Range, Braces)):
            return None
        return self.expression(template)

    def template(self, template, of_type):
        if isinstance(template, (AnyValue, AnyOrOmit, OmitLiteral)):
            return
        if isinstance(template, IfPresent):
            self.template(template.template, of_type)
        elif isinstance(template, (Complement, OneOf)):
            for part in template.parts:
                self.template(part, of_type)
        elif isinstance(template, Range):
            for bound in (template.low, template.high):
                if bound is not None:
                    self.expression(bound)
        elif isinstance(template, TemplateCall):
            formals = self.module.templates[template.name].formals
            self.arguments(template.arguments, formals)
        elif isinstance(template, Braces):
            self.braces(template, of_type, self.template)
        else:
            self.expression(template)

    def braces(self, braces, of_type, bind_part):
        record = self.module.records[of_type]
        braces.type = of_type
        if braces.names is None:
            braces.names = [each.name for each in record.fields]
        for name, part in zip(braces.names, braces.parts):
            bind_part(part, record.field_type(name))

    def value(self, value, of_type):
        if isinstance(value, Braces):
            self.braces(value, of_type, self.value)
        elif not isinstance(value, OmitLiteral):
            self.expression(value)

    def reference(self, reference):
        home, of_type = self.find(reference.names[0])
        if of_type == "timer":
            reference.home = "timer of " + home
        else:
            reference.home = home
        for name in reference.names[1:]:
            of_type = self.module.records[of_type].field_type(name)
        reference.type = of_type
        return of_type

    def expression(self, expression):
        """Binds an expression and gives its type (`component` where it is one
        of no special component type)."""
        if isinstance(expression, IntegerLiteral):
            return "integer"
        if isinstance(expression, BooleanLiteral):
            return "boolean"
        if isinstance(expression, SelfReference):
            return self.self_type or "component"
        if isinstance(expression, (MtcReference, NullLiteral)):
            return "component"
        if isinstance(expression, Reference):
            return self.reference(expression)
        if isinstance(expression, Running):
            self.expression(expression.subject)
            return "boolean"
        if isinstance(expression, IsPresent):
            self.reference(expression.subject)
            return "boolean"
        if isinstance(expression, (Sign, Not)):
            self.expression(expression.operand)
            return "integer" if isinstance(expression, Sign) else "boolean"
        expression.operand_type = self.expression(expression.first)
        for _, operand in expression.rest:
            self.expression(operand)
        arithmetic = expression.rest[0][0] in ("+", "-", "*", "/", "mod", "rem")
        return "integer" if arithmetic else "boolean"


def read_module(text):
    """The bound module that the text (one character a byte) is.  Lists of what
    remains that were made for a module before it are forgotten."""
    Remaining.made.clear()
    module = Parser(tokens_of(text)).module()
    Binder(module).bind_module()
    return module


# --------------------------------------------------------------------------
# Values and evaluated templates
# --------------------------------------------------------------------------

@dataclass(frozen=True)
class Integer:
    number: int


@dataclass(frozen=True)
class Boolean:
    truth: bool


@dataclass(frozen=True)
class Item:
    """A value of an enumeration; its name tells its type."""

    name: str


@dataclass(frozen=True)
class Record:
    """The fields that have a value or are omitted, as sorted pairs of a name
    and what stands there.  A field that lacks a value has no pair."""

    pairs: tuple


@dataclass(frozen=True)
class ComponentReference:
    path: tuple
    type: str


@dataclass(frozen=True)
class DefaultReference:
    number: int


@dataclass(frozen=True)
class Null:
    pass


@dataclass(frozen=True)
class Omit:
    pass


NULL = Null()
OMIT = Omit()
EMPTY_RECORD = Record(())

INACTIVE, RUNNING, EXPIRED = "inactive", "running", "expired"


def pair_of(pairs, name):
    """What stands at a name in a sorted tuple of pairs, or None."""
    for key, kept in pairs:
        if key == name:
            return kept
    return None


def with_pair(pairs, name, kept):
    """The pairs with this one put in, in place of an older one."""
    others = without_pair(pairs, name)
    return tuple(sorted(others + ((name, kept),), key=lambda pair: pair[0]))


def without_pair(pairs, name):
    return tuple(pair for pair in pairs if pair[0] != name)


def stored_at(old, fields, new):
    """What a place holds after `new` is stored at a path of fields below it.
    A record on the way that isn't there begins as one without values."""
    if not fields:
        return new
    record = old if isinstance(old, Record) else EMPTY_RECORD
    inner = stored_at(pair_of(record.pairs, fields[0]), fields[1:], new)
    return Record(with_pair(record.pairs, fields[0], inner))


def is_complete(module, value, of_type):
    """Whether no field of a value lacks a value, however deep."""
    if not isinstance(value, Record):
        return True
    for each in module.records[of_type].fields:
        kept = pair_of(value.pairs, each.name)
        if kept is None or not is_complete(module, kept, each.type):
            return False
    return True


@dataclass(frozen=True)
class Exactly:
    value: object


@dataclass(frozen=True)
class Listed:
    parts: tuple


@dataclass(frozen=True)
class Excluded:
    parts: tuple


@dataclass(frozen=True)
class Between:
    low: Optional[int]
    high: Optional[int]


@dataclass(frozen=True)
class Fields:
    pairs: tuple


@dataclass(frozen=True)
class Perhaps:
    """`ifpresent`: omit, or what the template matches."""

    template: object


ANY_VALUE = AnyValue()
ANY_OR_OMIT = AnyOrOmit()


def matches(template, value):
    """Whether an evaluated template matches a value, or omit."""
    if template is ANY_OR_OMIT:
        return True
    if isinstance(template, Perhaps):
        return value == OMIT or matches(template.template, value)
    if isinstance(template, Exactly):
        return template.value == value
    if isinstance(template, Listed):
        return any(matches(part, value) for part in template.parts)
    if value == OMIT:
        return False
    if template is ANY_VALUE:
        return True
    if isinstance(template, Excluded):
        return not any(matches(part, value) for part in template.parts)
    if isinstance(template, Between):
        return ((template.low is None or template.low <= value.number)
                and (template.high is None or value.number <= template.high))
    return all(matches(part, pair_of(value.pairs, name))
               for name, part in template.pairs)


def specific_value(template):
    """The one value that a template stands for; others can't be sent."""
    if isinstance(template, Exactly):
        return template.value
    if isinstance(template, Fields):
        return Record(tuple((name, specific_value(part))
                            for name, part in template.pairs))
    raise DynamicError("what is sent is no specific value")


# --------------------------------------------------------------------------
# Configurations
# --------------------------------------------------------------------------

class Remaining:
    """A list of remaining items, its first one and the rest (None at the end).
    Each list is made once, so that equal lists are the same object."""

    __slots__ = ("first", "rest")
    made = {}

    def __init__(self, first, rest):
        self.first = first
        self.rest = rest


def prepend(first, rest):
    """The list with one more item before the others."""
    key = (first, rest)
    found = Remaining.made.get(key)
    if found is None:
        found = Remaining.made[key] = Remaining(first, rest)
    return found


def prepend_all(items, rest):
    for item in reversed(items):
        rest = prepend(item, rest)
    return rest


@dataclass(frozen=True)
class Mark:
    """Stands behind the block of a taken branch and holds its alt."""

    alternative: Alternative


@dataclass(frozen=True)
class Waiting:
    """A place that waits for the result of a call: whose it is, and its path."""

    home: str
    names: tuple


class Frame(NamedTuple):
    """Remaining items, names with their values, timers with their states.  A
    name without a value has no pair."""

    items: Optional[Remaining]
    values: tuple
    timers: tuple


class Default(NamedTuple):
    number: int
    altstep: str
    arguments: tuple


class Message(NamedTuple):
    type: str
    value: object
    sender: Optional[ComponentReference]


class Component(NamedTuple):
    """A component that is created or running.  `queues` has one queue for each
    port of its type, in order of declaration."""

    type: str
    running: bool
    verdict: int
    frames: tuple
    defaults: tuple
    activations: int
    children: int
    queues: tuple


class Configuration(NamedTuple):
    """The live part of a configuration that has not ended.  Of the terminated
    components there are the paths and the worst verdict; connections between
    two of them are gone.  Mappings are pairs of an end and a system port, and
    `delivered` has each system port at which messages came in, with their
    number."""

    components: tuple
    terminated: tuple
    terminated_verdict: int
    connections: frozenset
    mappings: frozenset
    delivered: tuple


class Ended(NamedTuple):
    """A configuration whose test case has ended."""

    verdict: int


class Label(NamedTuple):
    """A step: a component's statement (`kind` 0), an expiry (`kind` 1), or a
    delivery (`kind` 2), which has a path behind all others, and the system
    port in place of a timer.  Labels are ordered as these tuples are."""

    path: tuple
    kind: int = 0
    frame: int = 0
    timer: str = ""

    def __str__(self):
        if self.kind == 2:
            return f"system.{self.timer}"
        text = path_text(self.path)
        return f"{text}/{self.frame}.{self.timer}" if self.kind else text


MTC = ()
BEHIND_ALL_PATHS = (float("inf"),)


def path_text(path):
    return ".".join(["mtc"] + [str(number) for number in path])


class Draft:
    """A configuration that is being changed by a step."""

    def __init__(self, configuration):
        self.components = dict(configuration.components)
        self.terminated = set(configuration.terminated)
        self.terminated_verdict = configuration.terminated_verdict
        self.connections = set(configuration.connections)
        self.mappings = set(configuration.mappings)
        self.delivered = dict(configuration.delivered)
        self.has_ended = False

    def change(self, path, **changes):
        self.components[path] = self.components[path]._replace(**changes)

    def frames(self, path):
        return self.components[path].frames

    def last_frame(self, path):
        return self.components[path].frames[-1]

    def change_frame(self, path, number, **changes):
        frames = list(self.components[path].frames)
        frames[number] = frames[number]._replace(**changes)
        self.change(path, frames=tuple(frames))

    def push_frame(self, path, frame):
        self.change(path, frames=self.frames(path) + (frame,))

    def pop_frame(self, path):
        self.change(path, frames=self.frames(path)[:-1])

    def terminate(self, path):
        """The component's path and verdict are all that stays of it.  Where
        it is the MTC the test case ends with the worst of all verdicts."""
        verdict = self.components[path].verdict
        self.terminated_verdict = max(self.terminated_verdict, verdict)
        if path == MTC:
            self.has_ended = True
            return
        del self.components[path]
        self.terminated.add(path)
        self.connections = {
            connection for connection in self.connections
            if not all(end[0] in self.terminated for end in connection)}
        self.mappings = {mapping for mapping in self.mappings if mapping[0][0] != path}

    # What a component sees of others, and of its queues.

    def is_running(self, path):
        component = self.components.get(path)
        return component is not None and component.running

    def has_terminated(self, path):
        return path in self.terminated

    def others_run(self):
        return any(component.running for path, component in self.components.items()
                   if path != MTC)

    def front(self, path, number):
        queue = self.components[path].queues[number]
        return queue[0] if queue else None

    def freeze(self):
        if self.has_ended:
            alive = [each.verdict for each in self.components.values()]
            return Ended(max(alive + [self.terminated_verdict]))
        return Configuration(tuple(sorted(self.components.items())),
                             tuple(sorted(self.terminated)),
                             self.terminated_verdict,
                             frozenset(self.connections),
                             frozenset(self.mappings),
                             tuple(sorted(self.delivered.items())))


class Snapshot(NamedTuple):
    """What a component sees at an alt: the first message of each of its ports,
    the timers of its last frame and of its type, and which components run and
    which have terminated."""

    path: tuple
    fronts: tuple
    timers: tuple
    member_timers: tuple
    running: frozenset
    terminated: frozenset

    def is_running(self, path):
        return path in self.running

    def has_terminated(self, path):
        return path in self.terminated

    def others_run(self):
        return any(path != MTC for path in self.running)

    def front(self, path, number):
        assert path == self.path
        return self.fronts[number]


def snapshot_of(configuration, path):
    """The snapshot that a component takes now."""
    components = dict(configuration.components)
    component = components[path]
    return Snapshot(path,
                    tuple(queue[0] if queue else None for queue in component.queues),
                    component.frames[-1].timers,
                    component.frames[0].timers,
                    frozenset(other for other in components if components[other].running),
                    frozenset(configuration.terminated))


# --------------------------------------------------------------------------
# Evaluation
# --------------------------------------------------------------------------

class Reading:
    """What a component sees: values and timers of one frame (its own names),
    those of its frame 0 (its members), and the states of all components.

    `seen` is a draft, where all is read as it is now, or a snapshot; it is
    only read.
    """

    def __init__(self, machine, seen, self_reference, own, member):
        self.machine = machine
        self.module = machine.module
        self.seen = seen
        self.self_reference = self_reference
        self.own = own
        self.member = member

    def with_names(self, pairs):
        """The same component's reading with other own names."""
        return Reading(self.machine, self.seen, self.self_reference,
                       Frame(None, pairs, ()), self.member)

    # References.

    def first_name(self, reference):
        """What the first name of a path holds, or None."""
        name, home = reference.names[0], reference.home
        if home == "own":
            return pair_of(self.own.values, name)
        if home == "member":
            return pair_of(self.member.values, name)
        if home == "item":
            return Item(name)
        return self.with_names(()).value(self.module.constants[name].value)

    def place_content(self, reference):
        """What a path leads to: a value, omit, or None.  The records on the
        way must be there."""
        content = self.first_name(reference)
        for name in reference.names[1:]:
            if not isinstance(content, Record):
                raise DynamicError("a record on the way isn't there")
            content = pair_of(content.pairs, name)
        return content

    def timer_state(self, reference):
        frame = self.own if reference.home == "timer of own" else self.member
        return pair_of(frame.timers, reference.names[0])

    def component(self, expression):
        """The path of the component that is named; null is an error."""
        value = self.value(expression)
        if value == NULL:
            raise DynamicError("null names no component")
        return value.path

    # Values.

    def value(self, node):
        return getattr(self, "value_of_" + type(node).__name__)(node)

    def values(self, nodes):
        return [self.value(node) for node in nodes]

    def truth(self, node):
        return self.value(node).truth

    def value_of_IntegerLiteral(self, node):
        return Integer(node.number)

    def value_of_BooleanLiteral(self, node):
        return Boolean(node.truth)

    def value_of_NullLiteral(self, node):
        return NULL

    def value_of_OmitLiteral(self, node):
        return OMIT

    def value_of_SelfReference(self, node):
        return self.self_reference

    def value_of_MtcReference(self, node):
        return ComponentReference(MTC, self.machine.testcase.runs_on)

    def value_of_Reference(self, node):
        content = self.place_content(node)
        if content is None or content == OMIT:
            raise DynamicError("what is read has no value")
        return content

    def value_of_Running(self, node):
        subject = node.subject
        if isinstance(subject, Reference) and subject.type == "timer":
            return Boolean(self.timer_state(subject) == RUNNING)
        return Boolean(self.seen.is_running(self.component(subject)))

    def value_of_IsPresent(self, node):
        content = self.place_content(node.subject)
        return Boolean(content is not None and content != OMIT)

    def value_of_Sign(self, node):
        number = self.value(node.operand).number
        return in_range(-number if node.sign == "-" else number)

    def value_of_Not(self, node):
        return Boolean(not self.truth(node.operand))

    def value_of_Braces(self, node):
        pairs = [(name, self.value(part))
                 for name, part in zip(node.names, node.parts)]
        return Record(tuple(sorted(pairs, key=lambda pair: pair[0])))

    def value_of_Chain(self, node):
        """From the left; `and` and `or` leave out what isn't needed."""
        left = self.value(node.first)
        operand_type = node.operand_type
        for operator, operand in node.rest:
            if operator == "and" and not left.truth or operator == "or" and left.truth:
                continue
            right = self.value(operand)
            if operator in ("==", "!="):
                left = self.compared(operator, left, right, operand_type)
                operand_type = "boolean"
            else:
                left = OPERATIONS[operator](left, right)
        return left

    def compared(self, operator, left, right, of_type):
        for value in (left, right):
            self.demand_complete(value, of_type)
        return Boolean((left == right) == (operator == "=="))

    def demand_complete(self, value, of_type):
        if not is_complete(self.module, value, of_type):
            raise DynamicError("a record lacks a value")

    # Templates.

    def template(self, node, of_type):
        """The template that a node stands for now; every part of it is
        evaluated, from left to right."""
        if isinstance(node, AnyValue):
            return ANY_VALUE
        if isinstance(node, AnyOrOmit):
            return ANY_OR_OMIT
        if isinstance(node, OmitLiteral):
            return Exactly(OMIT)
        if isinstance(node, IfPresent):
            return Perhaps(self.template(node.template, of_type))
        if isinstance(node, OneOf):
            return Listed(tuple(self.template(part, of_type) for part in node.parts))
        if isinstance(node, Complement):
            return Excluded(tuple(self.template(part, of_type) for part in node.parts))
        if isinstance(node, Range):
            low, high = [None if bound is None else self.value(bound).number
                         for bound in (node.low, node.high)]
            return Between(low, high)
        if isinstance(node, Braces):
            return self.record_template(node)
        if isinstance(node, TemplateCall):
            return self.named_template(node.name, self.values(node.arguments))
        if isinstance(node, Reference) and node.home == "template":
            return self.named_template(node.names[0], [])
        value = self.value(node)
        self.demand_complete(value, of_type)
        return Exactly(value)

    def record_template(self, node):
        record = self.module.records[node.type]
        pairs = [(name, self.template(part, record.field_type(name)))
                 for name, part in zip(node.names, node.parts)]
        return Fields(tuple(sorted(pairs, key=lambda pair: pair[0])))

    def named_template(self, name, arguments):
        definition = self.module.templates[name]
        inner = self.with_names(bound_names(definition.formals, arguments))
        return inner.template(definition.body, definition.type)


def bound_names(formals, arguments):
    """The parameters as sorted pairs of a name and its argument."""
    return tuple(sorted(((formal.name, argument)
                         for formal, argument in zip(formals, arguments)),
                        key=lambda pair: pair[0]))


def in_range(number):
    if not LEAST_INTEGER <= number <= GREATEST_INTEGER:
        raise DynamicError("a result is out of range")
    return Integer(number)


def quotient(left, right):
    """Whole division that drops the fraction."""
    if right == 0:
        raise DynamicError("division by zero")
    whole = abs(left) // abs(right)
    return whole if (left < 0) == (right < 0) else -whole


def remainder(left, right):
    return left - right * quotient(left, right)


def modulus(left, right):
    rest = remainder(left, abs(right))
    return rest if left >= 0 or rest == 0 else abs(right) + rest


def arithmetic(operation):
    return lambda left, right: in_range(operation(left.number, right.number))


def order(operation):
    return lambda left, right: Boolean(operation(left.number, right.number))


def logic(operation):
    return lambda left, right: Boolean(operation(left.truth, right.truth))


OPERATIONS = {
    "+": arithmetic(lambda left, right: left + right),
    "-": arithmetic(lambda left, right: left - right),
    "*": arithmetic(lambda left, right: left * right),
    "/": arithmetic(quotient),
    "rem": arithmetic(remainder),
    "mod": arithmetic(modulus),
    "<": order(lambda left, right: left < right),
    ">": order(lambda left, right: left > right),
    "<=": order(lambda left, right: left <= right),
    ">=": order(lambda left, right: left >= right),
    "and": logic(lambda left, right: left and right),
    "or": logic(lambda left, right: left or right),
    "xor": logic(lambda left, right: left != right),
}


# --------------------------------------------------------------------------
# Steps
# --------------------------------------------------------------------------

class Choice(NamedTuple):
    """A branch that can be taken.  `callers` are the altsteps on the way to
    it, outermost first: each with its parameters and with the block that
    stands behind its call (empty for a default).  A receive has its port and
    the message that was seen there."""

    branch: Branch
    callers: tuple
    port: Optional[int]
    message: Optional[Message]


class Caller(NamedTuple):
    parameters: tuple
    block_behind: list


class Step(NamedTuple):
    """A step: its label, where it leads, and the place of the branch that it
    takes, if it takes one."""

    label: Label
    end: object
    branch: Optional[Place]


class Machine:
    """The steps of one test case.  `script` has the messages that come in at
    each system port, each with its type."""

    def __init__(self, module, testcase, script=None):
        self.module = module
        self.testcase = testcase
        self.script = script or {}

    def start(self):
        """The MTC runs with its frame 0 and the test case's body."""
        component_type = self.testcase.runs_on
        draft = Draft(Configuration((), (), 0, frozenset(), frozenset(), ()))
        mtc = self.new_component(component_type)._replace(running=True)
        draft.components[MTC] = mtc
        try:
            self.fill_frame_0(draft, MTC)
        except DynamicError:
            return Ended(ERROR)
        draft.push_frame(MTC, Frame(prepend_all(self.testcase.body, None), (), ()))
        return draft.freeze()

    def new_component(self, type_name):
        ports = self.module.component_types[type_name].ports
        return Component(type_name, False, 0, (Frame(None, (), ()),), (), 0, 0,
                         ((),) * len(ports))

    def fill_frame_0(self, draft, path):
        """Declares the members of a new component, in order."""
        component_type = self.module.component_types[draft.components[path].type]
        for member in component_type.members:
            frame = draft.frames(path)[0]
            if isinstance(member, TimerDeclaration):
                frame = frame._replace(timers=with_pair(frame.timers, member.name, INACTIVE))
            elif member.right is not None:
                value = self.reading(draft, path).value(member.right)
                frame = frame._replace(values=with_pair(frame.values, member.name, value))
            draft.change_frame(path, 0, **frame._asdict())

    # All steps of a configuration.

    def steps(self, configuration):
        """Every step of a configuration, in the order of labels."""
        if isinstance(configuration, Ended):
            return
        for path, component in configuration.components:
            if component.running:
                step = self.statement_step(configuration, path)
                if step is not None:
                    yield step
                yield from self.expiries(configuration, path, component)
        yield from self.deliveries(configuration)

    def deliveries(self, configuration):
        for end, system_port in sorted(configuration.mappings, key=lambda mapping: mapping[1]):
            before = dict(configuration.delivered).get(system_port, 0)
            messages = self.script.get(system_port, ())
            if before < len(messages):
                draft = Draft(configuration)
                self.deliver(draft, end, Message(*messages[before], None))
                draft.delivered[system_port] = before + 1
                yield Step(Label(BEHIND_ALL_PATHS, 2, 0, system_port), draft.freeze(), None)

    def expiries(self, configuration, path, component):
        for number, frame in enumerate(component.frames):
            for name, state in frame.timers:
                if state == RUNNING:
                    draft = Draft(configuration)
                    timers = with_pair(frame.timers, name, EXPIRED)
                    draft.change_frame(path, number, timers=timers)
                    yield Step(Label(path, 1, number, name), draft.freeze(), None)

    def statement_step(self, configuration, path, snapshot=None):
        """The step of a component's first remaining statement, or None where
        it can't be made.  An alt is judged by a snapshot, or else by what is
        there now."""
        draft = Draft(configuration)
        branch = None
        try:
            frame = draft.last_frame(path)
            if frame.items is None:
                self.end_of_frame(draft, path)
            elif isinstance(frame.items.first, Alternative):
                branch = self.alternative_step(draft, path, frame.items.first, snapshot)
                if branch is None:
                    return None
            else:
                statement = frame.items.first
                draft.change_frame(path, -1, items=frame.items.rest)
                getattr(self, "do_" + type(statement).__name__)(draft, path, statement)
            self.drop_marks(draft, path)
            end = draft.freeze()
        except DynamicError:
            end, branch = Ended(ERROR), None
        return Step(Label(path), end, branch)

    def step_of(self, configuration, label):
        """The step of a label, or None where it isn't enabled."""
        if isinstance(configuration, Ended):
            return None
        if label.kind == 2:
            return next((step for step in self.deliveries(configuration)
                         if step.label == label), None)
        component = dict(configuration.components).get(label.path)
        if component is None or not component.running:
            return None
        if label.kind == 0:
            return self.statement_step(configuration, label.path)
        for step in self.expiries(configuration, label.path, component):
            if step.label == label:
                return step
        return None

    def drop_marks(self, draft, path):
        """A mark that stands first in the last frame is gone at once."""
        if path not in draft.components or draft.has_ended:
            return
        items = draft.last_frame(path).items
        while items is not None and isinstance(items.first, Mark):
            items = items.rest
        draft.change_frame(path, -1, items=items)

    def blocked(self, configuration):
        """The running components and their places."""
        return [(path, component.frames[-1].items.first.place)
                for path, component in configuration.components if component.running]

    # Readings and stores.

    def reading(self, draft, path, snapshot=None):
        """What a component sees now; with a snapshot, its timers and all of
        other components are as they were then."""
        component = draft.components[path]
        own, member = component.frames[-1], component.frames[0]
        if snapshot is not None:
            own = own._replace(timers=snapshot.timers)
            member = member._replace(timers=snapshot.member_timers)
        return Reading(self, draft if snapshot is None else snapshot,
                       ComponentReference(path, component.type), own, member)

    def store(self, draft, path, home, names, value):
        """Stores at a path of names, in the last frame or in frame 0."""
        number = 0 if home == "member" else -1
        values = draft.frames(path)[number].values
        stored = stored_at(pair_of(values, names[0]), names[1:], value)
        draft.change_frame(path, number, values=with_pair(values, names[0], stored))

    def set_timer(self, draft, path, timer, state):
        number = 0 if timer.home == "timer of member" else -1
        timers = draft.frames(path)[number].timers
        draft.change_frame(path, number, timers=with_pair(timers, timer.names[0], state))

    # Declarations and assignments.

    def forget_name(self, draft, path, name):
        """A frame holds one entry for a name, of its latest declaration."""
        frame = draft.last_frame(path)
        draft.change_frame(path, -1, values=without_pair(frame.values, name),
                           timers=without_pair(frame.timers, name))

    def do_Declaration(self, draft, path, statement):
        if statement.right is None:
            self.forget_name(draft, path, statement.name)
            return
        self.give(draft, path, "own", (statement.name,), statement.right, declares=True)

    def do_TimerDeclaration(self, draft, path, statement):
        self.forget_name(draft, path, statement.name)
        timers = draft.last_frame(path).timers
        draft.change_frame(path, -1, timers=with_pair(timers, statement.name, INACTIVE))

    def do_Assignment(self, draft, path, statement):
        target = statement.target
        self.give(draft, path, target.home, target.names, statement.right)

    def give(self, draft, path, home, names, right, declares=False):
        """Gives a place what a right side says; a call's result comes later."""
        if isinstance(right, Call):
            arguments = self.reading(draft, path).values(right.arguments)
            if declares:
                self.forget_name(draft, path, names[0])
            items = draft.last_frame(path).items
            draft.change_frame(path, -1, items=prepend(Waiting(home, names), items))
            self.push_call(draft, path, right.name, arguments)
            return
        if isinstance(right, Create):
            value = self.create(draft, path, right.component_type)
        elif isinstance(right, Activation):
            value = self.activate(draft, path, right)
        else:
            value = self.reading(draft, path).value(right)
        if declares:
            self.forget_name(draft, path, names[0])
        self.store(draft, path, home, names, value)

    def create(self, draft, path, type_name):
        number = draft.components[path].children + 1
        if number > GREATEST_COUNT:
            raise DynamicError("too many components")
        draft.change(path, children=number)
        child = path + (number,)
        draft.components[child] = self.new_component(type_name)
        self.fill_frame_0(draft, child)
        return ComponentReference(child, type_name)

    def activate(self, draft, path, activation):
        arguments = self.reading(draft, path).values(activation.arguments)
        component = draft.components[path]
        number = component.activations + 1
        if number > GREATEST_COUNT:
            raise DynamicError("too many activations")
        default = Default(number, activation.altstep, tuple(arguments))
        draft.change(path, activations=number, defaults=component.defaults + (default,))
        return DefaultReference(number)

    # Calls and returns.

    def push_call(self, draft, path, name, arguments):
        behaviour = self.module.behaviours[name]
        draft.push_frame(path, Frame(prepend_all(behaviour.body, None),
                                     bound_names(behaviour.formals, arguments), ()))

    def do_CallStatement(self, draft, path, statement):
        arguments = self.reading(draft, path).values(statement.call.arguments)
        self.push_call(draft, path, statement.call.name, arguments)

    def do_Return(self, draft, path, statement):
        value = None
        if statement.value is not None:
            value = self.reading(draft, path).value(statement.value)
        if len(draft.frames(path)) == 2:
            draft.terminate(path)
            return
        draft.pop_frame(path)
        items = draft.last_frame(path).items
        if items is not None and isinstance(items.first, Waiting):
            waiting = items.first
            draft.change_frame(path, -1, items=items.rest)
            self.store(draft, path, waiting.home, waiting.names, value)

    def end_of_frame(self, draft, path):
        if len(draft.frames(path)) == 2:
            draft.terminate(path)
            return
        draft.pop_frame(path)
        items = draft.last_frame(path).items
        if items is not None and isinstance(items.first, Waiting):
            raise DynamicError("a function ends without its result")

    # Control.

    def comes_first(self, draft, path, statements):
        items = draft.last_frame(path).items
        draft.change_frame(path, -1, items=prepend_all(statements, items))

    def do_If(self, draft, path, statement):
        condition, block = statement.arms[statement.at]
        if self.reading(draft, path).truth(condition):
            self.comes_first(draft, path, block)
        elif statement.at + 1 < len(statement.arms):
            self.comes_first(draft, path, [statement.rest_of_chain()])
        else:
            self.comes_first(draft, path, statement.otherwise)

    def do_While(self, draft, path, statement):
        if self.reading(draft, path).truth(statement.condition):
            self.comes_first(draft, path, statement.body + [statement])

    def do_Do(self, draft, path, statement):
        self.comes_first(draft, path, statement.loop.body + [statement.loop])

    def do_For(self, draft, path, statement):
        self.comes_first(draft, path, statement.initials + [statement.loop])

    def do_Log(self, draft, path, statement):
        pass

    def do_SetVerdict(self, draft, path, statement):
        worse = max(draft.components[path].verdict, statement.verdict)
        draft.change(path, verdict=worse)

    # Defaults.

    def do_Activate(self, draft, path, statement):
        self.activate(draft, path, statement.activation)

    def do_Deactivate(self, draft, path, statement):
        if statement.default is None:
            draft.change(path, defaults=())
            return
        gone = self.reading(draft, path).value(statement.default)
        if gone != NULL:
            kept = tuple(default for default in draft.components[path].defaults
                         if default.number != gone.number)
            draft.change(path, defaults=kept)

    # Components and timers.

    def do_StartTimer(self, draft, path, statement):
        self.set_timer(draft, path, statement.timer, RUNNING)

    def do_StartComponent(self, draft, path, statement):
        reading = self.reading(draft, path)
        started = reading.component(statement.component)
        arguments = reading.values(statement.call.arguments)
        component = draft.components.get(started)
        if component is None or component.running:
            raise DynamicError("only a component that was never started can be started")
        draft.change(started, running=True)
        self.push_call(draft, started, statement.call.name, arguments)

    def do_Stop(self, draft, path, statement):
        subject = statement.subject
        if isinstance(subject, Reference) and subject.type == "timer":
            self.set_timer(draft, path, subject, INACTIVE)
            return
        stopped = self.reading(draft, path).component(subject)
        if stopped in draft.components:
            draft.terminate(stopped)

    def do_StopSelf(self, draft, path, statement):
        draft.terminate(path)

    # Ports.

    def do_Connect(self, draft, path, statement):
        reading = self.reading(draft, path)
        ends = [(reading.component(component), port)
                for component, port in statement.ends]
        first, second = ends
        types = [self.live_port_type(draft, end) for end in ends]
        if first == second:
            raise DynamicError("a port can't be connected to itself")
        if any(self.is_mapped(draft, end) for end in ends):
            raise DynamicError("a mapped port can't be connected")
        for end, other in ((first, second), (second, first)):
            for far in self.far_ends(draft, end):
                if far[0] == other[0] and far != other:
                    raise DynamicError("a port would have two ports of one component")
        for sends, receives in ((types[0], types[1]), (types[1], types[0])):
            if not set(sends.outgoing) <= set(receives.incoming):
                raise DynamicError("a type that is sent isn't received")
        draft.connections.add(frozenset(ends))

    def live_port_type(self, draft, end):
        """The port type of an end, whose component must not be terminated."""
        path, port = end
        component = draft.components.get(path)
        if component is None:
            raise DynamicError("a terminated component can't be connected")
        name = self.module.component_types[component.type].port_type(port)
        if name is None:
            raise DynamicError("a component has no such port")
        return self.module.port_types[name]

    def do_Mapping(self, draft, path, statement):
        component = self.reading(draft, path).component(statement.component)
        end = (component, statement.port)
        mapping = (end, statement.system_port)
        if statement.operation == "unmap":
            draft.mappings.discard(mapping)
            return
        port = self.live_port_type(draft, end)
        name = self.module.component_types[self.testcase.system].port_type(statement.system_port)
        if name is None:
            raise DynamicError("the system has no such port")
        system = self.module.port_types[name]
        if self.far_ends(draft, end):
            raise DynamicError("a connected port can't be mapped")
        if any((other == end) != (system_port == statement.system_port)
               for other, system_port in draft.mappings):
            raise DynamicError("one of the two is mapped otherwise")
        if not set(port.outgoing) <= set(system.outgoing):
            raise DynamicError("a type that is sent doesn't go out")
        if not set(system.incoming) <= set(port.incoming):
            raise DynamicError("a type that comes in isn't received")
        draft.mappings.add(mapping)

    def is_mapped(self, draft, end):
        return any(other == end for other, _ in draft.mappings)

    def far_ends(self, draft, end):
        """The ends that an end is connected to."""
        return [far for connection in draft.connections if end in connection
                for far in connection if far != end]

    def do_Send(self, draft, path, statement):
        reading = self.reading(draft, path)
        template = reading.template(statement.message.template, statement.message.type)
        value = specific_value(template)
        receiver = None if statement.to is None else reading.component(statement.to)
        if self.is_mapped(draft, (path, statement.port)):
            if receiver is not None:
                raise DynamicError("no component is on the way out of a mapped port")
            return
        ends = self.far_ends(draft, (path, statement.port))
        if receiver is not None:
            ends = [end for end in ends if end[0] == receiver]
        if len(ends) != 1:
            raise DynamicError("a message needs exactly one way to go")
        message = Message(statement.message.type, value, reading.self_reference)
        self.deliver(draft, ends[0], message)

    def deliver(self, draft, end, message):
        """Puts a message at the back of a queue; a terminated component's
        messages are dropped."""
        path, port = end
        component = draft.components.get(path)
        if component is not None:
            number = self.module.component_types[component.type].port_number(port)
            self.change_queue(draft, path, number, component.queues[number] + (message,))

    def change_queue(self, draft, path, number, queue):
        queues = list(draft.components[path].queues)
        queues[number] = queue
        draft.change(path, queues=tuple(queues))

    # Alternatives.

    def alternative_step(self, draft, path, alternative, snapshot):
        """Takes the branch that is chosen and gives its place, or None where
        there is no choice."""
        choice = self.choose(draft, path, alternative, snapshot)
        if choice is None:
            return None
        self.replace_alternative(draft, path, alternative, choice)
        self.take_event(draft, path, choice)
        return choice.branch.place

    def choose(self, draft, path, alternative, snapshot):
        """The first branch that can be taken: of the alt, then of the
        defaults, the latest first."""
        reading = self.reading(draft, path, snapshot)
        choice = self.first_choice(reading, path, alternative.branches, ())
        if choice is not None:
            return choice
        for default in reversed(draft.components[path].defaults):
            choice = self.altstep_choice(reading, path, default.altstep,
                                         default.arguments, [], ())
            if choice is not None:
                return choice
        return None

    def first_choice(self, reading, path, branches, callers):
        for branch in branches:
            if branch.guard is not None and not reading.truth(branch.guard):
                continue
            if isinstance(branch.event, Call):
                arguments = reading.values(branch.event.arguments)
                choice = self.altstep_choice(reading, path, branch.event.name,
                                             arguments, branch.block, callers)
                if choice is not None:
                    return choice
                continue
            happens, port = self.happens(reading, path, branch.event)
            if happens:
                message = None if port is None else reading.seen.front(path, port)
                return Choice(branch, callers, port, message)
        return None

    def altstep_choice(self, reading, path, name, arguments, block_behind, callers):
        altstep = self.module.behaviours[name]
        parameters = bound_names(altstep.formals, arguments)
        return self.first_choice(reading.with_names(parameters), path, altstep.branches,
                                 callers + (Caller(parameters, block_behind),))

    def happens(self, reading, path, event):
        """Whether an event can be taken now, and for a receive at which port."""
        if isinstance(event, Else):
            return True, None
        if isinstance(event, Timeout):
            return reading.timer_state(event.timer) == EXPIRED, None
        if isinstance(event, Done):
            return reading.seen.has_terminated(reading.component(event.component)), None
        if isinstance(event, AllDone):
            if path != MTC:
                raise DynamicError("only the MTC may wait for all components")
            return not reading.seen.others_run(), None
        for number in self.ports_to_try(reading.self_reference.type, event.port):
            if self.front_is_taken(reading, path, event, number):
                return True, number
        return False, None

    def ports_to_try(self, type_name, port):
        component_type = self.module.component_types[type_name]
        if port is None:
            return range(len(component_type.ports))
        return [component_type.port_number(port)]

    def front_is_taken(self, reading, path, event, number):
        """Whether a receive takes the front of a queue: type, then sender, then
        template; what comes behind a no isn't looked at."""
        front = reading.seen.front(path, number)
        if front is None:
            return False
        if event.message is not None and event.message.type != front.type:
            return False
        if event.sender is not None:
            sender = reading.value(event.sender)
            if sender == NULL or front.sender is None or sender.path != front.sender.path:
                return False
        if event.message is None:
            return True
        template = reading.template(event.message.template, event.message.type)
        return matches(template, front.value)

    def replace_alternative(self, draft, path, alternative, choice):
        """Puts the blocks in place of the alt: that of a branch of its own
        before its mark, in the same frame; that of an altstep's branch in a
        new frame, and one frame for each altstep on the way."""
        blocks = [caller.block_behind for caller in choice.callers] + [choice.branch.block]
        rest = draft.last_frame(path).items.rest
        marked = prepend(Mark(alternative), rest)
        draft.change_frame(path, -1, items=prepend_all(blocks[0], marked))
        for caller, block in zip(choice.callers, blocks[1:]):
            draft.push_frame(path, Frame(prepend_all(block, None), caller.parameters, ()))

    def take_event(self, draft, path, choice):
        event = choice.branch.event
        if isinstance(event, Timeout):
            self.set_timer(draft, path, event.timer, INACTIVE)
        elif isinstance(event, Receive):
            queue = draft.components[path].queues[choice.port]
            self.change_queue(draft, path, choice.port, queue[1:])
            self.redirect(draft, path, event, choice.message)

    def redirect(self, draft, path, event, message):
        target = event.store_value
        if target is not None:
            self.store(draft, path, target.home, target.names, message.value)
        target = event.store_sender
        if target is not None:
            if message.sender is None or message.sender.type != target.type:
                raise DynamicError("a sender of another type")
            self.store(draft, path, target.home, target.names, message.sender)

    def do_Repeat(self, draft, path, statement):
        """Goes back to the alt whose mark is the nearest: the first one in the
        innermost frame that has one."""
        while True:
            items = draft.last_frame(path).items
            while items is not None and not isinstance(items.first, Mark):
                items = items.rest
            if items is not None:
                break
            draft.pop_frame(path)
        back = prepend(items.first.alternative, items.rest)
        draft.change_frame(path, -1, items=back)


# --------------------------------------------------------------------------
# Exploration
# --------------------------------------------------------------------------

class TooMany(Exception):
    """More configurations than the limit allows."""


class Bound(NamedTuple):
    """What is asked of runs: that they have at most so many expiries of timers
    (None is any number), and that a timer is patient, which expires only where
    no statement has a step."""

    expiries: Optional[int] = None
    patient: bool = False


ALL_RUNS = Bound()


class Reached(NamedTuple):
    """Where a run ends, and how many timers may still expire there."""

    configuration: object
    left: Optional[int]


def moves(machine, reached, bound):
    """Every step of a configuration, with what it reaches, or None where the
    bound forbids it."""
    steps = machine.steps(reached.configuration)
    may_expire = reached.left != 0
    if bound.patient:
        steps = list(steps)
        may_expire = may_expire and all(step.label.kind != 0 for step in steps)
    for step in steps:
        if step.label.kind != 1:
            yield step, Reached(step.end, reached.left)
        elif may_expire:
            yield step, Reached(step.end, None if reached.left is None else reached.left - 1)
        else:
            yield step, None


class Answer(NamedTuple):
    """What all runs of at most so many steps lead to.  `runs` maps a verdict
    to the least of its shortest runs."""

    count: int
    complete: bool
    runs: dict
    branches: set
    blocked: set


def explore(machine, steps, limit, bound=ALL_RUNS):
    """All runs of at most `steps` steps that keep a bound, layer by layer.
    What is reached enters in the order of its least shortest run."""
    start = Reached(machine.start(), bound.expiries)
    came_from = {start: None}
    runs = {}
    branches = set()
    blocked = set()
    if limit < 1:
        raise TooMany
    layer = [start]
    depth = 0
    complete = True
    while layer:
        following = []
        for reached in layer:
            if isinstance(reached.configuration, Ended):
                verdict = reached.configuration.verdict
                if verdict not in runs:
                    runs[verdict] = run_to(came_from, reached)
                continue
            enabled = False
            for step, end in moves(machine, reached, bound):
                enabled = True
                if end is None:
                    continue
                if depth == steps:
                    complete = False
                    break
                if step.branch is not None:
                    branches.add(step.branch)
                if end not in came_from:
                    came_from[end] = (reached, step.label)
                    following.append(end)
                    if len(came_from) > limit:
                        raise TooMany
            if not enabled:
                blocked.update(machine.blocked(reached.configuration))
        if depth == steps:
            break
        layer = following
        depth += 1
    return Answer(len(came_from), complete, runs, branches, blocked)


def run_to(came_from, reached):
    labels = []
    while came_from[reached] is not None:
        reached, label = came_from[reached]
        labels.append(label)
    return labels[::-1]


def report(name, steps, answer, bound=ALL_RUNS):
    """The report as text."""
    lines = [f"testcase {name}", f"steps {steps}"]
    if bound.expiries is not None:
        lines.append(f"expiries {bound.expiries}")
    if bound.patient:
        lines.append("patient-timers")
    lines += [f"configurations {answer.count}",
              "complete " + ("yes" if answer.complete else "no")]
    for number, verdict in enumerate(VERDICTS):
        if number in answer.runs:
            run = answer.runs[number]
            lines.append(f"verdict {verdict} {len(run)}")
            lines.extend(f"  {label}" for label in run)
    lines.extend(f"branch {place}" for place in sorted(answer.branches))
    lines.extend(f"blocked {path_text(path)} {place}"
                 for path, place in sorted(answer.blocked))
    return "".join(line + "\n" for line in lines)


def machine_of(text, name, script):
    """The machine of a test case with a script's text, or a refusal."""
    module = read_module(text)
    testcase = module.testcase(name)
    if testcase is None:
        return "refused U1 NoSuchTestCase\n"
    try:
        read = {} if script is None else scripts.read_script(module, testcase, script)
    except scripts.Refused as refusal:
        return str(refusal)
    return Machine(module, testcase, read)


def run(text, name, steps, limit=1000000, script=None, bound=ALL_RUNS):
    """What is printed for a run: the report or the refusal."""
    machine = machine_of(text, name, script)
    if isinstance(machine, str):
        return machine
    try:
        answer = explore(machine, steps, limit, bound)
    except TooMany:
        return "refused E1 TooMany\n"
    return report(name, steps, answer, bound)


# --------------------------------------------------------------------------
# Replay
# --------------------------------------------------------------------------

NUMBER = r"(?:0|[1-9][0-9]*)"
LABEL = re.compile(rf"mtc(?P<path>(?:\.{NUMBER})*)"
                   rf"(?:/(?P<frame>{NUMBER})\.(?P<timer>[A-Za-z][A-Za-z0-9_]*))?")
DELIVERY = re.compile(r"system\.([A-Za-z][A-Za-z0-9_]*)")


def read_label(line):
    """The label that a line is, or None."""
    delivery = DELIVERY.fullmatch(line)
    if delivery is not None:
        return Label(BEHIND_ALL_PATHS, 2, 0, delivery[1])
    found = LABEL.fullmatch(line)
    if found is None:
        return None
    path = tuple(int(number) for number in found["path"].split(".")[1:])
    frame = int(found["frame"] or 0)
    if any(number > GREATEST_COUNT for number in path + (frame,)):
        return None
    if found["timer"] is None:
        return Label(path)
    return Label(path, 1, frame, found["timer"])


def read_run(text, read=read_label):
    """The labels of a run file, or the number of the first bad line."""
    labels = []
    for number, line in enumerate(text.split("\n"), start=1):
        line = line.strip("\t\x0b\x0c\r ")
        if line:
            label = read(line)
            if label is None:
                return number
            labels.append(label)
    return labels


def replay(text, name, run_text, script=None):
    """What is printed for a replay of a run file."""
    machine = machine_of(text, name, script)
    if isinstance(machine, str):
        return machine
    labels = read_run(run_text)
    if isinstance(labels, int):
        return f"refused N1 BadLabel at line {labels}\n"
    configuration = machine.start()
    for number, label in enumerate(labels, start=1):
        step = machine.step_of(configuration, label)
        if step is None:
            return f"refused N2 NotEnabled at label {number}\n"
        configuration = step.end
    return f"replayed {len(labels)}\n{outcome(machine, configuration)}\n"


def outcome(machine, configuration):
    if isinstance(configuration, Ended):
        return "ended " + VERDICTS[configuration.verdict]
    return "open" if any(True for _ in machine.steps(configuration)) else "blocked"


# --------------------------------------------------------------------------
# Program
# --------------------------------------------------------------------------

def read_bytes(file):
    """A file's bytes, one character each."""
    with open(file, "rb") as opened:
        return opened.read().decode("latin-1")


def with_deep_stack(work):
    """Does some work where calls may nest very deep (a chain of two hundred
    constants, each nested two hundred deep, is read in one evaluation)."""
    answers = []
    sys.setrecursionlimit(1000000)
    threading.stack_size(1 << 29)
    thread = threading.Thread(target=lambda: answers.append(work()))
    thread.start()
    thread.join()
    return answers[0] if answers else 70


def main():
    parser = argparse.ArgumentParser(description=__doc__.splitlines()[0])
    parser.add_argument("file")
    parser.add_argument("--testcase", required=True)
    parser.add_argument("--steps", type=int, default=100)
    parser.add_argument("--limit", type=int, default=1000000)
    parser.add_argument("--replay", metavar="RUNFILE")
    parser.add_argument("--script", metavar="FILE")
    parser.add_argument("--expiries", type=int)
    parser.add_argument("--patient-timers", action="store_true")
    words = parser.parse_args()
    text = read_bytes(words.file)
    script = None if words.script is None else read_bytes(words.script)
    if words.replay is not None:
        printed = replay(text, words.testcase, read_bytes(words.replay), script)
    else:
        bound = Bound(words.expiries, words.patient_timers)
        printed = run(text, words.testcase, words.steps, words.limit, script, bound)
    sys.stdout.write(printed)
    return 1 if printed.startswith("refused") else 0


if __name__ == "__main__":
    # The module that `scripts` knows: its values are equal to those here.
    import reference
    sys.exit(reference.with_deep_stack(reference.main))

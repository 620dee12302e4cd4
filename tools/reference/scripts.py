"""Reads a script: what comes in at the system ports of a test case.

A script is a JSON text: an object from system ports to lists of messages.  A
message is an object with one key, its type.
"""

import json
import re

import reference

LONGEST_SCRIPT = 1048576
DEEPEST = 127

J1 = "refused J1 BadJson\n"
J2 = "refused J2 NoSuchPort\n"
J3 = "refused J3 BadMessage\n"
J4 = "refused J4 TooLarge\n"


class Refused(Exception):
    """A script that is refused, with the line that tells why."""


class Fraction:
    """A number that no integer of 64 bits is."""


def integer_of(text):
    """A number without point and exponent.  `-0` is a fraction for the reader
    that this is compared with, and so is what 64 bits can't hold."""
    number = int(text)
    if text == "-0" or not -(2 ** 63) <= number < 2 ** 64:
        return Fraction()
    return number


def refuse_constant(word):
    raise ValueError(word)


def is_too_deep(text):
    """Whether brackets outside of texts nest deeper than the reader goes."""
    depth = 0
    for piece in re.findall(r'"(?:\\.|[^"\\])*"|[\[\]{}]', text, re.DOTALL):
        if piece in "[{":
            depth += 1
            if depth > DEEPEST:
                return True
        elif piece in "]}":
            depth -= 1
    return False


def has_lone_surrogate(value):
    """Whether a text in a value has half of a pair of surrogates."""
    if isinstance(value, str):
        return any(0xD800 <= ord(letter) < 0xE000 for letter in value)
    if isinstance(value, list):
        return any(has_lone_surrogate(each) for each in value)
    if isinstance(value, dict):
        return any(has_lone_surrogate(each) for pair in value.items() for each in pair)
    return False


def read_json(text):
    """The value of a text of bytes, one character each.  Of a key that stands
    twice the last value counts, at the place of the first."""
    try:
        decoded = text.encode("latin-1").decode("utf-8")
        if is_too_deep(decoded):
            raise ValueError("too deep")
        value = json.loads(decoded, parse_int=integer_of, parse_float=lambda _: Fraction(),
                           parse_constant=refuse_constant)
    except (ValueError, RecursionError) as fault:
        raise Refused(J1) from fault
    if decoded.startswith("\ufeff") or has_lone_surrogate(value):
        raise Refused(J1)
    return value


def value_of(module, of_type, written):
    """The value of a type that a JSON value stands for."""
    if of_type == "integer":
        if type(written) is int and written < 2 ** 63:
            return reference.Integer(written)
    elif of_type == "boolean":
        if type(written) is bool:
            return reference.Boolean(written)
    elif of_type in module.records:
        if type(written) is dict:
            return record_of(module, module.records[of_type], written)
    elif type(written) is str and module.items.get(written) == of_type:
        return reference.Item(written)
    raise Refused(J3)


def record_of(module, record, written):
    pairs = []
    for each in record.fields:
        kept = written.get(each.name)
        if kept is None and each.optional:
            value = reference.OMIT
        elif each.name in written:
            value = value_of(module, each.type, kept)
        else:
            raise Refused(J3)
        pairs.append((each.name, value))
    if set(written) - {each.name for each in record.fields}:
        raise Refused(J3)
    return reference.Record(tuple(sorted(pairs)))


def message_of(module, incoming, written):
    if type(written) is not dict or len(written) != 1:
        raise Refused(J3)
    (of_type, inner), = written.items()
    if of_type not in incoming:
        raise Refused(J3)
    return of_type, value_of(module, of_type, inner)


def read_script(module, testcase, text):
    """The messages of each system port, by its name."""
    if len(text) > LONGEST_SCRIPT:
        raise Refused(J4)
    written = read_json(text)
    if type(written) is not dict:
        raise Refused(J2)
    component_type = module.component_types[testcase.system]
    if any(component_type.port_type(port) is None for port in written):
        raise Refused(J2)
    script = {}
    for port, messages in written.items():
        incoming = module.port_types[component_type.port_type(port)].incoming
        if type(messages) is not list:
            raise Refused(J3)
        script[port] = tuple(message_of(module, incoming, each) for each in messages)
    return script

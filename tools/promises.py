#!/usr/bin/env python3
"""Joins the tables of promises, and compares the names in them with the code.

  tools/promises.py           prints the table of each crate, lowest crate first
  tools/promises.py --check   prints each function or clause that a table cites and the code doesn't have

A table stands in crates/NAME/README.md and begins with the line `| Promise | Clause |`. The last cell of a row has groups
with `;` between them. A group names functions, types or traits of this crate, then behind `:` the clauses that each of
them has. With --check the status is 1 if anything is missing.
"""
import os
import re
import sys

ROOT = os.path.dirname(os.path.dirname(os.path.realpath(__file__)))
HEAD = "| Promise | Clause |"


def crates():
    """Returns the names of the crates in the order of crates.txt, lowest first."""
    with open(f"{ROOT}/crates.txt", encoding="utf-8") as file:
        return [re.match(r"\w+", line).group() for line in file if re.match(r"\w", line)]


def tables(crate):
    """Returns the tables of a crate, each as the line that stands before it and its rows."""
    with open(f"{ROOT}/crates/{crate}/README.md", encoding="utf-8") as file:
        lines = file.read().splitlines()
    found = []
    for at, line in enumerate(lines):
        if line == HEAD:
            before = [text for text in lines[:at] if text]
            rows = []
            for row in lines[at + 2 :]:
                if not row.startswith("|"):
                    break
                rows.append(row)
            found.append((before[-1], rows))
    return found


def members(crate):
    """Returns the clauses of each function of a crate, by its name and by its type and name, and the words of its code."""
    clauses, words = {}, set()
    for folder, _, names in os.walk(f"{ROOT}/crates/{crate}/src"):
        for name in names:
            with open(f"{folder}/{name}", encoding="utf-8") as file:
                read_file(file.read(), clauses, words)
    return clauses, words


def read_file(text, clauses, words):
    """Adds the clauses and the words of one file of code. A ghost member is a clause of its type or trait."""
    owner, keys = None, []
    for line in text.splitlines():
        words.update(re.findall(r"\w+", line.split("//")[0]))
        begun = re.match(r"impl(?:<.*?>)? (?:.* for )?(\w+)", line) or re.match(r"(?:pub )?trait (\w+)", line)
        function = re.match(r"( *)(?:pub(?:\(\w+\))? )?(?:const )?fn (\w+)", line)
        clause = re.match(r" +ensures (\w+) ", line)
        ghost = re.match(r"    ghost (\w+)(?::| =)", line)
        if begun:
            owner, keys = begun.group(1), []
            clauses.setdefault(owner, set())
        elif re.match(r"\w", line):
            owner, keys = None, []
        if function:
            name = function.group(2)
            keys = [name, f"{owner}::{name}"] if owner else [name]
        for key in [owner] if ghost and owner else keys:
            clauses.setdefault(key, set()).update(found.group(1) for found in (clause, ghost) if found)


def missing(crate):
    """Yields what the tables of a crate cite and its code doesn't have."""
    clauses, words = members(crate)
    for _, rows in tables(crate):
        for row in rows:
            for group in row.rstrip("| ").rsplit(" | ", 1)[-1].split(";"):
                owners, _, cited = group.partition("`: ")
                owners = re.findall(r"`([\w:]+)", owners)
                for owner in owners:
                    if owner not in clauses and not (owner[0].isupper() and owner in words):
                        yield f"{crate}: no `{owner}`"
                for clause in re.findall(r"`(\w+)`", cited):
                    for owner in owners:
                        if clause not in clauses.get(owner, ()):
                            yield f"{crate}: no clause `{clause}` of `{owner}`"


def main():
    if sys.argv[1:] == ["--check"]:
        lines = [line for crate in crates() for line in missing(crate)]
        print("\n".join(lines) or "each function and clause is there")
        return 1 if lines else 0
    if sys.argv[1:]:
        sys.exit(__doc__.strip())
    for crate in crates():
        for at, (before, rows) in enumerate(tables(crate)):
            heading = f"## {crate}\n\n" if at == 0 else ""
            print(f"{heading}{before}\n\n{HEAD}\n|---|---|\n" + "\n".join(rows) + "\n")
    return 0


if __name__ == "__main__":
    sys.exit(main())

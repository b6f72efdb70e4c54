"""Finds errors that are equal by construction: with them the compiler makes the same bytes.

Each function that contains an error is compiled once more with its number as a constant, and once with none, in one run
of the compiler.
"""
import re
import subprocess
import tempfile
from pathlib import Path

from mutating.building import compiled, in_text

FUNCTION = re.compile(
    r'^define internal (?P<head>[^@\n]*@)"(?P<name>[^"]*)"(?P<rest>[^\n]*) \{\n(?P<body>.*?^\}\n)', re.M | re.S
)
NUMBER = re.compile(r'call i32 @"planted::planted_error"\(i32 (\d+)\)')
# What a table contains would not be seen in the instructions.
WITHOUT_TABLES = '"no-jump-tables"="true"'


def equal(code, places):
    """Those of these numbers with which each function that contains the error is compiled to the same bytes as without.
    `places` has the places of each number in the code."""
    with tempfile.TemporaryDirectory(prefix="mutate-") as folder:
        text, made = Path(folder, "all.ll"), Path(folder, "all.o")
        written = in_text(code)
        copies = {}
        for number, function in pairs(written, places):
            copies.setdefault(number, []).append(function)
        functions = [it for number in copies for function in copies[number] for it in changed(function, number, places)]
        # nothing but the copies is needed
        written = written.replace("define i32 @main(", "define internal i32 @main(")
        text.write_text(written + "\n".join(dict.fromkeys(functions)))
        compiled(text, made)
        bodies = disassembled(made)
    return {
        number for number, functions in copies.items()
        if all(bodies[copy_of(it, number)] == bodies[copy_of(it, 0)] for it in functions)
    }


def pairs(written, places):
    """Each number with each function that contains one of its places."""
    for function in FUNCTION.finditer(written):
        here = {int(it) for it in NUMBER.findall(function["body"])}
        for number, own in places.items():
            if here & own:
                yield number, function


def copy_of(function, number):
    return "%s planted %d" % (function["name"], number)


def changed(function, number, places):
    """The function with an error, and without one. It is kept, since it can be called from outside."""
    for constant, own in ((0, ()), (number, places[number])):
        body = NUMBER.sub(lambda it: "add i32 0, %d" % (constant if int(it[1]) in own else 0), function["body"])
        head = 'define %s"%s"%s' % (function["head"], copy_of(function, constant), function["rest"])
        yield "%s %s {\n%s" % (head, WITHOUT_TABLES, body)


def disassembled(made):
    """The instructions of each copy in an object file, with what they refer to."""
    command = ["objdump", "-dr", "--no-show-raw-insn", made]
    output = subprocess.run(command, stdout=subprocess.PIPE, text=True, errors="replace", check=True).stdout
    found = {}
    for name, body in re.findall(r"^[0-9a-f]+ <([^\n]* planted \d+)>:\n(.*?)(?:\n\n|\Z)", output, re.M | re.S):
        found[name] = re.sub(r" planted \d+", "", body).strip()
    return found

"""The table of the parts of ./check, and the tests of the built program in it."""
import re
from typing import NamedTuple

from mutating.refusal import refuse
from mutating.sources import TOP

TABLE = "tests/data/parts.txt"
PROGRAM = "PROGRAM"
# Tests of the program that are not run here, with the reason.
NOT_RUN = {
    "memory": "it also runs the proved tests, which are next to the proved program alone",
    "times": "it measures times, and here it would run next to other tests",
    "library": "it tests the library for C, which is an area of its own",
    "owner_module": "it starts the program some hundred times, and an unproved one takes seconds to start with --keep",
    "withdrawn": "it starts the program some hundred times, and an unproved one takes seconds to start with --keep",
}
# There are no fewer tests of the program than these.
LEAST = 30


class Part(NamedTuple):
    """A part of ./check: a line of the table."""

    name: str
    lane: str
    title: str
    words: tuple

    @property
    def script(self):
        """The script that it runs."""
        return next((it for it in self.words if re.search(r"\btests/\w+$", it)), None)

    def command(self, program):
        """Its command for a program."""
        return [it.replace(PROGRAM, str(program)) for it in self.words]


def part_of(line):
    """The part of a line of the table."""
    cells = [it.strip() for it in line.split("|")]
    if len(cells) != 4 or not all(cells) or not all(re.fullmatch("[a-z_]+", it) for it in cells[:2]):
        refuse("this line of %s is not a part: %s" % (TABLE, line))
    return Part(*cells[:3], tuple(cells[3].split()))


def parts_of_check(top=TOP):
    """The parts of ./check, by their names."""
    parts = [part_of(it) for it in (top / TABLE).read_text().splitlines() if not it.startswith("#")]
    found = {it.name: it for it in parts}
    if len(found) < len(parts):
        refuse("%s has a part twice" % TABLE)
    return found


def tests_of_check(top=TOP):
    """The tests of the built program that ./check runs, by their names."""
    parts = parts_of_check(top)
    for name in NOT_RUN:
        if name not in parts:
            refuse("%s has no part %s" % (TABLE, name))
    found = {it.name: it for it in parts.values() if PROGRAM in " ".join(it.words) and it.name not in NOT_RUN}
    if len(found) < LEAST:
        refuse("%s has %d tests of the program, fewer than %d" % (TABLE, len(found), LEAST))
    for it in found.values():
        if not it.script or not (top / it.script).is_file():
            refuse("the part %s of %s runs no script" % (it.name, TABLE))
    return found

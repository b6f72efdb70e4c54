"""Checks that errors are judged as they must be: one that a test of ./check notices, one that no test notices, and one
that changes nothing. And that nothing is judged if there is nothing to judge by.

The errors are planted in what the program prints about itself, and the program is built with that alone: it takes a
fraction of the time.
"""
import os
import re
import shutil
import tempfile
from pathlib import Path
from random import Random

from mutating.areas import EQUAL, NOTICED, UNNOTICED, Program
from mutating.judging import judged, summary, unchanged, verdicts_on
from mutating.parts import NOT_RUN, PROGRAM, TABLE, Part, parts_of_check, tests_of_check
from mutating.program import Switched
from mutating.refusal import Refusal, at_least
from mutating.sources import TOP

# The part of the program, and what it is made of.
PAGES = TOP / "tests/mutating/pages.rt"
OF_PAGES = "clap enip_cli enip_common enip_shell"
# The part of ./check that notices an error here, and the part of its script that needs nothing else of the program.
TEST, TEST_PART = "shells", "covered"
MAN = "crates/enip_shell/src/man.rt"
# Statements of the man page: without the first, no command is described. The second prints what this test does not look
# at. The third is reached, and stays as it is.
SEEN = r'write_inline(output, ".SS ", command.name, "\n")?;'
NOT_SEEN = "write_text(output, program.exit_statuses)?;"
UNCHANGED = "write_usage(output, command.usage.as_str())?;"


class Pages(Switched):
    """The copy of the sources, of which that part of the program is built."""

    def __init__(self, folder, sources):
        super().__init__(folder, sources)
        crate, listed = folder / "crates/enip_cmd/src", folder / "crates.txt"
        shutil.rmtree(crate)
        crate.mkdir()
        shutil.copy(PAGES, crate / "main.rt")
        listed.write_text(re.sub(r"^enip_cmd: .*", "enip_cmd: planted " + OF_PAGES, listed.read_text(), flags=re.M))


class Judgement:
    """Counts what holds and what does not."""

    def __init__(self):
        self.passed = self.failed = 0

    def expect(self, name, got, want):
        self.passed, self.failed = self.passed + (got == want), self.failed + (got != want)
        if got != want:
            print("%s: %r instead of %r" % (name, got, want), flush=True)

    def refused(self, name, why, attempt):
        """Nothing is judged, for this reason."""
        try:
            self.expect(name, attempt(), "a refusal")
        except Refusal as refusal:
            self.expect(name, str(refusal), why)


def error_of(errors, line):
    """The error that leaves this statement out."""
    found = [it for it in errors if (it.path, it.before, it.rule) == (MAN, line, "a statement left out")]
    return at_least(1, found, "errors that leave out " + line)[0]


def unchanging(errors):
    """An error that only adds a comment."""
    one = error_of(errors, UNCHANGED)
    same = UNCHANGED + " // the same"
    return one._replace(rule="nothing", new=same + "\n", after=same)


def judging(judgement, folder):
    """What is judged of three errors."""
    one = tests_of_check()[TEST]
    program = Program(folder, {TEST: one._replace(words=(*one.words, TEST_PART))}, Pages)
    errors = at_least(program.LEAST, program.errors(Random(1)), "errors of the program")
    chosen = [error_of(errors, SEEN), error_of(errors, NOT_SEEN), unchanging(errors)]
    judgement.expect("they are planted", program.planted(chosen), chosen)
    areas = {"program": program}
    verdicts = verdicts_on(areas, chosen, 2)
    judgement.expect("the verdicts", [verdicts[it] for it in chosen], [NOTICED, UNNOTICED, EQUAL])
    judgement.expect("the summary", summary("these", verdicts.values()),
                     "these: 50.0 % of 2 noticed, 1 equal by construction")
    # without a test nothing is judged, and with one that fails neither
    fails = {it: Part(it, "", "", ("false", PROGRAM)) for it in ("one", "another")}
    for tests, why in [({}, "there are no tests of the area program"),
                       ({"one": fails["one"]}, "there are no tests of the area program"),
                       (fails, "these tests fail without an error: another, one")]:
        program.tests = tests
        judgement.refused("with %d tests that fail" % len(tests), why, lambda: unchanged(areas, chosen, 2))
    return program, chosen


def left_out(judgement, program, chosen):
    """One test that fails without an error is left out, and the others judge, also one that prints more than its sum."""
    one, says = tests_of_check()[TEST], ("printf", "5 of %s\\n1 passed, 0 failed\\n", PROGRAM)
    program.tests = {
        TEST: one._replace(words=(*one.words, TEST_PART)),
        "one": Part("one", "", "", ("false", PROGRAM)),
        "says": Part("says", "", "", says),
    }
    seconds = unchanged({"program": program}, chosen, 2)
    judgement.expect("the tests that judge", sorted(seconds), ["says", TEST])
    judgement.expect("what they judge", judged({"program": program}, chosen[0], seconds), NOTICED)


def tables(judgement):
    """What is refused of a table of parts."""
    text, name = (TOP / TABLE).read_text(), "tests/data/parts.txt"
    row = next(it for it in text.splitlines() if it.startswith("serve "))
    few = "\n".join(it for it in text.splitlines() if it.split(" ")[0] in NOT_RUN)
    for what, changed, why in [
        ("an empty table", "", "%s has no part memory" % name),
        ("too few", few, "%s has 0 tests of the program, fewer than 30" % name),
        ("a part twice", text + row + "\n", "%s has a part twice" % name),
        ("three cells", text + "a | b | c\n", "this line of %s is not a part: a | b | c" % name),
        ("an empty cell", text + "a | b |  | d\n", "this line of %s is not a part: a | b |  | d" % name),
        ("no script", text + "a | b | c | tests/none PROGRAM\n", "the part a of %s runs no script" % name),
    ]:
        with tempfile.TemporaryDirectory(prefix="mutate-") as folder:
            for it in ("tests/data", "library"):
                Path(folder, it).mkdir(parents=True)
            for path in (TOP / "tests").iterdir():
                if path.is_file():
                    os.link(path, Path(folder, "tests", path.name))
            Path(folder, name).write_text(changed)
            judgement.refused(what, why, lambda: tests_of_check(Path(folder)))
    judgement.expect("each test once", len({it.script for it in tests_of_check().values()}), len(tests_of_check()))
    judgement.expect("each script is there", [it for it in parts_of_check().values()
                                               if it.script and not (TOP / it.script).is_file()], [])


def main():
    judgement = Judgement()
    tables(judgement)
    with tempfile.TemporaryDirectory(prefix="mutate-") as folder:
        left_out(judgement, *judging(judgement, Path(folder)))
    print("%d passed, %d failed" % (judgement.passed, judgement.failed))
    return judgement.failed != 0


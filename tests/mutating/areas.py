"""Where errors are planted: the program, the C layer, and the scripts. Each area makes its errors, and judges one."""
import os
import shutil
import subprocess
import sys
import tempfile
from pathlib import Path

from mutating import layer, libraries, shell
from mutating.building import TESTS
from mutating.noticing import LONGEST, in_order, noticed, run
from mutating.parts import tests_of_check
from mutating.program import PLACES, Switched
from mutating.refusal import at_least
from mutating.rules import errors_in, errors_in_value, returned_by
from mutating.sources import TOP, Sources, libraries_of

SCRIPTS = "tests/scripts"
# It has no fewer parts than these.
LEAST_PARTS = 30
# The tests of the libraries. Here each of them runs once, as a part of one program.
TRIED = "tests/tried"
# The seconds that the slowest of them take together.
LONGEST_TESTS = 60
# There are no fewer errors that were looked at than these.
LEAST_REVIEWED = 20
# The file that lists what the compiler refused.
REFUSED = "refused"
NOTICED, UNNOTICED, EQUAL = "noticed", "UNNOTICED", "equal by construction"


class Program:
    """The functions, constants and texts of the program that no clause tells."""

    # There are no fewer errors than these.
    LEAST = 5_000

    def __init__(self, folder, tests=None, make=Switched):
        self.folder, self.sources, self.switched, self.numbers = folder, Sources(), None, {}
        self.tests, self.make, self.reached = tests or tests_of_check(), make, {}

    def errors(self, random):
        found = []
        for source in self.sources.files:
            for function in source.functions:
                if not function.is_told:
                    found += errors_in(source.path, source.text, *function.body, returned_by(function.result), random)
            for constant in source.constants:
                _, functions = self.sources.reach(source, constant)
                if functions and not any(it.is_told for it in functions):
                    found += errors_in_value(source.path, source.text, *constant[3], random)
            for text in source.shown_texts:
                found += errors_in_value(source.path, source.text, text.start, text.end, random)
        return found

    def planted(self, errors):
        """Those of these errors that can be planted. They are all in one program. A list of those that the compiler
        refuses is kept in the folder."""
        self.switched = self.switched or self.make(self.folder / "copy", self.sources)
        refused = self.folder / REFUSED
        known = set(refused.read_text().splitlines()) if refused.exists() else set()
        numbers = {
            number: it for number, it in enumerate(errors, 1) if self.switched.place(it) and str(it) not in known
        }
        for number in self.switched.build(numbers):
            with refused.open("a") as file:
                print(numbers.pop(number), file=file)
        self.numbers = {it: number for number, it in numbers.items()}
        return list(self.numbers)

    def plain(self):
        """The program without an error."""
        path = self.folder / "enip"
        if not path.exists():
            if not self.switched:
                self.planted([])
            self.switched.program(0, path)
        return path

    def unchanged(self):
        """The commands that must pass without an error."""
        return {name: test.command(self.plain()) for name, test in self.tests.items()}

    def note_reached(self, test):
        """Notes which errors a test reaches: all, if it fails while that is noted."""
        reached = self.folder / ("reached-" + test)
        program = self.switched.program(0, self.folder / ("enip-" + test), reached)
        if run(self.tests[test].command(program), LONGEST)[0] is None:
            self.reached[test] = reached.read_bytes()

    def reaches(self, test, number):
        return test not in self.reached or self.switched.is_reached(number, self.reached[test])

    def judge(self, error, seconds):
        number = self.numbers[error]
        program = self.switched.program(number, self.folder / ("enip-%d" % number))
        order, by = [it for it in in_order(self.tests, seconds, error.path) if self.reaches(it, number)], None
        try:
            commands = [(it, *(self.tests[it].command(one) for one in (program, self.plain()))) for it in order]
            by = noticed(commands, seconds)
        finally:
            if by:
                program.unlink()
        return (NOTICED, by) if by else (UNNOTICED, "%s, of %d tests that reach it" % (program.name, len(order)))

    def equal(self, errors):
        """Those of these errors with which the compiler makes the same bytes."""
        numbers = {self.numbers[it]: it for it in errors}
        return {numbers[it] for it in self.switched.equal(numbers)} if numbers else set()

    def tried(self, errors):
        """Those of these errors that a test of the libraries notices, and what it prints."""
        crates = libraries_of(TESTS)
        errors = [it for it in errors if it.path.split("/")[1] in crates]
        if not errors:
            return {}
        self.switched.build_tests()
        tests, found = self.tests_that_reach(errors), {}
        for error in errors:
            program, plain = (self.tests_with(it) for it in (self.numbers[error], 0))
            commands = [[sys.executable, libraries.__file__, it, *tests[error]] for it in (program, plain)]
            if tests[error]:
                found[error] = noticed([(TRIED, *commands)], {TRIED: LONGEST_TESTS})
            program.unlink()
        return {it: by for it, by in found.items() if by}

    def tests_that_reach(self, errors):
        """The tests of the libraries that pass without an error and reach each of these errors."""
        reached, tests = self.folder / "reached-by-libraries", {it: [] for it in errors}
        program = self.tests_with(0, reached)
        for name in libraries.names():
            reached.write_bytes(bytes(PLACES))
            why = libraries.fails(program, name)
            if why:
                print("%s: left out, since it fails: %s" % (TRIED, why), flush=True)
                continue
            there = reached.read_bytes()
            for error in errors:
                if self.switched.is_reached(self.numbers[error], there):
                    tests[error].append(name)
        return tests

    def tests_with(self, number, reached=None):
        """The tests of the libraries with one error."""
        return self.switched.program(number, self.folder / ("tests-%d" % number), reached, self.switched.tests)


class Layer:
    """The C layer of the library."""

    LEAST = 500

    def __init__(self, folder, prefix, program):
        self.folder, self.prefix, self.program, self.layer, self.same = folder, prefix, program, None, set()
        self.whole = {}

    def errors(self, random):
        return layer.errors_of_layer(random)

    def planted(self, errors):
        if errors and not self.layer:
            self.layer = layer.Layer(self.folder / "layer", self.prefix)
        states = {it: self.layer.state(it) for it in errors}
        self.same |= {it for it, (_, is_equal) in states.items() if is_equal}
        return [it for it, (can_be_planted, _) in states.items() if can_be_planted]

    def commands(self, copy):
        """The tests of a copy of the repository: of its layer, and of the library made of it."""
        found = {"library/tests/layer": [copy / "library/tests/layer"]}
        if self.prefix:
            prefix = self.layer.installed((copy / layer.LAYER).read_text(), copy / "prefix")
            program = os.environ.get("ENIP") or self.program.plain()
            found["library/tests/check"] = [copy / "library/tests/check", program, prefix]
        return found

    def unchanged(self):
        self.whole = self.commands(copied(self.folder / "library", None))
        return self.whole

    def note_reached(self, test):
        """Each of these tests reaches the whole layer."""

    def equal(self, errors):
        return self.same & set(errors)

    def tried(self, errors):
        """Each test has run."""
        return {}

    def judge(self, error, seconds):
        if error in self.same:
            return EQUAL, ""
        copy = copied(self.folder, error)
        try:
            tests = [(it, command, self.whole[it]) for it, command in self.commands(copy).items() if it in seconds]
            by = noticed(tests, seconds)
        finally:
            shutil.rmtree(copy)
        return (NOTICED, by) if by else (UNNOTICED, "")


class Scripts:
    """The scripts at the top. Their tests are the parts of tests/scripts."""

    LEAST = 500

    def __init__(self, folder):
        self.folder, self.whole, self.parts, self.reached = folder, None, [], {}

    def errors(self, random):
        return shell.errors_of_scripts(random)

    def planted(self, errors):
        return [it for it in errors if shell.can_be_read(it)]

    def unchanged(self):
        self.whole = copied(self.folder / "scripts", None)
        parts = subprocess.run([TOP / SCRIPTS, "--parts"], stdout=subprocess.PIPE, text=True, check=True)
        names = at_least(LEAST_PARTS, parts.stdout.split(), "parts of " + SCRIPTS)
        self.parts = ["%s %s" % (SCRIPTS, it) for it in names]
        return {it: [self.whole / SCRIPTS, it.split()[1]] for it in self.parts}

    def note_reached(self, test):
        """Notes which scripts a part runs: all, if it fails while that is noted."""
        reached, copy = self.folder / ("reached-" + test.split()[1]), self.folder / ("copy-" + test.split()[1])
        reached.mkdir()
        copied(copy, None)
        for path in shell.SCRIPTS:
            script = copy / path
            head, _, rest = script.read_text().partition("\n")
            mode = script.stat().st_mode
            script.unlink()
            script.write_text('%s\n: >>"%s"\n%s' % (head, reached / path, rest))
            script.chmod(mode)
        if run([copy / SCRIPTS, test.split()[1]], LONGEST)[0] is None:
            self.reached[test] = {it.name for it in reached.iterdir()}
        shutil.rmtree(copy)

    def judge(self, error, seconds):
        copy = copied(self.folder, error)
        order = [it for it in self.parts if it in seconds]
        # a part that runs none of them reads all
        order = [it for it in order if error.path in (self.reached.get(it) or shell.SCRIPTS)]
        tests = [(it, [copy / SCRIPTS, it.split()[1]], [self.whole / SCRIPTS, it.split()[1]]) for it in order]
        try:
            by = noticed(tests, seconds)
        finally:
            shutil.rmtree(copy)
        return (NOTICED, by) if by else (UNNOTICED, "")

    def equal(self, errors):
        """No script is compiled."""
        return set()

    def tried(self, errors):
        """Each test has run."""
        return {}


def copied(folder, error):
    """A copy of the repository, of links, with an error or without one. An error has a folder of its own."""
    if error:
        folder = Path(tempfile.mkdtemp(dir=folder)) / "copy"
    shutil.copytree(TOP, folder, copy_function=os.link, ignore=shutil.ignore_patterns(".git", "out", "__pycache__"))
    if error:
        path = folder / error.path
        text, mode = error.planted_in(path.read_text()), path.stat().st_mode
        path.unlink()
        path.write_text(text)
        path.chmod(mode)
    return folder


def area_of(error):
    return "library" if error.path == layer.LAYER else "scripts" if error.path in shell.SCRIPTS else "program"


def reviewed():
    """The errors that are known to change nothing that a user can see: file, line, changed line, and the reason."""
    path = TOP / "tests/data/planted_equal.tsv"
    lines = path.read_text().splitlines() if path.exists() else []
    fields = [it.split("\t") for it in lines if it and not it.startswith("#")]
    at_least(LEAST_REVIEWED, fields, "errors of planted_equal.tsv")
    return {tuple(it[:3]): it[3] for it in fields}

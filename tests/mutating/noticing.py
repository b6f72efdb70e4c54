"""Runs tests on a program until one fails."""
import contextlib
import os
import re
import shutil
import signal
import subprocess
import threading
import time
from collections import Counter

from mutating.refusal import at_least
from mutating.sources import TOP

NO_RESULT = "no result"
# What differs between two runs: numbers, and the names of temporary files.
VARIES = r"/tmp/\S+|\d+"
# The last line of a test that passes.
PASSED = re.compile(r"[1-9]\d* passed, 0 failed\n")
# What tests that passed without an error have printed before that line, without what differs: it is no failure.
SAID = set()
# Lines of a test that are no failures.
LEFT_OUT = re.compile(r"\s*$|this machine|\S+ is not installed$|.*: skipped: |\d+ commands were skipped")
# A program that runs in a circle is ended long before its test gives it up. None needs so many processor seconds.
LIMIT = 'ulimit -t 120; exec "$@"'
# As root, each run has a network of its own, so that runs at once do not take each other's ports.
APART = 'ip link set lo up; '
# The seconds after which a test that has printed no result has failed, next to four times those that it usually takes.
LONGEST = 120
# Fewer errors of planted_errors.tsv do not name a test.
LEAST_FIRST = 250
# No test is given more seconds than these.
MOST = 10_000


def first_tests(path, top=TOP):
    """How often the planted errors of a file, and then of its crate, name a test as the first."""
    alike, crate = Counter(), Counter()
    lines = [it.split("\t") for it in (top / "tests/data/planted_errors.tsv").read_text().splitlines()]
    for fields in at_least(LEAST_FIRST, (it for it in lines if len(it) == 5), "planted errors with a test"):
        script = "tests/" + fields[4].split()[0]
        alike[script] += fields[0] == path
        crate[script] += fields[0].split("/")[:2] == path.split("/")[:2]
    return alike, crate


def in_order(tests, seconds, path):
    """The names of these tests, from the likeliest in each second to the least likely to notice an error of a file.
    `seconds` lacks those that are left out."""
    alike, crate = first_tests(path)

    def likely(name):
        script = tests[name].script
        return (alike[script] * 5 + crate[script] + 1) / (seconds[name] + 1)

    return sorted((it for it in tests if it in seconds), key=likely, reverse=True)


def limited():
    """The words before the command of a test."""
    if os.geteuid() == 0 and all(map(shutil.which, ("unshare", "ip"))):
        return ["unshare", "-n", "bash", "-c", APART + LIMIT, ""]
    return ["bash", "-c", LIMIT, ""]


def run(command, limit, environment=None, is_whole=False):
    """Runs a test up to the first failure that it prints. Returns the line, None if it passes, and the seconds. A whole
    run goes on to the end of the test: if that passes, what it printed is no failure from then on."""
    start = time.monotonic()
    test = subprocess.Popen(
        [*limited(), *command], cwd=TOP, text=True, errors="replace", process_group=0,
        stdin=subprocess.DEVNULL, stdout=subprocess.PIPE, stderr=subprocess.DEVNULL,
        env=dict(os.environ, PYTHONUNBUFFERED="1", PYTHONDONTWRITEBYTECODE="1", **environment or {}),
    )
    late = threading.Timer(limit, end, [test])
    late.start()
    try:
        lines = list(test.stdout) if is_whole else test.stdout
        if is_whole and lines and PASSED.fullmatch(lines[-1]):
            SAID.update(map(unvaried, lines[:-1]))
        line = next((it for it in lines if not LEFT_OUT.match(it) and unvaried(it) not in SAID), NO_RESULT + "\n")
        return None if PASSED.fullmatch(line) else line.rstrip("\n"), time.monotonic() - start
    finally:
        late.cancel()
        end(test)
        test.stdout.close()


def end(test):
    """Ends a test, and the devices that it may leave behind. tests/scripts ends what runs in other sessions itself."""
    with contextlib.suppress(ProcessLookupError):
        os.killpg(test.pid, signal.SIGTERM)
        with contextlib.suppress(subprocess.TimeoutExpired):
            test.wait(5)
        os.killpg(test.pid, signal.SIGKILL)
    test.wait()


def noticed(tests, seconds):
    """The first of these tests that notices an error, with what it printed, or None. It must fail twice with the error:
    with the same text, or else it must pass without the error. A test is its name, its command, and the command without
    the error. `seconds` are those that it takes then. On a busy machine a test may have no result without the error
    either: then it is given more time."""
    for name, command, unchanged in tests:
        limit, plain = LONGEST + 4 * seconds[name], NO_RESULT
        while plain == NO_RESULT and limit < MOST:
            line, took = run(command, limit)
            again = line and run(command, limit)[0]
            plain = again and not alike(line, again) and run(unchanged, limit)[0]
            if again and not plain:
                return "%s, %.0f s: %s" % (name, took, line[:160])
            limit *= 4
    return None


def unvaried(line):
    """A line without numbers and the names of temporary files."""
    return re.sub(VARIES, "", line)


def alike(line, other):
    """Whether two lines are the same, but for numbers and the names of temporary files."""
    return unvaried(line) == unvaried(other) and line != NO_RESULT

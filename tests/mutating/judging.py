"""Judges errors: whether a test notices each, and if none does, whether it changes anything."""
import time
from collections import Counter
from concurrent.futures import ThreadPoolExecutor

from mutating.areas import EQUAL, NOTICED, UNNOTICED, area_of, reviewed
from mutating.noticing import run
from mutating.refusal import refuse

# The seconds that a test may take without an error.
LONGEST = 3_600


def unchanged(areas, errors, jobs):
    """The seconds of each test without an error. A test that fails is left out. If two fail, or if there is no test,
    nothing is judged."""
    names, seconds, failing = {area_of(it) for it in errors}, {}, []
    tests = [(areas[name], *it) for name in names for it in areas[name].unchanged().items()]

    def measured(area, test, command):
        line, took = run(command, LONGEST, is_whole=True)
        if line is None:
            seconds[test] = took
            area.note_reached(test)
        else:
            failing.append(test)
        print("%s: %.0f s%s" % (test, took, line and ", left out, since it fails: " + line or ""), flush=True)

    with ThreadPoolExecutor(jobs) as pool:
        for done in [pool.submit(measured, *it) for it in tests]:
            done.result()
    if len(failing) > 1:
        refuse("these tests fail without an error: " + ", ".join(sorted(failing)))
    for name in names:
        if not any(area is areas[name] and test in seconds for area, test, _ in tests):
            refuse("there are no tests of the area %s" % name)
    return seconds


def judged(areas, error, seconds):
    """The verdict on an error, which is printed."""
    start, reason = time.monotonic(), reviewed().get((error.path, error.before, error.after))
    verdict, by = ("listed as equal", reason) if reason else areas[area_of(error)].judge(error, seconds)
    print("%s: %s%s (%.0f s)" % (error, verdict, by and ": " + by, time.monotonic() - start), flush=True)
    return verdict


def verdicts_on(areas, errors, jobs):
    """The verdict on each of these errors, which are planted."""
    start = time.monotonic()
    if not errors:
        refuse("no error can be planted")
    seconds = unchanged(areas, errors, jobs)
    print("all tests without an error: %.0f s" % (time.monotonic() - start), flush=True)
    with ThreadPoolExecutor(jobs) as pool:
        verdicts = dict(zip(errors, pool.map(lambda it: judged(areas, it, seconds), errors)))
    print("the tests of all errors: %.0f s" % (time.monotonic() - start), flush=True)
    for name, area in areas.items():
        unnoticed = [it for it in errors if verdicts[it] == UNNOTICED and area_of(it) == name]
        verdicts.update(dict.fromkeys(area.equal(unnoticed), EQUAL))
        tried = area.tried([it for it in unnoticed if verdicts[it] == UNNOTICED])
        verdicts.update(dict.fromkeys(tried, NOTICED))
        for error in unnoticed:
            print("%s %s%s" % (verdicts[error], error, tried.get(error) and ": " + tried[error] or ""), flush=True)
    return verdicts


def summary(name, verdicts):
    """How many of these were noticed, in percent. Those that are equal do not count."""
    counts = Counter(verdicts)
    tried = counts[NOTICED] + counts[UNNOTICED]
    rest = ["%d %s" % (count, it) for it, count in counts.items() if it not in (NOTICED, UNNOTICED)]
    percent = 100 * counts[NOTICED] / max(1, tried)
    return "%s: %.1f %% of %d noticed%s" % (name, percent, tried, "".join(", " + it for it in sorted(rest)))

"""Runs tests of the libraries, which a program contains: libraries.py PROGRAM NAME.. The last line is the sum."""
import re
import subprocess
import sys
import tempfile
from pathlib import Path

SOURCES = Path(__file__).resolve().parent.parent.parent / "crates/unproved_tests/src"


def names():
    """The tests, with their modules."""
    for path in sorted(SOURCES.rglob("*.rt")):
        module = "::".join(path.relative_to(SOURCES).with_suffix("").parts)
        for name in re.findall(r"^#\[test\]\n(?:#.*\n)*(?:pub )?fn (\w+)", path.read_text(), re.M):
            yield "%s::%s" % (module, name)


def fails(program, name):
    """What a test prints last if it fails, or else None."""
    with tempfile.TemporaryDirectory(prefix="libraries-") as folder:
        run = subprocess.run([program, name], cwd=folder, stdin=subprocess.DEVNULL, capture_output=True)
    last = (run.stderr or run.stdout).decode(errors="replace").strip().split("\n")[-1]
    return "%s: status %d, %s" % (name, run.returncode, last) if run.returncode else None


def main():
    program, failed = Path(sys.argv[1]).resolve(), 0
    for name in sys.argv[2:]:
        why = fails(program, name)
        if why:
            failed += 1
            print(why, flush=True)
    print("%d passed, %d failed" % (len(sys.argv) - 2 - failed, failed))
    return failed


if __name__ == "__main__":
    sys.exit(main())

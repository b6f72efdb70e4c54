"""The C layer in front of the proved calls, with an error in it: the library of an installed prefix, linked anew."""
import re
import shutil
import subprocess

from mutating.rules import errors_in, errors_in_value
from mutating.sources import TOP
from mutating.tokens import closing, tokens_of

LAYER = "library/enip.c"
EXPORTED = ("enip_adapter_*", "enip_endings_*", "enip_client_*", "enip_once_*", "enip_version", "enip_status_text")
SHARED = ["-Wl,--gc-sections", "-Wl,-z,defs"]
COMPILE = ["-std=c99", "-O2", "-fPIC", "-ffunction-sections", "-Ilibrary/include", "-c"]
# An error of which the compiler warns can't be planted: the tests compile the layer so.
STRICT = ["-Wall", "-Wextra", "-Wpedantic", "-Werror"]


def errors_of_layer(random):
    """The errors of each function and each constant of the layer."""
    text, found = (TOP / LAYER).read_text(), []
    tokens = tokens_of(re.sub(r"^#.*", lambda it: " " * len(it[0]), text, flags=re.M))
    at = 0
    while at < len(tokens):
        if tokens[at].text == "{":
            end = closing(tokens, at)
            if tokens[at - 1].text == ")":
                head = text[:tokens[at].start].rpartition("\n\n")[2]
                found += errors_in(LAYER, text, tokens[at].end, tokens[end].start, returned_in_c(head), random)
            elif tokens[at - 1].text == "enum":
                found += errors_in_value(LAYER, text, tokens[at].end, tokens[end].start, random)
            at = end
        at += 1
    for line in re.finditer(r"^#define \w+ (.*)$", text, re.M):
        found += errors_in_value(LAYER, text, line.start(1), line.end(1), random)
    return found


def returned_in_c(head):
    """What a function with this head can return too early."""
    result = re.sub(r"/\*.*?\*/", "", head, flags=re.S).split("(")[0]
    if "*" in result:
        return ["NULL"]
    return [""] if re.search(r"\bvoid\b", result) else ["0"]


def ran(*command):
    """Whether a command succeeds, and its output."""
    streams = {"stdin": subprocess.DEVNULL, "stdout": subprocess.PIPE, "stderr": subprocess.DEVNULL}
    done = subprocess.run([str(it) for it in command], cwd=TOP, text=True, **streams)
    return done.returncode == 0, done.stdout


def names(file, *options):
    """The names that an object file defines."""
    return {line.split()[-1] for line in ran("nm", "--defined-only", *options, file)[1].splitlines() if line.strip()}


class Layer:
    """The layer, and an installed library with the proved calls behind it."""

    def __init__(self, folder, prefix):
        self.folder, self.prefix, self.text = folder, prefix, (TOP / LAYER).read_text()
        folder.mkdir()
        self.unchanged = self.compiled(self.text)
        if prefix:
            self.take_calls()

    def take_calls(self):
        """Takes the proved calls out of the installed library, without the layer."""
        folder = self.folder
        ran("ar", "x", self.prefix / "lib/libenip.a", "--output", folder)
        whole = folder / "enip.o"
        renamed = ["--redefine-sym=%s=replaced_%s" % (it, it) for it in names(whole, "--extern-only")]
        shown = ["--globalize-symbol=%s" % it for it in names(whole) if it.startswith("enip_core_")]
        ran("objcopy", *renamed, *shown, whole, folder / "calls.o")
        ran("objcopy", "--wildcard", "--localize-symbol=replaced_*", folder / "calls.o")

    def compiled(self, text):
        """The object of a layer, or None if it can't be compiled."""
        source, made = self.folder / "layer.c", self.folder / "layer.o"
        source.write_text(text)
        holds, _ = ran("cc", *COMPILE, *STRICT, source, "-o", made)
        return made.read_bytes() if holds else None

    def state(self, error):
        """Whether an error can be planted, and whether the layer with it is compiled to the same bytes."""
        compiled = self.compiled(error.planted_in(self.text))
        return compiled is not None, compiled == self.unchanged

    def installed(self, text, at):
        """Installs the library with a layer in a prefix."""
        shutil.copytree(self.prefix, at, symlinks=True)
        version = re.search(r'ENIP_VERSION "(.*)"', (TOP / "library/include/enip.h").read_text())[1]
        source, made, whole, archive = at / "layer.c", at / "layer.o", at / "enip.o", at / "lib/libenip.a"
        source.write_text(text)
        archive.unlink()
        shared = ["-Wl,-soname,libenip.so.%s" % version.split(".")[0], "-Wl,--version-script=library/enip.map"]
        for command in (
            ["cc", *COMPILE, source, "-o", made],
            ["ld", "-r", "-o", whole, made, self.folder / "calls.o"],
            ["objcopy", "--wildcard", *("--keep-global-symbol=" + it for it in EXPORTED), whole],
            ["ar", "rcs", archive, whole],
            ["cc", "-shared", *shared, *SHARED, "-o", at / "lib" / ("libenip.so." + version), whole],
        ):
            if not ran(*command)[0]:
                raise SystemExit("the library was not linked: %s" % " ".join(map(str, command)))
        described = at / "lib/pkgconfig/enip.pc"
        described.write_text(re.sub(r"^prefix=.*", "prefix=%s" % at, described.read_text(), flags=re.M))
        for path in (source, made, whole):
            path.unlink()
        return at

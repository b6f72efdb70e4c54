"""A device that keeps its state, for tests/restart: it is started, killed and asked, and its files are compared."""
import atexit
import contextlib
import itertools
import os
import re
import shutil
import socket
import struct
import subprocess
import sys
import tempfile
import threading
from pathlib import Path

from slow_start import is_slow
from wire_frames import REGISTER, frame, unconnected

TESTS = Path(__file__).resolve().parent.parent
PROGRAM = os.path.abspath(sys.argv[1])
DEMO = (TESTS.parent / "demo.toml").read_text().replace("limit = 100", "limit = 4000000000")
LEDGER = "[ledger]\noriginators = 16\n"
OBJECT = """
[[object]]
class = 768
instance = 1

[[object.attribute]]
number = 1
type = "UINT"
value = 5
settable = true

[[object.attribute]]
number = 2
type = "UINT[3]"
value = [1, 2, 3]
settable = true
"""
CONFIG = "peers = 16\n" + DEMO + LEDGER + OBJECT
# Service 50 of the counter adds to it. (docs/PROTOCOL.md, "Objects".)
ADDEND = 7
ADD = ["50", "100", "1", "07000000"]
# How long a start may take on a busy machine, in seconds.
LONGEST = 60
good = bad = 0
# Whether the script was told to end, so that what fails from then on says nothing.
is_over = False
counting = threading.Lock()
running = set()
# Numbers for the loopback addresses of the devices.
numbers = itertools.count(1)


def kill_all():
    """Kills all devices that still run."""
    for process in list(running):
        process.kill()


atexit.register(kill_all)


def expect(name, got, want):
    global good, bad
    with counting:
        if is_over:
            return
        if got == want:
            good += 1
        else:
            bad += 1
            print("%s:\n  got    %.900r\n  wanted %.900r" % (name, got, want), flush=True)


def run(*arguments, timeout=LONGEST, **options):
    """The exit status of the program, its output and its errors."""
    words = [it if isinstance(it, bytes) else str(it) for it in arguments]
    done = subprocess.run([PROGRAM, *words], capture_output=True, text=True, timeout=timeout, **options)
    return done.returncode, done.stdout, done.stderr


class Peer:
    """A client with a session."""

    def __init__(self, device):
        self.stream = socket.create_connection((device.host, device.port), timeout=LONGEST)
        self.session = struct.unpack_from("<I", self.ask(frame(0x65, 0, REGISTER)), 4)[0]

    def ask(self, sent):
        """The answer to a frame. An end before it is an error."""
        self.stream.sendall(sent)
        answer = self.exactly(24)
        return answer + self.exactly(struct.unpack_from("<H", answer, 2)[0])

    def exactly(self, size):
        text = b""
        while len(text) < size:
            more = self.stream.recv(size - len(text))
            if not more:
                raise ConnectionError("the device has left")
            text += more
        return text

    def request(self, service, name, data=b""):
        """The status and the data of the reply to a request of an object, or of an attribute of it."""
        path = b"".join(struct.pack("<BBH", code, 0, number) for code, number in zip((0x21, 0x25, 0x31), name))
        reply = self.ask(unconnected(self.session, bytes([service, len(path) // 2]) + path + data))[40:]
        return reply[2], reply[4:]

    def get(self, *name):
        return self.request(0x0E, name)[1]

    def set(self, *name, data):
        return self.request(0x10, name, data)[0]

    def add(self):
        """Adds to the counter. Returns the sum."""
        status, data = self.request(50, (100, 1), struct.pack("<I", ADDEND))
        return int.from_bytes(data, "little") if status == 0 else None

    def close(self):
        self.stream.close()


class Device:
    """`enip serve --keep`, which can be killed and started again at its address and port. No other program of this machine
    takes them meanwhile, since each device has a loopback address of its own."""

    def __init__(self, folder, config=CONFIG):
        self.folder, self.environment = Path(folder), {}
        self.config, self.file = self.folder / "device.toml", self.folder / "state"
        # other test runs at the same time hardly have the same first number
        self.host, self.port = "127.%d.%d.%d" % (1 + os.getpid() % 254, *divmod(next(numbers), 256)), 0
        self.process, self.errors, self.listens = None, [], False
        # whether `errors` has how long the parts of a slow start took
        self.tells_slow = False
        self.configure(config)

    def configure(self, config):
        self.config.write_text(config)

    def start(self, *options, prefix=(), program=PROGRAM, **more):
        """Starts it. Returns the lines that it prints before it listens, or all if it does not."""
        command = [*prefix, program, "serve", self.config, self.at, "--keep", self.file, *options]
        environment = {**os.environ, **self.environment}
        self.errors, self.listens = [], False
        self.process = subprocess.Popen(list(map(str, command)), stderr=subprocess.PIPE, text=True, env=environment, **more)
        running.add(self.process)
        patience = threading.Timer(LONGEST, self.process.kill)
        patience.start()
        for line in self.process.stderr:
            if line.startswith("listening on "):
                self.port, self.listens = int(line.rsplit(":", 1)[1]), True
                break
            if self.tells_slow or not is_slow(line):
                self.errors.append(line)
        patience.cancel()
        return self.errors

    @property
    def at(self):
        return "%s:%d" % (self.host, self.port)

    def kill(self):
        self.process.kill()
        return self.ended()

    def ended(self):
        """The exit status, once the process has ended. What it printed is in `errors`."""
        status = self.process.wait(LONGEST)
        if not self.process.stderr.closed:
            self.errors += self.process.stderr.readlines()
            self.process.stderr.close()
        running.discard(self.process)
        return status

    def restart(self, *options):
        self.kill()
        return self.start(*options)

    def get(self, *name):
        with contextlib.closing(Peer(self)) as peer:
            return peer.get(*name)

    def counter(self):
        return int.from_bytes(self.get(100, 1, 1), "little")

    def values(self):
        """The values that are kept: an assembly, the counter, the object, the life and how many slots are taken."""
        with contextlib.closing(Peer(self)) as peer:
            return {name: peer.get(*name).hex() for name in NAMES}

    def files(self):
        """The bytes of FILE and of the files next to it, by their names."""
        return {path.name: path.read_bytes() for path in self.folder.glob("state*") if path.is_file()}

    def put(self, files):
        """Replaces FILE and the files next to it."""
        for path in self.folder.glob("state*"):
            path.unlink()
        for name, content in files.items():
            (self.folder / name).write_bytes(content)

    def __enter__(self):
        return self

    def __exit__(self, *_):
        if self.process is not None and self.process.poll() is None:
            self.kill()


NAMES = [(4, 100, 3), (100, 1, 1), (768, 1, 1), (768, 1, 2), (101, 1, 3), (101, 1, 2)]


@contextlib.contextmanager
def device_in_folder(config=CONFIG, top=None):
    """A device that has a new folder to itself."""
    with tempfile.TemporaryDirectory(prefix="restart-", dir=top) as folder, Device(folder, config) as device:
        yield device


@contextlib.contextmanager
def started(config=CONFIG, top=None):
    """The same, started for the first time."""
    with device_in_folder(config, top) as device:
        expect("the first start prints nothing before it listens", device.start(), [])
        yield device


def sqlite3(file, statement):
    """What sqlite3 prints of a database."""
    done = subprocess.run(["sqlite3", str(file), statement], capture_output=True, text=True, timeout=LONGEST)
    return done.stdout.strip() + done.stderr.strip()


def last_round(content):
    """The number of the last round in the bytes of FILE.round. Each line has it twice."""
    return max(int(number) for number in re.findall(rb"\d{20}", content))


def dump(file):
    """The content of a database, read from a copy, since sqlite3 changes the files that it reads."""
    with tempfile.TemporaryDirectory() as folder:
        for suffix in ("", "-wal"):
            if Path(str(file) + suffix).exists():
                shutil.copy(str(file) + suffix, os.path.join(folder, "copy" + suffix))
        return sqlite3(os.path.join(folder, "copy"), ".dump")


def rewrite(file, statement):
    """Writes a database, which no device uses, again from its content, changed by a statement of SQL, with the checksum of
    all rows (docs/STATE.md, "The file of `--keep`"). Returns what sqlite3 prints, which is nothing."""
    content = dump(file)
    for suffix in ("", "-wal"):
        Path(str(file) + suffix).unlink(missing_ok=True)
    said = [sqlite3(file, content), sqlite3(file, statement)]
    values = rows_of(file)
    number = values.pop(0)[:8]
    total = 0xCBF29CE484222325
    for byte in number + b"".join(struct.pack("<QQ", key, len(value)) + value for key, value in sorted(values.items())):
        total = (total ^ byte) * 0x100000001B3 % 2**64
    first = (number + struct.pack("<Q", total)).hex()
    return "".join([*said, sqlite3(file, "UPDATE kept SET value = x'%s' WHERE key = 0" % first)])


def rows_of(file):
    """The rows of a database, by their keys."""
    rows = re.findall(r"INSERT INTO \"?kept\"? VALUES ?\((\d+),X'(\w*)'\);", dump(file))
    return {int(key): bytes.fromhex(value) for key, value in rows}

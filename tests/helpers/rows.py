"""For scripts whose tests are runs of the program: many at once, each compared with what it must print."""
import concurrent.futures
import contextlib
import os
import socket
import struct
import subprocess
import sys
import tempfile
import threading

from slow_start import is_slow

# How many runs there are at once. Each takes little, and some wait.
WORKERS = 8
# By how many seconds an event may be late, on a busy machine.
LATE = 10.0


class Sum:
    """Counts what holds and what does not, from several threads."""

    def __init__(self):
        self.good, self.bad, self.lock = 0, 0, threading.Lock()

    def expect(self, name, got, want):
        with self.lock:
            if got == want:
                self.good += 1
            else:
                self.bad += 1
                print("%s:\n  got    %.600r\n  wanted %.600r" % (name, got, want), flush=True)

    def run_parts(self, parts, names):
        """Runs the parts, or those with these names. Ends the script with the sum."""
        for part in parts:
            if not names or part.__name__ in names:
                try:
                    part()
                except (OSError, ValueError, LookupError, subprocess.TimeoutExpired) as error:
                    self.expect(part.__name__ + " ran to its end", repr(error), "no error")
        print("%d passed, %d failed" % (self.good, self.bad))
        sys.exit(1 if self.bad else 0)


def at_once(function, rows):
    """Calls the function with the fields of each row, several rows at once."""
    with concurrent.futures.ThreadPoolExecutor(WORKERS) as pool:
        for done in [pool.submit(function, *row) for row in rows]:
            done.result()


def failure(reason, code):
    """Standard error of a command that fails: the reason, and the line for scripts."""
    return "enip: %s\n%s\n" % (reason, code)


def run(program, arguments, text="", timeout=60, **streams):
    """The exit status of the program, its output and its errors. Bytes that are not UTF-8 become surrogates."""
    streams = {"stdout": subprocess.PIPE, "stderr": subprocess.PIPE, **streams}
    given = {} if "stdin" in streams else {"input": text}
    try:
        done = subprocess.run(
            [program, *arguments], timeout=timeout, encoding="utf-8", errors="surrogateescape", **given, **streams
        )
    except subprocess.TimeoutExpired:
        return "it still runs", "", ""
    return done.returncode, done.stdout, done.stderr


def exactly(peer, size):
    """Reads `size` bytes. An end before that is an error."""
    text = b""
    while len(text) < size:
        more = peer.recv(size - len(text))
        if not more:
            raise ConnectionError("the stream ended")
        text += more
    return text


class Device(threading.Thread):
    """A device that registers sessions and answers each request that follows from a list: with a reply of the message
    router, or with None to leave. Each connection is a row of `requests`, in order."""

    def __init__(self, replies, host="127.0.0.1", port=0):
        super().__init__(daemon=True)
        family = socket.AF_INET6 if ":" in host else socket.AF_INET
        self.listener = socket.create_server((host, port), family=family)
        self.port = self.listener.getsockname()[1]
        self.at = ("[%s]:%d" if ":" in host else "%s:%d") % (host, self.port)
        self.replies, self.requests = list(replies), []
        self.start()

    def run(self):
        with contextlib.suppress(OSError):
            while True:
                peer, _ = self.listener.accept()
                peer.settimeout(60)
                self.requests.append([])
                with peer, contextlib.suppress(OSError):
                    self.answer(peer)

    def answer(self, peer):
        while True:
            header = exactly(peer, 24)
            command, length = struct.unpack("<HH", header[:4])
            body = exactly(peer, length)
            if command == 0x65:
                peer.sendall(header[:4] + struct.pack("<I", 7) + header[8:] + body)
            elif command == 0x6F:
                self.requests[-1].append(body[16:])
                reply = self.replies.pop(0) if self.replies else None
                if reply is None:
                    return
                data = bytes(6) + struct.pack("<HHHHH", 2, 0, 0, 0xB2, len(reply)) + reply
                peer.sendall(struct.pack("<HHII", 0x6F, len(data), 7, 0) + header[12:20] + bytes(4) + data)
            else:
                return

    def __enter__(self):
        return self

    def __exit__(self, *_):
        self.listener.shutdown(socket.SHUT_RDWR)
        self.listener.close()
        self.join(LATE)


class Server:
    """`enip serve` with a configuration and options, until the end of the block."""

    def __init__(self, program, config, *options, address="127.0.0.1:0", **streams):
        self.process = subprocess.Popen(
            [program, "serve", config, address, *options], stderr=subprocess.PIPE, text=True, **streams
        )
        self.line, self.reports = self.process.stderr.readline(), []
        # what it says of its state comes first
        while self.line.startswith("enip: "):
            if not is_slow(self.line):
                self.reports.append(self.line)
            self.line = self.process.stderr.readline()
        self.at = self.line.rsplit(" ", 1)[-1].strip()
        self.port = int(self.line.rsplit(":", 1)[1])

    def ended(self, timeout=60):
        """The exit status of a device that ends by itself, and the rest of its standard error."""
        try:
            self.process.wait(timeout)
        except subprocess.TimeoutExpired:
            return "it still runs", ""
        return self.process.returncode, self.process.stderr.read()

    def descriptors(self):
        """The number of its open descriptors."""
        return len(os.listdir("/proc/%d/fd" % self.process.pid))

    def __enter__(self):
        return self

    def __exit__(self, *_):
        self.process.kill()
        self.process.wait()
        self.process.stderr.close()


@contextlib.contextmanager
def folder():
    """A new folder, with the demo's configuration in it."""
    top = os.path.join(os.path.dirname(os.path.abspath(__file__)), "../..")
    with tempfile.TemporaryDirectory() as path, open(os.path.join(top, "demo.toml")) as demo:
        with open(os.path.join(path, "demo.toml"), "w") as copy:
            copy.write(demo.read())
        yield path


class Calls:
    """The preloaded library of calls.c: the environment of a run in which these rules apply, and its log."""

    def __init__(self, folder):
        self.folder, self.library, self.number = folder, os.path.join(folder, "calls.so"), 0
        source = os.path.join(os.path.dirname(os.path.abspath(__file__)), "calls.c")
        subprocess.run(["cc", "-shared", "-fPIC", "-O1", "-o", self.library, source, "-ldl"], check=True)
        self.lock = threading.Lock()

    def environment(self, rules=""):
        """The environment, and the path of the log."""
        with self.lock:
            self.number += 1
            path = os.path.join(self.folder, "log%d" % self.number)
        return dict(os.environ, LD_PRELOAD=self.library, RULES=rules, CALLS_LOG=path), path

    def run(self, program, arguments, rules="", text=""):
        """A run with these rules: what `run` returns, and the lines of the log."""
        environment, path = self.environment(rules)
        got = run(program, arguments, text, env=environment)
        with open(path) as log:
            return got, log.read().splitlines()

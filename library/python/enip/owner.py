"""The journal of an owner, a program behind `enip serve --owner`: each command moves the machine once, whenever the
owner or the device is killed. Python 3.8 or later, Linux. This file needs neither libenip nor the rest of the package.

    journal = Journal("belt.journal", settle)
    with socket.create_connection(("127.0.0.1", 44900)) as stream:
        journal.connect(stream.sendall)
        for line in stream.makefile("rb"):
            message = journal.receive(line)
            if "command" in message:
                command = message["command"]
                journal.begin(command, where_it_leads(command))
                journal.done(command, 0, move(command))

A command is handed over to each new session of the owner until the device has stored its `done`. So the journal notes
that a command began before the machine moves, and its reply before `done` is sent, both on the disk. It keeps them
until the device's `ok`. A command that comes again with a reply gets the same reply, and `receive` returns nothing to
do.

A command that began and has no reply is in doubt: the program was killed while it executed the command. The journal
calls `settle(command, note)` of the program with what `begin` noted. It looks at the machine, and returns the status
and the data of the reply; or None if the machine did not move, and the command is then to be executed. If it cannot
know, it raises an exception: nothing was sent, and the command stays in doubt.

Each line to the device goes through `done` or `send`, because the device numbers the lines that it answers. Only the
token (`--owner-token`) is sent before `connect`.

The file belongs to one device, and to one process at a time. It must not be lost: without it, what began is not known.
Call a journal from one thread at a time.
"""

from __future__ import annotations

import binascii
import fcntl
import json
import os
import re
import stat
from types import TracebackType
from typing import Any, Callable, Dict, NamedTuple, Optional, Tuple, Type, Union

__all__ = ["Command", "Journal", "JournalError", "Settle"]

_FIRST = "enip owner 1\n"
_NUMBER = r"(0|[1-9]\d{0,19})"
_HEX = r"(-|(?:[0-9a-f]{2})+)"
_HEAD = re.compile(r"enip owner 1\ndevice %s %s %s\nlife %s\n" % (4 * (_NUMBER,)))
_ENTRY = re.compile(r"([1-9]\d{0,9}) (?:begun %s|done %s (0|[1-9]\d{0,2}) %s)\n" % (3 * (_HEX,)))
_SUM = re.compile(r"sum ([0-9a-f]{8})\n")
_SUM_SIZE = len("sum 01234567\n")
# A note and the data of a reply have at most this many bytes.
_NOTE_LIMIT, _REPLY_LIMIT = 128, 476
# The device alone decides that a reply is too large.
_REPLY_TOO_LARGE = 0x11
_LONGEST_FILE = 1 << 20
# The greatest values of a USINT, a UDINT and a ULINT.
_USINT, _UDINT, _ULINT = 255, (1 << 32) - 1, (1 << 64) - 1


class JournalError(Exception):
    """The journal refuses a call, and nothing has changed. The text is the reason."""


class Command(NamedTuple):
    """A queued command."""

    #: The life of the device's command ledger, in which the ticket is given once.
    life: int
    ticket: int
    class_id: int
    instance: int
    service: int
    data: bytes
    #: Whether it was handed over in an earlier session.
    again: bool


#: Settles a command in doubt, by its note: the status and the data of its reply, or None if the machine did not move.
Settle = Callable[[Command, bytes], Optional[Tuple[int, bytes]]]


class _Entry(NamedTuple):
    """A command that began: its note and, once it is done, its reply."""

    note: bytes
    reply: Optional[Tuple[int, bytes]]
    #: Whether this program has it in hand, so that it is not in doubt.
    is_here: bool


class _Notes:
    """What is in the file: the device, its life, and the commands that began by their tickets."""

    def __init__(self, device: Tuple[int, ...] = (), life: int = 0) -> None:
        self.device, self.life = device, life
        self.entries: Dict[int, _Entry] = {}

    def text(self) -> bytes:
        """The file with these notes. Its last line is the CRC-32 of the lines above."""
        text = _FIRST + "device %d %d %d\nlife %d\n" % (*self.device, self.life)
        for ticket, entry in sorted(self.entries.items()):
            note = entry.note.hex() or "-"
            if entry.reply is None:
                text += "%d begun %s\n" % (ticket, note)
            else:
                text += "%d done %s %d %s\n" % (ticket, note, entry.reply[0], entry.reply[1].hex() or "-")
        return text.encode() + b"sum %08x\n" % binascii.crc32(text.encode())


def _bytes_of(digits: str) -> bytes:
    return b"" if digits == "-" else bytes.fromhex(digits)


def _notes_of(text: bytes) -> Optional[_Notes]:
    """The notes of a file, or None if it is damaged."""
    body = text[:-_SUM_SIZE].decode("latin-1")
    found, head = _SUM.fullmatch(text[-_SUM_SIZE:].decode("latin-1")), _HEAD.match(body)
    if found is None or head is None or int(found[1], 16) != binascii.crc32(text[:-_SUM_SIZE]):
        return None
    vendor, product_code, serial, life = (int(number) for number in head.groups())
    if max(vendor, product_code, serial) > _UDINT or life > _ULINT:
        return None
    notes, at, last = _Notes((vendor, product_code, serial), life), head.end(), 0
    while at < len(body):
        line = _ENTRY.match(body, at)
        if line is None or not last < int(line[1]) <= _UDINT:
            return None
        last, at = int(line[1]), line.end()
        note, reply = _bytes_of(line[2] or line[3]), None if line[3] is None else (int(line[4]), _bytes_of(line[5]))
        if len(note) > _NOTE_LIMIT or (reply is not None and (reply[0] > 255 or len(reply[1]) > _REPLY_LIMIT)):
            return None
        notes.entries[last] = _Entry(note, reply, False)
    return notes


def _read(path: str) -> Optional[_Notes]:
    """The notes of a journal, or None if there is no file."""
    try:
        if not stat.S_ISREG(os.lstat(path).st_mode):
            raise JournalError(path + ": not a regular file")
    except FileNotFoundError:
        return None
    with open(path, "rb") as file:
        text = file.read(_LONGEST_FILE + 1)
    if not text.startswith(_FIRST.encode()):
        raise JournalError(path + ": not the journal of an owner")
    notes = _notes_of(text)
    if notes is None:
        raise JournalError(path + ": damaged")
    return notes


def _number(message: Any, key: str, limit: int = _UDINT) -> int:
    value = message.get(key) if isinstance(message, dict) else None
    if not isinstance(value, int) or isinstance(value, bool) or not 0 <= value <= limit:
        raise JournalError("not a line of the device: %s is not such a number" % key)
    return value


class Journal:
    """The commands of an owner, in a file: the context manager closes it.

    A `JournalError` of the constructor is `FILE: not a regular file`, `FILE: not the journal of an owner`, `FILE:
    damaged` or `FILE: another process uses it`. FILE is created when the first command begins, with FILE.new next to it
    while it is written. FILE.lock stays.
    """

    def __init__(self, file: str, settle: Settle) -> None:
        self._path, self._settle = os.path.abspath(file), settle
        self._send: Optional[Callable[[bytes], object]] = None
        # of the session: whether `hello` came, the number of the last line, the last ticket that was handed over, and
        # the commands by the numbers of their `done` lines
        self._is_open, self._lines, self._last = False, 0, 0
        self._sent: Dict[int, Command] = {}
        _read(self._path)
        self._lock = self._locked()
        try:
            self._notes = _read(self._path) or _Notes()
        except BaseException:
            self.close()
            raise

    def __enter__(self) -> Journal:
        return self

    def __exit__(
        self, kind: Optional[Type[BaseException]], error: Optional[BaseException], trace: Optional[TracebackType]
    ) -> None:
        self.close()

    def close(self) -> None:
        """Lets another process use the file."""
        if self._lock >= 0:
            os.close(self._lock)
        self._lock = -1

    def connect(self, send: Callable[[bytes], object]) -> None:
        """A connection to the device begins. `send` sends bytes to it; what `send` raises goes to the caller of `done`,
        `send` or `receive`, and the reply is noted then."""
        self._send, self._is_open, self._lines, self._last, self._sent = send, False, 0, 0, {}

    def receive(self, line: Union[str, bytes]) -> Dict[str, Any]:
        """Takes a line of the device. Returns what the program has to look at: the object of the line, with a `Command`
        in place of that of `command`; or `{}` if the journal has answered the command, or if the program has it in
        hand.

        If the device refused the reply of a command, the line `error` has one key more, `refused`, with the `Command`.
        Call `done` with another reply, unless the text is `no such command: ticket N`.

        Raises a `JournalError` if the file is the journal of another device, if the device has no command ledger, or if
        this is not a line of the device.
        """
        try:
            message = json.loads(line)
        except ValueError as error:
            raise JournalError("not a line of the device: not JSON") from error
        if not isinstance(message, dict):
            raise JournalError("not a line of the device: not an object")
        if "hello" in message:
            self._begin_session(message["hello"])
        elif "command" in message:
            return self._hand(message["command"])
        elif "ok" in message:
            command = self._sent.pop(_number(message, "ok", _ULINT), None)
            if command is not None:
                self._notes.entries.pop(command.ticket, None)
        elif "error" in message:
            return self._refused(message)
        return message

    def begin(self, command: Command, note: bytes = b"") -> None:
        """Notes that a command begins. Move the machine only when this has returned. `note` is what `settle` needs, at
        most 128 bytes: for example where the machine will be.

        Raises a `JournalError` if the command has begun before, so that it must not be executed once more, or is of an
        earlier life of the device.
        """
        if len(note) > _NOTE_LIMIT:
            raise ValueError("a note has at most %d bytes" % _NOTE_LIMIT)
        self._is_of_this_life(command)
        before = self._notes.entries.get(command.ticket)
        if before is not None and (before.is_here or before.reply is not None):
            raise JournalError("command %d has begun before" % command.ticket)
        self._put(command.ticket, _Entry(bytes(note), None, True))

    def done(self, command: Command, status: int = 0, data: bytes = b"") -> None:
        """Notes the reply of a command that has begun, and then sends it. If the command was not handed over in this
        session, it is sent when it is handed over again.

        Raises a `JournalError` if the command did not begin, has a reply, or is of an earlier life of the device.
        """
        self._is_of_this_life(command)
        entry = self._notes.entries.get(command.ticket)
        if entry is None or not entry.is_here:
            raise JournalError("command %d did not begin" % command.ticket)
        if entry.reply is not None:
            raise JournalError("command %d has a reply" % command.ticket)
        self._answer(command, entry, status, data)

    def send(self, message: Dict[str, Any]) -> int:
        """Sends another line to the device: `write`, `read`, `answer`, `status` or `state`. Returns its number, which
        the device's `ok` or `error` has."""
        if "done" in message:
            raise ValueError("done is sent by the function done")
        return self._send_line(message)

    # ---- the session ----

    def _begin_session(self, hello: Any) -> None:
        device = tuple(_number(hello, key) for key in ("vendor", "product_code", "serial"))
        if "life" not in hello:
            raise JournalError("the device has no command ledger: one start of it is like another")
        life = _number(hello, "life", _ULINT)
        if self._notes.device not in ((), device):
            raise JournalError(
                "%s: the journal of another device (vendor %d, product code %d, serial %d)"
                % (self._path, *self._notes.device)
            )
        if self._notes.device == () or self._notes.life != life:
            self._notes = _Notes(device, life)
        self._is_open = True

    def _hand(self, it: Any) -> Dict[str, Any]:
        """A command is handed over."""
        if not self._is_open:
            raise JournalError("not a line of the device: a command before hello")
        ticket, class_id, instance = (_number(it, key) for key in ("ticket", "class", "instance"))
        service = _number(it, "service", _USINT)
        try:
            command = Command(
                self._notes.life, ticket, class_id, instance, service, bytes.fromhex(it["data"]), it["again"] is True
            )
        except (KeyError, TypeError, ValueError) as error:
            raise JournalError("not a line of the device: no data, or no again") from error
        self._forget_before(ticket)
        self._last = ticket
        entry = self._notes.entries.get(ticket)
        if entry is not None and entry.reply is None and not entry.is_here:
            reply = self._settle(command, entry.note)
            if reply is not None:
                self._answer(command, entry, *reply)
                return {}
            return {"command": command}
        if entry is not None and entry.reply is not None:
            self._send_done(command, entry.reply)
        return {"command": command} if entry is None else {}

    def _forget_before(self, ticket: int) -> None:
        """Commands are handed over in the order of their tickets. So one between the last one and this is done at the
        device, and its `ok` was lost."""
        entries = self._notes.entries
        for other in [it for it in entries if self._last < it < ticket]:
            if entries[other].reply is not None or not entries[other].is_here:
                del entries[other]

    def _refused(self, message: Dict[str, Any]) -> Dict[str, Any]:
        """A line was refused. If it is a `done`, the command waits for another one, unless the device has no such
        command."""
        command, entries = self._sent.pop(_number(message, "error", _ULINT), None), self._notes.entries
        if command is None:
            return message
        if str(message.get("text")).startswith("no such command"):
            entries.pop(command.ticket, None)
        elif command.ticket in entries:
            entries[command.ticket] = entries[command.ticket]._replace(reply=None, is_here=True)
        return {**message, "refused": command}

    def _is_of_this_life(self, command: Command) -> None:
        if self._notes.device == () or command.life != self._notes.life:
            raise JournalError("command %d is of another life of the device" % command.ticket)

    def _answer(self, command: Command, entry: _Entry, status: int, data: bytes) -> None:
        """Notes a reply, and sends it if the command was handed over in this session."""
        if not 0 <= status <= 255 or status == _REPLY_TOO_LARGE:
            raise ValueError("status %d is not allowed" % status)
        if len(data) > _REPLY_LIMIT:
            raise ValueError("a reply has at most %d bytes" % _REPLY_LIMIT)
        reply = status, bytes(data)
        self._put(command.ticket, entry._replace(reply=reply))
        if command.ticket <= self._last:
            self._send_done(command, reply)

    def _send_done(self, command: Command, reply: Tuple[int, bytes]) -> None:
        done = {"ticket": command.ticket, "status": reply[0], "data": reply[1].hex()}
        self._sent[self._send_line({"done": done})] = command

    def _send_line(self, message: Dict[str, Any]) -> int:
        if self._send is None:
            raise JournalError("there is no connection")
        line = json.dumps(message, separators=(",", ":")).encode() + b"\n"
        self._lines += 1
        self._send(line)
        return self._lines

    # ---- the file ----

    def _locked(self) -> int:
        """FILE.lock, as long as this process uses FILE."""
        lock = os.open(self._path + ".lock", os.O_RDWR | os.O_CREAT, 0o666)
        try:
            fcntl.flock(lock, fcntl.LOCK_EX | fcntl.LOCK_NB)
        except OSError as error:
            os.close(lock)
            if isinstance(error, BlockingIOError):
                raise JournalError(self._path + ": another process uses it") from None
            raise
        return lock

    def _put(self, ticket: int, entry: _Entry) -> None:
        """Notes an entry: on return it is on the disk. If that fails, nothing is noted."""
        before = self._notes.entries.get(ticket)
        self._notes.entries[ticket] = entry
        try:
            self._store()
        except BaseException:
            if before is None:
                del self._notes.entries[ticket]
            else:
                self._notes.entries[ticket] = before
            raise

    def _store(self) -> None:
        """Writes a new file, which takes the place of the old one. On return it is on the disk."""
        new = self._path + ".new"
        if os.path.lexists(new):
            os.unlink(new)
        with open(new, "xb") as file:
            file.write(self._notes.text())
            file.flush()
            os.fsync(file.fileno())
        os.replace(new, self._path)
        folder = os.open(os.path.dirname(self._path), os.O_RDONLY)
        try:
            os.fsync(folder)
        finally:
            os.close(folder)

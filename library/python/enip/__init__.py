"""An EtherNet/IP adapter and client over libenip. Python 3.8 or later, Linux.

A client reads and sets attributes of a device, over TCP:

    from enip import Client
    with Client("127.0.0.1") as client:
        print(client.get(1, 1, 7, "SHORT_STRING"))
        client.set(4, 100, 3, bytes([1, 2, 3, 4]))

If no reply comes, a call raises `EnipTimeout`, and the client can be used again. The request was then executed once or
not at all. A request on the connection (`submit`, `set`) is sent again before that; a device with this project's
adapter still executes it only once.

`Commander` is for a device with a command ledger. It connects for each command, and again until the device answers. The
command is executed once, even if connections break or this program is killed:

    from enip import Commander
    with Commander("127.0.0.1", "file") as commander:
        print(commander.command(request(50, 100, 1, data=encode("UDINT", 5))))

`Adapter` is a device, `Originator` a client and `Once` the originator's end of numbered commands, all without sockets
and without a clock: you pass bytes and times in and get bytes back. Each wraps an object of enip.h. They and the others
are context managers, which free what they hold.

`encode` and `decode` convert the standard's elementary types, and `request` and `path` write requests.

The environment variable LIBENIP names the library's file if the loader does not find libenip.so.0.
"""

from __future__ import annotations

import ctypes
import enum
import fcntl
import functools
import os
import re
import socket
import struct
import time
import weakref
from types import TracebackType
from typing import Any, Callable, Iterator, NamedTuple, Optional, Sequence, Type, TypeVar, Union

__all__ = [
    "Adapter", "Asked", "Client", "Command", "Commander", "ConfigurationRefused", "Ended", "Ending", "Endings",
    "EnipError", "EnipLost", "EnipRefused", "EnipTimeout", "Fed", "Heard", "HeardKind", "NoReply", "Of", "Once",
    "OnceValues", "Originator", "Outcome", "OutcomeKind", "Owner", "Places", "Refuse", "Rights", "Service", "Status",
    "Value", "Wants", "decode", "encode", "path", "reply_data", "request", "status_text", "version",
]

_ANSWER_ROOM, _FRAME_ROOM, _REPLY_ROOM, _MESSAGE_ROOM = 4046, 4046, 65535, 504
_ATTRIBUTE_ROOM, _OWNER_ROOM, _TEXT_ROOM = 4000, 480, 512
_LEDGER, _UNKNOWN_CLASS = 0x65, 0x05

_Bytes = Union[bytes, bytearray, memoryview]
#: A value of one of the elementary types, or bytes.
Value = Union[bool, int, float, str, bytes, bytearray, memoryview]
_Self = TypeVar("_Self", bound="_Handle")


class _Numbers(enum.IntEnum):
    """Named numbers. One that a later library has is a member without a name of its own."""

    @classmethod
    def _missing_(cls, value: object) -> Any:
        if not isinstance(value, int):
            return None
        member = int.__new__(cls, value)
        member._name_, member._value_ = "UNKNOWN_%d" % value, value
        return member


class Status(_Numbers):
    """The status that a call of the library returns: ENIP_OK and the following."""

    OK = 0
    MISUSE = 1
    ROOM = 2
    MEMORY = 3
    CONFIGURATION = 4
    PLACES = 5
    HANDLES = 6
    ABSENT = 7
    STATE = 8
    FAILED = 9
    REFUSED = 10
    TOO_LONG = 11
    MALFORMED = 12
    REQUEST = 13
    WAITING = 14
    LONG_REQUEST = 15
    GIVEN_UP = 16
    ABANDONED = 17
    WANTS = 18
    NUMBERS = 19
    SAVED_STATE = 20
    SHARE = 21


class Of(_Numbers):
    """The kinds of numbers that `status_text` explains."""

    CALL = 0
    NO_REPLY = 1
    GENERAL = 2
    EXTENDED = 3
    ENDING = 4


class NoReply(_Numbers):
    """Why a frame gets no answer."""

    INCOMPLETE = 1
    OPTIONS = 2
    STATUS = 3
    NOP = 4
    OTHER_SESSION = 5
    MALFORMED = 6
    CONNECTION = 7
    UNREGISTERED = 8
    NOT_SERVED = 9


class Ending(_Numbers):
    """Why a connection ended."""

    TIMED_OUT = 1
    PEER = 2
    SESSION = 3
    CLOSED = 4


class HeardKind(_Numbers):
    """What `Originator.feed` received."""

    NOTHING = 0
    REGISTERED = 1
    OPENED = 2
    REPLY = 3
    ACCEPTED = 4
    REFUSED = 5
    CLOSED = 6


class OutcomeKind(_Numbers):
    """What `Once.receive` and `Once.withdrawn` learned about the pending command."""

    NOTHING = 0
    DONE = 1
    PENDING = 2
    REFUSED = 3
    MALFORMED = 4
    IN_DOUBT = 5
    WITHDRAWN = 6
    SMALLER = 7
    OTHER_LIFE = 8


class Rights(_Numbers):
    """What a peer of an adapter may do."""

    WRITE = 0
    READ = 1


class Service(_Numbers):
    """The services of the standard that devices of this project have."""

    GET_ATTRIBUTES_ALL = 0x01
    GET_ATTRIBUTE_LIST = 0x03
    SET_ATTRIBUTE_LIST = 0x04
    RESET = 0x05
    MULTIPLE_SERVICE_PACKET = 0x0A
    GET_ATTRIBUTE_SINGLE = 0x0E
    SET_ATTRIBUTE_SINGLE = 0x10
    GET_MEMBER = 0x18
    SET_MEMBER = 0x19


# ---- the calls of enip.h ----


class _Refusal(ctypes.Structure):
    _fields_ = [("number", ctypes.c_uint32), ("text", ctypes.c_char * _TEXT_ROOM)]
    number: int
    text: bytes


class _Fed(ctypes.Structure):
    _fields_ = [
        ("taken", ctypes.c_size_t),
        ("answer", ctypes.c_size_t),
        ("no_reply", ctypes.c_uint32),
        ("close", ctypes.c_uint32),
    ]
    taken: int
    answer: int
    no_reply: int
    close: int


class _Asked(ctypes.Structure):
    _fields_ = [
        ("data", ctypes.c_void_p),
        ("length", ctypes.c_size_t),
        ("reply_limit", ctypes.c_size_t),
        ("instance", ctypes.c_uint32),
        ("class_code", ctypes.c_uint16),
        ("attribute", ctypes.c_uint16),
        ("has_attribute", ctypes.c_uint8),
        ("service", ctypes.c_uint8),
    ]
    data: int
    length: int
    reply_limit: int
    instance: int
    class_code: int
    attribute: int
    has_attribute: int
    service: int


class _Reply(ctypes.Structure):
    _fields_ = [("length", ctypes.c_size_t), ("status", ctypes.c_uint8), ("data", ctypes.c_uint8 * _OWNER_ROOM)]
    length: int
    status: int
    data: ctypes.Array[ctypes.c_uint8]


class _Ended(ctypes.Structure):
    _fields_ = [("connection", ctypes.c_uint32), ("peer", ctypes.c_uint32), ("why", ctypes.c_uint32)]
    connection: int
    peer: int
    why: int


class _Wants(ctypes.Structure):
    _fields_ = [
        ("originator_serial", ctypes.c_uint32),
        ("t_to_o_id", ctypes.c_uint32),
        ("rpi", ctypes.c_uint32),
        ("originator_vendor", ctypes.c_uint16),
        ("connection_serial", ctypes.c_uint16),
        ("o_to_t_size", ctypes.c_uint16),
        ("t_to_o_size", ctypes.c_uint16),
        ("first_count", ctypes.c_uint16),
        ("timeout_multiplier", ctypes.c_uint8),
    ]


class _Heard(ctypes.Structure):
    _fields_ = [
        ("taken", ctypes.c_size_t),
        ("reply", ctypes.c_size_t),
        ("kind", ctypes.c_uint32),
        ("general", ctypes.c_uint32),
        ("extended", ctypes.c_uint32),
    ]
    taken: int
    reply: int
    kind: int
    general: int
    extended: int


class _Outcome(ctypes.Structure):
    _fields_ = [("reply", ctypes.c_size_t), ("kind", ctypes.c_uint32), ("general", ctypes.c_uint32)]
    reply: int
    kind: int
    general: int


_OWNER = ctypes.CFUNCTYPE(ctypes.c_int, ctypes.c_void_p, ctypes.POINTER(_Asked), ctypes.POINTER(_Reply))

_HANDLE, _NEW = ctypes.c_void_p, ctypes.POINTER(ctypes.c_void_p)
_INT, _U8, _U16, _U32, _U64 = ctypes.c_int, ctypes.c_uint8, ctypes.c_uint16, ctypes.c_uint32, ctypes.c_uint64
_TO_U16, _TO_U32, _TO_U64 = ctypes.POINTER(_U16), ctypes.POINTER(_U32), ctypes.POINTER(_U64)
_COUNT = ctypes.POINTER(ctypes.c_size_t)
_READ = [ctypes.c_char_p, ctypes.c_size_t]
_WRITE = [ctypes.c_void_p, ctypes.c_size_t]
_PATH = [_U16, _U32, _U16]
_FEED = [_HANDLE, _U64, _U32, *_READ, *_WRITE]

# The arguments of each call of enip.h that returns a status.
_CALLS: dict[str, Sequence[Any]] = {
    "enip_adapter_new": [*_READ, _NEW, ctypes.POINTER(_Refusal)],
    "enip_adapter_new_kept": [*_READ, *_READ, _U64, _NEW, ctypes.POINTER(_Refusal)],
    "enip_adapter_free": [_HANDLE],
    "enip_adapter_begin": [_HANDLE, _TO_U32],
    "enip_adapter_begin_as": [_HANDLE, _INT, ctypes.c_char_p, _TO_U32],
    "enip_adapter_feed": [*_FEED, ctypes.POINTER(_Fed)],
    "enip_adapter_serve": [*_FEED, _OWNER, ctypes.c_void_p, ctypes.POINTER(_Fed)],
    "enip_adapter_tick": [_HANDLE, _U64],
    "enip_adapter_deadline": [_HANDLE, _TO_U64],
    "enip_adapter_end": [_HANDLE, _U32],
    "enip_adapter_read": [_HANDLE, *_PATH, *_WRITE, _COUNT],
    "enip_adapter_discover": [_HANDLE, *_READ, *_WRITE, _COUNT],
    "enip_adapter_places": [_HANDLE, _TO_U16, _TO_U16],
    "enip_adapter_write": [_HANDLE, _U32, ctypes.c_size_t, *_READ],
    "enip_adapter_write_attribute": [_HANDLE, *_PATH, ctypes.c_size_t, *_READ],
    "enip_adapter_changes": [_HANDLE, _U32, _TO_U32],
    "enip_adapter_attribute_changes": [_HANDLE, *_PATH, _TO_U32],
    "enip_adapter_resets": [_HANDLE, _TO_U32],
    "enip_adapter_set_status": [_HANDLE, _U16],
    "enip_adapter_set_state": [_HANDLE, _U8],
    "enip_adapter_generation": [_HANDLE, *_READ, _TO_U64],
    "enip_adapter_save": [_HANDLE, _U64, *_WRITE, _COUNT],
    "enip_adapter_asked_command": [_HANDLE, _TO_U64, _TO_U32],
    "enip_adapter_in_doubt": [_HANDLE, ctypes.c_size_t, _TO_U64, _TO_U32],
    "enip_adapter_settle": [_HANDLE, _U64, _U32, *_READ],
    "enip_endings_new": [_NEW],
    "enip_endings_free": [_HANDLE],
    "enip_endings_update": [_HANDLE, _HANDLE],
    "enip_endings_at": [_HANDLE, ctypes.c_size_t, ctypes.POINTER(_Ended)],
    "enip_client_new": [ctypes.POINTER(_Wants), _NEW],
    "enip_client_free": [_HANDLE],
    "enip_client_register": [_HANDLE, *_WRITE, _COUNT],
    "enip_client_open": [_HANDLE, *_WRITE, _COUNT],
    "enip_client_ask": [_HANDLE, *_READ, *_WRITE, _COUNT],
    "enip_client_submit": [_HANDLE, *_READ, *_WRITE, _COUNT],
    "enip_client_resend": [_HANDLE, *_WRITE, _COUNT],
    "enip_client_close": [_HANDLE, *_WRITE, _COUNT],
    "enip_client_unregister": [_HANDLE, *_WRITE, _COUNT],
    "enip_client_give_up": [_HANDLE],
    "enip_client_feed": [_HANDLE, *_READ, *_WRITE, ctypes.POINTER(_Heard)],
    "enip_once_new": [_U64, _U64, _U32, _NEW],
    "enip_once_resume": [_U64, _U64, _U32, *_READ, _NEW],
    "enip_once_free": [_HANDLE],
    "enip_once_command": [_HANDLE, *_READ, *_WRITE, _COUNT],
    "enip_once_resend": [_HANDLE, *_WRITE, _COUNT],
    "enip_once_receive": [_HANDLE, *_READ, *_WRITE, ctypes.POINTER(_Outcome)],
    "enip_once_withdraw": [_HANDLE, *_WRITE, _COUNT],
    "enip_once_withdrawn": [_HANDLE, *_READ, *_WRITE, ctypes.POINTER(_Outcome)],
    "enip_once_abandon": [_HANDLE],
    "enip_once_values": [_HANDLE, _TO_U64, _TO_U64, _TO_U32],
    "enip_once_request": [_HANDLE, *_WRITE, _COUNT],
}


@functools.lru_cache(maxsize=None)
def _library() -> ctypes.CDLL:
    """The library, which is loaded at the first call."""
    loaded = ctypes.CDLL(os.environ.get("LIBENIP", "libenip.so.0"))
    for name, arguments in _CALLS.items():
        call = getattr(loaded, name)
        call.restype, call.argtypes = ctypes.c_int, arguments
    loaded.enip_version.restype, loaded.enip_version.argtypes = ctypes.c_char_p, []
    loaded.enip_status_text.restype = ctypes.c_size_t
    loaded.enip_status_text.argtypes = [_INT, _U32, ctypes.c_char_p, ctypes.c_size_t]
    return loaded


def _call(name: str, *arguments: Any) -> int:
    """Calls the library, and returns the status."""
    status: int = getattr(_library(), name)(*arguments)
    return status


def _checked(name: str, *arguments: Any) -> None:
    """Calls the library. Raises the error of the status."""
    status = _call(name, *arguments)
    if status != Status.OK:
        raise EnipError(status_text(Of.CALL, status), status)


def _found(name: str, *arguments: Any) -> bool:
    """Calls the library. Returns whether it found what was asked for."""
    status = _call(name, *arguments)
    if status not in (Status.OK, Status.ABSENT):
        raise EnipError(status_text(Of.CALL, status), status)
    return status == Status.OK


def version() -> str:
    """The version of the library."""
    text: bytes = _library().enip_version()
    return text.decode()


def status_text(kind: int, number: int) -> str:
    """The text of a number; empty if it has none. `kind` is one of `Of`."""
    buffer = ctypes.create_string_buffer(256)
    _library().enip_status_text(kind, number, buffer, len(buffer))
    return buffer.value.decode()


# ---- errors ----


class EnipError(Exception):
    """The library or the device refuses a call, an open or a request, or the device is gone.

    `status` is the status of a call of the library, or None.
    """

    def __init__(self, text: str, status: Optional[int] = None) -> None:
        super().__init__(text)
        self.status = None if status is None else Status(status)


class ConfigurationRefused(EnipError):
    """A configuration or a saved state is refused. `number` is the check that failed."""

    def __init__(self, text: str, status: int, number: int) -> None:
        super().__init__(text, status)
        self.number = number


class EnipTimeout(EnipError):
    """No reply came: the request was executed once or not at all."""


class EnipLost(EnipError):
    """The connection is lost: the request was executed once or not at all."""


class EnipRefused(EnipError):
    """The reply to a request has a general status other than 0: `general`. `reply` is the whole reply."""

    def __init__(self, text: str, reply: bytes) -> None:
        super().__init__(text)
        self.reply = reply
        self.general = reply[2]


class Refuse(Exception):
    """Raised by the owner of a device: the request is refused with this general status, and this data."""

    def __init__(self, general: int, data: bytes = b"") -> None:
        super().__init__("refused 0x%02x" % general)
        self.general = general
        self.data = data


# ---- types, paths and requests ----

_FORMATS = {
    "SINT": "<b", "INT": "<h", "DINT": "<i", "LINT": "<q", "USINT": "<B", "UINT": "<H", "UDINT": "<I", "ULINT": "<Q",
    "BYTE": "<B", "WORD": "<H", "DWORD": "<I", "LWORD": "<Q", "REAL": "<f", "LREAL": "<d",
}
_TEXT_FORMATS = {"SHORT_STRING": "<B", "STRING": "<H"}


def encode(type_name: str, value: Value) -> bytes:
    """The bytes of a value of an elementary type, least significant byte first.

    The types are BOOL, SINT, INT, DINT, LINT, USINT, UINT, UDINT, ULINT, BYTE, WORD, DWORD, LWORD, REAL, LREAL,
    SHORT_STRING and STRING. A text has the characters of ISO 8859-1, one byte each. Raises ValueError if there is no
    such type, or if it has no such value.
    """
    try:
        if type_name == "BOOL":
            return {0: b"\0", 1: b"\1"}[value]  # type: ignore[index]
        if type_name in _TEXT_FORMATS:
            text = value.encode("latin-1") if isinstance(value, str) else value
            if not isinstance(text, bytes):
                raise TypeError
            return struct.pack(_TEXT_FORMATS[type_name], len(text)) + text
        return struct.pack(_FORMATS[type_name], value)
    except (KeyError, TypeError, OverflowError, UnicodeError, struct.error):
        if type_name not in (*_FORMATS, *_TEXT_FORMATS, "BOOL"):
            raise ValueError("%s is not a type" % type_name) from None
        raise ValueError("%r is not a value of type %s" % (value, type_name)) from None


def decode(type_name: str, data: _Bytes) -> Any:
    """The value whose bytes these are. Raises ValueError if they are not the bytes of one value of the type."""
    data = bytes(data)
    try:
        if type_name == "BOOL":
            return {b"\0": False, b"\1": True}[data]
        if type_name in _TEXT_FORMATS:
            size = struct.calcsize(_TEXT_FORMATS[type_name])
            (length,) = struct.unpack(_TEXT_FORMATS[type_name], data[:size])
            if len(data) != size + length:
                raise KeyError
            return data[size:].decode("latin-1")
        return struct.unpack(_FORMATS[type_name], data)[0]
    except (KeyError, struct.error):
        if type_name not in (*_FORMATS, *_TEXT_FORMATS, "BOOL"):
            raise ValueError("%s is not a type" % type_name) from None
        raise ValueError("%s is not of type %s" % (data.hex(), type_name)) from None


def path(class_code: int, instance: int, attribute: Optional[int] = None, member: Optional[int] = None) -> bytes:
    """A path, each part in its narrowest form. Raises ValueError if a number is too great for its part."""
    made = _segment(0x20, class_code, 0xFFFF) + _segment(0x24, instance, 0xFFFFFFFF)
    if attribute is not None:
        made += _segment(0x30, attribute, 0xFFFF)
    if member is not None:
        made += _segment(0x28, member, 0xFFFF)
    return made


def _segment(kind: int, value: int, most: int) -> bytes:
    if not 0 <= value <= most:
        raise ValueError("%d is not in the range of 0 to %d" % (value, most))
    if value <= 0xFF:
        return struct.pack("<BB", kind, value)
    if value <= 0xFFFF:
        return struct.pack("<BBH", kind + 1, 0, value)
    return struct.pack("<BBI", kind + 2, 0, value)


def request(
    service: int, class_code: int, instance: int, attribute: Optional[int] = None, member: Optional[int] = None,
    data: _Bytes = b"",
) -> bytes:
    """A request: the service, the size of the path in words, the path, and the data."""
    if not 0 <= service <= 0x7F:
        raise ValueError("%d is not a service (0 to 127)" % service)
    names = path(class_code, instance, attribute, member)
    return bytes([service, len(names) // 2]) + names + bytes(data)


def reply_data(reply: _Bytes) -> bytes:
    """The data of a reply. Raises ValueError if it is not a reply, and `EnipRefused` if its general status is not 0."""
    reply = bytes(reply)
    if len(reply) < 4 or reply[0] < 0x80 or len(reply) < 4 + 2 * reply[3]:
        raise ValueError("%s is not a reply" % reply.hex())
    if reply[2] != 0:
        raise EnipRefused(status_text(Of.GENERAL, reply[2]), reply)
    return reply[4 + 2 * reply[3] :]


# ---- objects of the library ----


class _Handle:
    """An object of the library. It is freed once: by `close`, at the end of a `with`, or with the last reference."""

    def __init__(self, handle: ctypes.c_void_p, free: str) -> None:
        self._handle: Optional[ctypes.c_void_p] = handle
        self._free = weakref.finalize(self, getattr(_library(), free), handle)

    def __enter__(self: _Self) -> _Self:
        return self

    def __exit__(
        self, kind: Optional[Type[BaseException]], error: Optional[BaseException], trace: Optional[TracebackType]
    ) -> None:
        self.close()

    def close(self) -> None:
        """Frees the object. Each later call raises an `EnipError`."""
        self._free()
        self._handle = None


class Asked(NamedTuple):
    """A request to the owner of a device. `attribute` is None if its path names none."""

    service: int
    class_code: int
    instance: int
    attribute: Optional[int]
    data: bytes
    reply_limit: int


class Fed(NamedTuple):
    """The result of `Adapter.feed` and `Adapter.serve`.

    `taken` is the number of bytes taken from the front of the piece, and `answer` what to send to the peer. If it is
    empty, `no_reply` says why. If `close` is true, send the answer, and close the peer's TCP connection.
    """

    taken: int
    answer: bytes
    no_reply: Optional[NoReply]
    close: bool


class Places(NamedTuple):
    """How many slots for peers and for connections are free."""

    peers: int
    connections: int


class Command(NamedTuple):
    """A numbered command: its originator and its number."""

    originator: int
    number: int


class Ended(NamedTuple):
    """A connection that ended: its O->T connection ID, the peer that opened it, and why it ended."""

    connection: int
    peer: int
    why: Ending


#: The owner of a device returns the data of the reply, or None for none, or raises `Refuse`.
Owner = Callable[[Asked], Optional[bytes]]


class Adapter(_Handle):
    """A device, from a configuration, which is TOML. Times are in microseconds.

    With `life`, it is an adapter that is kept over a restart: `state` is what `save` returned last, or None at the
    first start, and `life` the number of a life that the device was never in.
    """

    def __init__(
        self, configuration: Union[str, bytes], state: Optional[bytes] = None, life: Optional[int] = None
    ) -> None:
        text = configuration.encode() if isinstance(configuration, str) else configuration
        made, why = ctypes.c_void_p(), _Refusal()
        if life is None:
            if state is not None:
                raise ValueError("a state needs a life")
            status = _call("enip_adapter_new", text, len(text), ctypes.byref(made), ctypes.byref(why))
        else:
            kept = state or None
            status = _call("enip_adapter_new_kept", text, len(text), kept, len(kept or b""), life, ctypes.byref(made),
                           ctypes.byref(why))
        if status in (Status.CONFIGURATION, Status.SAVED_STATE):
            raise ConfigurationRefused(why.text.decode("utf-8", "replace"), status, why.number)
        if status != Status.OK:
            raise EnipError(status_text(Of.CALL, status), status)
        super().__init__(made, "enip_adapter_free")
        self._answer = ctypes.create_string_buffer(_ANSWER_ROOM)

    def begin(self, rights: Rights = Rights.WRITE, group: Optional[bytes] = None) -> Optional[int]:
        """Adds a peer, and returns its number; None if no slot is left.

        `group` is 16 bytes that name for whom the peer counts.
        """
        if group is not None and len(group) != 16:
            raise ValueError("a group has 16 bytes")
        peer = ctypes.c_uint32()
        status = _call("enip_adapter_begin_as", self._handle, rights, group, ctypes.byref(peer))
        if status in (Status.PLACES, Status.HANDLES, Status.SHARE):
            return None
        if status != Status.OK:
            raise EnipError(status_text(Of.CALL, status), status)
        return peer.value

    def end(self, peer: int) -> None:
        """Removes a peer whose TCP connection is closed."""
        _checked("enip_adapter_end", self._handle, peer)

    def feed(self, now: int, peer: int, piece: _Bytes) -> Fed:
        """Passes a piece of a peer's stream, one byte or more."""
        fed, piece = _Fed(), bytes(piece)
        _checked("enip_adapter_feed", self._handle, now, peer, piece, len(piece), self._answer, _ANSWER_ROOM,
                 ctypes.byref(fed))
        return self._result(fed)

    def serve(self, now: int, peer: int, piece: _Bytes, owner: Owner) -> Fed:
        """Does what `feed` does, and lets the owner execute the requests to it: `owner(asked)` is called once for each.

        It returns the data of the reply, or raises `Refuse`. Any other exception is raised again by this call, and then
        no byte was taken: end the peer.
        """
        fed, piece = _Fed(), bytes(piece)
        raised: list[BaseException] = []

        def run(_: Any, asked: Any, reply: Any) -> int:
            try:
                self._reply(asked[0], reply[0], owner)
            except BaseException as error:  # it must not pass through the library
                raised.append(error)
                return 1
            return 0

        status = _call("enip_adapter_serve", self._handle, now, peer, piece, len(piece), self._answer, _ANSWER_ROOM,
                       _OWNER(run), None, ctypes.byref(fed))
        if raised:
            raise raised[0]
        if status != Status.OK:
            raise EnipError(status_text(Of.CALL, status), status)
        return self._result(fed)

    @staticmethod
    def _reply(asked: _Asked, reply: _Reply, owner: Owner) -> None:
        """Asks the owner, and writes the reply."""
        try:
            attribute = asked.attribute if asked.has_attribute else None
            value = ctypes.string_at(asked.data, asked.length) if asked.length else b""
            what = Asked(asked.service, asked.class_code, asked.instance, attribute, value, asked.reply_limit)
            data = owner(what) or b""
        except Refuse as refusal:
            reply.status, data = refusal.general, refusal.data
        if len(data) > asked.reply_limit:
            raise ValueError("a reply of %d bytes: it may have %d" % (len(data), asked.reply_limit))
        ctypes.memmove(reply.data, data, len(data))
        reply.length = len(data)

    def _result(self, fed: _Fed) -> Fed:
        no_reply = NoReply(fed.no_reply) if fed.no_reply else None
        return Fed(fed.taken, ctypes.string_at(self._answer, fed.answer), no_reply, fed.close != 0)

    def tick(self, now: int) -> None:
        """Sets the time: connections whose deadline has passed end."""
        _checked("enip_adapter_tick", self._handle, now)

    def deadline(self) -> Optional[int]:
        """The earliest deadline of the open connections; None if none is open."""
        deadline = ctypes.c_uint64()
        return deadline.value if _found("enip_adapter_deadline", self._handle, ctypes.byref(deadline)) else None

    def discover(self, datagram: _Bytes) -> Optional[bytes]:
        """The answer to a UDP datagram; None if it has none."""
        datagram = bytes(datagram)
        return _written("enip_adapter_discover", _ANSWER_ROOM, self._handle, datagram, len(datagram))

    def read(self, class_code: int, instance: int, attribute: int) -> Optional[bytes]:
        """The bytes of an attribute; None if there is no such attribute."""
        return _written("enip_adapter_read", _ATTRIBUTE_ROOM, self._handle, class_code, instance, attribute)

    def write(self, instance: int, data: _Bytes, offset: int = 0) -> None:
        """Writes to the data of an assembly, whether peers may set it or not."""
        data = bytes(data)
        _checked("enip_adapter_write", self._handle, instance, offset, data, len(data))

    def write_attribute(self, class_code: int, instance: int, attribute: int, data: _Bytes, offset: int = 0) -> None:
        """Writes to an attribute of an application object, whether peers may set it or not."""
        data = bytes(data)
        _checked("enip_adapter_write_attribute", self._handle, class_code, instance, attribute, offset, data, len(data))

    def changes(self, instance: int) -> int:
        """How often peers have written the data of an assembly, modulo 2^32."""
        changes = ctypes.c_uint32()
        _checked("enip_adapter_changes", self._handle, instance, ctypes.byref(changes))
        return changes.value

    def attribute_changes(self, class_code: int, instance: int, attribute: int) -> int:
        """How often peers have set an attribute, modulo 2^32."""
        changes = ctypes.c_uint32()
        _checked("enip_adapter_attribute_changes", self._handle, class_code, instance, attribute,
                 ctypes.byref(changes))
        return changes.value

    def resets(self) -> Optional[int]:
        """How often peers have reset the device, modulo 2^32; None if they may not."""
        resets = ctypes.c_uint32()
        return resets.value if _found("enip_adapter_resets", self._handle, ctypes.byref(resets)) else None

    def places(self) -> Places:
        """How many slots are free."""
        peers, connections = ctypes.c_uint16(), ctypes.c_uint16()
        _checked("enip_adapter_places", self._handle, ctypes.byref(peers), ctypes.byref(connections))
        return Places(peers.value, connections.value)

    def set_status(self, status: int) -> None:
        """Sets the device's status (Identity, attribute 5)."""
        _checked("enip_adapter_set_status", self._handle, status)

    def set_state(self, state: int) -> None:
        """Sets the device's state (Identity, attribute 8)."""
        _checked("enip_adapter_set_state", self._handle, state)

    def generation(self, state: Optional[bytes]) -> int:
        """The generation of what is kept, given the last saved state, or None if nothing was saved yet.

        If it is not the one of that state, something has changed: `save`.
        """
        generation, kept = ctypes.c_uint64(), state or None
        _checked("enip_adapter_generation", self._handle, kept, len(kept or b""), ctypes.byref(generation))
        return generation.value

    def save(self, generation: int) -> bytes:
        """The state with this generation, as bytes."""
        size = 1024
        while True:
            buffer, count = ctypes.create_string_buffer(size), ctypes.c_size_t()
            status = _call("enip_adapter_save", self._handle, generation, buffer, size, ctypes.byref(count))
            if status == Status.OK:
                return buffer.raw[: count.value]
            if status != Status.ROOM:
                raise EnipError(status_text(Of.CALL, status), status)
            size = count.value

    def asked_command(self) -> Optional[Command]:
        """While the owner is called: the numbered command that it is asked to execute, or None if it is not one."""
        return self._command("enip_adapter_asked_command")

    def in_doubt(self) -> list[Command]:
        """The commands in doubt: nobody knows whether they were executed."""
        found: list[Command] = []
        while (command := self._command("enip_adapter_in_doubt", len(found))) is not None:
            found.append(command)
        return found

    def settle(self, command: Command, reply: _Bytes) -> None:
        """Gives a command in doubt the whole reply that its request should have had."""
        reply = bytes(reply)
        _checked("enip_adapter_settle", self._handle, command.originator, command.number, reply, len(reply))

    def _command(self, name: str, *index: int) -> Optional[Command]:
        originator, number = ctypes.c_uint64(), ctypes.c_uint32()
        if not _found(name, self._handle, *index, ctypes.byref(originator), ctypes.byref(number)):
            return None
        return Command(originator.value, number.value)


def _written(name: str, room: int, *arguments: Any) -> Optional[bytes]:
    """What a call writes to a buffer of this size; None if there is no such thing."""
    buffer, count = ctypes.create_string_buffer(room), ctypes.c_size_t()
    if not _found(name, *arguments, buffer, room, ctypes.byref(count)):
        return None
    return ctypes.string_at(buffer, count.value)


class Endings(_Handle):
    """The connections of one adapter that ended."""

    def __init__(self) -> None:
        made = ctypes.c_void_p()
        _checked("enip_endings_new", ctypes.byref(made))
        super().__init__(made, "enip_endings_free")

    def update(self, adapter: Adapter) -> list[Ended]:
        """The connections that have ended since the last update. Always pass the same adapter."""
        _checked("enip_endings_update", self._handle, adapter._handle)
        return list(self)

    def __iter__(self) -> Iterator[Ended]:
        """The connections that had ended at the last update, in the order of their opening."""
        index, ended = 0, _Ended()
        while _found("enip_endings_at", self._handle, index, ctypes.byref(ended)):
            yield Ended(ended.connection, ended.peer, Ending(ended.why))
            index += 1


class Wants(NamedTuple):
    """The class 3 connection that a client opens. Times are in microseconds, sizes in bytes.

    Set `originator_vendor` and `originator_serial` to your own. No two connections to a device may have the same of
    both and the same `connection_serial`.
    """

    originator_serial: int = 0x01020304
    t_to_o_id: int = 0x00010001
    rpi: int = 1_000_000
    originator_vendor: int = 0x1234
    connection_serial: int = 1
    o_to_t_size: int = 500
    t_to_o_size: int = 500
    first_count: int = 1
    timeout_multiplier: int = 3

    def timeout(self) -> int:
        """The device closes the connection if no request comes for so many microseconds."""
        return self.rpi * 4 << self.timeout_multiplier


class Heard(NamedTuple):
    """The result of `Originator.feed`.

    `taken` is the number of bytes taken from the front of the piece. `reply` begins with its service, `general` is its
    general status or that of a refusal, and `extended` the first word of additional status.
    """

    taken: int
    kind: HeardKind
    reply: bytes
    general: int
    extended: int


class Originator(_Handle):
    """A client without sockets: an `enip_client`. Each call that returns bytes writes one frame: send it."""

    def __init__(self, wants: Wants = Wants()) -> None:
        made = ctypes.c_void_p()
        _checked("enip_client_new", ctypes.byref(_Wants(*wants)), ctypes.byref(made))
        super().__init__(made, "enip_client_free")
        self._frame_room = ctypes.create_string_buffer(_FRAME_ROOM)
        self._reply_room = ctypes.create_string_buffer(_REPLY_ROOM)

    def register(self) -> bytes:
        """The frame that registers the session."""
        return self._frame("register")

    def open(self) -> bytes:
        """The frame that opens the connection."""
        return self._frame("open")

    def ask(self, request: _Bytes) -> bytes:
        """The frame of an unconnected request."""
        return self._frame("ask", bytes(request), len(request))

    def submit(self, request: _Bytes) -> bytes:
        """The frame of a request on the connection. It is pending until its reply is accepted or `give_up`."""
        return self._frame("submit", bytes(request), len(request))

    def resend(self) -> bytes:
        """The frame of the pending request again."""
        return self._frame("resend")

    def close_connection(self) -> bytes:
        """The frame that closes the connection."""
        return self._frame("close")

    def unregister(self) -> bytes:
        """The frame that ends the session. It has no reply."""
        return self._frame("unregister")

    def give_up(self) -> None:
        """Gives up the pending request: it is executed once or not at all."""
        _checked("enip_client_give_up", self._handle)

    def feed(self, piece: _Bytes) -> Heard:
        """Passes a piece of what came back, one byte or more."""
        heard, piece = _Heard(), bytes(piece)
        _checked("enip_client_feed", self._handle, piece, len(piece), self._reply_room, _REPLY_ROOM,
                 ctypes.byref(heard))
        reply = ctypes.string_at(self._reply_room, heard.reply)
        return Heard(heard.taken, HeardKind(heard.kind), reply, heard.general, heard.extended)

    def _frame(self, call: str, *request: Any) -> bytes:
        count = ctypes.c_size_t()
        _checked("enip_client_" + call, self._handle, *request, self._frame_room, _FRAME_ROOM, ctypes.byref(count))
        return ctypes.string_at(self._frame_room, count.value)


class Outcome(NamedTuple):
    """The result of `Once.receive` or `Once.withdrawn`. If the command is done, `reply` is the reply to its request."""

    kind: OutcomeKind
    general: int
    reply: bytes


class OnceValues(NamedTuple):
    """What a program stores of an originator: the device's life, the originator, the number of the last command."""

    life: int
    originator: int
    last_number: int = 0


class Once(_Handle):
    """The originator's end of numbered commands, without sockets. `pending` is the request of a pending command."""

    def __init__(self, values: OnceValues, pending: Optional[bytes] = None) -> None:
        made = ctypes.c_void_p()
        if pending is None:
            _checked("enip_once_new", *values, ctypes.byref(made))
        else:
            _checked("enip_once_resume", *values, pending, len(pending), ctypes.byref(made))
        super().__init__(made, "enip_once_free")

    def command(self, request: _Bytes) -> bytes:
        """Gives a command, and returns its message. Store `values` and the request before you send it."""
        request, buffer, count = bytes(request), ctypes.create_string_buffer(_MESSAGE_ROOM), ctypes.c_size_t()
        _checked("enip_once_command", self._handle, request, len(request), buffer, _MESSAGE_ROOM, ctypes.byref(count))
        return buffer.raw[: count.value]

    def resend(self) -> Optional[bytes]:
        """The message of the pending command again; None if none is pending."""
        return _written("enip_once_resend", _MESSAGE_ROOM, self._handle)

    def receive(self, reply: _Bytes) -> Outcome:
        """Takes the reply to the message."""
        return self._outcome("enip_once_receive", reply)

    def withdraw(self) -> Optional[bytes]:
        """The message that withdraws the pending command from the device; None if none is pending."""
        return _written("enip_once_withdraw", _MESSAGE_ROOM, self._handle)

    def withdrawn(self, reply: _Bytes) -> Outcome:
        """Takes the reply to the message of `withdraw`. The command is pending until it was withdrawn or is done."""
        return self._outcome("enip_once_withdrawn", reply)

    def _outcome(self, call: str, reply: _Bytes) -> Outcome:
        reply, outcome = bytes(reply), _Outcome()
        buffer = ctypes.create_string_buffer(max(len(reply), 1))
        _checked(call, self._handle, reply, len(reply), buffer, len(buffer), ctypes.byref(outcome))
        return Outcome(OutcomeKind(outcome.kind), outcome.general, buffer.raw[: outcome.reply])

    def abandon(self) -> None:
        """Gives up the pending command: it is executed once or not at all."""
        _checked("enip_once_abandon", self._handle)

    @property
    def values(self) -> OnceValues:
        """The device's life, the originator, and the number of the last command."""
        life, originator, number = ctypes.c_uint64(), ctypes.c_uint64(), ctypes.c_uint32()
        _checked("enip_once_values", self._handle, ctypes.byref(life), ctypes.byref(originator), ctypes.byref(number))
        return OnceValues(life.value, originator.value, number.value)

    @property
    def pending(self) -> Optional[bytes]:
        """The request of the pending command; None if none is pending."""
        return _written("enip_once_request", _MESSAGE_ROOM, self._handle)


# ---- a client with a socket ----


class Client:
    """A session with a device, and a class 3 connection from the first `submit` or `set` on.

    A call waits for its reply for `timeout` seconds. A request on the connection is sent again up to `resends` times
    within this time.
    """

    def __init__(
        self, host: str, port: int = 44818, timeout: float = 5.0, resends: int = 4, wants: Wants = Wants()
    ) -> None:
        self._address = (host, port)
        self._timeout = timeout
        self._resends = resends
        self._wants = wants
        self._client: Optional[Originator] = None
        self._socket: Optional[socket.socket] = None
        self._is_open = False
        self._last_used = 0.0
        self._connect()

    def __enter__(self) -> Client:
        return self

    def __exit__(
        self, kind: Optional[Type[BaseException]], error: Optional[BaseException], trace: Optional[TracebackType]
    ) -> None:
        self.close()

    def ask(self, request: _Bytes) -> bytes:
        """Sends an unconnected request to the message router, and returns its reply."""
        return self._exchange(lambda client: client.ask(request), "ask")

    def submit(self, request: _Bytes) -> bytes:
        """Sends a request on the class 3 connection, and returns its reply. The first call opens the connection."""
        if self._is_open and time.monotonic() - self._last_used >= self._wants.timeout() / 1e6:
            self._drop()
        begin = time.monotonic()
        if not self._is_open:
            self._exchange(lambda client: client.open(), "open")
            self._is_open, self._last_used = True, begin
        self._send(lambda client: client.submit(request))
        for resends in range(self._resends + 1):
            if resends > 0:
                self._send(lambda client: client.resend())
            reply = self._receive(self._timeout / (self._resends + 1))
            if reply is not None:
                self._last_used = begin
                return reply
        if self._client is not None:
            self._client.give_up()
        raise EnipTimeout("no reply: the request was executed once or not at all")

    def get(self, class_code: int, instance: int, attribute: int, type_name: Optional[str] = None) -> Any:
        """Returns the bytes of an attribute, or its value, if you name its type as `decode` does."""
        data = reply_data(self.ask(request(Service.GET_ATTRIBUTE_SINGLE, class_code, instance, attribute)))
        return data if type_name is None else decode(type_name, data)

    def set(
        self, class_code: int, instance: int, attribute: int, value: Value, type_name: Optional[str] = None
    ) -> None:
        """Sets an attribute to bytes, or to a value of a type as `encode` takes it, over the connection."""
        data = value if type_name is None else encode(type_name, value)
        if not isinstance(data, (bytes, bytearray, memoryview)):
            raise TypeError("%r is not bytes, and has no type" % (value,))
        self.submit(request(Service.SET_ATTRIBUTE_SINGLE, class_code, instance, attribute, data=data))

    def close(self) -> None:
        """Closes the connection, the session and the stream, and frees the client."""
        if self._client is None:
            return
        try:
            if self._is_open:
                self._exchange(lambda client: client.close_connection(), "close")
            self._send(lambda client: client.unregister())
        except EnipError:
            pass
        self._drop()

    def _connect(self) -> None:
        """Makes a client and a stream, and registers a session."""
        self._client = Originator(self._wants)
        try:
            self._socket = socket.create_connection(self._address, self._timeout)
        except OSError:
            self._drop()
            raise
        self._exchange(lambda client: client.register(), "register")

    def _drop(self) -> None:
        """Closes the stream, and frees the client. The next call makes new ones."""
        if self._socket is not None:
            self._socket.close()
            self._socket = None
        if self._client is not None:
            self._client.close()
            self._client = None
        self._is_open = False

    def _gone(self, why: str) -> EnipLost:
        """Drops the client, and returns the error to raise."""
        self._drop()
        return EnipLost(why)

    def _send(self, write: Callable[[Originator], bytes]) -> None:
        """Sends the frame that a call of the library writes. A client that failed for good is dropped."""
        if self._client is None:
            self._connect()
        assert self._client is not None and self._socket is not None
        try:
            frame = write(self._client)
            self._socket.settimeout(self._timeout)
            self._socket.sendall(frame)
        except EnipError as error:
            if error.status in (Status.ABSENT, Status.FAILED, Status.TOO_LONG, Status.MALFORMED):
                raise self._gone("the device sent a malformed reply") from error
            raise
        except OSError as error:
            raise self._gone(str(error)) from error

    def _exchange(self, write: Callable[[Originator], bytes], what: str) -> bytes:
        """Sends a frame, and returns its reply. If none comes, drops the client, which can't be used without it."""
        self._send(write)
        reply = self._receive(self._timeout)
        if reply is None:
            self._drop()
            raise EnipTimeout("no reply to %s" % what)
        return reply

    def _receive(self, seconds: float) -> Optional[bytes]:
        """Waits for the awaited reply, and returns it, or None if it does not come in time."""
        until = time.monotonic() + seconds
        while True:
            assert self._socket is not None
            self._socket.settimeout(max(until - time.monotonic(), 0.001))
            try:
                piece = self._socket.recv(4096)
            except socket.timeout:
                return None
            except OSError as error:
                raise self._gone(str(error)) from error
            if not piece:
                raise self._gone("the device closed the connection")
            heard = self._feed(piece)
            if heard is None:
                continue
            if heard.kind == HeardKind.REFUSED:
                raise EnipError(status_text(Of.EXTENDED, heard.extended))
            if heard.general != 0:
                raise EnipRefused(status_text(Of.GENERAL, heard.general), heard.reply)
            return heard.reply

    def _feed(self, piece: bytes) -> Optional[Heard]:
        """Passes a piece of the stream to the library, and returns what it heard, if anything."""
        assert self._client is not None
        heard = None
        while piece:
            now = self._client.feed(piece)
            if now.taken == 0:
                raise self._gone("the device sent a malformed reply")
            if now.kind != HeardKind.NOTHING:
                heard = now
            piece = piece[now.taken :]
        return heard


# Why a command was not withdrawn. It is still pending.
_NOT_WITHDRAWN = {
    OutcomeKind.PENDING: "the owner of the device has the command: the same command waits for its reply",
    OutcomeKind.IN_DOUBT: "the device does not know whether it executed the command: its owner has to settle that",
    OutcomeKind.SMALLER: "the device has a later command, and may have executed this one before: abandon gives it up",
    OutcomeKind.OTHER_LIFE: "the device was started again, and may have executed the command: abandon gives it up",
    OutcomeKind.MALFORMED: "the device sent a malformed reply",
}


def _refused_withdrawal(general: int) -> str:
    return "the device refused to withdraw the command: " + status_text(Of.GENERAL, general)


class Commander:
    """Commands to a device with a command ledger, which executes each of them once.

    A file holds what a kill must not lose: the originator, the device's life, the number of the last command and, while
    it is pending, its request. If there is no file, it is created with a random originator. Each try is a connection of
    its own, and waits for `timeout` seconds. No answer of a closed connection is ever taken.
    """

    def __init__(
        self, host: str, file: str, port: int = 44818, timeout: float = 1.0, tries: int = 20, pause: float = 0.1
    ) -> None:
        self._address, self._timeout, self._tries, self._pause = (host, port), timeout, tries, pause
        self._file = os.path.abspath(file)
        self._once: Optional[Once] = None
        # Only one process may use the file: two would use a number twice.
        self._lock = open(self._file + ".lock", "w")
        fcntl.flock(self._lock, fcntl.LOCK_EX | fcntl.LOCK_NB)
        self._values = OnceValues(0, int.from_bytes(os.urandom(8), "little"))
        self.pending: Optional[bytes] = None
        if os.path.exists(self._file):
            self._read()

    def __enter__(self) -> Commander:
        return self

    def __exit__(
        self, kind: Optional[Type[BaseException]], error: Optional[BaseException], trace: Optional[TracebackType]
    ) -> None:
        self.close()

    @property
    def number(self) -> int:
        """The number of the last command."""
        return self._values.last_number

    def close(self) -> None:
        """Frees the commander. A pending command stays in the file."""
        self._take(None)
        self._lock.close()

    def command(self, request: bytes) -> bytes:
        """Gives a command, or goes on with it if it is pending. Returns the reply to its request."""
        if self.pending not in (None, request):
            raise EnipError("another command is pending")
        for tries in range(self._tries):
            if tries > 0:
                time.sleep(self._pause)
            reply = self._exchange(request)
            if reply is not None:
                return reply
        if self.pending is None:
            raise EnipTimeout("no answer: no command was given")
        raise EnipTimeout("no answer: the command may have been executed; the same line sends it again")

    def withdraw(self) -> Optional[bytes]:
        """Withdraws the pending command from the device: it is never executed. Returns None.

        If the device has executed it, returns the reply to its request, as `command` does. Raises `EnipError` with the
        reason if the device can do neither, and `EnipTimeout` if it does not answer: the command is still pending then,
        and `abandon` gives it up.
        """
        for tries in range(self._tries):
            if self.pending is None:
                return None
            if tries > 0:
                time.sleep(self._pause)
            answer = self._withdrawal()
            if answer is not None:
                return self._withdrawn(answer)
        raise EnipTimeout("no answer: the command may have been executed, and is still pending")

    def abandon(self) -> None:
        """Gives up the pending command: it is executed once or not at all."""
        if self.pending is not None and self._once is not None:
            self._once.abandon()
            self._store(self._values, None)

    def _withdrawal(self) -> Optional[bytes]:
        """Sends the message that withdraws the pending command over a new connection. Returns the answer."""
        assert self._once is not None
        message = self._once.withdraw()
        assert message is not None
        try:
            with Client(*self._address, self._timeout) as client:
                return client.ask(message)
        except EnipRefused as refused:
            return refused.reply
        except (EnipTimeout, EnipLost, OSError):
            return None

    def _withdrawn(self, answer: bytes) -> Optional[bytes]:
        """Takes the answer. Returns the reply to the command's request if it was executed, None if it was withdrawn."""
        assert self._once is not None
        outcome = self._once.withdrawn(answer)
        if outcome.kind not in (OutcomeKind.WITHDRAWN, OutcomeKind.DONE):
            raise EnipError(_NOT_WITHDRAWN.get(outcome.kind) or _refused_withdrawal(outcome.general))
        self._store(self._values, None)
        return outcome.reply if outcome.kind == OutcomeKind.DONE else None

    def _take(self, once: Optional[Once]) -> None:
        """Frees the originator's end, and goes on with another."""
        if self._once is not None:
            self._once.close()
        self._once = once

    def _exchange(self, request: bytes) -> Optional[bytes]:
        """Sends the command over a new connection. Returns the reply to its request, or None if it is not done."""
        try:
            client = Client(*self._address, self._timeout)
        except (EnipTimeout, EnipLost, OSError):
            return None
        with client:
            try:
                self._give(self._life_at(client), request)
                return self._send(client)
            except (EnipTimeout, EnipLost):
                return None

    @staticmethod
    def _life_at(client: Client) -> int:
        try:
            return int.from_bytes(client.get(_LEDGER, 1, 3), "little")
        except EnipRefused as error:
            if error.general == _UNKNOWN_CLASS:
                raise EnipError("the device has no command ledger") from error
            raise

    def _give(self, life: int, request: bytes) -> None:
        """Gives the command, unless it is pending. It is in the file before the first byte of it is sent."""
        if self.pending is not None:
            if self._values.life != life:
                raise EnipError("the device was started again, and may have executed the pending command before")
            return
        once = Once(self._values._replace(life=life))
        self._take(once)
        once.command(request)
        self._store(once.values, request)

    def _send(self, client: Client) -> Optional[bytes]:
        """Sends the pending command. Returns the reply to its request, or None if it is not done."""
        assert self._once is not None
        message = self._once.resend()
        assert message is not None
        try:
            answer = client.ask(message)
        except EnipRefused as refused:
            answer = refused.reply
        outcome = self._once.receive(answer)
        if outcome.kind == OutcomeKind.REFUSED:
            raise EnipError("the device refused the command: " + status_text(Of.GENERAL, outcome.general))
        if outcome.kind == OutcomeKind.IN_DOUBT:
            raise EnipError("the device does not know whether it executed the command: its owner has to settle that")
        if outcome.kind == OutcomeKind.WITHDRAWN:
            self._store(self._values, None)
            raise EnipError("the command was withdrawn, and is never executed")
        if outcome.kind != OutcomeKind.DONE:
            return None
        self._store(self._values, None)
        return outcome.reply

    def _read(self) -> None:
        """Makes the commander that the file describes."""
        with open(self._file) as file:
            text = file.read()
        lines = r"enip commands 1\noriginator ([0-9a-f]{16})\nlife (\d+)\nnumber (\d+)\npending (none|([0-9a-f]{2})+)\n"
        found = re.fullmatch(lines, text)
        if found is None:
            raise EnipError(self._file + ": not a file of commands")
        self._values = OnceValues(int(found[2]), int(found[1], 16), int(found[3]))
        if found[4] != "none":
            self.pending = bytes.fromhex(found[4])
            self._take(Once(self._values, self.pending))

    def _store(self, values: OnceValues, pending: Optional[bytes]) -> None:
        """Writes a new file, which takes the place of the old one. On return it is on the disk."""
        request = "none" if pending is None else pending.hex()
        life, originator, number = values
        text = f"enip commands 1\noriginator {originator:016x}\nlife {life}\nnumber {number}\npending {request}\n"
        with open(self._file + ".new", "w") as file:
            file.write(text)
            file.flush()
            os.fsync(file.fileno())
        os.replace(self._file + ".new", self._file)
        folder = os.open(os.path.dirname(self._file), os.O_RDONLY)
        os.fsync(folder)
        os.close(folder)
        self._values, self.pending = values, pending

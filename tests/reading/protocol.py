"""What the second reading uses of the standard: numbers, statuses, and the layout of a request and its path."""

IDENTITY, ASSEMBLY, CONNECTION_MANAGER, COUNTER, LEDGER = 0x01, 0x04, 0x06, 0x64, 0x65
GET_ALL, GET_LIST, SET_LIST, GET, SET, GET_MEMBER, SET_MEMBER = 0x01, 0x03, 0x04, 0x0E, 0x10, 0x18, 0x19
RESET = 0x05
ADD, CLEAR = 0x32, 0x33
PACKET = 0x0A
DO_ONCE, GET_LAST, FORGET, WITHDRAW, GET_SLOTS = 0x4B, 0x4C, 0x4D, 0x4F, 0x50
FORWARD_CLOSE, FORWARD_OPEN, LARGE_FORWARD_OPEN = 0x4E, 0x54, 0x5B
PATH_SEGMENT, DESTINATION, SERVICE, VALUE, LIST, NOT_SETTABLE = 0x04, 0x05, 0x08, 0x09, 0x0A, 0x0E
TOO_LARGE, SHORT, ATTRIBUTE, LONG, PARAMETER, PATH_SIZE, MEMBER = 0x11, 0x13, 0x14, 0x15, 0x20, 0x26, 0x28
NO_SLOT, NOT_NEW, OTHER_LIFE, UNKNOWN_ORIGINATOR, IS_PENDING = 0x02, 0x0C, 0x10, 0x16, 0xD0
CONNECTION_FAILURE = 0x01
# There is no owner to execute a request, or to decide on it.
DEVICE_STATE = 0x10
# What a reader is refused: the sets of the standard and Reset, and the services that a vendor or a class defines.
PRIVILEGE_VIOLATION = 0x0F
CHANGES, FIRST_OWN, LAST_OWN = (0x02, SET_LIST, RESET, SET, SET_MEMBER), 0x32, 0x63
# The shares that limit nothing.
MOST_PEERS, MOST_CONNECTIONS = 16, 64
NOP, LIST_SERVICES, LIST_IDENTITY, LIST_INTERFACES = 0x0000, 0x0004, 0x0063, 0x0064
REGISTER, UNREGISTER, SEND_RR_DATA, SEND_UNIT_DATA = 0x0065, 0x0066, 0x006F, 0x0070
NULL_ADDRESS, CONNECTED_ADDRESS, CONNECTED_DATA, UNCONNECTED_DATA = 0x0000, 0x00A1, 0x00B1, 0x00B2
ROOM = 504
LARGEST_ASSEMBLY, LARGEST_SIZE = 3900, 4002
LAST = 2**32 - 1
LAST_MOMENT = 2**64 - 1
TEN_SECONDS = 10_000_000
# The greatest number of requests after the last one whose reply was accepted.
MOST = 65535
# The optional keys of a configuration, and their defaults.
DEFAULTS = {
    "status": 0, "state": 3, "address": [0, 0, 0, 0], "port": 44818, "peers": 4, "connections": 16,
    "first_handle": 1, "first_id": 1, "value": 0, "limit": LAST,
}
SEGMENTS = {
    0x20: ("class", 1), 0x21: ("class", 2), 0x24: ("instance", 1), 0x25: ("instance", 2), 0x26: ("instance", 4),
    0x28: ("member", 1), 0x29: ("member", 2), 0x30: ("attribute", 1), 0x31: ("attribute", 2),
}
ORDER = ["class", "instance", "attribute", "member"]


class Refusal(Exception):
    """The general status that refuses a request, and the extended one of a connection failure."""


def number(size, value):
    return value.to_bytes(size, "little")


def check(holds, *statuses):
    if not holds:
        raise Refusal(*statuses)


def check_length(data, length):
    check(len(data) >= length, SHORT)
    check(len(data) <= length, LONG)


def path_of(text):
    """The values of a path's segments, or None if it is malformed."""
    values, last = {}, -1
    while text:
        kind, width = SEGMENTS.get(text[0], (None, 0))
        size = 2 if width == 1 else 2 + width
        if kind is None or len(text) < size:
            return None
        place = ORDER.index(kind)
        if place <= last or place > len(values) and len(values) < 2:
            return None
        values[kind] = text[1] if width == 1 else int.from_bytes(text[2:size], "little")
        last, text = place, text[size:]
    return values if "instance" in values else None


def request_of(request):
    """The service, the path and the data of a router request."""
    end = 2 + 2 * request[1]
    check(len(request) >= end, PATH_SIZE)
    path = path_of(request[2:end])
    check(path is not None, PATH_SEGMENT)
    return request[0], path, request[end:]


def path_read(request):
    """The path of a request, or None if it can't be read."""
    try:
        return request_of(request)[1]
    except Refusal:
        return None


def class_of(request):
    """The class that the path of a request names, or None if the path can't be read."""
    path = path_read(request)
    return path and path["class"]


def is_change(request):
    """Whether a request could change something, by its service. A last command and the slots of the ledger are only read.
    A packet of requests is looked at in `Readable`."""
    if request[0] in (GET_LAST, GET_SLOTS) and class_of(request) == LEDGER:
        return False
    return request[0] in CHANGES or FIRST_OWN <= request[0] <= LAST_OWN


def to_manager(request):
    """Whether a request is an opening or a closing at the Connection Manager."""
    path, services = path_read(request), (FORWARD_OPEN, LARGE_FORWARD_OPEN, FORWARD_CLOSE)
    return path is not None and request[0] in services and (path["class"], path["instance"]) == (CONNECTION_MANAGER, 1)

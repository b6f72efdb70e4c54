"""The second reading of class 3 connections and of the Connection Manager."""
import struct
from dataclasses import dataclass

from reading.protocol import (
    CONNECTION_FAILURE, FORWARD_CLOSE, FORWARD_OPEN, LARGE_FORWARD_OPEN, LARGEST_SIZE, LAST, LAST_MOMENT,
    MOST_CONNECTIONS, SHORT, TEN_SECONDS, check, check_length, number, path_of, Refusal, request_of,
)


@dataclass
class Connection:
    """An open class 3 connection: its session, IDs, numbers, sizes and times, the count and reply that are kept, and the
    group of the peer that opened it."""

    session: int
    o_t_id: int
    t_o_id: int
    numbers: bytes
    o_t_size: int
    t_o_size: int
    time: int
    deadline: int
    count: bytes = b""
    reply: bytes = b""
    group: object = None

    def item(self, device, now, item):
        """The count and reply that answer an item, or None if it is dropped."""
        if not 4 <= len(item) <= self.o_t_size:
            return None
        self.deadline = min(now + self.time, LAST_MOMENT)
        if item[:2] != self.count:
            self.count, self.reply = item[:2], device.execute(item[2:], self.t_o_size - 2)
        return self.count + self.reply


def refuses_key(key, config):
    """The extended status with which the device refuses an electronic key, or None."""
    vendor, device_type, product_code, major, minor = struct.unpack("<HHHBB", key)
    if vendor not in (0, config["vendor"]) or product_code not in (0, config["product_code"]):
        return 0x0114
    if device_type not in (0, config["device_type"]):
        return 0x0115
    compatible = major >= 0x80 and minor <= config["minor"]
    if major % 0x80 not in (0, config["major"]) or minor not in (0, config["minor"]) and not compatible:
        return 0x0116
    return None


@dataclass
class Layout:
    """The layout of an opening: the number of bytes before its path, the format of both intervals and parameters from
    byte 22 on, the lowest bit of the type in the parameters, and the mask of the size."""

    before_path: int
    directions: str
    kind: int
    size: int


LAYOUTS = {FORWARD_OPEN: Layout(36, "<IHIH", 13, 0x1FF), LARGE_FORWARD_OPEN: Layout(40, "<IIII", 29, 0xFFFF)}


class Manager:
    """The Connection Manager of a configuration."""

    def __init__(self, config):
        self.config, self.next_id, self.connections = config, config["first_id"], []

    def end(self, ends):
        self.connections = [one for one in self.connections if not ends(one)]

    def execute(self, now, session, request, group=None):
        """The reply to an opening or a closing of a peer of a group."""
        service, _, data = request_of(request)
        closes, layout = service == FORWARD_CLOSE, LAYOUTS.get(service)
        numbers = data[2:10] if closes else data[10:18]
        try:
            if closes:
                reply = self.close(session, numbers, data)
            else:
                reply = self.open(now, session, numbers, data, layout, group)
        except Refusal as refusal:
            status, *extended = refusal.args
            reply = bytes([service | 0x80, 0, status, len(extended)]) + b"".join(number(2, one) for one in extended)
            return reply + (numbers + bytes(2) if status == CONNECTION_FAILURE else b"")
        return bytes([service | 0x80, 0, 0, 0]) + reply

    def open(self, now, session, numbers, data, layout, group):
        check(len(data) >= layout.before_path, SHORT)
        check_length(data, layout.before_path + 2 * data[layout.before_path - 1])
        t_o_id, multiplier, transport = int.from_bytes(data[6:10], "little"), data[18], data[layout.before_path - 2]
        o_t_interval, o_t, t_o_interval, t_o = struct.unpack_from(layout.directions, data, 22)
        self.check_path(data[layout.before_path :])
        check(transport & 0x8F == 0x83, CONNECTION_FAILURE, 0x0103)
        one_to_one = all(parameters >> layout.kind & 3 == 2 for parameters in (o_t, t_o))
        check(one_to_one and multiplier <= 7, CONNECTION_FAILURE, 0x0108)
        o_t_size, t_o_size = o_t & layout.size, t_o & layout.size
        check(4 <= o_t_size <= LARGEST_SIZE and 10 <= t_o_size <= LARGEST_SIZE, CONNECTION_FAILURE, 0x0109)
        check(o_t_interval != 0, CONNECTION_FAILURE, 0x0111)
        check(all(one.numbers != numbers for one in self.connections), CONNECTION_FAILURE, 0x0100)
        free = len(self.connections) < self.config["connections"]
        check(free and self.next_id <= LAST, CONNECTION_FAILURE, 0x0113)
        own = sum(one.group == group for one in self.connections)
        share = self.config.get("connections_per_address", MOST_CONNECTIONS)
        check(group is None or own < share, CONNECTION_FAILURE, 0x0113)
        o_t_id, time = self.next_id, o_t_interval * 4 * 2**multiplier
        deadline = min(now + max(time, TEN_SECONDS), LAST_MOMENT)
        self.next_id += 1
        opened = Connection(session, o_t_id, t_o_id, numbers, o_t_size, t_o_size, time, deadline, group=group)
        self.connections.append(opened)
        intervals = number(4, o_t_interval) + number(4, t_o_interval)
        return number(4, o_t_id) + number(4, t_o_id) + numbers + intervals + bytes(2)

    def check_path(self, text):
        key = b""
        if text[:2] == b"\x34\x04" and len(text) >= 10:
            key, text = text[2:10], text[10:]
        path = path_of(text)
        check(path is not None, CONNECTION_FAILURE, 0x0315)
        refused = refuses_key(key, self.config) if key else None
        check(refused is None, CONNECTION_FAILURE, refused)
        check(path == {"class": 2, "instance": 1}, CONNECTION_FAILURE, 0x0117)

    def close(self, session, numbers, data):
        check(len(data) >= 12, SHORT)
        check_length(data, 12 + 2 * data[10])
        ends = [one for one in self.connections if (one.session, one.numbers) == (session, numbers)]
        check(ends, CONNECTION_FAILURE, 0x0107)
        self.end(lambda one: one in ends)
        return numbers + bytes(2)

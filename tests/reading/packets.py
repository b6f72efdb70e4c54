"""The second reading of packets: several requests in one, and their replies in one."""
from reading.networks import MESSAGE_ROUTER
from reading.protocol import LONG, PACKET, SHORT, TOO_LARGE, Refusal, check, number, path_read, request_of

# The least room of the reply to each request of a packet.
LEAST_ROOM = 8
# The general status of a packet of which a request was refused.
EMBEDDED_ERROR = 0x1E


def is_packet(request):
    path = path_read(request)
    return request[0] == PACKET and path is not None and (path["class"], path["instance"]) == (MESSAGE_ROUTER, 1)


def requests_in(data):
    """The requests of a packet with these data, in their order."""
    check(len(data) >= 2, SHORT)
    count = int.from_bytes(data[:2], "little")
    behind = 2 + 2 * count
    check(len(data) >= behind, SHORT)
    edges = [int.from_bytes(data[place : place + 2], "little") for place in range(2, behind, 2)] + [len(data)]
    check(edges[0] >= behind, SHORT)
    check(edges[0] <= behind, LONG)
    spans = list(zip(edges, edges[1:]))
    check(all(start + 2 <= end for start, end in spans), SHORT)
    return [data[start:end] for start, end in spans]


def joined(parts):
    """The count of requests or replies, the offset of each, and all of them."""
    offsets, place = b"", 2 + 2 * len(parts)
    for part in parts:
        offsets, place = offsets + number(2, place), place + len(part)
    return number(2, len(parts)) + offsets + b"".join(parts)


def executed(execute, request, room):
    """The reply to a packet. `execute` executes one request, whose reply may have so many bytes."""
    try:
        requests = requests_in(request_of(request)[2])
        check(room >= 6 + (2 + LEAST_ROOM) * len(requests), TOO_LARGE)
    except Refusal as refusal:
        return bytes([PACKET | 0x80, 0, refusal.args[0], 0])
    left, replies = room - 6 - 2 * len(requests), []
    for index, one in enumerate(requests):
        replies.append(execute(one, left - LEAST_ROOM * (len(requests) - index - 1)))
        left -= len(replies[-1])
    status = EMBEDDED_ERROR if any(reply[2] for reply in replies) else 0
    return bytes([PACKET | 0x80, 0, status, 0]) + joined(replies)


class Packing:
    """Makes packets, with and without faults. It is a part of what chooses from a seed."""

    def packet(self, config, request):
        """A packet of requests that `request` makes of a configuration."""
        count = self.pick(0, 1, 1, 2, 2, 3, 3, 5, 49, 50) if self.seldom(0.2) else self.pick(1, 2, 3)
        requests = [request(config) for _ in range(count)]
        if self.seldom(0.2) and requests:
            # a packet within a packet
            requests[self.random.randrange(count)] = self.packet_of(joined([b"\x0e\x00"]))
        data = bytearray(joined(requests))
        if self.seldom(0.15) and count:
            place = 2 + 2 * self.random.randrange(count)
            wrong = int.from_bytes(data[place : place + 2], "little") + self.pick(-2, -1, 1, 2)
            data[place : place + 2] = number(2, wrong % 65536)
        if self.seldom(0.1):
            data = data[: self.random.randrange(len(data))] if self.seldom(0.5) else data + bytes(1)
        return self.packet_of(bytes(data))

    def packet_of(self, data):
        path = self.right_path(MESSAGE_ROUTER, self.pick(0, 2) if self.seldom() else 1)
        path += self.segment("attribute", 1) if self.seldom() else b""
        return bytes([PACKET, len(path) // 2]) + path + data

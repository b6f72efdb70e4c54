"""A small router for tests: it reads routes from the standard's tables, and not from the program's sources (Volume 1,
port segments, Unconnected_Send and Forward_Open; Volume 2, encapsulation).

A node has ports. Behind a port are other nodes, each at a link address. At the end of a route is a device, which
answers requests of the message router. A node without an answer says nothing, and the router before it reports a
timeout.
"""
import contextlib
import socket
import struct
import threading

from wire_frames import frame, read_all

# Extended statuses of the Connection Manager, each with general status 1.
TIMED_OUT, NO_PORT, NO_LINK, BAD_SEGMENT = 0x0204, 0x0311, 0x0312, 0x0315
UNCONNECTED_SEND, FORWARD_OPEN, LARGE_FORWARD_OPEN, FORWARD_CLOSE = 0x52, 0x54, 0x5B, 0x4E
# The Connection Manager, class 6, instance 1, and the message router, class 2, instance 1.
MANAGER, MESSAGE_ROUTER = bytes.fromhex("20062401"), bytes.fromhex("20022401")


class Refused(Exception):
    """A router does not pass a request on: the extended status, and the bytes of the path that are left."""

    def __init__(self, extended, left):
        super().__init__(extended)
        self.extended, self.left = extended, left


def segment(path):
    """The port and the link of the port segment at the front of a path, and the rest."""
    try:
        first, at, size = path[0], 1, 1
        if first >> 5:
            raise Refused(BAD_SEGMENT, path)
        if first & 0x10:
            size, at = path[1], 2
        port = first & 0x0F
        if port == 15:
            port, at = struct.unpack_from("<H", path, at)[0], at + 2
        link = path[at:at + size]
        at += size + (at + size) % 2
    except (IndexError, struct.error):
        raise Refused(BAD_SEGMENT, path) from None
    if port == 0 or len(path) < at:
        raise Refused(BAD_SEGMENT, path)
    return port, link, path[at:]


class Node:
    """A node of a network: the nodes behind each of its ports, by link address, and what it answers to a request. It
    records the requests that reach it."""

    def __init__(self, ports=None, answer=None):
        self.ports, self.answer, self.requests = ports or {}, answer, []

    def next(self, path):
        """The node to which the first segment of a path leads, and the rest of the path."""
        port, link, rest = segment(path)
        if port not in self.ports:
            raise Refused(NO_PORT, path)
        if link not in self.ports[port]:
            raise Refused(NO_LINK, path)
        return self.ports[port][link], rest

    def end(self, path):
        """The node at the end of the port segments at the front of a path, and the rest."""
        node = self
        while path and path[0] < 0x20:
            node, path = node.next(path)
        return node, path

    def ask(self, request):
        """What the node answers to a request."""
        self.requests.append(request)
        if self.answer is None:
            raise Refused(TIMED_OUT, b"")
        return self.answer(request)

    def unconnected(self, request):
        """The reply to a request without a connection."""
        service, size = request[0], request[1]
        path, data = request[2:2 + 2 * size], request[2 + 2 * size:]
        if path != MANAGER or service != UNCONNECTED_SEND:
            return self.ask(request)
        self.requests.append(request)
        length = struct.unpack_from("<H", data, 2)[0]
        at = 4 + length + length % 2
        message, words, route = data[4:4 + length], data[at], data[at + 2:]
        assert len(route) == 2 * words and data[at + 1] == 0 and data[4 + length:at] == bytes(length % 2), data.hex()
        try:
            node, rest = self.next(route)
            while rest:
                node, rest = node.next(rest)
            return node.ask(message)
        except Refused as refused:
            return refusal(service, refused)


def refusal(service, refused):
    """The reply of a router that does not pass a request on: status, one additional word, and the size in words of the
    path that is left."""
    return bytes([service | 0x80, 0, 1, 1]) + struct.pack("<HB", refused.extended, len(refused.left) // 2)


class Router(threading.Thread):
    """A node that is reached over TCP. It also opens connections to the nodes behind it."""

    def __init__(self, node, port=0):
        super().__init__(daemon=True)
        self.node, self.listener = node, socket.create_server(("127.0.0.1", port))
        self.at = "127.0.0.1:%d" % self.listener.getsockname()[1]
        self.start()

    def run(self):
        with contextlib.suppress(OSError):
            while True:
                peer, _ = self.listener.accept()
                threading.Thread(target=self.serve, args=(peer,), daemon=True).start()

    def serve(self, peer):
        connections = {}
        with peer, contextlib.suppress(OSError, struct.error):
            while True:
                header = read_all(peer, 24)
                command, length, session = struct.unpack("<HHI", header[:8])
                body = read_all(peer, length)
                if command == 0x65:
                    peer.sendall(frame(0x65, 7, body, context=header[12:20]))
                elif command == 0x6F:
                    reply = self.reply(body[16:], connections)
                    items = body[:14] + struct.pack("<H", len(reply)) + reply
                    peer.sendall(frame(0x6F, session, items, context=header[12:20]))
                elif command == 0x70:
                    peer.sendall(self.item(body, session, connections))
                else:
                    return

    def reply(self, request, connections):
        """The reply to a request without a connection: opens and closes follow the route of their path."""
        if request[2:6] != MANAGER or request[0] not in (FORWARD_OPEN, FORWARD_CLOSE):
            return self.node.unconnected(request)
        self.node.requests.append(request)
        data = request[6:]
        before = 36 if request[0] == FORWARD_OPEN else 12
        words = data[35] if request[0] == FORWARD_OPEN else data[10]
        path = data[before:]
        assert len(path) == 2 * words, data.hex()
        try:
            node, left = self.node.end(path)
            if left != MESSAGE_ROUTER:
                raise Refused(BAD_SEGMENT, left)
        except Refused as refused:
            return refusal(request[0], refused)
        if request[0] == FORWARD_OPEN:
            connections[0x0F1E2D3C] = (node, data[6:10], path)
            return bytes([0xD4, 0, 0, 0]) + struct.pack("<I", 0x0F1E2D3C) + data[6:18] + 2 * data[22:26] + bytes(2)
        # a close has the path of the opening
        assert path == connections[0x0F1E2D3C][2], (path.hex(), connections)
        return bytes([0xCE, 0, 0, 0]) + data[2:10] + bytes(2)

    def item(self, body, session, connections):
        """The item that answers an item of a connection: the same count, and the reply of the node at its end."""
        connection = struct.unpack_from("<I", body, 12)[0] if len(body) > 16 else 0
        node, back, _path = connections[connection]
        item = body[20:22] + node.ask(body[22:])
        head = bytes(6) + struct.pack("<HHH", 2, 0xA1, 4) + back + struct.pack("<HH", 0xB1, len(item))
        return frame(0x70, session, head + item, context=bytes(8))

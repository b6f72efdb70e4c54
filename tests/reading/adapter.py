"""The second reading of the encapsulation: packets, peers and their streams."""
import struct

from reading.protocol import (
    CONNECTED_ADDRESS, CONNECTED_DATA, IDENTITY, LAST, LIST_IDENTITY, LIST_INTERFACES, LIST_SERVICES, MOST_PEERS, NOP,
    NULL_ADDRESS, REGISTER, ROOM, SEND_RR_DATA, SEND_UNIT_DATA, UNCONNECTED_DATA, UNREGISTER, number, to_manager,
)
from reading.ledger import Device, Readable
from reading.manager import Manager


def items_of(body):
    """The packet items of a body, each with its type and data, or None if the body is malformed."""
    if len(body) < 8 or body[:4] != bytes(4):
        return None
    items, rest = [], body[8:]
    for _ in range(int.from_bytes(body[6:8], "little")):
        if len(rest) < 4:
            return None
        kind, length = struct.unpack("<HH", rest[:4])
        if len(rest) < 4 + length:
            return None
        items.append((kind, rest[4 : 4 + length]))
        rest = rest[4 + length :]
    return None if rest or len(items) < 2 else items


def message_of(body):
    """The data of the unconnected item, or None if the body is malformed."""
    items = items_of(body)
    if items is None or items[0] != (NULL_ADDRESS, b"") or items[1][0] != UNCONNECTED_DATA:
        return None
    return items[1][1]


def connected_of(body):
    """The connection ID and the data of the connected item, or None if the body is malformed."""
    items = items_of(body)
    if items is None or items[0][0] != CONNECTED_ADDRESS or len(items[0][1]) != 4 or items[1][0] != CONNECTED_DATA:
        return None
    return int.from_bytes(items[0][1], "little"), items[1][1]


def body_of(*items):
    """A body with these packet items, interface and timeout 0."""
    text = b"".join(number(2, kind) + number(2, len(data)) + data for kind, data in items)
    return bytes(6) + number(2, len(items)) + text


# What a peer may do.
READ, WRITE = "read", "write"


class Peer:
    """A peer: its handle, what it may do, and the group for whom the shares count. None is nobody's share."""

    def __init__(self, handle, rights, group):
        self.handle, self.registered, self.closed, self.held = handle, False, False, b""
        self.rights, self.group = rights, group


class Adapter:
    """The adapter of a configuration: its peers by their digit, its connections, its device and its time."""

    def __init__(self, config):
        self.config, self.device, self.manager = config, Device(config), Manager(config)
        self.given, self.now, self.next_handle, self.peers = 0, 0, config["first_handle"], {}

    def update_time(self):
        """Sets the time to the greatest `now` so far, and ends the connections whose deadline it has reached."""
        self.now = max(self.now, self.given)
        self.manager.end(lambda one: one.deadline <= self.now)

    def begin(self, digit, rights=WRITE, group=None):
        """Begins a peer. Returns None, or the reason why it can't begin."""
        own = sum(peer.group == group for peer in self.peers.values())
        if group is not None and own >= self.config.get("per_address", MOST_PEERS):
            return 3
        if len(self.peers) == self.config["peers"]:
            return 1
        if self.next_handle > LAST:
            return 2
        self.peers[digit] = Peer(self.next_handle, rights, group)
        self.next_handle += 1
        return None

    def end(self, digit):
        if digit in self.peers:
            self.close(self.peers.pop(digit))

    def close(self, peer):
        peer.closed = True
        self.manager.end(lambda one: one.session == peer.handle)

    def line(self, digit, piece, rights=WRITE, group=None):
        """The lines printed for a piece of a peer's stream. The first piece begins the peer."""
        full = self.begin(digit, rights, group) if digit not in self.peers else None
        if full is not None:
            return ["%d full %d" % (digit, full)]
        peer = self.peers[digit]
        if peer.closed:
            return []
        lines = ["%d %s" % (digit, answer.hex()) for answer in self.answers(peer, piece)]
        return lines + ["%d closed" % digit] if peer.closed else lines

    def answers(self, peer, piece):
        """The answers to a piece of a peer's stream."""
        peer.held += piece
        self.update_time()
        while not peer.closed and len(peer.held) >= 24:
            self.update_time()
            command, length, session, status = struct.unpack("<HHII", peer.held[:12])
            context, options = peer.held[12:20], peer.held[20:24]
            if length > 65511:
                self.close(peer)
                reply = 0x65, b"", session
            elif len(peer.held) < 24 + length:
                return
            else:
                data, peer.held = peer.held[24 : 24 + length], peer.held[24 + length :]
                quiet = status != 0 or options != bytes(4)
                reply = None if quiet else self.reply(peer, command, session, data)
            if reply is not None:
                status, data, session = reply
                yield struct.pack("<HHII", command, len(data), session, status) + context + bytes(4) + data

    def reply(self, peer, command, session, data):
        """Status, data and session of the reply to a frame, or None."""
        own = peer.registered and session == peer.handle
        if command in (LIST_SERVICES, LIST_IDENTITY, LIST_INTERFACES):
            return 0, self.list_data(command), session
        if command == REGISTER:
            return self.register(peer, session, data)
        if command == SEND_RR_DATA:
            return self.unconnected(session, data) if own else (0x64, b"", session)
        if command == SEND_UNIT_DATA:
            return self.connected(session, data) if own else None
        if command == UNREGISTER and own:
            self.close(peer)
        return None if command in (NOP, UNREGISTER) else (0x01, b"", session)

    def list_data(self, command):
        config = self.config
        if command == LIST_INTERFACES:
            return number(2, 0)
        if command == LIST_SERVICES:
            kind, item = 0x0100, number(2, 1) + number(2, 0x0020) + b"Communications\0\0"
        else:
            socket_address = struct.pack(">HH", 2, config["port"]) + bytes(config["address"]) + bytes(8)
            identity = b"".join(self.device.objects.attribute(IDENTITY, 1, attribute) for attribute in range(1, 9))
            kind, item = 0x000C, number(2, 1) + socket_address + identity
        return number(2, 1) + number(2, kind) + number(2, len(item)) + item

    def register(self, peer, session, data):
        if len(data) != 4:
            return 0x65, b"", session
        if peer.registered:
            return 0x01, b"", session
        if data[:2] != b"\x01\x00":
            return 0x69, b"\x01\x00\x00\x00", session
        if data[2:] != bytes(2):
            return 0x03, b"", session
        peer.registered = True
        return 0, b"\x01\x00\x00\x00", peer.handle

    def peer_of(self, session):
        return next(peer for peer in self.peers.values() if peer.handle == session)

    def device_of(self, session):
        """The device as the peer with this session sees it."""
        return self.device if self.peer_of(session).rights == WRITE else Readable(self.device)

    def unconnected(self, session, data):
        message = message_of(data)
        if message is None or len(message) < 2:
            return 0x03, b"", session
        if to_manager(message):
            reply = self.manager.execute(self.now, session, message, self.peer_of(session).group)
        else:
            reply = self.device_of(session).execute(message, ROOM)
        return 0, body_of((NULL_ADDRESS, b""), (UNCONNECTED_DATA, reply)), session

    def connected(self, session, data):
        found = connected_of(data)
        for one in self.manager.connections if found else []:
            if (one.session, one.o_t_id) == (session, found[0]):
                item = one.item(self.device_of(session), self.now, found[1])
                address = CONNECTED_ADDRESS, number(4, one.t_o_id)
                return item and (0, body_of(address, (CONNECTED_DATA, item)), session)
        return None

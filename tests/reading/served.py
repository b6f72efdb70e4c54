"""Random conversations of writers and readers with `enip serve`, whose peers have addresses of the loopback."""
import contextlib
import socket
import time

import rows
from reading.adapter import READ, WRITE, Adapter
from reading.conversations import Conversation
from reading.protocol import GET, LEDGER, LIST_INTERFACES, number

# What the addresses of a conversation may do. The last one is in neither list.
ADDRESSES = {"127.3.0.1": WRITE, "127.3.0.2": WRITE, "127.3.1.1": READ, "127.3.1.2": READ, "127.4.0.1": None}
ACCESS = {"read": '["127.3.1.0/24"]', "write": '["127.3.0.0/24"]'}
# The interval of the connections that are opened, and for how many seconds a conversation goes on: no connection times
# out, and no peer gives way.
LONG_INTERVAL, LONGEST = 30_000_000, 8
TURNS = 150


class Served(Conversation):
    """Makes a conversation while it runs, and compares each answer at once. `compared` counts the bytes."""

    def networks(self):
        """No TCP/IP Interface: if its timeout were set, peers would be ended."""
        return []

    def add_router(self, config):
        """No Message Router: how many connections it shows depends on the rounds in which requests are read."""

    def config(self):
        """A configuration for several peers, without an owner, and with shares. Few have no handle left at once."""
        config = super().config()
        # a Reset would end all peers
        config["reset"] = False
        config["peers"] = self.pick(2, 3, 4, 6, 9)
        config["first_handle"] = self.pick(1, 1, 2**16, config["first_handle"])
        config["omitted"] = [key for key in config["omitted"] if key not in ("peers", "first_handle")]
        for one in config["objects"]:
            one["services"] = []
            for attribute in one["attributes"]:
                attribute["checked"] = False
        shares = {"per_address": self.pick(None, 1, 2, 3, 16), "connections_per_address": self.pick(None, 1, 1, 2, 64)}
        config.update({key: value for key, value in shares.items() if value})
        return config

    def opening(self, config, taken, large):
        """An opening whose connection does not time out, unless its interval is 0."""
        data = super().opening(config, taken, large)
        if len(data) < 26 or data[22:26] == bytes(4):
            return data
        return data[:22] + number(4, LONG_INTERVAL) + data[26:]

    def converse(self, program, path):
        """Runs a conversation with a device of a configuration file. Returns what differs, or None."""
        self.adapter, self.kept, self.sent, self.compared = Adapter(self.configuration), {}, {}, 0
        self.sockets = {}
        end = time.monotonic() + LONGEST
        with rows.Server(program, path, "--idle", "0") as server:
            self.server = server
            self.first_peer()
            for turn in range(TURNS):
                if time.monotonic() > end:
                    break
                different = self.turn()
                if different:
                    return "turn %d: %s" % (turn + 1, different)
            return self.nothing_more()

    def first_peer(self):
        """A peer that takes the first session. It reads the life of the ledger, which the device has from the clock."""
        path = bytes([3, 0x20, LEDGER, 0x24, 1, 0x30, 3])
        with self.connection("127.3.0.1") as peer:
            peer.sendall(self.simple(0x65, 0, b"\1\0\0\0"))
            handle = int.from_bytes(rows.exactly(peer, 28)[4:8], "little")
            self.descriptors = self.server.descriptors() - 1
            if self.configuration["ledger"]:
                request = bytes(6) + number(2, 2) + bytes(4) + number(2, 0xB2) + number(2, 8) + bytes([GET]) + path
                peer.sendall(self.simple(0x6F, handle, request))
                life = int.from_bytes(rows.exactly(peer, 24 + 16 + 4 + 8)[-8:], "little")
                self.configuration["ledger"]["life"] = self.adapter.device.ledger.life = life
        self.settle()
        self.adapter.next_handle += 1

    def simple(self, command, session, data):
        return number(2, command) + number(2, len(data)) + number(4, session) + bytes(16) + data

    def connection(self, address):
        peer = socket.create_connection(("127.0.0.1", self.server.port), rows.LATE, (address, 0))
        peer.setsockopt(socket.IPPROTO_TCP, socket.TCP_NODELAY, 1)
        return peer

    def settle(self):
        """Waits until the device has accepted or closed what was opened or closed."""
        end = time.monotonic() + rows.LATE
        while self.server.descriptors() != self.descriptors + len(self.sockets) and time.monotonic() < end:
            time.sleep(0.0005)

    def leave(self, digit):
        self.sockets.pop(digit).close()
        self.settle()
        self.adapter.end(digit)
        self.kept.pop(digit, None)

    def turn(self):
        """A peer connects, sends a text in pieces, or leaves. Returns what differs, or None."""
        digit = self.pick(*self.sockets) if self.sockets and self.seldom(0.85) else self.random.randint(1, 9)
        if digit not in self.sockets:
            return self.begin_peer(digit)
        if self.seldom(0.03):
            self.leave(digit)
            return None
        return self.exchange(digit, self.text(digit))

    def begin_peer(self, digit):
        address = self.pick(*ADDRESSES)
        rights = ADDRESSES[address]
        full = self.adapter.begin(digit, rights, address) if rights else "in neither list"
        peer = self.connection(address)
        if full is None:
            self.sockets[digit] = peer
            self.settle()
            return None
        with peer:
            got = self.received(peer, 1)
        self.settle()
        return "%s is not refused (%s): %s" % (address, full, got.hex()) if got else None

    def received(self, peer, size):
        """The bytes that arrive, at most so many: fewer if the stream ends."""
        text = b""
        with contextlib.suppress(ConnectionError):
            while len(text) < size and (more := peer.recv(size - len(text))):
                text += more
        return text

    def exchange(self, digit, text):
        """Sends a text, and compares the answers and the end of the stream."""
        peer, model = self.sockets[digit], self.adapter.peers[digit]
        wanted = b""
        for piece in self.pieces(text):
            peer.sendall(piece)
            if not model.closed:
                wanted += b"".join(self.adapter.answers(model, piece))
        size = len(wanted) + (1 if model.closed else 0)
        got = self.received(peer, size)
        self.compared += len(got)
        if got != wanted:
            return "peer %d (%s) got %s, wanted %s" % (digit, model.rights, got.hex(), wanted.hex())
        if model.closed:
            self.leave(digit)
        return None

    def nothing_more(self):
        """Each peer gets the answer to a last list, and nothing else."""
        for digit in list(self.sockets):
            if not self.kept.get(digit) and not self.adapter.peers[digit].held:
                different = self.exchange(digit, self.simple(LIST_INTERFACES, 0, b""))
                if different:
                    return "at the end: " + different
        for peer in self.sockets.values():
            peer.close()
        return None


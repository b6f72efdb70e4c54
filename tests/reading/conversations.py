"""Random conversations, with and without faults."""
import struct

from reading.protocol import (
    ASSEMBLY, CONNECTED_ADDRESS, CONNECTED_DATA, CONNECTION_MANAGER, COUNTER, FORWARD_CLOSE, FORWARD_OPEN, GET,
    IDENTITY, LARGE_FORWARD_OPEN, LARGEST_SIZE, LAST, LAST_MOMENT, LEDGER, LIST_IDENTITY, LIST_INTERFACES,
    LIST_SERVICES, NOP, NULL_ADDRESS, REGISTER, SEND_RR_DATA, SEND_UNIT_DATA, TEN_SECONDS, UNCONNECTED_DATA,
    UNREGISTER, number,
)
from reading.adapter import Adapter, body_of
from reading.commands import Commands


# T->O sizes at the edges of the ledger's reply limits: of kept replies of 4 and 8 bytes, and of a new command.
AROUND_LEDGER = [10, 10, 11, 14, 14, 15, 18, 19, 486, 486, 487, 487, 487]


class Openings(Commands):
    """Makes openings and closings, right ones and ones with a fault, or with two faults whose checks are neighbours."""

    FAULTS = ["short", "long", "path", "key", "target", "transport", "type", "size", "interval", "numbers"]

    def numbers(self):
        return number(2, self.pick(1, 2, 3, 4)) + number(2, self.pick(66, 67)) + number(4, self.pick(1, 2, 0x12345678))

    def key(self, config, wrong):
        """An electronic key that the device accepts, or one that is mostly refused."""
        vendor, device_type = self.pick(0, config["vendor"]), self.pick(0, config["device_type"])
        product_code, major, minor = self.pick(0, config["product_code"]), config["major"], config["minor"]
        if self.seldom(0.5):
            major, minor = self.pick(0, major) + 0x80, self.random.randint(0, minor)
        elif self.seldom(0.5):
            major, minor = self.pick(0, major), self.pick(0, minor)
        faults = self.random.sample(range(5), self.pick(1, 1, 2)) if wrong else []
        vendor = (vendor + 1) % 65536 if 0 in faults else vendor
        product_code = (product_code + 1) % 65536 if 1 in faults else product_code
        device_type = (device_type + 1) % 65536 if 2 in faults else device_type
        major = self.pick(major ^ 0x01, major ^ 0x80) if 3 in faults else major
        minor = self.pick(minor + 1, minor - 1) % 256 if 4 in faults else minor
        return b"\x34\x04" + struct.pack("<HHHBB", vendor, device_type, product_code, major, minor)

    def connection_path(self, config, faults):
        """An optional key and the path of the Message Router, with these faults."""
        key = self.key(config, "key" in faults) if "key" in faults or self.seldom(0.3) else b""
        path = self.right_path(2, 1)
        if "target" in faults:
            wrong = [(1, 1), (2, 0), (2, 2), (0x102, 1), (2, 65537), (2, 1, 1), (2, 1, 3, 1)]
            path = self.pick(*[self.right_path(*one) for one in wrong], path + self.segment("member", 1))
        if "path" not in faults:
            return key + path
        return self.pick(
            b"", key, b"\x01\x00" + key + path, key + b"\x01\x00" + path, key + key[:10] + b"\x34\x04" + path,
            path + b"\x34\x04" + bytes(8), b"\x34\x05" + bytes(8) + path, b"\x34\x04" + bytes(4), key + path + b"\0\0",
            key + self.segment("class", 2), key + path[::-1], key + path + path, key + b"\x25\x00" + path,
        )

    def parameters(self, faults, sizes, large):
        """The parameters of a direction: point to point with one of the sizes, and all other bits at random."""
        kind, size = self.pick(0, 1, 3) if "type" in faults else 2, self.pick(*sizes)
        if large:
            return number(4, self.random.randrange(2**32) & 0x9FFF0000 | kind << 29 | size)
        return number(2, self.random.randrange(2**16) & 0x9E00 | kind << 13 | size)

    def opening(self, config, taken, large):
        """The data of an opening, in the small or the large layout. `taken` are the numbers of open connections."""
        at = self.random.randrange(len(self.FAULTS))
        faults = self.FAULTS[at : at + self.pick(1, 2)] if self.seldom(0.45) else []
        numbers = self.random.choice(taken) if "numbers" in faults and taken else self.numbers()
        side = self.pick(0, 1, 2)
        multiplier = self.pick(8, 255) if "type" in faults and side == 2 else self.random.randrange(8)
        # a wrong multiplier is the only fault, or the type is wrong in both directions, too
        types = [] if side == 2 and self.seldom(0.5) else faults
        o_t, t_o = [4, 12, 13, 34, 500, 511, 511, 511], [10, 12, 13, 34, 500, 500, 511, 511]
        o_t, t_o = (o_t + [500, 511] * 4, t_o + AROUND_LEDGER) if config["ledger"] else (o_t, t_o)
        over = [4003, 4004, 0x2000 + 500, 0x8000, 0x8000 + 500, 0xFFFF] if large else []
        o_t, t_o = (o_t + [512, 1000, 4001, 4002], t_o + [512, 3906, 4001, 4002]) if large else (o_t, t_o)
        o_t = [0, 1, 2, 3] + over if "size" in faults and side != 1 else o_t
        t_o = [0, 4, 8, 9] + over if "size" in faults and side != 0 else t_o
        interval = self.pick(1, 2_500_000, 2_000_000, 2_499_999, 30_000_000, LAST, self.random.randrange(1, 2**24))
        interval = 0 if "interval" in faults else interval
        transport = 0x83 + self.pick(0, 32, 64, 112)
        transport = self.pick(0x23, 0x03, 0xA2, 0x81, 0xAB, 0x80) if "transport" in faults else transport
        path = self.connection_path(config, faults)
        data = self.random.randbytes(6) + number(4, self.pick(1, 2, self.random.randrange(2**32))) + numbers
        data += bytes([multiplier]) + self.random.randbytes(3) + number(4, interval)
        data += self.parameters(types if side != 1 else [], o_t, large)
        data += number(4, self.pick(0, interval, self.random.randrange(2**32)))
        data += self.parameters(types if side != 0 else [], t_o, large) + bytes([transport, len(path) // 2]) + path
        return self.lengthened(data, 39 if large else 35, faults)

    def closing(self, numbers):
        path = self.pick(b"", self.right_path(2, 1), self.some(9) + b"\0")
        path = path[: len(path) // 2 * 2]
        data = self.random.randbytes(2) + numbers + bytes([len(path) // 2]) + self.random.randbytes(1) + path
        return self.lengthened(data, 10, [self.pick("short", "long")] if self.seldom(0.1) else [])

    def lengthened(self, data, words, faults):
        """Data that are too short or too long for the number of words at this offset, if the faults say so."""
        if "short" in faults:
            cut = data[: self.pick(self.random.randrange(len(data)), len(data) - 1)]
            more = data[:words] + bytes([self.pick(data[words] + 1, 255)]) + data[words + 1 :]
            return self.pick(cut, more)
        return data + self.some(4) + b"\0" if "long" in faults else data


class Conversation(Openings):
    """Makes the lines of a conversation, and the expected answers."""

    def begin(self, config):
        self.configuration, self.adapter = config, Adapter(config)
        self.kept, self.sent, self.lines, self.wanted = {}, {}, [], []
        if self.seldom(0.15):
            self.set_time(LAST_MOMENT - self.random.randrange(2**28))

    def set_time(self, now):
        self.lines.append("now %d" % now)
        self.adapter.given = now

    def some_time(self):
        """A time near a deadline, a step further, far, or back. It goes back only after a piece at the last time."""
        least = self.adapter.given if self.adapter.given > self.adapter.now else 0
        now, deadlines = self.adapter.now, [one.deadline for one in self.adapter.manager.connections]
        kind = self.pick("step", "step", "step", "deadline", "deadline", "deadline", "back", "far")
        if kind == "deadline" and deadlines:
            now = self.pick(*deadlines, min(deadlines), min(deadlines)) + self.pick(-1, -1, -1, 0, 1)
        elif kind == "back":
            now = self.pick(0, now // 2, now - 1, self.random.randrange(now + 1))
        elif kind == "far" and self.seldom(0.5):
            now += self.pick(TEN_SECONDS - 1, TEN_SECONDS, 2**32, 2**42, self.random.randrange(2**24))
        else:
            now += self.random.randrange(1000)
        return min(max(now, least), LAST_MOMENT)

    def connected_request(self, o_t_size):
        """A request for a connection. Sometimes its item has just the O->T size, or one byte more."""
        if self.seldom(0.06):
            return self.some(3)
        commands = self.configuration["ledger"] and self.seldom(0.4)
        request = self.to_ledger(self.configuration) if commands else self.request(self.configuration)
        if self.seldom(0.15):
            size = o_t_size - 2 + self.pick(0, 1)
            return request[:size] + bytes(size - len(request[:size]))
        return request

    def item(self, o_t_id, o_t_size):
        """An item for a connection, with a new count, the last count and the same or other bytes, or an older count."""
        request = self.connected_request(o_t_size)
        if o_t_id not in self.sent:
            count = self.pick(0, 1, 65534, 65535, 65535, self.random.randrange(65536))
        else:
            last, before = self.sent[o_t_id]
            kind = self.pick("next", "next", "next", "again", "again", "other", "other", "older", "any", "same bytes")
            request = before if kind in ("again", "same bytes") else request
            count = last + {"again": 0, "other": 0, "older": -1, "any": self.random.randrange(65536)}.get(kind, 1)
        item = number(2, count % 65536) + request
        if 4 <= len(item) <= o_t_size:
            self.sent[o_t_id] = count % 65536, request
        return item

    def unit_body(self, handle):
        """The body of a SendUnitData, mostly for a connection of the peer."""
        connections = self.adapter.manager.connections
        found = [one for one in connections if one.session == handle] if self.seldom(0.93) else connections
        if found and self.seldom(0.95):
            one = self.random.choice(found)
            o_t_id, item = one.o_t_id, self.item(one.o_t_id, one.o_t_size)
            o_t_id = one.t_o_id if self.seldom() else o_t_id
        else:
            last = self.adapter.manager.next_id
            o_t_id = self.pick(0, max(last - 1, 0), max(last - 2, 0), min(last, LAST), min(last, LAST))
            item = self.item(o_t_id, self.pick(511, LARGEST_SIZE))
        return self.body((CONNECTED_ADDRESS, number(4, o_t_id)), (CONNECTED_DATA, item))

    def rr_body(self, handle):
        """The body of a SendRRData: a request to the objects, an opening, or a closing."""
        connections = self.adapter.manager.connections
        own = [one for one in connections if one.session == handle]
        if self.seldom(0.35 if len(own) < 2 else 0.15):
            large = self.seldom(0.4)
            data = self.opening(self.configuration, [one.numbers for one in connections], large)
            message = bytes([LARGE_FORWARD_OPEN if large else FORWARD_OPEN]) + self.manager_path() + data
        elif self.seldom(0.12):
            ends = own if self.seldom(0.6) else connections
            numbers = self.random.choice(ends).numbers if ends and self.seldom(0.9) else self.numbers()
            message = bytes([FORWARD_CLOSE]) + self.manager_path() + self.closing(numbers)
        else:
            message = self.some(6) if self.seldom() else self.request(self.configuration)
        return self.body((NULL_ADDRESS, b""), (UNCONNECTED_DATA, message))

    def body(self, address, item):
        """A body with these items, sometimes with a fault."""
        (kind, data), (item_kind, message) = address, item
        items = [address, item, (self.random.randrange(65536), self.some(5))] if self.seldom() else [address, item]
        wrong = [items[:1], [], items[::-1], [(kind, data + b"\0"), item], [(kind, data[1:]), item]]
        wrong += [[(kind ^ 0xA1, bytes(4) if kind == NULL_ADDRESS else b""), item], [(kind ^ 0xA1, data), item]]
        wrong += [[address, (item_kind ^ 3, message)], [address, address]]
        items = self.pick(*wrong) if self.seldom() else items
        count = self.pick(0, 1, 3, 65535) if self.seldom() else len(items)
        text = (number(4, self.pick(1, 2**31)) if self.seldom(0.02) else bytes(4)) + self.random.randbytes(2)
        text += number(2, count) + body_of(*items)[8:]
        text += b"\0" if self.seldom(0.02) else b""
        return text[: self.random.randrange(len(text))] if self.seldom(0.02) else text

    def registration(self):
        """The data of a RegisterSession: right, or another version, flags in either byte, both, or another length."""
        right = number(2, 1) + number(2, 0)
        version = number(2, self.pick(0, 2, 3, 4, 255, 256, 257, 65535, self.random.randrange(2, 65536)))
        flags = number(2, self.pick(1, 2, 0x80, 0x100, 0x8000, 0x0101, self.random.randrange(1, 65536)))
        wrong = [version + right[2:], right[:2] + flags, version + flags, right[:2], right + b"\0"]
        return self.pick(right, right, *wrong)

    def frame(self, handle):
        """A frame of the peer with this handle."""
        handles = [peer.handle for peer in self.adapter.peers.values()]
        strange = self.pick(0, min(handle + 1, LAST), *handles, *handles, self.random.randrange(2**32))
        session = strange if self.seldom(0.04) else handle
        open_here = any(one.session == handle for one in self.adapter.manager.connections)
        kind = self.random.random()
        if kind < 0.04:
            command, session, data = REGISTER, self.pick(0, session), self.registration()
        elif kind < 0.09:
            lists = LIST_SERVICES, LIST_IDENTITY, LIST_INTERFACES
            command, data = self.pick(NOP, *lists, *lists, 0x6E, 0x71, 0x67, 0xFFFF), self.pick(b"", self.some(8))
            session = self.pick(0, session)
        elif kind < 0.105:
            command, data, session = UNREGISTER, self.pick(b"", self.some(5)), self.pick(handle, strange, strange)
        elif kind < (0.6 if open_here else 0.16):
            command, data = SEND_UNIT_DATA, self.unit_body(handle)
        else:
            command, data = SEND_RR_DATA, self.rr_body(handle)
        strays = 1, 2**8, 2**31, LAST
        status, options = self.pick(*strays) * self.seldom(0.02), self.pick(*strays) * self.seldom(0.02)
        length = self.pick(65512, 65535) if self.seldom(0.002) else len(data)
        context = self.random.randbytes(8)
        return struct.pack("<HHII", command, length, session, status) + context + number(4, options) + data

    def spelled(self, piece):
        text = piece.hex()
        text = text.upper() if self.seldom(0.2) else text
        return " ".join(text[at : at + 5] for at in range(0, len(text), 5)) if self.seldom(0.2) else text

    def text(self, digit):
        """The next bytes of a peer's stream. A new peer mostly begins with a RegisterSession."""
        peer, register = self.adapter.peers.get(digit), b""
        if peer is None and not self.seldom(0.1):
            register = struct.pack("<HHII", REGISTER, 4, 0, 0) + bytes(12) + b"\1\0\0\0"
        handle = peer.handle if peer else min(self.adapter.next_handle, LAST)
        frames = b"".join(self.frame(handle) for _ in range(self.pick(1, 1, 2, 3)))
        text = self.kept.pop(digit, register) + frames
        end = self.random.randrange(1, len(text)) if self.seldom(0.2) else len(text)
        self.kept[digit] = text[end:]
        return text[:end]

    def pieces(self, text):
        """A text in pieces: one, several, or sometimes one per byte."""
        if self.seldom(0.01):
            return [text[at : at + 1] for at in range(len(text))]
        pieces = []
        while text:
            end = self.random.randint(1, len(text)) if self.seldom(0.4) else len(text)
            pieces.append(text[:end])
            text = text[end:]
        return pieces

    def turn(self):
        """One turn: the end of a peer, a new time, a comment, or a text of a peer in pieces."""
        held = list(self.adapter.peers)
        digit = self.pick(*held) if held and self.seldom(0.93) else self.random.randint(1, 9)
        closed = digit in held and self.adapter.peers[digit].closed
        if self.seldom(0.4 if closed else 0.01):
            self.lines.append("end %d" % digit)
            self.adapter.end(digit)
            self.kept.pop(digit, None)
        elif self.seldom(0.1):
            self.set_time(self.some_time())
        elif self.seldom(0.02):
            self.lines.append(self.pick("# a remark", "", "#"))
        else:
            for piece in self.pieces(self.text(digit)):
                self.lines.append("%d %s" % (digit, self.spelled(piece)))
                self.wanted += self.adapter.line(digit, piece)
                if digit not in self.adapter.peers:
                    self.kept.pop(digit, None)
                    return

    def read_attributes(self):
        """A conversation that reads each attribute of each object and class, and some that do not exist."""
        config = self.config()
        while not (config["assemblies"] and config["ledger"]):
            config = self.config()
        self.begin(config)
        handle = min(self.adapter.next_handle, LAST)
        texts = [struct.pack("<HHII", REGISTER, 4, 0, 0) + bytes(12) + b"\1\0\0\0"]
        assemblies = [one["instance"] for one in config["assemblies"]]
        objects = (IDENTITY, [1]), (ASSEMBLY, assemblies), (COUNTER, [1]), (LEDGER, [1]), (CONNECTION_MANAGER, [1])
        for kind, instances in objects:
            for instance in [0, *instances]:
                for attribute in range(12):
                    path = self.right_path(kind, instance, attribute)
                    body = body_of((NULL_ADDRESS, b""), (UNCONNECTED_DATA, bytes([GET, len(path) // 2]) + path))
                    texts.append(struct.pack("<HHII", SEND_RR_DATA, len(body), handle, 0) + bytes(12) + body)
        for text in texts:
            self.lines.append("1 " + text.hex())
            self.wanted += self.adapter.line(1, text)

    def refused(self):
        """A line that is refused."""
        return self.pick(
            "   ", " ", "1", "1 ", "1  ", "0 00", "10 00", " 1 00", "1 0", "1 0g", "end", "end 0", "end 1 ", "now ",
            "now -1", "now 18446744073709551616", "now 1 ", "End 1", "1\t00", " # a remark",
        )

"""Random requests to the command ledger, right ones and ones with a fault, mixed with requests to the objects."""
from reading.protocol import (
    CONNECTION_MANAGER, DO_ONCE, FORGET, FORWARD_CLOSE, FORWARD_OPEN, GET, GET_LAST, GET_LIST, GET_SLOTS,
    LARGE_FORWARD_OPEN, LAST, LAST_MOMENT, LEDGER, SET, WITHDRAW, number,
)
from reading.ledger import EMBEDDED_ROOM
from reading.requests import Requests

# Originators, some more often than others. Two of them differ only in their upper half.
ORIGINATORS = [1, 1, 1, 2**32 + 1, 2**32 + 1, 0, LAST_MOMENT]


class Commands(Requests):
    """Makes requests. It remembers the greatest number of each originator, and the request of that command."""

    def config(self):
        self.last_commands = {}
        return super().config()

    def request(self, config):
        share = 0.5 if config["ledger"] else 0.02
        return self.to_ledger(config) if self.seldom(share) else super().request(config)

    def to_ledger(self, config):
        service = self.pick(*[DO_ONCE] * 12, *[GET_LAST, FORGET, WITHDRAW, GET_SLOTS] * 2, *[GET] * 4, GET_LIST, SET)
        path = self.right_path(LEDGER, self.pick(*[1] * 30, 0, 2, 65537))
        if service == DO_ONCE:
            data = self.command(config)
        elif service == GET_LAST:
            data = self.fitted(number(8, self.pick(*ORIGINATORS)))
        elif service == FORGET:
            data = self.fitted(self.forgotten())
        elif service == WITHDRAW:
            data = self.fitted(self.withdrawn(config))
        elif service == GET_SLOTS:
            data = self.fitted(number(2, self.pick(0, 0, 0, 1, 1, 2, 3, 4, 64, 256, 0xFFFF)))
        elif service == GET_LIST:
            listed = [self.pick(1, 2, 3, 3, 300) for _ in range(self.pick(0, 1, 1, 2, 2, 3, 60))]
            data = self.fitted(b"".join(number(2, one) for one in [len(listed), *listed]))
        else:
            path = self.right_path(LEDGER, self.pick(0, 1, 1)) if self.seldom(0.9) else path
            path += self.segment("attribute", self.pick(0, 1, 1, 2, 2, *[3] * 6, 4)) if self.seldom(0.95) else b""
            data = self.fitted(b"")
        if service not in (GET, SET) and self.seldom(0.1):
            path += self.segment(self.pick("attribute", "member"), self.pick(1, 3, 300))
        return bytes([service, len(path) // 2]) + path + data

    def fitted(self, data):
        """Data, sometimes too short or too long."""
        return self.pick(data[:-1], data[: len(data) // 2], data + b"\0") if self.seldom(0.15) else data

    def life(self, config):
        """The life of the device, or sometimes another one."""
        life = (config["ledger"] or {}).get("life", 1)
        others = [life - 1, life + 1, life ^ 2**32, life ^ 2**63, 0, 1, self.random.randrange(2**64)]
        return self.pick(*others) if self.seldom(0.08) else life

    def command(self, config):
        """The data of Do_Once: the originator's next command, the last one again, the same number with another request,
        the same request with the next number, or another number. Sometimes they are cut."""
        originator, embedded = self.pick(*ORIGINATORS), self.embedded(config)
        if originator in self.last_commands:
            last, before = self.last_commands[originator]
            kind = self.pick("next", "next", *["again"] * 3, "other", "same bytes", "smaller", "gap")
            embedded = before if kind in ("again", "same bytes") else embedded
            step = {"again": 0, "other": 0, "smaller": -self.pick(1, 1, 2**16), "gap": self.pick(2, 2**16, 2**30)}
            this = min(max(last + step.get(kind, 1), 0), LAST)
        else:
            last, this = 0, self.pick(0, 1, 1, 2, self.random.randrange(2**32), LAST - self.random.randrange(3))
        if this >= last:
            self.last_commands[originator] = this, embedded
        data = number(8, self.life(config)) + number(8, originator) + number(4, this) + embedded
        return data[: self.pick(0, 19, 20, 21, 21, 22, 22, 23)] if self.seldom(0.08) else data

    def embedded(self, config):
        """An embedded request: to the objects, sometimes with a reply of about the limit, or one that is barred."""
        kind = self.random.random()
        if kind < 0.06:
            services = (FORWARD_OPEN, LARGE_FORWARD_OPEN, FORWARD_CLOSE, GET, self.random.randrange(256))
            path = self.right_path(CONNECTION_MANAGER, self.pick(1, 1, 1, 0, 2))
            return bytes([self.pick(*services), len(path) // 2]) + path + self.some(40)
        if kind < 0.12:
            return self.to_ledger(config)
        if kind < 0.2:
            return self.listing(EMBEDDED_ROOM + self.pick(-1, 0, 1, 1, 2))
        return super().request(config)

    def withdrawn(self, config):
        """The data of Withdraw: an originator's last command, one before it, or one that it has not given."""
        originator = self.pick(*ORIGINATORS)
        last, embedded = self.last_commands.get(originator, (self.pick(0, 1, LAST), b""))
        this = min(max(last + self.pick(0, 0, 0, 1, 1, -1, 2**16), 0), LAST)
        if this > last and embedded:
            self.last_commands[originator] = this, embedded
        return number(8, self.life(config)) + number(8, originator) + number(4, this)

    def forgotten(self):
        """The data of Forget: mostly the last number of an originator."""
        originator = self.pick(*ORIGINATORS)
        last, _ = self.last_commands.get(originator, (1, b""))
        this = last + self.pick(0, 0, 0, 1, -1, 2**16, self.random.randrange(2**32))
        return number(8, originator) + number(4, this % 2**32)

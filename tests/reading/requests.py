"""Random configurations and requests to their objects, with and without faults."""
import random

from reading.protocol import (
    ADD, ASSEMBLY, CLEAR, CONNECTION_MANAGER, COUNTER, DEFAULTS, FORWARD_CLOSE, FORWARD_OPEN, GET, GET_ALL, GET_LIST,
    GET_MEMBER, IDENTITY, LARGE_FORWARD_OPEN, LARGEST_ASSEMBLY, LAST, LEDGER, ORDER, RESET, SEGMENTS, SET, SET_LIST, SET_MEMBER,
    number,
)
from reading.applications import Describing
from reading.networks import Networking
from reading.packets import Packing


class Chooser:
    """Chooses from a seed."""

    def __init__(self, seed):
        self.random = random.Random(seed)

    def pick(self, *ones):
        return self.random.choice(ones)

    def seldom(self, share=0.03):
        return self.random.random() < share

    def some(self, count):
        return self.random.randbytes(self.random.randrange(count))


class Configurations(Chooser, Describing, Networking):
    """Makes configurations."""

    def assembly(self, instance):
        sizes = [self.random.randint(1, self.pick(1, 2, 7)) for _ in range(self.pick(1, 2, 3, 5, 64))]
        sizes = [self.random.randint(1, self.pick(480, LARGEST_ASSEMBLY))] if self.seldom(0.15) else sizes
        while sum(sizes) > LARGEST_ASSEMBLY:
            sizes.pop()
        settable, lists = not self.seldom(0.3), self.seldom(0.5)
        return {"instance": instance, "settable": settable, "members": sizes, "lists": lists}

    def ledger(self):
        """No command ledger, or one with few slots, so that they are all taken, or with many."""
        if self.seldom(0.4):
            return None
        ledger, lives = {"originators": self.pick(1, 2, 2, 3, 3, 64)}, [1, 2, 2**32, 2**32 + 1, 2**63 - 1]
        if self.seldom(0.7):
            ledger["life"] = self.pick(*lives, self.random.randrange(1, 2**63))
        return ledger

    def config(self):
        """A configuration. `omitted` are keys with their default that its text leaves out."""
        below = self.random.randrange
        instances = [1, 2, 99, 100, 255, 256, 1000, 65535] + list(range(400, 420))
        instances = self.random.sample(instances, self.pick(0, 1, 2, 3, 16))
        letters = [chr(code) for code in range(0x20, 0x7F) if chr(code) not in '"\\']
        limit = self.pick(0, 1, 100, 1000, LAST, below(2**32))
        config = {
            "vendor": below(65536), "device_type": below(65536), "product_code": below(65536),
            "major": 1 + below(127), "minor": self.pick(0, 5, below(256)), "serial": below(2**32),
            "name": "".join(self.random.choices(letters, k=below(33))), "status": below(65536), "state": below(256),
            "address": list(self.random.randbytes(4)), "port": below(65536),
            "peers": self.pick(1, 2, 2, 3, 3, 4, 4, 9, 16), "connections": self.pick(1, 2, 2, 3, 3, 4, 16, 64),
            "first_handle": self.first(), "first_id": self.first(), "limit": limit, "value": below(limit + 1),
            "assemblies": [self.assembly(instance) for instance in instances], "ledger": self.ledger(),
        }
        config["has_counter"], config["reset"] = not self.seldom(0.1), self.seldom(0.3)
        config["objects"] = self.own_objects(config["has_counter"]) + self.networks()
        omitted = [key for key in DEFAULTS if self.seldom(0.15)]
        omitted += ["value"] if "limit" not in omitted and self.seldom(0.2) else []
        config.update({key: DEFAULTS[key] for key in omitted})
        config["omitted"] = omitted
        self.add_router(config)
        return config

    def first(self):
        """A first number, sometimes one near the last."""
        return self.pick(1, 1, 1 + self.random.randrange(LAST), LAST - self.random.randrange(24))


class Requests(Configurations, Packing):
    """Makes message router requests, with and without faults."""

    # whether the counter was cleared, and its additions have not been read since
    cleared = False

    def segment(self, kind, value):
        wide = [first for first, (name, width) in SEGMENTS.items() if name == kind and value < 256**width]
        first = self.random.choice(wide)
        width = SEGMENTS[first][1]
        return bytes([first, value]) if width == 1 else bytes([first]) + self.random.randbytes(1) + number(width, value)

    def right_path(self, *values):
        return b"".join(self.segment(kind, value) for kind, value in zip(ORDER, values))

    def any_path(self, config):
        kinds = [IDENTITY, ASSEMBLY, ASSEMBLY, COUNTER, COUNTER] * 5
        kind = self.pick(*kinds, CONNECTION_MANAGER, LEDGER, 2, 0x104)
        ones = [one["instance"] for one in config["assemblies"]] * 3 if kind == ASSEMBLY else [1] * 9
        if config["objects"] and self.seldom(0.3):
            one = self.random.choice(config["objects"])
            kind, ones = self.pick(*[one["class"]] * 9, one["class"] - 1), [one["instance"]] * 9
        text = self.right_path(kind, self.pick(*ones, 0, 77, 65537))
        attribute = self.pick(None, *range(1, 10), 3, 3, 3, 3, 259)
        member = self.pick(None, None, 0, 1, 1, 2, 3, 64, 65)
        text += b"" if attribute is None else self.segment("attribute", attribute)
        text += b"" if member is None else self.segment("member", member)
        if self.seldom():
            place = self.random.randrange(len(text))
            text = text[:place] + self.random.randbytes(1) + text[place + 1 :]
        text = text[: self.random.randrange(len(text))] if self.seldom() else text
        return text + bytes(len(text) % 2)

    def any_data(self, config):
        shape = self.pick("none", "none", "number", "content", "content", "list", "list")
        if shape == "number":
            return number(4, self.pick(0, 1, 5, 100, self.random.randrange(2**32)))
        if shape == "content" and config["assemblies"]:
            sizes = self.random.choice(config["assemblies"])["members"]
            return self.random.randbytes(self.pick(sum(sizes), *sizes) + self.pick(0, 0, 0, 1, -1))
        if shape == "list":
            listed = [self.pick(1, 2, 3, 4, 5, 6, 7, 8, 9, 300) for _ in range(self.pick(0, 1, 2, 3, 8, 130, 250))]
            text = b"".join(number(2, one) for one in [len(listed)] + listed)
            return text[:-1] if self.seldom() else text + bytes(self.pick(0, 0, 0, 1))
        return b""

    def any_request(self, config):
        known = [GET_ALL, GET_LIST, SET_LIST, GET, SET, GET_MEMBER, SET_MEMBER, ADD, CLEAR]
        services = (FORWARD_CLOSE, FORWARD_OPEN, LARGE_FORWARD_OPEN)
        service = self.pick(*known * 3, *services, 0x8E, self.random.randrange(256))
        path = self.any_path(config)
        words = self.pick(255, len(path) // 2 + 1) if self.seldom() else len(path) // 2
        return bytes([service, words]) + path + self.any_data(config)

    def right_request(self, config):
        """A request that is mostly executed."""
        if config["objects"] and self.seldom(0.3):
            service, path, data = self.own_call(config)
        elif config["assemblies"] and self.seldom(0.3):
            one = self.random.choice(config["assemblies"])
            member = self.random.randint(1, len(one["members"]))
            service = self.pick(GET, SET, GET_MEMBER, SET_MEMBER, *[GET_ALL, SET_LIST] * one["lists"])
            values = ASSEMBLY, one["instance"], 3, member
            size = {SET: sum(one["members"]), SET_MEMBER: one["members"][member - 1]}.get(service, 0)
            segments = {GET: 3, SET: 3, GET_ALL: 2, SET_LIST: 2}.get(service, 4)
            path, data = self.right_path(*values[:segments]), self.random.randbytes(size)
            data = self.settings(one) if service == SET_LIST else data
        elif config.get("reset") and self.seldom(0.15):
            service, path = RESET, self.right_path(IDENTITY, 1, *[1] * self.seldom())
            data = self.pick(b"", b"\0", b"\1", b"\1", b"\1", b"\2", b"\1\0", b"\0\0")
        elif self.seldom(0.2):
            service, path, data = GET_ALL, self.right_path(IDENTITY, 1), b""
        elif self.cleared and self.seldom(0.5):
            # the next request reads what Clear leaves
            self.cleared = False
            service, path, data = GET, self.right_path(COUNTER, 1, 3), b""
        else:
            service = self.pick(ADD, ADD, ADD, ADD, GET, GET, CLEAR, SET)
            self.cleared |= service == CLEAR
            path = self.right_path(COUNTER, 1) + (self.segment("attribute", 2) if service == SET else b"")
            path += self.segment("attribute", self.pick(1, 1, 2, 3)) if service == GET else b""
            amount = self.pick(0, 1, 5, config["limit"] // 9) if service == ADD else config["limit"]
            data = number(4, amount) if service in (ADD, SET) else b""
        return bytes([service, len(path) // 2]) + path + data

    def settings(self, assembly):
        """The data of a Set_Attribute_List of an assembly: some of its attributes, most of which cannot be set."""
        sizes = {1: 2, 3: sum(assembly["members"]), 4: 2}
        listed = self.random.choices([1, 3, 3, 4], k=self.random.randrange(4))
        text = number(2, len(listed))
        return text + b"".join(number(2, one) + self.random.randbytes(sizes[one]) for one in listed)

    def single_request(self, config):
        return self.right_request(config) if self.seldom(0.6) else self.any_request(config)

    def request(self, config):
        if self.seldom(0.15 if config.get("message_router") else 0.01):
            return self.packet(config, self.single_request)
        return self.single_request(config)

    def listing(self, size):
        """A request for a list of unknown attributes and attributes of one byte, whose reply has this size."""
        known = (size - 6) % 4
        listed = [number(2, 300)] * ((size - 6) // 4 - known) + [number(2, 8)] * known
        path = self.right_path(IDENTITY, 1)
        return bytes([GET_LIST, len(path) // 2]) + path + number(2, len(listed)) + b"".join(listed)

    def manager_path(self):
        path = self.right_path(CONNECTION_MANAGER, 1)
        path += self.segment(self.pick("attribute", "member"), self.pick(1, 3)) if self.seldom() else b""
        return bytes([len(path) // 2]) + path



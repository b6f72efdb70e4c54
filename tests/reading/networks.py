"""The second reading of the tables `tcp_ip` and `ethernet_link` and of the key `message_router`: the TCP/IP Interface, the
Ethernet Link and the Message Router that they make, with their defaults."""
from reading.protocol import ASSEMBLY, CONNECTION_MANAGER, COUNTER, GET, GET_LIST, IDENTITY, LEDGER, SET, number

MESSAGE_ROUTER, TCP_IP, ETHERNET_LINK = 2, 0xF5, 0xF6
# What each of them answers.
STANDARD_SERVICES = [GET_LIST, GET, SET]
# The revision of each class.
STANDARD_REVISIONS = {MESSAGE_ROUTER: 1, TCP_IP: 4, ETHERNET_LINK: 4}
LONGEST_TIMEOUT = 3_600
NO_ADDRESS = [0, 0, 0, 0]
# The path to the physical link object, and its size in words.
LINK_PATH = number(2, 2) + bytes.fromhex("20f62401")


def address(parts):
    """An address: its first byte is the most significant one of a UDINT."""
    return number(4, int.from_bytes(bytes(parts), "big"))


def string(text):
    """A STRING, padded to an even length."""
    return number(2, len(text)) + text.encode() + bytes(len(text) % 2)


def read_only(place, value):
    """An attribute that is not settable."""
    return {"number": place, "settable": False, "checked": False, "type": "BYTES", "count": 1, "size": len(value), "value": value}


def interface(table):
    """The TCP/IP Interface of a table. One that names an interface of the system has zeros until `enip serve` reads them."""
    servers = table.get("name_servers", [])
    own = [table.get(key, NO_ADDRESS) for key in ("address", "mask", "gateway")]
    addresses = [*own, *servers, *[NO_ADDRESS] * (2 - len(servers))]
    timeout = {
        "number": 13, "settable": True, "checked": False, "type": "UINT", "count": 1, "size": 2, "max": LONGEST_TIMEOUT,
        "value": number(2, table.get("inactivity_timeout", 120)),
    }
    values = {
        1: number(4, 1), 2: number(4, 0), 3: number(4, 0), 4: LINK_PATH,
        5: b"".join(address(one) for one in addresses) + string(table.get("domain", "")), 6: string(table.get("host", "")),
    }
    return [read_only(place, value) for place, value in values.items()] + [timeout]


def link(table):
    """The Ethernet Link of a table."""
    label = table.get("label", "").encode()
    values = {
        1: number(4, table.get("speed", 100)), 2: number(4, table.get("flags", 15)),
        3: bytes(table.get("physical_address", [0] * 6)), 7: number(1, table.get("type", 2)), 8: number(1, table.get("state", 1)),
        10: number(1, len(label)) + label,
    }
    return [read_only(place, value) for place, value in values.items()]


def router(config):
    """The Message Router of a device: each of its classes, and its connections. `enip answer` opens none."""
    classes = {IDENTITY, MESSAGE_ROUTER, ASSEMBLY, CONNECTION_MANAGER} | {one["class"] for one in config["objects"]}
    classes |= {kind for kind, there in ((COUNTER, config["has_counter"]), (LEDGER, config["ledger"])) if there}
    values = {
        1: number(2, len(classes)) + b"".join(number(2, kind) for kind in sorted(classes)),
        2: number(2, config["connections"]), 3: number(2, 0),
    }
    return [read_only(place, value) for place, value in values.items()]


def toml_of_table(one):
    """The lines of a table in a configuration. The Message Router has none: it is a key."""
    if one["class"] == MESSAGE_ROUTER:
        return []
    lines = ["[%s]" % ("tcp_ip" if one["class"] == TCP_IP else "ethernet_link")]
    return lines + ["%s = %s" % (key, '"%s"' % value if isinstance(value, str) else value) for key, value in one["table"].items()]


class Networking:
    """Makes both tables. It is a part of what chooses from a seed."""

    def bytes_of(self, count):
        return list(self.random.randbytes(count))

    def some_text(self, longest):
        return "".join(self.random.choices("abc.-XYZ 09", k=self.pick(0, 1, 2, self.random.randint(0, longest), longest)))

    def some_keys(self, table):
        """The table without some of its keys."""
        return {key: value for key, value in table.items() if self.seldom(0.7)}

    def interface_name(self):
        return "".join(self.random.choices("!abz.09;~", k=self.pick(3, 4, 15)))

    def interface_table(self):
        own = {"address": self.bytes_of(4), "mask": self.bytes_of(4)}
        if self.seldom(0.3):
            own = {"interface": self.interface_name()}
        return own | self.some_keys({
            "gateway": self.bytes_of(4), "name_servers": [self.bytes_of(4) for _ in range(self.random.randrange(3))],
            "domain": self.some_text(48), "host": self.some_text(64),
            "inactivity_timeout": self.pick(0, 1, 119, 121, LONGEST_TIMEOUT, self.random.randint(0, LONGEST_TIMEOUT)),
        })

    def link_table(self):
        below = self.random.randrange
        own = self.some_keys({
            "speed": self.pick(0, 10, 1000, below(2**32), 2**32 - 1), "flags": below(2**32), "physical_address": self.bytes_of(6),
            "state": below(256),
        })
        if self.seldom(0.3):
            own = {"interface": self.interface_name()}
        return own | self.some_keys({"type": below(256), "label": self.some_text(64)})

    def networks(self):
        """The objects of the tables, or of one of them, or none."""
        made = []
        if self.seldom(0.3):
            table = self.interface_table()
            made.append({"class": TCP_IP, "instance": 1, "attributes": interface(table), "services": [], "table": table})
        if self.seldom(0.3):
            table = self.link_table()
            made.append({"class": ETHERNET_LINK, "instance": 1, "attributes": link(table), "services": [], "table": table})
        return made

    def add_router(self, config):
        """Adds the Message Router to the other objects, or not."""
        config["message_router"] = self.seldom(0.3)
        if config["message_router"]:
            config["objects"].append({
                "class": MESSAGE_ROUTER, "instance": 1, "attributes": router(config), "services": [], "table": {},
            })

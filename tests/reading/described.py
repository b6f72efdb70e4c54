"""The second reading of a configuration's text: the device that it describes, with its defaults."""
import tomllib

from reading.applications import BITS, NUMBERS, packed
from reading.networks import ETHERNET_LINK, MESSAGE_ROUTER, TCP_IP, interface, link, router
from reading.protocol import DEFAULTS, number

# The size of a number of each type.
SIZES = {"B": 1, "b": 1, "H": 2, "h": 2, "I": 4, "i": 4, "Q": 8, "q": 8, "f": 4}


def typed(table):
    """The type of an attribute, how many values it has, its size, and its first value."""
    name, _, count = table["type"].rstrip("]").partition("[")
    value = table.get("value")
    if name == "SHORT_STRING":
        text = (value or "").encode()
        return {"type": name, "count": int(count), "size": 1 + int(count), "value": bytes([len(text)]) + text}
    if name == "BYTES":
        return {"type": name, "count": 1, "size": int(count), "value": bytes(value or bytes(int(count)))}
    if name in BITS:
        return {"type": name, "count": 1, "size": BITS[name], "value": number(BITS[name], value or 0)}
    one = {"type": name, "count": int(count or 1), "array": bool(count)}
    values = value if isinstance(value, list) else [value or 0] * one["count"]
    return one | {"size": one["count"] * SIZES[NUMBERS[name]], "value": packed(one, values)}


def attribute(table):
    """An attribute of an application object."""
    flags = {key: table.get(key, False) for key in ("settable", "checked")}
    bounds = {key: table[key] for key in ("min", "max") if key in table}
    return {"number": table["number"]} | flags | typed(table) | bounds


def service(table):
    """A service of an application object."""
    least, most = table.get("sizes", [table.get("size")] * 2)
    return {"number": table["number"], "least": least, "most": most, "reply": table.get("reply", 0)}


def application(table):
    """An application object of the configuration itself."""
    return {
        "class": table["class"], "instance": table["instance"], "lists": table.get("lists", False),
        "attributes": [attribute(one) for one in table.get("attribute", [])],
        "services": [service(one) for one in table.get("service", [])],
    }


def standard(kind, attributes):
    """An object of the standard, which a table or a key makes."""
    return {"class": kind, "instance": 1, "attributes": attributes, "services": [], "table": {}}


def config_of(text):
    """The device that a text describes."""
    given = tomllib.loads(text)
    counter, ledger = given.get("counter", {}), given.get("ledger")
    config = {key: given.get(key, DEFAULTS[key]) for key in DEFAULTS if key not in ("value", "limit")}
    names = "vendor", "device_type", "product_code", "major", "minor", "serial", "name"
    config.update({key: given[key] for key in names})
    config.update({key: counter.get(key, DEFAULTS[key]) for key in ("value", "limit")})
    config["has_counter"], config["ledger"] = counter.get("enabled", True), ledger
    config["reset"] = given.get("identity", {}).get("reset", False)
    config["assemblies"] = [
        {key: one.get(key, False) for key in ("instance", "settable", "members", "lists")} for one in given.get("assembly", [])
    ]
    objects = [application(one) for one in given.get("object", [])]
    objects += [standard(TCP_IP, interface(given["tcp_ip"]))] if "tcp_ip" in given else []
    objects += [standard(ETHERNET_LINK, link(given["ethernet_link"]))] if "ethernet_link" in given else []
    config["objects"], config["message_router"] = objects, given.get("message_router", False)
    if config["message_router"]:
        objects.append(standard(MESSAGE_ROUTER, router(config)))
    return config

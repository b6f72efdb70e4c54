"""The second reading of application objects: what a configuration describes, what is read and set of them, and which
requests go to the owner of the device. Neither `enip answer` nor `enip replay` has an owner."""
import struct

from reading.networks import STANDARD_REVISIONS, STANDARD_SERVICES, toml_of_table
from reading.protocol import (
    ATTRIBUTE, COUNTER, DEVICE_STATE, GET, GET_ALL, GET_LIST, LONG, NOT_SETTABLE, SET, SET_LIST, SHORT, TOO_LARGE, VALUE,
    check, check_length, number,
)

# The numbers: how each is packed.
NUMBERS = {
    "USINT": "B", "SINT": "b", "UINT": "H", "INT": "h", "UDINT": "I", "DINT": "i", "ULINT": "Q", "LINT": "q",
    "REAL": "f",
}
# Bit strings have no range.
BITS = {"BYTE": 1, "WORD": 2, "DWORD": 4, "LWORD": 8}
# Classes of application objects: next to the adapter's own, and wide ones. The counter's class only if it is left out.
CLASSES = [3, 5, 99, 102, 244, 247, 255, 256, 768, 768, 768, 0x4000, 65535]
SERVICES = [0x32, 0x33, 0x34, 0x4B, 0x4C, 0x4E, 0x54, 0x5B, 0x62, 0x63]


def packed(attribute, values):
    """The bytes of numbers of the attribute's type."""
    return struct.pack("<%d%s" % (attribute["count"], NUMBERS[attribute["type"]]), *values)


def size_of(attribute, data=b"\0"):
    """How many bytes a value has. That of a text depends on its first byte."""
    if attribute["type"] == "SHORT_STRING":
        return 1 + (data[0] if data else 0)
    return attribute["size"]


def is_allowed(attribute, data):
    """Whether an attribute may have this value, which has the right size."""
    if attribute["type"] == "SHORT_STRING":
        return data[0] <= attribute["count"]
    if "min" not in attribute and "max" not in attribute:
        return True
    values = struct.unpack("<%d%s" % (attribute["count"], NUMBERS[attribute["type"]]), data)
    least, most = attribute.get("min", float("-inf")), attribute.get("max", float("inf"))
    return all(least <= value <= most for value in values)


class Applications:
    """The application objects of a configuration."""

    def __init__(self, config):
        self.objects = {(one["class"], one["instance"]): one for one in config["objects"]}
        self.values = {
            (*key, attribute["number"]): attribute["value"]
            for key, one in self.objects.items() for attribute in one["attributes"]
        }

    def services(self, kind, instance):
        """The services of an instance of a class, or None."""
        if instance == 0:
            return [GET] if any(key[0] == kind for key in self.objects) else None
        one = self.objects.get((kind, instance))
        if one and "table" in one:
            return STANDARD_SERVICES
        own = one and [service["number"] for service in one["services"]] + [SET_LIST] * one["lists"]
        return one and [GET_ALL, GET_LIST, GET, SET] + own

    def has(self, kind, instance):
        return (kind, instance) in self.objects

    def attribute(self, kind, instance, attribute):
        if instance == 0:
            instances = [key[1] for key in self.objects if key[0] == kind]
            revision = STANDARD_REVISIONS.get(kind, 1)
            return {1: number(2, revision), 2: number(2, max(instances)), 3: number(2, len(instances))}.get(attribute)
        return self.values.get((kind, instance, attribute))

    def all_attributes(self, kind, instance):
        return b"".join(value for _, value in sorted(
            (key[2], value) for key, value in self.values.items() if key[:2] == (kind, instance)))

    def shape(self, kind, instance, attribute):
        shapes = self.objects[kind, instance]["attributes"]
        return next((one for one in shapes if one["number"] == attribute), None)

    def value_size(self, kind, instance, attribute, data):
        shape = self.shape(kind, instance, attribute)
        return shape and size_of(shape, data)

    def set(self, kind, instance, attribute, data, checked=DEVICE_STATE):
        """A set. If the attribute is checked, the owner decides, and there is none. In a list it cannot be set."""
        shape = self.shape(kind, instance, attribute)
        check(shape["settable"], NOT_SETTABLE)
        check(not shape["checked"] or checked == DEVICE_STATE, checked)
        check_length(data, size_of(shape, data))
        check(is_allowed(shape, data), VALUE)
        check(not shape["checked"], DEVICE_STATE)
        self.values[kind, instance, attribute] = data

    def reset(self):
        """Each settable attribute gets its first value, checked or not."""
        for key, one in self.objects.items():
            first = {(*key, shape["number"]): shape["value"] for shape in one["attributes"] if shape["settable"]}
            self.values.update(first)

    def own_service(self, kind, instance, service, data, room):
        """A service of the object's own. The owner executes it, and there is none."""
        shape = next(one for one in self.objects[kind, instance]["services"] if one["number"] == service)
        check(len(data) >= shape["least"], SHORT)
        check(len(data) <= shape["most"], LONG)
        check(room >= 4 + shape["reply"], TOO_LARGE)
        check(False, DEVICE_STATE)


class Describing:
    """Makes application objects, and requests to them. It is a part of what chooses from a seed."""

    def bounded(self, attribute):
        """A number type, sometimes with a least or a greatest number, and a value within."""
        kind = NUMBERS[attribute["type"]]
        if kind == "f":
            least, most = sorted(self.random.sample([-1e6, -2.5, -1.0, 0.0, 0.5, 1.5, 1e6], 2))
            if self.seldom(0.6):
                attribute.update({"min": least, "max": most})
            return [self.pick(least, most) for _ in range(attribute["count"])]
        bits = 8 * struct.calcsize("<" + kind)
        low, high = (-(2 ** (bits - 1)), 2 ** (bits - 1) - 1) if kind.islower() else (0, 2**bits - 1)
        high = min(high, 2**63 - 1)
        least, most = sorted([self.pick(low, 0, 1, self.random.randint(low, high)), self.pick(high, 100, high // 2)])
        attribute.update({"min": least} if self.seldom(0.5) else {})
        attribute.update({"max": most} if self.seldom(0.5) else {})
        return [self.random.randint(least, most) for _ in range(attribute["count"])]

    def own_attribute(self, attribute_number):
        attribute = {"number": attribute_number, "settable": self.seldom(0.7), "checked": self.seldom(0.2)}
        kind = self.pick("number", "number", "number", "array", "array", "bits", "bytes", "text")
        if kind == "text":
            room = self.pick(0, 1, 5, 32, 255)
            text = "".join(self.random.choices("abc XYZ.", k=self.random.randint(0, room)))
            attribute.update(type="SHORT_STRING", count=room, text=text, size=room + 1)
            attribute["value"] = bytes([len(text)]) + text.encode()
        elif kind in ("bits", "bytes"):
            name = self.pick(*BITS) if kind == "bits" else "BYTES"
            size = BITS.get(name) or self.pick(1, 2, 12, 100, 500)
            attribute.update(type=name, count=1, size=size, value=self.random.randbytes(size - 1) + b"\x11")
        else:
            name, count = self.pick(*NUMBERS), self.pick(1, 2, 3, 7) if kind == "array" else 1
            attribute.update(type=name, count=count, size=count * struct.calcsize("<" + NUMBERS[name]))
            attribute["array"] = kind == "array"
            attribute["value"] = packed(attribute, self.bounded(attribute))
        return attribute

    def own_service_shape(self, service):
        least = self.pick(0, 0, 1, 4, self.random.randrange(40))
        most = self.pick(least, least, least + 1, least + 4, 480)
        return {"number": service, "least": least, "most": most, "reply": self.pick(0, 0, 4, 60, 476, 480)}

    def own_objects(self, has_counter):
        """No application object, or some."""
        if self.seldom(0.4):
            return []
        keys = [(kind, instance) for kind in set(CLASSES) for instance in (1, 2, 7, 255, 256, 65535)]
        keys += [] if has_counter else [(COUNTER, 1), (COUNTER, 2)] * 9
        keys = list(dict.fromkeys(self.random.sample(sorted(keys), self.pick(1, 2, 3, 5))))
        numbers = [1, 2, 3, 4, 5, 255, 256, 300, 65535]
        return [{
            "class": kind, "instance": instance, "lists": self.seldom(0.7),
            "attributes": [self.own_attribute(one) for one in self.random.sample(numbers, self.pick(0, 1, 2, 3, 5))],
            "services": [self.own_service_shape(one) for one in self.random.sample(SERVICES, self.pick(0, 1, 2, 3))],
        } for kind, instance in keys]

    def new_value(self, shape):
        """A value for a set: mostly one that is allowed, or one beyond a bound, of another size, or any bytes."""
        if shape["type"] == "SHORT_STRING":
            length = self.pick(0, shape["count"], shape["count"], min(shape["count"] + 1, 255))
            data = bytes([length]) + self.random.randbytes(length)
        elif shape["type"] in NUMBERS and NUMBERS[shape["type"]] != "f" and self.seldom(0.7):
            kind = NUMBERS[shape["type"]]
            bits = 8 * struct.calcsize("<" + kind)
            low, high = (-(2 ** (bits - 1)), 2 ** (bits - 1) - 1) if kind.islower() else (0, 2**bits - 1)
            bounds = shape.get("min", low), shape.get("max", high)
            near = [bound + step for bound in bounds for step in (-1, 0, 0, 1)]
            values = [min(max(self.pick(*near), low), high) for _ in range(shape["count"])]
            values = [values[0]] * len(values) if self.seldom(0.5) else values
            data = packed(shape, values)
        elif NUMBERS.get(shape["type"]) == "f" and self.seldom(0.8):
            edges = [shape.get("min", 0.0), shape.get("max", 1.5), 0.0, -0.0, float("nan"), float("inf"), -float("inf")]
            data = packed(shape, [self.pick(*edges) for _ in range(shape["count"])])
        else:
            data = self.random.randbytes(shape["size"])
        return self.pick(data[:-1], data + b"\0", b"") if self.seldom(0.1) else data

    def own_call(self, config):
        """A request to an application object, which is mostly executed, or goes to the owner."""
        one = self.random.choice(config["objects"])
        if self.seldom(0.1):
            return GET, self.right_path(one["class"], 0) + self.segment("attribute", self.pick(1, 2, 3)), b""
        path = self.right_path(one["class"], one["instance"])
        kinds = ["all", "list"] + ["get", "set", "set", "set", "sets", "sets"] * bool(one["attributes"])
        kind = self.pick(*kinds, *["service"] * 2 * bool(one["services"]))
        if kind == "service":
            shape = self.random.choice(one["services"])
            sizes = shape["least"], shape["most"], shape["least"] - 1, shape["most"] + 1
            data = self.random.randbytes(max(self.pick(*sizes[:2], *sizes), 0))
            path += self.segment("attribute", self.pick(1, 300)) if self.seldom(0.2) else b""
            return shape["number"], path, data
        if kind == "all":
            return GET_ALL, path, b""
        if kind == "list":
            listed = [shape["number"] for shape in one["attributes"]] + [6]
            listed = self.random.choices(listed, k=self.random.randrange(5))
            return GET_LIST, path, b"".join(number(2, value) for value in [len(listed), *listed])
        if kind == "sets":
            shapes = self.random.choices(one["attributes"], k=self.random.randrange(5))
            short = [shape for shape in one["attributes"] if shape["size"] == 1]
            # one whose reply is too large
            shapes = [self.random.choice(short)] * 130 if short and self.seldom(0.6) else shapes
            text = number(2, len(shapes))
            text += b"".join(number(2, shape["number"]) + self.new_value(shape) for shape in shapes)
            return SET_LIST, path, self.pick(text[:-1], text + b"\0", text + number(2, 6)) if self.seldom(0.1) else text
        shape = self.random.choice(one["attributes"])
        path += self.segment("attribute", shape["number"])
        return (GET, path, b"") if kind == "get" else (SET, path, self.new_value(shape))


def toml_of_value(attribute):
    """The value of an attribute, as a configuration spells it."""
    if attribute["type"] == "SHORT_STRING":
        return '"%s"' % attribute["text"]
    if attribute["type"] == "BYTES":
        return str(list(attribute["value"]))
    if attribute["type"] in BITS:
        return str(int.from_bytes(attribute["value"], "little"))
    values = struct.unpack("<%d%s" % (attribute["count"], NUMBERS[attribute["type"]]), attribute["value"])
    return str(list(values)) if attribute["array"] else str(values[0])


def toml_of_type(attribute):
    if attribute["type"] == "SHORT_STRING":
        return "SHORT_STRING[%d]" % attribute["count"]
    if attribute["type"] == "BYTES":
        return "BYTES[%d]" % attribute["size"]
    return attribute["type"] + ("[%d]" % attribute["count"] if attribute.get("array") else "")


def toml_of_object(one):
    """The lines of an application object in a configuration."""
    if "table" in one:
        return toml_of_table(one)
    lines = ["[[object]]", "class = %d" % one["class"], "instance = %d" % one["instance"]]
    lines += ["lists = true"] * one["lists"]
    for attribute in one["attributes"]:
        lines += ["[[object.attribute]]", "number = %d" % attribute["number"]]
        lines += ['type = "%s"' % toml_of_type(attribute), "value = " + toml_of_value(attribute)]
        lines += ["%s = true" % key for key in ("settable", "checked") if attribute[key]]
        lines += ["%s = %s" % (key, attribute[key]) for key in ("min", "max") if key in attribute]
    for service in one["services"]:
        sizes = "size = %(least)d" if service["least"] == service["most"] else "sizes = [%(least)d, %(most)d]"
        lines += ["[[object.service]]", "number = %d" % service["number"], sizes % service]
        lines += ["reply = %d" % service["reply"]] if service["reply"] else []
    return lines

"""The second reading of the objects: Identity, the assemblies, the counter, and the application objects."""
import struct

from reading.protocol import (
    ADD, ASSEMBLY, ATTRIBUTE, CLEAR, CONNECTION_MANAGER, COUNTER, DESTINATION, DEVICE_STATE, GET, GET_ALL, GET_LIST, GET_MEMBER,
    IDENTITY, LIST, MEMBER, NOT_SETTABLE, PARAMETER, RESET, SERVICE, SET, SET_LIST, SET_MEMBER, SHORT, TOO_LARGE, VALUE, check,
    check_length, number, Refusal, request_of,
)
from reading.applications import Applications
from reading.packets import executed, is_packet


def listed(value_of, data):
    """The general status and the data of a reply to Get_Attribute_List. `value_of` gives an attribute, or None."""
    check(len(data) >= 2, SHORT)
    count = int.from_bytes(data[:2], "little")
    check_length(data, 2 + 2 * count)
    status, reply = 0, data[:2]
    for (attribute,) in struct.iter_unpack("<H", data[2:]):
        value = value_of(attribute)
        if value is None:
            status, reply = LIST, reply + number(2, attribute) + number(2, ATTRIBUTE)
        else:
            reply += number(2, attribute) + number(2, 0) + value
    return status, reply


def settings_in(size_of, data):
    """The attributes of a Set_Attribute_List, each with its value. `size_of` gives the size of a value, or None."""
    check(len(data) >= 2, SHORT)
    settings, rest = [], data[2:]
    for _ in range(int.from_bytes(data[:2], "little")):
        check(len(rest) >= 2, SHORT)
        attribute, rest = int.from_bytes(rest[:2], "little"), rest[2:]
        size = size_of(attribute, rest)
        check(size is not None, ATTRIBUTE)
        check(len(rest) >= size, SHORT)
        settings, rest = settings + [(attribute, rest[:size])], rest[size:]
    check_length(rest, 0)
    return settings


class Objects:
    """Identity, Assembly, the counter and the application objects of a configuration."""

    # whether a request within a packet is executed: there is no owner for it
    within = False

    def __init__(self, config):
        self.config, self.applications = config, Applications(config)
        self.value, self.limit, self.additions = config["value"], config["limit"], 0
        self.assemblies = {one["instance"]: one for one in config["assemblies"]}
        self.contents = {one["instance"]: bytes(sum(one["members"])) for one in config["assemblies"]}

    def services(self, kind, instance):
        if kind == ASSEMBLY and instance in self.assemblies:
            lists = [GET_ALL, SET_LIST] if self.assemblies[instance]["lists"] else []
            return [GET_LIST, GET, SET, GET_MEMBER, SET_MEMBER] + lists
        if kind == COUNTER and not self.config["has_counter"]:
            return self.applications.services(kind, instance)
        services = {
            (IDENTITY, 0): [GET], (ASSEMBLY, 0): [GET], (COUNTER, 0): [GET], (CONNECTION_MANAGER, 1): [],
            (IDENTITY, 1): [GET_ALL, GET_LIST, GET] + [RESET] * self.config.get("reset", False), (COUNTER, 1): [GET_LIST, GET, SET, ADD, CLEAR],
        }.get((kind, instance))
        return services if services is not None else self.applications.services(kind, instance)

    def is_application(self, kind, instance):
        return self.applications.services(kind, instance) is not None

    def attribute(self, kind, instance, attribute):
        config = self.config
        if self.is_application(kind, instance):
            return self.applications.attribute(kind, instance, attribute)
        if instance == 0:
            revision = 2 if kind == ASSEMBLY else 1
            instances = list(self.assemblies) if kind == ASSEMBLY else [1]
            greatest, count = max(instances, default=0), len(instances)
            return {1: number(2, revision), 2: number(2, greatest), 3: number(2, count)}.get(attribute)
        if kind == IDENTITY:
            name = config["name"].encode()
            return {
                1: number(2, config["vendor"]), 2: number(2, config["device_type"]),
                3: number(2, config["product_code"]), 4: bytes([config["major"], config["minor"]]),
                5: number(2, config["status"]), 6: number(4, config["serial"]),
                7: bytes([len(name)]) + name, 8: bytes([config["state"]]),
            }.get(attribute)
        if kind == ASSEMBLY:
            members = self.assemblies[instance]["members"]
            return {1: number(2, len(members)), 3: self.contents[instance], 4: number(2, sum(members))}.get(attribute)
        return {1: number(4, self.value), 2: number(4, self.limit), 3: number(4, self.additions)}.get(attribute)

    def execute(self, request, room):
        """The reply to a request, or to a packet of several requests."""
        if self.config.get("message_router") and is_packet(request):
            self.within = True
            reply = executed(self.execute_one, request, room)
            self.within = False
            return reply
        return self.execute_one(request, room)

    def execute_one(self, request, room):
        """The reply to one request. Its changes are kept only if the reply fits into `room` bytes."""
        before = (self.value, self.limit, self.additions, dict(self.contents), dict(self.applications.values))
        try:
            status, data = self.served(request, room)
        except Refusal as refusal:
            status, data = refusal.args[0], b""
        if 4 + len(data) > room:
            self.value, self.limit, self.additions, self.contents, self.applications.values = before
            status, data = TOO_LARGE, b""
        return bytes([request[0] | 0x80, 0, status, 0]) + data

    def served(self, request, room):
        service, path, data = request_of(request)
        kind, instance = path["class"], path["instance"]
        services = self.services(kind, instance)
        check(services is not None, DESTINATION)
        check(service in services, SERVICE)
        own = self.applications.has(kind, instance) and self.is_application(kind, instance)
        if own and service not in (GET_ALL, GET_LIST, SET_LIST, GET, SET):
            check(not self.within, SERVICE)
            self.applications.own_service(kind, instance, service, data, room)
        if service == RESET:
            return 0, self.reset(data)
        if service == GET_ALL:
            check_length(data, 0)
            if own:
                return 0, self.applications.all_attributes(kind, instance)
            places = (1, 3, 4) if kind == ASSEMBLY else range(1, 8)
            return 0, b"".join(self.attribute(kind, instance, place) for place in places)
        if service == GET_LIST:
            return listed(lambda attribute: self.attribute(kind, instance, attribute), data)
        if service == SET_LIST:
            return self.set_all(kind, instance, data)
        if service == ADD:
            return 0, self.added(data)
        if service == CLEAR:
            check_length(data, 0)
            old, self.value = self.value, 0
            return 0, number(4, old)
        if service in (GET_MEMBER, SET_MEMBER):
            return 0, self.member(service, instance, path, data)
        value = self.attribute(kind, instance, path.get("attribute"))
        check(value is not None, ATTRIBUTE)
        if service == GET:
            check_length(data, 0)
            return 0, value
        if own:
            self.applications.set(kind, instance, path["attribute"], data, NOT_SETTABLE if self.within else DEVICE_STATE)
            return 0, b""
        return 0, self.set(kind, instance, path["attribute"], len(value), data)

    def reset(self, data):
        """What peers can change gets its first value, by type 1. Type 0 changes nothing. Neither is within a packet."""
        check(not self.within, SERVICE)
        check(data in (b"", b"\0", b"\1"), PARAMETER)
        if data == b"\1":
            self.value, self.limit, self.additions = self.config["value"], self.config["limit"], 0
            settable = {place: one for place, one in self.assemblies.items() if one["settable"]}
            self.contents.update((place, bytes(sum(one["members"]))) for place, one in settable.items())
            self.applications.reset()
        return b""

    def set_all(self, kind, instance, data):
        """Sets one attribute after another. A refused one changes nothing, and the next is set."""
        status, reply = 0, data[:2]
        for attribute, value in settings_in(lambda *of: self.value_size(kind, instance, *of), data):
            try:
                if kind == ASSEMBLY:
                    self.set(kind, instance, attribute, len(value), value)
                else:
                    self.applications.set(kind, instance, attribute, value, NOT_SETTABLE)
                reply += number(2, attribute) + number(2, 0)
            except Refusal as refusal:
                status, reply = LIST, reply + number(2, attribute) + number(2, refusal.args[0])
        return status, reply

    def value_size(self, kind, instance, attribute, data):
        """The size of a value of an attribute that begins with these bytes, or None."""
        if kind == ASSEMBLY:
            return {1: 2, 3: sum(self.assemblies[instance]["members"]), 4: 2}.get(attribute)
        return self.applications.value_size(kind, instance, attribute, data)

    def set(self, kind, instance, attribute, length, data):
        settable = attribute == 2 if kind == COUNTER else attribute == 3 and self.assemblies[instance]["settable"]
        check(settable, NOT_SETTABLE)
        check_length(data, length)
        if kind == ASSEMBLY:
            self.contents[instance] = data
        else:
            check(int.from_bytes(data, "little") >= self.value, VALUE)
            self.limit = int.from_bytes(data, "little")
        return b""

    def member(self, service, instance, path, data):
        assembly, content, place = self.assemblies[instance], self.contents[instance], path.get("member", 0)
        check(path.get("attribute") == 3, ATTRIBUTE)
        check(1 <= place <= len(assembly["members"]), MEMBER)
        begin, end = sum(assembly["members"][: place - 1]), sum(assembly["members"][:place])
        if service == GET_MEMBER:
            check_length(data, 0)
            return content[begin:end]
        check(assembly["settable"], NOT_SETTABLE)
        check_length(data, end - begin)
        self.contents[instance] = content[:begin] + data + content[end:]
        return b""

    def added(self, data):
        check_length(data, 4)
        total = self.value + int.from_bytes(data, "little")
        check(total <= self.limit, PARAMETER)
        self.value, self.additions = total, (self.additions + 1) % 2**32
        return number(4, total)

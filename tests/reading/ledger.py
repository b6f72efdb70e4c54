"""The second reading of the command ledger, and of a device, which has objects and may have a ledger."""
import collections
import struct
from dataclasses import dataclass

from reading.protocol import (
    ATTRIBUTE, CONNECTION_MANAGER, DESTINATION, DO_ONCE, FORGET, GET, GET_LAST, GET_LIST, GET_SLOTS, IS_PENDING, LEDGER, LIST,
    LONG, NOT_NEW, NO_SLOT, OTHER_LIFE, PRIVILEGE_VIOLATION, SERVICE, SHORT, TOO_LARGE, UNKNOWN_ORIGINATOR, WITHDRAW, Refusal,
    class_of, is_change, number, request_of,
)
from reading.objects import Objects, listed
from reading.packets import is_packet, requests_in

# The general status 0, and the states of a command that is done and of one that was withdrawn.
SUCCESS, DONE, WITHDRAWN = 0, b"\0", b"\3"
# The reply limit of an embedded request, and the size of the longest reply to a new command.
EMBEDDED_ROOM, LARGEST_REPLY = 480, 485


@dataclass
class Slot:
    """The number of an originator's last command, its state, and the reply to it."""

    number: int
    reply: bytes
    state: bytes = DONE

    @property
    def answer(self):
        return self.state + self.reply


class Ledger:
    """The command ledger of a configuration, in front of its objects. `slots` has the slot of each originator.

    If it does not withdraw, as the device of a script does not, Withdraw answers by the slots alone.

    Each service is a list of rows. The first row that applies decides. A row has a name, whether it applies, the
    general status, and the data of the reply if there are any. A statement between two rows takes effect only if no row
    above it applies."""

    def __init__(self, config, objects, reached, withdraws):
        self.count, self.life, self.withdraws = config["originators"], config.get("life", 1), withdraws
        self.objects, self.slots, self.reached = objects, {}, reached

    def execute(self, request, room):
        """The reply to a request to the ledger's class. Each row is counted if it applies."""
        for row, applies, status, *data in self.rows(request, room):
            self.reached[row] += bool(applies)
            if applies:
                return bytes([request[0] | 0x80, 0, status, 0]) + b"".join(data)

    def rows(self, request, room):
        service, path, data = request_of(request)
        instance, attribute = path["instance"], path.get("attribute")
        services = {0: [GET], 1: [GET_LIST, GET, DO_ONCE, GET_LAST, FORGET, WITHDRAW, GET_SLOTS]}.get(instance)
        yield "another instance", services is None, DESTINATION
        yield "another service", service not in services, SERVICE
        if service == GET:
            yield from self.attribute_rows(instance, attribute, data, room)
        elif service == GET_LIST:
            yield from self.list_rows(data, room)
        else:
            rows = {
                DO_ONCE: self.do_once, GET_LAST: self.get_last, FORGET: self.forget, WITHDRAW: self.withdraw,
                GET_SLOTS: self.get_slots,
            }
            yield from rows[service](data, room)

    def do_once(self, data, room):
        yield "Do_Once: under 22 bytes of data", len(data) < 22, SHORT
        life, originator, command = struct.unpack_from("<QQI", data)
        slot = self.slots.get(originator)
        yield "Do_Once: another life", life != self.life, OTHER_LIFE
        yield "Do_Once: all slots are taken", slot is None and len(self.slots) == self.count, NO_SLOT
        yield "Do_Once: the slot has a greater number", slot and slot.number > command, NOT_NEW
        if slot and slot.number == command:
            yield "Do_Once: the command was withdrawn", slot.state == WITHDRAWN, SUCCESS, WITHDRAWN
            yield "Do_Once: the kept reply does not fit", 4 + len(slot.answer) > room, TOO_LARGE
            yield "Do_Once: the kept reply", True, SUCCESS, slot.answer
        yield "Do_Once: new, and the reply limit is under 485", room < LARGEST_REPLY, TOO_LARGE
        self.slots[originator] = Slot(command, self.embedded(data[20:]))
        yield "Do_Once: a new originator", slot is None, SUCCESS, DONE + self.slots[originator].reply
        yield "Do_Once: a greater number", True, SUCCESS, DONE + self.slots[originator].reply

    def embedded(self, request):
        """The reply to an embedded request. One to the Connection Manager or to the ledger is refused."""
        kind = class_of(request)
        if kind in (CONNECTION_MANAGER, LEDGER):
            reply = bytes([request[0] | 0x80, 0, SERVICE, 0])
        else:
            reply = self.objects.execute(request, EMBEDDED_ROOM)
        self.reached["embedded: to the Connection Manager"] += kind == CONNECTION_MANAGER
        self.reached["embedded: to the ledger"] += kind == LEDGER
        self.reached["embedded: executed"] += reply[2] == SUCCESS
        self.reached["embedded: the reply does not fit"] += reply[2] == TOO_LARGE
        self.reached["embedded: refused"] += reply[2] not in (SUCCESS, TOO_LARGE, SERVICE)
        return reply

    def get_last(self, data, room):
        yield "Get_Last: too short", len(data) < 8, SHORT
        yield "Get_Last: too long", len(data) > 8, LONG
        slot = self.slots.get(int.from_bytes(data, "little"))
        yield "Get_Last: no slot", slot is None, UNKNOWN_ORIGINATOR
        last = number(4, slot.number) + slot.answer
        yield "Get_Last: the reply does not fit", 4 + len(last) > room, TOO_LARGE
        yield "Get_Last: a command that was withdrawn", slot.state == WITHDRAWN, SUCCESS, last
        yield "Get_Last", True, SUCCESS, last

    def forget(self, data, room):
        yield "Forget: too short", len(data) < 12, SHORT
        yield "Forget: too long", len(data) > 12, LONG
        originator, command = struct.unpack("<QI", data)
        slot = self.slots.get(originator)
        yield "Forget: no slot", slot is None, SUCCESS
        yield "Forget: the slot has a greater number", slot.number > command, NOT_NEW
        yield "Forget: the slot has a smaller number", slot.number < command, NOT_NEW
        del self.slots[originator]
        yield "Forget", True, SUCCESS

    def withdraw(self, data, room):
        """No command of this device is in doubt, and none is queued."""
        yield "Withdraw: too short", len(data) < 20, SHORT
        yield "Withdraw: too long", len(data) > 20, LONG
        life, originator, command = struct.unpack("<QQI", data)
        last = self.slots.get(originator)
        yield "Withdraw: another life", self.life != life, OTHER_LIFE
        yield "Withdraw: no slot, in a script", not last and not self.withdraws, NO_SLOT
        yield "Withdraw: all slots are taken", not last and len(self.slots) >= self.count, NO_SLOT
        yield "Withdraw: the slot has a greater number", last and command < last.number, NOT_NEW
        if last and command == last.number:
            yield "Withdraw: again", last.state == WITHDRAWN, SUCCESS, WITHDRAWN
            yield "Withdraw: the kept reply does not fit", 4 + len(last.answer) > room, TOO_LARGE
            yield "Withdraw: the command is done", True, SUCCESS, last.answer
        yield "Withdraw: a greater number, in a script", not self.withdraws, IS_PENDING
        self.slots[originator] = Slot(command, b"", WITHDRAWN)
        yield "Withdraw: a new originator", last is None, SUCCESS, WITHDRAWN
        yield "Withdraw: a greater number", True, SUCCESS, WITHDRAWN

    def get_slots(self, data, room):
        yield "Get_Slots: too short", len(data) < 2, SHORT
        yield "Get_Slots: too long", len(data) > 2, LONG
        first = int.from_bytes(data, "little")
        left = [number(8, originator) + number(4, slot.number) + slot.state for originator, slot in self.slots.items()][first:]
        fitting = left[: (room - 6) // 13]
        listed = number(2, len(self.slots)) + b"".join(fitting)
        yield "Get_Slots: past the last slot", not left, SUCCESS, listed
        yield "Get_Slots: not all of them fit", len(fitting) < len(left), SUCCESS, listed
        yield "Get_Slots", True, SUCCESS, listed

    def attribute(self, instance, attribute):
        if instance == 0:
            return {1: number(2, 1), 2: number(2, 1), 3: number(2, 1)}.get(attribute)
        return {1: number(2, self.count), 2: number(2, len(self.slots)), 3: number(8, self.life)}.get(attribute)

    def attribute_rows(self, instance, attribute, data, room):
        value = self.attribute(instance, attribute)
        yield "no such attribute", value is None, ATTRIBUTE
        yield "an attribute: too long", len(data) > 0, LONG
        yield "an attribute does not fit", 4 + len(value) > room, TOO_LARGE
        yield "attribute %d of instance %d" % (attribute, instance), True, SUCCESS, value

    def list_rows(self, data, room):
        size = 2 + 2 * int.from_bytes(data[:2], "little")
        yield "a list: too short", len(data) < size, SHORT
        yield "a list: too long", len(data) > size, LONG
        status, reply = listed(lambda attribute: self.attribute(1, attribute), data)
        yield "a list does not fit", 4 + len(reply) > room, TOO_LARGE
        yield "a list with an unknown attribute", status == LIST, status, reply
        yield "a list", True, status, reply


class Device:
    """The device of a configuration. If it has a command ledger, requests to the ledger's class go there. `reached`
    counts how often each row of the ledger applied."""

    def __init__(self, config, withdraws=True):
        self.objects, self.reached = Objects(config), collections.Counter()
        self.ledger = Ledger(config["ledger"], self.objects, self.reached, withdraws) if config["ledger"] else None

    def execute(self, request, room):
        """The reply to a request, of at most `room` bytes."""
        if class_of(request) != LEDGER:
            return self.objects.execute(request, room)
        self.reached["no ledger"] += not self.ledger
        return (self.ledger or self.objects).execute(request, room)


def is_changing_packet(request):
    """Whether a request is a packet that can be read, and one of its requests could change something."""
    try:
        return is_packet(request) and any(is_change(one) for one in requests_in(request_of(request)[2]))
    except Refusal:
        return False


class Readable:
    """A device as a reader sees it: what could change something is refused before anything else of it is looked at."""

    def __init__(self, device):
        self.device = device

    def execute(self, request, room):
        if is_change(request) or is_changing_packet(request):
            return bytes([request[0] | 0x80, 0, PRIVILEGE_VIOLATION, 0])
        return self.device.execute(request, room)

"""The world in which requests have numbers, and random scripts for it."""

from reading.protocol import LAST, LAST_MOMENT, MOST, ROOM
from reading.ledger import Device
from reading.commands import Commands


class NumberedWorld:
    """A client and an adapter whose requests have numbers. There are no sequence counts, and no reply is kept. The log
    has the numbers and the other sessions' requests that were executed. The objects are the result of a run over it."""

    O_T_SIZE = T_O_SIZE = 500

    def __init__(self, config):
        self.config, self.submits, self.sent, self.back, self.log = config, [], [], [], []
        self.reached, self.last_back, self.open, self.awaited, self.given_up = 0, 0, True, None, False
        self.after_accepted, self.continued = 0, 0

    def is_refused(self):
        """Whether there is no capacity for two sessions."""
        return self.config["peers"] < 2 or self.config["first_handle"] == LAST

    def run(self, until=None):
        """The device after the log, and the reply to the request with the number `until`."""
        device, reply = Device(self.config, withdraws=False), None
        for entry in self.log:
            own = isinstance(entry, int)
            request, room = (self.submits[entry], self.T_O_SIZE - 2) if own else (entry, ROOM)
            got = device.execute(request, room)
            reply = got if own and entry == until else reply
        return device, reply

    def refusal(self, request):
        if len(self.submits) - self.after_accepted == MOST:
            return 5
        if self.awaited is not None:
            return 1
        if len(request) < 2 or request[0] >= 0x80:
            return 3
        return 2 if len(request) + 2 > self.O_T_SIZE else None

    def submit(self, request):
        refusal = self.refusal(request)
        if refusal is not None:
            return "submit refused %d" % refusal
        self.continued += self.given_up
        self.awaited, self.given_up = len(self.submits), False
        self.submits.append(request)
        self.sent.append(self.awaited)
        return "submit %d sent %d" % (self.awaited, len(self.sent) - 1)

    def resend(self):
        if self.awaited is None:
            return "resend none"
        self.sent.append(self.awaited)
        return "resend %d" % (len(self.sent) - 1)

    def reach(self, position):
        if not self.reached <= position < len(self.sent):
            return "reach %d impossible" % position
        self.reached, number = position, self.sent[position]
        if not self.open:
            return "reach %d none" % position
        if number not in self.log:
            self.log.append(number)
        self.back.append(number)
        return "reach %d back %d" % (position, len(self.back) - 1)

    def deliver_back(self, position):
        if not self.last_back <= position < len(self.back):
            return "back %d impossible" % position
        self.last_back, number = position, self.back[position]
        if number != self.awaited:
            return "back %d ignored" % position
        self.awaited, self.after_accepted = None, number + 1
        return "back %d accepted %s" % (position, self.run(number)[1].hex())

    def other(self, request):
        if not 2 <= len(request) <= ROOM:
            return "other impossible"
        self.log.append(request)
        return "other done"

    def shut(self):
        self.open = False
        return "shut"

    def give_up(self):
        if self.awaited is not None:
            self.awaited, self.given_up = None, True
        return "giveup"

    def ending(self):
        objects = self.run()[0].objects
        if self.config["has_counter"]:
            yield "counter %d %d %d" % (objects.value, objects.limit, objects.additions)
        for instance, content in sorted(objects.contents.items()):
            yield "assembly %d %s" % (instance, content.hex())
        waiting = "idle" if self.awaited is None else "waiting"
        yield "client " + ("given up" if self.given_up else waiting)


class Script(Commands):
    """Makes the lines of a script, and the output that is expected."""

    KINDS = ["submit", "other"] * 2 + ["reach", "back"] * 5 + ["resend", "end", "remark"]

    def begin(self, config):
        self.configuration, self.world, self.lines, self.wanted = config, NumberedWorld(config), [], []

    def bytes(self, limit):
        """A request. Sometimes its length or that of its reply is about the limit, or it has a byte or two, or none."""
        if self.seldom(0.05):
            return self.listing(limit + self.pick(-1, 0, 0, 1, 2))
        request = self.request(self.configuration)
        if self.seldom(0.1):
            size = limit + self.pick(-1, 0, 0, 1, 1)
            return request[:size] + bytes(size - len(request[:size]))
        return request[: self.random.randrange(3)] if self.seldom() else request

    def spelled(self, request):
        text = request.hex()
        text = text.upper() if self.seldom(0.2) else text
        return " ".join(text[at : at + 5] for at in range(0, len(text), 5)) if self.seldom(0.2) else text

    def position(self, last, count):
        """A position in a direction with `count` frames: mostly the newest, the last one again, or one in between."""
        if self.seldom(0.08):
            return self.pick(count, count + 1, max(last - 1, 0), 0, LAST_MOMENT)
        between = range(last, max(count, last + 1))
        return self.pick(between[-1], between[-1], between[0], self.random.choice(between))

    def turn(self):
        """A line, and its expected output."""
        self.line(self.pick(*self.KINDS))

    def line(self, kind):
        """A line of this kind, and its expected output."""
        world = self.world
        if kind == "submit":
            request = self.bytes(world.O_T_SIZE - 2)
            line, printed = "submit " + self.spelled(request), world.submit(request)
        elif kind == "reach":
            position = self.position(world.reached, len(world.sent))
            line, printed = "reach %d" % position, world.reach(position)
        elif kind == "back":
            position = self.position(world.last_back, len(world.back))
            line, printed = "back %d" % position, world.deliver_back(position)
        elif kind == "other":
            request = self.bytes(ROOM)
            line, printed = "other " + self.spelled(request), world.other(request)
        elif kind == "resend":
            line, printed = "resend", world.resend()
        elif kind == "giveup":
            line, printed = "giveup", world.give_up()
        elif kind == "end":
            rare = self.pick("shut", "giveup", "", "", "", "")
            line, printed = rare, {"shut": world.shut, "giveup": world.give_up}.get(rare, lambda: None)()
        else:
            line, printed = self.pick("# resend", "", "#"), None
        self.lines.append(line)
        self.wanted += [] if printed is None else [printed]

    def turns(self, count):
        """Makes `count` lines."""
        for _ in range(count):
            self.turn()

    def refused(self):
        """A line that is refused."""
        return self.pick(
            "submit", "submit 0", "submit 0g", "resend 0", "reach", "reach ", "reach -1", "reach 1 ", "back", "back 1.",
            "back 18446744073709551616", "other", "other 000", "shut ", "Giveup", " resend", "resent", "1 00", "\t",
        )

    def make(self):
        """Makes the lines of a script. Returns the status, the standard error and the output of its run."""
        config = self.config()
        config["peers"] = config["peers"] if self.seldom(0.2) else max(config["peers"], 2)
        self.begin(config)
        self.turns(self.pick(5, 20, 40, 80))
        if self.world.is_refused():
            return 6, "setup\n", []
        if self.seldom(0.3):
            self.lines += [self.refused(), "resend"]
            return 4, "line %d\n" % (len(self.lines) - 1), self.wanted
        return 0, "", self.wanted + list(self.world.ending())


class GivingUp(Script):
    """Makes scripts in which the client gives up and continues."""

    KINDS = ["submit"] * 5 + ["giveup"] * 3 + ["reach", "back"] * 4 + ["other", "resend", "end", "remark"]
    to_the_bound = False

    def abandon(self):
        """A request is submitted and given up, and mostly lost."""
        self.line("submit")
        if self.seldom(0.0005):
            self.line("reach")
        self.line("giveup")

    def turns(self, count):
        """Makes `count` lines, and more until the client has continued."""
        super().turns(count)
        while self.world.continued == 0:
            self.turn()
        if self.to_the_bound:
            few = self.pick(0, 1, 1, 2)
            while len(self.world.submits) - self.world.after_accepted < MOST - few:
                self.abandon()
            # the last request that is accepted waits while another is submitted
            self.line("submit")
            self.line("submit")
            super().turns(40)

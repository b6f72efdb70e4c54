"""The owner of a conveyor: executes the commands of the device that conveyor.toml describes.

    enip serve conveyor.toml 127.0.0.1:44818 --owner 127.0.0.1:44900
    PYTHONPATH=../../library/python python3 conveyor.py 127.0.0.1 44900 FILE

FILE stands for the machine: it has the position. FILE.journal has what this program must remember, so that each command
moves the conveyor once, also if this program or the device is killed. The module enip.owner, which keeps it, is in
library/python (in the archive, python; in Debian's package libenip-dev, /usr/share/libenip-dev/python).
"""
import os
import socket
import struct
import sys

from enip.owner import Journal

POSITION, END, INVALID_PARAMETER = 2, 10_000, 0x20


class Machine:
    """The motor and the encoder of the conveyor."""

    def __init__(self, file):
        self.file = file

    def position(self):
        if not os.path.exists(self.file):
            return 0
        with open(self.file) as encoder:
            return int(encoder.read())

    def drive(self, target):
        """Drives to a position. If the conveyor is there, it does not move."""
        with open(self.file + ".new", "w") as encoder:
            encoder.write("%d\n" % target)
        os.replace(self.file + ".new", self.file)
        print("at", target, flush=True)


class Conveyor:
    def __init__(self, file):
        self.machine, self.journal = Machine(file), Journal(file + ".journal", self.settle)

    def execute(self, command):
        target = self.machine.position() + struct.unpack("<i", command.data)[0]
        self.journal.begin(command, struct.pack("<q", target))
        self.journal.done(command, *self.move_to(target))

    def settle(self, command, note):
        """Settles a command that began before this program was killed: goes on to the position that was noted."""
        return self.move_to(*struct.unpack("<q", note))

    def move_to(self, target):
        """Moves the conveyor. Returns the general status and the data of the reply."""
        if not 0 <= target <= END:
            return INVALID_PARAMETER, b""
        self.machine.drive(target)
        self.show()
        return 0, struct.pack("<i", target)

    def show(self):
        """Writes the position to the device, for clients to read."""
        where = {"class": 768, "instance": 1, "attribute": POSITION}
        self.journal.send({"write": {**where, "values": [self.machine.position()]}})

    def receive(self, line):
        message = self.journal.receive(line)
        if "hello" in message:
            print("owner of", message["hello"]["name"], flush=True)
            self.show()
        elif "command" in message:
            self.execute(message["command"])
        elif "changed" in message:
            print("speed %d, set by %s" % (message["changed"]["values"][0], message["changed"]["by"]), flush=True)
        elif "error" in message:
            print("refused:", message["text"], file=sys.stderr)


def main(host, port, file):
    conveyor = Conveyor(file)
    with socket.create_connection((host, int(port))) as stream:
        conveyor.journal.connect(stream.sendall)
        for line in stream.makefile("rb"):
            conveyor.receive(line)


if __name__ == "__main__":
    main(*sys.argv[1:])

"""Gives a command to a device with a command ledger, and repeats it until the device answers. The device executes it
once. If this program is killed, the same line continues. `Commander` of the module `enip` says what FILE holds.

    pip install ./library/python
    python3 command.py 127.0.0.1 44818 FILE                         adds 1 to the counter
    python3 command.py 127.0.0.1 44818 FILE 32022064240105000000    any request: this one adds 5
"""

import sys

from enip import Commander, EnipError


def main(arguments):
    try:
        address, port, file, request = (arguments[1:] + ["32022064240101000000"])[:4]
        port, request = int(port), bytes.fromhex(request)
    except ValueError:
        print("usage: command.py ADDRESS PORT FILE [REQUEST]", file=sys.stderr)
        return 2
    try:
        with Commander(address, file, port) as commander:
            print(commander.command(request).hex())
    except (EnipError, OSError) as error:
        print(f"command.py: {error}", file=sys.stderr)
        return 1
    return 0


if __name__ == "__main__":
    sys.exit(main(sys.argv))

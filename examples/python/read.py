"""Reads a device's identity, and sets an assembly over a class 3 connection, which sends the request again if no reply
comes.

    pip install ./library/python
    python3 read.py 127.0.0.1 44818 100 01020304
"""

import sys

from enip import Client, EnipError


def main(arguments):
    try:
        _, address, port, assembly, data = arguments
        port, assembly, data = int(port), int(assembly), bytes.fromhex(data)
    except ValueError:
        print("usage: read.py ADDRESS PORT ASSEMBLY HEX", file=sys.stderr)
        return 2
    try:
        with Client(address, port) as client:
            vendor, product = client.get(1, 1, 1, "UINT"), client.get(1, 1, 3, "UINT")
            print(f"vendor {vendor}, product code {product}, name {client.get(1, 1, 7, 'SHORT_STRING')}")
            client.set(4, assembly, 3, data)
            print("set")
    except (EnipError, OSError) as error:
        print(f"read.py: {error}", file=sys.stderr)
        return 1
    return 0


if __name__ == "__main__":
    sys.exit(main(sys.argv))

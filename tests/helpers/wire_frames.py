"""Frames that a peer of a device sends and receives, for the tests that use sockets (Volume 2, encapsulation)."""
import struct

# The sender context, unless a frame gives another.
CONTEXT = bytes(range(1, 9))
# The data of a RegisterSession: version 1, no flags.
REGISTER = bytes.fromhex("01000000")
# Get_Attribute_Single of the vendor, and the reply of the demo.
GET_VENDOR = bytes.fromhex("0e03200124013001")
VENDOR = bytes.fromhex("8e0000003412")


def frame(command, session, data=b"", status=0, context=CONTEXT):
    """An encapsulation header and its data."""
    return struct.pack("<HHII", command, len(data), session, status) + context + bytes(4) + data


def unconnected(session, request, context=CONTEXT):
    """A SendRRData with a request, or with a reply."""
    head = bytes(6) + struct.pack("<HHHHH", 2, 0, 0, 0xB2, len(request))
    return frame(0x6F, session, head + request, context=context)


def connected(session, connection, item, context=CONTEXT):
    """A SendUnitData with a connected item: a sequence count, and a request or a reply."""
    head = bytes(6) + struct.pack("<HHHIHH", 2, 0xA1, 4, connection, 0xB1, len(item))
    return frame(0x70, session, head + item, context=context)


def read_all(peer, count):
    """Reads `count` bytes of a socket, or those that arrive before its end."""
    got = b""
    while len(got) < count:
        more = peer.recv(count - len(got))
        if not more:
            break
        got += more
    return got

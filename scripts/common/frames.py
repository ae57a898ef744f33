"""The frames of a session for the scripts in Python: how a Request is written, and what a Reply says in numbers."""

import struct

STRATEGIES = {"local": 1, "remote": 2, "remote_local_fallback": 3, "racing": 4}

CANCEL = b"\x03\0\0\0\0"
SHUTDOWN = b"\x04\0\0\0\0"
SHUTDOWN_DONE = b"\x05\0\0\0\0"


def varint(number):
    out = bytearray()
    while number >= 128:
        out.append(number % 128 + 128)
        number //= 128
    out.append(number)
    return bytes(out)


def text(field, value):
    return varint(field << 3 | 2) + varint(len(value)) + value


def number(field, value):
    return varint(field << 3) + varint(value)


def request(root, words, inputs=(), outputs=(), strategy="local", watches=False):
    """The frame of a request for a tool's run."""
    payload = number(1, 1) + text(2, root.encode())
    payload += b"".join(text(3, word.encode()) for word in words)
    payload += number(6, STRATEGIES[strategy]) + number(7, 1)
    payload += b"".join(text(8, path.encode()) for path in inputs)
    payload += b"".join(text(10, path.encode()) for path in outputs)
    payload += number(13, 1) if watches else b""
    return b"\x01" + struct.pack(">I", len(payload)) + payload


def numbers_of(payload):
    """The number fields of a message."""
    at, fields = 0, {}

    def take():
        nonlocal at
        value = shift = 0
        while True:
            byte = payload[at]
            at += 1
            value |= (byte & 127) << shift
            shift += 7
            if byte < 128:
                return value

    while at < len(payload):
        key = take()
        if key & 7 == 0:
            fields[key >> 3] = take()
        else:
            length = take()
            at += length
    return fields


def numbers_of_reply(reply):
    """The number fields of a Reply frame, or None where these bytes aren't just one."""
    if reply[:1] != b"\x02" or len(reply) < 5 or len(reply) != 5 + struct.unpack(">I", reply[1:5])[0]:
        return None
    return numbers_of(reply[5:])


def is_done(fields):
    """Whether a reply says that the command ran and ended with 0."""
    return fields is not None and fields.get(1, 0) == 0 and fields.get(2, 0) == 0 and 6 in fields

"""Rules of HTTP/2 that a client has to keep, tried on what went over a connection (RFC 9113, 4.2, 5.2, 6.5.3, 6.7 and 6.9)."""

PREFACE = b"PRI * HTTP/2.0\r\n\r\nSM\r\n\r\n"
DATA, HEADERS, SETTINGS, PING, WINDOW_UPDATE = 0, 1, 4, 6, 8
ACK = 1
INITIAL_WINDOW_SIZE = 4
# The most bytes of a frame, where the server doesn't let more (SETTINGS_MAX_FRAME_SIZE), and a window at first.
MOST_FRAME = 16384
WINDOW = 65535


class Frames:
    """The frames of one side, as its bytes come."""

    def __init__(self, skipped):
        self.skipped = skipped
        self.bytes = b""

    def take(self, piece):
        """Each frame that is whole by now: its type, flags, stream and payload."""
        self.bytes += piece
        if self.skipped:
            if len(self.bytes) < self.skipped:
                return
            self.bytes, self.skipped = self.bytes[self.skipped :], 0
        while len(self.bytes) >= 9:
            length = int.from_bytes(self.bytes[:3], "big")
            if len(self.bytes) < 9 + length:
                return
            kind, flags = self.bytes[3], self.bytes[4]
            stream = int.from_bytes(self.bytes[5:9], "big") & 0x7FFFFFFF
            payload, self.bytes = self.bytes[9 : 9 + length], self.bytes[9 + length :]
            yield kind, flags, stream, payload


class Client:
    """What a client owes by what came to it, and what it did wrong."""

    def __init__(self):
        self.windows = {0: WINDOW}
        self.initial = WINDOW
        # How many calls were begun since a PING came, by its payload; and how many SETTINGS aren't acknowledged.
        self.pings = {}
        self.settings = 0
        self.faults = []

    def hear(self, kind, flags, stream, payload):
        """A frame came from the server."""
        if kind == SETTINGS and not flags & ACK:
            self.settings += 1
            for at in range(0, len(payload), 6):
                if int.from_bytes(payload[at : at + 2], "big") == INITIAL_WINDOW_SIZE:
                    value = int.from_bytes(payload[at + 2 : at + 6], "big")
                    for other in self.windows:
                        self.windows[other] += value - self.initial if other else 0
                    self.initial = value
        elif kind == PING and not flags & ACK:
            self.pings[payload] = 0
        elif kind == WINDOW_UPDATE:
            self.windows.setdefault(stream, self.initial)
            self.windows[stream] += int.from_bytes(payload, "big")

    def say(self, kind, flags, stream, payload):
        """The client sent a frame."""
        if len(payload) > MOST_FRAME:
            self.faults.append(f"a frame of {len(payload)} bytes")
        if kind == DATA:
            self.windows.setdefault(stream, self.initial)
            for other in (0, stream):
                self.windows[other] -= len(payload)
                if self.windows[other] < 0:
                    self.faults.append(f"the window of stream {other} is passed by {-self.windows[other]} bytes")
        elif kind == HEADERS:
            self.pings = {ping: calls + 1 for ping, calls in self.pings.items()}
        elif kind == SETTINGS and flags & ACK:
            self.settings -= 1
        elif kind == PING and flags & ACK:
            if self.pings.pop(payload, None) is None:
                self.faults.append("a PING is answered that didn't come")


def faults_of(events):
    """What a client did wrong. An event is whether bytes are the client's, and the bytes, in the order in which it sent or could
    read them. A PING may wait for the next call, and not for the one behind that."""
    client, frames = Client(), (Frames(0), Frames(len(PREFACE)))
    for is_client, piece in events:
        for frame in frames[is_client].take(piece):
            (client.say if is_client else client.hear)(*frame)
    late = sum(calls > 1 for calls in client.pings.values())
    faults = list(client.faults)
    if late:
        faults.append(f"{late} PINGs aren't answered")
    if client.settings < 0 or client.settings > 1:
        faults.append(f"{client.settings} SETTINGS aren't acknowledged")
    return faults

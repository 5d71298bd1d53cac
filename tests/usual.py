"""Two usual clients of a router, byte for byte. A case of `tests/serve`."""
import contextlib
import socket

from driven import MOST_WAIT, Reader, Router
from driven import must, pubsub

# Who sends, or to whom the router does, and the bytes of a batch behind its length. `K` stands for the cookie, `F` for a frame's head with the next
# number of who sends it: those of a client begin with 5, and those of the router as it tells in its answer to OPEN.
SPEAKING = [
    # interest 1 in subscribers of `a/**`, current and future; key 1 is `a/b`; subscriber 1 on `a/b/*`
    ("0a", "F 79 01 32 00 04 61 2F 2A 2A 1E 20 01 00 03 61 2F 62 1E 62 01 01 02 2F 2A"),
    ("> 0a", "F 3E 01 22 01 00 03 61 2F 62 3E 01 1A"),  # subscriber 1 `a/b`, end of current
    ("0a", "F 5D 01 01 02 68 69"),  # PUT `hi` on key 1
    ("> 0b", "F 3D 00 03 61 2F 62 01 02 68 69"),
    ("0a", "F 5C 01 01 03"),  # query 1 on key 1
    ("> 0b", "F 3C 01 00 03 61 2F 62 03"),
    ("0b", "F 3B 01 00 03 61 2F 62 04 01 01 35 1A 01"),  # the reply `5`, and the final
    ("> 0a", "F 3B 01 00 03 61 2F 62 04 01 01 35"),
    ("> 0a", "F 1A 01"),
    ("0a", "23 00"),  # CLOSE, behind which nothing is written
]
DECLARING = "F 1E 22 01 00 03 61 2F 62 1E 24 01 00 04 61 2F 2A 2A"  # subscriber 1 `a/b`, queryable 1 `a/**`
PROBING = "F 39 09 02"  # interest 9 in subscribers that are declared now, which tells that all before it is read
PROBED = "F 3E 09 1A"
FIRST, MODULUS = 5, 1 << 28
HEAD = bytes([pubsub.FRAME | pubsub.RELIABLE])


class Raw:
    """A connection of a client, which is told what to send and what must come."""

    def __init__(self, router, ident):
        self.link = socket.create_connection(router.address, timeout=MOST_WAIT)
        self.ident, self.cookie, self.theirs, self.ours = ident, None, None, FIRST

    def bytes_of(self, text, next_number):
        frame = HEAD + pubsub.number(next_number) if next_number is not None else b""
        parts = text.split()
        return b"".join({"K": self.cookie, "F": frame}[part] if part in "KF" else bytes.fromhex(part) for part in parts)

    def send(self, text):
        content = self.bytes_of(text, self.ours)
        self.ours += "F" in text.split()
        self.link.sendall(len(content).to_bytes(2, "little") + content)

    def read(self):
        length = int.from_bytes(self.take(2), "little")
        return self.take(length)

    def take(self, count):
        content = b""
        while len(content) < count and (piece := self.link.recv(count - len(content))):
            content += piece
        return content

    def must(self, text):
        came = self.read()
        if "K" in text.split() and self.cookie is None:
            self.cookie = came[-32:]
        must(came.hex(" "), self.bytes_of(text, self.theirs).hex(" "), f"what comes to {self.ident} for {text}")
        if "F" in text.split():
            self.theirs = (self.theirs + 1) % MODULUS

    def open(self):
        self.send(f"01 09 02 {self.ident}")
        self.must("21 09 00 01 20 K")
        self.send("42 0A 05 20 K")
        answer = Reader(self.read())
        must(answer.take(2), bytes([0x62, 10]), "the answer to OPEN, up to the number of the first frame")
        self.theirs = answer.number()
        must(answer.is_empty(), True, "the answer to OPEN has no more")


def usual_clients():
    """A client asks what others declare, publishes and asks under a number, and another one answers: both are sent just these bytes."""
    with Router("01") as router, contextlib.ExitStack() as stack:
        clients = {ident: Raw(router, ident) for ident in ("0a", "0b")}
        for client in clients.values():
            stack.callback(client.link.close)
        clients["0b"].open()
        clients["0b"].send(DECLARING)
        clients["0b"].send(PROBING)
        clients["0b"].must(PROBED)
        clients["0a"].open()
        for who, text in SPEAKING:
            (clients[who[2:]].must if who[0] == ">" else clients[who].send)(text)
        must(clients["0a"].link.recv(16), b"", "what comes to 0a behind its CLOSE")

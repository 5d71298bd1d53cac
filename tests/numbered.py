"""A case for `tests/serve`: what goes over a link between routers byte by byte, where numbers stand for keys."""
from driven import DECLARATIONS, RECORD, Router, Sample, Watcher, must, pubsub, received, send_at_once, settle, until
from reading import SNAPSHOT

SUBSCRIBED = 0  # in a snapshot: a subscription
# The declaration of 1 for `a/b`, and the value `hi` under it in the tree 01; the same value again; and the declaration of 2 for `a/c`, with its value.
FRAMES = ["1e20010003612f62dd0157010101026869", "dd0157010101026869", "1e20020003612f63dd0257010101026869"]


class Neighbour(Watcher):
    """A router that is linked with one other router, and keeps the contents of the frames that aren't for routers alone."""

    def __init__(self, address, ident):
        self.frames = []
        super().__init__(address, ident)

    def subscribe_to(self, key):
        link = pubsub.string(self.ident) + pubsub.number(1) + pubsub.number(1) + pubsub.string(self.router)
        wants = bytes([SNAPSHOT]) + pubsub.string(self.ident) + pubsub.number(1) + pubsub.number(1) + bytes([SUBSCRIBED]) + pubsub.string(key)
        send_at_once(self, [for_routers(RECORD, link), for_routers(DECLARATIONS, wants)])

    def read_frame(self, reader):
        if reader.content[reader.at] & pubsub.KIND == pubsub.OAM:
            return super().read_frame(reader)
        self.frames.append(reader.rest().hex())

    def was_sent(self, key):
        """Whether a frame in which a key is written out has come, within a moment."""
        self.receive(0.05)
        return any(key.hex() in frame for frame in self.frames)


def for_routers(kind, content):
    return bytes([pubsub.OAM | pubsub.OF_BYTES]) + pubsub.number(kind) + pubsub.string(content)


def numbered_keys():
    """Between routers a number is declared for a key before its first use, and stands for the key from then on. A client is sent whole keys."""
    with Router("01") as router:
        neighbour, client, publisher = Neighbour(router.address, "0f"), router.client(), router.client()
        neighbour.subscribe_to(b"a/*")
        until(lambda: publisher.put("a/b", b"hi") or neighbour.was_sent(b"a/b"), "a sample goes to the neighbour")
        client.subscribe("a/c")
        settle(client)
        publisher.put("a/b", b"hi")
        publisher.put("a/c", b"hi")
        until(lambda: neighbour.was_sent(b"a/c"), "one on another key goes there")
        must(neighbour.frames[:2] + neighbour.frames[-1:], FRAMES, "the frames between routers")
        must(received(client, 1), [Sample("a/c", b"hi")], "what a client is sent")

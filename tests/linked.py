"""Linked routers over sockets, with a relay on each link between them, and clients at each. `tests/replay` judges what they do.

One thread reads and writes for all relays and clients, so the moments of what it sees and sends are in one order.
"""
import collections
import contextlib
import itertools
import selectors
import signal
import socket
import time

from driven import PROBE_LEASE, Router, Session, Wrong, pubsub, send_at_once
from ordering import History
from reading import Numbering, Stream, message

MOST_WAIT = 120  # seconds for what has to come, on a busy machine too
QUIET, QUIET_BEFORE = 0.5, 0.1  # seconds in which nothing comes, once links have come up or gone down and before they go down
MOST_OF_TURN = 0.02  # seconds of rest that a turn counts for
HELD, MOST_HELD = 0.2, 0.004  # how often a relay holds back what it has read, and for how many seconds at most
MOST_TIME = 3  # of replies


class Relay:
    """What a router dials in the place of another one: it passes on all bytes, and writes down the messages."""

    def __init__(self, network, dialler, listener):
        self.network, self.names = network, (dialler, listener)
        self.door = socket.create_server(("127.0.0.1", 0))
        self.port = self.door.getsockname()[1]
        self.links, self.streams, self.held = {}, {}, {}
        network.watch(self.door, self.accept)

    def accept(self):
        self.network.selector.unregister(self.door)
        dialler, listener = self.names
        self.links = {dialler: self.door.accept()[0], listener: socket.create_connection(self.network.routers[listener].address)}
        for name, link in self.links.items():
            link.setsockopt(socket.IPPROTO_TCP, socket.TCP_NODELAY, 1)
            link.settimeout(MOST_WAIT)
            other = listener if name == dialler else dialler
            self.streams[name], self.held[name] = Stream(f"{name} > {other}"), collections.deque()
            self.network.watch(link, lambda name=name, other=other: self.read(name, other))
        self.door.close()
        self.both("up")

    def both(self, what):
        """The link comes up or goes down, which both of its routers learn."""
        for sender, receiver in (self.names, self.names[::-1]):
            self.network.history.add(sender, receiver, (what,)).sent = self.network.history.now()

    def cut(self):
        for link in self.links.values():
            self.network.selector.unregister(link)
        self.both("down")
        self.close()

    def read(self, name, other):
        content = self.links[name].recv(1 << 16)
        if not content:
            raise Wrong(f"{name} > {other}: the link has ended")
        rng, due = self.network.rng, time.monotonic()
        if rng.random() < HELD:
            due += rng.random() * MOST_HELD
        for batch, texts in self.streams[name].feed(content):
            self.held[name].append((due, batch, [self.network.note(name, other, words) for words in texts]))

    def pass_on(self):
        now = time.monotonic()
        for name, held in self.held.items():
            other = self.names[1] if name == self.names[0] else self.names[0]
            while held and held[0][0] <= now:
                _, batch, messages = held.popleft()
                for passed in messages:
                    passed.sent = self.network.history.now()
                self.links[other].sendall(batch)

    def close(self):
        for link in (self.door, *self.links.values()):
            link.close()


class Client:
    """A client, and what it has been sent: what it is asked, which of its queries and pings are open, what it was told."""

    def __init__(self, network, name, home):
        self.network, self.name, self.home = network, name, home
        self.session = Session(network.routers[home].address, bytes.fromhex(name), PROBE_LEASE, MOST_WAIT)
        self.stream = Stream(f"{home} > {name}", to_client=True)
        self.asked, self.open, self.pings, self.told, self.heard = [], set(), set(), set(), set()
        self.declared, self.interests = {}, []  # by sort and number the key; the numbers of those that last
        self.numbers = collections.Counter()
        self.unread, self.pinged = 0, None
        self.leaves = self.has_left = False
        network.watch(self.session.link, self.read)

    def say(self, *messages):
        """Sends messages in one write."""
        for content in messages:
            said = self.network.history.add(self.name, self.home, message(Numbering(content, {})))
            said.sent = self.network.history.now()
        send_at_once(self.session, messages)
        self.unread += len(messages)

    def read(self):
        content = self.session.link.recv(1 << 16)
        if not content:
            self.ended()
        for _, texts in self.stream.feed(content):
            for words in texts:
                self.take(self.network.note(self.home, self.name, words).words)

    def leave(self):
        """Closes its session, and reads on until the router has ended it."""
        self.network.history.add(self.name, self.home, ("leave",)).sent = self.network.history.now()
        self.leaves = self.stream.may_close = True
        self.session.batch(bytes([pubsub.CLOSE | pubsub.WHOLE_SESSION, 0]))
        self.network.clients.remove(self)

    def ended(self):
        if not self.leaves:
            raise Wrong(f"{self.home} > {self.name}: the link has ended")
        self.network.selector.unregister(self.session.link)
        self.session.link.close()
        self.has_left = True

    def take(self, words):
        if words[0] == "get":
            self.asked.append(words)
        elif words[0] == "final":
            if int(words[1]) not in self.open:
                raise Wrong(f"{self.home} > {self.name}: a final {words[1]} comes, and no query of this number is open")
            self.open.remove(int(words[1]))
            self.pings.discard(int(words[1]))
            if self.pinged and self.pinged[0] == int(words[1]):
                self.unread -= self.pinged[1]
                self.pinged = None
        elif words[0] == "told":
            self.told.add(" ".join(words[1:2] + words[3:4]) if words[1] in ("sub", "able", "full") else " ".join(words[1:]))
        elif words[0] == "put" and words[2].startswith("end/"):
            self.heard.add(words[3])

    def number(self, sort):
        self.numbers[sort] += 1
        return self.numbers[sort]

    def query(self, key, target=pubsub.ALL, is_latest=False):
        """A query under the least number that none of its open ones has, so numbers come again."""
        number = next(i for i in range(len(self.open) + 1) if i not in self.open)
        self.open.add(number)
        self.newest = number
        return pubsub.request(number, key, None, target, is_latest)

    def ping(self):
        """A query that nobody answers: its router sends the final as soon as it has read it."""
        content = self.query(f"ping/{self.name}/p{self.name}x{self.number('ping')}")
        self.pings.add(self.newest)
        return content

    def answers(self, count):
        """So many replies and finals to what it is asked, in any order."""
        rng, messages = self.network.rng, []
        while self.asked and len(messages) < count:
            asked = rng.choice(self.asked)
            if rng.random() < 0.4:
                self.asked.remove(asked)
                messages.append(pubsub.final(int(asked[2])))
                continue
            stamp = (rng.randrange(MOST_TIME), self.session.ident) if rng.random() < 0.6 else None
            key = f"store/{rng.randrange(3)}/item"
            messages.append(pubsub.reply(int(asked[2]), key, f"r{self.name}x{self.number('reply')}".encode(), stamp))
        return messages

    def pace(self):
        """A ping whose final tells that all before it is read."""
        self.say(self.ping())
        self.pinged = (self.newest, self.unread)

    def declare(self, sort, key):
        number = self.number(sort)
        self.declared[sort, number] = key
        if sort == "sub":
            return pubsub.subscription(number, key)
        return pubsub.queryable(number, key, is_complete=self.network.rng.random() < 0.5)

    def take_back(self, sort, number):
        del self.declared[sort, number]
        return pubsub.undeclared(pubsub.NO_SUBSCRIBER if sort == "sub" else pubsub.NO_QUERYABLE, number)

    def interest(self, key, kinds, mode, is_aggregated=False):
        number = self.number("interest")
        if mode & pubsub.FUTURE:
            self.interests.append(number)
        return pubsub.interest(number, key, mode, kinds, is_aggregated)


class Network:
    """Routers, the relays on their links, and clients, all turned by one thread."""

    def __init__(self, stack, rng, dials):
        self.rng, self.history = rng, History()
        self.selector = selectors.DefaultSelector()
        stack.callback(self.close)
        self.stack, self.dials = stack, dials
        self.routers, self.relays, self.clients = {}, [], []
        self.homes, self.numbers = {}, itertools.count()
        self.idle = 0  # seconds in which nothing came and no router had anything to do

    def start(self, name):
        """Starts a router, and waits until its links are up."""
        relays = [Relay(self, name, other) for other in self.dials[name]]
        self.relays += relays
        self.routers[name] = self.stack.enter_context(Router(name, *(relay.port for relay in relays), weights=self.dials[name].values()))
        if relays:
            self.until(lambda: all(self.is_linked(relay) for relay in relays), "the routers are linked")
            self.end_stage_of_links()

    def cut(self, relay):
        """A link between two routers breaks, once nothing is on its way."""
        self.until(lambda: self.is_quiet(QUIET_BEFORE), "the links are quiet")
        self.relays.remove(relay)
        relay.cut()
        self.end_stage_of_links()

    def end_stage_of_links(self):
        self.idle = 0
        self.until(lambda: self.is_quiet(QUIET), "the links are quiet")
        self.history.stages_of_links.add(self.history.stage)
        self.history.stage += 1

    def client(self, home):
        """One more client at a router."""
        name = f"c{len(self.homes) + 1:03x}"
        self.homes[name] = home
        self.clients.append(Client(self, name, home))
        return self.clients[-1]

    def is_linked(self, relay):
        a, b = relay.names
        return all(any(it.words[:2] == ("record", way[0]) for it in self.history.ways[way]) for way in ((a, b), (b, a)))

    def is_at_rest(self):
        return all(router.is_at_rest() for router in self.routers.values())

    def is_quiet(self, seconds):
        return self.idle > seconds and not any(any(relay.held.values()) for relay in self.relays)

    def watch(self, link, act):
        self.selector.register(link, selectors.EVENT_READ, act)

    def note(self, sender, receiver, words):
        noted = self.history.add(sender, receiver, words)
        noted.seen = self.history.now()
        self.idle = 0
        return noted

    def turn(self, seconds=0.001):
        """Reads and passes on what is there. Turns in which nobody has anything to do sum to the idle time; a late one counts little."""
        began = time.monotonic()
        ready = self.selector.select(seconds)
        if not ready and self.is_at_rest():
            self.idle += min(time.monotonic() - began, MOST_OF_TURN)
        for key, _ in ready:
            key.data()
        for relay in self.relays:
            relay.pass_on()
        for client in self.clients:
            client.session.keep_alive()

    def until(self, test, what):
        end = time.monotonic() + MOST_WAIT
        while not test():
            if time.monotonic() > end:
                raise Wrong(f"not within {MOST_WAIT} s: {what}")
            self.turn()

    def read_by_routers(self):
        """Waits until each router has read what its clients have said so far."""
        for client in self.clients:
            client.say(client.ping())
        self.until(lambda: not any(client.pings for client in self.clients), "the routers have read what clients said")

    @contextlib.contextmanager
    def stopped(self):
        """Meanwhile the routers do nothing."""
        for router in self.routers.values():
            router.process.send_signal(signal.SIGSTOP)
        try:
            yield
        finally:
            for router in self.routers.values():
                router.process.send_signal(signal.SIGCONT)

    def first_clients(self):
        """The first client of each router: it is told all."""
        return list({client.home: client for client in reversed(self.clients)}.values())

    def others(self):
        firsts = self.first_clients()
        return [client for client in self.clients if client not in firsts]

    def settle(self):
        """Waits until all that was declared has come to each router: so has a last declaration of each of them, as clients are told."""
        self.read_by_routers()
        stage, firsts = self.history.stage, self.first_clients()
        for client in firsts:
            client.say(client.declare("sub", f"stage/{stage}/{client.name}"))
        self.read_by_routers()
        wanted = {f"sub stage/{stage}/{client.name}" for client in firsts}
        told = lambda client: wanted - client.told <= {f"sub stage/{stage}/{client.name}"}
        self.until(lambda: all(told(client) for client in firsts), "all routers know what was declared")
        self.read_by_routers()  # the finals come behind what clients are told
        self.history.stage += 1

    def close(self):
        for it in (*self.relays, *(client.session.link for client in self.clients), self.selector):
            it.close()

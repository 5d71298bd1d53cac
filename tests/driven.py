"""A running router and its clients over real sockets, and what was seen of them. `tests/serve` has the cases."""
import contextlib
import datetime
import importlib.machinery
import importlib.util
import itertools
import os
import pathlib
import re
import select
import socket
import subprocess
import sys
import time

HERE = pathlib.Path(__file__).resolve().parent
PUBSUB = HERE.parent / "examples" / "pubsub"
loader = importlib.machinery.SourceFileLoader("pubsub", str(PUBSUB))
sys.dont_write_bytecode = True
pubsub = importlib.util.module_from_spec(importlib.util.spec_from_loader("pubsub", loader))
loader.exec_module(pubsub)
Session, Ended, Reader, Sample, Answer, Told = pubsub.Session, pubsub.Ended, pubsub.Reader, pubsub.Sample, pubsub.Answer, pubsub.Told

MOST_WAIT = 10  # seconds
MOST_LATE = 60  # seconds between a line of the log and its reading
MOST_TOLD = 65_536  # bytes of standard error that are read at a time
MOST_PORTS = 5  # that are tried: another process may take one before the router listens
MOST_AHEAD = 128  # samples that a publisher is ahead of the slowest subscriber: a ring has twice as many slots
SILENCE = 0.3  # seconds for which nothing comes
PROBE_LEASE = 120  # seconds: on a busy machine a probe may be late
PROBE = "settle/"  # the keys by which a client learns that its subscription is seen
SPEAKS_RECORDS = bytes([0x29, 0x02])  # the extension of INIT that a router of this kind sends
RECORD, DECLARATIONS, WEIGHTED_RECORD = 0x5A01, 0x5A02, 0x5A03  # messages between routers
QOS = bytes([0x21, 0x0D])  # the extension of PUSH that has its quality of service: the usual priority, and the bit "don't drop"


LOGGED = re.compile(r"(\d{4}-\d\d-\d\dT\d\d:\d\d:\d\d\.\d{3}Z) (info|warn) (.+)\n")


class Wrong(Exception):
    """What was seen isn't what must be seen."""


def must(seen, wanted, what):
    if seen != wanted:
        raise Wrong(f"{what}: {seen!r}, not {wanted!r}")


def until(test, what, seconds=MOST_WAIT):
    """Waits until the test holds."""
    end = time.monotonic() + seconds
    while not test():
        if time.monotonic() > end:
            raise Wrong(f"not within {seconds} s: {what}")
        time.sleep(0.02)


def free_port():
    with socket.socket() as s:
        s.bind(("127.0.0.1", 0))
        return s.getsockname()[1]


class Router:
    """The program, as it serves."""

    program = []

    def __init__(self, ident, *dials, weights=(), options=(), port=None, rules=None):
        named = ["--id", ident] if ident else []
        dialled = [d if isinstance(d, str) else f"127.0.0.1:{d.port if isinstance(d, Router) else d}" for d in dials]
        dialled = [f"{it},{weight}" if weight else it for it, weight in itertools.zip_longest(dialled, weights)]
        for left in reversed(range(1 if port else MOST_PORTS)):
            self.port = port or free_port()
            self.address = ("127.0.0.1", self.port)
            self.start([*named, "--listen", f"127.0.0.1:{self.port}", *options, *(["--rules"] if rules else []), *dialled], rules)
            line = self.process.stdout.readline()
            if found := re.fullmatch(r"serving ((?:[0-9a-f]{2}){1,16})\n", line):
                break
            self.process.kill()
            told = self.process.stderr.read()
            self.__exit__()
            if not (left and ": address in use\n" in told):
                raise Wrong(f"the router wrote {line!r}, not 'serving {ident}'; on standard error: {told!r}")
        self.ident = found[1]
        must(self.ident, ident or self.ident, "the identifier that the router tells")

    def start(self, words, rules):
        given = subprocess.PIPE if rules else subprocess.DEVNULL
        words = [*self.program, "serve", *words]
        self.process = subprocess.Popen(words, stdin=given, stdout=subprocess.PIPE, stderr=subprocess.PIPE, text=True)
        if rules:
            self.process.stdin.write(rules)
            self.process.stdin.close()

    def __enter__(self):
        return self

    def __exit__(self, *_):
        self.process.kill()
        self.process.wait()
        self.process.stdout.close()
        self.process.stderr.close()

    def client(self, ident=None, lease=pubsub.LEASE_S, timeout=MOST_WAIT):
        return Client(self.address, bytes.fromhex(ident) if ident else None, lease, timeout)

    def before_others(self):
        """Lets it run before other work of a busy machine, where that is allowed."""
        with contextlib.suppress(OSError):
            os.setpriority(os.PRIO_PROCESS, self.process.pid, -10)

    def is_at_rest(self):
        """Whether none of its threads has something to do. On a busy machine one that has may wait long for a processor."""
        try:
            states = [task.read_text().rpartition(")")[2].split()[0] for task in pathlib.Path(f"/proc/{self.process.pid}/task").glob("*/stat")]
        except OSError:
            return False  # a thread has just ended
        return set(states) == {"S"}

    def status(self):
        """What the system tells of the process in numbers: threads, and memory in KiB."""
        lines = pathlib.Path(f"/proc/{self.process.pid}/status").read_text().split("\n")
        values = (line.split(":", 1) for line in lines if ":" in line)
        return {name: int(value.split()[0]) for name, value in values if value.split() and value.split()[0].isdigit()}

    def threads(self):
        """How many threads it runs, and how much memory it holds, in KiB."""
        status = self.status()
        return status["Threads"], status["VmRSS"]

    def logged(self):
        """The next line of the log, without its time: the severity and the text."""
        line = self.process.stderr.readline()
        if not (found := LOGGED.fullmatch(line)):
            raise Wrong(f"{line!r} is no line of the log")
        told = datetime.datetime.strptime(found[1], "%Y-%m-%dT%H:%M:%S.%f%z").timestamp()
        if abs(time.time() - told) > MOST_LATE:
            raise Wrong(f"the log tells {found[1]}, not the time of now")
        return found[2], found[3]

    def told_yet(self, seconds=SILENCE):
        """What standard error has told, up to a silence of so long, of which `logged` has read no line: that may hold lines of which a select doesn't know."""
        told = ""
        while select.select([self.process.stderr], [], [], seconds)[0] and (part := os.read(self.process.stderr.fileno(), MOST_TOLD)):
            told += part.decode()
        return told

    def descriptors(self):
        return len(os.listdir(f"/proc/{self.process.pid}/fd"))


class Client(Session):
    """A client whose probes are told apart from its samples."""

    def __init__(self, *words):
        self.heard = set()
        super().__init__(*words)

    def receive(self, seconds):
        end = time.monotonic() + seconds
        while (sample := super().receive(max(end - time.monotonic(), 0))) is not None:
            if not sample.key.startswith(PROBE):
                return sample
            self.heard.add(sample.key)
        return None

    def hears(self, key):
        """Whether a probe has come, within a moment."""
        if (sample := self.receive(0.05)) is not None:
            self.samples.insert(0, sample)
        return key in self.heard


class Watcher(Session):
    """A session of a router, which keeps what the other end tells of links."""

    def __init__(self, address, ident):
        self.records = {}
        super().__init__(address, bytes.fromhex(ident))

    def open(self, lease):
        self.batch(bytes([pubsub.INIT | pubsub.EXTENDED, pubsub.VERSION, len(self.ident) - 1 << 4]) + self.ident + SPEAKS_RECORDS)
        answer = Reader(self.wait_batch())
        header = self.expect(answer, pubsub.INIT)
        answer.byte()
        self.router = answer.take((answer.byte() >> 4) + 1)
        if header & pubsub.SIZED:
            answer.take(3)
        cookie = answer.string()
        self.batch(bytes([pubsub.OPEN | pubsub.SECONDS]) + pubsub.number(lease) + b"\0" + pubsub.string(cookie))
        self.expect(Reader(self.wait_batch()), pubsub.OPEN)

    def read_frame(self, reader):
        while not reader.is_empty() and reader.content[reader.at] & pubsub.KIND >= pubsub.INTEREST:
            header = reader.byte()
            if header & pubsub.KIND != pubsub.OAM:
                raise Wrong(f"a router sent {header:#04x} to a router")
            kind = reader.number()
            reader.extensions(header)
            content = Reader(reader.string())
            if kind in (RECORD, WEIGHTED_RECORD):
                self.read_record(content, kind == WEIGHTED_RECORD)

    def read_record(self, content, is_weighted):
        ident = content.string().hex()
        count = content.number()
        links = [self.read_link(content, is_weighted) for _ in range(content.number())]
        self.records[ident] = (count, links)

    def read_link(self, content, is_weighted):
        """The router of a link, with `:W` behind it where it has a weight other than 1."""
        ident = content.string().hex()
        weight = content.number() if is_weighted else 1
        return ident if weight == 1 else f"{ident}:{weight}"

    def links(self):
        """The links of each router of which it was told."""
        self.receive(0.05)
        return {ident: record[1] for ident, record in self.records.items()}


def received(session, count, seconds=MOST_WAIT):
    """So many samples."""
    samples = []
    while len(samples) < count:
        sample = session.receive(seconds)
        if sample is None:
            raise Wrong(f"{len(samples)} samples came, not {count}")
        samples.append(sample)
    return samples


def is_silent(session, seconds=SILENCE):
    sample = session.receive(seconds)
    if sample is not None:
        raise Wrong(f"{sample} came, and nothing must")


def handed(session, key, payload=None, target=pubsub.BEST_MATCHING):
    """The next query that a client is handed, which must have these contents."""
    query = session.receive_query(MOST_WAIT)
    must(query and query[1:], (key, payload, target), "the query")
    return query


def is_unasked(session):
    must(session.receive_query(SILENCE), None, "what is asked of who can't answer")


def answered(session, *answers, seconds=MOST_WAIT):
    """The answers to a client's queries must be these, each within so long, and no more."""
    for answer in answers:
        must(session.receive_answer(seconds), answer, "the answer")
    must(session.receive_answer(SILENCE), None, "what comes behind the answers")


def reply_to(number, key, payload):
    return Answer(number, reply=Sample(key, payload))


def told(session, *messages):
    """What a client is told of others' declarations must be these, and no more."""
    for message in messages:
        must(session.receive_told(MOST_WAIT), message, "what is told")
    must(session.receive_told(SILENCE), None, "what is told behind it")


@contextlib.contextmanager
def program(router, *words):
    """The small client as a program of its own, which is killed at the end."""
    words = [sys.executable, str(PUBSUB), "--router", f"127.0.0.1:{router.port}", *words]
    process = subprocess.Popen(words, stdin=subprocess.DEVNULL, stdout=subprocess.PIPE, stderr=subprocess.PIPE, text=True)
    try:
        yield process
    finally:
        process.kill()
        process.wait()
        process.stdout.close()
        process.stderr.close()


def ending(act, what):
    """The text with which a session ends."""
    try:
        act()
    except Ended as e:
        return str(e)
    raise Wrong(f"{what}: the session goes on")


def reason(text):
    """The reason of a CLOSE, where the text tells one."""
    head = "the router has closed the session: "
    return int(text[len(head) :].split()[0]) if text.startswith(head) else text


def sure_put(key, payload):
    """A sample that may not be dropped."""
    return sure(pubsub.put(key, payload), key)


def sure_delete(key):
    return sure(pubsub.delete(key), key)


def sure(push, key):
    body = 2 + len(pubsub.string(key.encode()))
    return bytes([push[0] | pubsub.EXTENDED]) + push[1:body] + QOS + push[body:]


def send_at_once(session, messages):
    """Sends messages in one write, in as few frames as hold them."""
    most = pubsub.MOST_BATCH - 1 - len(pubsub.number(pubsub.MODULUS))
    contents = [b""]
    for message in messages:
        if len(contents[-1]) + len(message) > most:
            contents.append(b"")
        contents[-1] += message
    frames = [bytes([pubsub.FRAME | pubsub.RELIABLE]) + pubsub.number(session.number()) + content for content in contents]
    session.link.sendall(b"".join(len(frame).to_bytes(2, "little") + frame for frame in frames))


def settle(*clients):
    """Waits until the router has read all that was sent by these: each hears a sample on a key of its own, which another client publishes."""
    for client in clients:
        key = f"{PROBE}{os.urandom(8).hex()}"
        subscription = client.subscribe(key)
        probe = Session(client.link.getpeername(), lease=PROBE_LEASE)
        until(lambda: probe.put(key, b"") or client.hears(key), "a subscription is seen")
        probe.close()
        client.unsubscribe(subscription)


def takes(router, ident):
    try:
        router.client(ident).close()
    except Ended:
        return False
    return True


def comes_again(router, ident):
    """A client under an identifier that was up just now: it is taken once the former link has gone."""
    end = time.monotonic() + MOST_WAIT
    while True:
        try:
            return router.client(ident)
        except Ended:
            must(time.monotonic() < end, True, "the identifier can come again")
            time.sleep(0.01)


def settle_across(client, router, seconds=MOST_WAIT):
    """Waits until a client's declarations so far have come to another router: what a client of that one publishes comes to it."""
    key = f"{PROBE}{os.urandom(8).hex()}"
    subscription = client.subscribe(key)
    probe = Session(router.address, lease=PROBE_LEASE, timeout=seconds)
    until(lambda: probe.put(key, b"") or client.hears(key), "a subscription is seen from another router", seconds)
    probe.close()
    client.unsubscribe(subscription)


def clients_hear_each_other(router):
    subscriber, publisher = router.client(), router.client()
    subscriber.subscribe("x")
    settle(subscriber)
    publisher.put("x", b"y")
    must(received(subscriber, 1), [Sample("x", b"y")], "a sample among clients of one router")
    subscriber.close()
    publisher.close()


def choose_program(path):
    """The program that routers are: this one, or the launcher, which proves and builds it first."""
    if path:
        Router.program = [path]
        return
    launcher = HERE.parent / "zrd"
    subprocess.run([launcher, "--prove"], check=True)
    Router.program = [str(launcher)]


def judge(name, act):
    began = time.monotonic()
    try:
        act()
    except (Wrong, Ended, OSError, subprocess.TimeoutExpired) as e:
        print(f"FAIL {name}: {e}", flush=True)
        return False
    print(f"ok {name} ({time.monotonic() - began:.1f} s)", flush=True)
    return True

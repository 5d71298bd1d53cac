"""Cases of hostile or unlucky use for `tests/serve`; each says what is to hold."""
import contextlib
import multiprocessing
import resource
import select
import socket
import threading
import time

from driven import Answer, Ended, Router, Sample, Told, Watcher, Wrong
from driven import MOST_WAIT, RECORD, SILENCE, answered, handed, must, pubsub, received, reply_to, send_at_once, settle, settle_across, sure_put, takes
from driven import told, until

CHANGES = 200
RECORDS, BYTES_EACH = 3_000, 2_048  # records that nobody links, and the memory that each may take
ORPHANS, MANY_ORPHANS, ASKED_AT_ONCE = 20_000, 100_000, 200  # queries whose asker has gone
STANDSTILL, BRIEF = 1, 0.1  # seconds without an answer; where rows are searched one by one it is many
EVENTS, CROWDED = 1_000, 10  # a second at each of two routers that flood each other, and for so many seconds
PASSED, PASSES = 32_768, 0.05  # bytes that go over a narrow link at a time, and seconds between two times
PACE, STEADY = 1 / 300, 15  # seconds between two samples that are read, and for which it goes on
AHEAD = 400_000  # bytes that are published in one write
SMALL_BUFFER = 16_384  # bytes of a socket; the system doubles it
FREED = 1  # second until the identifier of a client that left is free
FILLING, FILLINGS, AT_ONCE = b"." * 16_000, 1_000, 1  # a sample, and how many are more than a ring and the buffers of sockets hold; seconds
MOST_ASKED = 1.5  # seconds within which a router asks what it has heard
SPARE, PRESSED = 48 << 20, 1  # bytes that a router has left, and seconds for which clients ask for more


def restarted_under_its_identifier():
    """A router that comes back under its old identifier says so once, for its neighbours may not hear it; one with a fresh identifier says nothing."""
    with Router("01") as first:
        with Router("02", first) as second:
            subscriber = second.client()
            for _ in range(CHANGES):
                subscriber.unsubscribe(subscriber.subscribe("other"))
            settle_across(subscriber, first)
            is_quiet(second)
        for options, fresh in ([], "03"), (["--log"], "04"):
            with Router("02", first, options=options) as second:
                must(told_of(second, "identifier "), "identifier 02 was in use before: start with a fresh one\n", "what is told")
                with Router(fresh, second) as third:
                    settle_across(second.client(), third)
                    if not options:
                        is_quiet(first, second, third)


def taken_identifier():
    """A router whose identifier is up where it dials says so, with its log and without."""
    with Router("01") as first:
        holder = first.client("02")
        for options in ([], ["--log"]):
            with Router("02", first, options=options) as second:
                line = told_of(second, f"dial 127.0.0.1:{first.port}: ")
                must(line.split(": ", 1)[1], "refused, this identifier is up there: start with a fresh one if it was in use before\n", "what is told")
                holder.keep_alive()
        holder.close()


def told_of(router, words):
    """The next line on standard error in which these words stand."""
    while select.select([router.process.stderr], [], [], MOST_WAIT)[0]:
        line = router.process.stderr.readline()
        if words in line or not line:
            return line
    raise Wrong(f"no line with {words!r}")


def is_quiet(*routers):
    """They write nothing on standard error for longer than each takes to ask what it has heard."""
    streams = {router.process.stderr: router.ident for router in routers}
    for stream in select.select(list(streams), [], [], MOST_ASKED)[0]:
        raise Wrong(f"router {streams[stream]} wrote {stream.readline()!r}")


class Forger(Watcher):
    """A session of a router that sends records of others."""

    def tell(self, idents):
        contents = [pubsub.string(ident) + pubsub.number(1) + pubsub.number(0) for ident in idents]
        messages = [bytes([0x5F]) + pubsub.number(RECORD) + pubsub.string(content) for content in contents]
        send_at_once(self, messages)


def unlinked_records():
    """A record that nobody links costs its own bytes, whatever the number of others."""
    with Router("01") as router:
        forger, before = Forger(router.address, "0f"), router.threads()[1]
        forger.tell([b"\x10" + i.to_bytes(4, "big") for i in range(RECORDS)])
        watcher, client = Watcher(router.address, "0d"), router.client()
        until(lambda: len(watcher.links()) > RECORDS, "all records are read", 3 * MOST_WAIT)
        began = time.monotonic()
        answered(client, Answer(client.ask("plan")), seconds=6 * MOST_WAIT)
        passed = time.monotonic() - began - SILENCE
        grown = router.threads()[1] - before
        if grown > RECORDS * BYTES_EACH // 1_024 or passed > 1:
            raise Wrong(f"{RECORDS} records took {grown} KiB, and a query behind them {passed:.1f} s")


def orphan_queries():
    """Queries whose askers have gone cost others hardly anything, also once who should answer them goes."""
    go_with_orphans(ORPHANS, STANDSTILL)


def many_orphan_queries():
    """A hundred thousand of them hold up nobody for longer than a tenth of a second."""
    go_with_orphans(MANY_ORPHANS, BRIEF)


def go_with_orphans(orphans, standstill):
    with Router("01") as router:
        replier, subscriber, publisher = router.client(), router.client(), router.client()
        replier.declare_queryable("held")
        subscriber.subscribe("a")
        settle(replier, subscriber)
        began = time.monotonic()
        for _ in range(orphans // 4_000):
            asker = router.client()
            for _ in range(4_000 // ASKED_AT_ONCE):
                ask_many(asker, ASKED_AT_ONCE)
                for _ in range(ASKED_AT_ONCE):
                    must(replier.receive_query(3 * MOST_WAIT) is not None, True, "a query comes")
                for client in (subscriber, publisher):
                    client.keep_alive()
            asker.close()
        passed = time.monotonic() - began
        replier.link.close()
        waits = [wait_of(publisher, subscriber, i) for i in range(100)]
        if max(waits) > standstill:
            raise Wrong(f"{orphans} queries took {passed:.1f} s, and then the router stood still for {max(waits):.1f} s")


def ask_many(asker, count):
    numbers = range(asker.asked + 1, asker.asked + 1 + count)
    asker.asked += count
    send_at_once(asker, [pubsub.request(number, "held", None, pubsub.BEST_MATCHING) for number in numbers])


def wait_of(publisher, subscriber, i):
    """How long a sample takes, in seconds."""
    began = time.monotonic()
    publisher.put("a", b"%d" % i)
    must(subscriber.receive(6 * MOST_WAIT), Sample("a", b"%d" % i), "a sample")
    time.sleep(0.005)
    return time.monotonic() - began - 0.005


def out_of_memory():
    """A router that runs out of memory says so and ends with 3, so that a supervisor starts it anew. Or links end alone, and it serves on."""
    with Router("01") as router:
        router.client().close()
        most = 1_024 * router.status()["VmData"] + SPARE
        resource.prlimit(router.process.pid, resource.RLIMIT_DATA, (most, most))
        end = time.monotonic() + PRESSED
        with contextlib.ExitStack() as clients:
            while router.process.poll() is None and time.monotonic() < end:
                press(router, clients)
        if router.process.poll() is not None:
            must((router.process.wait(), router.process.stderr.read()), (3, "zrd: out of memory\n"), "the end")
        else:
            until(lambda: serves(router), "it ends or serves on", MOST_WAIT)


def press(router, clients):
    """One more client that subscribes to two million bytes of keys, as long as it may."""
    with contextlib.suppress(OSError, Ended):
        client = pubsub.Session(router.address, timeout=1)
        clients.callback(client.link.close)
        for i in range(1, 1_000):
            client.send(pubsub.subscription(i, f"{i}/" + "x" * 2_000))
        client.round_trip("y")


def serves(router):
    """Whether it answers a client that comes now."""
    try:
        client = pubsub.Session(router.address, timeout=2)
        client.round_trip("x")
        client.close()
    except (OSError, Ended):
        return False
    return True


def read_steadily(client, end):
    """Reads 300 samples a second; gives their number."""
    count, next_one = 0, time.monotonic()
    with contextlib.suppress(Ended, OSError):
        while time.monotonic() < end:
            count += client.receive(0.1) is not None
            next_one += PACE
            time.sleep(max(0, next_one - time.monotonic()))
    return count


def is_closed(router, ident):
    """Whether a client's session has ended at the router, though what was written before may still be on its way."""
    return takes(router, ident)


def small(router, **how):
    """A client with a small buffer of what it has received."""
    link = socket.socket
    try:
        socket.socket = lambda *words, **more: small_socket(link, *words, **more)
        return router.client(**how)
    finally:
        socket.socket = link


def small_socket(make, *words, **more):
    out = make(*words, **more)
    out.setsockopt(socket.SOL_SOCKET, socket.SO_RCVBUF, SMALL_BUFFER)
    return out


@contextlib.contextmanager
def publishing(router, key, payload, seconds, put=sure_put):
    """A process of its own that publishes as fast as its samples are taken."""
    process = multiprocessing.Process(target=publish_steadily, args=(router.address, put(key, payload), seconds), daemon=True)
    process.start()
    try:
        yield
    finally:
        process.terminate()
        process.join()


def publish_steadily(address, sample, seconds):
    end = time.monotonic() + seconds
    with contextlib.suppress(OSError, Ended):
        publisher = pubsub.Session(address, timeout=MOST_WAIT)
        while time.monotonic() < end:
            send_at_once(publisher, [sample] * (AHEAD // (len(sample) + 100)))
            time.sleep(0.01)


def steady_reader():
    """A client that reads 300 small samples a second isn't closed: their sender waits for it."""
    closed = []
    with Router("01") as router:
        for ident, size in (("0a", 5), ("0b", 1_000)):
            slow = small(router, ident=ident)
            slow.subscribe(f"a/{size}")
            settle(slow)
            with publishing(router, f"a/{size}", b"." * size, STEADY):
                count = read_steadily(slow, time.monotonic() + STEADY)
                if is_closed(router, ident):
                    closed.append(f"of {size} B after less than {count} samples")
            slow.link.close()
            until(lambda: takes(router, ident), "the identifier can come again")
    must(closed, [], "the sessions that were closed though their clients read")


def slow_reader_across():
    """A client that reads 300 samples a second of another router's harms neither the link between the routers nor the others there."""
    with Router("01") as first, Router("02", first) as second:
        slow, other = small(second), second.client()
        slow.subscribe("a")
        other.subscribe("b")
        for client in (slow, other):
            settle_across(client, first)
        end = time.monotonic() + STEADY
        threading.Thread(target=read_steadily, args=(slow, end), daemon=True).start()
        publisher, late = first.client(), [0]
        with publishing(first, "a", b"." * 100, STEADY):
            while time.monotonic() < end:
                began = time.monotonic()
                publisher.put("b", b"on")
                if other.receive(5) is None:
                    raise Wrong(f"no sample of another client came over the link for 5 s; {len(late) - 1} before, each within {max(late):.1f} s")
                late.append(time.monotonic() - began)
                time.sleep(0.05)
        if max(late) > 1:
            raise Wrong(f"a sample of another client took {max(late):.1f} s over the link")


@contextlib.contextmanager
def throttled(router):
    """The port of a relay to a router, over which little goes at a time, either way: what is to go over it waits in the rings."""
    with socket.create_server(("127.0.0.1", 0)) as door:
        door.setsockopt(socket.SOL_SOCKET, socket.SO_RCVBUF, SMALL_BUFFER)
        threading.Thread(target=relay, args=(door, router), daemon=True).start()
        yield door.getsockname()[1]


def relay(door, router):
    ends = door.accept()[0], small_socket(socket.socket)
    ends[1].connect(router.address)
    for one, other in (ends, ends[::-1]):
        threading.Thread(target=pass_on, args=(one, other), daemon=True).start()


def pass_on(one, other):
    with contextlib.suppress(OSError):
        while content := one.recv(PASSED):
            other.sendall(content)
            time.sleep(PASSES)


def crowded_across():
    """Where the rings of two routers towards each other are crowded, each is sent 1,000 samples a second at least that may not be dropped."""
    with Router("01") as first, throttled(first) as port, Router("02", port) as second:
        subscribers = [first.client(lease=60), second.client(lease=60)]
        for subscriber, other in zip(subscribers, (second, first)):
            subscriber.subscribe(f"crowd/{other.ident}")
            settle_across(subscriber, other)
        with publishing(first, "crowd/01", b"." * 100, CROWDED), publishing(second, "crowd/02", b"." * 100, CROWDED):
            counts = [0, 0]
            reading = [threading.Thread(target=count_until, args=(counts, i, it, CROWDED), daemon=True) for i, it in enumerate(subscribers)]
            for thread in reading:
                thread.start()
            for thread in reading:
                thread.join()
        print(f"... {counts[0] / CROWDED:.0f} and {counts[1] / CROWDED:.0f} samples a second", flush=True)
        must([count >= EVENTS * CROWDED for count in counts], [True, True], f"{counts} samples in {CROWDED} s are as many as must come")


def crowded_along():
    """A flood that may not be dropped goes over a second router and a narrow link behind it: that link stays up, and brings 1,000 samples a second at least."""
    with Router("01") as first, Router("02", first, options=["--log"]) as second, throttled(second) as port, Router("03", port) as third:
        subscriber, counts = third.client(lease=60), [0]
        subscriber.subscribe("crowd")
        settle_across(subscriber, first)
        with publishing(first, "crowd", b"." * 100, CROWDED):
            count_until(counts, 0, subscriber, CROWDED)
        ends = [line for line in second.told_yet().splitlines() if "end, router 03: " in line]
        print(f"... {counts[0] / CROWDED:.0f} samples a second", flush=True)
        must(counts[0] >= EVENTS * CROWDED, True, f"{counts[0]} samples in {CROWDED} s are as many as must come")
        must(ends, [], "what the log tells of an end of the narrow link")
        must(takes(second, "03"), False, "the narrow link has gone")


def count_until(counts, place, session, seconds):
    end = time.monotonic() + seconds
    while time.monotonic() < end:
        counts[place] += session.receive(0.2) is not None


def reply_behind_samples():
    """A reply and a final meet a ring that is full of samples that may be dropped: who sends them waits until the asker reads, and nobody else does."""
    with Router("01") as router:
        asker, replier = small(router), router.client()
        replier.declare_queryable("plan")
        settle(replier)
        with full_ring(router, asker):
            number = asker.ask("plan")
            asked = handed(replier, "plan")
            replier.reply(asked, "plan", b"north")
            replier.end(asked)
        answers = [asker.receive_answer(MOST_WAIT) for _ in range(2)]
        must(answers, [reply_to(number, "plan", b"north"), Answer(number)], "the answers")


def told_behind_samples():
    """What a client is told of others meets a ring that is full of samples that may be dropped: it waits until the client reads, and nobody else does."""
    with Router("01") as router:
        watcher, robot = small(router), router.client()
        interest = watcher.declare_interest("fleet/**", kinds=pubsub.TOKENS)
        told(watcher, Told(pubsub.ALL_TOLD, interest=interest))
        with full_ring(router, watcher):
            robot.declare_token("fleet/0b")
        must(watcher.receive_told(MOST_WAIT), Told(pubsub.TOKEN, 1, "fleet/0b"), "what is told")


def leaver_behind_samples():
    """A client that leaves frees its identifier within a second, though one that is to be told of it reads nothing and its ring is full."""
    with Router("01") as router:
        watcher, robot = small(router), router.client("0c")
        interest = watcher.declare_interest("fleet/**", kinds=pubsub.TOKENS)
        told(watcher, Told(pubsub.ALL_TOLD, interest=interest))
        robot.declare_token("fleet/0b")
        told(watcher, Told(pubsub.TOKEN, 1, "fleet/0b"))
        with full_ring(router, watcher):
            robot.link.close()
            until(lambda: takes(router, "0c"), "the identifier can come again", FREED)


def sure_behind_samples():
    """A sample that may not be dropped meets a ring that is full of others: it waits until the subscriber reads, and nobody else does."""
    with Router("01") as router:
        slow, sender = small(router), router.client()
        with full_ring(router, slow):
            sender.send(sure_put("a", b"sure"))
        while (sample := slow.receive(MOST_WAIT)) != Sample("a", b"sure"):
            must(sample and sample.payload == FILLING, True, "a sample before it")


@contextlib.contextmanager
def full_ring(router, slow):
    """A client reads nothing, and its ring is full of samples. Something is done, and then two others send a sample, which must come at once."""
    publisher, subscriber = router.client(), router.client()
    slow.subscribe("a")
    subscriber.subscribe("b")
    settle(slow, subscriber)
    for count in (FILLINGS, FILLINGS // 4, FILLINGS // 4):  # the buffers of sockets grow
        for _ in range(count):
            publisher.put("a", FILLING)
        comes_at_once(publisher, subscriber)
    yield
    for _ in range(10):
        comes_at_once(publisher, subscriber)
        time.sleep(0.05)


def comes_at_once(publisher, subscriber):
    began = time.monotonic()
    publisher.send(sure_put("b", b"on"))
    must(subscriber.receive(MOST_WAIT), Sample("b", b"on"), "the sample of another client")
    passed = time.monotonic() - began
    if passed > AT_ONCE:
        raise Wrong(f"a sample of another client took {passed:.1f} s")


def replies_in_a_flood():
    """A client that reads 300 samples a second, of a flood of them that may be dropped, gets replies and finals, and isn't closed."""
    with Router("01") as router:
        asker, replier = small(router, ident="0a"), router.client()
        replier.declare_queryable("plan")
        asker.subscribe("a")
        settle(replier, asker)
        end, asked = time.monotonic() + STEADY, 0
        replying = threading.Thread(target=answer_until, args=(replier, end), daemon=True)
        replying.start()
        with publishing(router, "a", b"." * 200, STEADY, pubsub.put):
            while time.monotonic() < end and not is_closed(router, "0a"):
                with contextlib.suppress(OSError, Ended):
                    asker.ask("plan")
                asked += 1
                read_steadily(asker, time.monotonic() + 0.2)
        if is_closed(router, "0a"):
            raise Wrong(f"its session was closed after {asked} queries")
        replying.join(MOST_WAIT)


def answer_until(replier, end):
    with contextlib.suppress(OSError, Ended):
        while time.monotonic() < end:
            query = replier.receive_query(0.2)
            if query:
                replier.reply(query, "plan", b"north")
                replier.end(query)


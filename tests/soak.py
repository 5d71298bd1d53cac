"""A long run over two linked routers: some hundred clients come and go, publish, subscribe, ask, answer and watch. `tests/serve` runs it.

Each client belongs to a group with keys of its own, so that what each is sent can be told: each sample, query, reply, final and
told message comes once and in its place, or the run fails.
"""
import collections
import multiprocessing
import random
import time

from driven import Answer, Ended, Router, Sample, Told, Wrong
from driven import must, pubsub, received, reply_to, settle_across

PROCESSES, GROUPS = 1, 34  # groups of three clients each, in each process
PATIENCE = 120  # seconds for which an answer may be late on a full machine
LEASE = 600  # seconds: on a full machine a client's turn may be late
MOST_ROUNDS = 30  # before a group goes and another comes
SAMPLES, QUERIES, DECLARATIONS = 100, 5, 5  # of a round
WARM = 1 / 6  # of the run
MORE_MEMORY = 2_048  # KiB above what was held once warm


class Group:
    """Three clients, the last of which is at another router than the second."""

    def __init__(self, rng, routers, name):
        self.name, self.rounds, self.count = name, rng.randrange(1, MOST_ROUNDS), 0
        self.routers = [rng.choice(routers), *rng.sample(routers, 2)]
        self.clients = [router.client(lease=LEASE, timeout=PATIENCE) for router in self.routers]
        self.begin()

    def known(self, *clients):
        """Waits until the declarations of clients have come to the first one's router."""
        for client in clients:
            settle_across(client, self.routers[0], PATIENCE)

    def close(self):
        for client in self.clients:
            client.close()


class Samples(Group):
    """One publishes, two subscribe."""

    def begin(self):
        for client in self.clients[1:]:
            client.subscribe(f"{self.name}/*")
        self.known(*self.clients[1:])

    def round(self, seen):
        publisher, *subscribers = self.clients
        samples = [Sample(f"{self.name}/{i % 7}", str(self.count + i).encode()) for i in range(SAMPLES)]
        self.count += SAMPLES
        for sample in samples:
            publisher.put(sample.key, sample.payload)
        for subscriber in subscribers:
            must(received(subscriber, SAMPLES, PATIENCE), samples, "the samples of a subscriber")
            must(subscriber.receive(0), None, "what comes behind them")
        seen["samples"] += SAMPLES * len(subscribers)


class Queries(Group):
    """One asks, two answer."""

    def begin(self):
        for client in self.clients[1:]:
            client.declare_queryable(f"{self.name}/**")
        self.known(*self.clients[1:])

    def round(self, seen):
        asker, *repliers = self.clients
        for _ in range(QUERIES):
            number = asker.ask(f"{self.name}/k", b"where", pubsub.ALL)
            for i, replier in enumerate(repliers):
                query = replier.receive_query(PATIENCE)
                must(query and query[1:], (f"{self.name}/k", b"where", pubsub.ALL), "the query")
                replier.reply(query, f"{self.name}/k", b"%d" % i)
                must(asker.receive_answer(PATIENCE), reply_to(number, f"{self.name}/k", b"%d" % i), "the reply")
                replier.end(query)
            must(asker.receive_answer(PATIENCE), Answer(number), "the final")
            must(asker.receive_answer(0), None, "what comes behind it")
        seen["queries"] += QUERIES


class Interests(Group):
    """One watches, two declare."""

    def begin(self):
        watcher = self.clients[0]
        interest = watcher.declare_interest(f"{self.name}/**")
        must(watcher.receive_told(PATIENCE), Told(pubsub.ALL_TOLD, interest=interest), "the end of what is declared now")

    def round(self, seen):
        watcher, *others = self.clients
        for i, other in enumerate(others):
            keys = [f"{self.name}/{i}/{j}" for j in range(DECLARATIONS)]
            declared = [other.subscribe(key) for key in keys]
            for j, key in enumerate(keys):
                must(watcher.receive_told(PATIENCE), Told(pubsub.SUBSCRIBER, j + 1, key), "what is told of a subscriber that comes")
            for ident in declared:
                other.unsubscribe(ident)
            for j in range(DECLARATIONS):
                must(watcher.receive_told(PATIENCE), Told(pubsub.NO_SUBSCRIBER, j + 1), "what is told of one that goes")
        must(watcher.receive_told(0), None, "what is told behind it")
        seen["told messages"] += 2 * DECLARATIONS * len(others)


KINDS = [Samples, Samples, Queries, Interests]


def work(routers, worker, begun, stop, results):
    """Groups by turns until it is stopped; tells what was seen, and what failed."""
    rng, seen = random.Random(worker), collections.Counter()
    try:
        names = (f"soak/{worker}/{i}" for i in range(1 << 60))
        groups = [rng.choice(KINDS)(rng, routers, next(names)) for _ in range(GROUPS)]
        begun.release()
        while not stop.is_set():
            for i, group in enumerate(groups):
                group.round(seen)
                group.rounds -= 1
                if not group.rounds:
                    group.close()
                    seen["clients that went"] += len(group.clients)
                    groups[i] = rng.choice(KINDS)(rng, routers, next(names))
        results.put((seen, None))
    except (Ended, OSError, Wrong) as e:
        results.put((seen, f"{type(e).__name__} {e}"))
        begun.release()


def held(routers):
    return [router.threads()[1] for router in routers]


def ended(routers):
    """What is to be told of routers that have ended."""
    statuses = [(router, router.process.poll()) for router in routers]
    return [f"router {router.ident} ended with {status} by {time.ctime()}: {router.told_yet()!r}" for router, status in statuses if status is not None]


def soak(seconds):
    """Runs for so long; fails where anything is lost, doubled or out of its place, or memory grows."""
    with Router("01") as first, Router("02", first) as second:
        routers = [first, second]
        for router in routers:
            router.before_others()  # neither may be silent for its lease
        results, begun, stop = multiprocessing.Queue(), multiprocessing.Semaphore(0), multiprocessing.Event()
        workers = [multiprocessing.Process(target=work, args=(routers, i, begun, stop, results), daemon=True) for i in range(PROCESSES)]
        for worker in workers:
            worker.start()
        for _ in workers:
            begun.acquire()
        began = time.monotonic()
        warm, seen, failed = None, collections.Counter(), []
        while time.monotonic() < began + seconds and results.empty() and all(router.process.poll() is None for router in routers):
            time.sleep(min(1, seconds / 20))
            if warm is None and time.monotonic() > began + seconds * WARM:
                warm = held(routers)
        stop.set()
        for _ in workers:
            counts, fault = results.get(timeout=3 * PATIENCE)
            seen += counts
            failed += [fault] if fault else []
        print(f"in {time.monotonic() - began:.0f} s: {', '.join(f'{count:,} {what}' for what, count in sorted(seen.items()))}; {len(failed)} faults")
        failed += ended(routers)
        if failed:
            raise Wrong("; ".join(failed))
        now = held(routers)
        print(f"KiB held once warm: {warm}, at the end: {now}", flush=True)
        if any(b > a + MORE_MEMORY for a, b in zip(warm or now, now)):
            raise Wrong("memory grew")

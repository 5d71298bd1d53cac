#!/usr/bin/env python3
"""Writes a script with one router, and on demand the report that it is to have.

Clients subscribe to one key each, or to several with `--subscriptions`, or with `--wildcards` to all keys of a robot; all is handled, and a mark follows. Then
samples come in batches: the `put` lines of a batch, a `handle` for each, and a `take` for each copy that was queued, or with
`--run` one `run` line for all these steps. The same arguments give the same script.
"""
import argparse
import collections
import sys

ROUTER = "0a"
FIRST_CLIENT = 0x1000  # four digits, so no client has the router's name
MOST_CLIENTS = 1024
MOST_BYTES = 67_108_864


class Numbers:
    """Numbers that look random: a linear congruential generator, of which the high bits are used."""

    def __init__(self, seed):
        self.state = seed

    def below(self, limit):
        self.state = (self.state * 6364136223846793005 + 1442695040888963407) % 2**64
        return (self.state >> 33) % limit


class Script:
    """The lines written so far, with what waits in the world that they make."""

    def __init__(self, out, report):
        self.out = out
        self.report = report
        self.line = 0
        self.bytes = 0
        self.steps = 0
        self.wires = collections.defaultdict(collections.deque)
        self.queues = collections.defaultdict(collections.deque)
        self.subscribers = collections.defaultdict(list)

    def write(self, text):
        self.line += 1
        self.bytes += len(text) + 1
        self.out.write(text + "\n")

    def tell(self, text):
        if self.report:
            self.report.write(text + "\n")

    def sub(self, client, number, robot, key):
        self.write(f"sub {client} {number} {key}")
        self.wires[client].append(("sub", robot, f"sub {number} {key} #{self.line}"))

    def put(self, client, robot, payload):
        key = f"fleet/{robot}/pose"
        self.write(f"put {client} {key} {payload}")
        self.wires[client].append(("put", robot, f"put - {key} {payload} #{self.line}"))

    def handled(self, client):
        """A message is handled: its report line, and the clients that it is queued for, in the order in which they came."""
        self.steps += 1
        kind, robot, message = self.wires[client].popleft()
        line = f"{ROUTER} < {client}: {message}"
        if kind == "sub":
            self.subscribers[robot].append(client)
            return line, []
        receivers = [c for c in self.subscribers[robot] if c != client]
        for receiver in receivers:
            self.queues[receiver].append(message)
        return line, receivers

    def taken(self, client):
        """A message is taken: its report line."""
        self.steps += 1
        return f"{ROUTER} > {client}: {self.queues[client].popleft()}"

    def handle(self, client):
        self.write(f"handle {ROUTER} {client}")
        line, receivers = self.handled(client)
        self.tell(line)
        return receivers

    def take(self, client):
        self.write(f"take {ROUTER} {client}")
        self.tell(self.taken(client))

    def run(self):
        """All that waits is handled, client by client, and then all that is queued is taken, in one line."""
        lines = [self.handled(c)[0] for c in sorted(self.wires) for _ in range(len(self.wires[c]))]
        lines += [self.taken(c) for c in sorted(self.queues) for _ in range(len(self.queues[c]))]
        self.write(f"run {len(lines)}")
        for line in lines:
            self.tell(line)
        self.tell(f"run {len(lines)} quiet")

    def mark(self):
        self.write("mark")
        self.tell(f"mark #{self.line}")


def arguments():
    parser = argparse.ArgumentParser(description=__doc__, formatter_class=argparse.RawDescriptionHelpFormatter)
    parser.add_argument("--clients", type=int, default=1000, help="clients, 1 to 1,024 (1,000)")
    parser.add_argument("--keys", type=int, default=100, help="keys that are subscribed to (100)")
    parser.add_argument("--subscriptions", type=int, default=1, help="subscriptions of each client, on different keys (1)")
    parser.add_argument("--samples", type=int, default=100_000, help="samples (100,000)")
    parser.add_argument("--batch", type=int, default=100, help="samples that are published before they are handled (100)")
    parser.add_argument("--wildcards", action="store_true", help="subscriptions are to fleet/ROBOT/*, and not to fleet/ROBOT/pose")
    parser.add_argument("--run", action="store_true", help="one run line a batch, and no handle and take lines")
    parser.add_argument("--seed", type=int, default=1, help="where the numbers begin (1)")
    parser.add_argument("--report", help="a file for the report that the script is to have")
    words = parser.parse_args()
    if not 1 <= words.clients <= MOST_CLIENTS:
        parser.error(f"a script has 1 to {MOST_CLIENTS} clients")
    if words.keys < 1 or words.batch < 1 or words.samples < 0:
        parser.error("keys and batch are at least 1, samples at least 0")
    if not 1 <= words.subscriptions <= words.keys:
        parser.error("a client has at least one subscription, and at most one on each key")
    return words


def robots(numbers, words):
    """The robots to which a client subscribes, each once."""
    chosen = []
    while len(chosen) < words.subscriptions:
        robot = numbers.below(words.keys)
        if robot not in chosen:
            chosen.append(robot)
    return chosen


def write_script(script, words):
    numbers = Numbers(words.seed)
    clients = [f"{FIRST_CLIENT + i:04x}" for i in range(words.clients)]
    chunk = "*" if words.wildcards else "pose"
    script.write(f"router {ROUTER}")
    for client in clients:
        script.write(f"client {client} {ROUTER}")
    for client in clients:
        for number, robot in enumerate(robots(numbers, words), 1):
            script.sub(client, number, robot, f"fleet/{robot}/{chunk}")
    for client in clients:
        for _ in range(words.subscriptions):
            script.handle(client)
    script.mark()
    written = 0
    while written < words.samples:
        batch = min(words.batch, words.samples - written)
        publishers = [clients[numbers.below(len(clients))] for _ in range(batch)]
        for publisher in publishers:
            script.put(publisher, numbers.below(words.keys), f"x{written}")
            written += 1
        if words.run:
            script.run()
            continue
        receivers = [receiver for publisher in publishers for receiver in script.handle(publisher)]
        for receiver in receivers:
            script.take(receiver)


def main():
    words = arguments()
    report = open(words.report, "w") if words.report else None
    script = Script(sys.stdout, report)
    write_script(script, words)
    if report:
        report.close()
    print(f"{script.line} lines, {script.bytes} bytes, {script.steps} steps", file=sys.stderr)
    if script.bytes > MOST_BYTES:
        print(f"a script has at most {MOST_BYTES} bytes: this one is refused", file=sys.stderr)


main()

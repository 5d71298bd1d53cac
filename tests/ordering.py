"""An order in which routers can have handled what their links carried, worked out from the links alone. `tests/replay` replays it.

From outside one doesn't see in which order a router handled messages of different links. But each message that it sent was caused by
one that it handled: a sample by the same sample, a final by the last final of those that were asked. So each link out of a router tells
something of that order, and so does each link into it. The numbers of requests tell more: a router takes the least that is free.
"""
import collections
import heapq
import re
import typing

from driven import Wrong

GROUP = {"sub": "sub", "unsub": "sub", "able": "able", "full": "able", "unable": "able"}  # what is told, whether complete or not


def plain(words):
    return (*words[:3], re.sub(r":\d+", "", words[3])) if words[0] == "record" else words


class Message:
    """A message on a link. `seen` is the moment when it was read from its sender, `sent` that when it was given to its receiver."""

    __slots__ = ("sender", "receiver", "words", "stage", "seen", "sent", "event", "causes")

    def __init__(self, sender, receiver, words, stage):
        self.sender, self.receiver, self.words, self.stage = sender, receiver, words, stage
        self.seen = self.sent = self.event = None
        self.causes = ()

    def plain(self):
        """Its words, without weights: a router that accepts a link doesn't know what it weighs, and the definition's does."""
        return plain(self.words)

    def __repr__(self):
        return f"{self.sender} > {self.receiver}: {' '.join(self.words)}"


class History:
    """What all links carried, by sender and receiver. A stage is a part of a run; all of one was handled before the next one begins."""

    def __init__(self):
        self.ways = collections.defaultdict(list)
        self.moment = self.stage = 0
        self.stages_of_links = set()  # in these, links between routers come up or go down, and nothing else happens

    def now(self):
        self.moment += 1
        return self.moment

    def add(self, sender, receiver, words):
        message = Message(sender, receiver, words, self.stage)
        self.ways[sender, receiver].append(message)
        return message


class Order:
    """Events, and what is known of their order: each constraint says that one comes before at least one of some others."""

    def __init__(self):
        self.moments, self.constraints = [], []

    def event(self, moment):
        self.moments.append(moment)
        return len(self.moments) - 1

    def before(self, first, others, why):
        self.constraints.append((first, others, why))

    def none_later(self, firsts, lasts, why):
        """The last of `firsts` doesn't come after the last of `lasts`."""
        for first in firsts:
            if first not in lasts:
                self.before(first, lasts, why)

    def ordered(self):
        """All events in an order that meets the constraints, or the events that can't be ordered, and why.

        It is built from its end: an event can be put before those that stand already once each of its constraints is met by one of
        these. That never ceases to hold, so the order is found if there is one.
        """
        waits, met = [0] * len(self.moments), [False] * len(self.constraints)
        of = [[] for _ in self.moments]
        for i, (first, others, _) in enumerate(self.constraints):
            waits[first] += 1
            for other in others:
                of[other].append(i)
        ready = [(-moment, event) for event, moment in enumerate(self.moments) if not waits[event]]
        heapq.heapify(ready)
        backwards = []
        while ready:
            event = heapq.heappop(ready)[1]
            backwards.append(event)
            for i in of[event]:
                if not met[i]:
                    met[i] = True
                    first = self.constraints[i][0]
                    waits[first] -= 1
                    if not waits[first]:
                        heapq.heappush(ready, (-self.moments[first], first))
        if len(backwards) == len(self.moments):
            return backwards[::-1], None
        return None, self.cycle({event for event, count in enumerate(waits) if count}, met)

    def cycle(self, left, met):
        """Some events in turn, each of which would have to come before the next one, and the last before the first."""
        unmet = {self.constraints[i][0]: self.constraints[i] for i in range(len(met)) if not met[i]}
        path, at = {}, min(left)
        while at not in path:
            path[at] = unmet[at]
            at = unmet[at][1][0]
        steps = list(path.values())
        return steps[next(i for i, step in enumerate(steps) if step[0] == at) :]


class Handled:
    """What one router was sent, by what its own messages tell of it."""

    def __init__(self, name):
        self.name, self.known = name, {}
        self.finals = collections.defaultdict(list)  # by peer and number: those that came
        self.asked = collections.defaultdict(list)  # by peer and number: the requests that came
        self.sent = collections.defaultdict(list)  # by request: its ends, over all links over which it was sent on
        self.left = {}  # by peer: its leaving

    def know(self, what, event):
        if what in self.known:
            raise Wrong(f"{self.name} was sent {what} twice")
        self.known[what] = event

    def find(self, what, message):
        if what not in self.known:
            raise Wrong(f"{message}: nothing that {self.name} was sent explains it")
        return (self.known[what],)

    def end_of(self, peer, number, use):
        """What ended so many a request under a number, if that has come: the final, or that the peer has left."""
        finals = self.finals[peer, str(number)]
        return (finals[use - 1],) if use <= len(finals) else (self.left[peer],) if peer in self.left else ()


def request_of(words):
    """A query is known by the last chunk of its key."""
    return words[3].rpartition("/")[2]


class Learnt(typing.NamedTuple):
    """All that caused a message comes before the last one of some events, which the function gives once there are any."""

    sent: Message
    behind: typing.Callable
    why: str


class Account:
    """The events of a history, what caused each message, and what that tells of the order. `learnt` was found to hold of it too."""

    def __init__(self, history, routers, learnt=()):
        self.history, self.order = history, Order()
        self.routers = {name: Handled(name) for name in routers}
        self.messages = []  # by event: the message that is handled
        into = [messages for (_, receiver), messages in history.ways.items() if receiver in self.routers]
        for messages in into:
            for message in self.judged(messages):
                message.event = self.order.event(message.sent)
                self.messages.append(message)
        self.changes = {stage: self.order.event(0) for stage in history.stages_of_links}
        for messages in into:
            self.take_in(self.judged(messages))
            self.end_by_changes(messages)
        out = [messages for (sender, _), messages in history.ways.items() if sender in self.routers]
        for messages in out:
            self.pair_requests(messages)
        for messages in out:
            self.explain(messages)
        for messages in into:
            self.constrain_into(self.judged(messages))
        for messages in out:
            self.constrain_out(self.judged(messages))
        self.constrain_moments()
        self.constrain_stages()
        for learned in learnt:
            self.constrain_learnt(learned)

    def judged(self, messages):
        """Those in whose stages no link between routers comes up or goes down; of the others `links_order.py` finds the order."""
        return [message for message in messages if message.stage not in self.history.stages_of_links]

    # ---- what was handled

    def take_in(self, messages):
        if not messages:
            return
        router, peer = self.routers[messages[0].receiver], messages[0].sender
        declared = {}  # by group and number: the key
        for message in messages:
            words, kind, event = message.words, message.words[0], message.event
            if kind == "put":
                router.know(("put", words[3]), event)
            elif kind == "del":
                router.know(("del", words[2]), event)
            elif kind == "get":
                router.know(("get", request_of(words)), event)
                router.asked[peer, words[2]].append(message)
            elif kind == "reply":
                router.know(("reply", words[3]), event)
            elif kind == "final":
                router.finals[peer, words[1]].append(event)
            elif kind == "entry":
                router.know(("entry", *words[1:3]), event)
                router.know(("declared", message.stage, GROUP[words[4]], words[5]), event)
            elif kind == "interest":
                router.know(("interest", peer, words[1]), event)
                if words[2] == "later":
                    router.know(("asked", peer, message.stage), event)
            elif kind == "uninterest":
                router.know(("asked", peer, message.stage), event)
            elif kind in GROUP:
                group = GROUP[kind]
                key = words[2] if len(words) > 2 else declared.pop((group, words[1]))
                if len(words) > 2:
                    declared[group, words[1]] = key
                router.know(("declared", message.stage, group, key), event)
            elif kind == "leave":
                router.left[peer] = event
                for group, key in {(group, key) for (group, _), key in declared.items()}:
                    router.know(("declared", message.stage, group, key), event)
            else:
                raise Wrong(f"{message}: no such message must come in this run")

    def end_by_changes(self, messages):
        """What ends a request while links come up or go down is one event here: their whole stage."""
        for message in messages:
            if message.stage in self.changes:
                router = self.routers[message.receiver]
                if message.words[0] == "final":
                    router.finals[message.sender, message.words[1]].append(self.changes[message.stage])
                elif message.words[0] == "down":
                    router.left[message.sender] = self.changes[message.stage]

    def pair_requests(self, messages):
        """Each request that a router sent ends with the final of its link and number that comes next."""
        if not messages:
            return
        router, peer = self.routers[messages[0].sender], messages[0].receiver
        uses = collections.Counter()
        for message in messages:
            if message.words[0] == "get":
                uses[message.words[2]] += 1
                router.sent[request_of(message.words)].append(router.end_of(peer, message.words[2], uses[message.words[2]]))

    # ---- what was sent, and its causes

    def explain(self, messages):
        if not messages:
            return
        router, peer = self.routers[messages[0].sender], messages[0].receiver
        ended = collections.Counter()  # by number: finals so far
        told = {}  # by number: what was told
        for message in messages:
            if message.stage not in self.history.stages_of_links:
                message.causes = self.causes(router, peer, message, ended, told)
            elif message.words[0] == "told" and len(message.words) > 3:
                told[message.words[2]] = (GROUP[message.words[1]], message.words[3])
            elif message.words[0] == "final":
                ended[message.words[1]] += 1

    def causes(self, router, peer, message, ended, told):
        words, kind = message.words, message.words[0]
        if kind == "put":
            return router.find(("put", words[3]), message)
        if kind == "del":
            return router.find(("del", words[2]), message)
        if kind == "get":
            return router.find(("get", request_of(words)), message)
        if kind in ("reply", "final"):
            return self.causes_of_answer(router, peer, message, ended)
        if kind == "entry":
            if words[1] == router.name:
                return router.find(("declared", message.stage, GROUP[words[4]], words[5]), message)
            return router.find(("entry", *words[1:3]), message)
        if kind == "told":
            return self.causes_of_told(router, peer, message, told)
        raise Wrong(f"{message}: no such message must come in this run")

    def causes_of_answer(self, router, peer, message, ended):
        """A final, and the replies that were held for it, come with the last final of those who were asked."""
        number = message.words[1]
        asked = router.asked[peer, number]
        if ended[number] == len(asked):
            raise Wrong(f"{message}: no request of this number is pending there")
        request = asked[ended[number]]
        is_held = request.words[-1] == "latest" and peer not in self.routers
        if message.words[0] == "reply" and not is_held:
            return router.find(("reply", message.words[3]), message)
        if message.words[0] == "final":
            ended[number] += 1
        ends = router.sent[request_of(request.words)]
        if () in ends:
            raise Wrong(f"{message}: not all have ended who were asked")
        return tuple({event for end in ends for event in end}) or (request.event,)

    def causes_of_told(self, router, peer, message, told):
        _, kind, number, *rest = message.words
        if kind == "end":
            return router.find(("interest", peer, number), message)
        if rest and rest[1] != "-":
            if number != "0":
                told[number] = (GROUP[kind], rest[0])
            return router.find(("interest", peer, rest[1]), message)
        if rest:
            told[number] = (GROUP[kind], rest[0])
        elif number not in told:
            raise Wrong(f"{message}: nothing was told under this number")
        declared = ("declared", message.stage, *told[number])
        asked = ("asked", peer, message.stage)
        return router.find(asked if asked in router.known and declared not in router.known else declared, message)

    # ---- what that tells of the order

    def constrain_into(self, messages):
        for first, last in zip(messages, messages[1:]):
            self.order.before(first.event, (last.event,), "the link had it first")
        for message in messages:
            for cause in message.causes:
                self.order.before(cause, (message.event,), "it caused the other")

    def constrain_out(self, messages):
        for first, last in zip(messages, messages[1:]):
            self.order.none_later(first.causes, last.causes, f"on the link to {first.receiver} came first what it caused")
        if messages:
            router, peer = self.routers[messages[0].sender], messages[0].receiver
            self.constrain_numbers(router, peer, messages)
            if peer in router.left:
                for cause in messages[-1].causes:
                    self.order.before(cause, (router.left[peer],), "what it caused still came to who left")

    def constrain_numbers(self, router, peer, messages):
        """A request has the least number that is free on its link: those below were pending, and the former one of it had ended."""
        uses = collections.Counter()
        for message in messages:
            if message.words[0] != "get":
                continue
            taken = int(message.words[2])
            for number in range(1, taken):
                if not uses[number]:
                    raise Wrong(f"{message}: the number {number} is free there")
                if end := router.end_of(peer, number, uses[number]):
                    self.order.before(message.causes[0], end, f"it took {taken}, and {number} was pending, on the link to {peer}")
            if uses[taken]:
                if not (end := router.end_of(peer, taken, uses[taken])):
                    raise Wrong(f"{message}: the number {taken} is pending there")
                self.order.before(*end, message.causes, f"it freed the number {taken} on the link to {peer}")
            uses[taken] += 1

    def constrain_moments(self):
        """What was seen before a message was given to its receiver had been handled before."""
        of = [(message.seen, message, True) for messages in self.history.ways.values() for message in messages if message.causes]
        of += [(message.sent, message, False) for message in self.messages]
        since, last = [], None
        for moment, message, is_seen in sorted(of, key=lambda it: it[0]):
            if is_seen:
                since += message.causes
                continue
            if since:
                now = self.order.event(moment)
                for cause in {*since, *([] if last is None else [last])}:
                    self.order.before(cause, (now,), "what it caused was seen")
                since, last = [], now
            if last is not None:
                self.order.before(last, (message.event,), "it was sent later")

    def constrain_stages(self):
        """All of a stage was handled before the next one began."""
        of = collections.defaultdict(list, {stage: [event] for stage, event in self.changes.items()})
        for message in self.messages:
            of[message.stage].append(message.event)
        last = None
        for stage in sorted(of):
            for event in of[stage]:
                if last is not None:
                    self.order.before(last, (event,), "its stage is later")
            last = self.order.event(max(self.order.moments[event] for event in of[stage]))
            for event in of[stage]:
                self.order.before(event, (last,), "its stage is earlier")

    def constrain_learnt(self, learned):
        """Nothing comes before itself: an event that alone would have to come behind itself is Wrong."""
        for cause in learned.sent.causes:
            others = tuple(event for event in learned.behind() if event != cause)
            if not others:
                raise Wrong(f"{learned.sent}: {learned.why}, and no other event can have caused it")
            self.order.before(cause, others, learned.why)

    # ---- an order

    def ordered(self):
        """The messages in an order in which they can have been handled, each with what it caused."""
        found, cycle = self.order.ordered()
        if found is None:
            raise Wrong("no order of what the routers handled explains what they sent:" + "".join(self.shown(*step) for step in cycle))
        place = {event: i for i, event in enumerate(found)}
        caused = collections.defaultdict(list)
        for messages in self.history.ways.values():
            for message in messages:
                if message.causes:
                    caused[max(message.causes, key=place.get)].append(message)
        return [(self.messages[event], caused[event]) for event in found if event < len(self.messages)]

    def shown(self, first, others, why):
        """A line of a cycle; those between two moments of the test are left out."""
        if all(event >= len(self.messages) for event in (first, *others)):
            return ""
        names = [repr(self.messages[event]) if event < len(self.messages) else "a moment of the test" for event in (first, *others)]
        return f"\n  {names[0]}  --  before  {' or '.join(names[1:])}, since {why}"

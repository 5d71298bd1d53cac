"""Whether what linked routers did is what the definition says: `zrd net` replays it step by step. `tests/replay` has the runs."""
import bisect
import collections
import itertools
import pathlib
import re
import subprocess
import typing

from driven import Wrong, must
from links_order import DOWN, NOTHING_LEFT, UP, LinksOrder
from ordering import Account, Learnt, Message, plain

MOST_REPORT = 300  # seconds for the report of a script: the machine may be busy
STEPS_LEFT = 1_000_000  # at the end of a script, more than there can be
REPORTED = re.compile(r"(\w+) > (\w+): (.*) #\d+")
REFUSED = re.compile(r"line (\d+): (.*)\n")


class Report(typing.NamedTuple):
    """What the definition sends over each link, the number of the line that is refused from 0 on, and how the run of `net` ended."""

    sent: dict
    refused: int | None
    status: int
    error: str
    last: str


class Difference(typing.NamedTuple):
    """What was seen at a place of a link's messages, and what the definition sends there; None stands for nothing."""

    way: tuple
    place: int
    seen: tuple | None
    sent: tuple | None

    def __str__(self):
        seen, sent = ("nothing" if it is None else f"`{' '.join(it)}`" for it in (self.seen, self.sent))
        return f"{self.way[0]} > {self.way[1]}, message {self.place + 1}: {seen} was seen, and {sent} is sent by the definition"


def text_of(lines):
    return "".join(f"{line}\n" for line, _ in lines)


def commands(handled):
    """The lines of a script by which a client sends a message that its router handles."""
    name, home, (kind, *rest) = handled.sender, handled.receiver, handled.words
    if kind == "leave":
        return [f"break {home} {name}", f"down {home} {name}"]
    said = " ".join(["end" if kind == "final" else kind, name, *(rest[1:] if kind in ("put", "del", "get") else rest)])
    return [said, f"handle {home} {name}"]


class Judge:
    """Whether there is an order of what routers handled by which the definition sends what was seen.

    `loads` are the stages in which nobody declares, before each of which all was settled: so a `mark` is taken there.
    """

    def __init__(self, program, history, dials, homes, loads):
        self.program, self.history, self.dials, self.homes, self.loads = program, history, dials, homes, loads
        self.names, self.of_links = list(dials), {}

    def judge(self, keep=None):
        """Raises Wrong where there is none, and else gives what was handled in turn."""
        learnt = {}
        while True:
            ordered = Account(self.history, self.names, learnt.values()).ordered()
            lines = self.script(ordered)
            if keep:
                pathlib.Path(keep).write_text(text_of(lines))
            report = self.report(lines)
            wrong = self.first_wrong(report)
            if wrong is None:
                break
            one, other, learned = self.learn(wrong, lines)
            if (one, other) in learnt:
                raise Wrong(str(wrong))
            learnt[one, other] = learned
        if report.refused is not None:
            line, message = lines[report.refused]
            raise Wrong(f"{message} was seen, and isn't sent by the definition: `{line}` is refused, {report.error}")
        must((report.status, report.error, report.last), (0, "", NOTHING_LEFT), "the end of net")
        return [handled for handled, _ in ordered]

    def first_wrong(self, report):
        """The first difference that is found, if there is one."""
        for way in sorted({way for way in self.history.ways if way[0] in self.names} | set(report.sent)):
            seen = [it.plain() for it in self.history.ways[way] if it.words not in (UP, DOWN)]
            if found := self.compare(way, seen, report.sent[way], report.refused is not None):
                return found
        return None

    def learn(self, wrong, lines):
        """What a difference tells of the order: both messages that it is about, and that. Raises Wrong where nothing explains it."""
        seen = [it for it in self.history.ways[wrong.way] if it.words not in (UP, DOWN)]
        if wrong.seen is None or wrong.sent is None:
            raise Wrong(str(wrong))
        one, last = seen[wrong.place], seen[-1]
        for other in seen[wrong.place :]:
            if other.plain() == wrong.sent and set(one.causes) & set(other.causes):
                return one, other, Learnt(one, lambda: other.causes, "of one event the definition sends the other first")
        cause = self.cause_of(wrong, lines)
        if not self.has_left(wrong.way[1]) or cause is None or any(cause.event in it.causes for it in seen):
            raise Wrong(str(wrong))
        return last, cause, Learnt(last, lambda: (cause.event,), f"{wrong.way[1]} has left, and what this causes wasn't seen there")

    def has_left(self, client):
        """Then the last messages on its link may be lost, and no others: what causes them comes behind what was seen."""
        return any(it.words == ("leave",) for it in self.history.ways.get((client, self.homes.get(client)), ()))

    def cause_of(self, wrong, lines):
        """The message that is handled in the first line after which the definition has sent so many over the way of the difference."""
        take = [(f"take {wrong.way[0]} {wrong.way[1]}", None)] * (wrong.place + 1)
        has_sent = lambda end: len(self.report([*lines[:end], *take]).sent[wrong.way]) > wrong.place
        ends = [i + 1 for i, (line, _) in enumerate(lines) if line.startswith(("handle ", "down "))]
        first = bisect.bisect_left(ends, True, key=has_sent)
        return lines[ends[first] - 1][1] if first < len(ends) else None

    def report(self, lines):
        ran = subprocess.run([*self.program, "net"], input=text_of(lines), capture_output=True, text=True, timeout=MOST_REPORT)
        sent, refused, told = collections.defaultdict(list), REFUSED.fullmatch(ran.stderr), ran.stdout.splitlines()
        for line in told:
            if found := REPORTED.fullmatch(line):
                sent[found[1], found[2]].append(plain(tuple(found[3].split(" "))))
        return Report(sent, int(refused[1]) - 1 if refused else None, ran.returncode, ran.stderr.strip(), told[-1] if told else "")

    def script(self, ordered):
        """Lines, each with its message, stage by stage. Each message is handled in turn, and what it caused is taken."""
        lines = [(f"router {name}", None) for name in self.names]
        lines += [(f"client {client} {home}", None) for client, home in self.homes.items()]
        by_stage = collections.defaultdict(list)
        for handled, caused in ordered:
            by_stage[handled.stage].append((handled, caused))
        lasting = list(lines)  # without loads, which leave nothing behind
        for stage in sorted({*by_stage, *self.history.stages_of_links}):
            if stage in self.loads:
                lines += [("mark", None), *self.steps(by_stage[stage])]
                continue
            part = self.lines_of_links(stage, lasting) if stage in self.history.stages_of_links else self.steps(by_stage[stage])
            lines += part
            lasting += part
        return [*lines, (f"run {STEPS_LEFT}", None)]

    def steps(self, ordered):
        lines = []
        for handled, caused in ordered:
            by_client = handled.sender in self.homes
            lines += [(line, handled) for line in (commands(handled) if by_client else [f"handle {handled.receiver} {handled.sender}"])]
            lines += [(f"take {sent.sender} {sent.receiver}", sent) for sent in caused]
        return lines

    def lines_of_links(self, stage, before):
        if stage not in self.of_links:
            earlier = set(range(stage)) - set(self.loads)
            self.of_links[stage] = LinksOrder(self.history.ways, stage, earlier, self.dials, before, self.report).lines()
        return self.of_links[stage]

    def compare(self, way, seen, sent, is_cut):
        """Message by message; the report ends early where a line was refused."""
        for i, (one, other) in enumerate((zip if is_cut else itertools.zip_longest)(seen, sent)):
            if one != other:
                return Difference(way, i, one, other)
        return None

    def tell(self, handled):
        """How much was judged, and how much of it was handled in another order than it was sent."""
        counts = collections.Counter()
        for (sender, receiver), messages in self.history.ways.items():
            counts[sender in self.names, receiver in self.names] += len(messages)
        by_router = [[it.sent for it in handled if it.receiver == name] for name in self.names]
        overtaken = sum(one > other for moments in by_router for one, other in zip(moments, moments[1:]))
        from_clients, to_clients, between = counts[False, True], counts[True, False], counts[True, True]
        print(f"  {from_clients} messages from clients; {to_clients} to clients and {between} between routers, as by the definition")
        print(f"  {sum(map(len, by_router))} were handled, {overtaken} times one before another that was sent earlier")


# ---- whether it sees what is wrong


def lost(messages):
    return messages[1:]


def doubled(messages):
    return [messages[0], *messages]


def swapped(messages):
    return [messages[1], messages[0], *messages[2:]]


def renumbered(messages):
    """A request, a reply or a final has the next number."""
    right, at = messages[0], place_of_number(messages[0])
    changed = Message(right.sender, right.receiver, (*right.words[:at], str(int(right.words[at]) + 1), *right.words[at + 1 :]), right.stage)
    changed.seen, changed.sent = right.seen, right.sent
    return [changed, *messages[1:]]


def place_of_number(message):
    return {"get": 2, "reply": 1, "final": 1}.get(message.words[0])


def sees_what_is_wrong(judge, rng):
    """Wrong runs, each with one message on the way from a router that is otherwise, must be judged to be that.

    The way isn't one to a client that has left: of a message that it lacks one can't tell whether it came behind its leaving.
    """
    ways = judge.history.ways
    said = [(way[0], it.words) for way, messages in ways.items() if way[0] in judge.homes for it in messages]
    publishers = {words[2:]: publisher for publisher, words in said if words[0] in ("put", "del")}

    def is_one_of_two(messages, i):
        """Whether a sample comes before another one of the same publisher: these can't change places."""
        publisher = publishers.get(messages[i].words[2:])
        return publisher and messages[i + 1 :] and publisher == publishers.get(messages[i + 1].words[2:])

    changes = [
        *((change, lambda messages, i: messages[i].words not in (UP, DOWN)) for change in (lost, doubled)),
        *((swapped, is_one_of_two), (renumbered, lambda messages, i: place_of_number(messages[i]))),
    ]
    for change, fits in changes:
        of_routers = [(way, messages) for way, messages in ways.items() if way[0] in judge.names and not judge.has_left(way[1])]
        way, i = rng.choice([(way, i) for way, messages in of_routers for i in range(len(messages)) if fits(messages, i)])
        right = ways[way]
        ways[way] = right[:i] + change(right[i:])
        try:
            judge.judge()
        except Wrong:
            pass
        else:
            raise Wrong(f"the judge doesn't see that this message is {change.__name__}: {right[i]}")
        finally:
            ways[way] = right

"""An order in which routers can have handled what came while links between them came up or went down, found by trial in `zrd net`.

There are few such messages. So each that waits is tried in turn, the one that was sent first before others, and given up as soon as
`net` sends what was not seen. `tests/replay` uses this for records and snapshots; `ordering.py` works out the order of all else.
"""
from driven import Wrong

UP, DOWN = ("up",), ("down",)
NOTHING_LEFT = "run 0 quiet"  # the report of a `run` that has nothing to do
MOST_AT_ONCE = 40  # messages that one event sends over a link


class LinksOrder:
    """The search in one stage. `before` is the script of the stages `earlier`. `report` runs one, and gives its `Report`."""

    def __init__(self, ways, stage, earlier, dials, before, report):
        self.dials, self.before, self.report = dials, before, report
        self.ways = {way: [it for it in messages if it.stage == stage] for way, messages in ways.items()}
        self.earlier = {way: sum(it.stage in earlier and it.words not in (UP, DOWN) for it in messages) for way, messages in ways.items()}
        self.into = [way for way, messages in self.ways.items() if way[1] in dials and messages]
        self.dead = set()  # what each router has handled in turn, where nothing led on

    def lines(self):
        """The lines of the stage, each with its message."""
        found = self.as_sent() or self.go_on({name: () for name in self.dials}, [])
        if found is None:
            raise Wrong(f"no order of what the routers handled explains what they sent as links came up or went down: {self.ways}")
        return found

    def as_sent(self):
        """The lines for the order in which messages were sent, if the routers handled them in that one: then there is nothing to search."""
        counts, lines = dict.fromkeys(self.into, 0), []
        while waiting := [way for way in self.into if counts[way] < len(self.ways[way])]:
            way = min(waiting, key=lambda way: self.ways[way][counts[way]].sent)
            message = self.ways[way][counts[way]]
            if message.words not in (UP, DOWN):
                lines.append((f"take {way[0]} {way[1]}", message))
            lines += self.step(way, counts, lines)
            counts[way] += 1
        return self.told(lines)

    def go_on(self, handled, lines):
        """`handled` has of each router the ways over which its messages came, in turn."""
        state = tuple(handled.values())
        if state in self.dead:
            return None
        counts = {way: handled[way[1]].count(way) for way in self.into}
        waiting = [way for way in self.into if counts[way] < len(self.ways[way])]
        if not waiting:
            return self.told(lines)
        for way in sorted(waiting, key=lambda way: self.ways[way][counts[way]].sent):
            step = self.step(way, counts, lines)
            if step and (sent := self.sent([*lines, *step], way[1])) is not None:
                found = self.go_on({**handled, way[1]: (*handled[way[1]], way)}, sent)
                if found:
                    return found
        self.dead.add(state)
        return None

    def step(self, way, counts, lines):
        """The lines by which a message is handled, or none if it wasn't sent yet. Of a link the first end that learns of it changes it."""
        peer, router = way
        message = self.ways[way][counts[way]]
        if message.words not in (UP, DOWN):
            return [(f"handle {router} {peer}", message)] if any(it is message for _, it in lines) else []
        changes = [f"break {router} {peer}", f"down {router} {peer}"]
        if message.words == UP:
            dialler, listener = way if router in self.dials[peer] else way[::-1]
            changes = [f"link {dialler} {listener} {self.dials[dialler][listener]}", f"up {router} {peer}"]
        has_other_learnt = any(it.words == message.words for it in self.ways[way[::-1]][: counts[way[::-1]]])
        return [(line, message) for line in changes[has_other_learnt:]]

    def sent(self, lines, router):
        """The lines with those that take what the router sends to others now, or None if this isn't what was seen."""
        for way, messages in self.ways.items():
            if way[0] != router or way[1] not in self.dials:
                continue
            take = f"take {way[0]} {way[1]}"
            report = self.report([*self.before, *lines, *[(take, None)] * MOST_AT_ONCE])
            if report.refused is not None and report.refused < len(self.before) + len(lines):
                return None
            taken = sum(line == take for line, _ in lines)
            seen = [it for it in messages if it.words not in (UP, DOWN)]
            new = report.sent[way][self.earlier[way] + taken :]
            if new != [it.plain() for it in seen[taken : taken + len(new)]]:
                return None
            lines = lines + [(take, it) for it in seen[taken : taken + len(new)]]
        return lines

    def told(self, lines):
        """What clients were sent comes last; None if that or anything else isn't what was seen, or if something is left."""
        out = {way: messages for way, messages in self.ways.items() if way[0] in self.dials}
        lines = lines + [(f"take {way[0]} {way[1]}", it) for way, messages in out.items() if way[1] not in self.dials for it in messages]
        report = self.report([*self.before, *lines, ("run 0", None)])
        seen = {way: [it.plain() for it in messages if it.words not in (UP, DOWN)] for way, messages in out.items()}
        is_seen = all(report.sent[way][self.earlier[way] :] == messages for way, messages in seen.items())
        return lines if is_seen and report.last == NOTHING_LEFT else None

"""What a link carries, read from its bytes: each message in the words by which `zrd net` reports it.

`docs/SCRIPTS.md` has these words ("Report lines"). `tests/replay` compares them with those of a report.
"""
from driven import DECLARATIONS, RECORD, WEIGHTED_RECORD, Ended, Reader, Wrong, pubsub

TREE = 0x47  # the extension that names the tree, between routers
KEY = 0x00  # the declaration of a number for a text
MAPPED = 0x40  # of what has a key: its number is one that the sender gave
NO_TEXT = "-"
TARGETS = ["best", "all", "complete"]
KINDS = ["sub", "able", "full"]
SNAPSHOT, ADDED, REMOVED = 0, 1, 2  # the forms of declarations between routers
SIGNS = {ADDED: "+", REMOVED: "-"}
MODES = {pubsub.CURRENT: "now", pubsub.FUTURE: "later", pubsub.CURRENT | pubsub.FUTURE: "both"}
INTERESTED = {pubsub.SUBSCRIBERS: "sub", pubsub.QUERYABLES: "able", pubsub.SUBSCRIBERS | pubsub.QUERYABLES: "all"}


def key(reader, header):
    number = reader.number()
    if number and not (header & MAPPED and number in reader.names):
        raise Wrong(f"a key is told by the number {number}, which stands for nothing")
    return (reader.names[number] if number else "") + (reader.string().decode() if header & pubsub.NAMED else "")


class Numbering(Reader):
    """Reads messages of one direction of a link, whose sender has given these numbers to texts."""

    def __init__(self, content, names):
        super().__init__(content)
        self.names = names


def numbered(reader, declared):
    """A number is declared: no message of its own."""
    number = reader.number()
    if number in reader.names:
        raise Wrong(f"the number {number} is declared twice")
    text = key(reader, declared | MAPPED)
    reader.extensions(declared)
    if text in reader.names.values():
        raise Wrong(f"{text} is declared twice")
    reader.names[number] = text


def tree(found):
    return found[TREE].hex() if TREE in found else NO_TEXT


def value(reader):
    """The payload of a PUT, or None for a DEL, and its time if it has one."""
    body = reader.byte()
    time = reader.number() if body & pubsub.TIMED else None
    if time is not None:
        reader.string()
    if body & pubsub.KIND == pubsub.PUT and body & pubsub.ENCODED:
        reader.skip_encoding()
    reader.extensions(body)
    return (reader.string().decode() or NO_TEXT if body & pubsub.KIND == pubsub.PUT else None), time


def sample(reader, header, _):
    of = key(reader, header)
    named = tree(reader.extensions(header))
    payload, _ = value(reader)
    return ("del", named, of) if payload is None else ("put", named, of, payload)


def query(reader, header, _):
    number = reader.number()
    of = key(reader, header)
    found = reader.extensions(header)
    body = reader.byte()
    consolidation = reader.number() if body & pubsub.CONSOLIDATED else None
    if body & pubsub.WITH_PARAMETERS:
        reader.string()
    reader.extensions(body)
    words = ("get", tree(found), str(number), of, TARGETS[found.get(pubsub.TARGET, pubsub.BEST_MATCHING)])
    return (*words, "latest") if consolidation == pubsub.LATEST else words


def reply(reader, header, _):
    number = reader.number()
    of = key(reader, header)
    reader.extensions(header)
    body = reader.byte()
    if body & pubsub.KIND != pubsub.REPLY:
        raise Wrong("an error is replied, and none was sent")
    if body & pubsub.CONSOLIDATED:
        reader.number()
    reader.extensions(body)
    payload, time = value(reader)
    words = ("reply", str(number), of, payload)
    return words if time is None else (*words, str(time))


def final(reader, header, _):
    number = reader.number()
    reader.extensions(header)
    return ("final", str(number))


def declaration(reader, header, to_client):
    """What a client declares or, on the way to one, what it is told of others."""
    answered = str(reader.number()) if header & pubsub.ANSWERING else NO_TEXT
    reader.extensions(header)
    declared = reader.byte()
    kind = declared & pubsub.KIND
    if kind == KEY and not to_client:
        return numbered(reader, declared)
    told = ("told",) if to_client else ()
    if kind == pubsub.ALL_TOLD:
        reader.extensions(declared)
        return (*told, "end", answered)
    number = str(reader.number())
    if kind in (pubsub.NO_SUBSCRIBER, pubsub.NO_QUERYABLE):
        reader.extensions(declared)
        return (*told, "unsub" if kind == pubsub.NO_SUBSCRIBER else "unable", number)
    if kind not in (pubsub.SUBSCRIBER, pubsub.QUERYABLE):
        raise Wrong(f"a declaration {declared:#04x} comes, and none was sent")
    of = key(reader, declared)
    is_complete = reader.extensions(declared).get(pubsub.INFO, 0) & pubsub.COMPLETE
    name = "sub" if kind == pubsub.SUBSCRIBER else "full" if is_complete else "able"
    return (*told, name, number, of, answered) if to_client else (name, number, of)


def interest(reader, header, _):
    number = str(reader.number())
    mode = header & (pubsub.CURRENT | pubsub.FUTURE)
    if not mode:
        reader.extensions(header)
        return ("uninterest", number)
    options = reader.byte()
    of = key(reader, options) if options & pubsub.WITH_KEY else NO_TEXT
    reader.extensions(header)
    kinds = INTERESTED[options & (pubsub.SUBSCRIBERS | pubsub.QUERYABLES)]
    words = ("interest", number, MODES[mode], kinds, of)
    return (*words, "aggregate") if options & pubsub.AGGREGATED else words


def of_routers(reader, header, _):
    """Records, changes and snapshots."""
    form = reader.number()
    reader.extensions(header)
    content = Reader(reader.string())
    if form in (RECORD, WEIGHTED_RECORD):
        return record(content, form == WEIGHTED_RECORD)
    if form != DECLARATIONS:
        raise Wrong(f"a router sent {form:#06x} to a router")
    form, source, number = content.byte(), content.string().hex(), str(content.number())
    if form != SNAPSHOT:
        return ("entry", source, number, SIGNS[form], *declared_between(content))
    return ("snap", source, number, *(word for _ in range(content.number()) for word in declared_between(content)))


def declared_between(content):
    return KINDS[content.byte()], content.string().decode()


def record(content, is_weighted):
    ident, number = content.string().hex(), str(content.number())
    links = []
    for _ in range(content.number()):
        other = content.string().hex()
        weight = content.number() if is_weighted else 1
        links.append(other if weight == 1 else f"{other}:{weight}")
    return ("record", ident, number, ",".join(links) or NO_TEXT)


READ = {
    pubsub.PUSH: sample,
    pubsub.REQUEST: query,
    pubsub.RESPONSE: reply,
    pubsub.RESPONSE_FINAL: final,
    pubsub.DECLARE: declaration,
    pubsub.INTEREST: interest,
    pubsub.OAM: of_routers,
}


def message(reader, to_client=False):
    """The words of the next message, or None where it is a declaration of a number."""
    header = reader.byte()
    return READ[header & pubsub.KIND](reader, header, to_client)


class Stream:
    """One direction of a link, of which the bytes come piece by piece."""

    def __init__(self, name, to_client=False):
        self.name, self.to_client, self.may_close = name, to_client, False
        self.waiting, self.pieces, self.names = b"", b"", {}

    def feed(self, content):
        """The batches that have come whole: the bytes of each, and the messages that end in it."""
        waiting = self.waiting + content
        at, found = 0, []
        while len(waiting) >= at + 2:
            end = at + 2 + int.from_bytes(waiting[at : at + 2], "little")
            if len(waiting) < end:
                break
            try:
                found.append((waiting[at:end], list(self.batch(Numbering(waiting[at + 2 : end], self.names)))))
            except (Ended, LookupError, UnicodeDecodeError) as e:
                raise Wrong(f"{self.name}: {waiting[at:end].hex()} can't be read: {e!r}") from e
            at = end
        self.waiting = waiting[at:]
        return found

    def batch(self, reader):
        while not reader.is_empty():
            header = reader.byte()
            kind = header & pubsub.KIND
            if kind in (pubsub.INIT, pubsub.OPEN):
                return
            if kind == pubsub.CLOSE and self.may_close:
                return
            if kind == pubsub.CLOSE:
                raise Wrong(f"{self.name}: the link was closed, reason {reader.byte()}")
            if kind in (pubsub.FRAME, pubsub.FRAGMENT):
                reader.number()
            reader.extensions(header)
            if kind == pubsub.FRAME:
                yield from self.frame(reader)
            elif kind == pubsub.FRAGMENT:
                self.pieces += reader.rest()
                if not header & pubsub.MORE:
                    whole, self.pieces = self.pieces, b""
                    yield from self.frame(Numbering(whole, self.names))
            elif kind != pubsub.KEEP_ALIVE:
                raise Wrong(f"{self.name}: {header:#04x} was sent in the session")

    def frame(self, reader):
        while not reader.is_empty() and reader.content[reader.at] & pubsub.KIND >= pubsub.INTEREST:
            words = message(reader, self.to_client)
            if words is not None:
                yield words

"""What a router answers to the bytes of one peer, where no other peer is there: a model of the reading end, for `tests/fuzz`.

It is written from the formats of the Zenoh protocol 1.0 and from docs/SERVE.md and docs/DECISIONS-SERVE.md, apart from the program.
It tells what comes back in order, as far as that depends on this peer alone: the answers to INIT and OPEN, the end of what is
declared now for each interest, and how the session ends.
"""
import re
import typing

ENDED = "end of the bytes"  # no CLOSE is written where the peer's bytes end or the peer sends one
GENERIC, UNSUPPORTED, INVALID, CONNECTED_ALREADY = 0, 1, 2, 4  # reasons

MOST_TEXT = 2_048  # bytes of an expression
MOST_TEXTS = 1_048_576  # bytes of all texts that are declared under numbers
MOST_WEIGHT = 4_194_304  # of all declarations and live interests
MOST_MESSAGE = {False: 8_388_608, True: 8_392_704}  # bytes in fragments: of a client, of a router
LEAST_BATCH, MOST_BATCH = 64, 65_535
DEFAULT_BITS = 2  # of the frame number's resolution: 32 bits
MODULI = [1 << 7, 1 << 14, 1 << 28]
VERSION, ROUTER, CLIENT = 9, 0, 2

EXTENDED, MANDATORY = 0x80, 0x10
QOS, TIMESTAMP, NODE, TREE = 0x21, 0x42, 0x23, 0x47
TARGET, BUDGET, TIMEOUT, RESPONDER = 0x24, 0x25, 0x26, 0x43
SPEAKS, FRAME_INFO = 0x29, 0x21
OF_SUBSCRIBER, OF_QUERYABLE, OF_GONE = {0x21}, {0x21}, {0x4F}
RECORD, DECLARATIONS, WEIGHTED_RECORD = 0x5A01, 0x5A02, 0x5A03
SPEAKS_RECORDS = 2  # what a router of this kind says by that extension


class Closed(Exception):
    """This end closes the session, with a reason."""


class Left(Exception):
    """The peer has sent a CLOSE."""


def refused():
    return Closed(INVALID)


class Outcome(typing.NamedTuple):
    """`answers` in order, and the reason of the CLOSE that is written last, or `ENDED`."""

    answers: list
    end: object


class Bytes:
    """Reads from the front of some bytes."""

    def __init__(self, content):
        self.content, self.at = content, 0

    def left(self):
        return len(self.content) - self.at

    def take(self, count):
        if count > self.left():
            raise refused()
        self.at += count
        return self.content[self.at - count : self.at]

    def byte(self):
        return self.take(1)[0]

    def number(self, bits=64):
        value = 0
        for i in range(9):
            byte = self.byte()
            if byte < 0x80 or i == 8:
                value |= byte << 7 * i
                break
            value |= (byte & 0x7F) << 7 * i
        if value >> bits:
            raise refused()
        return value

    def string(self, bits):
        return self.take(self.number(bits))

    def identifier(self):
        return as_identifier(self.string(8))

    def extensions(self, header, known=frozenset()):
        """The known extensions behind a header, the last of each."""
        found = {}
        while header & EXTENDED:
            header = self.byte()
            form, name = header & 0x60, header & 0x6F
            if form == 0x60 or name not in known and header & MANDATORY:
                raise refused()
            content = self.number() if form == 0x20 else self.string(32) if form == 0x40 else None
            if name in known:
                found[name] = content
        return found


def as_identifier(content):
    if not 1 <= len(content) <= 16 or not any(content):
        raise refused()
    return content


def expression(text):
    """The length of the canonical form of an expression; what is none is refused."""
    if not 1 <= len(text) <= MOST_TEXT:
        raise refused()
    try:
        chunks = text.decode().split("/")
    except UnicodeDecodeError:
        raise refused() from None
    for chunk in chunks:
        rest = chunk.replace("$*", "")
        fixed = chunk in ("*", "**")
        if not chunk or "#" in chunk or "?" in chunk or not fixed and ("*" in rest or "$" in rest or chunk[0] == "@" and "$" in chunk):
            raise refused()
    if "*" not in chunks and "**" not in chunks and "$*" not in text.decode():
        return len(text)
    short = re.sub(r"(?:\$\*)+", "$*", text.decode()).split("/")
    short = ["*" if chunk == "$*" else chunk for chunk in short]
    least, deep = [], False  # `**` beside `**` counts once, also over `*` between them, since `**/*` is `*/**`
    for chunk in short:
        if chunk == "**":
            if deep:
                continue
            deep = True
        elif chunk != "*":
            deep = False
        least.append(chunk)
    return len("/".join(least).encode())


class Channel:
    """The frames of one reliability, and the pieces of a message that isn't whole yet."""

    def __init__(self, first):
        self.next, self.pieces = first, None


class Session:
    """The accepting end of a link, of a router with this identifier."""

    def __init__(self, own):
        self.own, self.answers = own, []
        self.read_transport, self.cookie = self.read_init, None
        self.texts, self.positions = {0: b""}, {}
        self.declared, self.interests = {0x02: {}, 0x04: {}, 0x06: {}}, {}

    # ---- bytes to batches, batches to messages

    def outcome(self, stream, cookie):
        """What comes of a whole stream; `cookie` is the one that the router has given."""
        self.given = cookie
        at = 0
        try:
            while (end := at + 2) <= len(stream):
                at = end + int.from_bytes(stream[at:end], "little")
                if at > len(stream):
                    break
                self.batch(Bytes(stream[end:at]))
        except Left:
            pass
        except Closed as e:
            return Outcome(self.answers, e.args[0])
        return Outcome(self.answers, ENDED)

    def batch(self, read):
        in_frame = False
        while read.left():
            if in_frame and is_of_frame(read):
                self.network(read)()
            else:
                in_frame = self.read_transport(read)

    def closing(self, read, header):
        if header & 0x1F != 0x03:
            return
        read.byte()
        read.extensions(header)
        raise Left

    def read_init(self, read):
        header = read.byte()
        self.closing(read, header)
        if header & 0x1F != 0x01 or header & 0x20:
            raise refused()
        version, packed = read.byte(), read.byte()
        self.peer = as_identifier(read.take((packed >> 4) + 1))
        bits, batch = DEFAULT_BITS, MOST_BATCH
        if header & 0x40:
            resolutions = read.byte()
            batch = int.from_bytes(read.take(2), "little")
            bits = min(bits, resolutions & 3)
            ids = min(2, resolutions >> 2 & 3)
        else:
            ids = 2
        speaks = read.extensions(header, {SPEAKS}).get(SPEAKS)
        role = packed & 3
        if version != VERSION or role not in (ROUTER, CLIENT) or role == ROUTER and speaks != SPEAKS_RECORDS:
            raise Closed(UNSUPPORTED)
        if batch < LEAST_BATCH:
            raise refused()
        self.is_router, self.modulus = role == ROUTER, MODULI[bits]
        self.answers.append(("INIT", bits | ids << 2, batch))
        self.read_transport = self.read_open
        return False

    def read_open(self, read):
        header = read.byte()
        self.closing(read, header)
        if header & 0x1F != 0x02 or header & 0x20:
            raise refused()
        lease, first = read.number(), read.number()
        cookie = read.string(16)
        read.extensions(header)
        if cookie != self.given or lease == 0 or first >= self.modulus:
            raise refused()
        if self.peer == self.own:
            raise Closed(CONNECTED_ALREADY)
        self.answers.append(("OPEN",))
        self.channels = [Channel(first), Channel(first)]
        self.read_transport = self.read_opened
        return False

    def read_opened(self, read):
        """True where a frame has begun."""
        header = read.byte()
        self.closing(read, header)
        kind = header & 0x1F
        if kind == 0x04:
            read.extensions(header)
        elif kind == 0x05:
            self.channel(read, header).pieces = None
            return True
        elif kind == 0x06:
            self.fragment(read, header)
        else:
            raise refused()
        return False

    def channel(self, read, header):
        channel = self.channels[header >> 5 & 1]
        number = read.number()
        read.extensions(header, {FRAME_INFO})
        ahead = number - channel.next
        must_follow = header & 0x1F == 0x06 and channel.pieces is not None
        if number >= self.modulus or ahead % self.modulus >= self.modulus // 2 or must_follow and ahead:
            raise refused()
        channel.next = (number + 1) % self.modulus
        return channel

    def fragment(self, read, header):
        channel = self.channel(read, header)
        channel.pieces = (channel.pieces or b"") + read.take(read.left())
        if len(channel.pieces) > MOST_MESSAGE[self.is_router]:
            raise refused()
        if header & 0x40:
            return
        whole, channel.pieces = Bytes(channel.pieces), None
        if not whole.left() or not is_of_frame(whole):
            raise refused()
        take = self.network(whole)
        if whole.left():
            raise refused()
        take()

    # ---- network messages: each is read whole, and then taken

    def network(self, read):
        """Reads a message, and gives what is to be done with it."""
        header = read.byte()
        take = {
            **{0x19: self.interest, 0x1A: self.final, 0x1B: self.response, 0x1C: self.request},
            **{0x1D: self.push, 0x1E: self.declare, 0x1F: self.oam},
        }[header & 0x1F](read, header)
        return take or (lambda: None)

    def key(self, read, flags):
        """The text of a key, by the flags N and M."""
        scope = read.number(16)
        text = self.texts.get(scope) if flags & 0x40 or scope == 0 else None
        if text is None:
            raise refused()
        return text + (read.string(16) if flags & 0x20 else b"")

    def whole_key(self, read, flags):
        text = self.key(read, flags)
        return text, expression(text)

    def interest(self, read, header):
        ident = read.number(32)
        weight = None
        if header & 0x60:
            options = read.byte()
            weight = 16 + (self.whole_key(read, options)[1] if options & 0x10 else 0)
        read.extensions(header, {QOS, TIMESTAMP, NODE})
        self.admit(not self.is_router)
        return lambda: self.take_interest(ident, header, weight)

    def take_interest(self, ident, header, weight):
        self.interests.pop(ident, None)
        if header & 0x40:
            self.interests[ident] = weight
            self.weigh()
        if header & 0x20:
            self.answers.append(("TOLD", ident))

    def admit(self, holds):
        if not holds:
            raise refused()

    def weigh(self):
        kept = [self.interests, *self.declared.values()]
        if sum(sum(weights.values()) for weights in kept) > MOST_WEIGHT:
            raise Closed(GENERIC)

    def final(self, read, header):
        read.number(32)
        read.extensions(header, {QOS, TIMESTAMP})

    def response(self, read, header):
        read.number(32)
        self.whole_key(read, header)
        read.extensions(header, {QOS, TIMESTAMP, RESPONDER})
        read_body(read, {0x04, 0x05})

    def tree(self, found):
        """Routers name the tree, and clients don't."""
        if self.is_router:
            self.admit(TREE in found)
            as_identifier(found[TREE])

    def of_tree(self):
        return {TREE} if self.is_router else set()

    def request(self, read, header):
        read.number(32)
        self.whole_key(read, header)
        found = read.extensions(header, {QOS, TIMESTAMP, NODE, TARGET, BUDGET, TIMEOUT} | self.of_tree())
        self.tree(found)
        self.admit(found.get(TARGET, 0) <= 2)
        read_body(read, {0x03})

    def push(self, read, header):
        self.whole_key(read, header)
        self.tree(read.extensions(header, {QOS, TIMESTAMP, NODE} | self.of_tree()))
        read_body(read, {0x01, 0x02})

    def declare(self, read, header):
        interest = read.number(32) if header & 0x20 else None
        read.extensions(header, {QOS, TIMESTAMP, NODE})
        declared = read.byte()
        kind = declared & 0x1F
        if kind == 0x00:
            return self.declare_text(read, declared)
        if kind == 0x01:
            number = read.number(16)
            read.extensions(declared)
            return lambda: number and self.texts.pop(number, None)
        self.admit(not self.is_router)
        if kind in (0x02, 0x04, 0x06):
            return self.declare_key(read, declared, kind)
        if kind in (0x03, 0x05, 0x07):
            ident = read.number(32)
            read.extensions(declared, OF_GONE)
            return lambda: self.take_end(kind - 1, ident)
        self.admit(kind == 0x1A)
        read.extensions(declared)
        return lambda: self.all_told(interest)

    def take_end(self, kind, ident):
        if self.declared[kind].pop(ident, None) is None:
            raise refused()

    def all_told(self, interest):
        """A client's end of what an interest asked for is read and ignored."""

    def declare_text(self, read, declared):
        number = read.number(16)
        text = self.key(read, declared & 0x20 | 0x40)
        read.extensions(declared)
        if number == 0 or len(text) > MOST_TEXT:
            raise refused()
        return lambda: self.take_text(number, text)

    def take_text(self, number, text):
        self.texts[number] = text
        if sum(map(len, self.texts.values())) > MOST_TEXTS:
            raise Closed(GENERIC)

    def declare_key(self, read, declared, kind):
        ident = read.number(32)
        _, length = self.whole_key(read, declared)
        read.extensions(declared, {0x02: OF_SUBSCRIBER, 0x04: OF_QUERYABLE, 0x06: frozenset()}[kind])
        return lambda: self.take_declaration(kind, ident, length + 16)

    def take_declaration(self, kind, ident, weight):
        self.declared[kind][ident] = weight
        self.weigh()

    # ---- messages between routers

    def oam(self, read, header):
        form = header & 0x60
        if form == 0x60:
            raise refused()
        ident = read.number(16)
        if ident in (RECORD, DECLARATIONS, WEIGHTED_RECORD):
            if header != 0x5F:
                raise refused()
            content = Bytes(read.string(32))
            take = self.declarations(content) if ident == DECLARATIONS else self.record(content, ident == WEIGHTED_RECORD)
            self.admit(not content.left())
            return take if self.is_router else None
        read.extensions(header)
        if form == 0x20:
            read.number()
        elif form == 0x40:
            read.string(32)
        return None

    def record(self, content, is_weighted):
        own, last = content.identifier(), b""
        content.number()
        for _ in range(content.number(16)):
            ident = content.identifier()
            self.admit(ident > last and ident != own)
            self.admit(not is_weighted or content.number(16) >= 1)
            last = ident

    def declarations(self, content):
        form = content.byte()
        self.admit(form <= 2)
        source, number = content.identifier(), content.number()
        self.admit(number >= 1)
        last = (-1, b"")
        for _ in range(content.number(32) if form == 0 else 1):
            kind, text = content.byte(), content.string(16)
            self.admit(kind <= 3 and expression(text) == len(text) and is_canonical(text) and (kind, text) > last)
            last = (kind, text)
        return lambda: self.take_step(form, source, number)

    def take_step(self, form, source, number):
        position = self.positions.get(source, 0)
        if source == self.own or number <= position:
            return
        self.admit(form == 0 or number == position + 1)
        self.positions[source] = number


def is_of_frame(read):
    return read.content[read.at] & 0x1F >= 0x19


def is_canonical(text):
    """Whether nothing can be replaced in what has the length of its canonical form."""
    chunks = text.decode().split("/")
    return "$*" not in chunks and not any(a == "**" and b == "*" for a, b in zip(chunks, chunks[1:]))


def read_timestamp(read):
    read.number()
    if not 1 <= len(read.string(8)) <= 16:
        raise refused()


def read_encoding(read):
    if read.number(32) & 1:
        read.string(8)


def read_body(read, allowed):
    header = read.byte()
    kind = header & 0x1F
    if kind not in allowed:
        raise refused()
    if kind in (0x01, 0x02) and header & 0x20:
        read_timestamp(read)
    if kind in (0x01, 0x05) and header & 0x40:
        read_encoding(read)
    if kind in (0x03, 0x04) and header & 0x20:
        read.number()
    if kind == 0x03 and header & 0x40:
        read.string(16)
    read.extensions(header)
    if kind in (0x01, 0x05):
        read.string(32)
    elif kind == 0x04:
        read_body(read, {0x01, 0x02})

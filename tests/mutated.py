"""Streams of a peer of a router, valid and mutated, for `tests/fuzz`: each connection's by the seed and its number alone."""
import functools
import random
import typing

from driven import pubsub

number, string = pubsub.number, pubsub.string

GROUPS = 64  # of keys: connections of different ones seldom meet
UNITS = 120  # of each group, made once
MOST_STREAMS = 16  # of one connection
MUTATED, GOES_ON = 0.25, 0.3  # of all streams, and of connections behind a mutated stream: few sessions outlast one
LEASE = 600  # seconds: on a busy machine a connection may be late
PROBE = 0x0F0F0F00  # the interests that tell how far a router has read
PROBE_KEY = b"probe"
LARGEST_NUMBER = (1 << 64) - 1
ROUTER_INFO = bytes([0x29, 0x02])
TARGET = 0x24  # the extension of REQUEST

TIDY_KEYS = ["a", "a/b", "*", "a/*", "**", "a/**", "**/b", "a$*/b", "x$*y", "*/**", "@v/a", "é/ü", "long/" + "x" * 200]
NASTY_KEYS = [
    *(b"a//b", b"/a", b"a/", b"a#", b"a?", b"a*", b"$", b"$*$*", b"**/**", b"**/*/**", b"@$*", b"@*", b"***", b"", b"\xff", b"\xc0\x80"),
    *(b"\xed\xa0\x80", b"$*", b"a$*$*b", b"x" * 2_048, b"x" * 2_049, b"$*" * 1_000, b"*/" * 900 + b"*", b"\0", b"**/" * 300 + b"z"),
]


class Draw(random.Random):
    """Draws that take half the time: a little uneven, which doesn't matter here."""

    def choice(self, of):
        return of[int(self.random() * len(of))]

    def randrange(self, first, end=None):
        return int(self.random() * first) if end is None else first + int(self.random() * (end - first))


class Plan(typing.NamedTuple):
    """What one connection sends: `first` at once; where `second` is there, it is called with the cookie and the modulus for the rest."""

    first: bytes
    second: typing.Callable | None
    is_router: bool
    mutated: list  # of each stream whether its bytes are mutated


def batch(content):
    return len(content).to_bytes(2, "little") + content


def zint(rng, value):
    """A number, now and then in a longer spelling than need be."""
    spelled = number(value)
    if len(spelled) < 8 and rng.random() < 0.03:
        return spelled[:-1] + bytes([spelled[-1] | 0x80]) + b"\x80" * rng.randrange(8 - len(spelled)) + b"\0"
    return spelled


def any_number(rng):
    return rng.choice([0, 1, 2, 5, 127, 128, 255, 256, 65_535, 65_536, 1 << 32, LARGEST_NUMBER, rng.getrandbits(32)])


def payload(rng):
    return noise(rng, rng.choice([0, 1, 2, 8, 30])) if rng.random() < 0.95 else bytes(rng.choice([300, 5_000]))


def noise(rng, count):
    return bytes(rng.getrandbits(8) for _ in range(count))


def timestamp(rng):
    return zint(rng, any_number(rng)) + string(bytes(rng.choice([1, 4, 16])))


def chain(rng, known=()):
    """The flag of a header, and extensions: known ones, and now and then unknown ones that may be skipped or, seldom, not."""
    if rng.random() < 0.7:
        return 0, b""
    headers = [extension_header(rng, known) for _ in range(rng.choice([1, 1, 2, 3]))]
    out = b""
    for i, header in enumerate(headers):
        mandatory = 0x10 if rng.random() < (0.5 if header in known else 0.01) else 0
        more = 0x80 if i + 1 < len(headers) else 0
        out += bytes([header | mandatory | more]) + extension_content(rng, header)
    return 0x80, out


def extension_header(rng, known):
    return rng.choice(known) if known and rng.random() < 0.6 else rng.randrange(16) | rng.choice([0, 0x20, 0x40])


def extension_content(rng, header):
    if header == TARGET:
        return zint(rng, rng.choice([0, 1, 2]))
    if header & 0x60 == 0x20:
        return zint(rng, any_number(rng))
    return string(payload(rng)) if header & 0x60 else b""


def key(rng, group):
    """Flags N and M, and a wire key with the whole text."""
    if rng.random() < 0.03:
        text = rng.choice(NASTY_KEYS)
    elif rng.random() < 0.02:
        text = rng.choice([b"**", b"*", b"**/a"])
    else:
        text = f"f{group}/{rng.choice(TIDY_KEYS)}".encode()
    return 0x20 | rng.choice([0, 0x40]), b"\0" + string(text)


def value(rng):
    """A PUT or a DEL."""
    flags, exts = chain(rng)
    if rng.random() < 0.3:
        timed = rng.choice([0, 0x20])
        return bytes([0x02 | flags | timed]) + (timestamp(rng) if timed else b"") + exts
    timed, encoded = rng.choice([0, 0, 0x20]), rng.choice([0, 0, 0x40])
    encoding = rng.choice([b"\0", number(14), number(15) + string(b"schema")]) if encoded else b""
    return bytes([0x01 | flags | timed | encoded]) + (timestamp(rng) if timed else b"") + encoding + exts + string(payload(rng))


def push(rng, group, tree=b""):
    n, wire = key(rng, group)
    flags, exts = tree_chain(rng, (0x21, 0x42, 0x23), tree)
    return bytes([0x1D | n | flags]) + wire + exts + value(rng)


def tree_chain(rng, known, tree):
    """Extensions, and behind them a tree where one is named."""
    flags, exts = chain(rng, known)
    if not tree:
        return flags, exts
    return 0x80, bytes([0x47 | 0x10 | (0x80 if exts else 0)]) + string(tree) + exts


def request(rng, group, tree=b""):
    n, wire = key(rng, group)
    flags, exts = tree_chain(rng, (0x21, 0x42, 0x23, 0x24, 0x25, 0x26), tree)
    body, inner = chain(rng)
    consolidated, with_parameters = rng.choice([0, 0x20]), rng.choice([0, 0, 0x40])
    query = bytes([0x03 | body | consolidated | with_parameters])
    query += (number(rng.choice([0, 1, 2, 3, 9])) if consolidated else b"") + (string(b"p=1;q") if with_parameters else b"") + inner
    return bytes([0x1C | n | flags]) + zint(rng, rng.getrandbits(32)) + wire + exts + query


def response(rng, group):
    n, wire = key(rng, group)
    flags, exts = chain(rng, (0x21, 0x42, 0x43))
    body, inner = chain(rng)
    if rng.random() < 0.3:
        encoded = rng.choice([0, 0x40])
        answer = bytes([0x05 | body | encoded]) + (b"\0" if encoded else b"") + inner + string(payload(rng))
    else:
        consolidated = rng.choice([0, 0x20])
        answer = bytes([0x04 | body | consolidated]) + (b"\1" if consolidated else b"") + inner + value(rng)
    return bytes([0x1B | n | flags]) + number(rng.choice([1, 2, 3, rng.getrandbits(32)])) + wire + exts + answer


def final(rng):
    flags, exts = chain(rng, (0x21, 0x42))
    return bytes([0x1A | flags]) + number(rng.choice([1, 2, 3, rng.getrandbits(32)])) + exts


def declare(rng, content):
    flags, exts = chain(rng, (0x21, 0x42, 0x23))
    answering = 0x20 if rng.random() < 0.1 else 0
    return bytes([0x1E | flags | answering]) + (b"\7" if answering else b"") + exts + content


def declaration(rng, group, kind, ident):
    """A subscriber, queryable or token."""
    n, wire = key(rng, group)
    flags, exts = chain(rng, {2: (0x21,), 4: (0x21,), 6: ()}[kind])
    return declare(rng, bytes([kind | n | flags]) + number(ident) + wire + exts)


def end(rng, kind, ident):
    flags, exts = chain(rng, (0x4F,))
    return declare(rng, bytes([kind + 1 | flags]) + number(ident) + exts)


def declared(rng, group):
    kind, ident = rng.choice([2, 2, 4, 4, 6]), rng.choice([1, 2, 3, rng.getrandbits(32)])
    out = [declaration(rng, group, kind, ident)]
    return out + [end(rng, kind, ident)] if rng.random() < 0.5 else out


def numbered(rng, group, tree=b""):
    """A text under a number, a sample on it, and perhaps the number's end."""
    ident = rng.choice([1, 2, 300, 65_535])
    flags, exts = chain(rng)
    out = [declare(rng, bytes([0x20 | flags]) + number(ident) + b"\0" + string(f"f{group}/n".encode()) + exts)]
    flags, exts = tree_chain(rng, (), tree)
    out.append(bytes([0x1D | 0x60 | flags]) + number(ident) + string(rng.choice([b"/a", b"", b"x/*"])) + exts + value(rng))
    if rng.random() < 0.4:
        out.append(declare(rng, bytes([0x01]) + number(ident)))
    return out


def interested(rng, group):
    mode, ident = rng.choice([0x20, 0x40, 0x60]), rng.choice([1, 2, rng.getrandbits(24)])
    n, wire = key(rng, group)
    flags, exts = chain(rng, (0x21, 0x42, 0x23))
    options = rng.randrange(16) | rng.choice([0, 0x80])
    options, wire = (options | 0x10 | n, wire) if rng.random() < 0.97 else (options, b"")
    out = [bytes([0x19 | mode | flags]) + zint(rng, ident) + bytes([options]) + wire + exts]
    return out + [bytes([0x19]) + number(ident)] if rng.random() < 0.5 else out


def other_oam(rng):
    form = rng.choice([0, 0x20, 0x40])
    flags, exts = chain(rng)
    content = {0: b"", 0x20: number(any_number(rng)), 0x40: string(payload(rng))}[form]
    return bytes([0x1F | form | flags]) + number(rng.choice([0, 7, 0x5A04, 65_535])) + exts + content


@functools.lru_cache(maxsize=None)
def client_units(seed, group):
    """Groups of messages that may follow each other in the session of a client."""
    rng = Draw(f"{seed} client {group}")
    makers = [
        *[lambda: [push(rng, group)]] * 4,
        *[lambda: declared(rng, group)] * 4,
        *(lambda: [request(rng, group)], lambda: [request(rng, group)], lambda: [response(rng, group)], lambda: [final(rng)]),
        *(lambda: numbered(rng, group), lambda: numbered(rng, group), lambda: interested(rng, group), lambda: interested(rng, group)),
        *(lambda: [other_oam(rng)], lambda: [declare(rng, b"\x1a")]),
    ]
    return [rng.choice(makers)() for _ in range(UNITS)]


def record(own, seq, weights):
    """A record with the weights of its links; without weights where each is 1, as a router writes it."""
    is_weighted = any(weight != 1 for weight in weights.values())
    links = (string(ident) + (number(weight) if is_weighted else b"") for ident, weight in sorted(weights.items()))
    content = string(own) + number(seq) + number(len(weights)) + b"".join(links)
    return bytes([0x5F]) + number(0x5A03 if is_weighted else 0x5A01) + string(content)


def changes(form, source, position, entries):
    content = bytes([form]) + string(source) + number(position) + (number(len(entries)) if form == 0 else b"")
    return bytes([0x5F]) + number(0x5A02) + string(content + b"".join(bytes([kind]) + string(text) for kind, text in entries))


def router_units(rng, group, own):
    """The same in the session of a router; positions go on from unit to unit."""
    entries = [(rng.randrange(4), f"f{group}/{text}".encode()) for text in ("a", "b", "c/*")]
    seq = [1]
    position = [0]

    def step():
        position[0] += rng.choice([1, 1, 1, 1, 1, 1, 0, 2])
        return [changes(rng.choice([1, 1, 2]), own, max(position[0], 1), [rng.choice(entries)])]

    def snap():
        position[0] += rng.choice([0, 1, 3])
        return [changes(0, own, max(position[0], 1), sorted(set(rng.choices(entries, k=rng.randrange(4)))))]

    def links():
        seq[0] += rng.choice([0, 1, 5])
        others = {b"\1", *rng.choices([b"\2", b"\3\3", b"\4"], k=rng.randrange(3))} - {own}
        return [record(own, seq[0], {ident: rng.choice([1, 1, 1, 5, 300, 65_535]) for ident in others})]

    makers = [
        *(step, step, snap, links, links, lambda: [response(rng, group)], lambda: [final(rng)], lambda: [other_oam(rng)]),
        *[lambda: [push(rng, group, own)]] * 2,
        *(lambda: [request(rng, group, own)], lambda: numbered(rng, group, own)),
    ]
    while True:
        yield rng.choice(makers)()


# ---- mutations


def flip(rng, content):
    out = bytearray(content)
    for _ in range(rng.choice([1, 1, 2, 3])):
        out[rng.randrange(len(out))] ^= 1 << rng.randrange(8)
    return bytes(out)


def cut(rng, content):
    return content[: rng.randrange(len(content))]


def drop(rng, content):
    at = rng.randrange(len(content))
    return content[:at] + content[at + rng.choice([1, 1, 2, 5]) :]


def put_in(rng, content):
    at = rng.randrange(len(content) + 1)
    return content[:at] + noise(rng, rng.choice([1, 1, 2, 4, 9])) + content[at:]


def set_byte(rng, content):
    at = rng.randrange(len(content))
    return content[:at] + bytes([rng.choice([0, 1, 0x1F, 0x20, 0x7F, 0x80, 0xFF, rng.getrandbits(8)])]) + content[at + 1 :]


def lie(rng, content):
    """A byte that is likely a length is one more or less, or a number beyond all limits."""
    at = rng.randrange(len(content))
    new = rng.choice([bytes([content[at] + 1 & 0xFF]), bytes([content[at] - 1 & 0xFF]), number(any_number(rng)), b"\xff" * 9])
    return content[:at] + new + content[at + 1 :]


def spell_longer(rng, content):
    """A byte becomes the same number in a longer spelling, where it was a number."""
    at = rng.randrange(len(content))
    return content if content[at] > 0x7F else content[:at] + bytes([content[at] | 0x80, 0]) + content[at + 1 :]


def repeat(rng, content):
    a, b = sorted(rng.randrange(len(content) + 1) for _ in range(2))
    return content[:b] + content[a:b] + content[b:]


MUTATIONS = [flip, flip, flip, cut, drop, put_in, set_byte, set_byte, lie, lie, spell_longer, spell_longer, repeat]


def mutated(rng, content):
    return rng.choice(MUTATIONS)(rng, content) if content else content


class Writer:
    """Messages in frames and fragments, numbered as a peer numbers them."""

    def __init__(self, rng, modulus, first):
        self.rng, self.modulus, self.next = rng, modulus, [first, first]

    def number(self, channel):
        value = self.next[channel]
        self.next[channel] = (value + 1) % self.modulus
        return number(value)

    def skip(self):
        """Both channels go on a little ahead, past what a mutated number has taken."""
        self.next = [(value + self.rng.randrange(8)) % self.modulus for value in self.next]

    def frame(self, messages, channel):
        flags, exts = chain(self.rng, (0x21,)) if self.rng.random() < 0.1 else (0, b"")
        return bytes([0x05 | channel << 5 | flags]) + self.number(channel) + exts + b"".join(messages)

    def fragments(self, message, channel, pieces):
        cuts = sorted(self.rng.randrange(len(message) + 1) for _ in range(pieces - 1))
        parts = [message[a:b] for a, b in zip([0, *cuts], [*cuts, len(message)])]
        more = [0x40] * (pieces - 1) + [0]
        return [bytes([0x06 | channel << 5 | flag]) + self.number(channel) + part for flag, part in zip(more, parts)]

    def batches(self, messages):
        out = []
        while messages:
            channel = 1 if self.rng.random() < 0.85 else 0
            if self.rng.random() < 0.12:
                out += self.fragments(messages.pop(0), channel, self.rng.choice([1, 2, 3, 5]))
                continue
            count = self.rng.choice([1, 1, 2, 3])
            taken, messages = messages[:count], messages[count:]
            out.append(self.frame(taken, channel))
            if self.rng.random() < 0.05:
                out.append(self.rng.choice([b"\x04", b"", b"\x04\x04", b"\xe4\x01"]))
        return out

    def probe(self, place):
        interest = bytes([0x39]) + number(PROBE + place) + b"\xb2\0" + string(PROBE_KEY)
        return batch(bytes([0x25]) + self.number(1) + interest)


def mutate_batches(rng, batches):
    """Lengths that lie, batches that are doubled, left out, changed or in another order, and bytes that are no batch."""
    act, at = rng.randrange(8), rng.randrange(len(batches))
    out = [batch(content) for content in batches]
    if act == 0:
        lied = max(0, len(batches[at]) + rng.choice([-1, 1, 2, -2, 100]))
        out[at] = lied.to_bytes(2, "little") + batches[at]
    elif act == 1:
        out.insert(at, out[at])
    elif act == 2:
        del out[at]
    elif act == 3:
        out[at] = batch(batches[at] + batches[rng.randrange(len(batches))])
    elif act == 4:
        other = rng.randrange(len(out))
        out[at], out[other] = out[other], out[at]
    elif act == 5:
        out.insert(at, batch(noise(rng, 1 + rng.randrange(4))))
    else:
        out[at] = batch(mutated(rng, batches[at]))
    return b"".join(out)


def mutate_messages(rng, messages):
    for _ in range(rng.choice([1, 1, 1, 2])):
        at = rng.randrange(len(messages))
        if rng.random() < 0.1:
            other = rng.choice(messages)
            messages[at] = messages[at][: rng.randrange(len(messages[at]) + 1)] + other[rng.randrange(len(other) + 1) :]
        else:
            messages[at] = mutated(rng, messages[at])


def stream(rng, writer, units, is_mutated):
    """A few units; where it is mutated either their messages or their batches."""
    messages = [message for unit in units for message in unit]
    among_batches = is_mutated and rng.random() < 0.15
    if is_mutated and not among_batches:
        mutate_messages(rng, messages)
    batches = writer.batches(messages)
    if is_mutated or rng.random() < 0.1:
        writer.skip()
    return mutate_batches(rng, batches) if among_batches and batches else b"".join(map(batch, batches))


# ---- connections


def init(rng, ident, is_router):
    sized = rng.random() < 0.25
    sizes = bytes([rng.randrange(256)]) + rng.choice([64, 100, 65_535, rng.randrange(64, 65_536)]).to_bytes(2, "little") if sized else b""
    flags, exts = chain(rng) if not is_router and rng.random() < 0.2 else (0x80, ROUTER_INFO) if is_router else (0, b"")
    role = (0 if is_router else 2) | rng.choice([0, 0, 4, 12])
    return bytes([pubsub.INIT | (0x40 if sized else 0) | flags, pubsub.VERSION, len(ident) - 1 << 4 | role]) + ident + sizes + exts


def opened(rng, cookie, first):
    seconds = rng.choice([0, 0x40])
    return bytes([pubsub.OPEN | seconds]) + zint(rng, LEASE if seconds else 1_000 * LEASE) + number(first) + string(cookie)


def which_are_mutated(rng):
    """Of each stream of a connection whether it is: those behind one are seldom read."""
    out = []
    while len(out) < MOST_STREAMS:
        out.append(rng.random() < MUTATED)
        if out[-1] and rng.random() > GOES_ON:
            break
    return out


def plan(seed, place, is_router):
    rng = Draw(seed << 40 | place << 1 | is_router)
    group = rng.randrange(GROUPS)
    ident = place.to_bytes(6, "big") + b"\x0b" if rng.random() < 0.99 else bytes([1])
    hello = init(rng, ident, is_router)
    if rng.random() < 0.06:
        bad = mutated(rng, hello)
        sent = batch(bad) if rng.random() < 0.8 else mutate_batches(rng, [hello, bytes([pubsub.OPEN, 10, 0, 0])])
        return Plan(sent, None, is_router, [True])
    if not is_router and place < len(SPECIAL):
        return Plan(batch(hello), functools.partial(special, rng, SPECIAL[place]), is_router, [False])
    streams = which_are_mutated(rng)

    def rest(cookie, modulus):
        first = rng.choice([0, modulus - 1, rng.randrange(modulus)])
        opening = opened(rng, cookie, first)
        opening = batch(opening) if rng.random() < 0.97 else mutate_batches(rng, [opening])
        writer = Writer(rng, modulus, first)
        units = router_units(rng, group, ident) if is_router else None
        out = [opening]
        for i, is_mutated in enumerate(streams):
            count = rng.choice([1, 1, 2, 3])
            chosen = [next(units) if is_router else rng.choice(client_units(seed, group)) for _ in range(count)]
            out.append(stream(rng, writer, chosen, is_mutated))
            if not is_router:
                out.append(writer.probe(i))
        if rng.random() < 0.4:
            out.append(batch(bytes([0x23, rng.randrange(256)])))
        return b"".join(out)

    return Plan(batch(hello), rest, is_router, streams)


# ---- streams that reach a limit: one connection each, the first ones of a run


def texts(writer, excess):
    """Texts under numbers: 512 of 2,048 bytes are the limit."""
    out = [bytes([0x1E, 0x20]) + number(i + 1) + b"\0" + string(b"x" * 2_048) for i in range(512 + excess)]
    return [writer.frame(out[at : at + 30], 1) for at in range(0, len(out), 30)]


def weights(writer, excess):
    """Subscribers that weigh 2,048 bytes and 16 each: 2,032 of them are the most, and 256 are left."""
    out = [bytes([0x1E, 0x20, 1, 0]) + string(b"x" * 2_048)]
    out += [bytes([0x1E, 0x42]) + number(i) + b"\1" for i in range(2_032)]
    out.append(bytes([0x1E, 0x22]) + number(5_000) + b"\0" + string(b"x" * (240 + excess)))
    return [writer.frame(out[at : at + 500], 1) for at in range(0, len(out), 500)]


def long_message(writer, excess):
    """A sample of the most bytes that a client's message has, in fragments."""
    head = bytes([0x3D, 0]) + string(b"long") + b"\x01"
    content = 8_388_608 + excess - len(head) - 4
    message = head + string(bytes(content))
    parts = [message[at : at + 65_000] for at in range(0, len(message), 65_000)]
    more = [0x40] * (len(parts) - 1) + [0]
    return [bytes([0x26 | flag]) + writer.number(1) + part for flag, part in zip(more, parts)]


SPECIAL = [(make, excess) for make in (texts, weights, long_message) for excess in (0, 1)]


def special(rng, which, cookie, modulus):
    make, excess = which
    writer = Writer(rng, modulus, 0)
    sent = b"".join(map(batch, make(writer, excess))) if modulus > 1_000 else b""
    return batch(opened(rng, cookie, 0)) + sent + writer.probe(0)

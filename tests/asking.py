"""Queries and replies over real sockets, also across routers and for the latest replies alone. Cases of `tests/serve`."""
import os
import signal

from driven import MOST_AHEAD, MOST_WAIT, SILENCE, Answer, Router, Wrong
from driven import answered, handed, is_unasked, must, program, pubsub, reply_to, settle, settle_across, takes, until

AT_ONCE = 2  # seconds: far below a lease
MOST_HELD, HELD, PUT_HEAD = 67_108_864, 1 << 22, 6  # of held replies: what all weigh at most, what one does, and its bytes before a payload
FROM_SENDER = 0x40  # of what has a key: its number is one that the sender has declared


def query():
    """A query is handed to who can answer it, but not to its asker; its answers come as they were sent, and its one final behind those of all who were asked."""
    with Router("01") as router:
        asker, first, second = router.client("0a"), router.client("0b"), router.client("0c")
        own = asker.declare_queryable("plan/**")
        settle(asker)
        answered(asker, Answer(asker.ask("plan/7")), seconds=AT_ONCE)
        is_unasked(asker)
        asker.undeclare_queryable(own)
        ident = first.declare_queryable("plan/*")
        settle(first)
        one_answers(asker, first)
        keys_by_number(asker, first)
        second.declare_queryable("plan/**", is_complete=True)
        settle(second)
        two_answer(asker, first, second)
        two_are_open(asker, first, second)
        number = asker.ask("plan/7", target=pubsub.ALL_COMPLETE)
        second.end(handed(second, "plan/7", target=pubsub.ALL_COMPLETE))
        is_unasked(first)
        answered(asker, Answer(number))
        first.undeclare_queryable(ident)
        settle(first)
        with program(router, "ask", "plan/7", "where") as asking:
            asked = handed(second, "plan/7", b"where")
            second.reply(asked, "plan/7", b"north")
            second.end(asked)
            must(asking.communicate(timeout=MOST_WAIT)[0], "plan/7 north\n", "what the asking program prints")
            must(asking.returncode, 0, "its end")
        for client in (asker, first):
            is_unasked(client)


def one_answers(asker, replier):
    """Replies, also one in fragments, and an error."""
    large = os.urandom(300_000)
    number = asker.ask("plan/7", b"where")
    asked = handed(replier, "plan/7", b"where")
    answered(asker)
    replier.reply(asked, "plan/7", b"north")
    replier.reply(asked, "plan/7", large)
    replier.reply_error(asked, b"blocked")
    answered(asker, reply_to(number, "plan/7", b"north"), reply_to(number, "plan/7", large), Answer(number, error=b"blocked"))
    replier.end(asked)
    answered(asker, Answer(number))


def query_latest():
    """At linked routers the asker's one holds replies of a query for the latest: of each key the one with the latest time, be it a deletion. An error goes on."""
    with Router("01") as first, Router("02", first.port) as second:
        asker, near, far = first.client("0a"), first.client("0b"), second.client("0c")
        near.declare_queryable("store/*")
        far.declare_queryable("store/*")
        settle(near)
        settle_across(far, first)
        number = asker.ask("store/*", target=pubsub.ALL, is_latest=True)
        asked = [handed(client, "store/*", target=pubsub.ALL) for client in (near, far)]
        far.reply(asked[1], "store/c", b"early")
        far.reply(asked[1], "store/a", b"new", 7 << 32)
        far.send(gone(asked[1].number, "store/b", 9 << 32, far.ident))
        far.reply_error(asked[1], b"blocked")
        answered(asker, Answer(number, error=b"blocked"))
        far.end(asked[1])
        near.reply(asked[0], "store/b", b"old", 8 << 32)
        near.reply(asked[0], "store/a", b"no time")
        near.reply(asked[0], "store/c", b"late")
        answered(asker)
        near.end(asked[0])
        came = [reply_to(number, "store/a", b"new"), reply_to(number, "store/b", None), reply_to(number, "store/c", b"early")]
        answered(asker, *came, Answer(number))
        number = asker.ask("store/*", target=pubsub.ALL)
        asked = [handed(client, "store/*", target=pubsub.ALL) for client in (near, far)]
        near.reply(asked[0], "store/a", b"at once")
        answered(asker, reply_to(number, "store/a", b"at once"))
        number = asker.ask("store/*", target=pubsub.ALL, is_latest=True)
        asked += [handed(client, "store/*", target=pubsub.ALL) for client in (near, far)]
        near.reply(asked[2], "store/a", b"held")
        near.end(asked[2])
        far.close()
        answered(asker, reply_to(number, "store/a", b"held"), Answer(number))


def gone(number, key, when, clock):
    """A reply that says that a value is gone since some time."""
    stamp = pubsub.number(when) + pubsub.string(clock)
    head = bytes([pubsub.RESPONSE | pubsub.NAMED]) + pubsub.number(number) + b"\0" + pubsub.string(key.encode())
    return head + bytes([pubsub.REPLY, pubsub.DEL | pubsub.TIMED]) + stamp


def query_latest_past_its_limit():
    """What a router holds weighs 67,108,864 at most: a reply beyond it goes on at once, also one of a key of which another is held, and no other one does."""
    with Router("01") as router:
        asker, replier = router.client("0a"), router.client("0b")
        replier.declare_queryable("store/*")
        settle(replier)
        number = asker.ask("store/*", is_latest=True)
        asked = handed(replier, "store/*")
        value = bytes(HELD - len("store/00") - PUT_HEAD)
        for i in range(MOST_HELD // HELD):
            replier.reply(asked, f"store/{i:02}", value)
        settle(replier)
        replier.reply(asked, "store/00", b"beyond")
        came = asker.receive_answer(MOST_WAIT)
        must(came and came.reply.key + came.reply.payload[:9].decode(), "store/00beyond", "the first that comes")
        must(asker.receive_answer(SILENCE) is None, True, "that no other one comes")


def keys_by_number(asker, replier):
    """Both spell their keys by a number that they have declared for `plan`, and the reply says that a value is gone."""
    named, string = pubsub.NAMED | FROM_SENDER, pubsub.string
    for client in (asker, replier):
        client.send(bytes([pubsub.DECLARE, pubsub.NAMED, 1, 0]) + string(b"plan"))
    number = asker.asked = asker.asked + 1
    asker.send(bytes([pubsub.REQUEST | named, number, 1]) + string(b"/7") + bytes([pubsub.QUERY]))
    asked = handed(replier, "plan/7")
    replier.send(bytes([pubsub.RESPONSE | named, asked.number, 1]) + string(b"/7") + bytes([pubsub.REPLY, pubsub.DEL]))
    replier.end(asked)
    answered(asker, reply_to(number, "plan/7", None), Answer(number))


def two_answer(asker, first, second):
    """One final, behind the end of the second."""
    number = asker.ask("plan/*", target=pubsub.ALL)
    asked = [handed(client, "plan/*", target=pubsub.ALL) for client in (first, second)]
    first.reply(asked[0], "plan/7", b"north")
    first.end(asked[0])
    answered(asker, reply_to(number, "plan/7", b"north"))
    second.reply(asked[1], "plan/8", b"south")
    second.end(asked[1])
    answered(asker, reply_to(number, "plan/8", b"south"), Answer(number))


def two_are_open(asker, first, second):
    """Two queries at a time, of which the later one ends first."""
    numbers = [asker.ask("plan/7"), asker.ask("plan/8")]
    firsts, seconds = ([handed(client, "plan/7"), handed(client, "plan/8")] for client in (first, second))
    for i in (1, 0):
        first.end(firsts[i])
        second.reply(seconds[i], "plan/7", b"north")
        second.end(seconds[i])
        answered(asker, reply_to(numbers[i], "plan/7", b"north"), Answer(numbers[i]))


def query_across():
    """Clients of three routers in a line answer each other's queries; a router that goes with an open query has ended it."""
    with Router("01") as first, Router("02", first) as second:
        with Router("03", second) as third:
            asker, near, far = first.client("0a"), second.client("0b"), third.client("0c")
            for client in (near, far):
                client.declare_queryable("plan/*", is_complete=True)
                settle_across(client, first)
            number = asker.ask("plan/7", b"where", pubsub.ALL_COMPLETE)
            asked = [handed(client, "plan/7", b"where", pubsub.ALL_COMPLETE) for client in (near, far)]
            near.reply(asked[0], "plan/7", b"north")
            near.end(asked[0])
            answered(asker, reply_to(number, "plan/7", b"north"))
            replies = [str(i).encode() for i in range(MOST_AHEAD)]
            for reply in replies:
                far.reply(asked[1], "plan/7", reply)
            far.end(asked[1])
            answered(asker, *[reply_to(number, "plan/7", reply) for reply in replies], Answer(number))
            settle_across(near, third)
            number = far.ask("plan/8")
            near.end(handed(near, "plan/8"))
            answered(far, Answer(number))
            answered(asker, Answer(asker.ask("elsewhere")), seconds=AT_ONCE)
            number = asker.ask("plan/7")
            near.end(handed(near, "plan/7"))
            far.reply(handed(far, "plan/7"), "plan/7", b"south")
            answered(asker, reply_to(number, "plan/7", b"south"))
        answered(asker, Answer(number), seconds=AT_ONCE)
        number = asker.ask("plan/7")
        near.end(handed(near, "plan/7"))
        answered(asker, Answer(number))


def query_left():
    """A query that is open at a client which is killed, hangs up or closes has ended there; one whose asker has gone harms nobody."""
    with Router("01") as router:
        asker = router.client("0a")
        with program(router, "answer", "plan/*", "north") as killed:
            until(lambda: replies(asker, "plan/7"), "the client answers")
            killed.send_signal(signal.SIGSTOP)
            number = asker.ask("plan/7")
            answered(asker)
        answered(asker, Answer(number), seconds=AT_ONCE)
        repliers = [router.client() for _ in range(3)]
        for replier in repliers:
            replier.declare_queryable("plan/*")
        settle(*repliers)
        number = asker.ask("plan/7")
        asked = [handed(replier, "plan/7") for replier in repliers]
        for replier, request in zip(repliers, asked):
            replier.reply(request, "plan/7", b"north")
        answered(asker, *[reply_to(number, "plan/7", b"north")] * 3)
        hangs_up, closes, stays = repliers
        hangs_up.link.close()
        closes.close()
        answered(asker)
        asker_leaves(router, stays)
        stays.end(asked[2])
        answered(asker, Answer(number))


def asker_leaves(router, replier):
    """A client goes whose query is open at a replier, which answers it all the same."""
    leaver = router.client("0b")
    leaver.ask("plan/8")
    asked = handed(replier, "plan/8")
    leaver.link.close()
    until(lambda: takes(router, "0b"), "the asker has gone")
    replier.reply(asked, "plan/8", b"south")
    replier.end(asked)


def replies(asker, key):
    """All replies to a query."""
    number = asker.ask(key)
    seen = []
    while (answer := asker.receive_answer(MOST_WAIT)) != Answer(number):
        if answer is None:
            raise Wrong("the final doesn't come")
        must(answer, reply_to(number, key, b"north"), "the answer")
        seen.append(answer)
    return seen

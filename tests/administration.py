"""Cases of the administration space of a running router, `serve --admin`: its pages over sockets. `tests/serve` runs them."""
import threading

from driven import MOST_WAIT, Ended, Router, Watcher, Wrong, is_silent, must, until

ADMIN = ["--admin"]
INNER = "7a726461646d696e"  # what the identifier of each inner client begins with
LINKS = 100
TIMES = 100
AT_ONCE = 20


def pages(session, key, seconds=MOST_WAIT):
    """What a query is answered: the payload of each key, in the order in which they came."""
    number = session.ask(key)
    found = []
    while (came := session.receive_answer(seconds)) is not None:
        must(came.number, number, "the number of an answer")
        if came.is_final():
            return found
        found.append((came.reply.key, came.reply.payload.decode()))
    raise Wrong(f"no final came to {key} within {seconds} s, behind {len(found)} replies")


def inner_of(found):
    """The identifier of the inner client, by the page of its link."""
    return next(key.rsplit("/", 1)[1] for key, _ in found if f"/link/{INNER}" in key)


def admin_pages():
    """A router answers for its links, records, parents and sources, in the order of the keys; for no other router; and not to wildcards alone."""
    with Router("0a", options=ADMIN) as router:
        client = router.client("c1")
        found = pages(client, "@/0a/router/*/*")
        inner = inner_of(found)
        wanted = [(f"@/0a/router/link/{inner}", "client"), ("@/0a/router/link/c1", "client"), ("@/0a/router/record/0a", "0 -"), ("@/0a/router/source/0a", "1 1")]
        must((len(inner), found), (32, wanted), "all pages")
        must(pages(client, "@/0a/router/link/c9"), [], "the page of a client that isn't there")
        must(pages(client, "@/0b/router/**"), [], "the pages of another router")
        must(pages(client, "**"), [], "what wildcards alone find")
        client.declare_queryable("a")
        client.subscribe("a/*")
        must(pages(client, "@/*/router/source/*"), [("@/0a/router/source/0a", "3 3")], "the source once a client has declared")
    with Router("0a") as router:
        must(pages(router.client(), "@/0a/router/**"), [], "what a router answers without the option")


def admin_across():
    """Each of three routers in a line is asked from all of them; a parent and a weight are told."""
    with Router("01", options=ADMIN) as first, Router("02", first, weights=[5], options=ADMIN) as second, Router("03", second, options=ADMIN) as third:
        client = third.client("c3")
        until(lambda: len(pages(client, "@/*/router/record/*")) == 9, "each router has all records")
        found = dict(pages(client, "@/01/router/**"))
        links = {key: told for key, told in found.items() if "/link/" in key and INNER not in key}
        must(links, {"@/01/router/link/02": "router"}, "the links of the first router")
        must((found["@/01/router/parent/02"], found["@/01/router/parent/03"]), ("02", "02"), "its parents")
        must(found["@/01/router/record/02"].split(" ")[1], "01:5,03", "the record of the second router")


def admin_crowded():
    """With a hundred links all pages are asked for a hundred times in a row, from the router itself and from two routers away, and none is lost."""
    with Router("01", options=ADMIN) as first, Router("02", first) as second, Router("03", second) as third:
        others = [first.client(f"{0x100 + i:04x}") for i in range(LINKS - 3)]  # and the inner client, the second router and who asks
        for name, asker in (("0a", first.client("0a")), ("0b", third.client("0b"))):
            until(lambda: len(pages(asker, "@/01/router/record/*")) == 3, "the first router has all records")
            seen = pages(asker, "@/01/router/**")
            links = [key for key, _ in seen if "/link/" in key]
            must(len(links) >= LINKS - 1, True, "there are a hundred links")
            for i in range(TIMES):
                must(pages(asker, "@/01/router/**"), seen, f"the pages when they are asked for the {i + 1}th time")
                if i % 10 == 0:
                    for it in others:
                        it.keep_alive()
            # one query behind the other, without waiting
            for _ in range(TIMES):
                asker.ask("@/01/router/link/*")
            finals = replies = 0
            while finals < TIMES:
                came = asker.receive_answer(MOST_WAIT)
                must(came is None, False, f"an answer behind {replies} replies and {finals} finals")
                finals, replies = finals + came.is_final(), replies + (not came.is_final())
            must(replies, TIMES * len(links), "the replies to queries that were sent at once")
            asker.close()
            # its page goes with its link, a moment later
            until(lambda: f"@/01/router/link/{name}" not in dict(pages(others[0], "@/01/router/link/*")), "the first router has no link to who asked")


def admin_of_many():
    """Twenty clients that ask for all pages at once, again and again, are all answered, and so is who comes behind them."""
    with Router("01", options=ADMIN) as router:
        clients = [router.client() for _ in range(AT_ONCE)]
        faults = []

        def asks(client):
            try:
                for _ in range(TIMES // 4):
                    for _ in range(4):
                        client.ask("@/01/router/**")
                    finals = 0
                    while finals < 4:
                        came = client.receive_answer(MOST_WAIT)
                        if came is None:
                            raise Wrong("no answer came")
                        finals += came.is_final()
            except (Ended, OSError, Wrong) as e:
                faults.append(repr(e))

        threads = [threading.Thread(target=asks, args=[it]) for it in clients]
        for it in threads:
            it.start()
        for it in threads:
            it.join()
        must(faults, [], "what went wrong at the clients")
        must(len(pages(router.client("0a"), "@/01/router/link/*")) > AT_ONCE, True, "who comes behind them is answered")


def admin_by_rules():
    """Rules judge the inner client as any other: where they deny what it declares that is told; where they deny an answer the query ends."""
    with Router("01", options=ADMIN, rules="deny * able @/**\n") as router:
        must(router.process.stderr.readline(), "admin refused\n", "what is told")
        must(pages(router.client("0a"), "@/01/router/**"), [], "what is answered then")
    with Router("01", options=ADMIN, rules="deny * reply @/01/router/link/*\n") as router:
        client = router.client("0a")
        must(pages(client, "@/01/router/record/*"), [("@/01/router/record/01", "0 -")], "a page that no rule denies")
        must(pages(client, "@/01/router/link/*"), [], "pages that a rule denies")
        # the inner client may be coming again
        until(lambda: pages(client, "@/01/router/record/*") == [("@/01/router/record/01", "0 -")], "a page that no rule denies, afterwards")
    opened = "allow 0a get @/01/router/**\nallow * able @/01/router/**\nallow * reply @/01/router/**\ndefault deny\n"
    with Router("01", options=ADMIN, rules=opened) as router:
        must(pages(router.client("0a"), "@/01/router/record/*"), [("@/01/router/record/01", "0 -")], "the space by rules that open it alone")


CASES = [admin_pages, admin_across, admin_of_many, admin_by_rules, admin_crowded]

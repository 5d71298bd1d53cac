"""What a router tells whom it serves: its log, causes, statuses and addresses. Cases of `tests/serve`."""
import contextlib
import re
import socket
import subprocess
import tempfile
import time

from driven import MOST_AHEAD, MOST_WAIT, Router, Session, Watcher, Wrong
from driven import clients_hear_each_other, comes_again, ending, free_port, must, pubsub, reason, send_at_once, settle, until

CONNECTED_ALREADY = 4
INVALID = "closed here, it sent what may not come"  # what the log tells with reason 2
LONG_LEASE = 120  # seconds: it does not run out
REFUSED = 20  # peers one behind another
DENIED = 20  # messages one behind another
QUIET = 1.1  # seconds: a line may come again
UNREAD = 2_000  # links whose lines in the log are more than a pipe and the router keep
NO_NAMES = "127.83.71.1"  # where no server of names answers
IDENT = "0c"


def logs():
    """With `--log` each link that comes up or ends is told on standard error, a line each; without it nothing is."""
    with Router("01", options=["--log"]) as router:
        must(router.logged(), ("info", f"listening on 127.0.0.1:{router.port}"), "what is told at first")
        client = router.client("0a")
        at = "link {}:{}: ".format(*client.link.getsockname())
        must(router.logged(), ("info", f"{at}up, client 0a"), "what is told of a link that came up")
        second = ending(lambda: router.client("0a"), "a second one")
        must(reason(second), CONNECTED_ALREADY, "the reason for an identifier that is up")
        severity, told = router.logged()
        told = severity, told.split(": ", 1)[1]
        must(told, ("warn", "end, refused client 0a: closed here, its identifier is up already"), "what is told of a client that is refused")
        client.close()
        told = sorted(router.logged() for _ in range(2))
        wanted = [("info", f"{at}end, client 0a: closed by the peer, reason 0"), ("info", f"{at}writer end, client 0a: all is written")]
        must(told, wanted, "what is told of a link that ended")
        client = router.client("0b")
        at = "link {}:{}: ".format(*client.link.getsockname())
        must(router.logged(), ("info", f"{at}up, client 0b"), "what is told of the next one")
        client.link.sendall(bytes([3, 0, 0xFF, 0xFF, 0xFF]))
        told = sorted(router.logged() for _ in range(2))
        wanted = [("warn", f"{at}end, client 0b: {INVALID}: no message or body has this id here"), ("warn", f"{at}writer end, client 0b: closed here, reason 2")]
        must(told, wanted, "what is told of a link that the router closes")
        socket.create_connection(router.address).close()
        severity, told = router.logged()
        must((severity, told.split(": ", 1)[1]), ("info", "end, unopened: the peer hung up"), "what is told of a link that never opened")
    with Router("01") as router:
        router.client("0a").close()
        clients_hear_each_other(router)
        router.process.kill()
        must(router.process.stderr.read(), "", "what is told without the option")


# What a client does that breaks a rule, and what the log tells of it.
BREAKS = [
    (lambda client: client.put("a//b", b"hi"), f'{INVALID}: a key expression is out of form: "a//b"'),
    (lambda client: client.subscribe('a/"\n*'), f'{INVALID}: a key expression is out of form: "a/\\"\\n*"'),
    (lambda client: client.ask("/a"), f'{INVALID}: a key expression is out of form: "/a"'),
    (lambda client: client.declare_queryable(""), f'{INVALID}: a key expression is out of form: ""'),
    (lambda client: client.declare_interest("a/#"), f'{INVALID}: a key expression is out of form: "a/#"'),
    (lambda client: client.put("a" * 3_000, b"hi"), f'{INVALID}: a key expression is out of form: "{"a" * 100}"..'),
    (lambda client: client.unsubscribe(7), f"{INVALID}: it takes back 7, which it has not declared"),
    (lambda client: client.undeclare_token(7), f"{INVALID}: it takes back 7, which it has not declared"),
    (lambda client: send_at_once(client, [pubsub.request(7, "a", None, pubsub.BEST_MATCHING)] * 2), f"{INVALID}: its query 7 is pending already"),
    (lambda client: send_batch(client, 7), f"{INVALID}: no message or body has this id here"),
    (lambda client: send_batch(client, 0x01, pubsub.VERSION, 0x02, 0x0A), f"{INVALID}: the session is open already"),
    (lambda client: client.send(bytes([0x1D, 5, 1])), f"{INVALID}: a key names a scope that is not declared"),
    (lambda client: client.send(bytes([0x3D, 0, 9])), f"{INVALID}: the bytes end inside a value"),
    (lambda client: client.send(bytes([0xBD, 0, 1, 0x61, 0x18, 1, 0])), f"{INVALID}: an unknown extension is mandatory"),
]


def send_batch(client, *content):
    client.link.sendall(len(content).to_bytes(2, "little") + bytes(content))


def broken_rules():
    """The log names the rule that a client breaks, and a key that is none."""
    with Router("01", options=["--log"]) as router:
        answering = router.client("0b", LONG_LEASE)  # so that a query pends
        answering.declare_queryable("a")
        settle(answering)
        for act, cause in BREAKS:
            client = comes_again(router, "0a")
            act(client)
            until(lambda: router.logged()[1].endswith(f"end, client 0a: {cause}"), cause)
            client.link.close()


def denials():
    """The log names a message that the rules deny, a line a second at most, and how many were left out before it."""
    rules = "deny * put secret/**\ndeny 0a sub secret/*\ndeny 0a interest **\n"
    with Router("01", options=["--log"], rules=rules) as router:
        client = router.client("0a", LONG_LEASE)
        at = "link {}:{}: ".format(*client.link.getsockname())
        head = f"{at}denied, client 0a: "
        until(lambda: router.logged()[1] == f"{at}up, client 0a", "the link comes up")
        for act, cause in [
            (lambda: client.put("secret/x", b"hi"), 'put "secret/x", rule 1'),
            (lambda: client.subscribe("**"), 'sub "**", rule 2'),
            (lambda: client.declare_interest(None), "interest, rule 3"),
            (lambda: client.put("secret/" + "a" * 300, b"hi"), f'put "secret/{"a" * 193}".., rule 1'),
        ]:
            time.sleep(QUIET)
            act()
            must(router.logged(), ("info", head + cause), "what is told of a denial")
        for _ in range(DENIED):
            client.put("secret/x", b"hi")
            time.sleep(0.01)  # so that not all come by one read
        time.sleep(QUIET)
        client.put("secret/y", b"hi")
        left_out, told = 0, ""
        while not told.startswith('put "secret/y"'):
            told = router.logged()[1].removeprefix(head)
            left_out += 1 if "left out" not in told else 1 + int(told.rsplit(" ", 1)[1])
        must(left_out, DENIED + 1, "the denials told of, and those left out")


def refused_peers():
    """Peers that are refused are told without the log too, a line a second at most."""
    head = "peers refused: "
    with Router("01") as router:
        first = router.client("0a", LONG_LEASE)
        began, told, count = time.monotonic(), [], 0
        for _ in range(REFUSED):
            ending(lambda: router.client("0a"), "a second one")
        time.sleep(1.1)
        ending(lambda: router.client("0a"), "one more")
        while count <= REFUSED:
            severity, line = router.logged()
            must((severity, line.startswith(head)), ("warn", True), line)
            told.append(line)
            count += int(line[len(head) :].split(",")[0])
        must(bool(re.search(r", the last one 127\.0\.0\.1:\d+: its identifier is up already$", told[-1])), True, told[-1])
        if len(told) > time.monotonic() - began + 1:
            raise Wrong(f"{len(told)} lines within {time.monotonic() - began:.1f} s")
        first.close()
    with Router("01") as router, socket.create_connection(router.address) as link:
        link.sendall(bytes([4, 0, 0x01, pubsub.VERSION - 1, 0x02, 0x0A]))
        must(router.logged()[1].split(": ")[-1], "its version or its role is not spoken", "what is told of another version")


def unread_log():
    """Where nobody reads the log sessions open all the same; once somebody does, a line says how many lines were left out."""
    with Router("01", options=["--log"]) as router:
        for _ in range(UNREAD):
            router.client().close()
        clients_hear_each_other(router)
        lines = []
        while not lines or not lines[-1][1].endswith(" lines were left out"):
            lines.append(router.logged())
        must(lines[-1][0], "warn", "its severity")
        left_out = int(lines[-1][1].split()[0])
        told = len(lines) - 2  # without the first line, and the last
        if told + left_out > 3 * (UNREAD + MOST_AHEAD):
            raise Wrong(f"{told} lines were told and {left_out} left out, of {UNREAD} links")
        client = router.client("0a")
        while router.logged()[1] != "link {}:{}: up, client 0a".format(*client.link.getsockname()):
            pass


def addresses():
    """Zenoh's locators are taken as addresses, and port 0 is one that the system picks, which the log tells."""
    with Router("01") as first:
        with listening("tcp/localhost:0", f"tcp/localhost:{first.port}") as (address, process):
            until(lambda: Watcher(first.address, "0f").links().get("01") == [IDENT, "0f"], "a router is dialled by a locator")
            subscriber, publisher = (Session(address) for _ in range(2))
            subscriber.subscribe("a")
            settle_across_links(subscriber, publisher)
    with listening("tcp/[::1]:0") as (address, process):
        must(address[0], "::1", "an address of version 6")
        Session(address).close()


@contextlib.contextmanager
def listening(address, *dials):
    """A router that listens at an address with port 0, as the log tells."""
    words = ["serve", "--id", IDENT, "--log", "--listen", address, *dials]
    process = subprocess.Popen(Router.program + words, stdin=subprocess.DEVNULL, stdout=subprocess.PIPE, stderr=subprocess.PIPE, text=True)
    try:
        must(process.stdout.readline(), f"serving {IDENT}\n", "the first line")
        line = process.stderr.readline()
        host, port = line.rstrip("\n").rsplit(" ", 1)[1].rsplit(":", 1)
        yield (host.strip("[]"), int(port)), process
    finally:
        process.kill()
        process.wait()
        process.stdout.close()
        process.stderr.close()


def settle_across_links(subscriber, publisher):
    """What one publishes comes to the other."""
    until(lambda: publisher.put("a", b"hi") or subscriber.receive(0.05), "a sample comes")


def lost_name():
    """A dial by a name on which no server answers is given up after 3 s; a client that has connected meanwhile is served then."""
    with socket.socket(socket.AF_INET, socket.SOCK_DGRAM) as silent, tempfile.NamedTemporaryFile("w") as names:
        silent.bind((NO_NAMES, 53))
        names.write(f"nameserver {NO_NAMES}\noptions timeout:10 attempts:2\n")
        names.flush()
        with asking(names.name), Router("01", "nobody.invalid:7447") as router:
            began = time.monotonic()
            router.client().close()
            passed = time.monotonic() - began
            if not 1 <= passed <= 5:
                raise Wrong(f"a client waited {passed:.1f} s for a router that looks up a name in vain")
            must(router.process.stderr.readline(), "dial nobody.invalid:7447 failed\n", "what is told of the dial")
            clients_hear_each_other(router)


@contextlib.contextmanager
def asking(names):
    """Routers that are started meanwhile ask the servers of this file for names; it wants to be root."""
    program = Router.program
    mounted = 'mount --bind "$0" /etc/resolv.conf && exec "$@"'
    Router.program = ["unshare", "--mount", "sh", "-c", mounted, names, *program]
    try:
        yield
    finally:
        Router.program = program


def reasons():
    """Why a router can't listen is told beside the line that it can't; why a dial failed, in the log."""
    with Router("01") as router:
        for address, why in [
            (f"127.0.0.1:{router.port}", "address in use"),
            ("127.0.0.1:65536", "not an address"),
            ("localhost", "not an address"),
            ("192.0.2.1:7447", "not an address of this machine"),
            ("nobody.invalid:7447", "no such host"),
        ]:
            words = ["serve", "--id", "02", "--listen", address]
            ended = subprocess.run(Router.program + words, capture_output=True, text=True, timeout=MOST_WAIT)
            must((ended.returncode, ended.stdout), (6, ""), f"the end at {address}")
            must(ended.stderr, f"listen {address}: {why}\nlisten {address} failed\nzrd: no links can be accepted\n", "what is told")
    lost = free_port()
    with Router("01", lost, "nobody.invalid:7447", options=["--log"]) as router:
        clients_hear_each_other(router)
        router.process.kill()
        told = router.process.stderr.read().split("\n")
        for address, why in [(f"127.0.0.1:{lost}", "refused"), ("nobody.invalid:7447", "no such host")]:
            must(f"dial {address} failed" in told, True, f"the line that {address} is not dialled comes")
            must([line.split(" ", 1)[1] for line in told if line.endswith(f" dial {address}: {why}")], [f"warn dial {address}: {why}"], "why")


def statuses():
    """A router ends with 6 where it can't listen, with 2 where the words are wrong; a dial that fails is told, and it goes on."""
    with Router("01") as router:
        taken = subprocess.run(
            Router.program + ["serve", "--id", "02", "--listen", f"127.0.0.1:{router.port}"], capture_output=True, text=True, timeout=MOST_WAIT
        )
        must((taken.returncode, taken.stdout), (6, ""), "the end where the address is taken")
        at = f"127.0.0.1:{router.port}"
        must(taken.stderr, f"listen {at}: address in use\nlisten {at} failed\nzrd: no links can be accepted\n", "what is told of it")
    lost = free_port()
    with Router("01", lost) as router:
        clients_hear_each_other(router)
        must(router.process.stderr.readline(), f"dial 127.0.0.1:{lost} failed\n", "what is told of a dial that failed")
    wrong = subprocess.run(Router.program + ["serve", "--id", "01"], capture_output=True, text=True, timeout=MOST_WAIT)
    must((wrong.returncode, wrong.stdout), (2, ""), "the end with wrong words")

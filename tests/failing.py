"""Malformed bytes, and what fails outside a router: two tables, which the cases `malformed_bytes` and `failing_outsides` go through."""
import contextlib
import ctypes
import os
import pathlib
import resource
import shutil
import signal
import socket
import stat
import struct
import subprocess
import tempfile
import time
import tty

from driven import HERE, MOST_WAIT, Reader, Router, Sample, Wrong
from driven import clients_hear_each_other, ending, must, pubsub, reason, received, settle, takes, until

NEW, ASKED, OPEN = range(3)  # how far a session has come: nothing came, INIT was answered, or a client's session is open
# The bytes that come, how far the session is, the reason with which it is closed, if it is, and how many samples on `a` are passed on. The
# first frame is expected to have number 0.
MALFORMED = [
    ("04 00 01 09 03 0A", NEW, 1, 0),  # another role
    ("04 00 01 09 02 00", NEW, 2, 0),  # an identifier that is all zero
    ("04 00 01 09 00 02", NEW, 1, 0),  # a router without the extension of this kind
    ("07 00 41 09 02 0A 0A 3F 00", NEW, 2, 0),  # a batch size of 63
    ("05 00 42 0A 05 01 00", ASKED, 2, 0),  # another cookie
    ("01 00 07", OPEN, 2, 0),  # JOIN
    ("00 00", OPEN, None, 0),
    ("07 00 25 00 3D 00 01 61 02 07 00 25 00 3D 00 01 61 02", OPEN, 2, 1),  # a frame number twice
    ("07 00 25 05 3D 00 01 61 02", OPEN, None, 1),
    ("05 00 25 00 1D 05 02", OPEN, 2, 0),  # a number that stands for no text
    ("0A 00 25 00 3D 00 04 61 2F 2F 62 02", OPEN, 2, 0),  # the key `a//b`
    ("05 00 25 00 3D 00 09", OPEN, 2, 0),  # the bytes end within a key
    ("09 00 25 00 BD 00 01 61 68 01 00", OPEN, 2, 0),  # an extension of no encoding
    ("10 00 25 00 3C FF FF FF FF FF FF FF FF FF 00 01 61 03", OPEN, 2, 0),  # a number of a query above 32 bits
    ("08 00 25 00 1E 20 00 00 01 61", OPEN, 2, 0),  # a text under number 0
    ("0A 00 25 00 BC 01 00 01 61 24 03 03", OPEN, 2, 0),  # a target 3
    ("05 00 25 00 1E 03 07", OPEN, 2, 0),  # a subscription is taken back that was never declared
]
SIZED = "07 00 41 09 02 0A 0A 40 00"  # a batch size of 64, which is taken

HANGS_UP = struct.pack("ii", 1, 0)  # a socket with this linger sends a RST as it is closed
EXPIRED, INVALID, GENERIC = 5, 2, 0
CLOSED = bytes([2, 0, pubsub.CLOSE | pubsub.WHOLE_SESSION, GENERIC])
AS_NOBODY = ["setpriv", "--reuid=65534", "--clear-groups"]  # a user who runs nothing else
LOW_PORT = 1
OWN_THREADS, MANY_THREADS = 4, 100  # of a router without links that has a log, and more than it needs here
STEP = 13  # bytes from one place of a fault to the next
PIDFD_GETFD = 438  # the system call that copies a descriptor of another process
GIVEN_UP = 30  # seconds within which a write fails to a client that takes nothing: two waits of 10 s, and some to fill its buffers
FILLINGS, FILLING = 600, b"." * 60_000  # samples that are more than a ring and the buffers of sockets hold
SCRIPT = HERE.parent / "examples" / "three_routers.script"


def malformed_bytes():
    """Each link whose bytes are malformed is closed with the reason of the first fault, behind what came before it; nobody else is harmed."""
    with Router("01") as router:
        subscriber = router.client("0b", 60)
        subscriber.subscribe("a")
        settle(subscriber)
        for ident, (text, state, why, samples) in enumerate(MALFORMED, 0x10):  # each of its own, since the last one may still be up
            with socket.create_connection(router.address, timeout=MOST_WAIT) as link:
                if state != NEW:
                    cookie = ask_to_open(link, ident)
                if state == OPEN:
                    open_with(link, cookie)
                link.sendall(bytes.fromhex(text))
                must(len([received(subscriber, 1) for _ in range(samples)]), samples, f"the samples of {text}")
                if why is None:
                    link.sendall(bytes([1, 0, 7]))  # a JOIN, which shows that it went on
                must(link.recv(16), bytes([2, 0, pubsub.CLOSE | pubsub.WHOLE_SESSION, why or INVALID]), f"the answer to {text}")
                must(link.recv(16), b"", f"what comes behind it, for {text}")
            until(lambda ident=ident: takes(router, f"{ident:02x}"), "the identifier can come again")
        with socket.create_connection(router.address, timeout=MOST_WAIT) as link:
            link.sendall(bytes.fromhex(SIZED))
            must(link.recv(64)[:10], bytes.fromhex("28 00 61 09 00 01 0A 40 00 20"), f"the answer to {SIZED}, up to the cookie")
        must(subscriber.receive(0.1), None, "what else is passed on")


def reset(link):
    link.setsockopt(socket.SOL_SOCKET, socket.SO_LINGER, HANGS_UP)
    link.close()


def told_of(router, line):
    """Reads the log up to this line."""
    until(lambda: router.logged()[1].endswith(f": {line}"), line)


def a_read_behind_the_up():
    """What came before is delivered, and the link goes down."""
    with Router("01", options=["--log"]) as router:
        subscriber, client = router.client("0a"), router.client("0b")
        subscriber.subscribe("a")
        settle(subscriber)
        client.subscribe("a")
        client.put("a", b"hi")
        must(received(subscriber, 1), [Sample("a", b"hi")], "what came before")
        reset(client.link)
        told_of(router, "end, client 0b: a read failed")
        until(lambda: takes(router, "0b"), "the identifier can come again")
        clients_hear_each_other(router)


def the_first_write():
    """The link never comes up."""
    with Router("01", options=["--log"]) as router:
        for _ in range(500):
            link = socket.create_connection(router.address)
            link.sendall(bytes([4, 0, pubsub.INIT, pubsub.VERSION, pubsub.CLIENT, 0x0A]))
            reset(link)  # often before the answer is written
            line = router.logged()[1]
            while not (cause := line.split(": end, unopened: ", 1)[1:]):
                line = router.logged()[1]
            if cause == ["a write failed"]:
                break
        else:
            raise Wrong("no write failed")
        clients_hear_each_other(router)


def a_write_of_the_writer():
    """The writer ends. The reader has gone on until then, and ends as the stream does, which is shut."""
    with Router("01", options=["--log"]) as router:
        stuck, publisher = router.client("0a"), router.client("0b")
        stuck.subscribe("a")
        settle(stuck)
        for _ in range(FILLINGS):
            publisher.put("a", FILLING)
        log, end = "", time.monotonic() + GIVEN_UP
        while log.count("end, client 0a: ") < 2 and time.monotonic() < end:
            for client in (stuck, publisher):
                with contextlib.suppress(OSError):  # the link may just have ended
                    client.keep_alive()
            log += router.told_yet(1)
        told = [line.split(": ", 1)[1] for line in log.splitlines() if "end, client 0a: " in line]
        must(told, ["writer end, client 0a: a write failed", "end, client 0a: the peer hung up"], "what is told of the link")
        clients_hear_each_other(router)


def nothing_a_silent_client():
    """A client with a lease of 10 s that is heard at 8 and at 16 s is closed at 26 s, and not before."""
    with Router("01") as router:
        client, began = router.client("0a", 10), time.monotonic()
        for moment in (8, 16):
            time.sleep(began + moment - time.monotonic())
            client.keep_alive()
        last = time.monotonic()
        client.link.settimeout(12)
        text = ending(lambda: [client.read_batch(Reader(client.wait_batch())) for _ in range(20)], "a silent client")
        passed = time.monotonic() - last
        must(reason(text), EXPIRED, "the reason")
        if not 9.9 <= passed <= 12:
            raise Wrong(f"it was closed {passed:.1f} s after it was heard")


def send(link, content):
    link.sendall(len(content).to_bytes(2, "little") + content)


def read(link):
    return link.recv(int.from_bytes(link.recv(2), "little"))


def ask_to_open(link, ident=0x0A):
    """Sends the INIT of a client, and gives the cookie that comes."""
    send(link, bytes([pubsub.INIT, pubsub.VERSION, pubsub.CLIENT, ident]))
    return read(link)[5:]  # behind the header, the version, the identifier's length, the identifier 01, and the cookie's length


def open_with(link, cookie):
    """Sends OPEN, and reads the answer."""
    send(link, bytes([pubsub.OPEN | pubsub.SECONDS, pubsub.LEASE_S, 0]) + pubsub.string(cookie))
    must(read(link)[0] & pubsub.KIND, pubsub.OPEN, "the answer to OPEN")


@contextlib.contextmanager
def program_of_nobody():
    """The program where that user can run it."""
    with tempfile.TemporaryDirectory() as place:
        os.chmod(place, 0o755)
        yield shutil.copy(Router.program[0], place)


@contextlib.contextmanager
def with_threads(count):
    """A router of that user, who may have so many threads."""
    program = Router.program
    with program_of_nobody() as copy:
        Router.program = ["prlimit", f"--nproc={count}:{MANY_THREADS}", *AS_NOBODY, copy]
        try:
            with Router("01", options=["--log"]) as router:
                yield router
        finally:
            Router.program = program


def a_port_that_is_not_allowed():
    """The cause is told before the line that it can't listen."""
    if int(pathlib.Path("/proc/sys/net/ipv4/ip_unprivileged_port_start").read_text()) <= LOW_PORT:
        return  # here each user may listen at it
    with program_of_nobody() as copy:
        at = f"127.0.0.1:{LOW_PORT}"
        ran = subprocess.run([*AS_NOBODY, copy, "serve", "--listen", at], capture_output=True, text=True, timeout=MOST_WAIT)
    told = f"listen {at}: permission denied\nlisten {at} failed\nzrd: no links can be accepted\n"
    must((ran.returncode, ran.stdout, ran.stderr), (6, "", told), "the end at a port of the system's")


def allow_threads(router):
    """The router may have many threads from now on."""
    subprocess.run([*AS_NOBODY, "prlimit", f"--pid={router.process.pid}", f"--nproc={MANY_THREADS}"], check=True)


def the_crew_asked_for_the_writer():
    """The link comes up and goes down, its peer is told so, and the router goes on."""
    with with_threads(OWN_THREADS + 1) as router:
        with socket.create_connection(router.address, timeout=MOST_WAIT) as link:
            open_with(link, ask_to_open(link))
            must(link.recv(16), CLOSED, "what a link without a writer is told")
            must(link.recv(16), b"", "what comes behind it")
        told_of(router, "up, client 0a")
        told_of(router, "end, client 0a: no thread could be started for it")
        allow_threads(router)
        clients_hear_each_other(router)


def the_crew_asked_by_serve():
    """Its peer is told so, and the router goes on."""
    with with_threads(OWN_THREADS) as router:
        with socket.create_connection(router.address, timeout=MOST_WAIT) as link:
            must(link.recv(16), CLOSED, "what a link without a reader is told")
            must(link.recv(16), b"", "what comes behind it")
        told_of(router, "end, unopened: no thread could be started for it")
        allow_threads(router)
        clients_hear_each_other(router)


def listener_of(router):
    """A copy of the socket at which it listens."""
    own, found = os.pidfd_open(router.process.pid), []
    for name in os.listdir(f"/proc/{router.process.pid}/fd"):
        copied = ctypes.CDLL(None).syscall(PIDFD_GETFD, own, int(name), 0)
        if stat.S_ISSOCK(os.fstat(copied).st_mode):
            found.append(socket.socket(fileno=copied))
        else:
            os.close(copied)
    os.close(own)
    must(len(found), 1, "the sockets of a router without links")
    return found[0]


def the_first_accept():
    """The router says so, and ends with 6."""
    with Router("01") as router:
        with listener_of(router) as listener:
            listener.shutdown(socket.SHUT_RDWR)
        told = "accept failed\nzrd: no links can be accepted\n"
        must((router.process.wait(MOST_WAIT), router.process.stderr.read()), (6, told), "the end where no accept is possible")


def a_read_of_net():
    """At each place: status 4, and what went out is a prefix of the report."""
    script, report = SCRIPT.read_bytes(), whole_report()
    for size in range(0, len(script), STEP):
        ours, theirs = os.openpty()
        tty.setraw(theirs)
        os.write(theirs, script[:size])
        os.close(theirs)  # what is read behind these bytes fails
        ran = subprocess.run([*Router.program, "net"], stdin=ours, capture_output=True, timeout=MOST_WAIT)
        os.close(ours)
        must((ran.returncode, ran.stderr), (4, b"zrd: standard input could not be read\n"), f"the end where the read behind {size} bytes fails")
        must(report.startswith(ran.stdout), True, "what went out is a prefix of the report")


def a_write_of_net():
    """At each place: status 5, and what went out is what the output took."""
    report = whole_report()
    for size in range(0, len(report), STEP):
        with tempfile.TemporaryFile() as out, SCRIPT.open() as script:

            def limited():
                signal.signal(signal.SIGXFSZ, signal.SIG_IGN)
                resource.setrlimit(resource.RLIMIT_FSIZE, (size, size))

            ran = subprocess.run([*Router.program, "net"], stdin=script, stdout=out, stderr=subprocess.PIPE, preexec_fn=limited, timeout=MOST_WAIT)
            out.seek(0)
            must((ran.returncode, ran.stderr), (5, b"zrd: an output could not be written\n"), f"the end where a write behind {size} bytes fails")
            must(out.read(), report[:size], "what went out")


def whole_report():
    with SCRIPT.open() as script:
        return subprocess.run([*Router.program, "net"], stdin=script, stdout=subprocess.PIPE, stderr=subprocess.DEVNULL, timeout=MOST_WAIT).stdout


FAILING = [
    *(a_read_behind_the_up, the_first_write, a_write_of_the_writer, nothing_a_silent_client, the_crew_asked_for_the_writer),
    *(the_crew_asked_by_serve, the_first_accept, a_port_that_is_not_allowed, a_read_of_net, a_write_of_net),
]


def failing_outsides():
    """Where a read, a write or a thread fails, each link and each script ends as it should, and the router goes on; it wants to be root."""
    for row in FAILING:
        try:
            row()
        except Wrong as e:
            raise Wrong(f"{row.__name__}: {e}") from e

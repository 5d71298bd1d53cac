#!/usr/bin/env python3
"""What a running router takes to read messages of one client: bench/sessions/router.py PROGRAM [MESSAGES]

Starts PROGRAM (crates/zr_top/out/zr_top) with `serve`, opens a session, sends batches of 60 pushes that nobody has subscribed to, and one push of
8 MiB in fragments again and again. Prints the router's processor time for each message, by `wait4`, of all its threads and of reading the socket.
"""
import os
import signal
import socket
import subprocess
import sys
import time

KEY = b"factory/line/7/temperature"
COOKIE = 32


def zint(value):
    out = b""
    while value >= 128:
        out += bytes([value & 127 | 128])
        value >>= 7
    return out + bytes([value])


def batch(content):
    return len(content).to_bytes(2, "little") + content


def receive(link):
    def exactly(count):
        out = b""
        while len(out) < count:
            out += link.recv(count - len(out)) or sys.exit("the router closed the link")
        return out

    return exactly(int.from_bytes(exactly(2), "little"))


def opened(port):
    """A session whose frames begin at 0."""
    for _ in range(100):
        try:
            link = socket.create_connection(("127.0.0.1", port))
            break
        except OSError:
            time.sleep(0.1)
    link.sendall(batch(bytes.fromhex("0109020A")))
    cookie = receive(link)[-COOKIE:]
    link.sendall(batch(bytes.fromhex("420A0020") + cookie))
    receive(link)
    return link


def push(length, numbered):
    key = b"\x5d\x01" if numbered else b"\x3d\x00" + zint(len(KEY)) + KEY
    return key + b"\x01" + zint(length) + b"a" * length


def pushes(length, numbered, count):
    body = push(length, numbered) * 60
    yield b"\x25\x00\x1e\x20\x01\x00" + zint(len(KEY)) + KEY
    for number in range(1, count // 60 + 1):
        yield b"\x25" + zint(number) + body


def fragments(length, count):
    yield b"\x25\x00\x1e\x20\x01\x00" + zint(len(KEY)) + KEY
    message, number = push(length, True), 0
    for _ in range(count):
        for start in range(0, len(message), 65_528):
            number += 1
            header = b"\x66" if start + 65_528 < len(message) else b"\x26"
            yield header + zint(number) + message[start : start + 65_528]


def measured(program, port, batches):
    """The router's processor seconds."""
    router = subprocess.Popen([program, "serve", "--id", "01", "--listen", f"127.0.0.1:{port}"], stdout=subprocess.DEVNULL)
    link = opened(port)
    for content in batches:
        link.sendall(batch(content))
    link.sendall(batch(b"\x23\x00"))
    # The router closes the link once it has read all.
    while link.recv(65_536):
        pass
    router.send_signal(signal.SIGTERM)
    used = os.wait4(router.pid, 0)[2]
    return used.ru_utime + used.ru_stime


def main():
    program, count = sys.argv[1], int((sys.argv[2:] or ["600000"])[0])
    port = 20_000 + os.getpid() % 20_000
    for length, numbered in [(16, True), (16, False), (1_024, True), (1_024, False)]:
        port += 1
        took = measured(program, port, pushes(length, numbered, count))
        print(f"push of {length} B, key {'numbered' if numbered else 'whole'}: {took / count * 1e9:.0f} ns")
    took = measured(program, port + 1, fragments(8_388_213, 60))
    print(f"push of 8,388,213 B in fragments: {took / 60 * 1e3:.2f} ms")


main()

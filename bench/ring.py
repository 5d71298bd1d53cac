#!/usr/bin/env python3
"""Writes a script of routers in a ring whose links break and come back: bench/ring.py [--routers N] [--breaks N] [--steps N].

Each router has a link to the next, both ends up, and the network comes to rest. Then, N times, the next link in turn breaks, both ends notice it,
the network comes to rest, the link comes back at both ends, and the network comes to rest again. Each rest is a `run` of at most --steps steps. At
the end one router's tables are told. There are no clients, so that records alone move.
"""
import argparse


def name(router):
    return f"{router + 1:04x}"


def main():
    words = argparse.ArgumentParser()
    words.add_argument("--routers", type=int, default=64)
    words.add_argument("--breaks", type=int, default=400)
    words.add_argument("--steps", type=int, default=12_000)
    given = words.parse_args()
    pairs = [(name(i), name((i + 1) % given.routers)) for i in range(given.routers)]
    for i in range(given.routers):
        print("router", name(i))
    for one, other in pairs:
        print(f"link {one} {other}\nup {one} {other}\nup {other} {one}")
    print(f"run {given.steps * 3}\nmark")
    for i in range(given.breaks):
        one, other = pairs[i % given.routers]
        print(f"break {one} {other}\ndown {one} {other}\ndown {other} {one}\nrun {given.steps}")
        print(f"link {one} {other}\nup {one} {other}\nup {other} {one}\nrun {given.steps}")
    print("mark\nshow", name(0))


if __name__ == "__main__":
    main()

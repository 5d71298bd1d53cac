#!/usr/bin/env python3
"""Writes a script of one router that gets declarations while clients have interests: bench/interests.py [--clients N] [--declarations M] [--apart].

N clients have an interest each, in what is declared later on keys of its own, `fleet/I/*`. Twenty-four others declare M subscribers, on `fleet/I/kJ`
by turns, so that each declaration is wanted by one client at most. With `--apart` the interests are in `aside/I/*`, so that none is wanted.
`zrd net --summary` tells how many messages were sent to clients.
"""
import argparse

DECLARERS = 24
KEYS = 1000
BATCH = 100
STEPS = 20000


def lines(clients, declarations, apart):
    yield "router 0a"
    names = [f"{0x1000 + i:04x}" for i in range(clients)]
    others = [f"{0x8000 + i:04x}" for i in range(DECLARERS)]
    for name in names + others:
        yield f"client {name} 0a"
    for i, name in enumerate(names):
        yield f"interest {name} 1 later sub {'aside' if apart else 'fleet'}/{i}/*"
    yield f"run {STEPS}"
    for j in range(declarations):
        yield f"sub {others[j % DECLARERS]} {j // DECLARERS + 1} fleet/{j % KEYS}/k{j}"
        if j % BATCH == BATCH - 1:
            yield f"run {STEPS}"
    yield f"run {STEPS}"


def main():
    words = argparse.ArgumentParser(description="Writes a script of one router that gets declarations while clients have interests.")
    words.add_argument("--clients", type=int, default=1000)
    words.add_argument("--declarations", type=int, default=10000)
    words.add_argument("--apart", action="store_true")
    given = words.parse_args()
    for line in lines(given.clients, given.declarations, given.apart):
        print(line)


if __name__ == "__main__":
    main()

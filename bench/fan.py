#!/usr/bin/env python3
"""Writes a script of samples that `fan` handles: bench/fan.py [--routers R] [--clients C] [--samples S] [--last LINE]

R routers in a tree, each linked with the one at half its number, and C clients, one router after another, each of which subscribes to everything. Once
the network is at rest, S samples are put, by one client after another, and all of them are under way when the last line comes.
"""
import argparse
import sys

sys.dont_write_bytecode = True
from networks import name, network


def subscribed(routers, clients):
    """The network, with each client subscribed to everything, at rest."""
    yield from network(routers, clients)
    for client in range(clients):
        yield f"sub {name(client, 'c')} 1 k0/**"
    yield "run 5000000"


def main():
    parser = argparse.ArgumentParser(description=__doc__, formatter_class=argparse.RawDescriptionHelpFormatter)
    parser.add_argument("--routers", type=int, default=64)
    parser.add_argument("--clients", type=int, default=1024)
    parser.add_argument("--samples", type=int, default=2000)
    parser.add_argument("--last", default="fan")
    told = parser.parse_args()
    for line in subscribed(told.routers, told.clients):
        print(line)
    for sample in range(told.samples):
        print(f"put {name(sample * 7 % told.clients, 'c')} k0/a/b/{sample} v{sample}")
    print(told.last)


if __name__ == "__main__":
    main()

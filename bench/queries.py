#!/usr/bin/env python3
"""Writes a script of queries: bench/queries.py [--routers R] [--clients C] [--queries Q] [--pending P [--any]]

R routers in a tree, each linked with the one at half its number, and C clients, one router after another. Every fifth client declares a queryable on a key
of its own. Then, in one phase, Q queries one after another, each by another client: a query is asked of one queryable, which replies once and ends, and
the network moves until nothing is under way.

With `--pending P` one client asks all of them and one answers, the oldest first, once P are pending: so from then on P are pending at each query.
With `--any` any of them ends next, by chance: the same at each run.
"""
import argparse
import random
import sys

sys.dont_write_bytecode = True
from networks import name, network


def queries(clients, count):
    queryables = range(0, clients, 5)
    for client in queryables:
        yield f"able {name(client, 'c')} 1 q/{client}"
    yield "run 1000000"
    yield "mark"
    for query in range(count):
        asked = queryables[query % len(queryables)]
        asker = (asked + 1 + query) % clients
        if asker == asked:
            asker = (asker + 1) % clients
        yield f"get {name(asker, 'c')} 1 q/{asked} all"
        yield "run 200"
        yield f"reply {name(asked, 'c')} 1 q/{asked} {query}"
        yield f"end {name(asked, 'c')} 1"
        yield "run 200"


def queries_pending(count, pending, any_next):
    chance = random.Random(7)
    asker, asked = name(1, "c"), name(0, "c")
    yield f"able {asked} 1 q"
    yield "run 1000000"
    yield "mark"
    for query in range(count):
        if query >= pending:
            # the numbers from 1 on are pending: a query takes the least that is free, which the one had that ended before it
            number = chance.randint(1, pending) if any_next else query % pending + 1
            yield f"reply {asked} {number} q {query}"
            yield f"end {asked} {number}"
            yield "run 200"
        yield f"get {asker} {query + 1} q all"
        yield "run 200"


def main():
    words = argparse.ArgumentParser(description=__doc__, formatter_class=argparse.RawDescriptionHelpFormatter)
    words.add_argument("--routers", type=int, default=64)
    words.add_argument("--clients", type=int, default=1024)
    words.add_argument("--queries", type=int, default=2000)
    words.add_argument("--pending", type=int, default=0)
    words.add_argument("--any", action="store_true")
    plan = words.parse_args()
    for line in network(plan.routers, plan.clients):
        print(line)
    asked = queries_pending(plan.queries, plan.pending, plan.any) if plan.pending else queries(plan.clients, plan.queries)
    for line in asked:
        print(line)


main()

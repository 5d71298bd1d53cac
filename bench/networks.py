"""Scripts of networks, for the benchmarks that measure `zrd net`."""


def name(number, letter):
    return f"{letter}{number:05x}"


def network(routers, clients):
    """Routers in a tree, each linked with the one at half its number, and clients, one router after another."""
    for router in range(1, routers + 1):
        yield f"router {name(router, 'a')}"
    for router in range(2, routers + 1):
        above = router // 2
        yield f"link {name(above, 'a')} {name(router, 'a')}"
        yield f"up {name(above, 'a')} {name(router, 'a')}"
        yield f"up {name(router, 'a')} {name(above, 'a')}"
    for client in range(clients):
        yield f"client {name(client, 'c')} {name(1 + client % routers, 'a')}"

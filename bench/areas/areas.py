"""Areas as databases for the other scripts: worked shapes, random areas, and the largest ones."""
from bench.reference.lsas import MAX_LINK_METRIC, POINT_TO_POINT, TRANSIT, address, network_lsa, router_lsa


def write(path, data):
    with open(path, "wb") as file:
        file.write(data)


def read(path):
    with open(path, "rb") as file:
        return file.read()


# worked shapes

def router(number):
    """Router 1 is 1.1.1.1 and so on."""
    return number * 0x01010101


def worked_links(links, lan, metrics):
    """The links of each router, by its number; a LAN is its address and the routers on it, each with its interface address on it."""
    found = {}
    for one, other in links:
        metric = metrics.get((one, other), 10)
        found.setdefault(one, []).append((router(other), other, POINT_TO_POINT, metric))
        found.setdefault(other, []).append((router(one), one, POINT_TO_POINT, metric))
    if lan:
        number, attached = lan
        for one in attached:
            found.setdefault(one, []).insert(0, (number, address("10.0.0.0") + one, TRANSIT, 10))
    return found


def worked(links, lan=None, metrics={}):
    """An area of point-to-point links, and of a LAN if one is given. A link from i to j has metric 10, if no other is given, and link data
    0.0.0.j at i."""
    found = worked_links(links, lan, metrics)
    data = b"".join(router_lsa(router(number), found[number]) for number in sorted(found))
    if lan:
        number, attached = lan
        designated = number - address("10.0.0.0")
        data += network_lsa(number, router(designated), 0xFFFFFF00, [router(designated)] + [router(each) for each in attached if each != designated])
    return data


def random_metric(random):
    """Mostly a small metric; now and then that of a link that is not for transit traffic, or the one below it."""
    return random.randint(1, 4) if random.random() < 0.95 else random.choice([MAX_LINK_METRIC, MAX_LINK_METRIC, MAX_LINK_METRIC - 1])


def without_transit(links):
    """A router's links, none of them for transit traffic, as those of a router in maintenance."""
    return [(to, data, kind, MAX_LINK_METRIC) for to, data, kind, _ in links]


def random_area(random):
    """Up to seven routers with links of any metrics, parallel ones among them, and now and then a LAN or a router in maintenance."""
    count = random.randint(1, 7)
    found = {number: [] for number in range(1, count + 1)}
    for data in range(random.randint(0, 2 * count)):
        if count > 1:
            one, other = random.sample(range(1, count + 1), 2)
            for here, there in ((one, other), (other, one)):
                found[here].append((router(there), data, POINT_TO_POINT, random_metric(random)))
    lans = []
    for number in range(random.randint(0, 2)):
        attached = random.sample(range(1, count + 1), random.randint(1, count))
        lan = address("10.0.0.0") + (number << 8) + attached[0]
        for one in attached:
            found[one].append((lan, address("10.0.0.0") + (number << 8) + one, TRANSIT, random_metric(random)))
        lans.append(network_lsa(lan, router(attached[0]), 0xFFFFFF00, [router(one) for one in attached]))
    if random.random() < 0.1:
        stub = random.randint(1, count)
        found[stub] = without_transit(found[stub])
    return b"".join(router_lsa(router(number), links) for number, links in found.items()) + b"".join(lans)


def random_ring(random):
    """A ring of three to seven routers with chords and any metrics, and now and then a LAN on some of them."""
    count = random.randint(3, 7)
    links = [(each, each % count + 1) for each in range(1, count + 1)]
    links += [tuple(random.sample(range(1, count + 1), 2)) for _ in range(random.randrange(4))]
    attached = random.sample(range(1, count + 1), random.randint(2, count))
    lan = (address("10.0.0.0") + attached[0], attached) if random.random() < 0.4 else None
    return worked(links, lan, {link: random_metric(random) for link in links})


# areas of routers 1 to n, of point-to-point links alone

def numbered(pairs, metric=lambda: 1):
    """The links of each router: neighbour, link data, type, metric. Link data is the link's number from 1, at both ends; the metric of each
    end is asked for in turn."""
    links = {}
    for number, (one, other) in enumerate(pairs, 1):
        links.setdefault(one, []).append((other, number, POINT_TO_POINT, metric()))
        links.setdefault(other, []).append((one, number, POINT_TO_POINT, metric()))
    return links


def database(links):
    """The router-LSAs, by ascending router."""
    return b"".join(router_lsa(each, links[each]) for each in sorted(links))


def shuffled(links, random):
    """The router-LSAs and their links in any order."""
    routers = list(links)
    random.shuffle(routers)
    for each in routers:
        random.shuffle(links[each])
    return b"".join(router_lsa(each, links[each]) for each in routers)


def circle(n):
    """Each of n routers linked to the four next ones; 4,096 make the largest area, with 32,768 arcs."""
    return [(each, (each - 1 + step) % n + 1) for each in range(1, n + 1) for step in range(1, 5)]


def bundles(n):
    """Eight routers in pairs, each pair with n parallel links."""
    return [(pair, pair + 1) for pair in (1, 3, 5, 7) for _ in range(n)]


def star(n):
    """n routers, router 1 in the middle."""
    return [(1, each) for each in range(2, n + 1)]


def grid(n, wide):
    """A grid with so many routers in a row: each is linked to the next one in its row and to the one below it."""
    return [(each, each + 1) for each in range(1, n) if each % wide] + [(each, each + wide) for each in range(1, n + 1 - wide)]


def draws(number):
    """A stream of numbers below 32,768."""
    while True:
        number = (number * 1103515245 + 12345) % 2147483648
        yield number // 65536


def survey_pairs(number, nodes, stream):
    """A ring of four fifths of the routers with a chord for each fourth one; each other router hangs on a ring router of its own."""
    spurs = nodes // 5
    ring = nodes - spurs
    for each in range(ring):
        yield each + 1, (each + 1) % ring + 1
    for each in range(ring // 4):
        yield 4 * each + 1, (4 * each + 2 + next(stream) % (ring - 3)) % ring + 1
    for each in range(spurs):
        yield ring + 1 + each, (3 * each + number) % ring + 1


def survey_area(number, nodes):
    """The area of these pairs. Chords and metrics come from one stream, in the order of the links."""
    stream = draws(number)
    return database(numbered(survey_pairs(number, nodes, stream), lambda: 1 + next(stream) % 64))

"""What parts an area, by hand and beside a plain search."""
import unittest
from random import Random

from mrttools import area, lsas
from mrttools.area import Area, Bond, Node
from mrttools.page import cuts
from mrttools.page.cuts import Cut
from tests.making import network_lsa, router_lsa


def name(number: int) -> str:
    return f"10.255.0.{number}"


def node(number: int) -> Node:
    return area.node_of(name(number))


def lan_of(number: int) -> Node:
    return area.node_of(f"198.51.{number}.1")._replace(kind=lsas.NETWORK)


def area_of(links: list[tuple[int, int]], lans: list[list[int]] = [], metrics: list[int] = [10]) -> Area:
    """An area of links, the same two routers as often as they stand there, and of LANs."""
    return area.area_of(map(lsas.lsa_of, records_of(links, lans, metrics)))


def records_of(links: list[tuple[int, int]], lans: list[list[int]], metrics: list[int]) -> list[bytes]:
    """LSAs. Metrics are taken in turn, for the first end of a link and then the second."""
    found: dict[int, list[tuple[str, str, int, int]]] = {}
    for place, (one, other) in enumerate(links):
        for number, (here, far) in enumerate([(one, other), (other, one)]):
            metric = metrics[(2 * place + number) % len(metrics)]
            found.setdefault(here, []).append((name(far), f"10.0.{place}.{here}", 1, metric))
    for place, attached in enumerate(lans):
        for here in attached:
            metric = metrics[(here + place) % len(metrics)]
            found.setdefault(here, []).append((f"198.51.{place}.1", f"198.51.{place}.{here}", 2, metric))
    return [router_lsa(name(each), found[each]) for each in sorted(found)] + [
        network_lsa(f"198.51.{place}.1", name(attached[0]), map(name, attached))
        for place, attached in enumerate(lans)
    ]


def points(whole: Area) -> list[Cut]:
    return cuts.single_points(whole.nodes, whole.bonds)


class ByHand(unittest.TestCase):
    def test_a_line(self) -> None:
        found = points(area_of([(1, 2), (2, 3)]))
        self.assertEqual([cut.pairs for cut in found], [4, 4, 2])
        self.assertEqual([isinstance(cut.element, Bond) for cut in found], [True, True, False])
        self.assertEqual(found[2].element, node(2))
        self.assertEqual(found[0].sides, [[node(2), node(3)], [node(1)]])

    def test_a_star_has_a_side_for_each_leaf(self) -> None:
        hub = points(area_of([(1, 2), (1, 3), (1, 4)]))[0]
        self.assertEqual((hub.element, hub.pairs, len(hub.sides)), (node(1), 6, 3))

    def test_a_ring_has_none(self) -> None:
        self.assertEqual(points(area_of([(1, 2), (2, 3), (1, 3)])), [])

    def test_parallel_links_part_nothing(self) -> None:
        self.assertEqual(points(area_of([(1, 2), (1, 2)])), [])

    def test_a_lan_is_a_single_point(self) -> None:
        whole = area_of([], [[1, 2, 3]])
        lan = points(whole)[0]
        self.assertEqual((lan.element, lan.pairs, len(lan.sides)), (lan_of(0), 6, 3))
        self.assertEqual(len(points(whole)), 4)

    def test_a_lan_with_one_router_parts_no_routers(self) -> None:
        self.assertEqual(points(area_of([(1, 2), (1, 2)], [[1]])), [])

    def test_a_parallel_link_that_one_end_tells_goes_on_one_way(self) -> None:
        one = router_lsa("1.1.1.1", [("2.2.2.2", "10.0.0.1", 1, 1), ("2.2.2.2", "10.0.0.5", 1, 1)])
        other = router_lsa("2.2.2.2", [("1.1.1.1", "10.0.0.2", 1, 1)])
        whole = area.area_of(map(lsas.lsa_of, [one, other]))
        self.assertEqual([cut.pairs for cut in points(whole)], [1])


def connected(whole: Area, gone: Node | Bond | None) -> set[tuple[Node, Node]]:
    """The pairs of routers that a walk joins without what is gone, by a plain search."""
    near: dict[Node, set[Node]] = {each: set() for each in whole.nodes}
    for bond in whole.bonds:
        if bond != gone:
            near[bond.a].add(bond.b)
            if bond.two_way:
                near[bond.b].add(bond.a)
    routers = [each for each in whole.nodes if each.kind == lsas.ROUTER and each != gone]
    pairs = set()
    for start in routers:
        found, waiting = {start}, [start]
        while waiting:
            for far in [each for each in near[waiting.pop()] - found if each != gone]:
                found.add(far)
                waiting.append(far)
        pairs |= {(start, far) for far in found if far.kind == lsas.ROUTER and far != start}
    return pairs


def random_area(random: Random) -> Area:
    count = random.randint(2, 8)
    routers = range(1, count + 1)
    links = [(one, other) for one, other in (random.sample(routers, 2) for _ in range(random.randint(1, 2 * count)))]
    lans = [random.sample(routers, random.randint(1, count)) for _ in range(random.choice([0, 0, 1, 2]))]
    return area_of(links, lans)


class BesideAPlainSearch(unittest.TestCase):
    def test_random_areas(self) -> None:
        random, seen = Random(55), 0
        for _ in range(240):
            whole = random_area(random)
            before, found = connected(whole, None), {cut.element: cut for cut in points(whole)}
            elements: list[Node | Bond] = [*whole.nodes, *whole.bonds]
            for element in elements:
                parted = {pair for pair in before - connected(whole, element) if element not in pair}
                self.assertEqual(found[element].pairs if element in found else 0, len(parted))
                seen += element in found
        self.assertGreater(seen, 300)

    def test_sides(self) -> None:
        """Routers of one side are joined without what has failed, and those of two are not."""
        random = Random(56)
        for _ in range(60):
            whole = random_area(random)
            if any(not bond.two_way for bond in whole.bonds):
                continue
            for cut in points(whole):
                joined = connected(whole, cut.element)
                for one, side in cut.side_of().items():
                    for other, its in cut.side_of().items():
                        self.assertEqual((one, other) in joined, side == its and one != other)

"""What the lab reads from daemons, and how it compares. The lab itself is run by hand."""
import unittest
from functools import partial
from unittest import mock
from xml.etree import ElementTree

from mrttools import lsas, updates
from mrttools.agent.sniffer import DaemonView, instance_of
from mrttools.lab import agents, bars, dropped, failures, forwarding, hostile, network, outcomes, outside, pings
from mrttools.lab import primaries, static_routes
from mrttools.lab.daemons import Bird, Frr, Running
from mrttools.lab.pings import Counted
from mrttools.lab.plans import PLANS, SHARED_BY
from mrttools.lsas import lsa_of
from mrttools.router.owners import owners_of
from tests.making import router_lsa

NOTHING = Running([], "")

FRR_ROUTES = """{"10.255.0.2/32": {"routeType": "N", "cost": 10, "area": "0.0.0.0",
  "nexthops": [{"ip": "10.0.12.2", "via": "to-r2"}, {"ip": "10.0.16.6", "via": "to-r6"}]},
 "198.51.100.0/24": {"routeType": "N", "cost": 5, "area": "0.0.0.0",
  "nexthops": [{"ip": " ", "directly attached to": "to-lan", "directlyAttachedTo": "to-lan"}]}}"""

BIRD_ROUTES = """BIRD 2.0.12 ready.
Table master4:
10.255.0.2/32        unicast [lab 02:00:00.000] * I (150/10) [10.255.0.2]
\tvia 10.0.12.2 on to-r2 weight 1
\tvia 10.0.16.6 on to-r6 weight 1
198.51.100.0/24      unicast [lab 02:00:00.000] * I (150/5) [10.255.0.7]
\tdev to-lan
"""

ROUTES = {"10.255.0.2/32": {("to-r2", "10.0.12.2"), ("to-r6", "10.0.16.6")}, "198.51.100.0/24": {("to-lan", "")}}

TABLE = """router 10.255.0.1 root 10.255.0.2 nodes 10 links 12
10.255.0.2 head blue 10.255.0.6/10.0.16.1 red 10.255.0.2/10.0.12.1 primary 10.255.0.2/10.0.12.1 repair b-
10.255.0.4 unordered blue 10.255.0.2/10.0.12.1 red 10.255.0.6/10.0.16.1 primary 10.255.0.9/10.0.19.1 repair bb
"""


def trace(first: str, _: str) -> str:
    return f"entered 0\n{first}\n"


class Daemons(unittest.TestCase):
    def asked(self, kind: type, text: str) -> Frr | Bird:
        """A daemon that answers every question with one text."""
        daemon = kind()
        daemon.ask = lambda running, question: text
        return daemon

    def test_routes(self) -> None:
        self.assertEqual(self.asked(Frr, FRR_ROUTES).routes(NOTHING), ROUTES)
        self.assertEqual(self.asked(Bird, BIRD_ROUTES).routes(NOTHING), ROUTES)

    def test_no_answer(self) -> None:
        for kind in (Frr, Bird):
            self.assertEqual(self.asked(kind, "").routes(NOTHING), {})


class Comparing(unittest.TestCase):
    def results(self, routes: primaries.Routes) -> list[primaries.Result]:
        table = "\n".join(TABLE.splitlines()[:2])
        return list(primaries.compare(1, table, partial(trace, "delivered 10.255.0.2"), routes))

    def test_the_same(self) -> None:
        results = self.results({"10.255.0.2/32": {("to-r2", "10.0.12.2")}})
        self.assertTrue(results[0].same)
        self.assertEqual(primaries.report(results, "D"), ["primaries: 1 of 1 are the one next hop of D"])

    def test_one_of_several(self) -> None:
        results = self.results(ROUTES)
        self.assertTrue(results[0].one_of_several and not results[0].same)
        self.assertEqual(len(primaries.report(results, "D")), 2)

    def test_different(self) -> None:
        results = self.results({"10.255.0.2/32": {("to-r6", "10.0.16.6")}})
        self.assertFalse(results[0].same or results[0].one_of_several)
        line = "different: from 10.255.0.1 to 10.255.0.2: mrt to-r2/10.255.0.2, D to-r6/10.255.0.6"
        self.assertIn(line, primaries.report(results, "D"))

    def test_no_route(self) -> None:
        self.assertTrue(primaries.report(self.results({}), "D")[-1].endswith("D no route"))

    def test_a_network_that_is_attached(self) -> None:
        line = "net:198.51.100.7 head blue a/0.0.0.1 red b/0.0.0.2 primary net:198.51.100.7/198.51.100.3 repair b-"
        (result,) = primaries.compare(3, f"head\n{line}", partial(trace, "delivered net:198.51.100.7"), ROUTES)
        self.assertEqual((result.primary, result.same), (("to-lan", None), True))


class TheNetwork(unittest.TestCase):
    def test_interfaces_meet(self) -> None:
        for router in network.ROUTERS:
            for interface in network.interfaces(router):
                self.assertEqual(network.owner(interface.address), router)
                others = [far for far in network.interfaces(interface.far or 3) if far.prefix == interface.prefix]
                self.assertEqual(len(others), 1)

    def test_names_fit_the_kernel(self) -> None:
        self.assertTrue(all(len(each.name) < 16 for router in network.ROUTERS for each in network.interfaces(router)))


class Failures(unittest.TestCase):
    """What fails in the lab, and the picture of it."""

    def test_each_link_router_and_port(self) -> None:
        found = list(failures.failures(network.PLAN))
        self.assertEqual(len({failure.name for failure in found}), len(found))
        self.assertEqual(sum(bool(failure.router) for failure in found), 9)
        ports = next(failure.ports for failure in found if failure.element == "10.255.0.7")
        self.assertEqual(len(ports), 3)
        for plan in PLANS.values():
            for failure in failures.failures(plan):
                self.assertTrue(failure.ports and failure.router not in plan.maintenance)

    def test_networks_hang_together_without_the_router_that_joins(self) -> None:
        for plan in PLANS.values():
            found = {next(router for router in plan.routers if router != plan.joiner)}
            for _ in plan.routers:
                found |= {one for wire in plan.wires if found & set(wire.metrics) for one in wire.metrics}
                found.discard(plan.joiner)
            self.assertEqual(found | {plan.joiner}, set(plan.routers), plan.name)

    def test_names_and_addresses_are_one_each(self) -> None:
        for plan in PLANS.values():
            for router in plan.routers:
                found = plan.interfaces(router)
                self.assertEqual(len({each.name for each in found}), len(found))
                self.assertTrue(all(len(each.name) < 16 for each in found))
            self.assertEqual(len({wire.net for wire in plan.wires}), len(plan.wires))

    def test_what_is_wrong(self) -> None:
        counted = Counted({(1, 2): 0, (1, 3): 1, (2, 1): 2, (2, 3): 9, (3, 1): 0}, 5, 5, 5, 0)
        self.assertEqual(forwarding.wrong_pairs(counted, {(2, 3), (3, 1)}, 1), {(2, 1), (3, 1)})

    def test_a_network_in_a_line(self) -> None:
        """It has the failures that part no pair."""
        one, other = list(failures.failures(network.PLAN))[:2]
        rows = [
            forwarding.Row(one, 1000, 2, 90, set(), set(), 7, (0, 0, 0), 1),
            forwarding.Row(other, 1000, 500, 500, {(1, 8)}, set(), 7, (0, 0, 0), 1),
        ]
        head, line = forwarding.networks({"lab": rows})
        self.assertEqual(line.split(), ["lab", "2", "1", "1,000", "2", "90", "1"])
        self.assertEqual(len(head), len(line))

    def test_pings_to_an_address_that_two_routers_have(self) -> None:
        """It is lost where both are parted."""
        plan = network.PLAN._replace(shared=(3, 8))
        failure = next(failure for failure in failures.failures(plan) if failure.element == "10.255.0.5")
        self.assertEqual(len(failures.pinged(plan, 5)), 56 + 6)
        self.assertEqual(len(failures.pinged(plan, 3)), 56 + 7)
        with mock.patch.object(forwarding, "lost_by_mrt", lambda *_: {(1, 8), (2, 8), (2, 3)}):
            parted = forwarding.parted_pairs(mock.Mock(), plan, failure)
            self.assertEqual(parted, {(1, 8), (8, 1), (2, 8), (8, 2), (2, 3), (3, 2), (2, network.SHARED)})

    def test_static_routes_of_frr_that_word_takes_away(self) -> None:
        """Those whose next hop is gone, of the primaries alone, in the words of FRR."""
        lab = mock.Mock(running={3: Running([], "/r3"), 4: Running([], "/r4")})
        installed = static_routes.Static(mock.Mock(plan=network.PLAN), mock.Mock(), "", [], lab)
        primary, row = (
            "ip route 10.255.0.7/32 198.51.100.7 to-lan",
            "ip route 10.255.0.7/32 198.51.100.7 to-lan table 7811",
        )
        other = "ip route 10.255.0.2/32 198.51.100.70 to-lan"
        installed.configurations = {3: f"{primary}\n{row}\n{other}\n", 4: f"{other}\n"}
        gone = installed.primaries_by(["198.51.100.7"])
        self.assertEqual(gone, {3: [primary], 4: []})
        with mock.patch.object(forwarding.subprocess, "Popen") as begun:
            (batch,) = installed.ready("del", gone)
            self.assertEqual(batch.text, f"configure terminal\nno {primary}\n")
            self.assertEqual(begun.call_args.args[0], ["vtysh", "--vty_socket", "/r3", "-d", "staticd"])
            self.assertEqual(installed.ready("replace", gone)[0].text, f"configure terminal\n{primary}\n")
        # Word takes a while, and on a link of two routers there is none.
        port = next(failure for failure in failures.failures(network.PLAN) if failure.gone)
        self.assertEqual(
            [installed.in_flight(each) for each in (port, port._replace(gone=[]))], [static_routes.UNTIL_WORD, 1]
        )

    def test_the_picture(self) -> None:
        picture = bars.svg("<lab>", [bars.Bar("link r1-r2", 0, 1500, 0), bars.Bar("router r5", 9, 10, 4)])
        root = ElementTree.fromstring(picture)
        self.assertIn("0 of 1,500", picture)
        self.assertEqual(len(root.findall(".//{http://www.w3.org/2000/svg}rect")), 5)
        ElementTree.fromstring(bars.svg("none", []))


class Changes(unittest.TestCase):
    def test_the_wires_of_a_change(self) -> None:
        """Those of a link of two routers, and of a router with the far ends of its links; from when until when they are
        down is kept."""
        held = mock.Mock(network=mock.Mock(plan=network.PLAN), down=[])
        with mock.patch.object(agents, "do_at_once"), mock.patch.object(agents, "Batch") as batch:
            with mock.patch.object(agents.time, "time", side_effect=[5.0, 6.0, 7.0]):
                agents.wires(held, "down", "link r4-r5", "router r6")
                ports = held.network.group.call_args_list[0].args[0]
                self.assertEqual(batch.call_args.args[1], ["link set group 99 down"])
                agents.wires(held, "up", "link r4-r5")
        self.assertEqual(sorted(ports), ["p2-4", "p2-5", "p3-5", "p3-6", "p4-1", "p4-6"])
        self.assertEqual(held.network.group.call_args_list[1].args, (ports, 0))
        until = {each.port: each.until for each in held.down if each.since == 5.0}
        self.assertEqual((len(until), until["p2-4"], until["p2-5"], until["p3-5"]), (6, 7.0, 7.0, float("inf")))

    def test_pings_while_something_changes(self) -> None:
        """All pairs are pinged and watched from before the change until all have settled, but those of routers that are
        away."""
        course: list[str] = []
        changing = agents.Change("one goes", lambda: course.append("change"), (6,), (6, 9))
        held = mock.Mock(network=mock.Mock(plan=network.PLAN))
        held.wait.side_effect = lambda out: course.append(f"settled without {out}")

        def began(*_: object) -> mock.Mock:
            course.append("pings")
            return mock.Mock(end=lambda: course.append("end"))

        def watches(*_: object) -> mock.Mock:
            course.append("watch")
            return mock.Mock(end=lambda down, counted: course.append("watched"))

        with mock.patch.object(agents, "Pinging") as pinging, mock.patch.object(agents, "Watch", watches):
            with mock.patch.object(agents.time, "sleep"):
                pinging.side_effect = began
                agents.pinged(held, changing)
        self.assertEqual(course, ["watch", "pings", "change", "settled without (6,)", "end", "watched"])
        chosen = pinging.call_args.args[1]
        self.assertEqual((len(chosen), {6, 9} & {one for pair in chosen for one in pair}), (42, set()))

    def test_a_large_network_is_pinged_less_often(self) -> None:
        self.assertEqual([pings.gap_of(pairs) for pairs in (2, 72, 90, 240)], [10, 10, 10, 27])

    def test_what_a_change_cost(self) -> None:
        lost = [
            dropped.Lost(7.5 + place / 8, 1, 2, False, 3, None, cause, "so")
            for place, cause in enumerate([dropped.DAEMONS] * 5 + [dropped.AGENTS, dropped.FAILURE])
        ]
        pinged = outcomes.Pinged(7.0, Counted({(1, 2): 3, (2, 1): 4}, 9, 9, 9, 5), lost)
        bare = outcomes.Pinged(5.0, Counted({(1, 2): 8}, 9, 9, 9, 8), [])
        row = outcomes.Row("one goes", {1: 4, 2: 0, 3: 481}, {1: (0.1, 0.4), 3: (0.34, 1.26)}, pinged, bare)
        self.assertEqual(row.cells, ("one goes", "2", "485", "0.3", "1.3", "0.9", "7", "8"))
        told = "agent: with agents 7 pings were lost, 1 of them by an agent, and 5 packets circled; without them 8 and 8"
        self.assertEqual(outcomes.circled([row]), told)
        self.assertEqual([line.split()[-3:] for line in outcomes.times([row], [1, 2, 3])][1:], [
            ["r1", "r2", "r3"],
            ["0.4/0.3", "-", "1.3/0.9"],
        ])
        self.assertEqual(list(outcomes.losses([row]))[1].split()[2:], ["1", "5", "0", "1", "0", *["0"] * 5])
        record = row.told()
        self.assertEqual(record["routers"]["r3"], {"changes": 481, "word": 0.34, "tables": 1.26})
        self.assertEqual(record["routers"]["r2"], {"changes": 0})
        found = record["lost"]["with"]
        self.assertEqual((found["counted"], found["by"]["agents"], found["pings"][0]["at"]), (7, 1, 0.5))
        # (of one kind so many are told)
        self.assertEqual(len(found["pings"]), outcomes.SHOWN + 2)

    def test_an_answer_that_comes_late_is_no_loss(self) -> None:
        spaces = mock.Mock(plan=network.PLAN)
        with mock.patch.object(pings.subprocess, "Popen") as begun, mock.patch.object(pings.Pinging, "counters"):
            pings.Pinging(spaces, [(1, 2), (1, 3)], 5)
        words = begun.call_args.args[0]
        self.assertGreater(int(words[words.index("-t") + 1]), int(words[words.index("-p") + 1]))


class Harm(unittest.TestCase):
    """The router that tells what is made to harm."""

    def test_its_configuration(self) -> None:
        lines = hostile.Hostile().configuration(network.PLAN, hostile.ROUTER_NUMBER).splitlines()
        self.assertEqual(lines[0], "router id 8.8.8.8;")
        area = lines.index("    area 0 {")
        stubs = [f"        stubnet {each};" for each in (*hostile.NETWORKS, hostile.GOOD)]
        self.assertEqual(lines[area + 1 : area + 1 + len(stubs)], stubs)
        self.assertEqual(len([line for line in lines if "stubnet" in line]), len(stubs))
        self.assertFalse(any("protocol kernel" in line for line in lines))
        self.assertEqual(sum("interface" in line for line in lines), 1)

    def test_what_it_sends(self) -> None:
        """An update that a router takes, with newer instances: one that mrt does not take, and one of a neighbor elsewhere."""
        before = lsa_of(router_lsa("8.8.8.8", [("1.1.1.1", "10.0.0.1", 1, 7), ("10.9.0.0", "255.255.0.0", 3, 5)]))
        records = [hostile.changed(before, metric=0), hostile.changed(before, data=lsas.address(hostile.OFF))]
        packet = updates.packet_of(updates.made(lsas.address(hostile.IDENTIFIER), records))
        after = list(updates.records_of(packet))
        self.assertEqual((packet.kind, lsas.spelled(packet.router)), (updates.UPDATE, "8.8.8.8"))
        for each in after:
            self.assertIsNone(lsas.damage(each))
            self.assertEqual((each.key, each.sequence), (before.key, before.sequence + 1))
        said = [[(link.metric, lsas.spelled(link.data)) for link in lsas.links_of(each.record)] for each in after]
        stub = (5, "255.255.0.0")
        self.assertEqual(said, [[(0, "10.0.0.1"), stub], [(7, hostile.OFF), stub]])

    def test_a_network_in_the_place_of_a_loopback(self) -> None:
        """The router's link to it, and its list of routers, so that it is one of the area."""
        before = lsa_of(router_lsa("8.8.8.8", [("10.255.0.5", "10.0.58.8", 1, 7)]))
        with_it, network = lsa_of(hostile.with_network(before)), lsa_of(hostile.network_lsa())
        self.assertEqual(hostile.with_network(with_it)[lsas.HEADER :], with_it.record[lsas.HEADER :])
        self.assertEqual((lsas.damage(with_it), lsas.damage(network)), (None, None))
        self.assertEqual(lsas.routers_of(network.record), [before.router])
        (owners,) = owners_of([network]).values()
        self.assertEqual([prefix.text for prefix in owners_of([network])], ["10.255.0.9/32"])
        self.assertEqual(list(owners.values()), [0])
        self.assertIn(network.number, [link.far for link in lsas.links_of(with_it.record)])

    def test_an_lsa_to_be_taken_for_another_one(self) -> None:
        """By number and checksum it is the one that a daemon lists; and it comes in a packet of a neighbor."""
        links = [("10.255.0.1", "10.0.12.2", 1, 10), ("10.255.0.2", "255.255.255.255", 3, 0)]
        true = lsa_of(router_lsa("10.255.0.2", links))
        made = lsa_of(outside.forged(true))
        self.assertTrue(DaemonView({true.key: instance_of(true)}, {}, frozenset()).has(made))
        self.assertIsNone(lsas.damage(made))
        self.assertNotEqual(made.text, true.text)
        data = outside.datagram([made.record])
        self.assertEqual((data[8], updates.internet_sum(data[:20])), (1, 0xFFFF))
        packet = updates.packet_of(data[20:])
        self.assertEqual((lsas.spelled(packet.router), list(updates.records_of(packet))), ("10.255.0.2", [made]))

    def test_lsas_without_end(self) -> None:
        made = [lsa_of(each) for each in outside.empty(300)]
        self.assertEqual((len({each.key for each in made}), {lsas.damage(each) for each in made}), (300, {None}))
        self.assertLessEqual(len(outside.datagram(each.record for each in made[: outside.IN_A_PACKET])), 1500)


class Configurations(unittest.TestCase):
    def test_a_router_in_maintenance(self) -> None:
        plan = PLANS["stubs"]
        said: list[tuple[Frr | Bird, str]] = [(Frr(), " max-metric router-lsa administrative")]
        for daemon, words in [*said, (Bird(), "    stub router yes;")]:
            self.assertIn(words, daemon.configuration(plan, 10).splitlines())
            self.assertNotIn(words, daemon.configuration(plan, 1).splitlines())

    def test_bird_puts_its_routes_into_the_kernel(self) -> None:
        lines = Bird().configuration(network.PLAN, 1).splitlines()
        self.assertIn("protocol kernel { ipv4 { export all; }; }", lines)

    def test_an_address_that_two_routers_have(self) -> None:
        plan = PLANS["grid"]._replace(shared=SHARED_BY["grid"])
        for router in (6, 7):
            wanted = ["10.255.0.254/32"] if router in plan.shared else []
            self.assertEqual(plan.loopbacks(router), [f"10.255.0.{router}/32", *wanted])
            stubs = [line for line in Bird().configuration(plan, router).splitlines() if "stubnet" in line]
            self.assertEqual(len(stubs), 1 + len(wanted))

    def test_one_delay_in_all_routers(self) -> None:
        daemon = Frr()
        self.assertNotIn("throttle", daemon.configuration(network.PLAN, 1))
        daemon.spf_delay = 500
        self.assertIn(" timers throttle spf 500 500 500", daemon.configuration(network.PLAN, 1).splitlines())

    def test_on_a_lan_one_router_may_be_designated(self) -> None:
        for router, priority in ((7, 1), (3, 0)):
            self.assertIn(f" ip ospf priority {priority}", Frr().configuration(network.PLAN, router).splitlines())
            self.assertIn(f"broadcast; priority {priority};", Bird().configuration(network.PLAN, router))

"""What the agent makes of changes, with a kernel, a source of LSAs and a clock that stand in."""
import json
import os
import time
import unittest
from collections import deque
from unittest import mock

from mrttools.agent import batch, generations
from mrttools.agent.batch import NOTHING
from mrttools.agent.debounce import OFTEN
from mrttools.agent.generations import KEPT, PAUSE, TURN
from mrttools.agent.inputs import MOST_PASSED, PROFILE_WATCHED, ROUTE_KEPT, ROUTES_EVERY, ROUTES_SELDOM
from mrttools.agent.loop import RETRY
from mrttools.agent.netlink import News
from mrttools.agent.sources import SILENT, Snapshot
from mrttools.lab.network import router_id
from mrttools.lsas import address, lsa_of, sealed, split
from mrttools.router import kernel, table
from tests.kernels import PLAN
from tests.making import MRT, router_lsa
from tests.networks import lsas_of
from tests.standing import LINGER, WithAgent, told_links


@unittest.skipUnless(os.path.exists(MRT), "the program is not built")
class Changes(WithAgent):
    def test_a_kernel_that_is_not_ready(self) -> None:
        """It is tried again."""
        agent = self.agent()
        agent.begun = False
        with mock.patch.object(self.router, "mark", side_effect=batch.Refusal("nft: no")):
            self.router.nft = agent.marks = ""
            self.step(agent, 5)
        self.assertIn("nft: no", agent.fault)
        self.settle(agent)
        self.step(agent, RETRY + 1, 0.3)
        self.assertEqual((agent.fault, self.router.state()), ("", self.by_fib()))

    def test_from_its_first_start_no_color_falls_through(self) -> None:
        """Before there is any table each of the sixteen marks leads to a table of its own, which ends."""
        self.agent()
        self.assertEqual(self.router.state(), batch.bare())
        self.assertEqual(sum("unreachable default" in line for line in self.router.state()), 16)
        self.assertEqual(sum(" meta mark set " in line for line in self.router.nft.splitlines()), 16)

    def test_the_table_is_that_of_fib(self) -> None:
        agent = self.agent()
        self.settle(agent)
        self.assertEqual(self.router.state(), self.by_fib())
        self.assertEqual(set(self.repairs()), {f"{router_id(each)}/32" for each in (2, 3, 4)})
        self.assertIn("agent: accepted root 10.255.0.4 nodes 4 links 6", self.told)
        self.assertEqual((self.router.batches, self.step(agent, 9, 9)), (2, []))

    def test_a_change_waits_for_quiet(self) -> None:
        agent = self.agent()
        self.step(agent, 0.1)
        self.without_link(2, 3)
        self.assertEqual(self.step(agent, 0.15), [])
        self.assertTrue(self.step(agent, 0.1))

    def test_new_tables_come_beside_the_old_ones(self) -> None:
        """Repairs turn in one batch, and the old rows go after a while."""
        agent = self.agent()
        self.settle(agent)
        (first,), before = self.colors(), self.router.state()
        self.without_link(2, 3)
        batches = self.router.batches
        self.settle(agent)
        self.assertEqual((self.router.batches, len(self.colors())), (batches + 1, 2))
        new = self.by_fib()
        self.assertLess(new, self.router.state())
        rows = {line for line in before if generations.generation_of(line) == first and not batch.is_repair(line)}
        self.assertLess(rows, self.router.state())
        self.assertTrue(all(generations.generation_of(line) != first for line in self.repairs().values()))
        self.step(agent, LINGER - 1)
        self.assertEqual(len(self.colors()), 2)
        self.step(agent, 2)
        self.assertEqual(self.router.state(), new)

    def test_what_lost_a_link_itself_turns_later(self) -> None:
        """Its repairs carry packets now, and the others may have no new rows yet."""
        agent = self.agent()
        self.settle(agent)
        before = self.repairs()
        self.without_link(1, 2)
        self.settle(agent)
        self.assertEqual((self.repairs(), len(self.colors())), (before, 2))
        # (a look at the kernel meanwhile is no change of it)
        self.router.told = News(rules=True)
        self.step(agent, TURN - 0.1)
        self.router.told = News(rules=True)
        self.step(agent, ROUTES_EVERY)
        self.assertEqual(self.repairs().items() & before.items(), set())
        self.assertLess(self.by_fib(), self.router.state())

    def test_a_link_that_is_away_is_no_customers(self) -> None:
        """Where it comes back before there is a table with it, what comes on a color ends, and goes on by no primary."""
        agent = self.agent()
        self.settle(agent)
        self.assertIn('iifname != { "to-r2", "to-r3", "to-r4" } ip dscp set 0', self.router.nft)
        self.without_link(1, 2)
        self.settle(agent)
        self.assertIn('iifname != { "to-r2", "to-r3", "to-r4" } ip dscp set 0', self.router.nft)
        self.assertNotIn("to-r2", agent.devices)

    def test_an_interface_that_was_of_the_area(self) -> None:
        """It counts on while it is down, and not when it has another address: then it may be a customer's."""
        agent, ours = self.agent(), self.router.addresses()
        self.settle(agent)
        self.without_link(1, 2)
        given = ours[0] | {"addr_info": [{"local": "192.0.2.1", "prefixlen": 24}]}
        self.assertEqual(given["ifname"], "to-r2")
        for said, inside in ((ours[1:], '"to-r2", "to-r3", "to-r4"'), ([given, *ours[1:]], '"to-r3", "to-r4"')):
            self.stands("addresses", lambda said=said: said)
            self.router.told = News(interfaces=True)
            self.settle(agent)
            self.assertIn(f"iifname != {{ {inside} }} ip dscp set 0", self.router.nft)

    def test_a_repair_without_another_one_stays_with_its_rows(self) -> None:
        agent = self.agent()
        self.settle(agent)
        before = self.repairs()
        wires = [wire for wire in PLAN.wires if 3 not in wire.metrics or 1 in wire.metrics]
        self.put(split(lsas_of(PLAN._replace(wires=wires))))
        self.settle(agent)
        prefix = "10.255.0.3/32"
        self.assertNotIn(prefix, " ".join(line for line in self.by_fib() if generations.is_of_color(line)))
        self.assertEqual(self.repairs()[prefix], before[prefix])
        self.step(agent, LINGER + 1)
        self.assertNotIn(prefix, self.repairs())

    def test_two_certificates_of_one_generation(self) -> None:
        """The old rows and repairs stay for a while, since these carry packets now; then they go, and the new ones come
        after a pause."""
        with mock.patch.object(table, "generation_of", lambda *_: 5):
            agent = self.agent()
            self.settle(agent)
            before = self.router.state()
            self.without_link(2, 3)
            self.settle(agent)
            self.assertEqual(self.router.state(), before)
            self.assertIn("another certificate of generation 5", " ".join(self.told))
            # (the same certificate again, as for a route that comes, is no reason to take any of it away)
            self.router.told = News(protocols=frozenset({188}))
            agent.debounce.note(self.now)
            self.step(agent, 0.3, KEPT - 0.5)
            self.assertEqual(self.router.state(), before)
            self.step(agent, 0.3)
            self.assertEqual((self.router.state(), self.colors()), (batch.bare(), set()))
            self.step(agent, PAUSE - 0.2)
            self.assertEqual(self.router.state(), batch.bare())
            self.step(agent, 0.3)
            self.assertEqual((self.colors(), len(self.repairs())), ({5}, 3))

    def test_a_generation_that_lingers_is_not_taken_at_once(self) -> None:
        coming = [1]
        with mock.patch.object(table, "generation_of", lambda *_: coming[0]):
            agent = self.agent()
            self.settle(agent)
            self.without_link(2, 3)
            coming[0] = 2
            self.settle(agent)
            before = self.repairs()
            self.without_link(3, 4)
            coming[0] = 1
            self.settle(agent)
            self.assertEqual((self.colors(), self.repairs()), ({1, 2}, before))
            self.step(agent, KEPT)
            self.assertEqual((self.colors(), self.repairs()), ({2}, before))
            self.step(agent, PAUSE + 0.1)
            self.assertEqual(self.colors(), {1, 2})
            self.assertFalse(self.repairs().items() & before.items())
            # The digests of what is in the kernel stand in a file, for an agent that is started again.
            self.assertEqual(len(generations.read(self.name("generations.json"))), 2)
            coming[0], agent = 2, self.agent()
            self.without_link(1, 3)
            self.settle(agent)
            self.step(agent, KEPT)
            self.assertNotIn(2, self.colors())

    def between(self, *after: float) -> set[int]:
        """The generations in the kernel where two changes come as one, so many seconds apart, and the certificate between them
        has the second one's generation."""
        with mock.patch.object(table, "generation_of", lambda *_: 1):
            agent = self.agent()
            self.settle(agent)
        with mock.patch.object(table, "generation_of", lambda *_: 2):
            self.step(agent, LINGER)
            self.without_link(2, 3)
            self.step(agent, *after)
            wires = [wire for wire in PLAN.wires if set(wire.metrics) not in ({2, 3}, {3, 4})]
            self.put(split(lsas_of(PLAN._replace(wires=wires))))
            self.settle(agent)
            found = self.colors()
            self.step(agent, KEPT, PAUSE + 0.1)
            self.assertEqual(self.colors(), {1, 2})
        return found

    def test_a_certificate_that_others_may_have_had(self) -> None:
        """Two changes that come as one here may have been apart there: then these have rows between, which go first. What
        comes at once here does so there."""
        self.assertEqual(self.between(0.15), {1})
        self.put(split(lsas_of(PLAN)))
        self.router.lines.clear()
        self.assertEqual(self.between(0.05), {1, 2})

    def test_more_of_them_than_are_looked_at(self) -> None:
        """Then it may be any."""
        agent = self.agent()
        self.settle(agent)
        self.step(agent, LINGER)
        for number in range(MOST_PASSED + 4):
            wires = [wire._replace(metrics=dict.fromkeys(wire.metrics, 20 + number)) for wire in PLAN.wires]
            self.put(split(lsas_of(PLAN._replace(wires=wires))))
            self.step(agent, 0.15)
            self.assertLessEqual(len(agent.inputs.passed), MOST_PASSED + 1)
        self.without_link(2, 3)
        before = self.colors()
        self.settle(agent)
        self.assertEqual((self.colors(), "another certificate" in " ".join(self.told)), (before, True))

    def test_the_first_table(self) -> None:
        """An agent that has just begun does not know what others had of late. The table that it finds stays."""
        for found in (NOTHING, None):
            agent = self.agent()
            agent.knows = False
            state = self.router.state()
            self.settle(agent)
            if found is NOTHING:
                self.assertEqual(self.router.state(), batch.bare())
                self.step(agent, KEPT + PAUSE)
            else:
                self.assertEqual(self.router.state(), state)
            self.assertEqual(self.router.state(), self.by_fib())

    def test_a_router_that_was_cut_off(self) -> None:
        """It does not know what the others had meanwhile. For these it is one router that comes."""
        for gone, is_held in ((1, True), (2, False)):
            self.router.lines.clear()
            self.put(split(lsas_of(PLAN._replace(wires=[wire for wire in PLAN.wires if gone not in wire.metrics]))))
            agent = self.agent()
            self.settle(agent)
            self.step(agent, LINGER)
            self.put(split(lsas_of(PLAN)))
            self.settle(agent)
            self.assertEqual(len(self.repairs()) < 3, is_held)
            self.step(agent, KEPT + PAUSE, LINGER)
            self.assertEqual(self.router.state(), self.by_fib())

    def test_a_router_that_is_waited_for(self) -> None:
        """But not with rows of a generation that another certificate has by now at those that do not wait."""
        for mine, is_early in ((1, True), (2, False)):
            self.put(split(lsas_of(PLAN)))
            self.router.lines.clear()
            with mock.patch.object(table, "generation_of", lambda *_: 1):
                agent = self.agent()
                self.settle(agent)
            agent.debounce.times = {address("10.255.0.3"): deque([self.now] * OFTEN, maxlen=OFTEN)}
            with mock.patch.object(table, "generation_of", lambda *_, mine=mine: mine):
                wires = [wire for wire in PLAN.wires if set(wire.metrics) != {2, 3}]
                other = {lsa.key: lsa for lsa in split(lsas_of(PLAN._replace(wires=wires)))}
                self.put(other[lsa.key] if lsa.router == address("10.255.0.3") else lsa for lsa in split(lsas_of(PLAN)))
                self.settle(agent)
                told = sum("another certificate" in line for line in self.told)
                self.assertEqual((told, agent.debounce.due() is None), (is_early, is_early))
                self.told.clear()

    def test_repairs_that_others_have_taken_the_place_of(self) -> None:
        """Where a third certificate has none for a prefix, the second one's stay, and not the first one's."""
        coming = [1]
        with mock.patch.object(table, "generation_of", lambda *_: coming[0]):
            agent = self.agent()
            self.settle(agent)
            coming[0] = 2
            self.without_link(2, 3)
            self.settle(agent)
            before, coming[0] = self.repairs(), 3
            wires = [wire for wire in PLAN.wires if set(wire.metrics) in ({1, 2}, {2, 3}, {3, 4})]
            self.put(split(lsas_of(PLAN._replace(wires=wires))))
            self.settle(agent)
            wanted = agent.generations.state(self.now)
            self.assertEqual(len({batch.place(line) for line in wanted}), len(wanted))
            self.assertEqual(self.repairs(), before)

    def test_a_generation_that_has_gone_is_taken_at_once(self) -> None:
        coming = [1]
        with mock.patch.object(table, "generation_of", lambda *_: coming[0]):
            agent = self.agent()
            self.settle(agent)
            for coming[0], link in ((2, (2, 3)), (1, (3, 4))):
                self.step(agent, LINGER + 1, KEPT + PAUSE)
                self.without_link(*link)
                self.settle(agent)
                self.assertEqual(self.colors(), {1, 2})
            self.assertNotIn("another certificate", " ".join(self.told))

    def test_a_prefix_comes(self) -> None:
        """The certificate is the same, so that its rows stay."""
        agent = self.agent()
        self.settle(agent)
        before = self.router.state()
        self.router.daemon |= {"10.9.9.9/32"}
        self.put(split(lsas_of(PLAN, {2: [("10.9.9.9", "255.255.255.255", 3, 0)]})))
        lines = self.settle(agent)
        self.assertEqual(
            (len(lines), {batch.prefix_of(f"x {line.split()[2]}") for line in lines}), (3, {"10.9.9.9/32"})
        )
        self.assertEqual(self.router.state(), self.by_fib())
        self.assertLess(before, self.router.state())

    def test_a_prefix_that_another_router_has_now(self) -> None:
        """The certificate is the same, and other routers may have rows to the old one: it has none for a pause."""
        prefix = ("10.9.9.9", "255.255.255.255", 3, 0)
        self.router.daemon |= {"10.9.9.9/32"}
        agent = self.agent()
        self.put(split(lsas_of(PLAN, {2: [prefix]})))
        self.settle(agent)
        self.assertIn("10.9.9.9/32", self.repairs())
        others = {line for line in self.router.state() if "10.9.9.9" not in line}
        self.put(split(lsas_of(PLAN, {4: [prefix]})))
        self.settle(agent)
        self.assertEqual(self.router.state(), others)
        self.step(agent, PAUSE + 0.1)
        self.assertEqual(self.router.state(), self.by_fib())
        self.assertIn("10.9.9.9/32", self.repairs())

    def test_the_profile_changes(self) -> None:
        agent = self.agent()
        self.settle(agent)
        self.write_profile(2)
        self.step(agent, 1, 0.3, LINGER + 1)
        self.assertEqual(self.router.state(), self.by_fib())
        self.assertIn("agent: accepted root 10.255.0.2 nodes 4 links 6", self.told)

    def test_a_profile_that_is_a_pipe(self) -> None:
        """Nobody writes into it, and the agent does not wait for that."""
        os.remove(self.name("profile"))
        os.mkfifo(self.name("profile"))
        agent = self.agent()
        self.settle(agent)
        self.assertEqual(agent.inputs.lacks(), [f"{self.name('profile')}: it is no file"])
        os.remove(self.name("profile"))
        self.write_profile(2)
        self.step(agent, 1)
        self.settle(agent)
        self.assertEqual(self.router.state(), self.by_fib())

    def test_a_profile_that_the_kernel_tells_of(self) -> None:
        """It is read when it has changed, and else seldom."""
        agent = self.agent()
        agent.inputs.watched = mock.Mock(take=mock.Mock(return_value=False))

        def is_read(root: int) -> bool:
            return agent.inputs.profile == f"priority {router_id(root)} 1\n".encode()

        self.settle(agent)
        self.write_profile(2)
        self.step(agent, PROFILE_WATCHED / 3, PROFILE_WATCHED / 3)
        self.assertFalse(is_read(2))
        self.assertGreater(agent.inputs.next(self.now), self.now + 1)
        agent.inputs.watched.take.return_value = True
        self.step(agent)
        self.assertTrue(is_read(2))
        agent.inputs.watched.take.return_value = False
        self.write_profile(3)
        self.step(agent, PROFILE_WATCHED - 1)
        self.assertFalse(is_read(3))
        self.step(agent, 2)
        self.assertTrue(is_read(3))

    def test_newer_instances_that_say_the_same(self) -> None:
        agent = self.agent()
        self.settle(agent)
        again = (sealed(lsa, lsa.sequence + 1, lsa.record[20:]) for lsa in self.source.snapshot.lsas)
        self.put(map(lsa_of, again))
        batches = self.router.batches
        with mock.patch.object(os, "fsync", side_effect=AssertionError("the disk is waited for")):
            self.step(agent, 3)
        self.assertEqual((self.router.batches, agent.fault), (batches, ""))
        # (routes of the daemon that change later make no old instance of it)
        self.router.told = News(protocols=frozenset({188}))
        self.settle(agent)
        with open(self.name("area.lsas"), "rb") as file:
            self.assertEqual(file.read(), b"".join(lsa.record for lsa in self.source.snapshot.lsas))

    def test_a_dry_run(self) -> None:
        agent = self.agent(dry_run=True)
        lines = self.settle(agent)
        self.assertEqual((self.router.state(), self.router.nft), (NOTHING, ""))
        self.assertTrue(agent.done and set(lines) > {f"rule add {kernel.rule_of(0)}"})

    def test_a_dry_run_that_waits(self) -> None:
        """It changes nothing either, however long, of what an agent before has left."""
        self.settle(self.agent())
        state = self.router.state()
        self.source.snapshot = Snapshot([], (SILENT,))
        agent = self.agent(dry_run=True, strict=True)
        self.step(agent, 1, LINGER, LINGER)
        self.assertFalse(agent.done)
        self.assertEqual(self.router.state(), state)

    def test_a_new_start(self) -> None:
        """What is in the kernel stays, where it is right."""
        self.settle(self.agent())
        state, batches = self.router.state(), self.router.batches
        self.settle(self.agent())
        self.assertEqual((self.router.state(), self.router.batches), (state, batches))


@unittest.skipUnless(os.path.exists(MRT), "the program is not built")
class Routes(WithAgent):
    """A repair only where the daemon has a route."""

    def test_what_the_daemon_has_no_route_to(self) -> None:
        self.router.daemon -= {"10.255.0.3/32"}
        agent = self.agent()
        self.settle(agent)
        self.assertNotIn("10.255.0.3", " ".join(self.router.state()))
        self.assertEqual(self.router.state(), self.by_fib())
        left = json.loads(json.dumps(agent.status.facts))["left_out"]
        self.assertIn({"what": "10.255.0.3/32", "why": "the daemon has no route to it"}, left)
        self.router.daemon |= {"10.255.0.3/32"}
        self.router.told = News(protocols=frozenset({188}))
        self.settle(agent)
        self.assertIn("10.255.0.3/32", self.repairs())

    def test_a_route_of_another_protocol_of_the_daemon(self) -> None:
        """BIRD's routes by BGP come and go, and no table is made for them."""
        agent = self.agent()
        self.settle(agent)
        self.now += 500
        self.router.daemon |= {"203.0.113.0/24"}
        self.router.told = News(protocols=frozenset({188}))
        self.step(agent)
        self.assertIsNone(agent.debounce.due())
        self.assertNotIn("203.0.113.0/24", agent.inputs.daemon(self.now).routes or ())

    def test_a_route_that_goes_counts_for_a_while(self) -> None:
        """The daemon has none while it finds new ways, and then the repair is what carries packets."""
        agent = self.agent()
        self.settle(agent)
        self.now += 500
        self.router.daemon -= {"10.255.0.3/32"}
        self.router.told = News(protocols=frozenset({188}))
        self.settle(agent)
        self.assertIn("10.255.0.3/32", self.repairs())
        self.step(agent, ROUTE_KEPT + 0.1, 0.3)
        self.assertNotIn("10.255.0.3/32", self.repairs())

    def test_a_route_that_goes_without_a_word(self) -> None:
        """As where the kernel takes away its next hop."""
        agent = self.agent()
        self.settle(agent)
        self.router.daemon -= {"10.255.0.3/32"}
        self.step(agent, ROUTES_SELDOM / 2, ROUTES_SELDOM / 2)
        self.assertLessEqual(agent.inputs.next(self.now), self.now + ROUTE_KEPT)
        self.step(agent, ROUTE_KEPT + 0.1, 0.3)
        self.assertNotIn("10.255.0.3/32", self.repairs())

    def test_a_router_that_flaps_and_moves_the_daemons_routes(self) -> None:
        """Other ways to the same prefixes make no other table, so that it is waited for as if there were none."""
        agent = self.agent()
        self.settle(agent)
        self.now += 500
        for _ in range(5):
            self.router.told = News(protocols=frozenset({188}))
            self.step(agent)
            self.assertIsNone(agent.debounce.due())
            self.now += 1
        # A prefix that is seen while others are on their way is not forgotten.
        self.router.told = News(protocols=frozenset({188}))
        self.step(agent)
        self.router.daemon -= {"10.255.0.3/32"}
        self.router.told = News(protocols=frozenset({188}))
        self.step(agent)
        self.assertLessEqual(agent.next(self.now), self.now + ROUTES_EVERY)
        self.step(agent, ROUTES_EVERY)
        self.assertIsNotNone(agent.debounce.due())

    def test_a_daemon_with_the_routes_of_the_internet(self) -> None:
        """A look at them takes long, and is a small part of the time."""
        agent = self.agent()
        self.settle(agent)

        def slow(wanted: frozenset[str]) -> frozenset[str]:
            time.sleep(0.1)
            return self.router.daemon & wanted

        with mock.patch.object(self.router, "daemon_routes", side_effect=slow) as looked:
            for _ in range(10):
                self.router.told = News(protocols=frozenset({188}))
                self.step(agent)
                self.now += 0.2
        self.assertIn(looked.call_count, (1, 2))

    def test_hostile_records(self) -> None:
        """A router ID is no prefix, and neither are these networks, whatever the daemon has."""
        bad = [
            "0.0.0.0/0",
            "127.0.0.0/8",
            "224.0.0.0/4",
            "255.255.255.255/32",
            "169.254.0.0/16",
            "0.0.0.0/1",
            "8.8.8.8/32",
        ]
        masks = {
            "0": "0.0.0.0",
            "8": "255.0.0.0",
            "4": "240.0.0.0",
            "32": "255.255.255.255",
            "16": "255.255.0.0",
            "1": "128.0.0.0",
        }
        stubs = [(number, masks[length], 3, 1) for number, length in (each.split("/") for each in bad[:-1])]
        records = list(split(lsas_of(PLAN, {2: stubs})))
        # 8.8.8.8 is a router by 10.255.0.4, and has no stub network.
        told = told_links(next(each for each in records if each.router == address("10.255.0.4")))
        told.append(("8.8.8.8", "10.8.8.1", 1, 1))
        records = [each for each in records if each.router != address("10.255.0.4")]
        records.append(lsa_of(router_lsa("10.255.0.4", told)))
        records.append(lsa_of(router_lsa("8.8.8.8", [("10.255.0.4", "10.8.8.2", 1, 1)])))
        self.put(records)
        self.router.daemon |= frozenset(bad[:-1])
        agent = self.agent(prefixes=True)
        self.settle(agent)
        self.assertIn("agent: accepted root 10.255.0.4 nodes 5 links 7", self.told)
        installed = {batch.prefix_of(line) for line in self.router.state() if line.startswith("route ")} - {"default"}
        self.assertFalse(installed & set(bad))
        self.assertLess({"10.255.0.2/32", "10.255.0.3/32"}, installed)
        left = {each["what"] for each in agent.status.facts["left_out"]}
        self.assertLess(set(bad[:-1]), left)


if __name__ == "__main__":
    unittest.main()

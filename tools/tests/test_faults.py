"""What faults cost, and that the agent goes on; and that it puts back what others take out of the kernel."""
import contextlib
import os
import unittest
from unittest import mock

from mrttools import files, lsas
from mrttools.agent import batch, commands, inputs, loop
from mrttools.agent.batch import NOTHING
from mrttools.agent.generations import PAUSE
from mrttools.agent.inputs import ROUTE_KEPT
from mrttools.agent.loop import KERNEL_EVERY, LACKING, RETRY
from mrttools.agent.netlink import News
from mrttools.agent.sources import SILENT, Snapshot
from mrttools.lsas import address, lsa_of, split
from mrttools.router import kernel, table
from tests.kernels import PLAN
from tests.making import MRT, router_lsa
from tests.networks import lsas_of
from tests.standing import LINGER, WithAgent, told_links


@unittest.skipUnless(os.path.exists(MRT), "the program is not built")
class Faults(WithAgent):
    """What a fault costs, and that the agent goes on."""

    def test_a_link_with_metric_0(self) -> None:
        """That router's LSA is left out, and told; the others have their repairs."""
        records = list(split(lsas_of(PLAN)))
        told = [(far, data, kind, 0 if kind == 1 else metric) for far, data, kind, metric in told_links(records[3])]
        records[3] = lsa_of(router_lsa("10.255.0.4", told))
        self.put(records)
        self.write_profile(2)
        agent = self.agent()
        self.settle(agent)
        self.assertEqual(set(self.repairs()), {"10.255.0.2/32", "10.255.0.3/32"})
        (left,) = (each for each in agent.status.facts["left_out"] if "router-LSA" in each["what"])
        self.assertEqual(left["what"], "router-LSA of 10.255.0.4")
        self.assertIn("metric", left["why"])

    def test_a_record_that_mrt_alone_refuses(self) -> None:
        """Which one it is, mrt says."""
        agent = self.agent()
        with mock.patch.object(inputs, "usable", lambda found: (found, [])):
            self.test_a_link_with_metric_0()
        self.assertIsNone(loop.record_at([], "mrt: bad database: length at 7"))
        self.assertIsNone(loop.record_at(agent.inputs.lsas, "mrt: too large: area-nodes 5000"))

    def test_mrt_refuses(self) -> None:
        for strict in (False, True):
            self.write_profile(4)
            agent = self.agent(strict=strict)
            self.settle(agent)
            before = self.router.state()
            self.write_profile(4, "no such line\n")
            self.step(agent, 1, 0.3, 5)
            self.assertEqual(self.router.state(), batch.bare() if strict else before)
            self.assertEqual(sum("bad profile" in line and "agent:" in line for line in self.told), 1 + strict)
            self.write_profile(2)
            self.step(agent, 1, 0.3, LINGER + 1)
            self.assertEqual(self.router.state(), self.by_fib())
            self.assertFalse(agent.fault)

    def test_what_failed_is_tried_again(self) -> None:
        agent = self.agent()
        with mock.patch.object(table, "table_of", side_effect=ZeroDivisionError("x")):
            self.settle(agent)
        self.assertIn("ZeroDivisionError", agent.fault)
        self.assertEqual(self.step(agent, RETRY / 2), [])
        self.assertTrue(self.step(agent, RETRY, 0.3))
        self.assertEqual((self.router.state(), agent.fault), (self.by_fib(), ""))

    def test_the_daemon_is_silent(self) -> None:
        for strict in (False, True):
            self.put(split(lsas_of(PLAN)))
            agent = self.agent(strict=strict)
            self.settle(agent)
            before = self.router.state()
            self.source.snapshot = Snapshot([], (SILENT,))
            self.step(agent, LACKING - 1)
            self.assertEqual(self.router.state(), before)
            self.step(agent, 1.1)
            self.assertEqual(self.router.state(), batch.bare() if strict else before)
            self.assertIn("meta mark set", self.router.nft)
            self.assertIn(f"agent: waits: {SILENT}", self.told)
            self.put(split(lsas_of(PLAN)))
            self.settle(agent)
            self.step(agent, PAUSE + 0.1)
            self.assertEqual(self.router.state(), before)

    def test_a_route_that_goes_while_no_table_can_be_made(self) -> None:
        """Its repair goes too, as soon as it would where there is a table, and comes back with the route: mrt need not run.
        Rows stay, for others."""
        prefix, silent, off = "10.255.0.3/32", Snapshot([], (SILENT,)), OSError("no word")
        for fault in ("profile", "daemon", "source", "start"):
            agent = self.agent()
            self.settle(agent)
            self.step(agent, LINGER + 1)
            repairs, rows = self.repairs(), {line for line in self.router.state() if not batch.is_repair(line)}
            with contextlib.ExitStack() as until:
                if fault == "profile":
                    self.write_profile(4, "no such line\n")
                elif fault == "source":
                    until.enter_context(mock.patch.object(self.source, "look", side_effect=off))
                else:
                    until.enter_context(mock.patch.object(self.source, "snapshot", silent))
                if fault == "start":
                    agent = self.agent()
                self.step(agent, 1, 0.3)
                self.assertTrue(agent.fault or agent.inputs.lacks())
                until.enter_context(mock.patch.object(self.router, "daemon", self.router.daemon - {prefix}))
                self.router.told = News(protocols=frozenset({188}))
                self.step(agent, ROUTE_KEPT - 1)
                self.assertEqual(self.repairs(), repairs, fault)
                self.step(agent, 1.1)
                self.assertEqual(self.repairs().keys(), repairs.keys() - {prefix}, fault)
                self.assertLessEqual(rows, self.router.state())
            self.router.told = News(protocols=frozenset({188}))
            self.step(agent, 1)
            self.assertEqual(self.repairs(), repairs, fault)
            self.write_profile(4)
            self.step(agent, RETRY + 1, 0.3)

    def test_a_folder_that_cannot_be_written(self) -> None:
        """It is a fault as any other."""
        agent = self.agent()
        with mock.patch.object(files, "replace", side_effect=OSError(28, "No space left on device")):
            self.step(agent, 0.3, 5)
        self.assertEqual(agent.fault, "No space left on device")
        self.step(agent, RETRY + 1, 0.3)
        self.assertEqual((agent.fault, self.router.state()), ("", self.by_fib()))

    def test_a_router_that_is_not_there(self) -> None:
        self.step(self.agent(router=address("10.255.0.9")), 0.3, LACKING + 1)
        self.assertEqual((self.router.state(), self.out[-1:]), (batch.bare(), self.out[-1:]))
        self.assertIn("agent: waits: no router-LSA of 10.255.0.9", self.told)

    def test_a_profile_that_is_away(self) -> None:
        agent = self.agent()
        self.settle(agent)
        before = self.router.state()
        os.rename(self.name("profile"), self.name("away"))
        self.step(agent, 1, LACKING + 1)
        self.assertEqual(self.router.state(), before)
        self.assertIn(f"agent: waits: {self.name('profile')}: No such file or directory", self.told)
        os.rename(self.name("away"), self.name("profile"))
        self.step(agent, 1, 0.3)
        self.assertEqual((self.router.state(), agent.inputs.lacks()), (before, []))

    def test_an_interface_that_is_not_there(self) -> None:
        """For a while the daemon may soon tell otherwise; then what goes over it is left out, and the rest stays."""
        addresses = self.router.addresses()
        self.stands("addresses", lambda: [{}, *addresses[1:]])
        agent = self.agent()
        self.step(agent, 0.3, 0.3)
        self.assertEqual(self.router.state(), batch.bare())
        self.step(agent, 2, 0.3)
        self.assertTrue(self.repairs())
        self.assertNotIn("10.0.12.", " ".join(self.router.state()))
        reasons = {each["why"] for each in agent.status.facts["left_out"]}
        self.assertIn("no interface has the address 10.0.12.1", reasons)

    def test_a_neighbor_without_an_address(self) -> None:
        """What goes over that link is left out."""
        records = []
        for each in split(lsas_of(PLAN)):
            told = [
                (far, "0.0.0.7" if data.startswith("10.0.12.") and kind == 1 else data, kind, metric)
                for far, data, kind, metric in told_links(each)
            ]
            records.append(lsa_of(router_lsa(lsas.spelled(each.router), told)))
        self.put(records)
        agent = self.agent()
        self.settle(agent)
        self.assertEqual(self.router.state(), self.by_fib())
        self.assertIn("10.255.0.4/32", self.repairs())
        self.assertNotIn("10.0.12.", " ".join(self.router.state()))
        reasons = " ".join(each["why"] for each in agent.status.facts["left_out"])
        self.assertIn("links without addresses are not taken", reasons)

    def test_an_odd_name_outside_the_area(self) -> None:
        addresses = self.router.addresses()
        odd = {"ifname": "a b;c", "addr_info": [{"local": "192.0.2.1", "prefixlen": 24}]}
        self.stands("addresses", lambda: [*addresses, odd])
        agent = self.agent()
        self.settle(agent)
        self.assertEqual((len(self.repairs()), self.router.state()), (3, self.by_fib()))
        self.assertIn("interface 'a b;c'", [each["what"] for each in agent.status.facts["left_out"]])

    def test_a_neighbor_off_the_subnet(self) -> None:
        """The kernel would refuse the batch."""
        records = []
        for each in split(lsas_of(PLAN)):
            told = [
                (far, data.replace("10.0.12.2", "10.99.99.2"), kind, metric)
                for far, data, kind, metric in told_links(each)
            ]
            records.append(lsa_of(router_lsa(lsas.spelled(each.router), told)))
        self.put(records)
        agent = self.agent()
        self.settle(agent)
        self.assertNotIn("10.99.99.2", " ".join(self.router.state()))
        self.assertIn("10.255.0.4/32", self.repairs())
        why = "the next hop 10.99.99.2 is not on the network of dev to-r2"
        self.assertIn(why, [each["why"] for each in agent.status.facts["left_out"]])

    def test_a_next_hop_that_the_kernel_refuses(self) -> None:
        """It is left out, and what does not need it gets in."""
        self.router.bad = "10.0.12.2"
        agent = self.agent()
        self.settle(agent)
        self.assertTrue(self.repairs())
        self.assertNotIn("10.0.12.2", " ".join(self.router.state()))
        self.assertIn("next hop via 10.0.12.2 dev to-r2", [each["what"] for each in agent.status.facts["left_out"]])
        self.assertEqual(self.step(agent, 6, 6), [])

    def test_a_kernel_that_refuses_all(self) -> None:
        """The last good table stays, and the agent goes on."""
        agent = self.agent()
        self.settle(agent)
        before = self.router.state()
        self.without_link(2, 3)
        with mock.patch.object(self.router, "batch", side_effect=batch.Refusal("ip: no")):
            self.settle(agent)
        self.assertTrue(agent.fault)
        self.assertEqual(self.router.state(), before)
        self.step(agent, RETRY + 1, 0.3, LINGER + 1)
        self.assertEqual(self.router.state(), self.by_fib())

    def test_nobody_reads_what_it_says(self) -> None:
        """A full disk, or a pipe that is closed, at both outputs."""
        agent = self.agent()
        with open("/dev/full", "w", encoding="ascii") as full:
            with contextlib.redirect_stdout(full), contextlib.redirect_stderr(full):
                for seconds in (0, 0.25):
                    self.now += seconds
                    agent.step()
                with mock.patch.object(agent.inputs, "look", side_effect=OSError("a fault")):
                    agent.step()
            with contextlib.suppress(OSError):
                full.close()
        self.assertTrue(self.repairs())
        self.assertEqual(self.router.state(), self.by_fib())

    def test_a_signal_and_strict(self) -> None:
        """At its end the table stays or, with --strict, goes, with the settings."""
        for strict in (False, True):
            before = self.place.read()
            agent = self.agent(strict=strict)
            self.settle(agent)
            state = self.router.state()
            self.assertNotEqual(self.place.read(), before)
            agent.surroundings = agent.surroundings._replace(wait=mock.Mock(side_effect=SystemExit(143)))
            with self.assertRaises(SystemExit):
                self.quietly(lambda: commands.keep_until_end(agent, agent.args))
            self.assertEqual(self.router.state(), NOTHING if strict else state)
            self.assertEqual(self.place.read() == before, strict)
            if not strict:
                agent.surroundings.settings.put_back()


@unittest.skipUnless(os.path.exists(MRT), "the program is not built")
class PutBack(WithAgent):
    def test_the_marks(self) -> None:
        agent = self.agent()
        self.settle(agent)
        marks, before = self.router.nft, self.router.state()
        self.assertIn("chain write", marks)
        for told in (Snapshot([], (SILENT,)), self.source.snapshot):
            self.step(agent, 1)
            self.source.snapshot, self.router.nft = told, ""
            self.router.told = News(marks=True)
            self.assertEqual(self.step(agent), ["nft table ip mrt"])
            self.assertEqual((self.router.nft, self.router.state()), (marks, before))
            self.assertEqual(self.told[-1], "agent: put back what the kernel had lost")
        self.router.nft = ""
        self.step(agent, KERNEL_EVERY + 0.1)
        self.assertEqual(self.router.nft, marks)

    def test_the_marks_of_an_agent_before(self) -> None:
        """Where others change them before there is a table they come back as they were, and once."""
        self.settle(self.agent())
        marks, times = self.router.nft, self.router.marked
        self.source.snapshot = Snapshot([], (SILENT,))
        agent = self.agent()
        self.step(agent, 1)
        self.assertEqual((self.router.nft, self.router.marked), (marks, times))
        self.router.nft = marks.replace("chain own", "chain other")
        self.router.told = News(marks=True)
        self.assertEqual(self.step(agent, 1)[:1], ["nft table ip mrt"])
        self.assertEqual(self.router.nft, marks)

    def test_routes_and_rules(self) -> None:
        agent = self.agent()
        self.settle(agent)
        before = self.router.state()
        lost = [line for line in sorted(before) if batch.is_repair(line) or line in batch.RULES][-3:]
        for told, after in ((News(protocols=frozenset({kernel.PROTOCOL})), 1.0), (News(), KERNEL_EVERY)):
            for line in lost:
                del self.router.lines[batch.place(line)]
            self.now += after
            self.router.told = told
            self.assertEqual(len(self.step(agent)), 3)
            self.assertEqual((self.router.state(), self.step(agent)), (before, []))
        self.assertEqual(self.told[-2:], ["agent: changed: 3", "agent: put back what the kernel had lost"])

    def test_a_kernel_that_lists_a_route_in_other_words(self) -> None:
        agent, state = self.agent(), self.router.state
        self.stands("state", lambda: frozenset(line.replace("10.255.0.3/32", "10.255.0.3") for line in state()))
        self.assertTrue(self.settle(agent))
        self.assertEqual(self.step(agent, KERNEL_EVERY + 1), [])

    def test_nothing_while_the_daemon_is_silent(self) -> None:
        agent = self.agent()
        self.settle(agent)
        self.router.lines.clear()
        self.source.snapshot, before = Snapshot([], (SILENT,)), self.router.batches
        self.step(agent, KERNEL_EVERY + 1, KERNEL_EVERY + 1)
        self.assertEqual(self.router.batches, before)


if __name__ == "__main__":
    unittest.main()

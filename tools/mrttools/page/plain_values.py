"""The facts of an area as plain values, for the page and for programs. `docs/report.schema.json` says what they are."""
from __future__ import annotations

from typing import Any, NamedTuple

from mrttools import lsas
from mrttools.area import Area, Bond, Node
from mrttools.certificate import COLORS
from mrttools.lsas import ROUTER
from mrttools.paths import METRIC, Graph
from mrttools.program import Program
from . import client, cross_check, cuts, facts, islands, origin, stretches
from .causes import Cause, Causes, is_choice
from .cross_check import Asked
from .cuts import Cut
from .demand import EVEN, Demand
from .facts import Facts, Ground
from .islands import Islands
from .losses import Tally, Toll
from .stretches import Longest, Stretched
from .target import routers_of, size_of

VERSION = 2
Values = dict[str, Any]


class Found(NamedTuple):
    """All that a report stands on."""

    area: Area
    islands: Islands
    cuts: list[Cut]
    facts: Facts
    tallies: dict[Causes, Tally]
    asked: Asked


def element_values(element: Node | Bond) -> Values:
    """A node or link by the name that `mrt` takes, with the two nodes of a link."""
    if isinstance(element, Bond):
        return {"element": element.text, "kind": "link", "ends": [element.a.text, element.b.text]}
    return {"element": element.text, "kind": "router" if element.kind == ROUTER else "network"}


# the area


def area_values(findings: Found) -> Values:
    whole, parts = findings.area, findings.islands
    outside = [(bond, islands.why_not(bond, parts)) for bond in whole.bonds]
    routers = [node for node in whole.nodes if node.kind == ROUTER]
    pairs = sum(map(len, findings.facts.rows.values()))
    return {
        "routers": len(routers),
        "networks": len(whole.nodes) - len(routers),
        "links": len(whole.bonds),
        "islands": [
            {
                "root": island.certificate.root.text,
                "routers": sum(node.kind == ROUTER for node in island.certificate.nodes),
                "networks": sum(node.kind != ROUTER for node in island.certificate.nodes),
                "links": len(island.bonds),
            }
            for island in parts.shared
        ],
        "no_mrt": [node.text for node in sorted(parts.unsupported)],
        "alone": [node.text for node in parts.alone],
        "links_outside": [element_values(bond) | {"why": why} for bond, why in outside if why],
        "told_by_one_end": [
            {
                "from": arc.tail.text,
                "to": arc.to.text,
                "data": lsas.spelled(arc.data),
                "metric": arc.metric,
                "there": arc.to in findings.facts.graph.number,
            }
            for arc in whole.half
        ],
        "pairs": pairs,
        "pairs_without_way": len(routers) * (len(routers) - 1) - pairs,
    }


def cut_values(cut: Cut) -> Values:
    return element_values(cut.element) | {
        "pairs": cut.pairs,
        "sides": [[node.text for node in side] for side in cut.sides],
    }


# pairs


def pair_values(all_pairs: Facts) -> Values:
    """How many pairs are in each class, by number and by what they send."""
    graph, demand = all_pairs.graph, all_pairs.ground.demand
    counts, sent = [0, 0, 0], [0.0, 0.0, 0.0]
    for target, *classes in all_pairs.losses.classes():
        for place, bits in enumerate(classes):
            counts[place] += size_of(bits)
            if demand.told:
                sent[place] += sum(demand.of(graph.nodes[router], graph.nodes[target]) for router in routers_of(bits))
    names = "repaired", "parted", "gaps"
    return {"all": sum(counts), **dict(zip(names, counts)), "demand": dict(zip(names, sent)) if demand.told else None}


def cause_values(cause: Cause) -> Values:
    return element_values(cause.element) | {"cause": cause.kind, "by_choice": cause.by_choice}


def gap_values(findings: Found) -> list[Values]:
    """Why pairs are not repaired that could be, the most such pairs first."""
    nodes = findings.facts.graph.nodes
    tallies = sorted(findings.tallies.items(), key=lambda gap: (-gap[1].pairs, gap[0]))
    return [
        {
            "causes": list(map(cause_values, causes)),
            "by_choice": is_choice(causes),
            "pairs": tally.pairs,
            "alone": tally.alone,
            "shown": [[nodes[one].text, nodes[other].text] for one, other in tally.shown],
        }
        for causes, tally in tallies
    ]


def coverage_values(coverage: facts.Coverage) -> Values:
    return {
        "pairs": coverage.pairs,
        "pairs_past_next_node": coverage.node_pairs,
        "first_link": {"open": coverage.open_link, "lfa": coverage.lfa_link, "colors": coverage.colors_link},
        "next_node": {"open": coverage.open_node, "lfa": coverage.lfa_node, "colors": coverage.colors_node},
    }


def all_coverage(all_pairs: Facts) -> Values:
    total = facts.Coverage()
    for coverage in all_pairs.coverage.values():
        total.add(coverage)
    return coverage_values(total)


# stretch and load


def stretched_values(all_pairs: Facts, repair: Stretched) -> Values:
    graph = all_pairs.graph
    lines = cross_check.trace(all_pairs, repair.router, repair.target, repair.failed)
    return {
        "from": graph.nodes[repair.router].text,
        "to": graph.nodes[repair.target].text,
        "failed": facts.name_of(graph, repair.failed),
        "color": COLORS[repair.color],
        "metric": repair.cost // METRIC,
        "least_metric": repair.least // METRIC,
        "ratio": round(repair.ratio, 3),
        "hops": repair.cost % METRIC,
        "least_hops": repair.least % METRIC,
        "trace": ["failed", "entered 0", *lines],
    }


def stretch_values(all_pairs: Facts) -> Values:
    own = all_pairs.stretches
    weights = own.weights if all_pairs.ground.demand.told else None
    ratios, hops = stretches.Spread(own.ratios, weights), stretches.Spread(own.more_hops, weights)
    quartiles = ratios.quartiles()
    return {
        "repairs": len(own.ratios),
        "metric": quartiles and [round(ratio, 3) for ratio in quartiles],
        "more_hops": hops.quartiles(),
        "metric_bars": bars(ratios, stretches.RATIOS),
        "hops_bars": bars(hops, stretches.HOPS),
        "worst": [stretched_values(all_pairs, repair) for repair in own.worst],
    }


def bars(spread: stretches.Spread, ends: tuple[float, ...]) -> list[Values]:
    return [{"up_to": end, "repairs": count} for end, count in zip([*ends, None], spread.bars(ends))]


def load_values(all_pairs: Facts) -> list[Values]:
    """The load of each link, and the failure after which it is most."""
    graph, values = all_pairs.graph, []
    for bond, load, most in zip(graph.bonds, all_pairs.loads.load, all_pairs.loads.most()):
        failed = None if most.failed is None else facts.name_of(graph, most.failed)
        values.append(element_values(bond) | {"primaries": load, "most": most.load, "failed": failed})
    return values


# routers


def part_of(node: Node, findings: Found) -> str:
    """Which part a router takes."""
    if node in findings.islands.unsupported:
        return "no-mrt"
    return "alone" if node in findings.islands.alone else "member"


def router_values(findings: Found) -> list[Values]:
    graph, values = findings.facts.graph, []
    cut = {cut_off.element for cut_off in findings.cuts}
    roots = {node: island.certificate.root for island in findings.islands.shared for node in island.certificate.nodes}
    counts = {router: [0, 0, 0] for router in graph.routers}
    for _, *classes in findings.facts.losses.classes():
        for place, bits in enumerate(classes):
            for router in routers_of(bits):
                counts[router][place] += 1
    for router in graph.routers:
        node = graph.nodes[router]
        own = {
            "router": node.text,
            "part": "root" if roots.get(node) == node else part_of(node, findings),
            "root": roots[node].text if node in roots else None,
            "links": len(graph.links[node]),
            "single_point": node in cut,
            "classes": dict(zip(("repaired", "parted", "gaps"), counts[router])),
        }
        values.append(own | coverage_values(findings.facts.coverage[router]))
    return values


# failures


def state_of(toll: Toll) -> str:
    """How a failure ends, the worst first."""
    if toll.gaps > toll.chosen:
        return "gap"
    return "parts" if toll.parted else "choice" if toll.gaps else "repaired" if toll.met else "unused"


def longest_values(all_pairs: Facts, element: int, longest: Longest) -> Values:
    """The longest repair of a failure, and the mean of all."""
    nodes = all_pairs.graph.nodes
    return {
        "ratio": round(longest.ratio, 3),
        "mean": round(longest.total / longest.number, 3),
        "from": nodes[longest.router].text,
        "to": nodes[longest.target].text,
        "trace": cross_check.trace(all_pairs, longest.router, longest.target, element),
    }


def failure_values(all_pairs: Facts, element: int) -> Values:
    """What a failure costs."""
    graph, toll = all_pairs.graph, all_pairs.losses.tolls[element]
    nodes, longest = graph.nodes, all_pairs.stretches.longest.get(element)
    return element_values(graph.of_element(element)) | {
        "state": state_of(toll),
        "pairs": toll.met,
        "repaired": toll.met - toll.parted - toll.gaps,
        "parted": toll.parted,
        "gaps": toll.gaps,
        "by_choice": toll.chosen,
        "from": size_of(toll.met_from),
        "to": size_of(toll.met_to),
        "switch": [
            {"router": nodes[router].text, "blue": blue, "red": red, "gaps": gaps, "parted": parted}
            for router, (blue, red, gaps, parted) in sorted(toll.rows.items())
        ],
        "longest": longest and longest_values(all_pairs, element, longest),
        "fullest": [
            {"link": facts.name_of(graph, bond), "before": all_pairs.loads.load[bond], "more": more}
            for bond, more in all_pairs.loads.fullest(element)
        ],
        "shown": [[nodes[one].text, nodes[other].text] for one, other in toll.shown],
    }


STATES = "gap", "parts", "choice", "repaired", "unused"


def all_failures(all_pairs: Facts) -> list[Values]:
    """All failures, first those that are not repaired though there is a way, then those that part pairs, then those that
    are not repaired by choice; the most such pairs first."""
    values = [failure_values(all_pairs, element) for element in range(len(all_pairs.losses.tolls))]
    return sorted(
        values, key=lambda one: (STATES.index(one["state"]), -one["gaps"], -one["parted"], -one["pairs"])
    )


def report_values(findings: Found, made: Values) -> Values:
    """The whole report."""
    loads = load_values(findings.facts)
    growing = sorted(loads, key=lambda link: (link["primaries"] - link["most"], link["element"]))
    return {
        "format": "semborui-report",
        "version": VERSION,
        "made": made,
        "pairs": pair_values(findings.facts),
        "gaps": gap_values(findings),
        "area": area_values(findings),
        "single_points": list(map(cut_values, findings.cuts)),
        "failures": all_failures(findings.facts),
        "coverage": all_coverage(findings.facts),
        "stretch": stretch_values(findings.facts),
        "load": {
            "links": loads,
            "growing": [link["element"] for link in growing[:10] if link["most"] > link["primaries"]],
        },
        "routers": router_values(findings),
        "asked_of_mrt": findings.asked._asdict(),
    }


def find(mrt: Program, tell: facts.Tell, demand: Demand = EVEN) -> Found:
    """All that a report stands on."""
    whole = client.area_of(mrt)
    tell("certificate", 0, 1)
    parts = islands.islands(mrt, whole)
    points = cuts.single_points(whole.nodes, whole.bonds)
    own = facts.facts_of(Ground(Graph(whole), parts, points, demand), tell)
    asked = cross_check.agree(mrt, own, tell)
    return Found(whole, parts, points, own, own.losses.tallies(), asked)

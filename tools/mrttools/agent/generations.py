"""Tables of a new certificate beside those of the old one: which routes a kernel is to have, and until when.

Each certificate has one of eight generations by its digest, and each generation has tables, marks and code points of its
own. New rows come beside the old ones, then repairs turn to them, and the old rows go after a while: so long other routers
may still send packets on them. Where another certificate had the same generation not long ago, here or at a router that
saw changes apart which came here as one, its rows stay as long as OSPF needs for new ways; then they go, and the new ones
come after a pause, in which other routers do the same. So it is with a prefix that other routers have now, under the same
certificate."""
from __future__ import annotations

import json
from typing import NamedTuple

from mrttools import files
from mrttools.router.kernel import REALMS, TABLES
from .batch import State, bare, is_repair, prefix_of

# Seconds for which rows and repairs stay that fit no new rows, as they carry packets while OSPF finds new ways; those in
# which other routers, too, have taken them away; and those after which a router turns its repairs that has itself lost a
# link: it needs the old ones, and by then the others have the new rows.
KEPT, PAUSE, TURN = 3.0, 3.0, 0.5


def color_of(line: str) -> int | None:
    """The color of a route's table or realm, by its number among those of all generations."""
    words = line.split(" ")
    for word, known in (("table", TABLES), ("realm", REALMS)):
        if word in words and int(words[words.index(word) + 1]) in known:
            return known.index(int(words[words.index(word) + 1]))
    return None


def generation_of(line: str) -> int | None:
    """The generation of a row or repair; none of what all generations have."""
    color = color_of(line)
    return None if color is None or line.startswith("route unreachable") else color // 2


class Made(NamedTuple):
    """What a table's routes are made of: the digest of the certificate, its generation, the routes and rules, and by
    which nodes each prefix goes."""

    digest: str
    generation: int
    state: State
    owners: dict[str, tuple[str, ...]]

    def moved_from(self, before: Made) -> list[str]:
        """The prefixes that go by other nodes than before."""
        return [prefix for prefix, own in self.owners.items() if before.owners.get(prefix, own) != own]


def is_of_color(line: str) -> bool:
    """Whether a line is a repair with a realm, and no primary after the daemon's."""
    return is_repair(line) and generation_of(line) is not None


class Skipped(NamedTuple):
    """A certificate that other routers may have had and this one had not: its generation, its digest, and until when its
    rows may be there. None of both is known of what nobody has seen here."""

    generation: int | None
    digest: str
    until: float


class Generations:
    """What the kernel is to have at a time: the newest routes, but for those that wait, and old ones that linger."""

    def __init__(self, linger: float) -> None:
        self.linger = linger
        self.made: Made | None = None
        # Lines of former tables, and until when they stay.
        self.old: dict[str, float] = {}
        # The digest that each generation had last, and when its rows went or will have gone.
        self.digests: dict[int, str] = {}
        self.gone: dict[int, float] = {}
        self.skipped: list[Skipped] = []
        # Until when a generation has no routes, or a prefix of it; and until when repairs do not turn.
        self.held: dict[tuple[int, str], float] = {}
        self.turn = 0.0

    def begin(self, state: State, digests: dict[int, str], now: float) -> None:
        """What a former agent has left in the kernel, and of which certificates. What is left of none that is known may
        be of any."""
        self.old = {line: now + self.linger for line in state if generation_of(line) is not None}
        there = sorted({generation for line in self.old if (generation := generation_of(line)) is not None})
        self.digests = {generation: digests.get(generation, "") for generation in there}
        self.gone = {generation: now + self.linger for generation in there}

    def take(self, made: Made, has: State, lost_link: bool, now: float) -> str | None:
        """Takes newest routes in the place of what the kernel has; what is to be told of it."""
        notice, before, mine = None, self.made, made.generation
        self.lay_away(made, has, now)
        if self.clashes(mine, made.digest, now):
            self.held[mine, ""] = now + KEPT + PAUSE
            for line in has:
                if generation_of(line) == mine:
                    self.old[line] = min(self.old.get(line, now + KEPT), now + KEPT)
            pause = f"{KEPT + PAUSE:g} s"
            notice = f"routers may have another certificate of generation {mine}: the new rows come in {pause}"
        if before and before.digest == made.digest:
            for prefix in made.moved_from(before):
                self.held[mine, prefix] = now + PAUSE
        elif before:
            self.turn = now + TURN if lost_link else 0.0
            self.gone[before.generation] = now + self.linger
        self.made, self.digests[mine] = made, made.digest
        return notice

    def lay_away(self, made: Made, has: State, now: float) -> None:
        """What is not wanted any more lingers, if it is of another generation."""
        for line in has - made.state:
            if generation_of(line) not in (None, made.generation):
                self.old.setdefault(line, now + self.linger)
        # (repairs that others have taken the place of are gone)
        self.old = {
            line: until
            for line, until in self.old.items()
            if (line not in made.state or self.waits(line)) and (line in has or not is_of_color(line))
        }

    def skip(self, now: float, generation: int | None = None, digest: str = "") -> None:
        """Other routers may have rows of a certificate that came and went, or of any."""
        self.skipped.append(Skipped(generation, digest, now + self.linger))

    def clashes(self, generation: int, digest: str, now: float) -> bool:
        """Whether a certificate's generation had another one whose rows other routers may have."""
        if self.made is not None and self.made.digest == digest:
            return False
        known = self.digests.get(generation)
        current = self.made is not None and self.made.generation == generation
        if known not in (None, digest) and (current or now < self.gone.get(generation, 0) + PAUSE):
            return True
        self.skipped = [skipped for skipped in self.skipped if now < skipped.until + PAUSE]
        # (rows that are there already are those of all who have this certificate)
        return any(
            known != digest if other.generation is None else other.generation == generation and other.digest != digest
            for other in self.skipped
        )

    # what there is to be

    def state(self, now: float) -> State:
        """The routes and rules that the kernel is to have. Of a prefix that has old repairs and new ones, these are the
        new ones, but before repairs turn the old ones."""
        self.old = {line: until for line, until in self.old.items() if now < until}
        self.held = {place: until for place, until in self.held.items() if now < until}
        lines = {line for line in self.made.state if not self.waits(line)} if self.made else set(bare())
        repaired = {prefix_of(line) for line in lines if is_of_color(line)}
        kept = {prefix_of(line) for line in self.old if is_of_color(line)}
        if now < self.turn:
            lines = {line for line in lines if not (is_of_color(line) and prefix_of(line) in kept)}
            repaired -= kept
        return frozenset(
            lines | {line for line in self.old if not (is_of_color(line) and prefix_of(line) in repaired)}
        )

    def waits(self, line: str) -> bool:
        """Whether a line of the newest routes is to come later."""
        of = generation_of(line)
        return of is not None and ((of, "") in self.held or (of, prefix_of(line)) in self.held)

    def next(self, now: float) -> float | None:
        """When the kernel is to have something else."""
        times = [self.turn, *self.held.values(), *self.old.values()]
        return min((time for time in times if time > now), default=None)

    def whole(self, now: float) -> float:
        """When all of the newest routes are in the kernel."""
        mine = [until for (of, _), until in self.held.items() if self.made and of == self.made.generation]
        return max([now, self.turn, *mine])

    def clear(self, now: float) -> None:
        """The kernel has nothing any more; other routers may."""
        self.made, self.old, self.held, self.turn = None, {}, {}, 0.0
        until = now + self.linger
        self.gone = {generation: min(self.gone.get(generation, until), until) for generation in self.digests}

    def forget_old(self) -> None:
        """Nothing lingers any more, as the kernel refuses it."""
        self.old, self.turn = {}, 0.0

    # files

    def write(self, name: str) -> None:
        digests = {str(generation): digest for generation, digest in self.digests.items()}
        files.replace(name, json.dumps(digests).encode("ascii"), lasting=False)


def read(name: str) -> dict[int, str]:
    """The digests of the tables in the kernel, by generation, as an agent before has kept them."""
    try:
        with open(name, encoding="ascii") as file:
            return {int(generation): str(digest) for generation, digest in json.load(file).items()}
    except (OSError, ValueError, AttributeError):
        return {}

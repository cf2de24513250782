"""Times `mrt trace` and `mrt fabric` beside `mrt certify` on a ring and a mesh of 2,048 routers, all in one run.

A packet enters at the first router for the farthest one, without a failure, and where the first link of its primary has failed. The script
has 1,000 such packets after that failure, each with its steps until it ends. Each command computes the certificate too, and `trace` and `fabric`
the primaries, so that the ratios say what these cost beside it; what `fabric` takes more than `trace` is due to the other packets. It builds the
program where need be; it fetches nothing.
"""
import tempfile

from bench.areas import areas
from bench.measure import timing
from bench.measure.time_certify import SHAPES
from bench.reference import certify, table
from bench.reference.database import text_of
from bench.reference.lsas import spelled


SIZE, PACKETS, ROUNDS = 2048, 1000, 15


def farthest(data):
    """The name of the router farthest from the first one, and of the first link of the primary for it. Both ways of a link cost the same."""
    area = certify.area_of(data)
    far = table.distances_to(area, 0)
    place = max(far, key=far.get)
    return text_of(area.ids[place]), f"link:{text_of(area.ids[0])}/{spelled(table.primary(area, 0, place).first.data)}"


def script(to, failed, steps):
    """The failure, and packets that each enter and have so many steps."""
    lines = ["island 0.0.0.1 " + str(PACKETS), "fail " + failed]
    for packet in range(PACKETS):
        lines += [f"inject 0.0.0.1 {to} repair"] + [f"step {packet}"] * steps
    return "".join(line + "\n" for line in lines).encode()


def timed(what, words, text, certify_time):
    """The time of a command, in milliseconds, printed with its ratio."""
    time = timing.writing(words, text, ROUNDS)
    print(f"  {what}: {time:.1f} ms, {time / certify_time:.2f} times the time of mrt certify")
    return time


def report(shape, folder):
    """The times of one shape."""
    database, packets, text = (f"{folder}/{shape}.{kind}" for kind in ("lsas", "script", "text"))
    data = SHAPES[shape](SIZE)
    areas.write(database, data)
    to, failed = farthest(data)
    trace = [timing.PROGRAM, "trace", database, "-", "0.0.0.1", to, "repair"]
    certify_time = timing.writing([timing.PROGRAM, "certify", database, "-", "0.0.0.1"], text, ROUNDS)
    print(f"{shape} {SIZE}: mrt certify {certify_time:.1f} ms; packets from 0.0.0.1 to {to}")
    timed("mrt trace without a failure", trace, text, certify_time)
    trace_time = timed(f"mrt trace after {failed} has failed", trace + [failed], text, certify_time)
    # The lines of the failure and of the packet that enters are no steps.
    steps = len(areas.read(text).splitlines()) - 2
    areas.write(packets, script(to, failed, steps))
    time = timed(f"mrt fabric, {PACKETS} packets of {steps} steps", [timing.PROGRAM, "fabric", database, "-", packets], text, certify_time)
    print(f"  {(time - trace_time) * 1000 / ((PACKETS - 1) * steps):.2f} microseconds for each further step")


def main():
    timing.build()
    with tempfile.TemporaryDirectory() as folder:
        for shape in ("ring", "mesh"):
            report(shape, folder)


if __name__ == "__main__":
    main()

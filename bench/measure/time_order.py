"""Times `mrt order` of a router in the middle of a ring and of a mesh of 1,024 and 2,048 routers, which are one block.

Its text has a letter for each destination and each node and link of the block. The script prints the time, the nanoseconds for each byte of the text,
and how both grow for twice the routers: the time at most a fifth more than the text. It builds the program where need be; it fetches nothing.
"""
import os
import tempfile

from bench.areas import areas
from bench.measure import timing
from bench.measure.time_certify import DENSE, SHAPES, SIZES, told
from bench.reference.lsas import spelled


ROUNDS = 15
MOST = 1.2


def report(shape, size, folder):
    """The time of the repairs of one router, in milliseconds, and the length of their text, in bytes."""
    database, text = f"{folder}/{shape}-{size}.lsas", f"{folder}/{shape}-{size}.text"
    areas.write(database, SHAPES[shape](size))
    order = [timing.PROGRAM, "order", database, "-", spelled(size // 2)]
    taken = timing.writing(order, text, ROUNDS)
    length = os.path.getsize(text)
    print(f"{shape} {size}: mrt order {taken:.1f} ms, {length} bytes, {taken * 1e6 / length:.1f} ns for each; "
          f"peak memory {timing.peak(order) / length:.2f} times the text")
    return taken, length


def main():
    timing.build()
    with tempfile.TemporaryDirectory() as folder:
        for shape in DENSE:
            (half, shorter), (whole, longer) = (report(shape, size, folder) for size in SIZES)
            print(f"{shape}: {whole / half:.2f} times the time for {longer / shorter:.2f} times the text, "
                  f"{told(whole / half / (longer / shorter), MOST)} of it")


if __name__ == "__main__":
    main()

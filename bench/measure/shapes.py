"""Times every form of `mrt` on areas of many shapes, of half and of whole size, beside sha256sum, and prints one table.

Each row is a form on the larger area of a shape: the least time of some runs, which go side by side with those of sha256sum of the largest
file that the form reads or writes; its ratios to `mrt certify` of the same area, to sha256sum, and to the time at half the size; and the peak
memory, beside the database and beside that file. `table` and `order` ask for a router in the middle, `lfa`, `trace` and the failure in `fabric-ten`
and `fabric-all` for one with two links (or as near to two as there are), and the forms in `-hub` for the one with most, where these are more than eight.

A row says where a bound does not hold: a table takes at most 0.1 s or 1.5 times `certify`, whichever is more; `check` and `upgrade` at most 10 ms
more than 1.5 times sha256sum of the largest file, in at most 4 MB more than 1.1 times the certificate and six times the database; twice the nodes
at most 4.4 times the time, where this is over 20 ms; another program answers the same; `trace`, `fabric-ten`, `proxy` and `flood` take at most
1.5 times `lfa` of a router with two links on the same area. With --check the status is 1 where one of these does not hold but the last, with
--strict where any. It builds the program where need be, if none is named; it fetches nothing.
"""
import argparse
import filecmp
import os
import shutil
import sys
import tempfile
from collections import namedtuple

from bench.areas import graphs
from bench.areas.inputs import Inputs
from bench.measure import timing


SIZE, ROUNDS, BUDGET, PATIENCE = 4096, 7, 12, 120
TABLE_SECONDS, TABLE_RATIO, LFA_RATIO, GROWTH, GROWTH_FROM = 0.1, 1.5, 1.5, 4.4, 0.02
FILE_RATIO, FILE_SECONDS = 1.5, 0.01
OF_CERTIFICATE, OF_DATABASE, MEMORY = 1.1, 6, 4e6
OF_FILES = "check", "upgrade"
AS_LFA = "trace", "fabric-ten", "proxy", "flood"
FORMS = (
    ["certify", "check", "upgrade", "table", "table-hub", "trace", "fabric-ten", "fabric-all"]
    + ["proxy", "lfa", "lfa-hub", "order", "flood", "survey"]
)
COLUMNS = f"{'shape':<15}{'form':<11}{'nodes':>6}{'ms':>9}{'certify':>9}{'sha256':>8}{'growth':>8}{'MB':>8}{'of db':>9}{'of file':>9}"

# Seconds of the form, of the other program's and of sha256sum of the file, whose size is told; a fault where the form did not end well, so that there
# are no times; whether the other program answers otherwise.
Row = namedtuple("Row", "shape form nodes seconds beside sha file memory database certificate fault differs", defaults=[None, False])


# runs


class Programs:
    """The program, and another one that is timed on the same files, if there is one."""

    def __init__(self, program, beside, rounds):
        self.program, self.beside, self.rounds = program, beside, rounds

    def all(self):
        return [self.program] + ([self.beside] if self.beside else [])

    def differ(self, words, text):
        """Whether the other program answers otherwise than what stands in a file."""
        if not self.beside:
            return False
        other = f"{text}-beside"
        return timing.run([self.beside, *words], other, patience=PATIENCE).status != 0 or not filecmp.cmp(text, other, False)


def largest(words):
    """The largest file that words name."""
    return max((word for word in words if os.path.isabs(word)), key=os.path.getsize)


def row_of(programs, shape, form, inputs, words):
    """The row of a form, without its growth. A run that fails has a fault in the place of its times."""
    text, database = inputs.path("text"), os.path.getsize(inputs.path("database"))
    nodes = len(inputs.asked.area.ids)
    first = timing.run([programs.program, *words], text, patience=PATIENCE)
    if first.status != 0:
        line = first.errors.decode().strip() or f"status {first.status}"
        fault = f"over {PATIENCE} s" if first.status is None else line
        return Row(shape, form, nodes, None, None, None, 0, first.memory, database, 0, fault)
    if form == "certify":
        shutil.copy(text, inputs.path("certificate"))
    written = inputs.path("certificate")
    certificate = os.path.getsize(written) if os.path.exists(written) else 0
    if form == "flood":
        with open(text, "rb") as answers:
            if not answers.read().endswith(b"\nsame\n"):
                sys.exit(f"{shape}: two routers differ that were sent the same")
    # (the text is written anew while it is timed, so that what sha256sum reads is a copy)
    summed = inputs.path("summed")
    shutil.copy(largest([*words, text]), summed)
    differs = programs.differ(words, text)
    commands = [[program, *words] for program in programs.all()] + [["sha256sum", summed]]
    *times, sha = timing.in_turn(commands, text, programs.rounds, BUDGET)
    return Row(shape, form, nodes, times[0], times[-1], sha, os.path.getsize(summed), first.memory, database, certificate, None, differs)


def rows_of(programs, shape, size, forms, folder):
    """The rows of a shape of one size by form. `certify` and `lfa` are always among them, since the others stand beside them."""
    inputs = Inputs(folder, graphs.SHAPES[shape](size))
    words = inputs.forms()
    return {
        form: row_of(programs, shape, form, inputs, words[form])
        for form in FORMS
        if form in words and (form in forms or form in ("certify", "lfa"))
    }


# bounds


def growth(row, half):
    """How many times longer a form took than at half the size; nothing where either has no time."""
    return row.seconds / half.seconds if half and row.seconds and half.seconds else None


def over_its_files(row):
    """What `check` or `upgrade` takes too much of, beside the files that it reads and writes."""
    seconds = FILE_RATIO * row.sha + FILE_SECONDS
    memory = OF_CERTIFICATE * row.certificate + OF_DATABASE * row.database + MEMORY
    if row.seconds > seconds:
        yield f"TOO MUCH: over {seconds * 1000:.1f} ms"
    if row.memory > memory:
        yield f"TOO MUCH: over {memory / 1e6:.1f} MB"


def faults(row, rows, half):
    """What a row breaks, and what only --strict asks for."""
    if row.fault:
        return [row.fault], []
    hard, soft, grown = ["ANOTHER ANSWER"] * row.differs, [], growth(row, half)
    certify, lfa = rows["certify"].seconds, rows["lfa"].seconds
    if row.form.startswith("table") and certify and row.seconds > max(TABLE_SECONDS, TABLE_RATIO * certify):
        hard.append(f"TOO MUCH: over {TABLE_RATIO} times certify")
    if row.form in OF_FILES:
        hard += over_its_files(row)
    if grown and grown > GROWTH and row.seconds > GROWTH_FROM:
        hard.append(f"TOO MUCH: over {GROWTH} times for twice the nodes")
    if row.form in AS_LFA and lfa and row.seconds > LFA_RATIO * lfa:
        soft.append(f"{row.seconds / lfa:.1f} times lfa")
    return hard, soft


# the table


def told(value, width, digits=2):
    return " " * (width - 1) + "-" if value is None else f"{value:{width}.{digits}f}"


def line(row, rows, half, with_beside):
    """The line of a row."""
    certify = rows["certify"].seconds
    ratio = lambda one, other: one / other if one and other else None
    times = row.seconds and row.seconds * 1000
    text = f"{row.shape:<15}{row.form:<11}{row.nodes:>6}{told(times, 9, 1)}{told(ratio(row.seconds, certify), 9)}"
    text += f"{told(ratio(row.seconds, row.sha), 8)}{told(growth(row, half), 8)}{row.memory / 1e6:8.1f}"
    text += f"{row.memory / row.database:9.1f}{told(ratio(row.memory, row.file), 9, 1)}"
    if with_beside:
        text += f"{told(row.beside and row.beside * 1000, 9, 1)}{told(ratio(row.seconds, row.beside), 8)}"
    hard, soft = faults(row, rows, half)
    return text + "".join(f"  {word}" for word in hard + soft)


def report(programs, shape, size, forms):
    """Measures one shape, prints its rows, and gives those that were asked for, with those of half the size."""
    found = []
    for each in (size // 2, size):
        with tempfile.TemporaryDirectory() as folder:
            found.append(rows_of(programs, shape, each, forms, folder))
    half, whole = found
    # A survey has half the nodes at most, so that it has no row of whole size.
    asked = [form for form in FORMS if form in forms and (form in whole or form in half)]
    for form in asked:
        rows, before = (whole, half.get(form)) if form in whole else (half, None)
        print(line(rows[form], rows, before, programs.beside), flush=True)
    return whole, half, asked


# the table for README.md


def spread(values, digits):
    """The least and the greatest of some values, as a text."""
    least, most = (f"{value:.{digits}f}" for value in (min(values), max(values)))
    return least if least == most else f"{least}-{most}"


def cell(row):
    """Milliseconds, and the multiple of sha256sum."""
    if row is None or not row.seconds:
        return ""
    return f"{row.seconds * 1000:.0f}, {row.seconds / row.sha:.2f}"


def markdown(results):
    """The rows of each form over some shapes, as a table of README.md."""
    shapes = list(results)
    names = " | ".join(shape.replace("-", " ") for shape in shapes)
    yield f"| Form | {names} | MB | beside the file | twice the nodes |"
    yield "|---" * (len(shapes) + 4) + "|"
    for form in FORMS:
        rows = {shape: whole[form] for shape, (whole, _, asked) in results.items() if form in asked and form in whole}
        timed = [row for row in rows.values() if row.seconds]
        if not timed:
            continue
        grown = [it for it in (growth(rows[shape], results[shape][1].get(form)) for shape in rows) if it]
        memory, beside = ([row.memory / 1e6 for row in timed], [row.memory / row.file for row in timed])
        cells = " | ".join(cell(rows.get(shape)) for shape in shapes)
        yield f"| `{form}` | {cells} | {spread(memory, 0)} | {spread(beside, 1)} | {spread(grown, 1) if grown else ''} |"


# the words


def chosen(text, all_names):
    """The names that a word with commas has."""
    names = text.split(",")
    for name in names:
        if name not in all_names:
            raise argparse.ArgumentTypeError(f"{name} is none of {', '.join(all_names)}")
    return names


def words():
    parser = argparse.ArgumentParser(description=__doc__.split("\n")[0])
    parser.add_argument("--program", help="the program to time; where none is named, that of this checkout, which is built")
    parser.add_argument("--beside", help="another program, which is timed on the same files in turn")
    parser.add_argument("--size", type=int, default=SIZE, help=f"nodes of the larger areas ({SIZE})")
    parser.add_argument("--rounds", type=int, default=ROUNDS, help=f"runs of each at most ({ROUNDS})")
    names = ", ".join(graphs.SHAPES)
    parser.add_argument("--shapes", type=lambda it: chosen(it, graphs.SHAPES), default=list(graphs.SHAPES), help=names)
    parser.add_argument("--forms", type=lambda it: chosen(it, FORMS), default=FORMS, help=", ".join(FORMS))
    parser.add_argument("--check", action="store_true", help="status 1 where a bound does not hold")
    parser.add_argument("--strict", action="store_true", help="the same, with the bounds beside lfa")
    parser.add_argument("--markdown", action="store_true", help="print at the end a table for README.md")
    return parser.parse_args()


def main():
    asked = words()
    if asked.program is None:
        timing.build()
    programs = Programs(asked.program or timing.PROGRAM, asked.beside, asked.rounds)
    print(COLUMNS + (f"{'beside':>9}{'ratio':>8}" if asked.beside else ""))
    results = {shape: report(programs, shape, asked.size, asked.forms) for shape in asked.shapes}
    if asked.markdown:
        print("\n".join(["", *markdown(results)]))
    broken = False
    for whole, half, forms in results.values():
        for form in forms:
            if form in whole:
                hard, soft = faults(whole[form], whole, half.get(form))
                broken |= bool(hard or asked.strict and soft)
    sys.exit(1 if broken and (asked.check or asked.strict) else 0)


if __name__ == "__main__":
    main()

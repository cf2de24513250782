"""Rows of a program of rows, and what stands under each name."""
import pathlib

CRATES = pathlib.Path(__file__).resolve().parent.parent.parent / "crates"


class Unknown(Exception):
    """What nothing here computes."""


def rows(crate):
    """The name, the call and the words of each row."""
    for line in (CRATES / crate / "stdin").read_text(encoding="ascii").splitlines():
        if line and not line.startswith("#"):
            name, call, *words = line.split(" ")
            yield name, call, words


def answers(crate):
    """What stands under each name."""
    found = {}
    for line in (CRATES / crate / "stdout").read_text(encoding="ascii").splitlines(True):
        if line.startswith(" "):
            found[name] += line
        else:
            name = line.split()[0]
            assert name not in found, name
            found[name] = line[len(name):]
    return found


def laid_out(lines):
    """Lines as they stand in an answer: one after the name, several below it."""
    return f" {lines[0]}\n" if len(lines) == 1 else "\n" + "".join(f"  {line}\n" for line in lines)


def compare(crate, computed):
    """Prints each answer that is not as computed, then the counts; returns how many those are. `computed` takes a row's name, call and words."""
    told, wrong, unknown, names = answers(crate), [], [], []
    for name, call, words in rows(crate):
        names.append(name)
        try:
            right = computed(name, call, words)
        except Unknown:
            unknown.append(name)
            continue
        if told.get(name) != right:
            wrong.append(name)
            print(f"{name}: told\n{told.get(name)}and computed\n{right}", end="")
    if names != list(told):
        wrong.append("names")
        print("the names of the rows and of the answers differ")
    print(f"{crate}: {len(names)} rows, {len(names) - len(unknown)} computed, {len(wrong)} wrong")
    return len(wrong)

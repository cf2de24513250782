"""Compares the rows of crates/cmd_tests, and their files, with the reference program.

usage: python3 -m bench.rows.cmd_rows --check [--all]

The files in crates/cmd_tests/data are made anew and compared. Each row is answered by bench/reference, and by a plain model of the shelf and of the
output that stands here, and compared with what `stdout` has under its name. What nothing here computes is counted: the texts of surveys, and,
but for --all, the rows over rings of 2,048 routers and more that are computed, which take minutes. The status is 1 where something differs.
"""
import os
import sys

from bench.reference import certify, fabric, lsas
from bench.reference.database import Refused
from bench.reference.island import address_of, number_of
from bench.rows import cmd_files
from bench.rows.rows import Unknown, compare

HERE = os.path.dirname(os.path.abspath(__file__))
NEVER = 2**32 - 1
CALM = {"read": NEVER, "room": 100000, "step": NEVER, "write": NEVER, "error": NEVER}
# The files that a form names, as their limits are called, and the words after them.
DATABASE, PROFILE, CERTIFICATE, SCRIPT, UPDATES = "database-file", "profile-file", "certificate-file", "script-file", "updates-file"
FORMS = {
    "check": ((DATABASE, PROFILE, CERTIFICATE), 0),
    "upgrade": ((DATABASE, PROFILE, CERTIFICATE), 0),
    "certify": ((DATABASE, PROFILE), 1),
    "table": ((DATABASE, PROFILE), 1),
    "order": ((DATABASE, PROFILE), 1),
    "proxy": ((DATABASE, PROFILE), 3),
    "trace": ((DATABASE, PROFILE), None),
    "fabric": ((DATABASE, PROFILE, SCRIPT), 0),
    "flood": ((UPDATES, PROFILE, SCRIPT), 0),
    "lfa": ((DATABASE,), 1),
}
# The forms whose text is a line or more lines that end with no line feed here.
OF_LINES = "check", "table", "lfa", "order", "proxy"


# rows

def cut_at(words, mark):
    return (words[:words.index(mark)], words[words.index(mark) + 1:]) if mark in words else (words, [])


def parts(call, words):
    """The settings, the words, the file that the text is compared with and the words of the text, of a row."""
    settings, words = ([], words) if call == "run" else cut_at(words, ":")
    words, text = cut_at(words, "<<")
    words, wanted = cut_at(words, ">")
    return settings, ["" if word == '""' else word for word in words], "".join(wanted), text


def text_of(words):
    """The file that stands in a row."""
    return " ".join(words).replace(" / ", "\n").replace("/ ", "\n").replace(" /", "\n").encode()


# files

def made(word):
    """A large file that a word tells."""
    kind, *counts = word.split(":")
    if kind not in ("zeros", "ring", "packets") or not counts:
        return None
    first, second = (list(map(int, counts)) + [0])[:2]
    if kind == "zeros":
        return bytes(first)
    if kind == "packets":
        alone = [lsas.router_lsa(number, []) for number in range(1, first + second + 1)]
        return lsas.update(0x01010101, alone[:first]) + lsas.update(0x01010101, alone[first:])
    return b"".join(
        lsas.router_lsa(k + 1, [((k + 1) % first + 1, 1, 1, 1)] * second + [((k - 1) % first + 1, 2, 1, 1)] * second) for k in range(first))


def held(word, text):
    """The bytes of a file, if there is one of this name."""
    return text if word == "lines" else made(word) or cmd_files.FILES.get(word)


def in_order(records, number):
    """Records in one of their orders, by its number."""
    records = list(records)
    for place in range(len(records)):
        number, choice = divmod(number, len(records) - place)
        records[place], records[place + choice] = records[place + choice], records[place]
    return b"".join(records)


def changes(call, file):
    """The files that a call goes over."""
    if call == "cuts":
        return [file[:size] for size in range(len(file))]
    records, count = lsas.records_of(file), 1
    for k in range(len(records)):
        count *= k + 1
    return [in_order(records, number) for number in range(count)]


# the words of a form

def is_form(words):
    """Whether the words are one of the forms."""
    if words[:1] == ["survey"]:
        numbers = [number_of(word.encode()) for word in words[1:]]
        return len(numbers) == 2 and None not in numbers and numbers[0] < 2**32 and 4 <= numbers[1] <= 2048
    if not words or words[0] not in FORMS:
        return False
    files, others = FORMS[words[0]]
    names, others_said = words[1:len(files) + 1], words[len(files) + 1:]
    if "" in names or len(names) < len(files):
        return False
    if words[0] == "trace":
        return is_trace(others_said)
    addresses = [address_of(word.encode()) for word in others_said]
    return len(addresses) == others and None not in addresses and (words[0] != "proxy" or addresses[1] != addresses[2])


def is_trace(words):
    try:
        return bool(fabric.read_trace([word.encode() for word in words]))
    except Refused:
        return False


# what comes of the words

def read(words, held, fails):
    """The files that the words name. A certificate is opened, comes in one piece, and ends: three calls of the shelf; another file takes one."""
    files, calls = [], 0
    for number, (word, what) in enumerate(zip(words[1:], FORMS[words[0]][0]), 1):
        if what == PROFILE and word == "-":
            files.append(b"")
            continue
        file, first, calls = held(word), calls, calls + (3 if what == CERTIFICATE else 1)
        if file is None or first <= fails < calls:
            raise Refused(8, f"read fault: word {number}")
        if len(file) > certify.LIMITS[what]:
            raise Refused(6, f"too large: {what} {certify.LIMITS[what] + 1}")
        files.append(file)
    return files


def text_for(words, held, fails):
    """The bytes of the text."""
    if not is_form(words):
        raise Refused(2, fabric.USAGE)
    if words[0] == "survey":
        raise Unknown
    files = read(words, held, fails)
    others = words[1 + len(files):]
    if words[0] == "trace":
        others = [[word.encode() for word in others]]
    elif words[0] == "proxy":
        others = [[lsas.address(word) for word in others]]
    else:
        others = [lsas.address(word) for word in others]
    text = getattr(certify, words[0])(*files, *others)
    return text.encode() + b"\n" if words[0] in OF_LINES else text


def put(text, devices):
    """What the output takes of a text."""
    taken = calls = 0
    while taken < len(text):
        count = min(len(text) - taken, devices["step"], devices["room"] - taken)
        if count == 0 or calls == devices["write"]:
            raise Refused(9, f"write fault after {taken}")
        taken, calls = taken + count, calls + 1


def answer(words, held, devices, wanted):
    """The lines of an answer."""
    text, exit, line = b"", 0, ""
    try:
        text = text_for(words, held, devices["read"])
        put(text, devices)
    except Refused as refused:
        exit, line = refused.status, f"mrt: {refused.line}\n"
        text = text[:int(line.split()[-1])] if exit == 9 else b""
    mark = "untold" if devices["error"] == 0 else "!"
    return f" exit {exit}\n" + text_lines(text, wanted) + (f"  {mark} {line}" if line else "")


def text_lines(text, wanted):
    """The lines of a text, or what it is of the file with which it is compared."""
    file = cmd_files.FILES.get(wanted)
    if wanted and text == file:
        return f"  = {wanted}\n"
    if wanted and file.startswith(text):
        return f"  the first {len(text)} bytes of {wanted}\n"
    if any(byte != 10 and not 32 <= byte <= 126 for byte in text):
        digits = [text[at:at + 32].hex() for at in range(0, len(text), 32)]
        return f"  {len(text)} bytes\n" if len(text) > 65536 else "".join(f"  x {line}\n" for line in digits)
    lines = text.decode().splitlines(True)
    before = f"  {len(lines)} lines, the last:\n" if len(text) > 65536 else ""
    return before + "".join(f"  > {line}" if line.endswith("\n") else f"  ~ {line}\n" for line in (lines[-1:] if before else lines))


def ranges(found):
    """The answers of a call that goes over many files, each with the numbers of those that have it."""
    text, first = "\n", 0
    for number in range(1, len(found) + 1):
        if number == len(found) or found[number] != found[first]:
            text += f"  {first}" + (f" to {number - 1}" if first < number - 1 else "") + found[first]
            first = number
    return text


def is_slow(words):
    """Whether the reference program takes a minute and more."""
    return bool(words) and words[0] in ("certify", "table", "trace") and any(word.startswith("ring:") for word in words)


def computed(_, call, words):
    """The answer to a row."""
    settings, words, wanted, text = parts(call, words)
    if is_slow(words) and "--all" not in sys.argv:
        raise Unknown
    if call in ("cuts", "orders"):
        name, = settings
        over = lambda file: lambda word: file if word == name else cmd_files.FILES.get(word)
        return ranges([answer(words, over(file), CALM, wanted) for file in changes(call, cmd_files.FILES[name])])
    devices = CALM | {name: int(number) for name, number in (setting.split("=") for setting in settings)}
    return answer(words, lambda word: held(word, text_of(text)), devices, wanted)


def main():
    if sys.argv[1:] not in (["--check"], ["--check", "--all"]):
        sys.exit(__doc__)
    wrong = cmd_files.differences()
    for name in wrong:
        print(f"{name}: not the file that cmd_files.py tells")
    sys.exit(1 if compare("cmd_tests", computed) or wrong else 0)


if __name__ == "__main__":
    main()

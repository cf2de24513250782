"""Compares rows of crates/graph_tests with the reference program: searches, ears, directions, least paths, rows, columns, certificates that are
computed, read, spoilt, edited, judged and compared, colors by order, texts on prefixes.

usage: python3 -m bench.rows.graph_rows --check

What nothing here computes is counted. The status is 1 where something differs.
"""
import re
import sys
from collections import namedtuple

from bench.reference import certificate, lowpoint
from bench.reference.by_order import Chooser, View, reached
from bench.reference.database import NETWORK, ROUTER, Id, Refused, text_of
from bench.reference.island import address_of, ends_of, number_of
from bench.rows import graph_files
from bench.rows.rows import Unknown, compare, laid_out

Link = namedtuple("Link", "a b metric_a metric_b data_a data_b")
Island = namedtuple("Island", "ids links ends root")
TAGS = "sole head top below above unordered carried".split()
ROLES = "plain sole closing".split()


# what words tell

def told(words):
    """The values after names, by these."""
    return dict(word.split("=", 1) for word in words if "=" in word)


def numbers(text, mark):
    return tuple(map(int, text.split(mark)))


def link_of(text):
    """A link, as 0-1:10/20:1/2."""
    nodes, metrics, data = (text.split(":") + ["10/10", "0/0"][text.count(":"):])[:3]
    return Link(*numbers(nodes, "-"), *numbers(metrics, "/"), *numbers(data, "/"))


def links_of(words):
    """The links that words tell."""
    line, ring = int(words.get("line", 0)), int(words.get("ring", 0))
    links = [Link(n - 1, n, 1, 1, 0, 0) for n in range(1, line)]
    for n in range(1, ring):
        links.append(Link(n - 1, n, 10, 20, 0, 0))
        if n == 1:
            links.append(Link(0, ring - 1, 5, 5, 0, 0))
    return links + [link_of(text) for text in words.get("links", "").split(",") if text]


def island_of(words):
    """The graph and the root that words tell."""
    links = links_of(words)
    count = int(words.get("nodes", max(int(words.get("line", 0)), int(words.get("ring", 0)))))
    routers = int(words.get("routers", count))
    ids = [Id(n + 1, ROUTER if n < routers else NETWORK) for n in range(count)]
    return Island(ids, links, ends_of(count, links), int(words["root"]))


def file_of(words):
    """The bytes of the file that words name, with what they put into it."""
    data = bytearray(graph_files.FILES[words["file"]])
    for text in filter(None, words.get("bytes", "").split(",")):
        place, byte = numbers(text, ":")
        data[place:place + 1] = bytes([byte])
    return edited(bytes(data[:int(words.get("cut", len(data)))]), words.get("edits", ""))


def edited(data, edits):
    """A file with one value in the place of another: `root:ID`, `number:NODE:ID`, `kind:NODE:network`, `node:NODE:ORDER.HEAD.BLOCK`,
    `link:LINK:A.B.BLOCK.ROLE` if A is left out with B as they are, `row:S.T:BLUE.RED.TAG`."""
    if not edits:
        return data
    file = certificate.read(data)
    ids, pairs, cert = list(file.ids), list(file.pairs), file.cert
    order, head, block = list(cert.order), list(cert.head), list(cert.block)
    link_block, role, rows = list(cert.link_block), list(cert.role), [list(row) for row in cert.rows]
    root = file.root
    for edit in edits.split(","):
        what, *values = edit.split(":")
        if what == "root":
            root = address_of(values[0].encode())
        elif what == "number":
            ids[int(values[0])] = Id(address_of(values[1].encode()), ids[int(values[0])].kind)
        elif what == "kind":
            ids[int(values[0])] = Id(ids[int(values[0])].number, NETWORK)
        elif what == "node":
            n = int(values[0])
            order[n], head[n], block[n] = numbers(values[1], ".")
        elif what == "link":
            e, (a, b, of, which) = int(values[0]), values[1].split(".")
            pairs[e], link_block[e], role[e] = (int(a), int(b)), int(of), ROLES.index(which)
        else:
            (s, t), (blue, red, tag) = numbers(values[0], "."), values[1].split(".")
            rows[s][t] = lowpoint.Row(int(blue), int(red), TAGS.index(tag.lower()))
    cert = lowpoint.Cert(order, head, block, link_block, role, rows)
    return certificate.spelling(certificate.File(file.version, root, ids, pairs, cert))


# answers

def dash(value):
    return "-" if value is None else str(value)


def way(link, leads):
    return "unset" if leads is None else "a>b" if leads == (link.a, link.b) else "b>a"


def gadag_of(island):
    return lowpoint.ears(island, lowpoint.lowpoints(island))


def blocks_of_links(island, gadag):
    return [lowpoint.common_block(gadag.head, gadag.block, link.a, link.b) for link in island.links]


def places(island, gadag):
    return " ".join(["places", *(f"{gadag.head[n]}/{gadag.block[n]}" for n in range(len(island.ids)))])


def marks(island, gadag, leads):
    blocks = blocks_of_links(island, gadag)
    return " ".join(["marks", *(f"{way(link, leads[e])}/{ROLES[gadag.role[e]]}/{blocks[e]}" for e, link in enumerate(island.links))])


def search(island):
    tree = lowpoint.lowpoints(island)
    entries = zip(tree.number, tree.parent_link, tree.low, tree.low_link)
    return [" ".join(["tree", *(f"{number}/{dash(parent)}/{low}/{dash(link)}" for number, parent, low, link in entries)])]


def ears(island):
    gadag = gadag_of(island)
    return [" ".join(["ear order", *map(str, gadag.ear_order)]), places(island, gadag), marks(island, gadag, gadag.leads)]


def direct(island):
    gadag = gadag_of(island)
    order, leads = lowpoint.direct(island, gadag)
    return [" ".join(["orders", *map(str, order)]), places(island, gadag), marks(island, gadag, leads)]


def hops(island):
    """Cost and first link of the least path, by source, destination and direction."""
    gadag, found = gadag_of(island), {}
    _, leads = lowpoint.direct(island, gadag)
    for block in lowpoint.blocks_of(island, gadag, leads, blocks_of_links(island, gadag)):
        if len(block.links) < 2:
            continue
        for to in block.nodes:
            for way, name in enumerate(("up", "down")):
                costs = lowpoint.least_costs(to, block.head, block.into[way])
                firsts = lowpoint.first_links(to, block.head, block.out[way], block.into[way])
                found |= {(source, to, name): f"{costs[source]}/{link}" for source, link in firsts.items()}
    return found


def spf(island):
    found, nodes = hops(island), range(len(island.ids))
    return [" ".join([f"from {s} {way}", *(found.get((s, t, way), "-") for t in nodes)]) for s in nodes for way in ("up", "down")]


def spf_to(island):
    found, nodes = hops(island), range(len(island.ids))
    return [" ".join([f"to {t} {way}", *(found.get((s, t, way), "-") for s in nodes)]) for t in nodes for way in ("up", "down")]


def row_text(row):
    return f"{row.blue}/{row.red}/{TAGS[row.tag]}"


def row_lines(cert, is_told=lambda row: True):
    """The rows of each source by ascending destination; one that stands several times in succession has how many times."""
    lines = []
    for s, rows in enumerate(cert.rows):
        texts, words = [row_text(row) for t, row in enumerate(rows) if t != s and is_told(row)], []
        while texts:
            times = next((k for k, text in enumerate(texts) if text != texts[0]), len(texts))
            words.append(texts[0] + (f"*{times}" if times > 1 else ""))
            texts = texts[times:]
        lines.append(" ".join([f"from {s}", *words]))
    return lines


def head_lines(ids, pairs, cert):
    nodes = [f"{text_of(id)}/{cert.order[n]}/{cert.head[n]}/{cert.block[n]}" for n, id in enumerate(ids)]
    links = [f"{a}-{b}/{cert.link_block[e]}/{ROLES[cert.role[e]]}" for e, (a, b) in enumerate(pairs)]
    return [" ".join(["nodes", *nodes]), " ".join(["links", *links])]


def pairs_of(island):
    return [(link.a, link.b) for link in island.links]


def cert_lines(ids, pairs, cert):
    return head_lines(ids, pairs, cert) + (row_lines(cert) if len(ids) > 1 else [])


def near_rows(island):
    cert = lowpoint.compute(island)
    return head_lines(island.ids, pairs_of(island), cert) + row_lines(cert, lambda row: TAGS[row.tag] != "carried")


def columns(island):
    cert, nodes = lowpoint.compute(island), range(len(island.ids))
    return [" ".join([f"to {t}", *("-" if s == t else row_text(cert.rows[s][t]) for s in nodes)]) for t in nodes]


def file_lines(file):
    return [f"version={file.version} root={text_of(Id(file.root, ROUTER))}"] + cert_lines(file.ids, file.pairs, file.cert)


def written(island):
    return certificate.File(2, island.root + 1, island.ids, pairs_of(island), lowpoint.compute(island))


def choosers(island):
    """For each two nodes of a block with more than one link what chooses colors by the order."""
    gadag = gadag_of(island)
    order, leads = lowpoint.direct(island, gadag)
    blocks = lowpoint.blocks_of(island, gadag, leads, blocks_of_links(island, gadag))
    rows = lowpoint.rows_of(island, gadag, order, blocks)
    for s in range(len(island.ids)):
        for t in range(len(island.ids)):
            block = next((block for block in blocks if len(block.links) > 1 and {s, t} <= set(block.nodes)), None)
            if s != t and block:
                view = View(block.head, block.nodes, block.links, *(reached(island, leads, block, s, up) for up in (True, False)))
                yield s, t, block, Chooser(order, gadag.role, leads, view, s, t, rows[s][t].tag)


def order_walks(island):
    count = sum(len(set(block.nodes) - {s, t}) + len(block.links) for s, t, block, _ in choosers(island))
    return [f"{count} of {count} go round"]


OF_ISLANDS = {
    "search": search, "ears": ears, "direct": direct, "spf": spf, "spf_to": spf_to, "near_rows": near_rows,
    "order_walks": order_walks, "column_of": columns, "columns": columns,
    "rows_of": lambda island: row_lines(lowpoint.compute(island)),
    "compute": lambda island: cert_lines(island.ids, pairs_of(island), lowpoint.compute(island)),
    "stream": lambda island: file_lines(written(island)),
}


def read_cert(data):
    """All of a file, or its first fault."""
    try:
        return file_lines(certificate.read(data))
    except Refused as refused:
        return [refused.line.removeprefix("bad certificate: ")]


def check(words):
    island = island_of(words)
    fault = certificate.first_fault(island, certificate.read(file_of(words)))
    return ["accepted" if fault is None else "no: rule {} at {} {}".format(*fault)]


def read_in_two(data):
    """What comes of a file however it is cut in two."""
    lines = read_cert(data)
    return [f"from 0: {lines[0] if len(lines) == 1 else f'written again, {len(data)} bytes'}", f"to {len(data)}"]


def number(text):
    return [dash(number_of(text)).replace("-", "none")]


def bytes_of(text):
    escaped = {"s": " ", "t": "\t", "n": "\n", "r": "\r"}
    spelled = lambda found: chr(int(found[1][1:], 16)) if found[1][0] == "x" else escaped[found[1]]
    return re.sub(r"\\(x..|.)", spelled, text).encode("latin1")


def computed(_, call, words):
    """The answer to a row."""
    if call == "is_same":
        one, other = (written(island_of(told(part.split(" ")))) for part in " ".join(words).split(" beside "))
        return laid_out([str(certificate.spelling(one) == certificate.spelling(other)).lower()])
    words = told(words)
    if call in OF_ISLANDS:
        return laid_out(OF_ISLANDS[call](island_of(words)))
    if call in ("read_cert", "read_in_two"):
        return laid_out({"read_cert": read_cert, "read_in_two": read_in_two}[call](file_of(words)))
    if call in ("number", "address"):
        text = bytes_of(words["text"])
        found = number_of(text) if call == "number" else address_of(text)
        return laid_out(["none" if found is None or found >= 2**32 else str(found)])
    if call == "check":
        return laid_out(check(words))
    raise Unknown


if __name__ == "__main__":
    if sys.argv[1:] != ["--check"]:
        sys.exit(__doc__)
    sys.exit(1 if compare("graph_tests", computed) else 0)

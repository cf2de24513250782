"""A plain reference program: writes the certificate of a router's island, prints a router's table, steps packets through a failure, and says
what `mrt check` is to say of a certificate. `upgrade` writes an accepted certificate in version 2, `lfa` prints a router's loop-free alternates, `order`
its repairs by order, `proxy` the rows for a prefix of two routers, and `flood` what comes of Link State Updates that are delivered to routers.

usage: python3 -m bench.reference.certify certify DATABASE PROFILE ROUTER CERTIFICATE
       python3 -m bench.reference.certify check DATABASE PROFILE CERTIFICATE
       python3 -m bench.reference.certify table DATABASE PROFILE ROUTER
       python3 -m bench.reference.certify trace DATABASE PROFILE FROM TO ENTRY [FAILED]
       python3 -m bench.reference.certify fabric DATABASE PROFILE SCRIPT
       python3 -m bench.reference.certify rows DATABASE PROFILE ROUTER
       python3 -m bench.reference.certify upgrade DATABASE PROFILE CERTIFICATE WRITTEN
       python3 -m bench.reference.certify lfa DATABASE ROUTER
       python3 -m bench.reference.certify order DATABASE PROFILE ROUTER
       python3 -m bench.reference.certify proxy DATABASE PROFILE ROUTER A B
       python3 -m bench.reference.certify flood UPDATES PROFILE SCRIPT

PROFILE is the name of a file, or - for the empty profile. `rows` prints the rows of a router and the order of the GADAG. A refusal is
printed as `mrt` prints it, and its status is the same. It is slow: an island of 2,048 nodes takes a minute or two.
"""
import os
import sys

from bench.reference import alternates, by_order, certificate, database, fabric as fabrics, flooding, island as islands, lowpoint, proxied, table as tables
from bench.reference.database import Id, Refused, text_of
from bench.reference.lsas import address, spelled

LIMITS = {"database-file": 8388608, "profile-file": 33554432, "certificate-file": 134217728, "script-file": 33554432, "updates-file": 33554432}


def read(name, what):
    with open(name, "rb") as file:
        data = file.read(LIMITS[what] + 1)
    if len(data) > LIMITS[what]:
        raise Refused(6, f"too large: {what} {len(data)}")
    return data


def read_parts(name, profile_name, what="database-file"):
    """The bytes of both files; a profile that is not named is empty."""
    return read(name, what), b"" if profile_name == "-" else read(profile_name, "profile-file")


def area_of(data):
    return database.area_of(database.newest(database.read_lsas(data)))


def parts_of(data, profile, router):
    """The area of a database, and the island of a router in it; what is over its limits is refused."""
    area, read_profile = area_of(data), islands.read_profile(profile)
    database.check_size(area)
    return area, islands.island_of(area, read_profile, router)


def island_of(data, profile, router):
    """The island of a router in the area of a database."""
    return parts_of(data, profile, router)[1]


def certify(data, profile, router):
    """The bytes of the certificate of a router's island."""
    found = island_of(data, profile, router)
    return certificate.write(found, lowpoint.compute(found))


def accepted(data, profile, cert):
    """The island of an accepted certificate's root, and its file; another one is refused."""
    area, read_profile, file = area_of(data), islands.read_profile(profile), certificate.read(cert)
    database.check_size(area)
    found = islands.island_of(area, read_profile, file.root)
    fault = certificate.first_fault(found, file)
    if fault:
        raise Refused(1, "no: rule {} at {} {}".format(*fault))
    return found, file


def check(data, profile, cert):
    """The line of an accepted certificate; another one is refused."""
    found, file = accepted(data, profile, cert)
    return f"accepted root {spelled(file.root)} nodes {len(found.ids)} links {len(found.links)}"


def upgrade(data, profile, cert):
    """The bytes of an accepted certificate in version 2; another one is refused."""
    return certificate.spelling(accepted(data, profile, cert)[1]._replace(version=2))


def lfa(data, router):
    """The text on the loop-free alternates of a router."""
    area = area_of(data)
    database.check_size(area)
    return "\n".join(alternates.text(area, router))


def order(data, profile, router):
    """The text on the repairs by order of a router."""
    return "\n".join(by_order.text(island_of(data, profile, router), router))


def proxy(data, profile, words):
    """The text on a prefix that two routers of a router's island reach."""
    router, first, second = words
    found = island_of(data, profile, router)
    return "\n".join(proxied.text(found, lowpoint.compute(found), first, second))


def table(data, profile, router):
    """The table of a router."""
    area, found = parts_of(data, profile, router)
    return "\n".join(tables.text(area, found, lowpoint.compute(found), router))


def fabric_parts(data, profile, router):
    """What the steps of packets read, for the island of a router."""
    area, found = parts_of(data, profile, router)
    return fabrics.Parts(area, found, lowpoint.compute(found))


def trace(data, profile, words):
    """The bytes of a packet's trace, which words ask for."""
    router, to, entry, failed = fabrics.read_trace(words)
    return fabrics.trace_text(fabric_parts(data, profile, router), router, to, entry, failed).encode()


def fabric(data, profile, script):
    """The bytes of the answers to a script. A fault of the database or of the profile comes first, then one of the script."""
    area_of(data)
    islands.read_profile(profile)
    (router, room), events = fabrics.read_script(script)
    return fabrics.script_text(fabric_parts(data, profile, router), room, events).encode()


def flood(updates, profile, script):
    """The bytes of the answers to a script of deliveries. A fault of the packets or of the profile comes first, then one of the script."""
    packets, read_profile = flooding.read_updates(updates), islands.read_profile(profile)
    routers, lines = flooding.read_script(script)
    return flooding.text(packets, read_profile, routers, lines).encode()


def rows(data, profile, router):
    """The rows of a router and the order of the GADAG, as lines."""
    found = island_of(data, profile, router)
    cert, source = lowpoint.compute(found), found.ids.index(Id(router, database.ROUTER))
    lines = [tables.head(found, source)]
    for node, row in zip(found.ids, cert.rows[source]):
        if row:
            lines.append(f"{text_of(node)} {tables.TAGS[row.tag]} blue {tables.hop_over_link(found, source, row.blue)} "
                         f"red {tables.hop_over_link(found, source, row.red)}")
    order = sorted(range(len(found.ids)), key=lambda node: cert.order[node])
    return lines + ["order " + " ".join(text_of(found.ids[node]) for node in order)]


def run(command, words):
    if command == "certify":
        bytes_of = certify(*read_parts(*words[:2]), address(words[2]))
        with open(words[3], "wb") as file:
            file.write(bytes_of)
    elif command == "check":
        print(check(*read_parts(*words[:2]), read(words[2], "certificate-file")))
    elif command == "table":
        print(table(*read_parts(*words[:2]), address(words[2])))
    elif command == "trace":
        sys.stdout.buffer.write(trace(*read_parts(*words[:2]), [os.fsencode(word) for word in words[2:]]))
    elif command == "upgrade":
        bytes_of = upgrade(*read_parts(*words[:2]), read(words[2], "certificate-file"))
        with open(words[3], "wb") as file:
            file.write(bytes_of)
    elif command == "order":
        print(order(*read_parts(*words[:2]), address(words[2])))
    elif command == "proxy":
        print(proxy(*read_parts(*words[:2]), [address(word) for word in words[2:]]))
    elif command == "lfa":
        print(lfa(read(words[0], "database-file"), address(words[1])))
    elif command == "fabric":
        sys.stdout.buffer.write(fabric(*read_parts(*words[:2]), read(words[2], "script-file")))
    elif command == "flood":
        sys.stdout.buffer.write(flood(*read_parts(*words[:2], "updates-file"), read(words[2], "script-file")))
    else:
        print("\n".join(rows(*read_parts(*words[:2]), address(words[2]))))


def main():
    counts = {"certify": [4], "check": [3], "table": [3], "trace": [5, 6], "fabric": [3], "rows": [3], "upgrade": [4], "lfa": [2], "order": [3],
              "proxy": [5], "flood": [3]}
    if len(sys.argv) < 2 or len(sys.argv) - 2 not in counts.get(sys.argv[1], []):
        sys.exit(__doc__)
    try:
        run(sys.argv[1], sys.argv[2:])
    except Refused as refused:
        print(f"mrt: {refused.line}", file=sys.stderr)
        sys.exit(refused.status)


if __name__ == "__main__":
    main()

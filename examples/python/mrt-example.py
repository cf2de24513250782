#!/usr/bin/python3
"""A table of a router, or a check of a certificate; its output is that of the program:

    mrt-example.py table DB PROFILE ROUTER
    mrt-example.py check DB PROFILE CERT

PROFILE is - for none.
"""
from __future__ import annotations

import sys

import mrt


def contents(name: str) -> bytes:
    if name == "-":
        return b""
    with open(name, "rb") as file:
        return file.read()


def table(lib: mrt.Library, area: mrt.Area, router: str) -> None:
    island = lib.shape(area, mrt.number(router))
    print(f"router {router} root {mrt.address(island.root)} nodes {island.nodes} links {island.links}")
    for row in lib.table(area, mrt.number(router)):
        print(row)


def check(lib: mrt.Library, area: mrt.Area, name: str) -> None:
    verdict = lib.check(area, contents(name))
    print(f"accepted root {mrt.address(verdict.root)} nodes {verdict.nodes} links {verdict.links}")


def main(words: list[str]) -> int:
    forms = {"table": table, "check": check}
    if len(words) != 4 or words[0] not in forms:
        print("usage: mrt-example.py table DB PROFILE ROUTER, check DB PROFILE CERT", file=sys.stderr)
        return mrt.Status.USAGE
    try:
        forms[words[0]](mrt.Library(), mrt.Area(contents(words[1]), contents(words[2])), words[3])
    except mrt.Refused as refused:
        print(refused, file=sys.stderr)
        return refused.status
    return 0


if __name__ == "__main__":
    sys.exit(main(sys.argv[1:]))
